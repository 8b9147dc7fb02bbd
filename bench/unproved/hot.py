#!/usr/bin/env python3
"""Prints the machine instructions that run most, with how often each runs: those of OUT/reggio.symbols, which build.sh makes.

It runs the program under callgrind, which counts each instruction, and prints those that ran at least N times as objdump names
them, in the order of their addresses; `..` stands where others lie between. With --function only those of functions whose name
has that text are printed, else each is followed by its function's name. It needs valgrind and objdump.

    bench/unproved/hot.py --least 30000 --function leap /tmp/changed/reggio.symbols run loop.rg --every 0
"""
import argparse
import os
import re
import signal
import subprocess
import sys
import tempfile

COST = re.compile(r"(0x[0-9a-f]+) \d+ (\d+)$")
FUNCTION = re.compile(r"[0-9a-f]+ <(.*)>:$")
INSTRUCTION = re.compile(r"\s*([0-9a-f]+):\s+(.*)$")
LONGEST = 15 # the most bytes that an instruction has


def counts(program, words):
    """How often the instruction at each address ran."""
    with tempfile.NamedTemporaryFile("r") as file:
        options = ["--tool=callgrind", "--dump-instr=yes", "--compress-pos=no", f"--callgrind-out-file={file.name}"]
        subprocess.run(["valgrind", *options, program, *words], stdout=subprocess.DEVNULL, stderr=subprocess.DEVNULL)
        found, is_call = {}, False
        for line in file:
            cost = COST.match(line)
            # (the line behind a call has what the callee took)
            if cost and not is_call: found[int(cost[1], 16)] = found.get(int(cost[1], 16), 0) + int(cost[2])
            is_call = line.startswith("calls=")
        return found


def instructions(program):
    """Each instruction of a program: its address, its function and its text."""
    words = ["objdump", "-d", "--no-show-raw-insn", program]
    function = None
    for line in subprocess.run(words, capture_output=True, text=True, check=True).stdout.splitlines():
        head, instruction = FUNCTION.match(line), INSTRUCTION.match(line)
        if head: function = head[1]
        if instruction: yield int(instruction[1], 16), function, instruction[2]


def main():
    signal.signal(signal.SIGPIPE, signal.SIG_DFL) # (a reader may go)
    parser = argparse.ArgumentParser(description=__doc__, formatter_class=argparse.RawDescriptionHelpFormatter)
    parser.add_argument("--least", metavar="N", type=int, default=1)
    parser.add_argument("--function", metavar="TEXT", default="")
    parser.add_argument("program", metavar="PROGRAM")
    parser.add_argument("words", metavar="WORD", nargs=argparse.REMAINDER, help="what the program is called with")
    told = parser.parse_args()
    if not os.path.isfile(told.program): sys.exit(f"hot.py: {told.program}: No such file")
    try:
        found = counts(told.program, told.words)
        listing = list(instructions(told.program))
    except (OSError, subprocess.CalledProcessError) as error:
        sys.exit(f"hot.py: {error}")
    last = None
    for address, function, text in listing:
        if found.get(address, 0) < told.least or told.function not in function: continue
        if last is not None and address > last + LONGEST: print("   ..")
        print(f"{found[address]:>9} {address:x} {text}{'' if told.function else f'   <{function}>'}")
        last = address


main()
