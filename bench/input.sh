#!/usr/bin/env bash
# How long `reggio run` takes to read a number, by how many it reads: 1,000 to 1,000,000 numbers of six digits, which a
# program adds up. For each size it prints processor nanoseconds for a turn of its loop, for the turn of a loop that takes its
# numbers from a variable, and how far the one is above the other. Beside them stands the same program in Lua 5.4 and in
# LuaJIT's interpreter (bench/lua), by `io.read("n")`, where these are installed: it should take at most 0.6 of their time.
# All take turns. The slowest size should be within 1.3 of the fastest.
# Then what is typed is answered: through a pipe that stays open comes a number with the end of its line, and the line
# that the program prints of it must come back before the next number is written. It prints how long that takes.
# Last, where standard input is closed before the start, the source must not be read as the input.
# Not a part of the gate. Usage: bench/input.sh [TURNS [PROGRAM]]
set -eu
. "$(dirname "$0")/common.sh"
turns=${1:-5}
PYTHONDONTWRITEBYTECODE=1 PYTHONPATH=$here/bench python3 - "$work" "$program" "$turns" "$here/bench/lua/input.lua" <<'PY'
import os, select, subprocess, sys, time
from timed import luas
work, program, turns, twin = sys.argv[1], sys.argv[2], int(sys.argv[3]), sys.argv[4]

READ = """main arena {
  let sum: int = 0;
  let go: bool = more;
  while go { let number: int = read; sum = sum + number; go = more; }
  print sum;
}
"""
BARE = """main arena {
  let sum: int = 0;
  let k: int = 0;
  while k < SIZE { let number: int = k; sum = sum + number; k = k + 1; }
  print sum;
}
"""
TYPED = """main arena {
  let go: bool = more;
  while go { let number: int = read; print number + number; go = more; }
}
"""

def written(name, text):
    path = f"{work}/{name}"
    with open(path, "w") as file: file.write(text)
    return path

def run(words, numbers):
    """The processor seconds of a call, and its output."""
    with open(numbers) as file:
        ran = subprocess.Popen(words, stdin=file, stdout=subprocess.PIPE)
        output = ran.stdout.read()
        status, used = os.wait4(ran.pid, 0)[1:]
        ran.returncode = status
        if status != 0: sys.exit(f"{words} ended with {status}")
        return used.ru_utime + used.ru_stime, output

def best(calls, turns):
    """The least processor seconds of each of some calls, words with the file of their input, by its name: they take turns."""
    taken = {name: [] for name in calls}
    for _ in range(turns):
        for name, (words, numbers) in calls.items(): taken[name].append(run(words, numbers)[0])
    return {name: min(each) for name, each in taken.items()}

def reggio(source):
    return [program, "run", source, "--steps", "1000000000"]

none = written("none", "")
lua = luas()
start = best({"reggio": (reggio(written("empty.rg", "main arena { }\n")), none), **{name: ([*words, "-e", ""], none) for name, words in lua.items()}}, 20 * turns)
read = written("read.rg", READ)
rates = []
print(f"{'numbers':>9} {'seconds':>9} {'ns/turn':>9} {'without':>9} {'times':>7}" + "".join(f" {name:>9} {'ratio':>6}" for name in lua))
for size in (1000, 10_000, 100_000, 1_000_000):
    values = [100_000 + k * 7919 % 900_000 for k in range(size)]
    numbers = written(f"numbers.{size}", "".join(f"{it}\n" for it in values))
    bare = written(f"bare.{size}.rg", BARE.replace("SIZE", str(size)))
    if run(reggio(read), numbers)[1] != b"%d\n" % sum(values): sys.exit(f"{size}: the sum is wrong")
    # short inputs more often, since they are about as short as a start
    often = turns * min(40, max(1, 200_000 // size))
    calls = {"reggio": (reggio(read), numbers), "without": (reggio(bare), none), **{name: ([*words, twin], numbers) for name, words in lua.items()}}
    for name in lua:
        if run(*calls[name])[1] != b"%d\n" % sum(values): sys.exit(f"{size}: the sum of {name} is wrong")
    took = {name: max(least - start.get(name, start["reggio"]), 1e-6) for name, least in best(calls, often).items()}
    rates.append(took["reggio"] * 1e9 / size)
    beside = "".join(f" {took[name]:>9.4f} {took['reggio'] / took[name]:>6.2f}" for name in lua)
    print(f"{size:>9} {took['reggio']:>9.4f} {rates[-1]:>9.1f} {took['without'] * 1e9 / size:>9.1f} {took['reggio'] / took['without']:>7.2f}{beside}", flush=True)
print(f"the slowest is {max(rates) / min(rates):.2f} times the fastest")

typed = subprocess.Popen([program, "run", written("typed.rg", TYPED)], stdin=subprocess.PIPE, stdout=subprocess.PIPE, bufsize=0)
waits = []
for number in range(1000):
    at = time.perf_counter()
    typed.stdin.write(b"%d\n" % number)
    if not select.select([typed.stdout], [], [], 10)[0]: sys.exit(f"{number} isn't answered while the pipe stays open")
    if typed.stdout.readline() != b"%d\n" % (2 * number): sys.exit(f"{number} is answered wrongly")
    waits.append(time.perf_counter() - at)
typed.stdin.close()
if typed.wait(10) != 0: sys.exit("the program didn't end with the input")
print(f"what is typed is answered: 1,000 numbers, each in {sorted(waits)[500] * 1e6:.0f} microseconds, {max(waits) * 1e6:.0f} at most")

closed = subprocess.run(["sh", "-c", 'exec "$0" run "$1" <&-', program, read], stdout=subprocess.PIPE, stderr=subprocess.PIPE)
if closed.returncode != 6 or closed.stdout != b"": sys.exit(f"with its input closed the program ends with {closed.returncode}")
print("with standard input closed it is an input fault")
PY
