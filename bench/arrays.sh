#!/usr/bin/env bash
# How fast programs are whose work is on arrays (bench/arrays), beside the same programs in Lua 5.4 and in LuaJIT's interpreter, where
# these are installed; they take turns, the least processor time of so many counts, and the outputs must be the same.
#   sieve    the primes below 65,535        matrix   the product of two matrices of 100 rows
#   bubble   1,500 numbers, sorted          table    a hash table with chains, 50,000 numbers counted
#   heap     a binary heap of 50,000 numbers
# It prints the steps, the seconds without those of an empty program, the nanoseconds of a step, and the seconds of the twins. Then
# it prints what memory 64 arrays of 65,535 numbers take beside none, in bytes for each number.
# Pacers are tuned to never (--every 0), so that a step's own time is measured. Not a part of the gate.
# Usage: bench/arrays.sh [TURNS [PROGRAM]]
set -eu
. "$(dirname "$0")/common.sh"
turns=${1:-5}
PYTHONDONTWRITEBYTECODE=1 PYTHONPATH=$here/bench python3 - "$work" "$program" "$turns" "$here/bench/arrays" <<'PY'
import os, subprocess, sys
from pathlib import Path
from timed import load, luas, turns_of, twin, written
work, program, turns, sources = sys.argv[1], sys.argv[2], int(sys.argv[3]), Path(sys.argv[4])
MOST = 1_000_000_000
# a kind's size, and how many times over
KINDS = {"sieve": (65_535, 40), "matrix": (100, 8), "bubble": (1500, 4), "table": (50_000, 20), "heap": (50_000, 8)}
# what the sieve prints: how many primes are below 65,535
PRIMES = b"6542\n"
HELD = """class Row [int];
class Rows [mut Row];
main arena {
  let rows: mut Rows = new Rows [64];
  let k: int = 0;
  while k < 64 { rows[k] = new Row [SIZE]; k = k + 1; }
  print size rows;
}
"""

def output(words):
    return subprocess.run(words, stdout=subprocess.PIPE, check=True).stdout

def steps_of(path):
    """The steps of a run, from its end line."""
    notes = subprocess.run([program, "run", path, "--every", "0", "--report", "--steps", str(MOST)], stdout=subprocess.DEVNULL, stderr=subprocess.PIPE, check=True).stderr
    return int(notes.split(b"end steps ")[1].split()[0])

def resident(words):
    """The most memory that a call held, in bytes."""
    child = subprocess.Popen(words, stdout=subprocess.DEVNULL)
    _, status, usage = os.wait4(child.pid, 0)
    if status != 0: sys.exit(f"{' '.join(words)}: status {status}")
    return usage.ru_maxrss * 1024

lua = luas()
empty = written(f"{work}/empty.rg", "main arena { }\n")
start = turns_of({"reggio": [program, "run", empty], **{name: [*words, "-e", ""] for name, words in lua.items()}}, 10 * turns)
print(f"{'kind':<8} {'size':>7} {'times':>6} {'steps':>11} {'seconds':>8} {'ns/step':>8}" + "".join(f" {name:>9} {'ratio':>6}" for name in lua))
for kind, (size, times) in KINDS.items():
    text = (sources / f"{kind}.rg").read_text().replace("SIZE", str(size)).replace("TIMES", str(times))
    path = written(f"{work}/{kind}.rg", text)
    calls = {"reggio": [program, "run", path, "--every", "0", "--steps", str(MOST)]}
    calls |= {name: [*words, twin(sources / f"{kind}.lua", work, name), str(size), str(times)] for name, words in lua.items()}
    wanted = output(calls["reggio"])
    if kind == "sieve" and wanted != PRIMES: sys.exit(f"sieve: {wanted!r}")
    for name, words in calls.items():
        if output(words) != wanted: sys.exit(f"{kind}: the output of {name} differs")
    least = turns_of(calls, turns)
    took = least["reggio"] - start["reggio"]
    steps = steps_of(path)
    beside = "".join(f" {least[name] - start[name]:>9.3f} {took / (least[name] - start[name]):>6.2f}" for name in lua)
    print(f"{kind:<8} {size:>7} {times:>6} {steps:>11} {took:>8.3f} {took * 1e9 / steps:>8.1f}{beside}", flush=True)

few, many = (resident([program, "run", written(f"{work}/held{size}.rg", HELD.replace("SIZE", str(size)))]) for size in (0, 65_535))
print(f"an array of 65,535 numbers takes {(many - few) / 64 / 65_535:.2f} bytes a number")
print(load())
PY
