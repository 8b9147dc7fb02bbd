#!/usr/bin/env bash
# How long a step of `reggio bulk N` takes, for N from 1,000 to 100,000, beside the same work in Lua 5.4 and in
# LuaJIT's interpreter (bench/lua/bulk.lua), where these are installed. It prints the steps, the seconds without those
# of `bulk 0`, the nanoseconds of a step, the peak of memory, and the same of Lua and LuaJIT; then how far the slowest
# size is above the fastest, which should be within 1.3.
# The programs take turns in one run, and the least processor time of each counts. The three sums of each are compared, and the
# steps with what is known of the program. Not a part of the gate. Usage: bench/bulk.sh [TURNS [PROGRAM]]
set -eu
. "$(dirname "$0")/common.sh"
turns=${1:-5}
PYTHONDONTWRITEBYTECODE=1 PYTHONPATH=$here/bench python3 - "$work" "$program" "$turns" "$here/bench/lua/bulk.lua" <<'PY'
import subprocess, sys
from timed import load, luas, peak, turns_of, twin
work, program, turns, source = sys.argv[1], sys.argv[2], int(sys.argv[3]), sys.argv[4]
SIZES = [1000, 3000, 10_000, 30_000, 100_000]

def output(words):
    return subprocess.run(words, stdout=subprocess.PIPE, check=True).stdout.decode()

lua = luas()

def calls(size):
    return {"reggio": [program, "bulk", str(size)], **{name: [*words, twin(source, work, name), str(size)] for name, words in lua.items()}}

start = turns_of(calls(0), 20 * turns)
print(f"{'size':>7} {'steps':>9} {'seconds':>9} {'ns/step':>8} {'KiB':>8}" + "".join(f" {name:>9} {'KiB':>8} {'ratio':>6}" for name in lua))
rates = []
for size in SIZES:
    all_words = calls(size)
    lines = output(all_words["reggio"]).splitlines()
    word, of, _, steps = lines[-1].split()[:4]
    steps = int(steps)
    if (word, of) != ("bulk", str(size)) or steps != 67 * size // 2 + 32: sys.exit(f"bulk {size}: {lines[-1]}")
    for name in lua:
        if output(all_words[name]).splitlines() != lines[:-1]: sys.exit(f"bulk {size}: other sums than in {name}")
    # small sizes more often, since they are about as short as a start
    least = turns_of(all_words, turns * min(20, max(1, 1_000_000 // steps)))
    took = {name: max(least[name] - start[name], 1e-6) for name in all_words}
    most = {name: peak(words) // 1024 for name, words in all_words.items()}
    rates.append(took["reggio"] / steps)
    row = f"{size:>7} {steps:>9} {took['reggio']:>9.4f} {1e9 * rates[-1]:>8.1f} {most['reggio']:>8}"
    print(row + "".join(f" {took[name]:>9.4f} {most[name]:>8} {took['reggio'] / took[name]:>6.2f}" for name in lua), flush=True)
print(f"slowest to fastest size: {max(rates) / min(rates):.2f}")
print(load())
PY
