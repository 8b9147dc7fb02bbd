#!/usr/bin/env bash
# How many times as long a program takes before ./build: that of tools/unproved (bin/unproved, which tests at run time what isn't proved)
# beside the proved one. Each figure is the processor time of a larger size less that of a smaller one, of the least of so many calls.
# It prints a row for each kind of program: what it does, the nanoseconds of a step in either, and the ratio.
# Not a part of the gate. Usage: bench/unproved/slower.sh [TURNS [PROGRAM]]
set -eu
. "$(dirname "$0")/../common.sh"
turns=${1:-3}
"$here/tools/unproved" run "$here/examples/seven.rg" >/dev/null
python3 - "$work" "$program" "$here/bin/unproved" "$turns" <<'PY'
import os, subprocess, sys
work, proved, unproved, turns = sys.argv[1], sys.argv[2], sys.argv[3], int(sys.argv[4])
LOOP = "main arena {\n  let k: int = 0;\n  while k < SIZE { k = k + 1; }\n  print k;\n}\n"
LIST = """class Node { value: int; next: mut Node; }
main trace {
  let first: mut Node = nil;
  let k: int = 0;
  while k < SIZE { let n: mut Node = new Node; n.value = k; n.next = first; first = n; k = k + 1; }
  print first.value;
}
"""
CALLS = """class C { def paused down(k: int): int {
  let below: int = 0;
  if k > 0 { below = call self.down(k - 1); }
  return below + 1;
} }
main arena {
  let c: mut C = new C;
  let k: int = 0;
  while k < SIZE { let depth: int = call c.down(9); k = k + 1; }
}
"""
KINDS = ("a loop", LOOP, 400), ("a list", LIST, 200), ("calls", CALLS, 20)


def ran(words):
    """The seconds of the processor that a call takes, and the steps that it makes."""
    child = subprocess.Popen(words, stdout=subprocess.DEVNULL, stderr=subprocess.PIPE)
    notes = child.stderr.read()
    _, status, usage = os.wait4(child.pid, 0)
    if status != 0: sys.exit(f"{words}: {notes[-300:]}")
    return usage.ru_utime + usage.ru_stime, int(notes.split(b"end steps ")[1].split()[0])


def a_step(program, kind, text, size):
    """The nanoseconds of a step."""
    found = []
    for many in (size, 4 * size):
        path = f"{work}/a.rg"
        with open(path, "w") as file: file.write(text.replace("SIZE", str(many)))
        tries = [ran([program, "run", path, "--report", "--every", "0", "--steps", "1000000000"]) for _ in range(turns)]
        found.append((min(it[0] for it in tries), tries[0][1]))
    (few, fewer), (much, more) = found
    return (much - few) * 1e9 / (more - fewer)


print(f"{'program':<8} {'proved, ns':>10} {'unproved, ns':>12} {'times':>6}")
for kind, text, size in KINDS:
    fast, slow = a_step(proved, kind, text, 1000 * size), a_step(unproved, kind, text, size)
    print(f"{kind:<8} {fast:>10.1f} {slow:>12,.0f} {slow / fast:>6,.0f}", flush=True)
PY
