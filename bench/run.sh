#!/usr/bin/env bash
# How long a step of `reggio run` takes, by the size of what the program works on:
#   list        a list of 1,000 to 100,000 nodes, filled, summed up, halved, and filled again
#   loop        a loop of 100,000 to 10,000,000 steps
#   recursion   calls to a depth of 16 to 4,096 frames, over and over, some 1,000,000 calls in all
#   regions     100 to 1,000 regions in one another, built, and walked over and over from the outermost
#   frozen      1,000 to 10,000 regions in one another, built, frozen once at the end, and walked
# It prints the steps, the seconds without those of an empty program, and the nanoseconds of a step, and for each
# kind how far the slowest size is above the fastest: that should be within 1.3. Beside it stand the seconds of the
# same program in Lua 5.4 and in LuaJIT's interpreter (bench/lua), where these are installed; all take turns, and the
# least processor time counts. The number of steps of each program is known, and is tried first: the program is done
# after so many, and is spent after one less.
# Pacers are tuned to never (--every 0), so that a step's own time is measured: bench/collect.sh has collections.
# Not a part of the gate. Usage: bench/run.sh [TURNS [PROGRAM]]
set -eu
. "$(dirname "$0")/common.sh"
turns=${1:-5}
PYTHONDONTWRITEBYTECODE=1 PYTHONPATH=$here/bench python3 - "$work" "$program" "$turns" "$here/bench/lua" <<'PY'
import subprocess, sys
from timed import load, luas, turns_of, twin, written
work, program, turns, twins = sys.argv[1], sys.argv[2], int(sys.argv[3]), sys.argv[4]

LIST = """class Node { value: int; next: mut Node; }
class List {
  head: mut Node;
  def mut push(v: int) {
    let n: mut Node = new Node; n.value = v; n.next = self.head; self.head = n;
  }
  def mut thin() {
    let p: mut Node = self.head;
    let go: bool = not p is nil;
    while go {
      if p.next is nil { go = false; } else {
        p.next = p.next.next; p = p.next; go = not p is nil;
      }
    }
  }
  def paused sum(): int {
    let s: int = 0;
    let p: paused Node = self.head;
    while not p is nil { s = s + p.value; p = p.next; }
    return s;
  }
}
main arena {
  let box: iso List = new iso List in trace;
  enter box as l {
    let i: int = 1;
    while i <= SIZE { call l.push((i * 1 + 0) % 1000); i = i + 1; }
    let a: int = call l.sum();
    print a;
    call l.thin();
    let b: int = call l.sum();
    print b;
    collect;
    i = 1;
    while i <= SIZE { call l.push((i * 1 + 0) % 1000); i = i + 1; }
    let c: int = call l.sum();
    print c;
  }
}
"""
LOOP = "main arena { let k: int = 0; while k < SIZE { k = k + 1; } print k; }\n"
RECURSION = """class R {
  def mut go(k: int): int { let r: int = k; if k > 0 { r = call self.go(k - 1); } return r; }
}
main arena {
  let a: mut R = new R;
  let r: int = 0;
  let i: int = 0;
  while i < TIMES { r = call a.go(SIZE); i = i + 1; }
  print r;
}
"""
BUILT = """class Room {
  number: int;
  inner: iso Room;
  def mut sum(): int {
    let sum: int = self.number;
    if not self.inner is nil {
      enter self.inner as room { let rest: int = call room.sum(); sum = sum + rest; }
    }
    return sum;
  }
}
main arena {
  let house: iso Room = nil;
  let k: int = 1;
  while k <= SIZE {
    let around: iso Room = new iso Room in trace;
    enter around as room { room.number = k; swap house, room.inner; }
    house = around;
    k = k + 1;
  }
  let sum: int = 0;
"""
WALKED = "  k = 0;\n  while k < TIMES { enter house as room { sum = call room.sum(); } k = k + 1; }\n  print sum;\n}\n"
FROZEN = """  let frozen: imm Room = freeze house;
  while not frozen is nil { sum = sum + frozen.number; frozen = frozen.inner; }
  print sum;
}
"""

# a kind's source, its sizes with how many times over, and the steps that it takes
KINDS = {
    "list": (LIST, [(1000, 1), (10_000, 1), (100_000, 1)], lambda n, times: 67 * n // 2 + 32),
    "loop": (LOOP, [(33_332, 1), (333_332, 1), (3_333_332, 1)], lambda n, times: 3 * n + 4),
    "recursion": (RECURSION, [(14, 66_667), (254, 3922), (4094, 244)], lambda n, times: times * (5 * n + 7) + 6),
    "regions": (BUILT + WALKED, [(100, 1200), (300, 400), (1000, 120)], lambda n, times: times * (8 * n + 1) + 9 * n + 8),
    "frozen": (BUILT + FROZEN, [(1000, 1), (3000, 1), (10_000, 1)], lambda n, times: 13 * n + 8),
}

def status(path, steps):
    return subprocess.run([program, "run", path, "--every", "0", "--steps", str(steps)], stdout=subprocess.DEVNULL, stderr=subprocess.DEVNULL).returncode

def output(words):
    return subprocess.run(words, stdout=subprocess.PIPE).stdout

lua = luas()
empty = written(f"{work}/empty.rg", "main arena { }\n")
start = turns_of({"reggio": [program, "run", empty], **{name: [*words, "-e", ""] for name, words in lua.items()}}, 20 * turns)
print(f"{'kind':<10} {'size':>9} {'times':>7} {'steps':>10} {'seconds':>9} {'ns/step':>9}" + "".join(f" {name:>9} {'ratio':>6}" for name in lua))
for kind, (text, sizes, steps_of) in KINDS.items():
    rates = []
    for size, times in sizes:
        path = written(f"{work}/{kind}.{size}.rg", text.replace("SIZE", str(size)).replace("TIMES", str(times)))
        steps = steps_of(size, times)
        if status(path, steps) != 0 or status(path, steps - 1) != 4:
            sys.exit(f"{kind} {size}: it doesn't take {steps} steps")
        # short programs more often, since they are about as short as a start
        often = turns * min(20, max(1, 1_000_000 // steps))
        calls = {"reggio": [program, "run", path, "--every", "0", "--steps", str(steps)]}
        calls |= {name: [*words, twin(f"{twins}/{kind}.lua", work, name), str(size), str(times)] for name, words in lua.items()}
        for name, words in calls.items():
            if output(words) != output(calls["reggio"]): sys.exit(f"{kind} {size}: the output of {name} differs")
        took = {name: max(least - start[name], 1e-6) for name, least in turns_of(calls, often).items()}
        rates.append(took["reggio"] * 1e9 / steps)
        beside = "".join(f" {took[name]:>9.4f} {took['reggio'] / took[name]:>6.2f}" for name in lua)
        print(f"{kind:<10} {size:>9} {times:>7} {steps:>10} {took['reggio']:>9.4f} {rates[-1]:>9.1f}{beside}", flush=True)
    print(f"{kind:<10} the slowest is {max(rates) / min(rates):.2f} times the fastest")
print(load())
PY
