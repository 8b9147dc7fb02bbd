#!/usr/bin/env bash
# What objects cost, by how many there are, 1,000 to 1,000,000:
#   make      objects of two fields, each in the list of those before it, in a region that is released then
#   write     a field of each object of such a list is written
#   freeze    the region of such a list is frozen and kept, in place of released
#   merge     it is merged into main's region, which has the same manager
# in nanoseconds an object, 1,000,000 objects in all, as a program that does it takes more than the same one that doesn't;
# the slowest size should be within 1.3 of the fastest. Beside what is made and released stand tables of two fields in Lua 5.4
# and in LuaJIT's interpreter, where these are installed; all take turns. Then the peak of memory for a live object of two
# fields, beside their tables; and a run that makes 10,000,000 objects as a window's temporaries, one at a time, whose peak
# should be that of one of 10,000.
# Not a part of the gate. Usage: bench/heap.sh [TURNS [PROGRAM]]
set -eu
. "$(dirname "$0")/common.sh"
turns=${1:-3}
PYTHONDONTWRITEBYTECODE=1 PYTHONPATH=$here/bench python3 - "$work" "$program" "$turns" <<'PY'
import sys
from timed import luas, peak, turns_of, written
work, program, turns = sys.argv[1], sys.argv[2], int(sys.argv[3])

NODE = "class Node { left: mut Node; value: int; }\nclass Room { first: mut Node; }\ntmp class Point { x: int; y: int; }\n"
TURN = """  let t: int = 0;
  while t < TIMES {
    let box: iso Room = new iso Room in MANAGER;
    enter box as room {
      let a: mut Node = nil;
      let i: int = 0;
      while i < SIZE { LINK a = n; i = i + 1; }
      room.first = a;
WALK    }
LAST    t = t + 1;
  }
"""
MADE = "let n: mut Node = new Node; n.left = a;"
NOT_MADE = "let n: mut Node = nil; n = a;"
FROZEN = "    let frozen: imm Room = freeze box;\n"
MERGED = "    let merged: mut Room = merge box;\n"
WALKED = "      let p: mut Node = a;\n      while not p is nil { STORE p = p.left; }\n"

def turn(link, store="", last=""):
    walk = WALKED.replace("STORE", store) if store else ""
    return TURN.replace("LINK", link).replace("WALK", walk).replace("LAST", last)

def main(body, manager, size):
    text = body.replace("MANAGER", manager).replace("SIZE", str(size)).replace("TIMES", times(size))
    return NODE + f"main {manager} {{\n" + text + "}\n"

LUA = """local t = 0
while t < TIMES do
  local a, i = false, 0
  while i < SIZE do LINK i = i + 1 end
  t = t + 1
end
"""
LUA_MADE = "local n = { left = a, value = 0 } a = n"
LUA_NOT_MADE = "local n = false a = n"

KINDS = {
    "make": (turn(MADE), turn(NOT_MADE)),
    "write": (turn(MADE, "p.value = 7;"), turn(MADE, "let v: int = 7;")),
    "freeze": (turn(MADE, last=FROZEN), turn(NOT_MADE, last=FROZEN)),
    "merge": (turn(MADE, last=MERGED), turn(NOT_MADE, last=MERGED)),
}

def run(path): return [program, "run", path, "--every", "0", "--steps", "1000000000"]

def times(size): return str(max(1, 1_000_000 // size))

lua = luas()

def calls(kind, manager, size):
    """A program that does it and one that doesn't, by their names."""
    with_it, without = KINDS[kind]
    both = {"reggio": run(written(f"{work}/a.rg", main(with_it, manager, size))), "reggio less": run(written(f"{work}/b.rg", main(without, manager, size)))}
    if (kind, manager) != ("make", "arena"): return both
    text = LUA.replace("SIZE", str(size)).replace("TIMES", times(size))
    made, not_made = (written(f"{work}/{name}.lua", text.replace("LINK", link)) for name, link in (("a", LUA_MADE), ("b", LUA_NOT_MADE)))
    for name, words in lua.items(): both |= {name: [*words, made], f"{name} less": [*words, not_made]}
    return both

print(f"{'kind':<8} {'manager':<8} {'objects':>9} {'ns/object':>10}" + "".join(f" {name:>9} {'ratio':>6}" for name in lua))
for manager in ["arena", "count", "trace"]:
    for kind in KINDS:
        rates = []
        for size in [1000, 10_000, 100_000, 1_000_000]:
            least = turns_of(calls(kind, manager, size), turns)
            took = {name: max(least[name] - least[f"{name} less"], 1e-9) * 1e3 for name in ["reggio", *lua] if name in least}
            rates.append(took["reggio"])
            beside = "".join(f" {took[name]:>9.1f} {rates[-1] / took[name]:>6.2f}" for name in lua if name in took)
            print(f"{kind:<8} {manager:<8} {size:>9} {rates[-1]:>10.1f}{beside}", flush=True)
        print(f"{kind:<8} {manager:<8} slowest {max(rates) / min(rates):.2f} times the fastest", flush=True)

size = 1_000_000
live = peak(run(written(f"{work}/a.rg", main(turn(MADE), "arena", size)))) - peak(run(written(f"{work}/b.rg", main(turn(NOT_MADE), "arena", size))))
print(f"a live object of two fields takes {live / size:.0f} bytes at the peak")
text = written(f"{work}/a.lua", "local a = nil for i = 1, SIZE do a = { left = a, value = 0 } end\n".replace("SIZE", str(size)))
for name, words in lua.items():
    live = peak([*words, text]) - peak([*words, written(f"{work}/b.lua", "")])
    print(f"a table of two fields in {name} takes {live / size:.0f} bytes at the peak")

TEMPS = """class Maker {
  def mut one(): int { let y: iso Room = new iso Room in arena; let v: int = 0; enter y as z { let t: tmp Point = new tmp Point; t.x = 7; v = t.x; } return v; }
}
"""
def temporaries(size):
    return NODE + TEMPS + "main arena {\n  let m: mut Maker = new Maker;\n  let i: int = 0;\n  let s: int = 0;\n" \
        f"  while i < {size} {{ let v: int = call m.one(); s = s + v; i = i + 1; }}\n  print s;\n}}\n"
few = peak(run(written(f"{work}/a.rg", temporaries(10_000))))
many = peak(run(written(f"{work}/b.rg", temporaries(10_000_000))))
print(f"10,000 regions and temporaries, one at a time: {few / 2**20:.1f} MiB at the peak; 10,000,000: {many / 2**20:.1f} MiB")
PY
