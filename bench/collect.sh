#!/usr/bin/env bash
# What a collection of the active region costs, by the number of its cells, 1,000 to 1,000,000:
#   list      one list, of which all is kept
#   tree      one tree of two children a node, of which all is kept
#   half      one list, of which every second cell is kept
#   none      one list that nothing leads to any more, so nothing is kept
# under `trace`, under `count`, and under `trace` with the command `slide`, by which what is kept moves to the lowest
# cells; and `list` under `trace` once more beside 1,000 other regions of 1,000 cells each.
# A collection's time is the processor time of a program that collects, less that of the same one that doesn't, for each
# cell of the region; the slowest size should be within 1.3 of the fastest. Beside it stands a full collection of the
# same heap in Lua 5.4 and in LuaJIT's interpreter, where these are installed: that looks at the other regions too. All
# take turns, and the least counts.
# Not a part of the gate. Usage: bench/collect.sh [TURNS [PROGRAM]]
set -eu
. "$(dirname "$0")/common.sh"
turns=${1:-3}
PYTHONDONTWRITEBYTECODE=1 PYTHONPATH=$here/bench python3 - "$work" "$program" "$turns" <<'PY'
import sys
from timed import luas, turns_of, twin, written
work, program, turns = sys.argv[1], sys.argv[2], int(sys.argv[3])

NODE = "class Node { left: mut Node; right: mut Node; }\n"
MAKER = """class Maker {
  made: int;
  def mut tree(many: int): mut Node {
    let n: mut Node = nil;
    if many > 0 {
      n = new Node;
      let half: int = (many - 1) / 2;
      let l: mut Node = call self.tree(half);
      let r: mut Node = call self.tree(many - 1 - half);
      n.left = l;
      n.right = r;
    }
    return n;
  }
}
class Room { inner: iso Room; first: mut Node; }
"""
LIST = """  let a: mut Node = nil;
  let i: int = 0;
  while i < SIZE { let n: mut Node = new Node; n.left = a; a = n; i = i + 1; }
"""
TREE = """  let maker: mut Maker = new Maker;
  let a: mut Node = call maker.tree(SIZE);
"""
HALF = LIST + """  let p: mut Node = a;
  let go: bool = not p is nil;
  while go { if p.left is nil { go = false; } else { p.left = p.left.left; p = p.left; go = not p is nil; } }
"""
ROOMS = """  let rooms: iso Room = nil;
  let r: int = 0;
  while r < 1000 {
    let room: iso Room = new iso Room in trace;
    enter room as inside {
      swap rooms, inside.inner;
      let b: mut Node = nil;
      let j: int = 0;
      while j < 999 { let n: mut Node = new Node; n.left = b; b = n; j = j + 1; }
      inside.first = b;
    }
    rooms = room;
    r = r + 1;
  }
"""
LUA_LIST = "local a = nil for i = 1, SIZE do a = { left = a, right = false } end\n"
LUA_HALF = LUA_LIST + "local p = a while p and p.left do p.left = p.left.left p = p.left end\n"
LUA_TREE = """local function tree(size)
  if size == 0 then return false end
  local half = (size - 1) // 2
  return { left = tree(half), right = tree(size - 1 - half) }
end
local a = tree(SIZE)
"""
LUA_ROOMS = """local rooms = nil
for r = 1, 1000 do
  local b = false
  for j = 1, 999 do b = { left = b, right = false } end
  rooms = { inner = rooms, first = b }
end
"""

def source(kind, manager, size, collects):
    body = (ROOMS if kind == "rooms" else "") + {"tree": TREE, "half": HALF}.get(kind, LIST)
    if kind == "none":
        body += "  a = nil;\n"
    body += "  collect;\n" * collects
    return NODE + MAKER + f"main {manager} {{\n" + body.replace("SIZE", str(size)) + "}\n"

def lua_source(kind, size, collects):
    body = (LUA_ROOMS if kind == "rooms" else "") + {"tree": LUA_TREE, "half": LUA_HALF}.get(kind, LUA_LIST)
    if kind == "none":
        body += "a = nil\n"
    return 'collectgarbage("stop")\n' + body.replace("SIZE", str(size)) + 'collectgarbage("collect")\n' * collects

ROWS = [("run", "trace", kind) for kind in ("list", "tree", "half", "none", "rooms")]
ROWS += [("run", "count", kind) for kind in ("list", "tree", "half", "none")]
ROWS += [("slide", "trace", kind) for kind in ("list", "tree", "half", "none")]
lua = luas()
print(f"{'command':<8} {'manager':<8} {'kind':<6} {'cells':>9} {'ns/cell':>9}" + "".join(f" {name:>9}" for name in lua))
for command, manager, kind in ROWS:
    rates = []
    for size in [1000, 10_000, 100_000, 1_000_000]:
        collects = 1 if kind in ("half", "none") else max(1, min(200, 1_000_000 // size))
        often = turns * (1 if kind == "rooms" else min(20, max(1, 1_000_000 // size)))
        words_of = {"reggio": lambda n: [program, command, written(f"{work}/{n}.rg", source(kind, manager, size, n)),
                                         "--every", "0", "--steps", "1000000000"]}
        if (command, manager) == ("run", "trace"):
            for name, words in lua.items():
                words_of[name] = lambda n, name=name, words=words: [*words, twin(written(f"{work}/{n}.lua", lua_source(kind, size, n)), work, name)]
        took = turns_of({(name, n): words_of[name](n) for name in words_of for n in (0, collects)}, often)
        cost = {name: max(took[name, collects] - took[name, 0], 0) * 1e9 / (size * collects) for name in words_of}
        rates.append(cost.pop("reggio"))
        beside = "".join(f" {each:>9.1f}" for each in cost.values())
        print(f"{command:<8} {manager:<8} {kind:<6} {size:>9} {rates[-1]:>9.1f}{beside}", flush=True)
    print(f"{'':<17} {kind:<6} slowest {max(rates) / max(min(rates), 0.1):.2f} times the fastest", flush=True)
PY
