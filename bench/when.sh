#!/usr/bin/env bash
# How long an event of `reggio when` takes, by how many behaviours there are:
#   one after another   256, 1,024 or 4,096 behaviours, each on one of 256 cowns, a million events in all
#   in turns            the same; the first 256 that haven't ended get an event each, over and over
#   at random           the same; the events of each 256 in any order
#   waiting             all on one cown; a million events of those behind the first, which doesn't begin, so that nothing happens
#   moving              behaviours that do nothing, on a cown with a list of 100, 1,000 or 10,000 objects, which comes to each
#                       and goes back
# It prints the events, the seconds without those of an empty schedule (`moving`: without those in which the list is made), and
# the nanoseconds of an event, or of an object that is moved, and for each kind how far the slowest size is above the fastest:
# that should be within 1.3. Then the peak of memory behind 256 behaviours that each leave an array of 10,000 numbers to their
# cown, and behind 3,840 more that change an element each: it should be that of the arrays both times.
# Not a part of the gate. Usage: bench/when.sh [TURNS [PROGRAM]]
set -eu
. "$(dirname "$0")/common.sh"
turns=${1:-3}
PYTHONDONTWRITEBYTECODE=1 PYTHONPATH=$here/bench python3 - "$work" "$program" "$turns" <<'PY'
import random, subprocess, sys
from timed import peak, seconds, written
work, program, turns = sys.argv[1], sys.argv[2], int(sys.argv[3])

EVENTS, COWNS = 1_000_000, 256
COUNTING = """class Cell { value: int; }
class Work {
  cell: iso Cell;
  def mut add() {
    enter self.cell as cell {
      let k: int = 0;
      while k < TIMES { cell.value = cell.value + 1; k = k + 1; }
    }
    print true;
  }
}
main arena { }
"""
LISTS = """class Node { next: mut Node; value: int; }
class List { head: mut Node; }
class Work {
  list: iso List;
  def mut make() {
    enter self.list as list {
      let k: int = 1;
      while k < SIZE { let node: mut Node = new Node; node.next = list.head; list.head = node; k = k + 1; }
    }
  }
  def mut look() { }
}
main arena { }
"""
ARRAYS = """class Row [int];
class Room { row: mut Row; }
class Work {
  room: iso Room;
  def mut make() { enter self.room as room { room.row = new Row [SIZE]; } }
  def mut change() { enter self.room as room { room.row[0] = room.row[0] + 1; } }
}
main arena { }
"""
BEGIN_AND_END = 8   # events of `add` beside its turns, of four each: it begins, enter, let, the last test, leave, print, back, end

def plan_of(kind, cowns, behaviours):
    """A plan of so many cowns of a class and of behaviours, each a method and a cown."""
    return written(f"{work}/a.plan", f"cown {kind} arena\n" * cowns + "".join(f"when Work.{method} {number}\n" for method, number in behaviours))

def text(source, schedule):
    given = written(f"{work}/a.in", " ".join(map(str, schedule)))
    with open(given) as file:
        ran = subprocess.run([program, "when", source, f"{work}/a.plan"], stdin=file, capture_output=True, text=True)
    if ran.returncode: sys.exit(f"status {ran.returncode}: {ran.stderr.strip()}")
    return ran.stdout, given

def phases(text):
    return [line.split()[-1] for line in text.splitlines() if line.startswith("behaviour ")]

def one_by_one(count, each): return [i for i in range(count) for _ in range(each)]
def in_turns(count, each): return [i for first in range(0, count, COWNS) for _ in range(each) for i in range(first, first + COWNS)]
def waiting(count, each): return [i for _ in range(each) for i in range(1, count)]

def at_random(count, each):
    """Of each 256 that may run together the events in any order, those of the next 256 behind them."""
    chance, schedule = random.Random(1), []
    for first in range(0, count, COWNS):
        part = [i for i in range(first, first + COWNS) for _ in range(each)]
        chance.shuffle(part)
        schedule += part
    return schedule

def row(kind, size, events, took, unit):
    rate = max(took, 1e-6) * 1e9 / events
    print(f"{kind:<18} {size:>9,} {events:>10,} {took:>9.4f} {rate:>10.1f}  {unit}", flush=True)
    return rate

def spread(kind, rates):
    print(f"{kind:<18} the slowest is {max(rates) / min(rates):.2f} times the fastest", flush=True)

print(f"{'kind':<18} {'size':>9} {'events':>10} {'seconds':>9} {'ns':>10}")
for kind, way, cowns, end in (("one after another", one_by_one, COWNS, "done"), ("in turns", in_turns, COWNS, "done"),
                              ("at random", at_random, COWNS, "done"), ("waiting", waiting, 1, "waiting")):
    rates = []
    for count in (256, 1024, 4096):
        each = EVENTS // count
        source = written(f"{work}/a.rg", COUNTING.replace("TIMES", str((each - BEGIN_AND_END) // 4)))
        plan = plan_of("Cell", COWNS, [("add", i % cowns) for i in range(count)])
        schedule = way(count, each)
        wrote, given = text(source, schedule)
        if phases(wrote) != [end] * count: sys.exit(f"{kind}, {count} behaviours: {set(phases(wrote))}")
        words = [program, "when", source, plan]
        took = seconds(words, turns, given) - seconds(words, turns)
        rates.append(row(kind, count, len(schedule), took, "an event"))
    spread(kind, rates)

rates = []
for size, count in ((100, 4000), (1000, 400), (10_000, 40)):
    source = written(f"{work}/a.rg", LISTS.replace("SIZE", str(size)))
    plan = plan_of("List", 1, [("make", 0)] + [("look", 0)] * count)
    made = [0] * (6 * size + 10)
    wrote, given = text(source, made + [i for i in range(1, count + 1) for _ in range(3)])
    if set(phases(wrote)) != {"done"}: sys.exit(f"moving, {size} objects: {set(phases(wrote))}")
    words = [program, "when", source, plan]
    took = seconds(words, turns, given)
    took -= seconds(words, turns, written(f"{work}/b.in", " ".join(map(str, made))))
    rates.append(row("moving", size, 2 * size * count, took, "an object, there or back"))
spread("moving", rates)

size = 10_000
source = written(f"{work}/a.rg", ARRAYS.replace("SIZE", str(size)))
peaks = []
for more in (0, 15):
    plan = plan_of("Room", COWNS, [("make", i) for i in range(COWNS)] + [("change", i) for i in range(COWNS)] * more)
    wrote, given = text(source, one_by_one(COWNS * (1 + more), 7))
    if set(phases(wrote)) != {"done"}: sys.exit(f"arrays: {set(phases(wrote))}")
    words = [program, "when", source, plan]
    peaks.append((COWNS * (1 + more), peak(words, given), peak(words)))
for count, whole, empty in peaks:
    print(f"{count:,} behaviours on 256 arrays of {size:,} numbers: {(whole - empty) / 2**20:.1f} MiB at the peak beside {empty / 2**20:.1f} MiB of an "
          f"empty schedule, {(whole - empty) / (COWNS * size):.1f} bytes a number")
PY
