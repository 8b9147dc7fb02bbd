#!/usr/bin/env bash
# Tries images: what `when --keep` writes, and what a line `load` of a plan takes.
#   kept     contents that behaviours of the programs below leave: a reader that shares nothing with the program (bench/images.py)
#            reads the bytes, and they load and are kept again as they are
#   damaged  of each length one of these images, cut at each byte, with a byte put in front of each, each byte changed, each count
#            turned into large ones, with bytes behind it; and by so many random changes of objects, fields, regions and managers. That reader says which ones the program may have: it loads these, keeps them as
#            they are, and a behaviour goes on with them to a content that is good again; each other one is `E95 image`
#   named    each rule on images broken alone, and files that aren't there, are too long, or stand behind a bad one
#   memory   an image of as many bytes as may be, and one byte more; counts that promise more than is there, where memory is short
#   cost     a content of 100,000 objects out and back; nanoseconds of each of 400,000 objects of two fields, by the processor's
#            time, to read its bytes, to load it beside that, to keep it, and to a behaviour and back; and the peaks of memory
# It prints a row for each kind; its status is 0 where nothing was wrong. One processor, some 8,000 runs.
# Not a part of the gate. Usage: bench/images.sh [CHANGES [PROGRAM]]
set -eu
. "$(dirname "$0")/common.sh"
PYTHONDONTWRITEBYTECODE=1 PYTHONPATH=$here/bench python3 - "$work" "$program" "${1:-1000}" <<'PY'
import os, random, resource, subprocess, sys
from images import At, Classes, NoImage, image, loaded
from timed import peak, written
work, program, changes = sys.argv[1], os.path.abspath(sys.argv[2]), int(sys.argv[3])
os.chdir(work)
MOST = 16_777_216
E95 = 1, b"", b"E95 image at line 1\n"

ADD = """class N { v: int; }
class A { n: iso N; def mut add() { enter self.n as z { z.v = z.v + 1; } } }
main arena { }
"""
RICH = """class Row [int];
class All [mut N];
class Rule { most: int; next: mut Rule; row: mut Row; down: iso Rule; }
class Rules [imm Rule];
tmp class Look { at: paused N; }
class N { v: int; good: bool; next: mut N; rule: imm Rule; rules: mut Rules; down: iso N; row: mut Row; all: mut All; }
class A {
  n: iso N;
  def mut grow() {
    if self.n is nil { let y: iso N = new iso N in count; swap y, self.n; }
    enter self.n as z {
      let first: iso Rule = new iso Rule in arena;
      enter first as r {
        r.most = 7; r.row = new Row [2]; r.next = new Rule; r.next.next = r;
        let under: iso Rule = new iso Rule in trace; swap under, r.down;
      }
      let rule: imm Rule = freeze first;
      let a: mut N = new N;
      let b: mut N = new N;
      a.next = b; b.next = a; a.rule = rule; b.rule = rule.next; b.good = true; b.v = 0 - 1; a.v = 9223372036854775807;
      a.row = new Row [3]; b.row = a.row; a.row[1] = 5;
      a.all = new All [4]; a.all[0] = a; a.all[2] = b; a.all[3] = z;
      a.rules = new Rules [2]; a.rules[0] = rule; a.rules[1] = rule;
      let y: iso N = new iso N in count;
      enter y as w {
        w.rule = rule; w.v = z.v; let x: iso N = new iso N in trace; swap x, w.down;
        if not z.next is nil { w.good = z.next.good; }
      }
      swap y, z.down;
      z.next = a; z.v = z.v / 2 + 1; z.rule = rule;
      collect;
    }
  }
  def mut look() {
    let sum: int = 0;
    enter self.n as z {
      let at: mut N = z; let k: int = 0;
      while k < 9 and not at is nil {
        if at.v < 1000 and at.v > 0 - 1000 { sum = sum + at.v; }
        if not at.rule is nil { if at.rule.most < 1000 and at.rule.most > 0 - 1000 { sum = sum + at.rule.most; } }
        if not at.row is nil { sum = sum + size at.row; }
        at.good = not at.good; at.v = k; k = k + 1; at = at.next;
      }
      collect;
    }
    print sum;
  }
}
main arena { }
"""
PROGRAMS = {"add": (ADD, "A.add"), "rich": (RICH, "A.grow")}
for name, (source, _) in PROGRAMS.items(): written(f"{name}.rg", source)

def when(name, plan, schedule="", keep="0", more=()):
    with open("plan", "wb") as file: file.write(plan if isinstance(plan, bytes) else plan.encode())
    words = [program, "when", f"{name}.rg", "plan", *(["--keep", keep] if keep is not None else []), *more]
    ran = subprocess.run(words, input=schedule.encode(), capture_output=True)
    return ran.returncode, ran.stdout, ran.stderr

wrong = 0
def check(what, got, want):
    global wrong
    if got != want:
        wrong += 1
        print(f"WRONG {what}: {got[0]} {got[1][:60]!r} {got[2][:60]!r}, and not {want[0]} {want[1][:60]!r} {want[2][:60]!r}", flush=True)

def put(data, name="i"):
    with open(name, "wb") as file: file.write(data)

# ---- Kept

kept = []
for name, (source, method) in PROGRAMS.items():
    classes = Classes(source)
    for manager in ("arena", "count", "trace"):
        for times in range(4 if name == "rich" else 3):
            plan = f"cown N {manager}\n" + f"when {method} 0\n" * times
            status, data, notes = when(name, plan, " ".join(str(i) for i in range(times) for _ in range(200)))
            if (status, notes) != (0, b""):
                check(f"keeping of {name}", (status, data, notes), (0, data, b""))
                continue
            try:
                content = loaded(data, classes, "N")
            except NoImage as why:
                check(f"what {name} keeps ({why})", (0, data, b""), (0, b"an image", b""))
                continue
            check(f"what {name} keeps, spelt", (0, data, b""), (0, image(content), b""))
            put(data)
            check(f"{name} loads what it kept", when(name, "load N i\n"), (0, data, b""))
            kept.append((name, classes, data))
print(f"kept: {len(kept)} contents of {min(len(it[2]) for it in kept)} to {max(len(it[2]) for it in kept)} bytes", flush=True)

# ---- Damaged

tried = good = 0
def try_image(what, name, classes, data, goes_on=False):
    """Gives some bytes to the program, which takes them as the reader does."""
    global tried, good
    tried += 1
    put(data)
    try:
        content = loaded(data, classes, "N")
        want = 0, data, b""
    except NoImage:
        content, want = None, E95
    check(what, when(name, "load N i\n"), want)
    if content is None: return
    good += 1
    if data != image(content): check(f"{what}: two spellings", (0, data, b""), (0, image(content), b""))
    if not goes_on: return
    method = PROGRAMS[name][1]
    schedule = "0 " * 200 + "1 " * 200
    status, after, notes = when(name, f"load N i\nwhen {method} 0\nwhen {'A.look' if name == 'rich' else method} 0\n", schedule)
    if status != 0 or notes: return check(f"{what}: goes on", (status, after, notes), (0, b"", b""))
    if after != b"RGI1\0":  # (a trap empties the cown)
        try:
            if image(loaded(after, classes, "N")) != after: check(f"{what}: what it leaves, spelt", (0, after, b""), (0, b"", b""))
        except NoImage as why:
            check(f"{what}: what it leaves ({why})", (0, after, b""), (0, b"an image", b""))

LARGE = [2**64 - 1, 2**63, 2**63 - 1, 2**32, 2**32 - 1, 2**31, 2**24, 65_536, 65_535, 256]
for name, classes, data in {len(it[2]): it for it in kept}.values():
    short = len(data) < 100
    for k in range(len(data)):
        try_image(f"cut at {k}", name, classes, data[:k])
        try_image(f"a byte in front of {k}", name, classes, data[:k] + b"\0" + data[k:])
        others = {*range(6), 255} if short else {(data[k] + 1) % 256, data[k] ^ 128}
        for other in others:
            if other != data[k]: try_image(f"byte {k} to {other}", name, classes, data[:k] + bytes([other]) + data[k + 1:])
        if k + 8 <= len(data) and data[k:k + 6] == bytes(6):
            for count in LARGE if short else LARGE[:1]: try_image(f"{count} at {k}", name, classes, data[:k] + count.to_bytes(8, "big") + data[k + 8:])
    for behind in (b"\0", b"\n", data[:5], data): try_image("bytes behind", name, classes, data + behind)
print(f"damaged: {tried:,} images, of which {good:,} are images of other contents", flush=True)

def numbered(managers, objects):
    """The same content with objects and regions in the order in which they are named; what isn't named is left out."""
    order, at, k = [0], {0: 0}, 0
    while k < len(order):
        for field in objects[order[k]][2]:
            if isinstance(field, At) and 0 <= field.object < len(objects) and field.object not in at:
                at[field.object] = len(order)
                order.append(field.object)
        k += 1
    regions = {}
    for k in order:
        if objects[k][1] is not None: regions.setdefault(objects[k][1], len(regions))
    named = [(c, None if r is None else regions[r], [At(at[f.object]) if isinstance(f, At) and f.object in at else f for f in fields])
             for c, r, fields in (objects[k] for k in order)]
    return [managers[r] if r < len(managers) else 0 for r in regions], named

def changed(content, chance):
    managers, objects = list(content[0]), [(c, r, list(fields)) for c, r, fields in content[1]]
    for _ in range(chance.choice((1, 1, 1, 2, 3))):
        k = chance.randrange(len(objects))
        c, r, fields = objects[k]
        match chance.randrange(11):
            case 0 | 1 | 2 if fields:
                j = chance.randrange(len(fields))
                fields[j] = chance.choice([None, 0, 1, -1, 2**63 - 1, -2**63, True, False] + [At(chance.randrange(len(objects)))] * 9)
            case 3 if fields:   # to one of the same class
                j = chance.randrange(len(fields))
                if isinstance(fields[j], At):
                    like = [n for n, it in enumerate(objects) if it[0] == objects[fields[j].object][0]]
                    fields[j] = At(chance.choice(like))
            case 4: objects[k] = c, chance.choice([None, *range(len(managers) + 1)]), fields
            case 5: objects[k] = chance.randrange(len(PROGRAMS["rich"][0].splitlines())), r, fields
            case 6:
                n = chance.randrange(len(objects))
                objects[k], objects[n] = objects[n], objects[k]
            case 7: objects.append((c, chance.choice([r, None, len(managers)]), list(fields)))
            case 8: managers[chance.randrange(len(managers))] = chance.randrange(3)
            case 9: (managers.append(chance.randrange(3)) if chance.random() < 0.5 or len(managers) == 1 else managers.pop())
            case 10: (fields.append(None) if chance.random() < 0.5 or not fields else fields.pop())
    made = managers, objects
    return numbered(*made) if chance.random() < 0.6 else made

tried = good = 0
chance = random.Random(1)
for number in range(changes):
    name, classes, data = chance.choice([it for it in kept if it[0] == "rich"])
    content = changed(loaded(data, classes, "N"), chance)
    try_image(f"change {number}", name, classes, image(content), goes_on=True)
print(f"changed: {tried:,} contents, of which {good:,} are images of other contents and go on", flush=True)

# ---- Named

classes = Classes(RICH)
N, RULE, ROW, ALL, RULES, LOOK, A = (classes.names.index(it) for it in ("N", "Rule", "Row", "All", "Rules", "Look", "A"))
def n(region, v=0, good=False, next=None, rule=None, rules=None, down=None, row=None, all=None):
    return N, region, [v, good, next, rule, rules, down, row, all]
def rule(region, most=0, next=None, row=None, down=None): return RULE, region, [most, next, row, down]
arena = [0]
NAMED = {   # what, its content, and whether it is one
    "one object": (arena, [n(0)], True),
    "a ring of one": (arena, [n(0, next=At(0))], True),
    "a ring of two": (arena, [n(0, next=At(1)), n(0, next=At(0))], True),
    "no object": (arena, [], False),
    "no region": ([], [n(0)], False),
    "a region too many": ([0, 1], [n(0)], False),
    "region 1 at the bridge": ([0, 1], [n(1)], False),
    "an object that nothing names": (arena, [n(0), n(0)], False),
    "objects in another order": (arena, [n(0, next=At(2), all=At(1)), (ALL, 0, []), n(0)], False),
    "the same in theirs": (arena, [n(0, next=At(1), all=At(2)), n(0), (ALL, 0, [])], True),
    "an object that isn't there": (arena, [n(0, next=At(1))], False),
    "a region beneath": ([0, 2], [n(0, down=At(1)), n(1)], True),
    "regions in another order": ([0, 1, 2], [n(0, next=At(1), down=At(2)), n(0, down=At(3)), n(2), n(1)], False),
    "a region with two owners": ([0, 1], [n(0, next=At(1), down=At(2)), n(0, down=At(2)), n(1)], False),
    "a region with none": ([0, 1], [n(0, rule=At(1)), rule(None, next=At(2)), rule(1)], False),
    "a region whose owner is frozen": ([0, 1], [n(0, rule=At(1)), rule(None, down=At(2)), rule(1)], False),
    "a region that owns itself": ([0, 1], [n(0), n(1, down=At(1))], False),
    "two regions that own one another": ([0, 1, 2], [n(0, all=At(1)), (ALL, 0, [None]), n(1, down=At(3)), n(2, down=At(2))], False),
    "an owner of region 0": ([0, 1], [n(0, down=At(1)), n(1, down=At(0))], False),
    "an iso field into its own region": (arena, [n(0, down=At(0))], False),
    "a mut field into another region": ([0, 1], [n(0, next=At(1)), n(1)], False),
    "an imm field to what isn't frozen": (arena, [n(0, rule=At(1)), rule(0)], False),
    "a mut field to what is frozen": (arena, [n(0, row=At(1)), (ROW, None, [])], False),
    "frozen ones in a ring": (arena, [n(0, rule=At(1)), rule(None, next=At(2)), rule(None, next=At(1))], True),
    "frozen ones by an iso field": (arena, [n(0, rule=At(1)), rule(None, down=At(2)), rule(None)], True),
    "a frozen one that leads to a region": (arena, [n(0, rule=At(1), row=At(2)), rule(None, row=At(2)), (ROW, 0, [])], False),
    "a frozen bridge": ([], [n(None)], False),
    "a frozen one in a region": ([0, 1], [n(0, rule=At(1)), rule(1)], False),
    "a number for a truth value": (arena, [(N, 0, [0, 0, *[None] * 6])], False),
    "a truth value for a number": (arena, [(N, 0, [False, False, *[None] * 6])], False),
    "nil for a number": (arena, [(N, 0, [None, False, *[None] * 6])], False),
    "an object for a number": (arena, [(N, 0, [At(0), False, *[None] * 6])], False),
    "a number for an object": (arena, [(N, 0, [0, False, 0, *[None] * 5])], False),
    "an object of another class": (arena, [n(0, next=At(1)), (ROW, 0, [])], False),
    "a field too few": (arena, [(N, 0, [0, False, *[None] * 5])], False),
    "a field too many": (arena, [(N, 0, [0, False, *[None] * 7])], False),
    "no field": (arena, [(N, 0, [])], False),
    "an array of none": (arena, [n(0, row=At(1)), (ROW, 0, [])], True),
    "an array of 65,535": (arena, [n(0, row=At(1)), (ROW, 0, [7] * 65_535)], True),
    "an array of 65,536": (arena, [n(0, row=At(1)), (ROW, 0, [7] * 65_536)], False),
    "an element of another type": (arena, [n(0, row=At(1)), (ROW, 0, [7, True])], False),
    "an element in another region": ([0, 1], [n(0, down=At(2), all=At(1)), (ALL, 0, [At(2)]), n(1)], False),
    "a tmp class": (arena, [n(0, next=At(1)), (LOOK, 0, [None])], False),
    "a class that isn't there": (arena, [n(0, next=At(1)), (len(classes.names), 0, [])], False),
    "the last class number": (arena, [n(0, next=At(1)), (2**32 - 1, 0, [])], False),
    "a bridge of another class": (arena, [rule(0)], False),
    "an array for a bridge": (arena, [(ROW, 0, [1])], False),
    "the least and the greatest number": (arena, [n(0, v=-2**63, next=At(1)), n(0, v=2**63 - 1)], True),
    "nothing": (None, None, False),
}
for what, (managers, objects, is_one) in NAMED.items():
    data = image(None if objects is None else (managers, objects))
    put(data)
    check(what, when("rich", "load N i\n"), (0, data, b"") if is_one else E95)
    try:
        loaded(data, classes, "N")
        found = True
    except NoImage: found = False
    if found != is_one: check(f"{what}, by the reader", (0, b"", b""), (1, b"", b""))

whole = image((arena, [n(0)]))
put(whole)
put(image((arena, [(ROW, 0, [1, 2])])), "row")
put(b"", "none")
put(b"RGI1\1\3", "bad")
put(whole, "name~with|odd-{bytes}!")
os.mkdir("folder")
def is_93(line): return 1, b"", f"E93 plan at line {line}\n".encode()
def is_95(line): return 1, b"", f"E95 image at line {line}\n".encode()
fault, too_long, usage = (5, b"", b"source fault\n"), (9, b"", b"source too long\n"), subprocess.run([program], capture_output=True).stderr
FILES = (
    ("an array class", "load Row row\n", "0", (0, image((arena, [(ROW, 0, [1, 2])])), b"")),
    ("an array's image for another class", "load N row\n", "0", is_95(1)),
    ("an empty file", "load N none\n", "0", is_95(1)),
    ("a file that isn't there", "load N missing\n", "0", fault),
    ("a folder", "load N folder\n", "0", fault),
    ("a name of odd bytes", "load N name~with|odd-{bytes}!\n", "0", (0, whole, b"")),
    ("one that is called from elsewhere", f"load N {os.path.abspath('i')}\n", "0", (0, whole, b"")),
    ("two of one file", "load N i\nload N i\n", "1", (0, whole, b"")),
    ("a bad one behind a good one", "load N i\nload N bad\n", "0", is_95(2)),
    ("a bad one behind a cown and a behaviour", "cown N arena\nwhen A.look 0\nload N bad\n", "0", is_95(3)),
    ("two bad ones", "load N bad\nload N none\n", "0", is_95(1)),
    ("a bad one, then one that isn't there", "load N bad\nload N missing\n", "0", is_95(1)),
    ("one that isn't there, then a bad one", "load N missing\nload N bad\n", "0", fault),
    ("a bad line behind a bad image", "load N bad\ncown N heap\n", "0", is_93(2)),
    ("a bad line, and no such cown", "cown N heap\n", "7", is_93(1)),
    ("no such cown, and a bad image", "load N bad\n", "1", is_93(0)),
    ("no such cown, and a missing image", "load N missing\n", "1", is_93(0)),
    ("no such cown, and no cowns", "", "0", is_93(0)),
    ("the last cown of 256", "cown N arena\n" * 256, "255", (0, whole, b"")),
    ("a cown past the last of 256", "cown N arena\n" * 256, "256", is_93(0)),
    ("four digits", "cown N arena\n", "0000", (0, whole, b"")),
    ("the greatest number", "cown N arena\n", "9999", is_93(0)),
    ("five digits", "cown N arena\n", "00000", (2, b"", usage)),
    ("no digits", "cown N arena\n", "x", (2, b"", usage)),
    ("a sign", "cown N arena\n", "+0", (2, b"", usage)),
    ("an empty word", "cown N arena\n", "", (2, b"", usage)),
    ("a tmp class", "load Look i\n", "0", is_93(1)),
    ("no class", "load M i\n", "0", is_93(1)),
    ("no name", "load N\n", "0", is_93(1)),
    ("an empty name", "load N \n", "0", is_93(1)),
    ("two names", "load N i i\n", "0", is_93(1)),
    ("a name with a byte 127", "load N i\x7f\n", "0", is_93(1)),
    ("a name with a byte over 127", b"load N i\xe9\n", "0", is_93(1)),
    ("a name with a byte 13", "load N i\r\n", "0", is_93(1)),
)
for what, plan, keep, want in FILES:
    put(whole)
    check(what, when("rich", plan, "", keep), want)
two = "cown N arena\nwhen A.look 0\nwhen A.look 0\n"
SCHEDULES = (
    ("a bad schedule, and a bad image", "load N bad\n", "x", is_95(1)),
    ("a bad schedule", two, "0 1 0 2", (1, b"", b"E94 schedule at line 4\n")),
    ("away", two, "0 1 0", (4, b"", b"spent at step 3\n")),
    ("away behind one number", two, "0", (4, b"", b"spent at step 1\n")),
    ("away behind a million", "cown N arena\ncown N arena\nwhen A.look 0\nwhen A.look 1\n", "1 " + "0 " * 999_999, (0, image((arena, [n(0, v=0, good=True)])), b"")),
    ("the other one of these", "cown N arena\ncown N arena\nwhen A.look 1\nwhen A.look 0\n", "1 " + "0 " * 999_999, (4, b"", b"spent at step 1000000\n")),
    ("a million and one", two, "0 " * 1_000_001, (4, b"", b"spent at step 1000000\n")),
)
for what, plan, schedule, want in SCHEDULES: check(what, when("rich", plan, schedule), want)
check("--keep twice", when("rich", two, more=("--keep", "0")), (2, b"", usage))
check("--keep alone", when("rich", two, keep=None, more=("--keep",)), (2, b"", usage))
print(f"named: {len(NAMED) + len(FILES) + len(SCHEDULES) + 2} rows", flush=True)

# ---- Memory

LONG = "class Gaps [mut List];\nclass List { gaps: mut Gaps; next: mut List; }\nclass A { list: iso List; def mut look() { } }\nmain arena { }\n"
written("long.rg", LONG)
GAPS, LIST = 0, 1
def long_image(most):
    """An image of so many bytes: lists with arrays of nil."""
    room, objects, k = most - 5 - 9 - 8, [], 0
    while room > 0:
        here = min(room, 39 + 21 + 65_535)
        if 0 < room - here < 39 + 21: here -= 39 + 21
        room -= here
        objects.append((LIST, 0, [At(k + 1), At(k + 2) if room else None]))
        objects.append((GAPS, 0, [None] * (here - 39 - 21 + (0 if room else 8))))
        k += 2
    return image((arena, objects))
at_most = long_image(MOST)
if len(at_most) != MOST: sys.exit(f"images.sh makes {len(at_most)} bytes")
put(at_most)
check("an image of as many bytes as may be", when("long", "load List i\n"), (0, at_most, b""))
put(long_image(MOST + 1))
check("one byte more", when("long", "load List i\n"), too_long)
put(bytes(MOST)); check("16 MiB of zeroes", when("long", "load List i\n"), E95)
put((b"RGI1\1" + (MOST - 21).to_bytes(8, "big")).ljust(MOST, b"\0")); check("16 MiB of managers", when("long", "load List i\n"), E95)
put((image((arena, [(LIST, 0, [])]))[:-8] + (MOST - 43).to_bytes(8, "big")).ljust(MOST, b"\0")); check("16 MiB of one object's fields", when("long", "load List i\n"), E95)
put(bytes(MOST + 1)); check("16 MiB and one byte of zeroes", when("long", "load List i\n"), too_long)
put(image((arena, [(LIST, 0, [None, None])])) + bytes(MOST - 61)); check("zeroes behind an image", when("long", "load List i\n"), E95)
small = image((arena, [(LIST, 0, [None, None])]))
def limited():
    """A process whose memory has no room for what large counts promise."""
    resource.setrlimit(resource.RLIMIT_AS, (64 << 20, 64 << 20))
for at in (None, 5, 14, 35):
    for count in LARGE if at else LARGE[:1]:
        put(small if at is None else small[:at] + count.to_bytes(8, "big") + small[at + 8:])
        written("plan", "load List i\n")
        ran = subprocess.run([program, "when", "long.rg", "plan", "--keep", "0"], stdin=subprocess.DEVNULL, capture_output=True, preexec_fn=limited)
        check(f"{count} at {at} in 64 MiB", (ran.returncode, ran.stdout, ran.stderr), (0, small, b"") if at is None else E95)
print("memory: images of 16 MiB, and counts that promise more, in 64 MiB", flush=True)

# ---- Cost

BIG = """class Node { next: mut Node; value: int; }
class Work {
  list: iso Node;
  def mut make() {
    enter self.list as list {
      let k: int = 1;
      while k < 100000 { let node: mut Node = new Node; node.next = list.next; list.next = node; k = k + 1; }
    }
  }
  def mut look() { }
}
main arena { }
"""
written("big.rg", BIG)
def words(plan, *more):
    written(f"{len(plan)}.plan", plan)
    return [program, "when", "big.rg", f"{len(plan)}.plan", *more]
def nodes(count): return image((arena, [(0, 0, [At(k + 1) if k + 1 < count else None, 7]) for k in range(count)]))
made = subprocess.run(words("cown Node arena\nwhen Work.make 0\n", "--keep", "0"), input=b"0 " * 900_000, capture_output=True)
check("100,000 objects out", (made.returncode, made.stdout, made.stderr), (0, nodes(100_000).replace(b"\1" + (7).to_bytes(8, "big"), b"\1" + bytes(8)), b""))
put(made.stdout)
back = subprocess.run(words("load Node i\n", "--keep", "0"), stdin=subprocess.DEVNULL, capture_output=True)
check("100,000 objects back", (back.returncode, back.stdout, back.stderr), (0, made.stdout, b""))

OBJECTS, LOADS, TURNS = 400_000, 10, 7
data = nodes(OBJECTS)
put(data, "big")
put(b"X" + data[1:], "other")
def taken(words, given=b""):
    """The processor's time of a call, the least of some."""
    least = None
    for _ in range(TURNS):
        before = resource.getrusage(resource.RUSAGE_CHILDREN)
        subprocess.run(words, input=given, stdout=subprocess.DEVNULL, stderr=subprocess.DEVNULL)
        after = resource.getrusage(resource.RUSAGE_CHILDREN)
        seconds = after.ru_utime + after.ru_stime - before.ru_utime - before.ru_stime
        least = seconds if least is None else min(least, seconds)
    return least
def most(words, given=os.devnull): return max(peak(words, given) for _ in range(3))
empty, refused = taken(words("")), taken(words("load Node other\n"))
one, all_of_them = taken(words("load Node big\n")), taken(words("load Node big\n" * LOADS))
kept = taken(words("load Node big\n", "--keep", "0"))
moved = taken(words("load Node big\nwhen Work.look 0\n"), b"0 0 0 0")
def each(seconds, objects=OBJECTS): return f"{seconds / objects * 1e9:.0f} ns"
print(f"cost of {OBJECTS:,} objects, {len(data):,} bytes, an object: {each(refused - empty)} to read the bytes of it, "
      f"{each((all_of_them - one) / (LOADS - 1) - (refused - empty))} to load it beside that, {each(kept - one)} to keep it, {each(moved - one)} to a behaviour and back")
bytes_peak, load_peak, keep_peak = (most(it) for it in (words("load Node other\n"), words("load Node big\n"), words("load Node big\n", "--keep", "0")))
print(f"peak: {bytes_peak / 1e6:.1f} MB where the bytes are read and refused, {load_peak / 1e6:.1f} where they are loaded, {keep_peak / 1e6:.1f} where they are kept, too")
print("nothing wrong" if not wrong else f"{wrong} WRONG")
sys.exit(wrong > 0)
PY
