#!/usr/bin/env bash
# Compares what `when` writes with what other parts of the program and a rule say that it has to write (bench/behaviours.py):
# of each plan of examples/, of the rows below, and of so many generated programs. Each plan is run under 100 random schedules,
# by numbers that are of any behaviour and by those of tools/schedule, and in plan order, last first and in turns; the text has
# to be the one that the behaviours give one after another, by `run`, as far as the rule on events lets each come. Those
# schedules behind which all have ended must give one text, which tools/schedule says too. The schedule in plan order, the one
# in turns and each tenth random one are cut at each number (in more than 120 numbers: at 120 of them), and each cut is tried.
# It prints a row for each plan; its status is 0 where no text differs. One processor, some 2,000 runs for a plan.
# Not a part of the gate. Usage: bench/schedules.sh [SCHEDULES [PROGRAM [GENERATED]]]
set -eu
. "$(dirname "$0")/common.sh"
PYTHONDONTWRITEBYTECODE=1 PYTHONPATH=$here/bench python3 - "$work" "$program" "${1:-100}" "$here" "${3:-20}" <<'PY'
import os, random, subprocess, sys
from pathlib import Path
from behaviours import Behaviours
from timed import written
work, program, many, here, generated = sys.argv[1], sys.argv[2], int(sys.argv[3]), sys.argv[4], int(sys.argv[5])
MOST_CUTS = 120
tool = dict(os.environ, REGGIO=os.path.abspath(program))

ADD = "class N { v: int; }\nclass A { n: iso N; def mut add() { enter self.n as z { z.v = z.v + 1; print z.v; } } }\nmain arena { }\n"
# Each a name, a source and a plan.
ROWS = (
    ("two on one cown", ADD, "cown N arena\nwhen A.add 0\nwhen A.add 0\n"),
    ("two on two cowns", ADD, "cown N count\ncown N trace\nwhen A.add 0\nwhen A.add 1\n"),
    ("nothing to do", "class N { v: int; }\nclass A { n: iso N; def mut rest() { } }\nmain arena { }\n", "cown N arena\nwhen A.rest 0\n"),
    ("a chain of two cowns each",
     "class N { v: int; }\nclass A { one: iso N; two: iso N; def mut pass() { let v: int = 0; enter self.one as z { z.v = z.v + 1; v = z.v; } "
     "enter self.two as z { z.v = z.v + v; print z.v; } } }\nmain arena { }\n",
     "cown N arena\n" * 4 + "when A.pass 0 1\nwhen A.pass 1 2\nwhen A.pass 2 3\nwhen A.pass 3 0\n"),
    ("contents that change places",
     "class N { v: int; }\nclass P { one: iso N; two: iso N; def mut turn() { let y: iso N = nil; swap y, self.one; swap y, self.two; swap y, self.one; "
     "enter self.one as z { z.v = z.v * 2 + 1; print z.v; } } }\nmain arena { }\n",
     "cown N arena\n" * 3 + "when P.turn 0 1\nwhen P.turn 1 2\nwhen P.turn 0 2\n"),
    ("frozen parts, and a region in a region",
     "class N { v: int; next: mut N; old: imm N; down: iso N; }\nclass A { n: iso N; def mut grow() { enter self.n as z { let a: iso N = new iso N in trace; "
     "let b: imm N = freeze a; z.old = b; let y: iso N = new iso N in count; enter y as w { w.v = z.v + 1; w.old = b; } swap y, z.down; } } "
     "def mut look() { enter self.n as z { print z.old is nil; let v: int = 0; enter z.down as w { v = w.v; print w.old == z.old; } print v; z.v = v; } } }\n"
     "main arena { }\n",
     "cown N trace\ncown N count\nwhen A.grow 0\nwhen A.look 0\nwhen A.grow 1\nwhen A.grow 0\nwhen A.look 0\nwhen A.look 1\n"),
    ("a trap, and what is put in its place",
     "class N { v: int; }\nclass A { n: iso N; m: iso N; def mut fail() { enter self.n as z { z.v = 7; print z.v; z.v = z.v / (z.v - 7); } } }\n"
     "class B { n: iso N; def mut look() { print self.n is nil; } def mut mend() { let y: iso N = new iso N in count; swap y, self.n; } }\nmain arena { }\n",
     "cown N arena\n" * 3 + "when A.fail 0 1\nwhen B.look 0\nwhen B.mend 1\nwhen A.fail 2 1\nwhen B.look 1\n"),
    ("each trap that has no input",
     "class N { v: int; next: mut N; }\nclass Row [int];\nclass A { n: iso N; def mut a() { enter self.n as z { print z.next.v; } } def mut b() { let r: mut Row = new Row [2]; "
     "r[2] = 1; } def mut c() { let r: mut Row = new Row [0 - 1]; } def mut d() { let k: int = 9223372036854775807 + 1; } def mut e() { let k: int = read; } "
     "def mut f() { let b: bool = more; print b; call self.f(); } }\nmain arena { }\n",
     "cown N arena\n" * 5 + "when A.a 0\nwhen A.b 1\nwhen A.c 2\nwhen A.d 3\nwhen A.e 4\n"),
    ("one that doesn't end",
     "class N { v: int; }\nclass A { n: iso N; def mut spin() { enter self.n as z { while z.v >= 0 { z.v = z.v + 1; if z.v % 50 == 0 { print z.v; } if z.v > 1000 { z.v = 1; } } } } "
     "def mut add() { enter self.n as z { z.v = z.v + 1; print z.v; } } }\nmain arena { }\n",
     "cown N arena\ncown N arena\nwhen A.add 0\nwhen A.spin 0\nwhen A.add 1\nwhen A.add 0\n"),
)

CELL = "class N { v: int; next: mut N; down: iso N; }\n"
STEPS = (   # (of a behaviour with the fields n, and m where it has two)
    "enter self.n as z { z.v = z.v + %d; print z.v; }",
    "enter self.n as z { let k: int = 0; while k < %d { z.v = z.v * 2 + k; k = k + 1; } print z.v; }",
    "enter self.n as z { let a: mut N = new N; a.v = z.v + %d; a.next = z.next; z.next = a; print z.next.v; }",
    "enter self.n as z { let y: iso N = new iso N in trace; enter y as w { w.v = z.v - %d; } swap y, z.down; print y is nil; }",
    "enter self.n as z { if z.v > %d { print z.next.v; } }",
    "if self.n is nil { let y: iso N = new iso N in count; enter y as z { z.v = %d; } swap y, self.n; }",
    "let gone%d: iso N = nil; swap gone%d, self.n;",
    "print %d;",
)
TWO_STEPS = (
    "let v%d: int = 0; enter self.n as z { v%d = z.v; } enter self.m as z { z.v = z.v + v%d; print z.v; }",
    "let y%d: iso N = nil; swap y%d, self.n; swap y%d, self.m; swap y%d, self.n;",
)

def generate(seed):
    """A source and a plan: three to five classes of behaviours, up to five cowns, up to nine behaviours."""
    chance = random.Random(seed)
    classes, names = [], []
    for k in range(chance.randint(3, 5)):
        two = chance.random() < 0.4
        body = []
        for place in range(chance.randint(1, 4)):
            number = 10 * k + place
            body.append(chance.choice(STEPS + TWO_STEPS if two else STEPS).replace("%d", str(number)))
        classes.append(f"class B{k} {{ n: iso N; {'m: iso N; ' if two else ''}def mut go() {{ {' '.join(body)} }} }}\n")
        names.append((f"B{k}.go", 2 if two else 1))
    cowns = chance.randint(2, 5)
    lines = [f"cown N {chance.choice(('arena', 'count', 'trace'))}\n" for _ in range(cowns)]
    for _ in range(chance.randint(2, 9)):
        name, count = chance.choice(names)
        lines.append(f"when {name} {' '.join(map(str, chance.sample(range(cowns), count)))}\n")
    return CELL + "".join(classes) + "main arena { }\n", "".join(lines)

def plans():
    for path in sorted(Path(here, "examples").glob("*.plan")):
        if path.with_suffix(".rg").exists(): yield path.stem, path.with_suffix(".rg").read_text(), path.read_text()
    yield from ROWS
    for seed in range(generated):
        yield f"generated {seed}", *generate(seed)

def when(source, plan, schedule):
    ran = subprocess.run([program, "when", source, plan], input=" ".join(map(str, schedule)), capture_output=True, text=True)
    if ran.returncode: sys.exit(f"status {ran.returncode}: {ran.stderr.strip()}")
    return ran.stdout

def by_tool(source, plan, *words):
    ran = subprocess.run([f"{here}/tools/schedule", source, plan, *words], env=tool, capture_output=True, text=True)
    if ran.returncode: sys.exit(f"tools/schedule: status {ran.returncode}: {ran.stderr.strip()}")
    return ran.stdout

def schedules(source, plan, model):
    """Each with whether it is to be cut: numbers of any behaviour, and those of tools/schedule."""
    for way in ("in-order", "last-first", "in-turns"):
        yield list(map(int, by_tool(source, plan, "--write", way).split())), way != "last-first"
    count = len(model.behaviours)
    for k in range(many):
        chance = random.Random(k)
        if k % 2:
            yield list(map(int, by_tool(source, plan, "--write", "random", "--seed", str(k)).split())), k % 10 == 1
        else:
            length = chance.choice((10, 40)) * count
            yield [chance.randrange(count) for _ in range(length)], k % 10 == 0

def tried(name, source_text, plan_text):
    source, plan = written(f"{work}/a.rg", source_text), written(f"{work}/a.plan", plan_text)
    model = Behaviours(program, source_text, plan_text, work)
    runs, ended, cuts = 0, set(), 0
    for schedule, is_cut in schedules(source, plan, model):
        places = list(range(0, len(schedule), max(1, len(schedule) // MOST_CUTS))) if is_cut else []
        cuts += len(places)
        for place in places + [len(schedule)]:
            wrote, wanted = when(source, plan, schedule[:place]), model.text(schedule[:place])
            runs += 1
            if wrote != wanted:
                sys.exit(f"{name}, behind {' '.join(map(str, schedule[:place]))}:\n{wrote}where it should be\n{wanted}")
        if " running\n" not in wrote and " waiting\n" not in wrote: ended.add(wrote)
    by_tool(source, plan, "--many", "5")
    ends = [it.end for it in model.behaviours]
    print(f"{name}: {len(ends)} behaviours ({ends.count('done')} done, {sum(it.startswith('trap') for it in ends)} trapped, "
          f"{ends.count('running')} without an end, {ends.count('waiting')} waiting), {runs} texts as they should be, {cuts} of them cut", flush=True)
    if len(ended) > 1: sys.exit(f"{name}: texts differ where all have ended")
    return runs

total = sum(tried(*it) for it in plans())
print(f"{total} texts as they should be")
PY
