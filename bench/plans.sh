#!/usr/bin/env bash
# Gives bad plans, bad schedules and bad words to `when`, each rule broken alone, at the edges of each limit and at each place of
# a schedule, and beside them good ones that look like them; the table of docs/diagnostics.md, "E93 plan", is tried row by row.
# What each gives, status, output and notes, stands here. Prints what was otherwise, and a count; its status is 0 where nothing
# was. Not a part of the gate. Usage: [REGGIO=PROGRAM] bench/plans.sh
set -eu
. "$(dirname "$0")/common.sh"
python3 - "$work" "$program" "$here/docs/diagnostics.md" <<'PY'
import os, re, subprocess, sys
work, program, page = sys.argv[1], os.path.abspath(sys.argv[2]), sys.argv[3]
os.chdir(work)
wrong = tried = 0
MIB = 1 << 20

def put(name, text):
    with open(name, "wb") as file: file.write(text if isinstance(text, bytes) else text.encode())

def call(source, plan, schedule="", words=None):
    if source is not None: put("a", source)
    if plan is not None: put("p", plan)
    ran = subprocess.run([program, *(words or ["when", "a", "p"])], input=schedule.encode(), capture_output=True, timeout=120)
    return ran.returncode, ran.stdout.decode(), ran.stderr.decode().strip()

def want(what, source, plan, schedule, status, notes, out=None, words=None):
    """A call gives this; where it is no answer, nothing is on the output."""
    global wrong, tried
    tried += 1
    got = call(source, plan, schedule, words)
    if got[0] != status or got[2] != notes or (out is not None and got[1] != out) or (status != 0 and got[1]):
        wrong += 1
        print(f"WRONG {what}: {got[0]} {got[2][:100]!r} {got[1][:100]!r}, and not {status} {notes!r} {'' if out is None else repr(out[:100])}", flush=True)

def accepted(source): return call(source, None, words=["check", "a"])[0] == 0

# ---- Lines

with open(page, encoding="utf-8") as file: text = file.read()
chapter = text[text.index("## E93 plan"):text.index("## E94 schedule")]
SOURCE = chapter.split("```\n")[1]
FRONT = "cown Account arena\ncown Account count\ncown Box arena\n"

def bad(what, line, number=4, front=FRONT, source=SOURCE, end="\n"):
    line = line if isinstance(line, bytes) else line.encode()
    want(what, source, front.encode() + line + end.encode(), "", 1, f"E93 plan at line {number}")

def good(what, source, plan): want(what, source, plan, "", 0, "")

for written, cure in re.findall(r"^\| (`.*?) \| (.*) \|$", chapter, re.M):
    if "without an end of the line" not in written:
        for line in re.findall(r"`([^`]+)`", written): bad(f"the page: {line}", line)
    for line in re.findall(r"`((?:when|cown) [^`]*)`", cure): good(f"the page's cure: {line}", SOURCE, FRONT + line + "\n")

LINES = ("", "// who pays whom", "# who pays whom", " when Transfer.go 0 1", "when Transfer.go 0 1 ", "when  Transfer.go 0 1", "when Transfer.go  0 1",
    "when Transfer.go 0  1", "when Transfer.go 0\t1", "when\tTransfer.go 0 1", "when Transfer.go 0 1\r", "cown Account arena\r", "cown Account arena ",
    "cown  Account arena", " cown Account arena", "cown Account  arena", "cown Account arena x", "cown", "cown ", "cown Account", "cown Account ",
    "cown  arena", "when", "when ", "when Transfer.go", "when Transfer.go ", "when Transfer. 0 1", "when .go 0 1", "when . 0 1",
    "when Transfer.go.go 0 1", "when Transfer.go. 0 1", "when Transfer .go 0 1", "when Transfer. go 0 1", "when Transfer.go 0 1 0", "when Transfer.go 0",
    "when Transfer.go 1 1", "when Transfer.go 0 00", "when Transfer.go 2 0", "when Transfer.go 0 3", "when Transfer.go 3 0", "when Transfer.go 00000 1",
    "when Transfer.go 0 00001", "when Transfer.go 10000 1", "when Transfer.go 9999 1", "when Transfer.go 0 65536", "when Transfer.go 0 65537",
    "when Transfer.go 0 4294967297", "when Transfer.go 0 257", "when Transfer.go +0 1", "when Transfer.go -0 1", "when Transfer.go 0x0 1",
    "when Transfer.cents 0 1", "when Transfer.from 0 1", "when Look.at 0", "when Row.go 0", "when Row.go", "when Box.go 0", "when int.go 0",
    "when main.go 0", "cown int arena", "cown Look arena", "cown Row arena", "cown Account Arena", "cown Account main", "cown arena Account",
    "COWN Account arena", "cowns Account arena", "cownAccount arena", "whenTransfer.go 0 1", "load Account", "load", "load ", "load Account ",
    "load  x", "load Nope x", "load Look x", "load int x", "load Account x y", "load Account x ", "load Account  x", "load Account\tx", "load Account x\r",
    "load Account x\x7f", "LOAD Account x", "loadAccount x", "cown Account arena\x00", "\x00", "when Transfer.go 0 1\x00", "when Transfer.go 0 ①",
    "cown Accoun\u00e9 arena", "load Account \u00e9")
for line in LINES: bad(repr(line), line)
bad("bytes over 127", b"\xff\xfe")
for line in ("when Transfer.go 0 1", "when Transfer.go 1 0", "when Transfer.go 0000 0001", "cown Box trace", "cown Transfer count", "cown Account arena"):
    good(line, SOURCE, FRONT + line + "\n")
    bad(f"no newline: {line}", line, end="")
bad("no newline: load Account x", "load Account x", end="")
bad("the first of two", "when Transfer.go 0 0\ncown Nope arena")
bad("a bad one, then a good one", "when Transfer.go 0 0\nwhen Transfer.go 0 1")
bad("in front", "cown Nope arena\n" + FRONT, 1, "")
bad("a cown of a later line", "when Transfer.go 0 3\ncown Account arena")
bad("a newline alone", "", 1, "")
want("one byte", SOURCE, "c", "", 1, "E93 plan at line 1")
want("an empty plan", SOURCE, "", "", 0, "", "")
want("an empty plan, and blanks", SOURCE, "", " \n ", 0, "", "")
want("an empty plan, and a number", SOURCE, "", "0", 1, "E94 schedule at line 1")

# ---- Images that a plan names (bench/images.sh has the rest)

MISSING = 5, "source fault"
want("a file that isn't there", SOURCE, FRONT + "load Account x\n", "", *MISSING)
want("an array class", SOURCE, FRONT + "load Row x\n", "", *MISSING)
want("a behaviour over it", SOURCE, FRONT + "load Account x\nwhen Transfer.go 0 3\n", "", *MISSING)
bad("a bad line behind it", "load Account x\ncown Nope arena", 5)
bad("a behaviour that wants another class behind it", "load Box x\nwhen Transfer.go 0 3", 5)
want("a bad image", SOURCE, FRONT + "load Account a\n", "x", 1, "E95 image at line 4")
want("the second one", SOURCE, "load Account a\n" + FRONT + "load Account x\n", "x", 1, "E95 image at line 1")

# ---- Methods and classes

def one(member, fields="n: iso N;"): return f"class N {{ v: int; }} class A {{ {fields} {member} }} main arena {{ }}"
PLAN = "cown N arena\nwhen A.m 0\n"
for member, is_good in (("def mut m() { }", 1), ("def mut m(x: int) { }", 0), ("def mut m(): int { return 0; }", 0), ("def paused m() { }", 0),
        ("def imm m() { }", 0), ("def mut k() { }", 0)):
    if not accepted(one(member)): sys.exit(f"not accepted: {member}")
    want(member, one(member), PLAN, "", *((0, "") if is_good else (1, "E93 plan at line 2")))
for fields, is_good in (("n: iso N;", 1), ("n: mut N;", 0), ("n: imm N;", 0), ("n: int;", 0), ("n: iso N; k: iso N;", 0),
        ("x: int; n: iso N; y: mut N; b: bool;", 1), ("n: iso A;", 0)):
    want(fields, one("def mut m() { }", fields), PLAN, "", *((0, "") if is_good else (1, "E93 plan at line 2")))
for plan in ("when A.m\n", "when A.m \n"): want("no iso field, and no cown", "class A { def mut m() { } } main arena { }", plan, "", 1, "E93 plan at line 1")

# ---- Limits

ADD = "class N { v: int; } class A { n: iso N; def mut add() { enter self.n as z { z.v = z.v + 1; print z.v; } } } main arena { }"
want("256 cowns", ADD, "cown N arena\n" * 256, "", 0, "", "")
want("257 cowns", ADD, "cown N arena\n" * 257, "", 1, "E93 plan at line 257")
want("256 cowns and a load", ADD, "cown N arena\n" * 256 + "load N x\n", "", 1, "E93 plan at line 257")
many = "cown N arena\n" + "when A.add 0\n" * 4096
want("4,096 behaviours", ADD, many, "", 0, "", "".join(f"behaviour {i} A.add waiting\n" for i in range(4096)))
want("4,097 behaviours", ADD, many + "when A.add 0\n", "", 1, "E93 plan at line 4098")
want("the last of them runs", ADD, "cown N arena\ncown N arena\n" + "when A.add 0\n" * 4095 + "when A.add 1\n", "4095 " * 7, 0, "")
want("a number past the last", ADD, many, "4096", 1, "E94 schedule at line 1")
wide = one("def mut m() { }", " ".join(f"f{i}: iso N;" for i in range(60)))
cowns = [str(i) for i in range(60)]
want("60 cowns of one", wide, "cown N arena\n" * 60 + f"when A.m {' '.join(cowns)}\n", "0 0 0", 0, "", "behaviour 0 A.m done\n")
want("60 cowns, the last one twice", wide, "cown N arena\n" * 60 + f"when A.m {' '.join(cowns[:59] + ['0'])}\n", "", 1, "E93 plan at line 61")
want("59 cowns", wide, "cown N arena\n" * 60 + f"when A.m {' '.join(cowns[:59])}\n", "", 1, "E93 plan at line 61")

# ---- Mains and the order of faults

P1 = "cown N arena\nwhen A.add 0\n"
for main in ("main trace { }", "main count { }", "main arena { print 7; }", "main arena { let x: int = 0; }", "main arena { collect; }"):
    want(main, ADD.replace("main arena { }", main), P1, "", 1, "E93 plan at line 0")
    want(f"{main}, and a bad line", ADD.replace("main arena { }", main), "no\n", "x", 1, "E93 plan at line 0")
fault, trace = ADD.replace("print z.v", "print z.w"), ADD.replace("main arena { }", "main trace { }")
want("another main, and no plan", trace, P1, "", *MISSING, words=["when", "a", "q"])
want("a fault of the source first", fault, "no\n", "x", 1, "E20 unknown at line 1")
want("a fault of syntax first", ADD + "}", "no\n", "x", 1, "E10 syntax at line 1")
want("no source", ADD, P1, "", *MISSING, words=["when", "b", "p"])
want("no plan", ADD, P1, "", *MISSING, words=["when", "a", "q"])
want("a fault of the source, and no plan", fault, P1, "", 1, "E20 unknown at line 1", words=["when", "a", "q"])
want("a bad line and a bad schedule", ADD, "no\n", "x", 1, "E93 plan at line 1")
want("no cown to keep, and a bad schedule", ADD, P1, "x", 1, "E93 plan at line 0", words=["when", "a", "p", "--keep", "1"])
want("no cown to keep, and a bad line", ADD, "cown N arena\nno\n", "x", 1, "E93 plan at line 2", words=["when", "a", "p", "--keep", "1"])
want("a plan of 1 MiB", ADD, b"x" * MIB, "", 1, "E93 plan at line 1")
LONG = 9, "source too long"
want("one byte more", ADD, b"x" * (MIB + 1), "", *LONG)
want("a plan of 16 MiB", ADD, b"x" * (16 * MIB), "", *LONG)
want("one byte more, of good lines", ADD, (b"cown N arena\n" * (MIB // 13 + 1))[:MIB + 1], "", *LONG)
want("a plan of newlines", ADD, b"\n" * MIB, "", 1, "E93 plan at line 1")
want("a source of 1 MiB and one byte", b" " * (MIB + 1) + ADD.encode(), P1, "", *LONG)
want("a fault of the source, and a plan that is too long", fault, b"x" * (MIB + 1), "", 1, "E20 unknown at line 1")
want("another main, and a plan that is too long", trace, b"x" * (MIB + 1), "", *LONG)
want("a folder for a plan", ADD, None, "", *MISSING, words=["when", "a", "."])

# ---- Words

usage = subprocess.run([program], capture_output=True).stderr.decode().strip()
for words in (["when"], ["when", "a"], ["when", "a", "p", "q"], ["when", "a", "p", "--steps", "1"], ["when", "a", "p", "--every", "1"],
        ["when", "a", "p", "--report"], ["when", "--report", "a", "p"], ["when", "a", "p", "--keep"], ["when", "a", "p", "--keep", "0", "1"],
        ["when", "a", "--keep", "0", "p"], ["when", "--keep", "0", "a", "p"], ["when", "a", "p", "--keep", "0", "--keep", "0"],
        ["when", "a", "p", "--keep", "00000"], ["when", "a", "p", "--keep", "10000"], ["when", "a", "p", "--keep=0"], ["when", "a", "p", "-keep", "0"],
        ["when", "a", "p", "--keep", "-1"], ["when", "a", "p", "--keep", ""], ["when", "a", "p", "--Keep", "0"], ["when", "", "p"], ["when", "a", ""],
        ["run", "a", "--keep", "0"], ["exec", "a", "--keep", "0"]):
    want(f"the words {words}", ADD, P1, "", 2, usage, words=words)

# ---- Schedules

P2, BASE = "cown N arena\nwhen A.add 0\nwhen A.add 0\n", "0 1 0 0 0 0 0 0 1 1 1 1 1 1 1".split()
DONE = "behaviour 0 A.add done\n1\nbehaviour 1 A.add done\n2\n"
want("a good one", ADD, P2, " ".join(BASE), 0, "", DONE)
for item in ("x", "2", "-1", "+1", "1.0", "1,", "0x1", "4294967296", "4294967297", "18446744073709551616", "18446744073709551617", "9223372036854775808",
        "9223372036854775807", "-9223372036854775808", "65536", "256", "257", "4096", "\x00", "\xa0", "①", "//", "--", "-", "1-", "0b", "1e0", "١"):
    for at in range(len(BASE) + 1) if item in ("x", "2", "4294967296") else (0, 3, len(BASE)):
        want(f"{item!r} at {at + 1}", ADD, P2, " ".join(BASE[:at] + [item] + BASE[at:]), 1, f"E94 schedule at line {at + 1}")
for item in ("0", "00", "-0", "-00", "00000000000000000000"): want(f"{item} for 0", ADD, P2, item, 0, "", "behaviour 0 A.add running\nbehaviour 1 A.add waiting\n")
want("21 digits", ADD, P2, "0" * 21, 1, "E94 schedule at line 1")
for between in ("\n", "\t ", "\r\n", "\n\n \t"): want(f"between numbers {between!r}", ADD, P2, between + between.join(BASE) + between, 0, "", DONE)
want("two bad ones", ADD, P2, "0 x y", 1, "E94 schedule at line 2")
want("a bad one behind all that ended", ADD, P2, " ".join(BASE + ["x"]), 1, "E94 schedule at line 16")
want("those that ended do nothing", ADD, P2, " ".join(BASE + ["0", "1", "0"]), 0, "", DONE)
HALF, SPENT = "behaviour 0 A.add done\n1\nbehaviour 1 A.add waiting\n", (4, "spent at step 1000000")
want("a million", ADD, P2, "0 " * 1_000_000, 0, "", HALF)
want("a million, and blanks", ADD, P2, "0 " * 1_000_000 + "  \n\n ", 0, "", HALF)
for behind in ("0", "0 0", "x"): want(f"a million and {behind}", ADD, P2, "0 " * 1_000_000 + behind, *SPENT)
for behind in ("x", "2", "2 0 0"): want(f"999,999 and {behind}", ADD, P2, "0 " * 999_999 + behind, 1, "E94 schedule at line 1000000")
want("a long token", ADD, P2, "1" * 100_000, 1, "E94 schedule at line 1")

print(f"{tried} calls, {wrong} wrong")
sys.exit(wrong > 0)
PY
