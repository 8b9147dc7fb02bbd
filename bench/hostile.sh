#!/usr/bin/env bash
# Gives `exec` modules that were made to harm it, of up to 16 MiB: counts that promise more than is there, millions of instructions of one
# kind, expressions and blocks deep in one another, tables of millions of entries. Each must be answered as its bytes are, within three
# seconds of a processor and by no signal. Prints each with its answer, its time and the most memory that it took. Not a part of the gate.
# Usage: [REGGIO=PROGRAM] bench/hostile.sh
set -eu
. "$(dirname "$0")/common.sh"
python3 - "$program" "$work" <<'PY'
import os, struct, subprocess, sys

program, work = sys.argv[1:]
MOST = 16_777_216
NAMES = """mark int bool nil load clear store own field isnil neg add sub mul div rem eq ne lt le gt ge not jump jfalse and or check
new newtmp newiso pace put swap freeze merge read more room call ret retv enter enterf leave end print collect pop drop halt
newarr newtmparr newisoarr size bound elem putelem leaveg""".split()
NUMBER = {name: place for place, name in enumerate(NAMES)}
u4 = lambda n: struct.pack(">I", n)

def op(name, *operands): return bytes([NUMBER[name], *b"".join(operands)])
def mark(types=b"", line=1): return op("mark", struct.pack(">Q", line), u4(len(types)), types)

ONE, TRUE, END = op("int", struct.pack(">q", 1)), op("bool", b"\1"), mark() + op("end", u4(0)) + op("halt")
def front(classes=(0, b""), methods=(0, b""), ops=0):
    return b"RGM1\0" + u4(classes[0]) + classes[1] + u4(methods[0]) + methods[1] + u4(ops)

# a main of one piece of code that stands so often between two others, which have so many instructions
def repeated(first, count, piece, last, ops): return front(ops=ops[0] + count * ops[1] + ops[2]) + first + piece * count + last
def printed(first, count, piece, size=1): return repeated(mark() + first, count, piece, op("print") + END, (2, size, 4))
def ifs(count):
    ops = b"".join(mark() + TRUE + op("jfalse", u4(3 * count + 2 * (count - k))) for k in range(count))
    return front(ops=5 * count + 3) + ops + (mark() + op("end", u4(0))) * count + END
def lets(count):
    ops = b"".join(mark(b"\0" * k) + ONE + op("store", u4(k)) for k in range(count))
    return front(ops=3 * count + 3) + ops + mark(b"\0" * count) + op("end", u4(0)) + op("halt")

# an element whose place is an element, and so on
def elements(count):
    there = op("mark", struct.pack(">Q", 1), u4(1), b"\2", u4(0))
    made = mark() + ONE + op("newarr", u4(0)) + op("store", u4(0)) + op("pace") + there
    read = (op("load", u4(0)) + op("check")) * count + ONE + (op("bound") + op("elem")) * count
    return front((1, b"\0\1\0"), ops=6 + 4 * count + 5) + made + read + op("print") + there + op("end", u4(0)) + op("halt")

MODULE, UNVERIFIED, LONG = "E91 module at line 0\n", "E92 unverified at line 0\n", "source too long\n"
SPENT = "spent at step 1000\n"
CASES = {
    "2^32 - 1 classes, and none": (lambda: front((2**32 - 1, b""))[:9], MODULE),
    "2^32 - 1 classes, and zeros": (lambda: front((2**32 - 1, b""))[:9].ljust(MOST, b"\0"), MODULE),
    "2^32 - 1 methods, and zeros": (lambda: front(methods=(2**32 - 1, b""))[:13].ljust(MOST, b"\0"), MODULE),
    "2^32 - 1 instructions, and none": (lambda: front(ops=2**32 - 1), MODULE),
    "2^32 - 1 instructions, and nots": (lambda: front(ops=2**32 - 1).ljust(MOST, op("not")), MODULE),
    "2^32 - 1 types in a map": (lambda: front(ops=3) + op("mark", bytes(8), u4(2**32 - 1)), MODULE),
    "nots, and nothing else": (lambda: front(ops=MOST - 17).ljust(MOST, op("not")), UNVERIFIED),
    "nils, and nothing else": (lambda: front(ops=MOST - 17).ljust(MOST, op("nil")), UNVERIFIED),
    "16 million types in a map": (lambda: front(ops=3) + mark(bytes(MOST - 40)) + op("end", u4(0)) + op("halt"), UNVERIFIED),
    "16 million fields": (lambda: front((1, b"\0\0" + u4(MOST - 60) + bytes(MOST - 60)), ops=3) + END, UNVERIFIED),
    "2.8 million empty classes": (lambda: front((2_796_000, b"\0\0" + u4(0)), ops=3)[:9] + (b"\0\0" + u4(0)) * 2_796_000 + front(ops=3)[9:] + END, UNVERIFIED),
    "5.5 million array classes": (lambda: front((5_592_000, b""))[:9] + b"\0\1\0" * 5_592_000 + front(ops=3)[9:] + END, UNVERIFIED),
    "1.6 million methods": (lambda: front((1, b"\0\0" + u4(0)), (1_677_000, (u4(0) + b"\2" + u4(0) + b"\0") * 1_677_000), 3) + END, UNVERIFIED),
    "64 nots": (lambda: printed(TRUE, 64, op("not")), ""),
    "65 nots": (lambda: printed(TRUE, 65, op("not")), UNVERIFIED),
    "a million nots": (lambda: printed(TRUE, 1_000_000, op("not")), UNVERIFIED),
    "16 million nots": (lambda: printed(TRUE, 16_777_000, op("not")), UNVERIFIED),
    "16 million minus signs": (lambda: printed(ONE, 16_777_000, op("neg")), UNVERIFIED),
    "512 sums": (lambda: printed(ONE, 512, ONE + op("add"), 2), ""),
    "513 sums": (lambda: printed(ONE, 513, ONE + op("add"), 2), UNVERIFIED),
    "1.6 million sums": (lambda: printed(ONE, 1_677_000, ONE + op("add"), 2), UNVERIFIED),
    "1.8 million numbers on a stack": (lambda: repeated(mark(), 1_860_000, ONE, op("print") + END, (1, 1, 4)), UNVERIFIED),
    "63 elements in one another": (lambda: elements(63), "trap index at line 1\n"),
    "64 elements in one another": (lambda: elements(64), UNVERIFIED),
    "2 million elements in one another": (lambda: elements(2_090_000), UNVERIFIED),
    "256 variables": (lambda: lets(256), ""),
    "257 variables": (lambda: lets(257), UNVERIFIED),
    "5,000 variables": (lambda: lets(5_000), MODULE),
    "63 blocks in one another": (lambda: ifs(63), ""),
    "64 blocks in one another": (lambda: ifs(64), UNVERIFIED),
    "440,000 blocks in one another": (lambda: ifs(400_000), UNVERIFIED),
    "700,000 statements": (lambda: repeated(b"", 700_000, mark() + ONE + op("print"), END, (0, 3, 3)), SPENT),
    "a million marks": (lambda: repeated(b"", 980_000, mark(), END, (0, 1, 3)), UNVERIFIED),
    "jumps to the front": (lambda: repeated(mark(), 3_300_000, op("jump", u4(0)), END, (1, 1, 3)), UNVERIFIED),
    "tests that jump far": (lambda: repeated(mark(), 2_300_000, TRUE + op("jfalse", u4(9_999_999)), END, (1, 2, 3)), UNVERIFIED),
    "calls": (lambda: repeated(mark(), 3_300_000, op("call", u4(0)), END, (1, 1, 3)), UNVERIFIED),
    "windows": (lambda: repeated(mark(), 1_800_000, op("enter", u4(0), u4(0)), END, (1, 1, 3)), UNVERIFIED),
    "as many bytes as there may be": (lambda: bytes(MOST), MODULE),
    "a byte more": (lambda: bytes(MOST + 1), LONG),
}
wrong = 0
for name, (make, wanted) in CASES.items():
    module = make()
    size = len(module)
    assert size <= MOST + 1, name
    with open(f"{work}/hostile", "wb") as f: f.write(module)
    del module
    with open(f"{work}/out", "wb") as out, open(f"{work}/notes", "wb") as notes:
        child = subprocess.Popen([program, "exec", f"{work}/hostile", "--steps", "1000"], stdin=subprocess.DEVNULL, stdout=out, stderr=notes)
        _, status, used = os.wait4(child.pid, 0)
    took = used.ru_utime + used.ru_stime
    said = open(f"{work}/notes", encoding="utf-8", errors="replace").read()
    is_right = os.WIFEXITED(status) and said == wanted and took < 3
    wrong += not is_right
    ended = f"status {os.WEXITSTATUS(status)}" if os.WIFEXITED(status) else f"signal {os.WTERMSIG(status)}"
    print(f"{'' if is_right else 'WRONG: '}{name}: {size} bytes, {ended}, {said.strip() or 'runs'}, {took:.1f} s, {used.ru_maxrss // 1024} MB", flush=True)
print(f"{len(CASES)} modules, {wrong} of them wrong")
sys.exit(wrong > 0)
PY
