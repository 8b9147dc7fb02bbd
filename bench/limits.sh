#!/usr/bin/env bash
# Each limit of a source (docs/language.md, "Limits"), row by row: the source at the limit is read, and the one
# past it has its fault at its own token, which stands on a line of its own. Each source goes through `reggio fmt`;
# its notes and status are compared with the row, and at the end the rows that differ are counted.
# Not a part of the gate. Usage: [REGGIO=PROGRAM] bench/limits.sh
set -eu
. "$(dirname "$0")/common.sh"
python3 - "$program" "$work" <<'PY'
import subprocess, sys
program, work = sys.argv[1:]
rows = []

def row(what, source, notes=""):
    rows.append((what, source, notes))

def main(body):
    return "main arena {" + body + "}"

def method(params, body):
    return "class A { def mut m(" + params + ") {" + body + "} } main arena {}"

def signs(count, sign="+"):
    return "1" + f"{sign}1" * count

LIMIT, NESTING, SYNTAX = "E12 limit at line 2", "E11 nesting at line 2", "E10 syntax at line 2"

# Classes, and the members of one.
classes = "".join(f"class C{i} {{}}" for i in range(1024))
row("1,024 classes", classes + main(""))
row("1,025 classes", classes + "class\nC\n{} " + main(""), LIMIT)
row("a 1,025th class with no name", classes + "class\n{} " + main(""), SYNTAX)
fields = "".join(f"x{i}: int;" for i in range(64))
methods = "".join(f"def mut m{i}() {{}}" for i in range(64))
row("64 fields", "class A {" + fields + "}" + main(""))
row("65 fields", "class A {" + fields + "\nx\n: int; }" + main(""), LIMIT)
row("64 methods", "class A {" + methods + "}" + main(""))
row("65 methods", "class A {" + methods + "def mut\nm\n() {} }" + main(""), LIMIT)
row("64 fields and 64 methods", "class A {" + fields + methods + "}" + main(""))
row("64 fields in each of two classes", "class A {" + fields + "} class B {" + fields + "}" + main(""))

# Parameters, and the names of one body.
params = ", ".join(f"a{i}: int" for i in range(16))
row("16 parameters", method(params, ""))
row("17 parameters", method(params + ",\na\n: int", ""), LIMIT)
def lets(count):
    return "".join(f"let n{i}: int = 1;" for i in range(count))
row("256 names of main", main(lets(256)))
row("257 names of main", main(lets(256) + "let\nn\n: int = 1;"), LIMIT)
row("self and 255 names", method("", lets(255)))
row("self and 256 names", method("", lets(255) + "let\nn\n: int = 1;"), LIMIT)
row("self, 16 parameters and 239 names", method(params, lets(239)))
row("self, 16 parameters and 240 names", method(params, lets(239) + "let\nn\n: int = 1;"), LIMIT)
row("256 names, the last of an enter", main(lets(255) + "enter x as z {}"))
row("257 names, the last of an enter", main(lets(256) + "enter x as\nz\n{}"), LIMIT)
row("257 names, most of a block that ended", main("if true {" + lets(256) + "} let\nn\n: int = 1;"), LIMIT)
row("257 names, all the same one", main("let n: int = 1;" * 256 + "let\nn\n: int = 1;"), LIMIT)
row("256 names in each of two bodies", method("", lets(255)).replace("arena {", "arena {" + lets(256)))

# The signs of one statement.
row("512 signs", main("print " + signs(512) + ";"))
for sign in "or and == != < <= > >= + - * / %".split():
    row(f"513 signs, the last {sign}", main("print " + signs(512, "*") + f"\n{sign} 1"), LIMIT)
row("512 signs and what isn't counted", main("print not -x.y is nil or " + signs(511) + ";"))
row("512 signs in each of two statements", main(("x = " + signs(512) + ";") * 2))
row("512 signs in a test and in its block", main("while " + signs(512) + " { print " + signs(512) + "; }"))
row("513 signs over two arguments", main("call a.m(" + signs(256) + ", " + signs(256) + "\n+ 1);"), LIMIT)

# Brackets, `{` and `(` together: main's brace is the first.
def blocks(count, inner):
    return "while true {" * count + inner + "}" * count
row("64 brackets, braces alone", main(blocks(63, "")))
row("65 brackets, braces alone", main("while true {" * 63 + "while true\n{\n} " + "}" * 63), NESTING)
row("64 brackets, parentheses alone", main("print " + "(" * 63 + "1" + ")" * 63 + ";"))
row("65 brackets, parentheses alone", main("print " + "(" * 63 + "\n(\n1"), NESTING)
row("64 brackets of both kinds", main(blocks(31, "print " + "(" * 32 + "1" + ")" * 32 + ";")))
row("65 brackets of both kinds", main("while true {" * 31 + "print " + "(" * 32 + "\n(\n1"), NESTING)
row("65 brackets, of a call", main("while true {" * 63 + "call a.m\n(\n);"), NESTING)
row("64 brackets twice", main(("print " + "(" * 63 + "1" + ")" * 63 + ";") * 2))
row("a 65th bracket where none can stand", main("print " + "(" * 63 + "\n{\n"), SYNTAX)

# Names, numbers, and the source itself.
row("a name of 64 bytes", main("print " + "n" * 64 + ";"))
row("a name of 65 bytes", main("print\n" + "n" * 65 + "\n;"), "E03 name at line 2")
row("the largest number", main("print 9223372036854775807;"))
row("a number too large", main("print\n9223372036854775808\n;"), "E02 number at line 2")
row("1,048,576 bytes", main("").ljust(1 << 20))
row("1,048,577 bytes", main("").ljust((1 << 20) + 1), "source too long")

wrong = 0
for number, (what, source, notes) in enumerate(rows):
    path = f"{work}/{number}.rg"
    with open(path, "w") as f:
        f.write(source)
    ran = subprocess.run([program, "fmt", path], stdout=subprocess.DEVNULL, stderr=subprocess.PIPE, text=True)
    status = 0 if notes == "" else 9 if notes == "source too long" else 1
    same = ran.stderr == (notes and notes + "\n") and ran.returncode == status
    wrong += not same
    print(f"{'ok' if same else 'WRONG':<6}{what:<42}{notes or 'read'}" + ("" if same else f"; it said {ran.returncode} {ran.stderr!r}"))
print(f"{len(rows)} rows, {wrong} wrong")
sys.exit(wrong > 0)
PY
