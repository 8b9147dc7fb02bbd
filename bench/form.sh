#!/usr/bin/env bash
# Prints the files that have a row for a form of the language: an equation or an arm in which its word, or that of its
# instruction, stands among the patterns; with how many, and what all crates have together. Examples are left out. With no
# words it takes two forms that stand for all, a right side and a statement with a block, and compares the crates that have
# a row for one of them with the table 'A new form of the language' in docs/architecture.md: its status is 1 where one of
# the two has more. Shapes of steps aren't counted, since a form needs none. Not a part of the gate.
# Usage: bench/form.sh [WORD..]   as bench/form.sh freeze Freeze
cd "$(dirname "$0")/.." && exec python3 - "$@" <<'PY'
import glob, re, sys

words = sys.argv[1:] or ["merge", "Merge", "enter", "Enter", "EnterField"]
word = r"\b(?<!Shape::)(?<!shape\.)(?:" + "|".join(map(re.escape, words)) + r")\b"

def rows(path):
    """The number of equations of a file of definitions or proofs, or of arms of a source, with a word among the patterns."""
    found = 0
    with open(path, encoding="utf-8") as file:
        for line in file:
            line = re.sub(r"(--|//).*", "", line.rstrip("\n"))
            if path.endswith(".rt"):
                arm = re.match(r"\s*(.*?)\s*=>", line)
                found += bool(arm and re.search("::" + word, arm[1]))
            else:
                row = re.match(r"\s*(?!use |let |pub |abbrev |record |data |module |→)[^\s(){}:=]+ (.*?) =(?: |$)", line)
                found += bool(row and " : " not in row[1] and re.search(word, row[1]))
                found += bool(re.match(r"\s*[\[|]? *\(?(?:\w+\.)?" + word + r".*↦", line))
    return found

kinds = {"specs": 0, "src": 1, "proofs": 2}
crates = {}
for path in sorted(glob.glob("crates/*/*/**/*", recursive=True)):
    crate, kind = path.split("/")[1:3]
    if kind not in kinds or "xample" in path or not path.endswith((".rt", ".antt")): continue
    found = rows(path)
    if found:
        print(f"{found:4} {path}")
        crates.setdefault(crate, [0, 0, 0])[kinds[kind]] += found
print(f"{sum(map(sum, crates.values()))} rows: {sum(c[0] for c in crates.values())} of definitions,"
      f" {sum(c[1] for c in crates.values())} of sources, {sum(c[2] for c in crates.values())} of proofs")
if sys.argv[1:]: sys.exit()

with open("docs/architecture.md", encoding="utf-8") as file:
    table = file.read().split("\n### A new form of the language\n")[1].split("\n#")[0]
told = {}
for crate, *cells in re.findall(r"(?m)^\| `(\w+)` \| ([^|]*) \| ([^|]*) \| ([^|]*) \|$", table):
    told[crate] = [cell != "–" for cell in cells]
wrong = False
for crate in sorted({*crates, *told}):
    here, there = [n > 0 for n in crates.get(crate, [0, 0, 0])], told.get(crate, [False] * 3)
    for kind, at in kinds.items():
        if here[at] != there[at]:
            wrong = True
            print(f"{crate}, {kind}: {'has a row and no cell' if here[at] else 'a cell and no row'}")
sys.exit(wrong)
PY
