#!/usr/bin/env bash
# Whether the documents and tools/explain lead to the cure. It tries
#   docs/diagnostics.md   each program of a chapter and each slip gives the code and the line that stand there, each cure
#                         of a slip is accepted, each trap comes and its cure has none; and the gate's tables of
#                         examples/ have each slip
#   bench/slips.txt       each fault gives its code and its line, its cured program is accepted, and tools/explain shows
#                         an edit that gives this program, or tells the sentence that leads there
# It prints what isn't so, and how many faults are led to their cure; its status is 0 where all of the documents is so,
# and at least nine in ten are led there.
# Not a part of the gate. Usage: bench/slips.sh [PROGRAM]
set -eu
here=$(cd "$(dirname "$0")/.." && pwd)
if [ $# = 0 ]; then "$here/build" || exit; fi
REGGIO=$(readlink -f "${1:-$here/bin/reggio}") exec python3 - "$here" <<'PY'
import concurrent.futures, os, re, subprocess, sys, tempfile
top, program = sys.argv[1], os.environ["REGGIO"]
work = tempfile.TemporaryDirectory()
wrong = 0

def text(path):
    with open(f"{top}/{path}", encoding="utf-8") as file: return file.read()

def call(words, source, given=b""):
    path = f"{work.name}/source"
    with open(path, "w", encoding="utf-8") as file: file.write(source)
    return subprocess.run([*words, path], input=given, capture_output=True, timeout=120)

def verdict(source):
    asked = call([program, "check"], source)
    return (asked.stdout + asked.stderr).decode().strip()

def expect(what, is_so):
    global wrong
    if not is_so:
        wrong += 1
        print("WRONG", what)

# Chapters: a program in a block, and under it what it gives.
page = text("docs/diagnostics.md")
names = dict(re.findall(r"(?m)^## (E\d\d) (.+)$", page))
chapters = re.findall(r"(?m)^```\n((?:.*\n)*?)```\n\ngives `(E\d\d [a-z ]+ at line \d+)`", page)
for source, said in chapters:
    expect(f"a program of the chapter on {said}: {verdict(source)}", verdict(source) == said)
WHEN = {"E93", "E94", "E95"}  # (of plans, schedules and images: bench/plans.sh and bench/images.sh try these)
expect("each diagnostic has a program", {said[:3] for _, said in chapters} == {*names} - WHEN)

# Slips: what is written in place of a line of the frame gives its code there, and the cures in front of a cell's text are
# accepted.
part = re.search(r"(?m)^## Slips$([\s\S]*?)^## ", page)[1]
frame = re.search(r"```\n([\s\S]*?)```", part)[1]
table = text("crates/rg_examples/data/changes.txt") + text("crates/rg_examples/data/rows.txt")
expect("examples/slips.rg is the frame", text("crates/rg_examples/data/slips.rg") == frame)
place, slips = "// here", 0
for line in part.splitlines():
    place = "// there" if line.startswith("In a class") else "" if line.startswith("As a whole") else place
    row = re.match(r"\| (`.*) \| `(E\d\d)` \| (.*) \|$", line)
    if not row: continue
    written, code, cure = (it.replace("\\|", "|") for it in row.groups())
    at = frame[:frame.index(place)].count("\n") + 1 if place else 1
    said = f"{code} {names[code]} at line {at}"
    cures = re.findall(r"`([^`]+)`", re.match(r"((?:`[^`]+` ?(?:or )?)*)", cure)[0])
    slips += 1
    for it, wanted in [(it, said) for it in re.findall(r"`([^`]+)`", written)] + [(it, "accepted") for it in cures]:
        came = verdict(frame.replace(place, it) if place else it)
        expect(f"`{it}`: {wanted}: {came}", came == wanted)
        # (the tables have no way to spell these three)
        if not re.search("[|~#]", it):
            notes = "" if wanted == "accepted" else f"{wanted}~"
            expected = f"slips.rg | {place} | {it} | {notes}".rstrip() if place else f"check a | | {it} | {'accepted~ | | 0' if not notes else f'| {notes} | 1'}"
            expect(f"the gate's tables have: {expected}", expected + "\n" in table)

# Traps: the example comes to it, and where the cure is code, it doesn't.
for kind, example, cure in re.findall(r"(?m)^\| `(\w+)` \| .* \| (.*) \| (.*) \|$", re.search(r"(?m)^## Traps$([\s\S]*?)^## ", page)[1]):
    code, given = re.match(r"`([^`]+)`(?: on the input `(.*)`| on an empty input)?$", example).groups() if example[0] == "`" else (None, None)
    if code:
        came = call([program, "run"], frame.replace("// here", code), (given or "").encode()).stderr.decode().strip()
        at = frame[:frame.index("// here")].count("\n") + 1
        expect(f"`{code}`: trap {kind}: {came}", came == f"trap {kind} at line {at}")
    for it in re.findall(r"`([^`]+;[^`]*)`", cure):
        came = call([program, "run"], frame.replace("// here", it))
        expect(f"`{it}` ends", came.returncode == 0)

# Newcomers' faults.
sys.dont_write_bytecode = True
sys.path.insert(0, f"{top}/tools")
import reading
from outline import Source
def led(source, cured, sentence):
    """Whether a sentence leads to the cure of a source, or an edit behind which it is the cured program but for names."""
    with tempfile.TemporaryDirectory() as folder:
        reggio = reading.Reggio(folder)
        reggio.at = program
        code = source.encode()
        name = reading.FAULT.search(reggio.say("check", code)[2])
        found = reading.Finding(name[1].decode(), int(name[2]))
        reading.find(reggio, Source(code), found)
        module = lambda it: reggio.say("pack", reggio.say("fmt", it)[1])[1]   # (of the canonical text, since a module has lines)
        told = found.words() + [title for title, *_ in found.cures]
        is_led = any(sentence in it for it in told) if sentence else any(module(code[:a] + put + code[b:]) == module(cured.encode()) != b"" for _, a, b, put in found.cures)
        return is_led, told
blocks = re.split(r"(?m)^(?=E\d\d \d+(?: \| .*)?$)", text("bench/slips.txt"))[1:]
faults = []
for block in blocks:
    head, _, rest = block.partition("\n")
    source, cured = rest.split("=>\n")
    code, line, sentence = re.match(r"(E\d\d) (\d+)(?: \| (.*))?$", head).groups()
    came = verdict(source)
    expect(f"{head}: {came}", came == f"{code} {names[code]} at line {line}")
    expect(f"the cured program of {head}: {verdict(cured)}", verdict(cured) == "accepted")
    faults.append((source, cured, sentence))
with concurrent.futures.ThreadPoolExecutor(os.cpu_count()) as pool:
    told = list(pool.map(lambda it: led(*it), faults))
many = sum(it for it, _ in told)
for block, (is_led, said) in zip(blocks, told):
    if not is_led: print("not led to its cure:", block.partition("=>")[0] + ("\n".join(said) + "\n" if "-v" in os.environ.get("SLIPS", "") else ""))
print(f"{len(chapters)} programs of chapters, {slips} rows of slips, {wrong} wrong")
print(f"{many} of {len(blocks)} faults are led to their cure")
sys.exit(wrong > 0 or many * 10 < 9 * len(blocks))
PY
