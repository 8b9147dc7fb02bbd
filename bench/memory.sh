#!/usr/bin/env bash
# Refuses each call for memory of a run in turn (bench/refuse.c, preloaded). The run must be the right one all the same, or end
# with status 8: then its output is the first whole lines of the right one, and its notes are the first whole lines of the right
# ones with `out of memory` behind them. Without a file: all programs of examples/ with `--every 1 --report`, `bulk 300`,
# `pack` of each program of examples/, `when` of each that has a plan, which writes nothing where it ends with 8, one of them kept
# as an image and one that begins with an image, and each source that examples/rows.txt gives to `slide`, and every_second.rg, by `run` and `slide` with and without a report.
# It needs a C compiler, and isn't a part of the gate. Usage: [REGGIO=PROGRAM] bench/memory.sh [FILE [OPTION..]]
set -eu
words=("$@")
set --
. "$(dirname "$0")/common.sh"
cc -shared -fPIC -O1 -o "$work/refuse.so" "$here/bench/refuse.c"
python3 - "$program" "$work" "$here/examples" ${words[@]+"${words[@]}"} <<'PY'
import os, re, subprocess, sys
from pathlib import Path
program, work, examples, words = sys.argv[1], Path(sys.argv[2]), Path(sys.argv[3]), sys.argv[4:]
refuse = str(work / "refuse.so")
CUT = b"out of memory\n"

def run(words, number):
    """Status, output and notes of a run, and whether its call for memory of that number came, which is refused; 0 refuses none."""
    source = Path(words[1]).with_suffix(".in") if words[0] != "bulk" else None
    given = source.read_bytes() if source and source.exists() else b""
    reads, writes = os.pipe()
    environment = dict(os.environ, LD_PRELOAD=refuse, REFUSE=str(number), REFUSED=str(writes))
    ran = subprocess.run([program, *words], input=given, env=environment, capture_output=True, pass_fds=[writes])
    os.close(writes)
    with os.fdopen(reads, "rb") as told: came = told.read() != b""
    return (ran.returncode, ran.stdout, ran.stderr), came

def is_cut(ran, whole, command):
    """Whether a run that found no memory is the beginning of the whole one, in whole lines; that of `when` has no output."""
    status, output, notes = ran
    if command == "when": return ran == (8, b"", CUT)
    lines = notes[: -len(CUT)]
    starts = whole[1].startswith(output) and whole[2].startswith(lines)
    return status == 8 and notes.endswith(CUT) and starts and all(text == b"" or text.endswith(b"\n") for text in (output, lines))

def tried(words):
    """How many calls for memory a run makes, and how many of them it can do without; each is refused in turn."""
    whole, _ = run(words, 0)
    number = spared = 0
    while True:
        ran, came = run(words, number + 1)
        if not came: return number, spared
        if ran != whole and not is_cut(ran, whole, words[0]): sys.exit(f"{' '.join(words)}: call {number + 1} refused: {ran}")
        number += 1
        spared += ran == whole

def slid():
    """The files of the sources that the rows give to `slide`, each once, and every_second.rg."""
    cells = [line.split(" | ") for line in (examples / "rows.txt").read_text("utf-8").splitlines() if line.startswith("slide ")]
    for number, source in enumerate(dict.fromkeys(row[2] for row in cells if not re.search(r"\[\d+:", row[2]))):
        path = work / f"row{number}.rg"
        path.write_text(source.replace("~", "\n"), "utf-8")
        yield str(path)
    yield str(examples / "every_second.rg")

def kept():
    """A content that is put into an image, and one that comes from there and goes on."""
    game, plan = str(examples / "game.rg"), work / "on.plan"
    plan.write_text((examples / "game_on.plan").read_text("utf-8").replace("game.rgi", str(examples / "game.rgi")), "utf-8")
    return ["when", game, str(examples / "game.plan"), "--keep", "0"], ["when", game, str(plan)], ["when", game, str(plan), "--keep", "0"]

REPORTS = [], ["--report"], ["--every", "1", "--report"]
runs = [["run", *words]] if words else [
    *(["run", str(path), "--every", "1", "--report"] for path in sorted(examples.glob("*.rg"))),
    ["bulk", "300"],
    *(["pack", str(path)] for path in sorted(examples.glob("*.rg"))),
    *(["when", str(path.with_suffix(".rg")), str(path)] for path in sorted(examples.glob("*.plan")) if path.with_suffix(".rg").exists()),
    *kept(),
    *([command, path, *report] for path in slid() for command in ("run", "slide") for report in REPORTS),
]
total = 0
for words in dict.fromkeys(map(tuple, runs)): # (each once)
    calls, spared = tried(words)
    total += calls
    print(f"{' '.join(words)}: {calls} calls for memory, each refused in turn: {calls - spared} times 8 with whole lines, {spared} times the right run", flush=True)
print(f"{total} calls for memory, each refused in turn")
PY
