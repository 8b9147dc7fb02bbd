#!/usr/bin/env bash
# Damages sources: each program of examples/ is cut behind each of its bytes, and each byte of it is turned to another one, one
# at a time; each such source is given to `check`, `fmt` and `run`. A call must end with a status from 0 to 9 and by no signal,
# within ten times the undamaged one's time and a second; `run` must refuse what `check` refuses, with the same line, and what
# `fmt` refuses, `check` must refuse so. Prints how often each status came, and what was wrong. With `rows` it takes the sources
# of examples/rows.txt, too. Not a part of the gate. Usage: bench/damage.sh [examples|rows [PROGRAM]]
set -eu
. "$(dirname "$0")/common.sh"
python3 - "$program" "$here/examples" "$work" "${1:-examples}" <<'PY'
import collections, concurrent.futures, os, re, subprocess, sys, time
from pathlib import Path
program, examples, work, rows = sys.argv[1], Path(sys.argv[2]), Path(sys.argv[3]), "rows" in sys.argv[4:]
STEPS = ["--steps", "10000"]
COMMANDS = {"check": [], "fmt": [], "run": STEPS}
TURNED = 0x15  # the bits of a byte that are turned: letters, digits and signs become others

def sources():
    for path in sorted(examples.glob("*.rg")): yield path.name, path.read_bytes()
    if not rows: return
    seen = set()
    for line in (examples / "rows.txt").read_text("utf-8").splitlines():
        cells = line.split(" | ")
        if line.startswith("--") or len(cells) < 4 or re.search(r"\[\d+:", cells[2]): continue
        source = cells[2].replace("~", "\n").encode()
        if source.strip() and source not in seen:
            seen.add(source)
            yield "row", source

def call(command, path, most=60):
    """Status, output and notes of a call; a status of None where it took too long."""
    try:
        ran = subprocess.run([program, command, path, *COMMANDS[command]], stdin=subprocess.DEVNULL, capture_output=True, timeout=most)
        return ran.returncode, ran.stdout, ran.stderr
    except subprocess.TimeoutExpired:
        return None, b"", b""

def tried(task):
    """What is wrong with the calls on one damaged source, and their statuses."""
    number, name, source, most = task
    path = work / f"damaged{number % 64}-{os.getpid()}-{number}"
    path.write_bytes(source)
    got = {command: call(command, str(path), most) for command in COMMANDS}
    path.unlink()
    wrong = [f"{command} ends with {ran[0]}" for command, ran in got.items() if ran[0] is None or not 0 <= ran[0] <= 9]
    refused = {command: ran[2] if ran[0] == 1 else None for command, ran in got.items()}
    if refused["run"] != refused["check"]: wrong.append("run and check refuse apart")
    if refused["fmt"] is not None and refused["check"] != refused["fmt"]: wrong.append("check accepts what fmt refuses")
    return name, source, [(command, ran[0]) for command, ran in got.items()], wrong

def damaged():
    number = 0
    for name, source in sources():
        whole = work / "whole"
        whole.write_bytes(source)
        began = time.monotonic()
        call("run", str(whole))
        most = 10 * (time.monotonic() - began) + 1
        for k in range(len(source)):
            for other in (source[:k], source[:k] + bytes([source[k] ^ TURNED]) + source[k + 1 :]):
                number += 1
                yield number, name, other, most

count, faults, calls = collections.Counter(), 0, 0
with concurrent.futures.ThreadPoolExecutor(os.cpu_count()) as pool:
    for name, source, statuses, wrong in pool.map(tried, damaged(), chunksize=1):
        count.update(statuses)
        calls += len(statuses)
        for what in wrong:
            faults += 1
            print(f"{name}: {what}: {source!r}")
for command in COMMANDS:
    print(f"{command}:", ", ".join(f"{n} times {status}" for (c, status), n in sorted(count.items(), key=str) if c == command))
print(f"{calls} calls on damaged sources, {faults} wrong")
sys.exit(faults > 0)
PY
