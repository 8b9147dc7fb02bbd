#!/usr/bin/env bash
# Prints what the gate takes of the processor from nothing, crate by crate, as the table under 'Costs' in docs/proving.md has
# it: seconds of each crate's proof (and of its tests'), of its edits with the check that they begin with, and minutes of both.
# It runs `rt ci --anew`, of the crates that are named or of all, and looks each second at what each check has used (user and
# system), so of one that ends up to a second is missing. Nothing else may be checked on the machine meanwhile.
# Not a part of the gate.
# Usage: bench/costs.sh [NAME..]
cd "$(dirname "$0")/.." && exec python3 - "$@" <<'PY'
import collections, glob, os, subprocess, sys, time

TICK = os.sysconf("SC_CLK_TCK")

def check_of(process):
    """The crate that a process checks or builds, whether that is for an edit, and its seconds so far; None where it does neither."""
    with open(f"/proc/{process}/cmdline", "rb") as it: words = it.read().split(b"\0")
    if b"--crate-name" not in words: return None
    with open(f"/proc/{process}/stat") as it: numbers = it.read().rsplit(")", 1)[1].split()
    name = words[words.index(b"--crate-name") + 1].decode()
    edit = "/rt-edit" in os.readlink(f"/proc/{process}/cwd")
    return (name, edit), numbers[19], (int(numbers[11]) + int(numbers[12])) / TICK

def sample(seen):
    for process in filter(str.isdigit, os.listdir("/proc")):
        try:
            found = check_of(process)
        except (OSError, IndexError, ValueError):
            continue  # it has ended
        if found:
            of, start, seconds = found
            seen[process, start] = of, seconds

seen = {}
with subprocess.Popen(["rt", "ci", "--anew", *sys.argv[1:]], stdout=sys.stderr) as gate:
    while gate.poll() is None:
        sample(seen)
        time.sleep(1)

spent = collections.Counter()
for of, seconds in seen.values(): spent[of] += seconds
names = [line.split(":")[0] for line in open("crates.txt") if ":" in line and not line.startswith("#")]
print("| Crate | Proof | Edits, with the check that they begin with | Minutes |\n|---|---|---|---|")
for name in names:
    proof, edits = spent[name, False], spent[name, True]
    if not proof + edits: continue
    many = len(glob.glob(f"crates/{name}/must-fail/*.edit"))
    print(f"| `{name}` | {proof:.0f} | {f'{edits:.0f} ({many})' if many else 'none'} | {(proof + edits) / 60:.0f} |")
proofs, edits = (sum(seconds for (_, edit), seconds in spent.items() if edit == of) / 60 for of in (False, True))
print(f"| **all** | {proofs:.0f} minutes | {edits:.0f} minutes | **{proofs + edits:.0f}** |")
sys.exit(gate.returncode)
PY
