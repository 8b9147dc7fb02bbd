#!/usr/bin/env bash
# Tries modules. What `pack` writes of each program of examples/ is read with a reader that shares nothing with the program
# (bench/module.py), and its instructions are compared with the listing of `code`, headings left out; what `exec` of it writes and
# answers, with a report, is compared with `run` of the source. Then the module of SOURCE, by default examples/first.rg, is cut at
# each byte, and each byte is changed to three others: `exec` answers E91 or E92 at line 0, or runs what the bytes are to its end, to
# a trap or for all its steps. It counts the answers. Not a part of the gate. Usage: [REGGIO=PROGRAM] bench/modules.sh [SOURCE]
set -eu
. "$(dirname "$0")/common.sh"

# Writes what a command answers: its output, its notes and its status.
answer() { # FILE INPUT WORD..
  local file=$1 input=$2 status=0
  shift 2
  "$program" "$@" <"$input" >"$file" 2>"$file.notes" || status=$?
  { cat "$file.notes"; echo "status $status"; } >>"$file"
}

tried=0
for source in "$here"/examples/*.rg; do
  "$program" check "$source" >"$work/accepted" 2>&1 || continue
  "$program" pack "$source" >"$work/module"
  "$program" code "$source" | grep -v ':$' >"$work/listed"
  python3 "$here/bench/module.py" "$work/module" >"$work/read"
  cmp "$work/listed" "$work/read" || { echo "$source: another module"; exit 1; }
  input=/dev/null
  if [ -e "${source%.rg}.in" ]; then input=${source%.rg}.in; fi
  answer "$work/run" "$input" run "$source" --report
  answer "$work/exec" "$input" exec "$work/module" --report
  cmp "$work/run" "$work/exec" || { echo "$source: exec of its module isn't its run"; exit 1; }
  tried=$((tried + 1))
done
[ "$tried" -gt 0 ]
echo "$tried modules are read as they are listed, and run as their sources do"

"$program" pack "${1:-$here/examples/first.rg}" >"$work/module"
python3 - "$program" "$work" <<'PY'
import collections, subprocess, sys

program, work = sys.argv[1:]
with open(f"{work}/module", "rb") as f: whole = f.read()

def damaged():
    for k in range(len(whole)): yield whole[:k]
    yield whole + b"\0"
    for k, byte in enumerate(whole):
        for other in ((byte + 1) % 256, byte ^ 128, 255 - byte): yield whole[:k] + bytes([other]) + whole[k + 1:]

counts = collections.Counter()
for data in damaged():
    with open(f"{work}/other", "wb") as f: f.write(data)
    done = subprocess.run([program, "exec", f"{work}/other", "--steps", "10000"], stdin=subprocess.DEVNULL, capture_output=True)
    notes = done.stderr.decode()
    refused = notes in ("E91 module at line 0\n", "E92 unverified at line 0\n")
    if refused != (done.returncode == 1) or done.returncode not in (0, 1, 3, 4): sys.exit(f"{data.hex()}: {done.returncode} {notes}")
    counts[notes.strip() if refused else "runs"] += 1
for answer, count in sorted(counts.items()): print(count, answer)
PY
