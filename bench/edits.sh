#!/usr/bin/env bash
# Tries the wrong bodies that the gate leaves out: the edits of crates/NAME/more-edits/, of the crates named or of all,
# in a copy of the repository in which they stand in place of the gate's. `rt must-fail` says which are refused.
# An edit that no longer applies, since an `old:` text of it doesn't stand exactly once in its file, is named and not
# tried. The status is 1 where there is one, and else that of `rt must-fail`. With --applies none is tried, and those
# of must-fail/ are looked at, too.
# Usage: bench/edits.sh [--applies] [NAME..]
set -eu
cd "$(dirname "$0")/.."
folders=more-edits
[ "${1-}" != --applies ] || { folders='more-edits must-fail'; shift; }
if [ $# = 0 ]; then
  set -- $(ls -d crates/*/more-edits crates/*/must-fail | cut -d / -f 2 | sort -u)
fi
stale=$(for name in "$@"; do
  for folder in $folders; do
    ls "crates/$name/$folder"/*.edit 2>/dev/null || true
  done
done | python3 -c '
import os, sys
for edit in sys.stdin.read().split():
    crate, texts, why = edit.rsplit("/", 2)[0], {}, "it has no pair"
    for line in open(edit):
        word, _, rest = line.rstrip("\n").partition(": ")
        if word == "file":
            path = os.path.join(crate, rest)
        elif word == "old":
            text = texts.get(path) or (open(path).read() if os.path.isfile(path) else "")
            old, found = rest, text.count(rest)
            why = f"what it replaces stands {found} times in {path}" if found != 1 else ""
            if why:
                break
        elif word in ("new", "new:"):
            texts[path] = text.replace(old, rest)
        else:
            why = "a line is none of file, old and new"
            break
    if why:
        print(f"{edit}: not tried: {why}")
')
[ -z "$stale" ] || printf '%s\n' "$stale"
if [ "$folders" = more-edits ]; then
  work=$(mktemp -d)
  trap 'rm -rf "$work"' EXIT
  tar -c --exclude=out crates crates.txt HANDLES | tar -C "$work" -x
  cd "$work"
  rm -rf crates/*/must-fail
  printf '%s\n' "$stale" | sed 's/: .*//' | xargs -r rm -f
  for name in "$@"; do
    [ ! -d "crates/$name/more-edits" ] || mv "crates/$name/more-edits" "crates/$name/must-fail"
  done
  rt must-fail "$@" || exit
fi
[ -z "$stale" ]
