#!/usr/bin/env bash
# How long `reggio check` and `reggio code` take on accepted sources of 64 KiB to 1 MiB: many classes, one long body, deep nesting,
# 256 variables in scope, long expressions. `code` reads, checks and lowers each, and writes the listing. It prints seconds,
# nanoseconds per byte and bytes written, and for each kind how far the slowest size is above the fastest: that should be within
# 1.5, and 1 MiB is checked within two seconds. Not a part of the gate. Usage: bench/code.sh [TURNS [PROGRAM]]
set -eu
. "$(dirname "$0")/common.sh"
for command in check code; do
  echo "$command:"
  python3 "$here/bench/accepted.py" "$work" "$program" "${1:-10}" "$command"
done
