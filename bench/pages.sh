#!/usr/bin/env bash
# The pages of docs/pages, which tools/explore writes, and tests of them in a browser.
#
#     bench/pages.sh write [PROGRAM]    writes the pages
#     bench/pages.sh [PROGRAM]          tests those that are there, by Chromium without a window (Debian: chromium)
#
# Of each page: it says nothing on its console; at each step its output is what PROGRAM prints up to there, and as many
# objects and regions are shown as the machine has; the keys go to the steps that they are for; and it has at most 300,000
# bytes. PROGRAM is bin/reggio, which is built, or another one. Not a part of the gate.
set -u
here=$(cd "$(dirname "$0")/.." && pwd)
wanted=test
if [ "${1-}" = write ]; then
  wanted=write
  shift
fi
if [ $# = 0 ]; then "$here/build" || exit; fi
REGGIO=$(readlink -f "${1:-$here/bin/reggio}")
export REGGIO
cd "$here" || exit 2

# Each page: its name, and what tools/explore is called with.
pages() {
  cat <<'PAGES'
region examples/region.rg
nested examples/nested.rg
archive docs/pages/archive.rg
queue examples/queue.rg
moving docs/pages/moving.rg --slide
plan examples/accounts.rg docs/pages/three.plan
PAGES
}

status=0
while read -r name words; do
  page=docs/pages/$name.html
  # (words)
  if [ $wanted = write ]; then
    tools/explore $words -o "$page" || status=1
  else
    [ "$(stat -c %s "$page")" -le 300000 ] || { echo "WRONG $name: more than 300,000 bytes"; status=1; }
    python3 bench/pages.py "$REGGIO" "$page" $words || status=1
  fi
done < <(pages)
exit $status
