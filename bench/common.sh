# What the scripts of this folder begin with (they read it by `.`, with their words TURNS and PROGRAM): the program is
# PROGRAM or that of the environment's REGGIO, or is built, and `work` is a folder for their files, which is gone when they end.
here=$(cd "$(dirname "${BASH_SOURCE[0]}")/.." && pwd)
program=${2:-${REGGIO:-}}
if [ -z "$program" ]; then
  "$here/build" || exit
  program=$here/bin/reggio
fi
work=$(mktemp -d)
trap 'rm -rf "$work"' EXIT
