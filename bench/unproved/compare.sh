#!/usr/bin/env bash
# Compares a program that build.sh made with one that was proved of the same sources: the machine instructions that both take,
# counted by callgrind, which the machine's load doesn't change, and their ratio. What differs by more than 2 %, or in what it
# writes, is marked, and the status is 1 then: what build.sh makes is no measure for such a program.
# It needs valgrind, and isn't a part of the gate. Usage: bench/unproved/compare.sh OUT/reggio PROVED
set -eu

refuse() { # STATUS WORD..
  local status=$1
  shift
  echo "bench/unproved/compare.sh: $*" >&2
  exit "$status"
}

[ $# = 2 ] || refuse 2 "usage: bench/unproved/compare.sh OUT/reggio PROVED"
for program in "$@"; do
  [ -x "$program" ] && [ ! -d "$program" ] || refuse 2 "$program is no program"
done
command -v valgrind >/dev/null || refuse 127 "valgrind, which counts instructions, isn't on the PATH"
unproved=$(readlink -f "$1") proved=$(readlink -f "$2")
here=$(cd "$(dirname "${BASH_SOURCE[0]}")/../.." && pwd)
work=$(mktemp -d)
trap 'rm -rf "$work"' EXIT
cd "$work"

echo 'main arena { let k: int = 0; while k < 33332 { k = k + 1; } print k; }' >loop.rg
cat >calls.rg <<'RG'
class R {
  def mut go(k: int): int { let r: int = k; if k > 0 { r = call self.go(k - 1); } return r; }
}
main arena {
  let a: mut R = new R;
  let r: int = 0;
  let i: int = 0;
  while i < 400 { r = call a.go(62); i = i + 1; }
  print r;
}
RG
cat >regions.rg <<'RG'
class Room {
  number: int;
  inner: iso Room;
  def mut sum(): int {
    let sum: int = self.number;
    if not self.inner is nil {
      enter self.inner as room { let rest: int = call room.sum(); sum = sum + rest; }
    }
    return sum;
  }
}
main arena {
  let house: iso Room = nil;
  let k: int = 1;
  while k <= 100 {
    let around: iso Room = new iso Room in trace;
    enter around as room { room.number = k; swap house, room.inner; }
    house = around;
    k = k + 1;
  }
  let sum: int = 0;
  k = 0;
  while k < 40 { enter house as room { sum = call room.sum(); } k = k + 1; }
  print sum;
}
RG

# How many instructions a program takes on some words; what it writes, and its status, go into a file.
instructions() { # PROGRAM FILE WORD..
  local program=$1 file=$2 status=0
  shift 2
  valgrind --tool=callgrind --callgrind-out-file=/dev/null --log-file=count "$program" "$@" </dev/null >"$file" 2>&1 || status=$?
  echo "status $status" >>"$file"
  awk '/Collected/ { print $NF }' count
}

wrong=0
printf '%-8s %12s %12s %8s\n' runs unproved proved ratio
compare() { # NAME WORD..
  local name=$1 here there mark=
  shift
  here=$(instructions "$unproved" here "$@")
  there=$(instructions "$proved" there "$@")
  if ! awk -v here="$here" -v there="$there" 'BEGIN { exit !(here <= there * 1.02 && there <= here * 1.02) }'; then mark=' more than 2 %'; fi
  if ! cmp -s here there; then mark="$mark WRITES OTHER THINGS"; fi
  [ -z "$mark" ] || wrong=1
  awk -v name="$name" -v here="$here" -v there="$there" -v mark="$mark" \
    'BEGIN { printf "%-8s %12d %12d %8.4f%s\n", name, here, there, here / there, mark }'
}
compare loop run loop.rg --every 0
compare list bulk 1000
compare calls run calls.rg --every 0
compare regions run regions.rg --every 0
compare check check "$here/examples/every_form.rg"
exit $wrong
