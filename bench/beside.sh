#!/usr/bin/env bash
# Runs the programs of docs/beside.md: requests, doubly and graph of examples/, written in Rust, OCaml and Lua as well (bench/beside), as far
# as their compilers are installed. Each has to write what the example writes. Then it changes the Rust and OCaml ones as the page says, and
# shows what their compilers say, or what the changed program says when it runs.
# It prints a row for each, `ok` or `WRONG`; its status is 0 where none is wrong. Not a part of the gate. Usage: bench/beside.sh
set -u
here=$(cd "$(dirname "$0")/.." && pwd)
work=$(mktemp -d)
trap 'rm -rf "$work"' EXIT
cd "$work" || exit 2
cp "$here"/bench/beside/* .
wrong=0

judge() { # NAME WANTED FOUND
  if [[ $3 == *"$2"* ]]; then echo "ok    $1${4:+: $4}"; else wrong=1; echo "WRONG $1: ${3:0:300}"; fi
}

writes() { # NAME COMMAND..
  local name=$1 kind
  shift
  kind=${name%% *}
  "$@" <"$here/examples/requests.in" >output 2>notes
  if cmp -s output "$here/examples/$kind.out"; then echo "ok    $name writes what examples/$kind.rg does"; else wrong=1; echo "WRONG $name: $(head -c 300 output notes)"; fi
}

build_rust() { rustc --edition 2021 -O -o "$1" "$1.rs" 2>&1; }
build_ocaml() { ocamlopt -o "$1_ml" "$1.ml" 2>&1; }

# A changed copy: the text that is replaced stands once in the program.
change() { # FROM TO OLD NEW
  python3 - "$@" <<'PY'
import sys
source, to, old, new = sys.argv[1:]
text = open(source).read()
if text.count(old) != 1: sys.exit(f"{source}: {text.count(old)} times: {old}")
open(to, "w").write(text.replace(old, new))
PY
}

for kind in requests doubly graph; do
  if command -v rustc >/dev/null; then build_rust $kind >&2 && writes "$kind in Rust" ./$kind; fi
  if command -v ocamlopt >/dev/null; then build_ocaml $kind >&2 && writes "$kind in OCaml" ./${kind}_ml; fi
  if command -v lua5.4 >/dev/null; then writes "$kind in Lua" lua5.4 $kind.lua; fi
done

if command -v rustc >/dev/null; then
  change requests.rs kept.rs '    while let Some(many) = numbers.next() {' '    let mut kept: Option<&Item> = None;
    while let Some(many) = numbers.next() {
        if let Some(item) = kept { println!("{}", item.value); }'
  change kept.rs kept.rs '        requests += 1;' '        kept = request.items.first();
        requests += 1;'
  judge 'Rust: an item is kept when its request ends' 'error[E0597]' "$(build_rust kept)" 'error[E0597], does not live long enough'
  change doubly.rs twice.rs '    list.thin(2);' '    let first = list.first.clone().unwrap();
    let _held = first.borrow_mut();
    list.thin(2);'
  build_rust twice >&2
  judge 'Rust: a node is borrowed to write and borrowed again' 'already mutably borrowed' "$(./twice 2>&1)" 'it compiles, and panics when it runs'
  change graph.rs written.rs '    let (mut one, mut two)' '    graph[0].number = 9;
    let (mut one, mut two)'
  judge 'Rust: a node behind an Arc is written' 'error[E0596]' "$(build_rust written)" 'error[E0596], cannot borrow data in an Arc as mutable'
fi
if command -v ocamlopt >/dev/null; then
  change graph.ml written.ml 'let start = Graph.ring 5 in' 'let start = Graph.ring 5 in start.edges <- [];'
  judge 'OCaml: a node of a private type is written' 'Cannot assign field edges of the private type' "$(build_ocaml written)" 'Cannot assign field edges of the private type'
fi
exit $wrong
