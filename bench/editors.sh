#!/usr/bin/env bash
# Tries what editors ask of tools/: of tools/server odd and cut messages and random edits, of what it is made of random damage,
# comments anywhere, the types of names, plans and traps; and the server in Neovim, Emacs, Vim and, against a stub of its
# interface, VS Code, each where it is there (Debian: neovim, emacs-nox with elpa-eglot, vim-nox with vim-ale, nodejs).
# It prints the last lines of each trial, and `WRONG` in front of those that went wrong; its status is 0 where none did.
# Not a part of the gate. Usage: bench/editors.sh [PROGRAM]
set -u
here=$(cd "$(dirname "$0")/.." && pwd)
if [ $# = 0 ]; then "$here/build" || exit; fi
REGGIO=$(readlink -f "${1:-$here/bin/reggio}") SERVER=$here/tools/server
FOLDER=$(mktemp -d)
export REGGIO SERVER FOLDER
trap 'rm -rf "$FOLDER"' EXIT
trials=$here/bench/editors wrong=0
examples=("$here"/crates/rg_examples/data/*.rg)

try() { # NAME, a pattern of the last lines where all is well, COMMAND..
  local name=$1 good=$2 status
  shift 2
  timeout 600 "$@" >"$FOLDER/out" 2>"$FOLDER/err" </dev/null
  status=$?
  tr -d '\r' <"$FOLDER/out" >"$FOLDER/said"
  if [ $status = 0 ] && grep -Eaq -- "$good" "$FOLDER/said" && ! grep -aq '^WRONG\|Traceback' "$FOLDER/said" "$FOLDER/err"; then
    echo "ok    $name: $(grep -Ea -- "$good" "$FOLDER/said" | tail -n 1)"
  else
    wrong=$((wrong + 1))
    echo "WRONG $name, status $status"
    grep -a '^WRONG' "$FOLDER/said" | head -n 20
    tail -n 5 "$FOLDER/said" "$FOLDER/err"
  fi
}

has() { command -v "$1" >/dev/null || { echo "left out: $1 isn't there"; return 1; }; }

try protocol '^0 wrong' python3 "$trials/protocol.py" "$SERVER" "$REGGIO"
try 'random edits' ' 0 wrong' python3 "$trials/random_edits.py" "$SERVER" "$REGGIO" "${examples[@]}"
try damage ' 0 raised, 0 with the same' python3 "$trials/damage.py" "$here/tools" "$REGGIO" 150 1 "${examples[@]}"
try comments ' 0 refused, 0 with comments in another order, 0 not stable, 0 bad' python3 "$trials/comments.py" "$here/tools" "$REGGIO" 300 "${examples[@]}"
try types ' 0 not found, .* 0 wrong' python3 "$trials/seen_types.py" "$here/tools" "$REGGIO" "${examples[@]}"
try plans ' of 0 nothing is said, 0 raised' python3 "$trials/plans.py" "$here/tools" "$REGGIO"
try traps ' with all open calls and the variables, 0 raised' python3 "$trials/traps.py" "$here/tools" "$REGGIO"
if has nvim; then try Neovim '^0 wrong' nvim --headless --clean -c "luafile $trials/nvim.lua"; fi
if has emacs; then try Emacs '^0 wrong' emacs -Q --batch -l "$trials/eglot.el"; fi
if has vim && [ -d /usr/share/vim-ale ]; then
  try Vim '^ok    definition' bash -c "vim --clean --not-a-term -T dumb -S '$trials/ale.vim' >/dev/null 2>&1; cat '$FOLDER/ale.out'"
fi
if has node; then try 'VS Code' '^0 wrong' node "$trials/vscode_stub.js" "$here/tools/vscode/extension.js" "$SERVER"; fi
echo "$wrong wrong"
[ $wrong = 0 ]
