#!/usr/bin/env bash
# Draws a large problem twice by the built program: drawn_twice.sh [PROGRAM]. Both runs have to end with status 0 and to print the same
# text, which begins with the words' numbers. No clause says that two runs print the same, and a test would be proved for it.
# PROGRAM is crates/eco/out/eco, which the gate builds, if none is given. Says nothing if all is right.
set -eu
top=$(cd -P "$(dirname "$0")/.." && pwd)
. "$top/tools/lib.sh"
help "$@"
program=${1:-$top/crates/eco/out/eco}
words=(gen --seed 7 --size 2000 --targets 2)
first=$("$program" "${words[@]}")
second=$("$program" "${words[@]}")
if [ "${first%%$'\n'*}" != "instance 7 2000 2" ] || [ "$first" != "$second" ]; then
  printf 'drawn_twice: the two runs printed\n%s\nand\n%s\n' "$first" "$second" >&2
  exit 1
fi
