#!/usr/bin/env bash
# Prints the path of the proved program NAME (eco if none is named), which is built first unless that was done of the sources as they
# stand: build.sh [NAME]. Each crate is proved for it, which takes a while the first time.
set -eu
top=$(cd -P "$(dirname "$0")/.." && pwd)
. "$top/tools/lib.sh"
help "$@"
name=${1:-eco}
crate="$top/crates/$name"
if ! "$top/tools/is_built.sh" "$name"; then
  echo "building $name (each crate is proved first; this takes a while)" >&2
  mkdir -p "$crate/out"
  rm -f "$crate/out/built"
  # what is written from here on counts as newer than the program
  touch "$crate/out/began"
  (cd "$crate" && rt run -- --version >"$crate/out/log" 2>&1) || {
    tail -n 20 "$crate/out/log" >&2
    exit 1
  }
  mv "$crate/out/began" "$crate/out/built"
fi
echo "$crate/out/$name"
