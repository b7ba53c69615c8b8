#!/usr/bin/env bash
# Succeeds if the proved program NAME (eco if none is named) is there and tools/build.sh built it of the sources as they stand: no
# source was written, made or removed since that began. Else it fails. Says nothing: is_built.sh [NAME].
set -eu
top=$(cd -P "$(dirname "$0")/.." && pwd)
. "$top/tools/lib.sh"
help "$@"
out="$top/crates/${1:-eco}/out"
[ -x "$out/${1:-eco}" ] && [ -e "$out/built" ] || exit 1
shopt -s nullglob
newer=$(find "$top/crates.txt" "$top"/crates/*/{src,specs,proofs} -newer "$out/built" -print -quit)
[ -z "$newer" ]
