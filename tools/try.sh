#!/usr/bin/env bash
# Patches an example (majority, or the one that is named) with cheap signals, and shows what was written: try.sh [EXAMPLE]. It runs the proved program if it is
# built of the sources as they stand; else the same sources unproved, which are there in one to three minutes. It says which.
set -eu
top=$(cd -P "$(dirname "$0")/.." && pwd)
. "$top/tools/lib.sh"
help "$@"
example="$top/examples/${1:-majority}"
made=$(mktemp -d)
trap 'rm -r "$made"' EXIT
words=(synth --least 1 --impl "$example/implementation.v" --spec "$example/specification.v" --weight "$example/weights.txt"
  --patch "$made/patch.v" --out "$made/patched.v")
if [ -e "$example/care.v" ]; then
  words+=(--care "$example/care.v")
fi
status=0
if "$top/tools/is_built.sh"; then
  echo "--- by the proved program:"
  "$top/tools/eco.sh" "${words[@]}" >"$made/report" || status=$?
else
  echo "--- by the sources as they stand, before any proof (tools/eco.sh builds the proved program):"
  (cd "$top/crates/eco" && rt try -- "${words[@]}" 2>"$made/log" >"$made/report") || status=$?
fi
cat "$made/report"
if grep -q '^unrectifiable' "$made/report"; then
  echo "--- at this input, one bit for each input of the implementation, no patch can help"
  exit 0
elif [ "$status" != 0 ]; then
  [ ! -e "$made/log" ] || tail -n 20 "$made/log" >&2
  exit "$status"
fi
echo "--- the patch:"
cat "$made/patch.v"
echo "--- the patched netlist:"
cat "$made/patched.v"
