#!/usr/bin/env bash
# Tries the edits that the gate leaves out, those in crates/NAME/more-edits: the prover has to refuse each.
#
#   tools/more_edits.sh [NAME ..]    of these crates, or of all that have such edits
#
# It works on a copy of the repository's files, in a temporary folder, and begins with what rt check keeps of each crate.
# Ends with status 0 where every edit was refused.
set -eu
. "$(dirname "$0")/lib.sh"
help "$@"
cd -P "$(dirname "$0")/.."
if [ $# -gt 0 ]; then
    names=("$@")
else
    mapfile -t names < <(cd crates && printf '%s\n' */more-edits | cut -d/ -f1)
fi
room=$(mktemp -d)
trap 'rm -rf "$room"' EXIT
git ls-files -z | xargs -0 cp --parents -t "$room"
cd "$room"
rm -rf crates/*/must-fail
for name in "${names[@]}"; do
    mv "crates/$name/more-edits" "crates/$name/must-fail"
done
for name in "${names[@]}"; do
    (cd "crates/$name" && rt check > /dev/null)
done
rt must-fail "${names[@]}"
