#!/usr/bin/env bash
# Has a checker of others check a proof of `eco prove`: lrat_check.sh CNF TRACE. tools/tracecheck.py writes the proof in the form of LRAT;
# it is checked by the checker that is proved in ACL2 (Heule, Hunt and Kaufmann), which stands in the books of ACL2: Debian's package
# acl2-books, some 3 GB when installed. Prints `verified`, or what was said, with status 1. If the package isn't installed it says 'skipped',
# with status 77.
set -eu
top=$(cd -P "$(dirname "$0")/.." && pwd)
. "$top/tools/lib.sh"
help "$@"
need lrat_check acl2
ls /usr/share/acl2-*/books/projects/sat/lrat/list-based/run.cert >/dev/null 2>&1 || skip lrat_check "acl2-books isn't installed"
made=$(mktemp -d)
trap 'rm -r "$made"' EXIT
cp "$1" "$made/proof.cnf"
"$top/tools/tracecheck.py" "$1" "$2" --lrat "$made/proof.lrat" >/dev/null
cd "$made"
acl2 >log 2>&1 <<'LISP' || true
(include-book "projects/sat/lrat/list-based/run" :dir :system)
(lrat::lrat-check "proof.cnf" "proof.lrat")
LISP
if grep -q '^s VERIFIED' log; then
  echo verified
else
  tail -n 20 log
  exit 1
fi
