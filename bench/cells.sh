#!/usr/bin/env bash
# Late changes of six designs, mapped to the cells of two real libraries and patched by tools/fix_cells.sh: cells.sh [--yosys] [--keep FOLDER]
# [NAME..]. Prints a row for each change of the designs that are named, or of all of them; then the rows are kept in bench/results/cells.csv.
# bench/late_changes.py has the words and what the columns are. ECO=path names the program; without it tools/eco.sh is taken, which builds it. If
# Yosys or the packages qflow-tech-osu018 and qflow-tech-osu035 of Debian aren't installed it says 'skipped', with status 77.
set -eu
top=$(cd -P "$(dirname "$0")/.." && pwd)
. "$top/tools/lib.sh"
help "$@"
need cells yosys patch
for library in osu018 osu035; do
  [ -e "/usr/share/qflow/tech/$library/${library}_stdcells.lib" ] || skip cells "qflow-tech-$library isn't installed"
done
"$eco" --version >/dev/null
exec "$top/bench/late_changes.py" "$@"
