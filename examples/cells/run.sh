#!/usr/bin/env bash
# A change to a finished netlist of library cells, from two netlists of cells to a proved one: run.sh [FOLDER]. It calls tools/fix_cells.sh on
# this folder's files, prints what is changed in the old netlist, and leaves all files in the folder that is named, or in none. ECO=path
# names the program; without it tools/eco.sh is taken, which builds it. `new_cells.v` was made of `new.v` by map.sh.
set -eu
here=$(cd -P "$(dirname "$0")" && pwd)
top=$(cd "$here/../.." && pwd)
. "$top/tools/lib.sh"
help "$@"
enter "$@"
"$eco" --version >/dev/null
ECO=$eco "$top/tools/fix_cells.sh" "$here/cells.lib" "$here/old.v" "$here/new_cells.v" .
echo '--- what is gone (<) and what came (>):'
diff "$here/old.v" result.v || true
