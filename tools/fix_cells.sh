#!/usr/bin/env bash
# From two netlists of library cells to a patch in cells that is proved:
#   fix_cells.sh LIB OLD NEW FOLDER [--match FILE] [--match-buses] [--add] [--care FILE] [--cells FILE] [--yosys]
# LIB is the library in Liberty's form, OLD the netlist as it was built, NEW the revised design mapped to cells of LIB. The folder gets
# result.v, which is OLD with the patch in cells, and each step's files. The last lines that are printed are a table: what was cut, cost,
# gates, cells and area added, and each step's seconds. Its status is 0 if result.v, read anew, was proved equal to NEW.
# `tools/fix_cells.py --help` has the options. ECO=path names the program; without it tools/eco.sh is taken, which builds it.
set -eu
top=$(cd -P "$(dirname "$0")/.." && pwd)
. "$top/tools/lib.sh"
help "$@"
# builds it first if need be, so that no question's seconds are spent on that
"$eco" --version >/dev/null
ECO=$eco exec python3 "$top/tools/fix_cells.py" "$@"
