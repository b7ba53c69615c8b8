#!/usr/bin/env bash
# Maps a design to the cells of this folder's library by Yosys, into one flat module: map.sh DESIGN OUT. So `old.v` was made of
# `old_rtl.v`. If Yosys isn't installed it says 'skipped', with status 77.
set -eu
here=$(cd -P "$(dirname "$0")" && pwd)
. "$here/../../tools/lib.sh"
help "$@"
need map yosys
log=$(mktemp)
trap 'rm "$log"' EXIT
yosys -q -p "read_verilog $1; synth -flatten -top timer; dfflegalize -cell \$_DFFE_PP_ x -cell \$_DFF_P_ x; \
  techmap -map $here/cells_map.v; dfflibmap -liberty $here/cells.lib; abc -liberty $here/cells.lib; opt_clean; \
  write_verilog -noattr $2" >"$log" 2>&1 || {
  tail -n 20 "$log"
  exit 1
}
