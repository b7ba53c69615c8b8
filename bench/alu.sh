#!/usr/bin/env bash
# A change to a small arithmetic unit, from the two designs to a patch that Yosys has compared: eight targets, cared inputs: alu.sh [FOLDER].
# Says what each step answers and how long it takes, and leaves the files in the folder that is named, or in none. ECO=path names the
# program; without it tools/eco.sh is taken, which builds it. If Yosys isn't installed it says 'skipped', with status 77.
set -eu
top=$(cd -P "$(dirname "$0")/.." && pwd)
. "$top/tools/lib.sh"
help "$@"
need alu yosys
enter "$@"
"$eco" --version >/dev/null

map='synth -flatten -top alu; abc -g AND,NAND,OR,NOR,XOR,XNOR'
ports="$map; splitnets -ports; opt_clean -purge"
step 'map the old design' said.txt yosys -q -p "read_verilog $top/bench/alu/old.v; $map; opt_clean; write_json old.json"
step 'map the new one' said.txt yosys -q -p "read_verilog $top/bench/alu/new.v; $ports; write_verilog -noattr -nohex g.v"
step 'map what is cared for' said.txt yosys -q -p "read_verilog $top/bench/alu/care.v; $ports; write_verilog -noattr -nohex c.v"
cuts=()
for bit in 0 1 2 3 4 5 6 7; do cuts+=(--cut "masked[$bit]=t_$bit"); done
step 'cut eight nets' f.v "$top/tools/from_yosys.py" old.json "${cuts[@]}"
# each gate's output may be read, at three times what an input weighs
sed -n 's/^[a-z]* (\(n[0-9]*\),.*/\1 3/p' f.v >w.txt
problem=(--impl f.v --spec g.v --weight w.txt --care c.v --patch patch.v --out patched.v)
step 'synth' report.txt "$eco" synth "${problem[@]}"
step 'audit' said.txt "$eco" audit "${problem[@]}" --report report.txt
step 'prove' said.txt "$eco" prove --left patched.v --right g.v --cnf equal.cnf --trace equal.trace
step 'recheck' said.txt "$eco" recheck --cnf equal.cnf --trace equal.trace
step 'compare by Yosys' said.txt yosys -q -p "read_verilog patched.v; rename alu patched; read_verilog g.v; rename alu golden; \
  miter -equiv -flatten -make_outputs golden patched miter; sat -verify -prove trigger 0 miter"
rm said.txt log.txt
grep -v '^force' report.txt
