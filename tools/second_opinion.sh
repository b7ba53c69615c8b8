#!/usr/bin/env bash
# Takes an adder through Yosys into the profile, patches it with eco, and has Yosys' SAT prover compare the result with the specification;
# both for a specification in Verilog and for the same one in AIGER. ECO=path names the program. If Yosys isn't installed it says 'skipped', with status 77.
set -eu
top=$(cd -P "$(dirname "$0")/.." && pwd)
. "$top/tools/lib.sh"
help "$@"
need second_opinion yosys
enter
cat >old.v <<'VERILOG'
module adder(input [2:0] a, input [2:0] b, input cin, output [2:0] s, output cout);
  assign {cout, s} = a + b + cin;
endmodule
VERILOG
cat >new.v <<'VERILOG'
module adder(input [2:0] a, input [2:0] b, input cin, output [2:0] s, output cout);
  wire [3:0] sum = a + b + cin;
  assign s = sum[2:0];
  assign cout = sum[3] | (a == 3'd7);
endmodule
VERILOG
map='synth -flatten -top adder; abc -g AND,NAND,OR,NOR,XOR,XNOR'
aig='synth -flatten -top adder; splitnets -ports; opt_clean; aigmap; clean'
yosys -q -p "read_verilog old.v; $map; opt_clean; write_json old.json" >old.log 2>&1
yosys -q -p "read_verilog new.v; $map; splitnets -ports; opt_clean -purge; write_verilog -noattr -nohex g.v" >new.log 2>&1
yosys -q -p "read_verilog new.v; $aig; write_aiger -ascii -symbols g.aag" >aig.log 2>&1
"$top/tools/from_yosys.py" old.json --cut cout=t_0 >f.v
: >weights.txt
prove='miter -equiv -flatten -make_outputs golden patched miter; sat -verify -prove trigger 0 miter'
for specification in g.v g.aag; do
  "$eco" synth --impl f.v --spec "$specification" --weight weights.txt --patch patch.v --out patched.v >report.txt
  if yosys -q -p "read_verilog patched.v; rename adder patched; read_verilog g.v; rename adder golden; $prove" >compare.log 2>&1
  then
    echo "second_opinion: $specification: Yosys finds the patched adder equal to its specification"
  else
    tail -n 20 compare.log
    echo "second_opinion: $specification: Yosys finds a difference"
    exit 1
  fi
done
