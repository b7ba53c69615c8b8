#!/usr/bin/env python3
"""Tests what reads netlists of library cells and puts patches back into them. Says nothing if all is right.

    tools/test_cells.py

The expected texts are worked out by hand; no other program is needed. If Yosys is installed, its functions of the cells of
examples/cells/cells.lib, and of the libraries of Debian's packages qflow-tech-osu035 and qflow-tech-osu018 if these are installed too,
are compared with ours on all inputs.
"""
import argparse
import contextlib
import difflib
import io
import json
import os
import random
import shutil
import subprocess
import sys
import tempfile
import unittest

import from_cells
import to_cells
from cover import Cells, Cover, Network
from cut_open import Cuts, opened
from gates import simulate, value
from liberty import FunctionReader, Library, NoFunction, input_words, table_of, word_of

TOP = os.path.join(os.path.dirname(os.path.realpath(__file__)), "..")
OWN = os.path.join(TOP, "examples", "cells", "cells.lib")
DEBIAN = ["/usr/share/qflow/tech/%s/%s_stdcells.lib" % (name, name) for name in ("osu035", "osu018")]


def cell(name, area, inputs, function, more=""):
    pins = "".join(" pin(%s) { direction : input; }" % pin for pin in inputs)
    return 'cell (%s) { area : %d;%s pin(Y) { direction : output; function : "%s"; } %s }\n' % (name, area, pins, function, more)


def flop(name, inputs, clock, more=""):
    pins = "".join(" pin(%s) { direction : input; }" % pin for pin in inputs)
    return ('cell (%s) { area : 384; ff (IQ,IQN) { next_state : "D"; clocked_on : "%s"; %s }%s pin(Q) { direction : output; function : "IQ"; } }\n'
            % (name, clock, more, pins))


LIBRARY = """library(tests) {
  /* a comment */ time_unit : "1ns"
  values_of ( \\
    "1, 2", \\
    "3" );
""" + "".join([
    cell("INVX1", 64, "A", "(!A)"), cell("INVX2", 64, "A", "(!A)"), cell("BUFX2", 96, "A", "A"), cell("NAND2X1", 96, "AB", "(!(A B))"),
    cell("NOR2X1", 96, "AB", "(!(A+B))"), cell("AND2X1", 128, "AB", "(A B)"), cell("OR2X1", 128, "AB", "(A+B)"),
    cell("AOI21X1", 128, "ABC", "(!((A B)+C))"), cell("OAI21X1", 92, "ABC", "(!((A+B) C))"), cell("XOR2X1", 224, "AB", "(A^B)"),
    cell("MUX2X1", 192, "ABS", "(!((S A) + (!S B)))"), cell("CHEAP", 1, "AB", "(!(A B))", "dont_use : true;"),
    cell("CHEAPER", 1, "AB", "(!(A+B))", "dont_touch : true;"), flop("DFFPOSX1", ["CLK", "D"], "CLK"), flop("DFFNEGX1", ["CLK", "D"], "(!CLK)"),
    flop("DFFSR", ["CLK", "D", "R", "S"], "CLK", 'clear : "(!R)"; preset : "(!S)"; clear_preset_var1 : L;'),
    "cell (LATCH) { latch (IQ,IQN) { data_in : \"D\"; enable : \"CLK\"; } pin(D) { direction : input; } pin(CLK) { direction : input; } "
    "pin(Q) { direction : output; function : \"IQ\"; } }\n",
    "cell (TBUFX1) { pin(A) { direction : input; } pin(EN) { direction : input; } "
    "pin(Y) { direction : output; function : \"(!A)\"; three_state : \"(!EN)\"; } }\n",
    "cell (PAD) { pin(P) { direction : inout; } }\n", "cell (ROM) { bus(A) { } }\n", "cell (HAX1) { area : 1; pin(A) { direction : input; } "
    "pin(B) { direction : input; } pin(YC) { direction : output; function : \"(A B)\"; } pin(YS) { direction : output; function : \"(A^B)\"; } }\n",
]) + "}\n"


class Tests(unittest.TestCase):
    """What all tests have: a folder, the small library in it, and calls of the scripts."""
    def setUp(self):
        self.folder = tempfile.TemporaryDirectory()
        self.addCleanup(self.folder.cleanup)
        self.lib = self.write("tests.lib", LIBRARY)

    def write(self, name, text):
        path = os.path.join(self.folder.name, name)
        with open(path, "w", encoding="latin-1", newline="") as file:
            file.write(text)
        return path

    def called(self, script, *words):
        """The status, and what the script printed on its outputs."""
        said, wrong = io.TextIOWrapper(io.BytesIO(), encoding="latin-1"), io.StringIO()
        status = 0
        old = sys.argv
        sys.argv = [script.__name__, *words]
        try:
            with contextlib.redirect_stdout(said), contextlib.redirect_stderr(wrong):
                script.main()
        except SystemExit as ended:
            status = ended.code or 0
        finally:
            sys.argv = old
        said.flush()
        return status, said.buffer.getvalue().decode("latin-1"), wrong.getvalue()

    def gates(self, netlist, *words):
        return self.called(from_cells, "--lib", self.lib, self.write("netlist.v", netlist), *words)

    def put_back(self, netlist, patch, *cuts):
        words = [word for cut in cuts for word in ("--cut", cut)]
        status, said, wrong = self.called(to_cells, "--lib", self.lib, self.write("old.v", netlist), "--patch", self.write("patch.v", patch), *words)
        self.assertEqual((status, wrong), (0, ""))
        return said

    def assert_refused(self, netlist, line):
        status, said, wrong = self.gates(netlist)
        self.assertEqual((status, said, wrong), (3, "", line + "\n"))

    def changed(self, old, new):
        """The lines that are gone and that are new, as a comparison of lines tells them."""
        lines = difflib.ndiff(old.splitlines(), new.splitlines())
        return [line for line in lines if line[0] in "+-"]


def patch_of(outputs, inputs, *gates):
    ports = ["output %s;" % name for name in outputs] + ["input %s;" % name for name in inputs]
    return "\n".join(["module patch (%s);" % ", ".join([*outputs, *inputs]), *ports, *gates, "endmodule", ""])


ARBITER = """module top(a, b, rst, y, z);
  input a, b, rst;
  output y, z;
  wire _015_;
  wire _016_;
  NAND2X1 _059_ (
    .A(a),
    .B(b),
    .Y(_015_)
  );
  INVX1 _060_ (
    .A(_015_),
    .Y(_016_)
  );
  OR2X1 _061_ (
    .A(_016_),
    .B(a),
    .Y(y)
  );
  OR2X1 _062_ (
    .A(_016_),
    .B(_015_),
    .Y(z)
  );
endmodule
"""
UART = """module uart(rx_busy, p, q, y, z);
  input rx_busy, p, q;
  output y, z;
  wire _110_, _111_, _112_, _211_, _300_;
  NAND2X1 _380_ ( .A(p), .B(q), .Y(_110_) );
  NOR2X1 _381_ ( .A(p), .B(q), .Y(_111_) );
  INVX1 _379_ ( .A(_110_), .Y(_112_) );
  NAND2X1 _382_ (
    .A(rx_busy),
    .B(_110_),
    .Y(_211_)
  );
  OAI21X1 _268_ ( .A(_112_), .B(_211_), .C(_111_), .Y(y) );
  OR2X1 _269_ ( .A(_112_), .B(_110_), .Y(z) );
endmodule
"""
RESET = """module uart(clk, rst, d, rx_d2, n);
  input clk, rst, d;
  output n;
  output rx_d2;
  wire _003_, _043_;
  INVX1 _400_ ( .A(rst), .Y(_003_) );
  BUFX2 _401_ ( .A(_003_), .Y(n) );
  INVX1 _402_ ( .A(rst), .Y(_043_) );
  DFFSR _466_ (
    .CLK(clk),
    .D(d),
    .Q(rx_d2),
    .R(1'h1),
    .S(_043_)
  );
endmodule
"""


class Worked(Tests):
    """The five worked examples of docs/CELLS.md."""
    def test_one_cell_for_one_cell(self):
        new = self.put_back(ARBITER, patch_of(["t_0"], ["rst", "_015_"], "nor (t_0, rst, _015_);"), "_016_=t_0")
        gone = "  INVX1 _060_ (\n    .A(_015_),\n    .Y(_016_)\n  );\n"
        block = "  NOR2X1 eco_0 (\n    .A(_015_),\n    .B(rst),\n    .Y(_016_)\n  );\n"
        self.assertEqual(new, ARBITER.replace(gone, "").replace("endmodule\n", block + "endmodule\n"))

    def test_pins(self):
        patch = patch_of(["t_0", "t_1"], ["_111_", "rx_busy"], "buf (t_0, _111_);", "nand (t_1, _111_, rx_busy);")
        new = self.put_back(UART, patch, "_382_.B=t_0", "_268_.A=t_1")
        wanted = UART.replace(".B(_110_),\n    .Y(_211_)", ".B(_111_),\n    .Y(_211_)")
        wanted = wanted.replace("  OAI21X1 _268_ ( .A(_112_)", "  wire eco_n0;\n  OAI21X1 _268_ ( .A(eco_n0)")
        block = "  NAND2X1 eco_0 (\n    .A(_111_),\n    .B(rx_busy),\n    .Y(eco_n0)\n  );\n"
        self.assertEqual(new, wanted.replace("endmodule\n", block + "endmodule\n"))

    def test_a_reset_value(self):
        patch = patch_of(["t_0", "t_1"], ["_003_"], "buf (t_0, _003_);", "buf (t_1, 1'b1);")
        new = self.put_back(RESET, patch, "_466_.R=t_0", "_466_.S=t_1")
        wanted = RESET.replace(".R(1'h1)", ".R(_003_)").replace(".S(_043_)", ".S(1'b1)")
        self.assertEqual(new, wanted.replace("  INVX1 _402_ ( .A(rst), .Y(_043_) );\n", ""))

    def test_buses_lists_and_constants(self):
        netlist = """module m(a, clk, y);
input [1:2] a; input clk; output y;
wire [1:0] q, d;
assign d = { a[1], 1'h0 };
DFFPOSX1 r0 (.CLK(clk), .D(d[0]), .Q(q[0]));
DFFNEGX1 r1 (.CLK(clk), .D(d[1]), .Q(q[1]));
NAND2X1 u (.A(q[1]), .B(q[0]), .Y(y));
endmodule
"""
        inputs, outputs = ["\\a[2] ", "\\a[1] ", "clk", "\\q[0] ", "\\q[1] "], ["y", "\\q[0]%clock ", "\\q[0]%next ", "\\q[1]%clock ", "\\q[1]%next "]
        wanted = ["module m (%s);" % ", ".join(inputs + outputs)] + ["input %s;" % name for name in inputs] + ["output %s;" % name for name in outputs]
        wanted += ["nand (y, \\q[1] , \\q[0] );", "buf (\\q[0]%clock , clk);", "buf (\\q[0]%next , 1'b0);", "not (\\q[1]%clock , clk);",
                   "buf (\\q[1]%next , \\a[1] );", "endmodule", ""]
        self.assertEqual(self.gates(netlist), (0, "\n".join(wanted), ""))

    def test_refusals(self):
        self.assert_refused("module m(d, oe, z); input d, oe; output z;\nTBUFX1 t0 (.A(d), .EN(oe), .Y(z));\nendmodule\n",
                            "refused impl cell TBUFX1 three_state t0")
        self.assert_refused("module m(d, en, q); input d, en; output q;\nLATCH l0 (.D(d), .CLK(en), .Q(q));\nendmodule\n", "refused impl cell LATCH latch l0")
        self.assert_refused("module m(d, q);\ninput d; output q;\n\nINVX1 i0 (d, q);\nendmodule\n", "refused impl line 4 positional i0")
        self.assert_refused("module m(en, l);\ninput en; output l;\nalways @* if (en) l = _00_;\nendmodule\n", "refused impl line 3 always")
        self.assert_refused("module m(a, y);\ninput [1:0] a; output y; wire \\a[0] ;\nINVX1 i (.A(\\a[0] ), .Y(y));\nendmodule\n", "refused impl twonames a[0]")

    def test_a_flip_flop_of_the_new_netlist_alone(self):
        old = self.write("old.v", "module m(c, r, d, y);\ninput c, r, d; output y;\nINVX1 i (.A(d), .Y(y));\nendmodule\n")
        new = self.write("new.v", "module m(c, r, d, y);\ninput c, r, d; output y; wire rx_par;\n"
                         "DFFSR f (.CLK(c), .D(d), .R(r), .S(1'b1), .Q(rx_par));\nINVX1 i (.A(rx_par), .Y(y));\nendmodule\n")
        line = "refused ports rx_par rx_par%clear rx_par%clock rx_par%next rx_par%preset (--add takes it over)\n"
        self.assertEqual(self.called(from_cells, "--lib", self.lib, new, "--old", old), (3, "", line))
        both = line.replace("\n", " only in the old netlist: x x%clock x%next\n")
        other = self.write("old.v", "module m(c, r, d, y);\ninput c, r, d; output y;\nDFFPOSX1 g (.CLK(c), .D(d), .Q(x));\nINVX1 i (.A(x), .Y(y));\nendmodule\n")
        self.assertEqual(self.called(from_cells, "--lib", self.lib, new, "--old", other), (3, "", both))


class Forms(Tests):
    """Every form of the profile, and every refusal."""
    def body(self, text, gates):
        """That the items give these gates."""
        status, said, wrong = self.gates("module m(a, b, y);\ninput [1:0] a; input b; output y;\n" + text + "\nendmodule\n")
        self.assertEqual((status, wrong), (0, ""))
        self.assertEqual([line for line in said.splitlines() if line.split()[0] not in ("module", "input", "output", "endmodule")], gates)

    def test_heads(self):
        for head in ("module m(a, b, y); input [1:0] a; wire [1:0] a; input wire b; output y; wire y;", "module m(input [1:0] a, input b, output wire y);",
                     "(* top *) module m /* c */ (a, // d\n b, y); input [1:0] a; input b; output y;"):
            status, said, wrong = self.gates(head + " NAND2X1 u (.A(a[1]), .B(b), .Y(y)); endmodule // end\n")
            self.assertEqual((status, said.splitlines()[-2:], wrong), (0, ["nand (y, \\a[1] , b);", "endmodule"], ""))

    def test_pins(self):
        self.body("NAND2X1 u (.A(a[0]), .B(1'h1), .Y(y));", ["nand (y, \\a[0] , 1'b1);"])
        self.body("NAND2X1 u (.A({a[0]}), .B(1'd0), .Y(y));", ["nand (y, \\a[0] , 1'b0);"])
        self.body("wire \\n[9] ; NAND2X1 \\u.x (.A(b), .B(b), .Y(\\n[9] )); INVX1 v (.A(\\n[9] ), .Y(y));", ["nand (\\n[9] , b, b);", "not (y, \\n[9] );"])
        self.body("HAX1 h (.A(a[0]), .B(b), .YC(y), .YS());", ["and (y, \\a[0] , b);"])
        self.body("INVX1 u (.A(b), .Y(n)); INVX1 v (.A(n), .Y(y), .gnd(gnd), .vdd(vdd));", ["not (n, b);", "not (y, n);"])

    def test_joins(self):
        self.body("wire [2:0] n; assign n = { a, b }; NAND2X1 u (.A(n[2]), .B(n[0]), .Y(y));", ["nand (y, \\a[1] , b);"])
        self.body("wire [1:2] n; assign { n[2], n[1] } = a; NAND2X1 u (.A(n[2]), .B(n[1]), .Y(y));", ["nand (y, \\a[1] , \\a[0] );"])
        self.body("wire [3:0] n; assign n[2:1] = a[1:0]; NAND2X1 u (.A(n[2]), .B(n[1]), .Y(y));", ["nand (y, \\a[1] , \\a[0] );"])
        self.body("wire o; wire z = 1'b0; assign o = 1'h1; NAND2X1 u (.A(o), .B(z), .Y(y));", ["nand (y, 1'b1, 1'b0);"])
        self.body("wire n; NAND2X1 u (.A(b), .B(b), .Y(n)); assign y = n;", ["nand (y, b, b);"])
        self.body("wire [1:0] k; assign k = 2'b10; NAND2X1 u (.A(k[1]), .B(k[0]), .Y(y));", ["nand (y, 1'b1, 1'b0);"])
        self.body("wire [7:0] x; assign x = 8'hxx; INVX1 u (.A(b), .Y(y));", ["not (y, b);"])

    def test_names_of_nets(self):
        """Of the names of a net that is no port the one that a pin drives is taken."""
        self.body("wire n, longer; assign n = longer; INVX1 u (.A(b), .Y(longer)); INVX1 v (.A(n), .Y(y));", ["not (longer, b);", "not (y, longer);"])

    def refused(self, text, line):
        self.assert_refused("module m(a, b, y);\ninput [1:0] a; input b; output y;\n" + text + "\nendmodule\n", "refused impl " + line)

    def test_refusals_of_items(self):
        self.refused("`define X 1", "line 3 directive")
        self.refused("reg r;", "line 3 reg")
        self.refused("supply0 g;", "line 3 supply0")
        self.refused("INVX1 #(1) u (.A(b), .Y(y));", "line 3 parameters INVX1")
        self.refused("INVX1 (.A(b), .Y(y));", "line 3 unnamed INVX1")
        self.refused("inout c;", "line 3 inout c")
        self.refused("assign y = a & b;", "line 3 width 1 2")
        self.refused("assign y = b & b;", "line 3 &")
        self.refused("assign y = {2{b}};", "line 3 2")
        self.refused("wire [65536:0] w;", "line 3 range [65536:0]")
        self.refused("wire w; wire w;", "line 3 declaredtwice w")
        self.refused("wire [2:0] b;", "line 3 declaredtwice b")
        self.refused("INVX1 u (.A(a[2]), .Y(y));", "line 3 index a[2]")
        self.refused("INVX1 u (.A(n[0]), .Y(y));", "line 3 index n[0]")
        self.refused("INVX1 u (.A(\\b%q ), .Y(y));", "line 3 percent b%q")

    def test_refusals_of_instances(self):
        self.refused("NONE u (.A(b), .Y(y));", "cell NONE unknown u")
        self.refused("PAD u (.P(b));", "cell PAD inout u")
        self.refused("ROM u (.A(b));", "cell ROM bus u")
        self.refused("INVX1 u (.A(a), .Y(y));", "line 3 width u.A")
        self.refused("INVX1 u (.A(), .Y(y));", "line 3 unconnected u.A")
        self.refused("INVX1 u (.Y(y));", "line 3 unconnected u.A")
        self.refused("INVX1 u (.A(b), .A(b), .Y(y));", "line 3 pintwice u.A")
        self.refused("INVX1 u (.A(b), .Y(y));\nINVX1 u (.A(b), .Y(z));", "line 4 instancetwice u")
        self.refused("INVX1 u (.A(1'bx), .Y(y));", "line 3 constant 1'bx")
        self.refused("wire x; assign x = 1'bz; INVX1 u (.A(x), .Y(y));", "line 3 constant 1'bx")
        self.refused("INVX1 u (.A(1'd2), .Y(y));", "line 3 constant 1'd2")

    def test_refusals_of_drivers(self):
        self.refused("INVX1 u (.A(b), .Y(y));\nINVX1 v (.A(b), .Y(y));", "line 4 driventwice y")
        self.refused("INVX1 u (.A(b), .Y(y));\nassign y = b;", "line 3 driventwice y")
        self.refused("INVX1 u (.A(y), .Y(b));", "line 3 driventwice b")
        self.refused("wire n;\nINVX1 u (.A(n), .Y(y));", "line 4 undriven n")
        self.refused("", "undriven y")
        self.refused("wire n, k; assign n = k; assign k = n; INVX1 u (.A(n), .Y(y));", "loop k")
        self.refused("wire n; assign n = b; assign n = b; INVX1 u (.A(n), .Y(y));", "line 3 driventwice n")

    def test_refusals_of_modules(self):
        self.assert_refused("module m(y); output y; assign y = 1'b0;\nendmodule\nmodule n; endmodule\n", "refused impl line 3 module")
        self.assert_refused("module m(y, z); output y; assign y = 1'b0; endmodule\n", "refused impl portundeclared z")
        self.assert_refused("module m(y); output y, z; assign y = 1'b0; endmodule\n", "refused impl notaport z")
        self.assert_refused("module m(y); output y;\nassign y = 1'b0;\n", "refused impl line 3 end")

    def test_libraries(self):
        netlist = self.write("n.v", ARBITER)
        for text, line in (("library (l) {\n cell (A) {\n area 1;\n}}", "line 3 1"), ("library (l) { cell (A) { }", "line 1 end"),
                           ("library (l) {\n cell (A) { }\n cell (A) { }\n}", "line 3 cell A twice")):
            wanted = (3, "", "refused library %s\n" % line)
            self.assertEqual(self.called(from_cells, "--lib", self.write("l.lib", text), netlist), wanted)


class BackAgain(Tests):
    """What comes back, beside the worked examples."""
    def test_nothing_cut_changes_no_byte(self):
        with open(os.path.join(TOP, "examples", "cells", "old.v"), encoding="latin-1") as file:
            timer = file.read()
        for lib, text in ((self.lib, ARBITER), (self.lib, UART.replace("\n", "\r\n")), (OWN, timer)):
            library = Library(lib)
            design = opened(library, self.write("x.v", text), "impl")
            self.assertEqual(to_cells.Result(design, Cells(library), [], Cuts()).text, text)

    def test_the_old_function(self):
        new = self.put_back(ARBITER, patch_of(["t_0"], ["\\_016_%old ", "rst"], "xor (t_0, \\_016_%old , rst);"), "_016_=t_0")
        wanted = ARBITER.replace("  INVX1 _060_ (\n    .A(_015_),\n    .Y(_016_)", "  wire eco_n0;\n  INVX1 _060_ (\n    .A(_015_),\n    .Y(eco_n0)")
        block = "  XOR2X1 eco_0 (\n    .A(eco_n0),\n    .B(rst),\n    .Y(_016_)\n  );\n"
        self.assertEqual(new, wanted.replace("endmodule\n", block + "endmodule\n"))

    def test_another_net_changes_the_readers(self):
        new = self.put_back(ARBITER, patch_of(["t_0"], ["rst"], "buf (t_0, rst);"), "_016_=t_0")
        gone = "  INVX1 _060_ (\n    .A(_015_),\n    .Y(_016_)\n  );\n"
        self.assertEqual(new, ARBITER.replace(gone, "").replace(".A(_016_)", ".A(rst)"))

    def test_a_constant_at_an_output(self):
        netlist = "module m(a, y);\n  input a;\n  output y;\n  INVX1 u (.A(a), .Y(y));\nendmodule\n"
        new = self.put_back(netlist, patch_of(["t_0"], [], "buf (t_0, 1'b1);"), "y=t_0")
        block = "  BUFX2 eco_0 (\n    .A(1'b1),\n    .Y(y)\n  );\n"
        self.assertEqual(new, netlist.replace("  INVX1 u (.A(a), .Y(y));\n", block))

    def test_a_tie_cell(self):
        self.lib = self.write("tie.lib", LIBRARY[:-2] + 'cell (TIE1) { pin(Y) { direction : output; function : "1"; } }\n}\n')
        netlist = "module m(a, y);\n  input a;\n  output y;\n  INVX1 u (.A(a), .Y(y));\nendmodule\n"
        new = self.put_back(netlist, patch_of(["t_0"], [], "buf (t_0, 1'b1);"), "y=t_0")
        self.assertEqual(new, netlist.replace("  INVX1 u (.A(a), .Y(y));\n", "  TIE1 eco_0 (\n    .Y(y)\n  );\n"))

    def test_what_only_the_removed_cell_read_goes(self):
        netlist = "module m(a, b, y);\n  input a, b;\n  output y;\n  INVX1 u (.A(a), .Y(n));\n  INVX1 v (.A(n), .Y(y));\nendmodule\n"
        new = self.put_back(netlist, patch_of(["t_0"], ["a", "b"], "nand (t_0, a, b);"), "y=t_0")
        block = "  NAND2X1 eco_0 (\n    .A(a),\n    .B(b),\n    .Y(y)\n  );\n"
        self.assertEqual(new, netlist.replace("  INVX1 u (.A(a), .Y(n));\n  INVX1 v (.A(n), .Y(y));\n", block))

    def test_one_of_two_outputs(self):
        netlist = "module m(a, b, y, z);\n  input a, b;\n  output y, z;\n  HAX1 h (.A(a), .B(b), .YC(y), .YS(z));\nendmodule\n"
        new = self.put_back(netlist, patch_of(["t_0"], ["a", "b"], "nor (t_0, a, b);"), "y=t_0")
        block = "  NOR2X1 eco_0 (\n    .A(a),\n    .B(b),\n    .Y(y)\n  );\n"
        self.assertEqual(new, netlist.replace(".YC(y)", ".YC()").replace("endmodule\n", block + "endmodule\n"))

    def test_a_port_apart_from_its_net(self):
        head = "module m(a, b, y, z);\n  input a, b;\n  output [1:0] y;\n  output z;\n"
        joined = head + "  wire [1:0] n;\n  assign y = n;\n  INVX1 u (.A(a), .Y(n[0]));\n  INVX1 v (.A(b), .Y(n[1]));\n  INVX1 w (.A(n[0]), .Y(z));\nendmodule\n"
        new = self.put_back(joined, patch_of(["t_0"], ["a", "b"], "nand (t_0, a, b);"), "y[0]:=t_0")
        block = "  NAND2X1 eco_0 (\n    .A(a),\n    .B(b),\n    .Y(eco_n0)\n  );\n"
        self.assertEqual(new, joined.replace("assign y = n;", "wire eco_n0;\n  assign { y[1], y[0] } = { n[1], eco_n0 };").replace("endmodule", block + "endmodule"))
        plain = head + "  INVX1 u (.A(a), .Y(y[0]));\n  INVX1 v (.A(b), .Y(y[1]));\n  INVX1 w (.A(y[0]), .Y(z));\nendmodule\n"
        new = self.put_back(plain, patch_of(["t_0"], ["a", "b"], "nand (t_0, a, b);"), "y[0]:=t_0")
        wanted = plain.replace("  INVX1 u (.A(a), .Y(y[0]))", "  wire eco_n0;\n  INVX1 u (.A(a), .Y(eco_n0))").replace(".A(y[0])", ".A(eco_n0)")
        self.assertEqual(new, wanted.replace("endmodule", block.replace("eco_n0", "y[0]") + "endmodule"))

    def test_a_prefix_that_no_name_has(self):
        netlist = ARBITER.replace("_059_", "eco_7")
        new = self.put_back(netlist, patch_of(["t_0"], ["rst", "_015_"], "nor (t_0, rst, _015_);"), "_016_=t_0")
        self.assertIn("  NOR2X1 eco__0 (\n", new)

    def test_pins_as_nets(self):
        status, said, _ = self.gates(ARBITER, "--pins")
        lines = [line for line in said.splitlines() if line.startswith("buf")]
        self.assertEqual((status, lines), (0, ["buf (\\a%readers , a);", "buf (\\_059_.A , \\a%readers );", "buf (\\_061_.B , \\a%readers );", "buf (\\_059_.B , b);",
                                               "buf (\\_060_.A , _015_);", "buf (\\_062_.B , _015_);", "buf (\\_061_.A , _016_);", "buf (\\_062_.A , _016_);"]))

    def test_names_of_flip_flops(self):
        line = "module m(c, d, y);\ninput c, d; output y;\n%s INVX1 i (.A(%s), .Y(y));\nendmodule\n"
        old = line % ("wire n_3_; DFFPOSX1 f (.CLK(c), .D(d), .Q(n_3_));", "n_3_")
        new = line % ("wire [3:3] n; DFFPOSX1 _1_ (.CLK(c), .D(d), .Q(n[3]));", "n[3]")
        old, new = self.write("old.v", old), self.write("new.v", new)
        match = self.write("match", "n_3_ n[3]\n")
        refused = self.called(from_cells, "--lib", self.lib, new, "--old", old)
        self.assertEqual(refused[0], 3)
        self.assertEqual(refused[2], "refused ports n[3] n[3]%clock n[3]%next (--add takes it over) only in the old netlist: n_3_ n_3_%clock n_3_%next\n")
        for words in (["--match", match], ["--match-buses"]):
            status, said, _ = self.called(from_cells, "--lib", self.lib, new, "--old", old, *words)
            self.assertEqual((status, said.splitlines()[0]), (0, "module m (c, d, n_3_, y, \\n_3_%clock , \\n_3_%next );"))


class Functions(Tests):
    """Functions of cells, and cells for functions."""
    def test_precedence(self):
        for text, rows in (("!A B", "0010"), ("!(A B)", "1110"), ("A' B", "0010"), ("A+B C", "01010111"), ("A^B C", "00000110"),
                           ("(A+B) C", "00000111"), ("A*B|C", "00011111"), ("A&!B", "0100"), ("A B'", "0100"), ("1", "1"), ("!A^B", "1001")):
            pins = sorted({word for word in text if word in "ABC"})
            table = table_of(FunctionReader(text).whole(), pins)
            self.assertEqual(format(table, "0%db" % (1 << len(pins)))[::-1], rows, text)
        for text in ("", "A+", "(A", "A)", "A @ B", "!"):
            self.assertRaises(NoFunction, lambda: FunctionReader(text).whole())

    def test_cells_of_the_example(self):
        wanted = {"INV": "10", "BUF": "01", "NAND2": "1110", "NOR2": "1000", "AOI21": "11100000", "MUX2": "01010011", "XOR2": "0110"}
        cells = Library(OWN).cells
        for name, rows in wanted.items():
            self.assertEqual(format(table_of(cells[name].outputs["Y"], cells[name].inputs), "0%db" % len(rows))[::-1], rows, name)

    def test_found_by_function(self):
        """Each entry's cell, with its pins and complements as they say, has the table that it is found by."""
        cells = Cells(Library(self.lib))
        for (count, table), entries in cells.found.items():
            for phases, (_, made, pin, order) in entries.items():
                words, mask = input_words(count), (1 << (1 << count)) - 1
                leaves = [word ^ (mask if phases >> place & 1 else 0) for place, word in enumerate(words)]
                found = word_of(made.outputs[pin], {name: leaves[leaf] for name, leaf in zip(made.inputs, order)}, mask)
                self.assertEqual(found, table, (made.name, order, phases))
                self.assertNotIn(made.name, ("CHEAP", "CHEAPER", "HAX1", "DFFSR"))

    def test_the_cheapest(self):
        cells = Cells(Library(self.lib), {"INVX2": 5.0})
        self.assertEqual(cells.single(1)[1].name, "INVX2")
        self.assertEqual(Cells(Library(self.lib)).entries(2, 0b0111)[0][1].name, "NAND2X1")

    def test_covers(self):
        """Cells for random gates give the gates' values at all inputs."""
        draw = random.Random(1)
        for library in (Library(self.lib), Library(OWN)):
            cells = Cells(library)
            for _ in range(60):
                gates, names = [], list("abcde")
                for number in range(draw.randint(1, 9)):
                    kind = draw.choice(["and", "nand", "or", "nor", "xor", "xnor", "not", "buf"])
                    gates.append((kind, "w%d" % number, draw.sample(names, 1 if kind in ("not", "buf") else draw.randint(2, 4))))
                    names.append("w%d" % number)
                self.check_cover(cells, gates)

    def check_cover(self, cells, gates):
        network, literals = Network(), {}
        for name in "abcde":
            literals[name] = network.input(name)
        for kind, out, terms in gates:
            literals[out] = network.gate(kind, [literals[term] for term in terms])
        wanted = [literals[out] for _, out, _ in gates[-2:] if literals[out] > 1]
        cover = Cover(network, cells, wanted)
        operands = [cover.build(literal) for literal in wanted]
        mask, values = (1 << 32) - 1, dict(zip("abcde", input_words(5)))
        simulate(gates, values, mask)
        for number, (made, pin, pins) in enumerate(cover.made):
            values[number] = word_of(made.outputs[pin], {name: values[operand] for name, operand in pins}, mask)
        for (_, out, _), operand in zip([gate for gate in gates[-2:] if literals[gate[1]] > 1], operands):
            self.assertEqual(values[operand], values[out], gates)

    def test_merged(self):
        """An and of two into a nor is one AOI21."""
        netlist = "module m(a, b, c, y);\n  input a, b, c;\n  output y;\n  INVX1 u (.A(a), .Y(y));\nendmodule\n"
        new = self.put_back(netlist, patch_of(["t_0"], ["a", "b", "c"], "and (w, a, b);", "nor (t_0, w, c);"), "y=t_0")
        block = "  AOI21X1 eco_0 (\n    .A(a),\n    .B(b),\n    .C(c),\n    .Y(y)\n  );\n"
        self.assertEqual(new, netlist.replace("  INVX1 u (.A(a), .Y(y));\n", block))

    @unittest.skipUnless(shutil.which("yosys"), "Yosys isn't installed")
    def test_beside_yosys(self):
        for path in [OWN, *filter(os.path.exists, DEBIAN)]:
            modules = self.by_yosys(path)
            compared = 0
            for made in Library(path).cells.values():
                if made.unread or made.flop or made.name not in modules:
                    continue
                for pin, function in made.outputs.items():
                    self.assertEqual(self.table_by_yosys(modules[made.name], made.inputs, pin), table_of(function, made.inputs), (path, made.name))
                    compared += 1
            self.assertGreater(compared, 6)

    def by_yosys(self, path):
        out = os.path.join(self.folder.name, "cells.json")
        subprocess.run(["yosys", "-q", "-p", "read_liberty -ignore_miss_func -ignore_miss_dir %s; write_json %s" % (path, out)], check=True,
                       stdout=subprocess.DEVNULL, stderr=subprocess.DEVNULL)
        with open(out) as file:
            return json.load(file)["modules"]

    def table_by_yosys(self, module, inputs, pin):
        kinds = {"$_NOT_": "not", "$_AND_": "and", "$_OR_": "or", "$_XOR_": "xor", "$_BUF_": "buf"}
        mask = (1 << (1 << len(inputs))) - 1
        values = {module["ports"][name]["bits"][0]: word for name, word in zip(inputs, input_words(len(inputs)))}
        values.update({"0": 0, "1": mask})
        waiting = list(module["cells"].values())
        while waiting:
            cell = waiting.pop(0)
            pins = {name: bits[0] for name, bits in cell["connections"].items()}
            terms = [pins[name] for name in ("A", "B") if name in pins]
            if all(term in values for term in terms):
                values[pins["Y"]] = value(kinds[cell["type"]], [values[term] for term in terms], mask)
            else:
                waiting.append(cell)
        return values[module["ports"][pin]["bits"][0]]


def main():
    argparse.ArgumentParser(description=__doc__, formatter_class=argparse.RawDescriptionHelpFormatter).parse_args()
    said = io.StringIO()
    suite = unittest.defaultTestLoader.loadTestsFromModule(sys.modules[__name__])
    if not unittest.TextTestRunner(stream=said).run(suite).wasSuccessful():
        sys.exit(said.getvalue())


if __name__ == "__main__":
    main()
