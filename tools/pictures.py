#!/usr/bin/env python3
"""Draws the pictures of the documents by graphviz.

    tools/pictures.py            draws docs/pictures/flow.svg and docs/pictures/patch.svg anew
    tools/pictures.py EXAMPLE OUT.svg    draws the patch of another example

The first shows what eco reads and writes, and what checks what. The second shows the patch of examples/majority inside its netlist, from the
example's files: what is cut, what the patch reads, and its gates. If graphviz isn't installed it says 'skipped', with status 77, and the kept files stay.
"""
import argparse
import os
import shutil
import subprocess
import sys

from gates import gates_of

TOP = os.path.join(os.path.dirname(os.path.abspath(__file__)), "..")
PICTURES = os.path.join(TOP, "docs", "pictures")
HEAD = """digraph picture {
  rankdir=LR; bgcolor=white; nodesep=0.25; ranksep=0.45;
  node [fontname="Helvetica,Arial,sans-serif" fontsize=11 shape=box style="rounded,filled" fillcolor=white color="#555555" margin="0.12,0.06"];
  edge [fontname="Helvetica,Arial,sans-serif" fontsize=10 color="#555555" arrowsize=0.7];
"""
FILE, COMMAND, PATCH, CUT = "#eef3fa", "#ffe9c7", "#d9efd9", "#f6d5d5"
FLOW = """
  subgraph cluster_read { label="what you give"; fontname="Helvetica,Arial,sans-serif"; fontsize=11; color="#bbbbbb"; style=rounded;
    node [fillcolor="%(FILE)s"];
    implementation [label="implementation\\nsome nets cut: t_0, t_1, .."];
    specification [label="specification\\nsame ports"];
    weights [label="weights\\nwhat a patch may read,\\nand what it costs"];
  }
  synth [label="eco synth" fillcolor="%(COMMAND)s"];
  subgraph cluster_written { label="what comes out"; fontname="Helvetica,Arial,sans-serif"; fontsize=11; color="#bbbbbb"; style=rounded;
    node [fillcolor="%(PATCH)s"];
    patch [label="patch\\na module that drives the targets"];
    patched [label="patched netlist\\nthe implementation with the patch in it"];
    report [label="report\\ncost, gates, what is read and why"];
  }
  audit [label="eco audit" fillcolor="%(COMMAND)s"];
  prove [label="eco prove" fillcolor="%(COMMAND)s"];
  proof [label="clauses and a proof" fillcolor="%(PATCH)s"];
  recheck [label="eco recheck,\\ntools/tracecheck.py" fillcolor="%(COMMAND)s"];
  sound [label="sound" shape=plaintext style=""]; refuted [label="refuted" shape=plaintext style=""];
  {implementation specification weights} -> synth;
  synth -> {patch patched report};
  {patch patched report} -> audit -> sound;
  patched -> prove -> proof -> recheck -> refuted;
  {implementation specification weights} -> audit [style=dashed color="#aaaaaa"];
  specification -> prove [style=dashed color="#aaaaaa"];
}
""" % {"FILE": FILE, "COMMAND": COMMAND, "PATCH": PATCH}


def quoted(name):
    return '"%s"' % name.replace("\\", "\\\\").replace('"', '\\"')


def gate_node(kind, out, color):
    return "    %s [label=%s fillcolor=%s];\n" % (quoted("net " + out), quoted(kind + "\\n" + out).replace("\\\\n", "\\n"), quoted(color))


def patch_of(folder):
    """The drawing of an example's patched netlist, with the patch's gates in a box of their own."""
    implementation, patch, patched = (gates_of(os.path.join(folder, file)) for file in ("implementation.v", "patch.v", "patched.v"))
    inside = patch.driven
    text = HEAD
    for name in patched.inputs:
        text += "  %s [label=%s fillcolor=%s style=filled];\n" % (quoted("net " + name), quoted(name), quoted(FILE))
    for name in patched.outputs:
        text += "  %s [label=%s fillcolor=%s style=filled];\n" % (quoted("port " + name), quoted(name), quoted(FILE))
        text += "  %s -> %s;\n" % (quoted("net " + name), quoted("port " + name))
    for kind, out, _ in patched.gates:
        if out not in inside:
            text += gate_node(kind, out, "white")
    text += '  subgraph cluster_patch { label="the patch: it reads %s and drives %s"; ' % (
        ", ".join(patch.inputs), ", ".join(implementation.targets))
    text += 'fontname="Helvetica,Arial,sans-serif"; fontsize=11; color="#448844"; bgcolor="#f2faf2"; style=rounded;\n'
    for kind, out, _ in patched.gates:
        if out in inside:
            text += gate_node(kind, out, CUT if out in implementation.targets else PATCH)
    text += "  }\n"
    for _, out, terms in patched.gates:
        for term in terms:
            style = ' [color="#448844" penwidth=1.4]' if out in inside else ""
            text += "  %s -> %s%s;\n" % (quoted("net " + term), quoted("net " + out), style)
    return text + "}\n"


def drawn(text, path):
    subprocess.run(["dot", "-Tsvg", "-o", path], input=text, text=True, check=True)
    print("pictures: " + os.path.relpath(path))


def main():
    words = argparse.ArgumentParser(description=__doc__, formatter_class=argparse.RawDescriptionHelpFormatter)
    words.add_argument("example", nargs="?")
    words.add_argument("out", nargs="?")
    told = words.parse_args()
    if not shutil.which("dot"):
        print("skipped: pictures: graphviz isn't installed")
        sys.exit(77)
    if told.out:
        drawn(patch_of(os.path.join(TOP, "examples", told.example)), told.out)
        return
    os.makedirs(PICTURES, exist_ok=True)
    drawn(HEAD + FLOW, os.path.join(PICTURES, "flow.svg"))
    drawn(patch_of(os.path.join(TOP, "examples", "majority")), os.path.join(PICTURES, "patch.svg"))


if __name__ == "__main__":
    main()
