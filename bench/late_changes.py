#!/usr/bin/env python3
"""Maps the designs of bench/cells and their changes to library cells by Yosys, and has tools/fix_cells.sh patch the old netlists.

    bench/late_changes.py [--yosys] [--keep FOLDER] [NAME..]    (bench/cells.sh first sees if all that it needs is installed)

A design has a folder: old.v, and changes, each a patch of it with lines before it that say what changes, how many cells a person would add
by hand, as judged before it was patched, and which options tools/fix_cells.sh takes for it. A run may take 300 seconds of the clock.

Columns: `cells` is how many the old netlist has; `cut` how many nets or pins are targets of the patch; `cost` and `gates` are those of the
patch in gates; `added` and `gone` count cells by their instances' names, in the two netlists, and `area` is by how much the result is larger;
`hand` is what a person would add; `seconds` are the processor's, all processes together; `answer` is `equal` if the result, read anew, is
proved equal to the new netlist, and with --yosys also what Yosys' own comparison finds. The rows of all designs together are kept in
bench/results/cells.csv.
"""
import argparse
import collections
import os
import re
import resource
import shlex
import shutil
import signal
import subprocess
import sys
import tempfile

import lib

FOLDER = os.path.join(lib.TOP, "bench", "cells")
LIBERTY = "/usr/share/qflow/tech/%s/%s_stdcells.lib"
# the clock's seconds that a run may take
PATIENCE = 300
# a design's library, and by which commands its old netlist is mapped: like the new one, or for area, with no net read more than eight
# times, and with renamed registers (`n_3_` for `n[3]`)
PLAIN = "abc -liberty {liberty}; opt_clean"
OTHER = "abc -liberty {liberty} -script +strash;ifraig;scorr;dc2;strash;map,-a;buffer,-c,-N,8;topo; splitnets -format __; opt_clean"
Design = collections.namedtuple("Design", "library mapping")
DESIGNS = {"arbiter": Design("osu018", OTHER), "cipher": Design("osu035", PLAIN), "cpu": Design("osu035", PLAIN), "fir": Design("osu018", PLAIN),
           "packet": Design("osu018", PLAIN), "uart": Design("osu035", PLAIN)}

Change = collections.namedtuple("Change", "name path hand options")
Change.__doc__ = "A late change: its patch, the cells that a person would add, and the options of tools/fix_cells.sh."
Fixed = collections.namedtuple("Fixed", "status said seconds")


def read(path):
    with open(path) as file:
        return file.read()


def liberty_of(name):
    library = DESIGNS[name].library
    return LIBERTY % (library, library)


def changes_of(name):
    """The changes of a design, in the order of their names."""
    folder = os.path.join(FOLDER, name)
    found = []
    for file in sorted(os.listdir(folder)):
        if file.endswith(".patch"):
            head = read(os.path.join(folder, file)).split("\n--- ")[0]
            options = re.search(r"^Options: (.*)$", head, re.M)
            hand = re.search(r"^By hand: (\d+)\.", head, re.M)
            found.append(Change(file[:-len(".patch")], os.path.join(folder, file), hand[1], shlex.split(options[1]) if options else []))
    return found


def map_to_cells(name, design, out, mapping):
    """Maps the design to cells of its library, unless it is mapped already."""
    if os.path.exists(out):
        return
    commands = ["read_verilog " + design, "hierarchy -check -top " + name, "proc", "memory", "flatten", "synth -top " + name,
                "dfflibmap -liberty {liberty}", mapping, "write_verilog -noattr %s.part" % out]
    subprocess.run(["yosys", "-q", "-p", "; ".join(commands).format(liberty=liberty_of(name))], check=True, stdout=subprocess.DEVNULL, stderr=subprocess.DEVNULL)
    os.rename(out + ".part", out)


def changed(name, change, folder):
    """The path of the changed design."""
    path = os.path.join(folder, "new_rtl.v")
    subprocess.run(["patch", "-s", "-o", path, os.path.join(FOLDER, name, "old.v"), change.path], check=True, stdout=subprocess.DEVNULL)
    return path


def child_seconds():
    return resource.getrusage(resource.RUSAGE_CHILDREN).ru_utime


def fix(words):
    """Runs the script with these words; its status is None if it took longer than it may."""
    before = child_seconds()
    child = subprocess.Popen([os.path.join(lib.TOP, "tools", "fix_cells.sh"), *words], stdout=subprocess.PIPE, stderr=subprocess.STDOUT, text=True,
                             start_new_session=True)
    try:
        said, _ = child.communicate(timeout=PATIENCE)
    except subprocess.TimeoutExpired:
        os.killpg(child.pid, signal.SIGKILL)
        said, _ = child.communicate()
        return Fixed(None, said, child_seconds() - before)
    return Fixed(child.returncode, said, child_seconds() - before)


def areas(liberty):
    """The area of each cell of a library."""
    found = re.findall(r'^\s*cell\s*\(\s*"?(\w+)"?\s*\)|^\s*area\s*:\s*([\d.]+)\s*;', read(liberty), re.M)
    table, cell = {}, None
    for named, area in found:
        if named:
            cell = named
        elif cell:
            table.setdefault(cell, float(area))
    return table


def instances(path, table):
    """The cells of a netlist by the names of their instances."""
    found = re.findall(r"^\s*(\w+)\s+(\\\S+|\w+)\s*\(", read(path), re.M)
    return {instance: kind for kind, instance in found if kind in table}


def sizes(name, old, result):
    """How many cells are new and gone, and by how much the area grows."""
    table = areas(liberty_of(name))
    before, after = instances(old, table), instances(result, table)
    area = sum(table[kind] for kind in after.values()) - sum(table[kind] for kind in before.values())
    return [len(set(after) - set(before)), len(set(before) - set(after)), "%.0f" % area]


def told_by(said):
    """The rows of the table that the script prints at the end."""
    return dict(re.findall(r"^\| ([\w, ]+) \| (.*) \|$", said, re.M))


def answer_of(fixed):
    """What the script says of the result, if it ended well."""
    return "time" if fixed.status is None else told_by(fixed.said).get("answer", "-") if fixed.status == 0 else "status %d" % fixed.status


def measure(name, change, folder, by_yosys):
    """The row of one change."""
    old, own = os.path.join(folder, name, "old.v"), os.path.join(folder, name, change.name)
    new, fixing = os.path.join(own, "new.v"), os.path.join(own, "fix")
    os.makedirs(own, exist_ok=True)
    shutil.rmtree(fixing, ignore_errors=True)
    map_to_cells(name, os.path.join(FOLDER, name, "old.v"), old, DESIGNS[name].mapping)
    map_to_cells(name, changed(name, change, own), new, PLAIN)
    options = [os.path.join(FOLDER, name, word) if word.endswith(".match") else word for word in change.options]
    fixed = fix([liberty_of(name), old, new, fixing, *options, *["--yosys"] * by_yosys])
    with open(os.path.join(own, "said.txt"), "w") as file:
        file.write(fixed.said)
    count = len(instances(old, areas(liberty_of(name))))
    told, result = told_by(fixed.said), os.path.join(fixing, "result.v")
    found = [told.get(key, "-") for key in ("targets", "cost", "gates")]
    grown = sizes(name, old, result) if fixed.status == 0 else ["-"] * 3
    return [name, change.name, count, *found, *grown, change.hand, "%.1f" % fixed.seconds, answer_of(fixed)]


def main():
    words = argparse.ArgumentParser(description=__doc__, formatter_class=argparse.RawDescriptionHelpFormatter)
    words.add_argument("--yosys", action="store_true", help="compares each result by Yosys too")
    words.add_argument("--keep", metavar="FOLDER", help="leaves all files in this folder, and maps nothing that is there already")
    words.add_argument("names", nargs="*", metavar="NAME", help="a design, or a design and a change (uart/change1); without it all")
    told = words.parse_args()
    heads = ["design", "change", "cells", "cut", "cost", "gates", "added", "gone", "area", "hand", "seconds", "answer"]
    result = lib.Result("cells", heads)
    with tempfile.TemporaryDirectory() as folder:
        for name in sorted(DESIGNS):
            for change in changes_of(name):
                if not told.names or name in told.names or name + "/" + change.name in told.names:
                    result.add(*measure(name, change, os.path.abspath(told.keep or folder), told.yosys))
    if not told.names:
        result.keep(["--keep", told.keep])


if __name__ == "__main__":
    main()
