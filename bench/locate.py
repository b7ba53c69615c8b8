#!/usr/bin/env python3
"""Runs `eco locate` on real netlists in which gates were changed, and keeps what it finds in bench/results/locate.csv.

    bench/locate.py [--problems FOLDER] [--only REGEX] [PROGRAM]

The new netlist is a problem's specification, or a large one of copies. The old one is the same with one gate of another kind, or two of
them, which are drawn by its name; of the large one also with none. A run has 60 seconds of the processor and 4 GiB; `time` is no answer
within them. `single` is the number of nets that can be cut alone, `open` the number of those that are left open, and `inputs`
how many inputs are printed that exclude the others.
"""
import collections
import os
import random
import re
import sys
import tempfile

import copies
import lib

sys.path.append(os.path.join(lib.TOP, "tools"))
import gates

OTHERS = {"and": ["or", "nand", "xor"], "or": ["and", "nor", "xor"], "nand": ["nor", "and", "xnor"], "nor": ["nand", "or", "xnor"],
          "xor": ["or", "xnor"], "xnor": ["nor", "xor"], "buf": ["not"], "not": ["buf"]}


# a large netlist: so many copies of this problem's specification side by side
LARGE, COPIES = "aesround_k1", 7


def read_by(read):
    """The gates on which an output depends, the first outputs' first."""
    drivers = {gate[1]: gate for gate in read.listed}
    met, waiting = {}, list(reversed(read.outputs))
    while waiting:
        name = waiting.pop()
        if name in drivers and name not in met:
            met[name] = drivers[name]
            waiting += drivers[name][2]
    return list(met.values())


def changed(name, text, count):
    """The netlist with so many gates of other kinds, and how many gates it has."""
    read = gates.Gates(text)
    draw = random.Random("%s %d" % (name, count))
    others = {gate[1]: draw.choice(OTHERS[gate[0]]) for gate in draw.sample([gate for gate in read_by(read) if not gate[1].startswith("=")], count)}
    listed = [(others.get(out, kind), out, terms) for kind, out, terms in read.listed]
    return gates.text_of(read.title, read.ports, read.directions, listed), len(listed)


def measure(program, name, new, count, folder):
    """The row of the netlist in this file, with so many gates changed."""
    old, cut = os.path.join(folder, "old.v"), os.path.join(folder, "cut.v")
    with open(new) as file:
        text, size = changed(name, file.read(), count)
    with open(old, "w") as file:
        file.write(text)
    ran = lib.run([program, "locate", "--impl", old, "--spec", new, "--cut", cut])
    words = collections.Counter(line.split(" ")[0] for line in ran.said.splitlines())
    answer = "time" if ran.status in lib.OVER else str(ran.status)
    found = [words["net"], words["open"], words["input"]] if words["located"] else ["-"] * 3
    return [name, count, size, answer, *found, "%.2f" % ran.seconds, "%.0f" % ran.memory]


def main():
    told = lib.words_for(__doc__).parse_args()
    program = lib.program_of(told)
    result = lib.Result("locate", ["problem", "changed", "gates", "status", "single", "open", "inputs", "seconds", "MB"])
    with tempfile.TemporaryDirectory() as folder:
        for name in lib.problems_of(told):
            for count in (1, 2):
                result.add(*measure(program, name, lib.plain(told, name, "specification.v", folder), count, folder))
        name, new = "%d times %s" % (COPIES, LARGE), os.path.join(folder, "copies.v")
        if lib.is_wanted(told, name):
            with open(lib.plain(told, LARGE, "specification.v", folder)) as one, open(new, "w") as file:
                file.write(copies.side_by_side(one.read(), COPIES, 0))
            for count in (0, 1, 2):
                result.add(*measure(program, name, new, count, folder))
    result.finish(told)


if __name__ == "__main__":
    main()
