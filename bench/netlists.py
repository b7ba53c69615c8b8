"""Large netlists, made for bench/large.py and bench/read.py.

    bench/netlists.py SHAPE SIZE FILE    writes one

Each has two inputs and one target:
  order      gate k reads the gate before it, every third gate one more of the last ones; in the order of the text
  reversed   the same, the last gate first
  chain      gate k reads gate k - 1 alone
  hub        all gates read one net
  random     gate k, named nK, reads two gates before it that are drawn
  colliding  a chain whose names a table without a key begins to look for in one of its groups (bench/colliding.c)
  apart      a chain of names of the same length that are no such names
"""
import argparse
import os
import random
import subprocess
import sys
import tempfile

LETTERS = "ABCDEFGHIJKLMNOPQRSTUVWXYZ"
DIGITS = LETTERS + LETTERS.lower()
SHAPES = ("order", "reversed", "chain", "hub", "random", "apart", "colliding")


def name(k):
    """The name of gate k: a capital letter, which no keyword begins with, and more letters."""
    text = ""
    while k >= 26:
        text = DIGITS[k % 52] + text
        k = k // 52
    return LETTERS[k % 26] + text + str(len(text))


def listed(size, groups):
    """Names that agree in the hash without a key modulo the number of groups."""
    source = os.path.join(os.path.dirname(os.path.abspath(__file__)), "colliding.c")
    with tempfile.TemporaryDirectory() as folder:
        program = os.path.join(folder, "colliding")
        subprocess.run(["cc", "-O2", "-o", program, source], check=True)
        return subprocess.run([program, str(size), str(groups)], check=True, capture_output=True, text=True).stdout.split()


def chained(names):
    before = "a"
    for name in names:
        yield name, [before]
        before = name


def drawn(size):
    draws = random.Random(1)
    for k in range(size):
        yield "n%d" % k, ["n%d" % draws.randrange(k) if k else "a", "n%d" % draws.randrange(k) if k else "b"]


def groups_for(size):
    """How many groups of nine names a table of so many has."""
    groups = 1
    while 9 * groups < size:
        groups *= 2
    return groups


def numbered(shape, size):
    """The gates of a shape whose gates are named by their numbers."""
    for k in range(size):
        reads = ["a"] if shape == "hub" else [name(k - 1) if k else "a"]
        if shape in ("order", "reversed") and k % 3 == 1 and k > 7:
            reads.append(name(k - 1 - k % 7))
        yield name(k), reads


def gates(shape, size):
    """The gates of a shape, each as its name and what it reads."""
    if shape == "random":
        return drawn(size)
    if shape in ("colliding", "apart"):
        return chained(listed(size, groups_for(size) if shape == "colliding" else 1))
    return numbered(shape, size)


def text(shape, size):
    lines = ["(%s,%s)" % (out, ",".join(reads)) for out, reads in gates(shape, size)]
    if shape == "reversed":
        lines.reverse()
    kind = "nand" if shape in ("order", "reversed", "random") else "not"
    return "module f(a,b,y);input a,b;output y;buf(y,t_0);\n%s %s;\nendmodule\n" % (kind, ",".join(lines))


def write(shape, size, file):
    """Has another process write the netlist, since a run's peak memory counts what the process holds that starts it."""
    subprocess.run([sys.executable, os.path.abspath(__file__), shape, str(size), file], check=True)


def main():
    words = argparse.ArgumentParser(description=__doc__, formatter_class=argparse.RawDescriptionHelpFormatter)
    words.add_argument("shape", choices=SHAPES)
    words.add_argument("size", type=int)
    words.add_argument("file")
    told = words.parse_args()
    with open(told.file, "w") as file:
        file.write(text(told.shape, told.size))


if __name__ == "__main__":
    main()
