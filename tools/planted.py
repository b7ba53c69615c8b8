#!/usr/bin/env python3
"""Prints the bugs that are kept as edits, which the prover has to refuse, as a table.

    tools/planted.py [NAME ..]    of these crates, or of all, in the order of crates.txt

A row has the crate, the bug, what refuses it, and where the edit stands: in must-fail, which the gate tries, or in
more-edits, which tools/more_edits.sh tries. In the third column `made` of `f` is the clause `made` of the function `f`; a
function alone stands for its one clause, that has no name, or for those of its clauses that speak of what the bug changes.
The rows are the first two lines of the edits; tools/edits.py sees that each edit has them."""
import argparse
import re
import sys

from edits import TOP, all_edits, head_of


def rows_of(crate):
    """A row for each edit of the crate."""
    for edit in all_edits():
        if edit.parent.parent.name == crate:
            cells = ["`%s`" % crate, *(head_of(edit) or ("?", "?")), edit.parent.name]
            yield "| %s |" % " | ".join(cell.replace("|", "&#124;") for cell in cells)


def main():
    words = argparse.ArgumentParser(description=__doc__, formatter_class=argparse.RawDescriptionHelpFormatter)
    words.add_argument("names", nargs="*", metavar="NAME")
    names = words.parse_args().names
    crates = re.findall(r"^(\w+):", (TOP / "crates.txt").read_text(), re.M)
    unknown = set(names) - set(crates)
    if unknown:
        sys.exit("planted: no crate %s" % ", ".join(sorted(unknown)))
    rows = [row for crate in names or crates for row in rows_of(crate)]
    print("| crate | bug | refused by | where |", "|---|---|---|---|", *rows, sep="\n")


if __name__ == "__main__":
    main()
