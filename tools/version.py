#!/usr/bin/env python3
"""Sees that the file VERSION says what `eco --version` prints. Says nothing if it does.

    tools/version.py

The version stands in one place of the sources: the constant VERSION of crates/eco_words/src/lib.rt.
"""
import argparse
import pathlib
import re
import sys

TOP = pathlib.Path(__file__).resolve().parent.parent
SOURCE = "crates/eco_words/src/lib.rt"


def main():
    argparse.ArgumentParser(description=__doc__, formatter_class=argparse.RawDescriptionHelpFormatter).parse_args()
    told = re.findall(r'^pub const VERSION: &str = "(.*)";$', (TOP / SOURCE).read_text(), re.MULTILINE)
    kept = (TOP / "VERSION").read_text()
    if len(told) != 1:
        sys.exit("version: %s has %d constants VERSION" % (SOURCE, len(told)))
    if kept != told[0] + "\n":
        sys.exit("version: VERSION says %r, %s %r" % (kept, SOURCE, told[0]))


if __name__ == "__main__":
    main()
