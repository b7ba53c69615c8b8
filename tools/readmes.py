#!/usr/bin/env python3
"""Sees that the documents name what is there. Says nothing where all is right.

    tools/readmes.py

Each crate of crates.txt has a README.md that begins with its name; each call in the first column of its table is a
function, type or trait of the crate's src/; each clause that its second column names is one of src/ or a field of
specs/; each definition of its list stands in the file of specs/ that is named with it; and must-fail/ and more-edits/ are
named where they are there. The clauses of docs/PROVED.md are clauses of `run`. Each file that a document names, between
backquotes or at the beginning of a command, is there.
"""
import argparse
import glob
import os
import re
import sys

ROOT = os.path.join(os.path.dirname(os.path.abspath(__file__)), "..")
TOP = "crates/eco_cli/src/top.rt"


def read(path):
    with open(os.path.join(ROOT, path)) as file:
        return file.read()


def text_of(crate, part, end):
    return "\n".join(read(path) for path in sorted(glob.glob(os.path.join(ROOT, "crates", crate, part, "**", "*" + end), recursive=True)))


def rows(text, columns):
    """The cells of the rows of tables with so many columns, without their heads."""
    for line in text.splitlines():
        cells = [cell.strip() for cell in line.split("|")[1:-1]]
        if line.startswith("|") and len(cells) == columns and not re.match(r"^(-+|call|clause)$", cells[0]):
            yield cells


def words(cell):
    return [name.split("::")[-1] for name in re.findall(r"`([\w:]+)`", cell)]


def is_defined(crate, modules, name):
    """Whether a file of these of the crate's specs/ has a definition of the name."""
    paths = [os.path.join(ROOT, "crates", crate, "specs", module + ".antt") for module in modules]
    start = r"^(?:abbrev |unfoldable )?(?:pub )?(?:record |data )?%s[ (:]" % re.escape(name)
    return any(os.path.exists(path) and re.search(start, read(path), re.M) for path in paths)


def undefined(crate, text):
    """The names in the list of definitions that have none in the files that are named with them."""
    for item in re.findall(r"^- (\*\*`(?:.|\n  )*)", text, re.M):
        for name in re.findall(r"\*\*`(\w+)", item):
            if not is_defined(crate, re.findall(r"\[(\w+)\]", item), name):
                yield "crates/%s/README.md: no definition %s in the file that is named with it" % (crate, name)


def wrong_folders(crate, text):
    """The folders of edits that are named and not there, or there and not named."""
    for folder in "must-fail", "more-edits":
        is_there = bool(glob.glob(os.path.join(ROOT, "crates", crate, folder, "*.edit")))
        if is_there != ("`%s/`" % folder in text):
            yield "crates/%s/README.md: %s is %s" % (crate, folder, "not named" if is_there else "not there")


def missing_files():
    """The files that the documents name, by their path from the top, and that aren't there."""
    documents = ["README.md"] + ["%s/%s" % (folder, name) for folder in ["docs", "examples"] for name in os.listdir(os.path.join(ROOT, folder))]
    documents += [os.path.relpath(path, ROOT) for path in glob.glob(os.path.join(ROOT, "crates", "*", "README.md"))]
    for path in sorted(path for path in documents if path.endswith(".md")):
        for name in re.findall(r"(?:`|^    )(?:\.\./)*((?:docs|tools|bench|examples|crates)/[\w./-]*\w|[A-Z]+\.md)", read(path), re.M):
            is_there = any(os.path.exists(os.path.join(ROOT, place, name)) for place in ["", "docs"])
            if not is_there and "/NAME" not in name:
                yield "%s: no file %s" % (path, name)


def lacks(crate):
    """What the crate's README names that isn't there."""
    path = "crates/%s/README.md" % crate
    if not os.path.exists(os.path.join(ROOT, path)):
        yield "%s is missing" % path
        return
    text, source, specs = read(path), text_of(crate, "src", ".rt"), text_of(crate, "specs", ".antt")
    if text.splitlines()[0] != "# " + crate:
        yield "%s doesn't begin with its name" % path
    for call, clause, _ in rows(text, 3):
        for name in words(call):
            if not re.search(r"\b(fn|struct|enum|trait|const) %s\b" % name, source):
                yield "%s: no call %s" % (path, name)
        for name in words(clause):
            if not re.search(r"\b(ensures|ghost) %s\b|\bfn %s\b" % (name, name), source) and not re.search(r"\b%s\b" % name, specs):
                yield "%s: no clause %s" % (path, name)
    yield from undefined(crate, text)
    yield from wrong_folders(crate, text)


def main():
    argparse.ArgumentParser(description=__doc__, formatter_class=argparse.RawDescriptionHelpFormatter).parse_args()
    crates = re.findall(r"^(\w+):", read("crates.txt"), re.M)
    found = [lack for crate in crates for lack in lacks(crate)]
    clauses = set(re.findall(r"ensures (\w+)", read(TOP)))
    for clause, _ in rows(read("docs/PROVED.md"), 2):
        found += ["docs/PROVED.md: no clause %s" % name for name in words(clause.split(",")[0]) if name not in clauses]
    found += missing_files()
    if found:
        sys.exit("\n".join("readmes: " + lack for lack in found))


if __name__ == "__main__":
    main()
