#!/usr/bin/env python3
"""Prints the crates as tables, one for each layer of crates.txt, or keeps them in docs/ARCHITECTURE.md.

    tools/crates.py              prints them
    tools/crates.py --refresh    puts them into docs/ARCHITECTURE.md, between their marks
    tools/crates.py --check      says nothing where that holds just these tables, and each folder of crates/ has a line in crates.txt
    tools/crates.py --sizes      prints how many functions each crate's src/ has, the largest first

A layer is a comment line of crates.txt that crates follow. What a crate does is the first sentence of its README.md. It stands on
the libraries of its line in crates.txt, but for those that another one of them stands on already.
"""
import argparse
import glob
import os
import re
import sys

ROOT = os.path.join(os.path.dirname(os.path.abspath(__file__)), "..")
DOCUMENT = "docs/ARCHITECTURE.md"
MARKS = "<!-- crates: tools/crates.py -->", "<!-- end of the crates -->"
HEAD = "| crate | does | stands on |\n|---|---|---|"


def read(path):
    with open(os.path.join(ROOT, path)) as file:
        return file.read()


def layers():
    """The layers in order: what each one is, and its crates."""
    found, title = [], None
    for line in read("crates.txt").splitlines():
        if line.startswith("# "):
            title = line[2:]
        elif ":" in line:
            if not found or found[-1][0] != title:
                found.append((title, []))
            found[-1][1].append(line.split(":")[0])
    return found


def libraries():
    """The libraries of each crate, in the order of its line."""
    return {name: rest.split() for name, rest in re.findall(r"^(\w+):(.*)$", read("crates.txt"), re.M)}


def below(name, of):
    """All that a library stands on."""
    return set(of.get(name, [])).union(*(below(lower, of) for lower in of.get(name, [])))


def stands_on(crate, of):
    """The crate's libraries that no other one of them stands on."""
    lower = set().union(*(below(library, of) for library in of[crate]))
    return [library for library in of[crate] if library not in lower]


def does(crate):
    """The first sentence of the crate's README.md, without its full stop."""
    text = read("crates/%s/README.md" % crate).split("\n\n")[1].replace("\n", " ")
    return re.split(r"\.(?=\s+[A-Z`]|$)", text)[0].replace("|", "&#124;")


def tables():
    of = libraries()
    for title, crates in layers():
        rows = ["| `%s` | %s | %s |" % (crate, does(crate), ", ".join("`%s`" % name for name in stands_on(crate, of))) for crate in crates]
        yield "**%s.**\n\n%s\n%s" % (title[0].upper() + title[1:], HEAD, "\n".join(rows))


def document():
    """The document with the tables as they are now."""
    text = read(DOCUMENT)
    start, end = text.find(MARKS[0]) + len(MARKS[0]), text.find(MARKS[1])
    if not len(MARKS[0]) <= start <= end:
        sys.exit("crates: %s has no marks around its tables" % DOCUMENT)
    return text[:start] + "\n\n" + "\n\n".join(tables()) + "\n\n" + text[end:]


def sizes():
    """How many functions each crate has, the largest first."""
    count = {crate: 0 for crate in libraries()}
    for crate in count:
        for path in glob.glob(os.path.join(ROOT, "crates", crate, "src", "**", "*.rt"), recursive=True):
            count[crate] += len(re.findall(r"^\s*(?:pub(?:\(\w+\))? )?(?:const )?fn \w", read(path), re.M))
    return sorted(count.items(), key=lambda pair: -pair[1])


def check():
    folders = {name for name in os.listdir(os.path.join(ROOT, "crates")) if os.path.isdir(os.path.join(ROOT, "crates", name, "src"))}
    if folders != set(libraries()):
        sys.exit("crates: crates/ and crates.txt differ in %s" % ", ".join(sorted(folders ^ set(libraries()))))
    if document() != read(DOCUMENT):
        sys.exit("crates: the tables of %s aren't what tools/crates.py --refresh puts there" % DOCUMENT)


def main():
    words = argparse.ArgumentParser(description=__doc__, formatter_class=argparse.RawDescriptionHelpFormatter)
    choice = words.add_mutually_exclusive_group()
    choice.add_argument("--check", action="store_true")
    choice.add_argument("--refresh", action="store_true")
    choice.add_argument("--sizes", action="store_true")
    told = words.parse_args()
    if told.sizes:
        print("\n".join("%s %d" % pair for pair in sizes()))
    elif told.check:
        check()
    elif told.refresh:
        text = document()
        with open(os.path.join(ROOT, DOCUMENT), "w") as file:
            file.write(text)
    else:
        print("\n\n".join(tables()))


if __name__ == "__main__":
    main()
