#!/usr/bin/env python3
"""Keeps the tables of docs/BENCH.md, and the sentence on them in README.md, as the results of bench/results have them.

    bench/tables.py              prints them
    bench/tables.py --refresh    puts them between their marks
    bench/tables.py --check      says nothing if both documents have just these tables

Nothing is measured here: the scripts beside this one do that and keep their results. A table names the commit that each of its results was
made at.
"""
import argparse
import collections
import math
import os
import re
import sys
import textwrap

import lib

MARK = re.compile(r"(<!-- ([\w ]+): bench/tables\.py -->\n)(.*?)(<!-- end of \2 -->)", re.S)
DOCUMENTS = "docs/BENCH.md", "README.md"
# a time that is told as 0.00 counts as this many seconds
SHORT = 0.005
# of this problem the function over the greedy base is far larger than any other
LARGE = "secded_rtl"


def table(heads, rows):
    lines = ["| %s |" % " | ".join(heads), "|" + "---|" * len(heads)]
    return "\n".join(lines + ["| %s |" % " | ".join(row) for row in rows])


def source(*names):
    """Of which commit the results are, when they were made and where."""
    told = {}
    for name in names:
        head, _ = lib.kept(name)
        if "commit" in head:
            told.setdefault((head["commit"], head["date"], head["machine"]), []).append("`bench/results/%s.csv`" % name)
    return "; ".join("%s: commit %s, %s, %s" % (" and ".join(files), *key) for key, files in told.items()) + "."


def by_problem(name):
    """The rows of a result by their problems."""
    return {row["problem"]: row for row in lib.kept(name)[1]}


def whole(name, heads=None):
    """A table of all columns of a result."""
    _, rows = lib.kept(name)
    names = list(rows[0])
    return table(heads or names, [[row[name] for name in names] for row in rows]) + "\n\n" + source(name)


def answer_of(row):
    """A patch's cost, or the answer in its place."""
    return row["cost"] if row["answer"] == "patch" else row["answer"]


def problems():
    other = by_problem("abc")
    heads = ["problem", "answer", "cost", "gates", "seconds", "MB", "ABC finds", "ABC's cost", "ABC's gates", "seconds", "MB"]
    rows = [[*row.values(), answer_of(other[name]), *(other[name][key] for key in ("gates", "seconds", "MB"))]
            for name, row in by_problem("problems").items()]
    return table(heads, rows) + "\n\n" + source("problems")


def least():
    """The costs over cheaper bases, of the problems that are patched by any choice."""
    greedy, one, many, other = map(by_problem, ("problems", "least_1", "least_64", "abc"))
    lacking = dict.fromkeys(("answer", "cost", "least", "gates", "seconds"), "-")
    rows = []
    for name in greedy:
        efforts = [result.get(name, lacking) for result in (one, many)]
        if "patch" in [row["answer"] for row in (greedy[name], *efforts)]:
            cells = [cell for row in efforts for cell in (answer_of(row), row["least"], row["gates"], row["seconds"])]
            rows.append([name, answer_of(greedy[name]), *cells, answer_of(other[name])])
    heads = ["problem", "greedy", "`--least 1`", "at least", "gates", "seconds", "`--least 64`", "at least", "gates", "seconds", "ABC's cost"]
    return table(heads, rows) + "\n\n" + source("least_1", "least_64")


def bounds():
    other = by_problem("abc")
    rows = [[name, row["cost"], row["bound"], row["parts"], answer_of(other[name])] for name, row in by_problem("bounds").items()]
    return table(["problem", "cost", "bound", "parts", "ABC's cost"], rows) + "\n\n" + source("bounds")


def mean(ratios):
    return math.exp(sum(map(math.log, ratios)) / len(ratios))


def seconds_of(row):
    return max(float(row["seconds"]), SHORT)


Means = collections.namedtuple("Means", "patches cost gates seconds")
Means.__doc__ = "How many problems both patch, and the geometric means of cost, gates and seconds beside ABC's."


def beside(result, without=()):
    """The means over a result's problems, without these."""
    own, other = by_problem(result), by_problem("abc")
    both = [(own[name], other[name]) for name in own
            if name not in without and own[name]["answer"] == other.get(name, {"answer": ""})["answer"] == "patch"]
    ratios = [mean([float(one[key]) / float(two[key]) for one, two in both]) for key in ("cost", "gates")]
    return Means(len(both), *ratios, mean([seconds_of(one) / seconds_of(two) for one, two in both]))


RUNS = [("the greedy choice", "problems", ()), ("the same without `%s`" % LARGE, "problems", (LARGE,)), ("`--least 1`", "least_1", ()),
        ("`--least 64`", "least_64", ())]


def means():
    rows = []
    for title, result, without in RUNS:
        found = beside(result, without)
        rows.append([title, str(found.patches), "%.2f" % found.cost, "%.2f" % found.gates, "%.2f" % found.seconds])
    return table(["bases", "patches", "cost", "gates", "seconds"], rows) + "\n\n" + source("problems", "least_1", "least_64")


def without_answer(*results):
    """The problems that none of the results has an answer of."""
    answers = {}
    for result in results:
        for name, row in by_problem(result).items():
            answers.setdefault(name, set()).add(row["answer"])
    return [name for name, told in answers.items() if not told & {"patch", "none"}]


def limits():
    """What README.md says of costs, gates and answers in time."""
    greedy, fewer, light = beside("problems"), beside("problems", (LARGE,)), beside("least_1")
    every, slow, open_ones = len(by_problem("problems")), without_answer("problems"), without_answer("problems", "least_1")
    named = ", ".join("`%s`" % name for name in open_ones)
    said = (
        f"Beside ABC, on the problems of `docs/BENCH.md` that both patch: with `--least 1` patches cost {light.cost:.2f} times as much and have "
        f"{light.gates:.2f} times as many gates; with the greedy choice {greedy.cost:.2f} and {greedy.gates:.1f} times ({fewer.cost:.2f} and {fewer.gates:.1f} without "
        f"`{LARGE}`). Of the {every} problems {every - len(slow)} are answered within a minute with the greedy choice, and {every - len(open_ones)} with one of the two")
    return textwrap.fill(said + (f"; {named} aren't." if named else "."), 100, break_long_words=False, break_on_hyphens=False)


def refused():
    """What each example was refused, and the sums."""
    _, rows = lib.kept("refused")
    names = list(rows[0])
    sums = [str(sum(int(row[name]) for row in rows)) for name in names[2:]]
    cells = [[row[name] for name in names] for row in rows] + [["together", "", *sums]]
    return table(names, cells) + "\n\n" + source("refused")


TABLES = {
    "problems": problems, "means": means, "least": least, "bounds": bounds, "limits": limits, "refused": refused,
    "questions": lambda: whole("questions"), "cuts": lambda: whole("cuts"),
    "equal mapped": lambda: whole("equal_mapped"), "equal patched": lambda: whole("equal_patched"),
    "reading": lambda: whole("reading"), "large": lambda: whole("large"), "locate": lambda: whole("locate"), "proofs": lambda: whole("proofs"), "search": lambda: whole("search"),
}


def read(path):
    with open(os.path.join(lib.TOP, path)) as file:
        return file.read()


def document(path):
    """The document with the tables as they are now."""
    return MARK.sub(lambda found: found[1] + "\n" + TABLES[found[2]]() + "\n\n" + found[4], read(path))


def main():
    words = argparse.ArgumentParser(description=__doc__, formatter_class=argparse.RawDescriptionHelpFormatter)
    choice = words.add_mutually_exclusive_group()
    choice.add_argument("--check", action="store_true")
    choice.add_argument("--refresh", action="store_true")
    told = words.parse_args()
    placed = {name for path in DOCUMENTS for _, name, _, _ in MARK.findall(read(path))}
    if placed != set(TABLES):
        sys.exit("tables: the marks and the tables differ in %s" % ", ".join(sorted(placed ^ set(TABLES))))
    texts = {path: document(path) for path in DOCUMENTS}
    if told.refresh:
        for path, text in texts.items():
            with open(os.path.join(lib.TOP, path), "w") as file:
                file.write(text)
    elif told.check:
        stale = [path for path, text in texts.items() if text != read(path)]
        if stale:
            sys.exit("tables: %s: the tables aren't what bench/tables.py --refresh puts there" % ", ".join(stale))
    else:
        print("\n\n".join("%s\n\n%s" % (name, make()) for name, make in TABLES.items()))


if __name__ == "__main__":
    main()
