#!/usr/bin/env python3
"""Keeps the examples, their answers and the test that runs them together.

    tools/examples.py --answer    answers each example with the program (tools/eco.sh, or the one that ECO names) and keeps
                                  patch, patched netlist and report
    tools/examples.py --write     writes the test's table, crates/test_cli/src/examples.rt, from the examples' files
    tools/examples.py --check     says nothing where the table has just these files and each answer holds when it is
                                  counted again (tools/recount.py); else what is wrong, with status 1
"""
import argparse
import os
import subprocess
import sys

import recount

TOP = os.path.join(os.path.dirname(os.path.realpath(__file__)), "..")
sys.path.append(os.path.join(TOP, "bench"))
import lib

EXAMPLES = os.path.join(TOP, "examples")
TABLE = os.path.join(TOP, "crates", "test_cli", "src", "examples.rt")
# What the program reads and what it answers; `care.v` stands only where some inputs don't matter, and the two netlists of the
# answer only where a patch can help.
READ = ["implementation.v", "specification.v", "weights.txt", "care.v"]
ANSWERED = ["report.txt", "patch.v", "patched.v"]
HEAD = """//! The examples of `examples/`, each with its answer: `tools/examples.py --write` puts them here from their files.

use crate::cases::{Case, Left, try_case};
use std::test::Fail;

const EXAMPLES: [Case<'static>; %d] = [
"""
CASE = """    Case {
        name: %s,
        implementation: %s,
        specification: %s,
        weights: %s,
        care: %s,
        status: %d,
%s
        patch: %s,
        out: %s,
    },
"""
TAIL = """];

#[test]
fn each_example_has_the_answer_beside_it(rt: HostRuntime) -> Result<(), Fail> {
    for example in &EXAMPLES {
        try_case(&rt, example)?;
    }
    Ok(())
}
"""


def names():
    return sorted(name for name in os.listdir(EXAMPLES) if os.path.exists(path(name, "implementation.v")))


def path(name, file):
    return os.path.join(EXAMPLES, name, file)


def text(name, file):
    """The text of a file of an example; None where it has none."""
    if not os.path.exists(path(name, file)):
        return None
    with open(path(name, file)) as opened:
        return opened.read()


def quoted(text):
    for plain, escaped in (("\\", "\\\\"), ('"', '\\"'), ("\n", "\\n"), ("\t", "\\t"), ("\r", "\\r")):
        text = text.replace(plain, escaped)
    return '"%s"' % text


def printed(report):
    """What the table says of the report, laid out as `rt fmt` does."""
    line = "        printed: &[%s]," % quoted(report)
    return line if len(line) <= 100 else "        printed: &[\n            %s,\n        ]," % quoted(report)


def left(written):
    """What the table says of a file that a run may write."""
    return "Left::Nothing" if written is None else "Left::Text(\n            %s,\n        )" % quoted(written)


def case(name):
    implementation, specification, weights, care = (text(name, file) for file in READ)
    report, patch, patched = (text(name, file) for file in ANSWERED)
    return CASE % (quoted(name), quoted(implementation), quoted(specification), quoted(weights), quoted(care or ""),
                   1 if patch is None else 0, printed(report), left(patch), left(patched))


def table():
    return HEAD % len(names()) + "".join(case(name) for name in names()) + TAIL


def answer():
    for name in names():
        files = {**lib.FILES, **({"--care": "care.v"} if text(name, "care.v") is not None else {})}
        with open(path(name, "report.txt"), "w") as report:
            done = subprocess.run(lib.synth(lib.eco(), files, ""), cwd=os.path.join(EXAMPLES, name), stdout=report)
        if done.returncode not in (0, 1):
            sys.exit("examples: %s: status %d" % (name, done.returncode))


def check():
    with open(TABLE) as file:
        if file.read() != table():
            sys.exit("examples: the table isn't that of the files: run tools/examples.py --write")
    for name in names():
        implementation, specification, weights, care = (text(name, file) for file in READ)
        report, patch, patched = (text(name, file) for file in ANSWERED)
        try:
            recount.recount(recount.Problem(implementation, specification, weights, 1, care), patch, patched, report)
        except recount.Wrong as wrong:
            sys.exit("examples: %s: %s" % (name, wrong))


def main():
    words = argparse.ArgumentParser(description=__doc__, formatter_class=argparse.RawDescriptionHelpFormatter)
    choice = words.add_mutually_exclusive_group(required=True)
    for name in ("--answer", "--write", "--check"):
        choice.add_argument(name, action="store_true")
    told = words.parse_args()
    if told.answer:
        answer()
    elif told.write:
        with open(TABLE, "w") as file:
            file.write(table())
    else:
        check()


if __name__ == "__main__":
    main()
