#!/usr/bin/env python3
"""Runs `eco synth` on real problems, and keeps what it answers.

    bench/problems.py [--least N | --bound] [--problems FOLDER] [--only REGEX] [PROGRAM]

A run has 60 seconds of the processor and 4 GiB; `time` is no answer within them. Without an option the greedy choice is measured
(bench/results/problems.csv). With --least the program is asked with this effort for bases of least cost (least_N.csv), and `least` is what
it tells that each target costs at least. With --bound it is asked what any base of a single target costs at least (bounds.csv); problems
with several targets, and those without an answer, are left out. If Debian's `berkeley-abc` is installed, it compares each patched netlist
with the specification, and `compared` is what it found.
"""
import os
import shutil
import subprocess
import tempfile

import lib

STATUSES = {0: "patch", 1: "none", 7: "memory"}


def compared(patched, specification):
    """What ABC finds: equal, unlike or nothing."""
    if not shutil.which("berkeley-abc"):
        return "-"
    said = subprocess.run(["berkeley-abc", "-q", "cec -n %s %s" % (patched, specification)], stdout=subprocess.PIPE,
                          stderr=subprocess.STDOUT, text=True, timeout=600).stdout
    return "equal" if "are equivalent" in said else "unlike" if "NOT EQUIVALENT" in said else "-"


def lines_of(said, word):
    """The lines of a report that begin with the word, each as its words behind it."""
    return [line.split(" ")[1:] for line in said.splitlines() if line.split(" ")[0] == word]


def answer_of(ran):
    """The answer in a word; what is printed of a spent budget; `time` if the seconds were over."""
    return ran.said.strip() if ran.status == 4 else STATUSES.get(ran.status, "time" if ran.status in lib.OVER else "status %d" % ran.status)


def measure(told, program, name, folder):
    """The row of a problem."""
    files = lib.files_of(told, name, folder)
    ran = lib.run(lib.synth(program, files, folder, *(["--least", str(told.least)] if told.least else [])))
    cost, gates, found = "-", "-", "-"
    if ran.status == 0:
        cost, gates = (lines_of(ran.said, word)[0][0] for word in ("cost", "gates"))
        found = compared(os.path.join(folder, lib.WRITTEN[1]), files["--spec"])
    least = [" ".join(line[1] for line in lines_of(ran.said, "least")) or "-"] if told.least else []
    return [name, answer_of(ran), cost, *least, gates, "%.2f" % ran.seconds, "%.0f" % ran.memory, found]


def measure_bound(told, program, name, folder):
    """The row of a problem whose bound is told; nothing if there is none."""
    ran = lib.run(lib.synth(program, lib.files_of(told, name, folder), folder, "--bound"))
    bounds = lines_of(ran.said, "bound")
    return [name, lines_of(ran.said, "cost")[0][0], *bounds[0], "%.2f" % ran.seconds] if ran.status == 0 and bounds else None


def result_of(told):
    """The result that the words ask for, without rows."""
    if told.bound:
        return lib.Result("bounds", ["problem", "cost", "bound", "parts", "seconds"])
    least = ["least"] if told.least else []
    name = "least_%d" % told.least if told.least else "problems"
    return lib.Result(name, ["problem", "answer", "cost", *least, "gates", "seconds", "MB", "compared"])


def main():
    words = lib.words_for(__doc__)
    choice = words.add_mutually_exclusive_group()
    choice.add_argument("--least", type=int, metavar="N")
    choice.add_argument("--bound", action="store_true")
    told = words.parse_args()
    program, result = lib.program_of(told), result_of(told)
    with tempfile.TemporaryDirectory() as folder:
        for name in lib.problems_of(told):
            row = (measure_bound if told.bound else measure)(told, program, name, folder)
            if row:
                result.add(*row)
    result.finish(told)


if __name__ == "__main__":
    main()
