#!/usr/bin/env python3
"""Counts the questions that `eco synth` puts to the search, by the step that asks, and keeps bench/results/questions.csv.

    bench/questions.py [--least N] [--problems FOLDER] [--only REGEX] [PROGRAM]

The program tells on a terminal how far it is, at most once a second; here it is run on a terminal of its own, and by a clock that goes a
second further at each look (bench/clock.c), so that it tells of each question. A run has 60 seconds of the processor and 4 GiB; if they are
over, what was asked so far is counted. Questions about single targets are summed. Behind the number of questions stand the seconds of
the processor (user time) that the step took with all that it does beside them: comparing nodes of the graphs, posing, simulating, merging.
With --least the effort goes to the program, and nothing is kept.
"""
import os
import pty
import re
import subprocess
import tempfile

import lib

# the steps, by what the program says of them
STEPS = {"deciding": "deciding whether it can be rectified", "greedy bases": "choosing its base", "cheap bases": "looking for a cheap base",
         "functions": "making its function"}
TOLD = re.compile(r"eco: (?:target \d+ of \d+, )?(.*?), question (\d+) ")
ANSWERS = {0: "patch", 1: "none", 4: "given up", 7: "memory"}


def clock(folder):
    """The clock as a library that can be loaded."""
    path = os.path.join(folder, "clock.so")
    subprocess.run(["cc", "-shared", "-fPIC", "-O2", "-o", path, os.path.join(lib.TOP, "bench", "clock.c")], check=True)
    return path


def seconds_of(process):
    """The seconds of user time that a running process took so far."""
    with open("/proc/%d/stat" % process) as file:
        return int(file.read().rsplit(")", 1)[1].split()[11]) / os.sysconf("SC_CLK_TCK")


class Counts:
    """For each step that began how many questions it put, and the seconds that it took."""

    def __init__(self):
        self.put, self.took, self.step, self.questions, self.since = {}, {}, "deciding", 0, 0.0
        self.begin("deciding", 0.0)

    def begin(self, step, now):
        """The step begins, or goes on with another target, when so many seconds are over."""
        self.took[self.step] = self.took.get(self.step, 0.0) + now - self.since
        self.step, self.since = step, now
        self.put.setdefault(step, 0)
        self.took.setdefault(step, 0.0)

    def hear(self, line, process):
        """Takes in a line that the process tells."""
        found = TOLD.search(line)
        step = next((step for step, said in STEPS.items() if found and found[1] == said), None)
        if step is None:
            return
        self.put[self.step] += int(found[2]) - self.questions
        self.questions = int(found[2])
        if step != self.step:
            self.begin(step, seconds_of(process))


def lines_of(terminal):
    """The lines that come from a terminal until nobody writes to it any more."""
    with open(terminal, errors="replace") as opened:
        try:
            yield from opened
        except OSError:
            return


def measure(words, clock):
    """The counts of a run, its exit status, and all seconds."""
    terminal, side = pty.openpty()
    child = subprocess.Popen(words, stdout=subprocess.DEVNULL, stderr=side, env={**os.environ, "LD_PRELOAD": clock}, preexec_fn=lib.limits())
    os.close(side)
    counts = Counts()
    for line in lines_of(terminal):
        counts.hear(line, child.pid)
    _, status, used = os.wait4(child.pid, 0)
    child.returncode = os.waitstatus_to_exitcode(status)
    counts.begin(counts.step, used.ru_utime)
    return counts, child.returncode, used.ru_utime


def main():
    words = lib.words_for(__doc__)
    words.add_argument("--least", metavar="N")
    told = words.parse_args()
    lib.need("cc")
    program, result = lib.program_of(told), lib.Result("questions", ["problem", "answer", *STEPS, "seconds"])
    more = ["--least", told.least] if told.least else []
    with tempfile.TemporaryDirectory() as folder:
        for name in lib.problems_of(told):
            counts, status, seconds = measure(lib.synth(program, lib.files_of(told, name, folder), folder, *more), clock(folder))
            answer = ANSWERS.get(status, "time" if status in lib.OVER else "status %d" % status)
            cells = ["%d, %.2f s" % (counts.put[step], counts.took[step]) if step in counts.put else "-" for step in STEPS]
            result.add(name, answer, *cells, "%.2f" % seconds)
    if not told.least:
        result.finish(told)


if __name__ == "__main__":
    main()
