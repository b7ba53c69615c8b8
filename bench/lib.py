"""What the scripts of bench/ share: their words, the problems, runs with limits, and results that are kept.

Scripts of tools/ that run the program use it too.
"""
import argparse
import collections
import csv
import datetime
import gzip
import os
import re
import resource
import shutil
import signal
import subprocess
import sys
import time

TOP = os.path.dirname(os.path.dirname(os.path.realpath(__file__)))
PROBLEMS = os.path.join(TOP, "bench", "problems")
RESULTS = os.path.join(TOP, "bench", "results")
# the options of `synth` that name a file of a problem, and that file
FILES = {"--impl": "implementation.v", "--spec": "specification.v", "--weight": "weights.txt"}
# the patch and the patched netlist, where `synth` writes them
WRITTEN = "patch.v", "patched.v"
# a run's limits: seconds of the processor, and bytes
SECONDS, BYTES = 60, 4 << 30
# the statuses of a run whose seconds are over
OVER = -signal.SIGKILL, -signal.SIGXCPU
# the status of a script that did nothing, as what it needs isn't installed
SKIPPED = 77

Run = collections.namedtuple("Run", "status said seconds memory elapsed")
Run.__doc__ = "A run that ended: its exit status, what it printed, the user's seconds, the peak memory in MiB and the clock's seconds."


def words_for(text, crate="eco"):
    """The parser of a script's words. Every script takes the program, the problems and what is measured of them in the same way."""
    words = argparse.ArgumentParser(description=text, formatter_class=argparse.RawDescriptionHelpFormatter)
    named = " or the one that ECO names" if crate == "eco" else ""
    words.add_argument("program", nargs="?", help="the built program %s; without it%s tools/build.sh builds it" % (crate, named))
    words.add_argument("--problems", metavar="FOLDER", default=PROBLEMS, help="has a folder for each problem; without it bench/problems")
    words.add_argument("--only", metavar="REGEX", type=re.compile, help="measures only what has such a name, and keeps no result")
    words.set_defaults(crate=crate)
    return words


def eco():
    """The program for scripts that time nothing: the one that ECO names, or tools/eco.sh, which builds it."""
    return os.path.abspath(os.environ.get("ECO") or os.path.join(TOP, "tools", "eco.sh"))


def program_of(told):
    """The path of the program that the words name, or ECO, or else of the one of the sources, which is built first if need be."""
    named = told.program or told.crate == "eco" and os.environ.get("ECO")
    if named:
        return os.path.abspath(named)
    build = os.path.join(TOP, "tools", "build.sh")
    return subprocess.run([build, told.crate], stdout=subprocess.PIPE, text=True, check=True).stdout.strip()


def is_wanted(told, name):
    """Whether the words ask for what has this name."""
    return told.only is None or told.only.search(name) is not None


def problems_of(told):
    """The names of the problems that are asked for."""
    return sorted(name for name in os.listdir(told.problems)
                  if os.path.isdir(os.path.join(told.problems, name)) and is_wanted(told, name))


def plain(told, name, file, folder):
    """The path of a problem's file as plain text, which is put into the folder if the file is gzipped."""
    path = os.path.join(told.problems, name, file)
    if os.path.exists(path):
        return path
    unpacked = os.path.join(folder, name + "_" + file)
    with gzip.open(path + ".gz", "rb") as packed, open(unpacked, "wb") as opened:
        shutil.copyfileobj(packed, opened)
    return unpacked


def files_of(told, name, folder):
    """The paths of a problem's files as plain text, by the options that name them."""
    return {option: plain(told, name, file, folder) for option, file in FILES.items()}


def synth(program, files, folder, *more):
    """The words of `synth` for these files, by their options; patch and patched netlist go into the folder."""
    named = [word for pair in files.items() for word in pair]
    patch, patched = (os.path.join(folder, file) for file in WRITTEN)
    return [program, "synth", *named, "--patch", patch, "--out", patched, *more]


def prove(program, left, right, folder):
    """The words of `prove` for two netlists; clauses and proof go into the folder."""
    return [program, "prove", "--left", left, "--right", right,
            "--cnf", os.path.join(folder, "clauses.cnf"), "--trace", os.path.join(folder, "proof.trace")]


def limits(seconds=SECONDS, memory=BYTES):
    """What puts these limits on a process that begins; None is no limit."""

    def limited():
        if seconds is not None:
            resource.setrlimit(resource.RLIMIT_CPU, (seconds, seconds))
        if memory is not None:
            resource.setrlimit(resource.RLIMIT_AS, (memory, memory))

    return limited


def run(words, seconds=SECONDS, memory=BYTES):
    """Runs the words with these limits. A run whose seconds are over has one of the statuses OVER."""
    began = time.monotonic()
    child = subprocess.Popen(words, stdout=subprocess.PIPE, stderr=subprocess.DEVNULL, text=True, preexec_fn=limits(seconds, memory))
    said = child.stdout.read()
    _, status, used = os.wait4(child.pid, 0)
    child.returncode = os.waitstatus_to_exitcode(status)
    return Run(child.returncode, said, used.ru_utime, used.ru_maxrss / 1024, time.monotonic() - began)


def best_of_three(words):
    """The seconds and the peak memory of the best of three runs, each of which has to print a number."""
    runs = [run(words) for _ in range(3)]
    if any(ran.status != 0 or not ran.said.strip().isdigit() for ran in runs):
        sys.exit("no number is printed by " + " ".join(words))
    return min((ran.seconds, ran.memory) for ran in runs)


def need(tool):
    """Ends the script as one that did nothing if the tool isn't installed."""
    if not shutil.which(tool):
        print("skipped: %s: %s isn't installed" % (os.path.basename(sys.argv[0]), tool))
        sys.exit(SKIPPED)


def command_output(*words):
    return subprocess.run(words, cwd=TOP, stdout=subprocess.PIPE, stderr=subprocess.DEVNULL, text=True).stdout


def commit():
    """The commit that is checked out, and whether files differ from it (other results don't count)."""
    changed = command_output("git", "status", "--porcelain", "--", ".", ":!bench/results").strip()
    return command_output("git", "rev-parse", "HEAD")[:8] + (", with changes" if changed else "")


def machine():
    """The processor's model and how many there are."""
    with open("/proc/cpuinfo") as file:
        models = re.findall(r"^model name\s*: (.*)$", file.read(), re.M)
    return "%s, %d processors" % (models[0] if models else "a processor of an unknown model", os.cpu_count())


class Result:
    """The rows of a measurement. They are printed as a table as they come, and kept as bench/results/NAME.csv in the end."""

    def __init__(self, name, heads):
        self.name, self.heads, self.rows = name, heads, []
        print("| %s |" % " | ".join(heads))
        print("|" + "---|" * len(heads), flush=True)

    def add(self, *cells):
        self.rows.append([str(cell) for cell in cells])
        print("| %s |" % " | ".join(self.rows[-1]), flush=True)

    def keep(self, hidden):
        """Keeps the rows. The hidden words, as paths of this machine, aren't told in the file's head."""
        os.makedirs(RESULTS, exist_ok=True)
        with open(os.path.join(RESULTS, self.name + ".csv"), "w", newline="") as file:
            file.writelines("# %s\n" % line for line in head_lines(hidden))
            rows = csv.writer(file, lineterminator="\n")
            rows.writerow(self.heads)
            rows.writerows(self.rows)

    def finish(self, told):
        """Keeps the rows of a script that has these words, unless only some rows were asked for."""
        if told.only is None:
            self.keep((told.program, "--problems", told.problems))


def head_lines(hidden):
    """What the head of a result says: which words made it, of which commit, when and on which machine."""
    script = os.path.relpath(os.path.realpath(sys.argv[0]), TOP)
    words = [word for word in sys.argv[1:] if word not in hidden]
    return ["made by: " + " ".join([script, *words]), "commit: " + commit(), "date: %s" % datetime.date.today(), "machine: " + machine()]


def kept(name):
    """The head of a result that is kept, as a dictionary, and its rows as dictionaries by the names of the columns."""
    with open(os.path.join(RESULTS, name + ".csv"), newline="") as file:
        lines = file.read().splitlines()
    head = dict(line[2:].split(": ", 1) for line in lines if line.startswith("# "))
    return head, list(csv.DictReader(line for line in lines if not line.startswith("# ")))
