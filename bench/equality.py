#!/usr/bin/env python3
"""Proves that netlists are equal with `eco prove`, checks the proofs, and asks other solvers about the same clauses.

    bench/equality.py [--mapped] [--problems FOLDER] [--only REGEX] [PROGRAM]

Of each problem that `eco synth` patches within 60 seconds, the patched netlist is compared with the specification: a netlist against another
mapping of the same functions (bench/results/equal_patched.csv). With --mapped the specification of each problem, patched or not, is compared
with what Debian's Yosys makes of it in gates of its own choice (equal_mapped.csv). A run has 60 seconds of the processor and 4 GiB; `-` is no
answer within them. The columns: the variables and clauses of the written file; what `prove` answers, its seconds and peak MB; the steps of
the proof and its size in MB; the seconds of `recheck`; whether tools/tracecheck.py finds the same; what the checker of tools/lrat_check.sh
says of the proof in the form of LRAT, and its seconds, if Debian's acl2-books is installed; the seconds that Debian's picosat and cadical
take for the written clauses, if they are installed.
"""
import os
import re
import shutil
import subprocess
import tempfile

import lib

HEADS = ["netlists", "variables", "clauses", "prove", "seconds", "MB", "steps", "proof MB", "recheck", "tracecheck.py", "LRAT", "LRAT seconds",
         "picosat", "cadical"]


def tool(name):
    return os.path.join(lib.TOP, "tools", name)


def solver(name, clauses):
    """The user's seconds of another solver on the clauses, which it has to refute."""
    if not shutil.which(name):
        return "-"
    ran = lib.run([name, "-q", clauses] if name == "cadical" else [name, clauses])
    return "%.2f" % ran.seconds if ran.status == 20 else "-"


def checked(program, clauses, trace):
    """The seconds of `recheck`, and what the script beside the program says."""
    ran = lib.run([program, "recheck", "--cnf", clauses, "--trace", trace])
    if (ran.status, ran.said) != (0, "refuted\n"):
        return "status %d" % ran.status, "-"
    second = subprocess.run([tool("tracecheck.py"), clauses, trace], stdout=subprocess.PIPE, text=True, timeout=600)
    return "%.2f" % ran.seconds, second.stdout.split(" ")[0].strip() or "no"


def by_lrat(clauses, trace):
    """What tools/lrat_check.sh says, and the user's seconds; `-` if it was skipped or its time was over."""
    ran = lib.run([tool("lrat_check.sh"), clauses, trace])
    if (ran.status, ran.said) == (0, "verified\n"):
        return "verified", "%.2f" % ran.seconds
    return ("-" if ran.status == lib.SKIPPED or ran.seconds > lib.SECONDS - 2 else "no"), "-"


def patched(told, program, name, folder):
    """The patched netlist and the specification of the problem; nothing if there is no patch in time."""
    files = lib.files_of(told, name, folder)
    ran = lib.run(lib.synth(program, files, folder))
    return (os.path.join(folder, lib.WRITTEN[1]), files["--spec"]) if ran.status == 0 else None


def mapped(told, _, name, folder):
    """The problem's specification in other gates, and as it is."""
    given, other = lib.plain(told, name, "specification.v", folder), os.path.join(folder, "mapped.v")
    with open(given) as opened:
        top = re.search(r"\bmodule\s+(\w+)", opened.read())[1]
    subprocess.run(["yosys", "-q", "-p", "read_verilog %s; synth -flatten -top %s; %s; splitnets -ports; opt_clean; write_verilog -noattr -nohex %s" % (
        given, top, "abc -g AND,NAND,OR,NOR,XOR,XNOR", other)], check=True, stdout=subprocess.DEVNULL)
    return other, given


def measure(program, name, left, right, folder):
    """The row of two netlists."""
    words = lib.prove(program, left, right, folder)
    clauses, trace = words[words.index("--cnf") + 1], words[words.index("--trace") + 1]
    ran = lib.run(words)
    answer = ran.said.strip() if ran.status in (0, 1, 4) else "-"
    if ran.status != 0:
        return [name, "-", "-", answer, "%.2f" % ran.seconds, "%.0f" % ran.memory] + ["-"] * 8
    with open(clauses) as opened:
        _, _, variables, count = opened.readline().split()
    size = "%.1f" % (os.path.getsize(trace) / 1e6)
    return [name, variables, count, "equal", "%.2f" % ran.seconds, "%.0f" % ran.memory, ran.said.split()[1], size, *checked(program, clauses, trace),
            *by_lrat(clauses, trace), solver("picosat", clauses), solver("cadical", clauses)]


def main():
    words = lib.words_for(__doc__)
    words.add_argument("--mapped", action="store_true")
    told = words.parse_args()
    if told.mapped:
        lib.need("yosys")
    program, result = lib.program_of(told), lib.Result("equal_mapped" if told.mapped else "equal_patched", HEADS)
    with tempfile.TemporaryDirectory() as folder:
        for name in lib.problems_of(told):
            both = (mapped if told.mapped else patched)(told, program, name, folder)
            if both:
                result.add(*measure(program, name, *both, folder))
    result.finish(told)


if __name__ == "__main__":
    main()
