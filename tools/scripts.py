#!/usr/bin/env python3
"""Sees that each script can begin. Says nothing if all can.

    tools/scripts.py

Each Python script and each shell script of tools/, bench/ and examples/ is asked for --help: it has to print a text and end with status 0
within a second of the processor, so that none names a module or a file that is gone. tools/eco.sh, whose words are the program's, and what
other scripts read (tools/lib.sh, bench/lib.py) has only to be readable.
"""
import argparse
import concurrent.futures
import glob
import os
import resource
import subprocess
import sys

TOP = os.path.realpath(os.path.join(os.path.dirname(os.path.abspath(__file__)), ".."))
SILENT = "tools/eco.sh", "tools/lib.sh", "bench/lib.py"
# seconds of the processor that a script may take, and of the clock, on a machine that is busy
SECONDS, PATIENCE = 1, 60


def scripts():
    """The paths of all scripts from the top on."""
    patterns = [os.path.join(folder, "*" + end) for folder in ("tools", "bench", "examples/*") for end in (".py", ".sh")]
    return sorted(path for pattern in patterns for path in glob.glob(pattern, root_dir=TOP))


def words_for(path):
    """How the script is asked."""
    if path in SILENT and path.endswith(".sh"):
        return ["bash", "-n", path]
    return [sys.executable if path.endswith(".py") else "bash", path, "--help"]


def fault_of(path):
    """What is wrong with the script; nothing if it begins."""

    def limited():
        resource.setrlimit(resource.RLIMIT_CPU, (SECONDS, SECONDS))

    try:
        done = subprocess.run(words_for(path), cwd=TOP, stdin=subprocess.DEVNULL, capture_output=True, text=True, timeout=PATIENCE, preexec_fn=limited)
    except subprocess.TimeoutExpired:
        return "it doesn't end"
    if done.returncode != 0:
        return "status %d: %s" % (done.returncode, (done.stderr.strip().splitlines() or ["nothing is said"])[-1])
    return None if done.stdout or path in SILENT else "it says nothing of itself"


def main():
    argparse.ArgumentParser(description=__doc__, formatter_class=argparse.RawDescriptionHelpFormatter).parse_args()
    with concurrent.futures.ThreadPoolExecutor(os.cpu_count()) as pool:
        found = [(path, fault) for path, fault in zip(scripts(), pool.map(fault_of, scripts())) if fault]
    if found:
        sys.exit("\n".join("scripts: %s: %s" % pair for pair in found))


if __name__ == "__main__":
    main()
