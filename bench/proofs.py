#!/usr/bin/env python3
"""Times the check of proofs of rising size with their interpolants, and keeps bench/results/proofs.csv.

    bench/proofs.py [--only REGEX] [PROGRAM]

PROGRAM is the built program bench_parts. A proof of N steps begins with a clause of 20 literals; each step but the last resolves with a
clause of two literals, so that one of the 20 is changed, and the last takes the 20 literals away. Clauses and proof are read, the proof is
checked, and an interpolant is made, the last clause being the second part. Seconds are of user time, the best of three runs.
"""
import os
import tempfile

import lib

WIDTH = 20
STEPS = (1000, 10000, 100000)


def clauses(steps):
    """A clause of 20 literals; the clauses that change its last literal, one after another; those that take all literals away."""
    yield list(range(1, WIDTH + 1))
    yield from ([-(WIDTH + k), WIDTH + k + 1] for k in range(steps))
    yield from ([-x] for x in range(1, WIDTH))
    yield [-(WIDTH + steps)]


def proof(steps):
    """The proof's lines: the id of the clause at which a step begins, and pairs of a pivot and a clause's id."""
    known = 1 + steps + WIDTH
    yield from ([1 if k == 0 else known + k, WIDTH + k, 2 + k] for k in range(steps))
    yield [known + steps] + [word for x in range(1, WIDTH) for word in (x, 1 + steps + x)] + [WIDTH + steps, known]


def write(path, head, lines):
    with open(path, "w") as file:
        file.write(head)
        file.writelines(" ".join(map(str, line)) + " 0\n" for line in lines)


def main():
    told = lib.words_for(__doc__, "bench_parts").parse_args()
    program, result = lib.program_of(told), lib.Result("proofs", ["steps", "files MB", "seconds", "MiB"])
    with tempfile.TemporaryDirectory() as folder:
        paths = [os.path.join(folder, file) for file in ("clauses.cnf", "proof.trace")]
        for steps in STEPS:
            if lib.is_wanted(told, str(steps)):
                write(paths[0], "p cnf %d %d\n" % (WIDTH + steps, 1 + steps + WIDTH), clauses(steps))
                write(paths[1], "", proof(steps))
                seconds, memory = lib.best_of_three([program, "interpolate", *paths])
                size = sum(map(os.path.getsize, paths)) / 1e6
                result.add(steps, "%.1f" % size, "%.2f" % seconds, "%.0f" % memory)
    result.finish(told)


if __name__ == "__main__":
    main()
