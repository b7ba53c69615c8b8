#!/usr/bin/env python3
"""Times the reading of large netlists (bench/netlists.py), and making them again as a splice does; keeps bench/results/reading.csv.

    bench/read.py [--only REGEX] [PROGRAM]

PROGRAM is the built program bench_parts. Seconds are of user time, the best of three runs.
"""
import os
import tempfile

import lib
import netlists

ROWS = [(shape, size) for shape in ("order", "reversed", "chain", "hub") for size in (100000, 1000000)]
ROWS += [("random", 500000)]
ROWS += [(shape, size) for size in (30000, 200000) for shape in ("apart", "colliding")]


def main():
    told = lib.words_for(__doc__, "bench_parts").parse_args()
    lib.need("cc")
    program = lib.program_of(told)
    result = lib.Result("reading", ["shape", "gates", "read seconds", "read MiB", "copied seconds", "copied MiB"])
    with tempfile.TemporaryDirectory() as folder:
        file = os.path.join(folder, "f.v")
        for shape, size in ROWS:
            if lib.is_wanted(told, "%s %d" % (shape, size)):
                netlists.write(shape, size, file)
                figures = [figure for part in ("read", "copy") for figure in lib.best_of_three([program, part, file])]
                result.add(shape, size, *(form % figure for form, figure in zip(("%.2f", "%.0f") * 2, figures)))
    result.finish(told)


if __name__ == "__main__":
    main()
