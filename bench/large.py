#!/usr/bin/env python3
"""Runs `eco synth` on netlists of rising size (bench/netlists.py), and keeps seconds and peak memory in bench/results/large.csv.

    bench/large.py [--only REGEX] [PROGRAM]

There are no weight lines beside the gates, so that nearly all time goes into reading, checking, ordering, building and sweeping a graph,
splicing and writing. Seconds are those of the clock.
"""
import os
import tempfile

import lib
import netlists

SPECIFICATION = "module g(a,b,y);input a,b;output y;and(y,a,b);endmodule\n"
ROWS = [(shape, size) for shape in ("order", "reversed", "chain", "hub") for size in (1000, 10000, 100000, 300000, 1000000)]
ROWS += [("random", 500000)]
ROWS += [(shape, size) for size in (30000, 200000) for shape in ("apart", "colliding")]


def measure(program, shape, size, folder):
    files = {option: os.path.join(folder, file) for option, file in lib.FILES.items()}
    netlists.write(shape, size, files["--impl"])
    for option, text in (("--spec", SPECIFICATION), ("--weight", "")):
        with open(files[option], "w") as file:
            file.write(text)
    ran = lib.run(lib.synth(program, files, folder), seconds=None, memory=None)
    length = os.path.getsize(files["--impl"]) / 2**20
    return [shape, size, "%.1f" % length, "%.2f" % ran.elapsed, "%.0f" % ran.memory, ran.status]


def main():
    told = lib.words_for(__doc__).parse_args()
    lib.need("cc")
    program, result = lib.program_of(told), lib.Result("large", ["shape", "gates", "file MiB", "seconds", "MiB", "status"])
    with tempfile.TemporaryDirectory() as folder:
        for shape, size in ROWS:
            if lib.is_wanted(told, "%s %d" % (shape, size)):
                result.add(*measure(program, shape, size, folder))
    result.finish(told)


if __name__ == "__main__":
    main()
