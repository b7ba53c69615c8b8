#!/usr/bin/env python3
"""Runs `eco synth` on copies of a problem side by side, and keeps bench/results/copies.csv.

    bench/copies.py [--problems FOLDER] [--only REGEX] [PROGRAM]

One change in many unrelated places: the copies share no net, and each has targets, weights and a specification of its own. So the patch of K
copies need cost no more than K times that of one, and a target's base no more questions than it takes alone. Each problem of COPIED is put
together 1, 4, 8 and 16 times, as long as there are no more targets than the program takes; the greedy choice is measured, and `--least 1`.
A run has 60 seconds of the processor and 4 GiB; `time` is no answer within them. `questions` are those that were put for the bases, counted
in a second run (bench/questions.py); `compared` is what Debian's `berkeley-abc`, if it is installed, finds of the patched netlist and the
specification.
"""
import os
import re
import tempfile

import lib
import problems
import questions

COPIED = "dec_k4", "sbox_rtl"
COUNTS = 1, 4, 8, 16
# how many targets a problem may have
MOST_TARGETS = 16
BASES = {"greedy": [], "--least 1": ["--least", "1"]}
NAME = re.compile(r"(?<![\w'])[A-Za-z_]\w*")
TARGET = re.compile(r"t_(\d+)")


def renamed(text, copy, targets):
    """The text with the names of a copy, where each copy has so many targets."""

    def name(found):
        target = TARGET.fullmatch(found[0])
        return "t_%d" % (int(target[1]) + copy * targets) if target else "c%d_%s" % (copy, found[0])

    return NAME.sub(name, text)


def statements_of(text):
    """The statements of a module: each the word that it begins with, and the rest."""
    plain = re.sub(r"//[^\n]*|/\*.*?\*/", " ", text, flags=re.S)
    return [statement.split(None, 1) for statement in plain.replace("endmodule", "").split(";") if statement.strip()]


def side_by_side(text, count, targets):
    """So many copies of a netlist, in one module."""
    (_, head), *others = statements_of(text)
    module, ports = re.fullmatch(r"(\w+)\s*\((.*)\)\s*", head, re.S).groups()
    lines = ["module %s (%s);" % (module, ", ".join(renamed(ports, copy, targets) for copy in range(count)))]
    lines += ["%s %s;" % (word, renamed(rest, copy, targets)) for copy in range(count) for word, rest in others]
    return "\n".join(lines + ["endmodule", ""])


def weights_of(text, count, targets):
    """The weight file of so many copies."""
    return "".join(renamed(line, copy, targets) + "\n" for copy in range(count) for line in text.splitlines())


def texts_of(files):
    """The texts of a problem's files, and how many targets it has."""
    texts = {}
    for option, path in files.items():
        with open(path) as file:
            texts[option] = file.read()
    return texts, len(set(re.findall(r"\bt_\d+\b", texts["--impl"])))


def copied(texts, targets, count, folder):
    """The paths of the files of so many copies, which are written into the folder."""
    paths = {option: os.path.join(folder, "copies_" + lib.FILES[option]) for option in texts}
    for option, path in paths.items():
        make = weights_of if option == "--weight" else side_by_side
        with open(path, "w") as file:
            file.write(make(texts[option], count, targets))
    return paths


def questions_of(words, folder):
    """How many questions were put for the bases."""
    counts, _, _ = questions.measure(words, questions.clock(folder))
    return sum(counts.put.get(step, 0) for step in ("greedy bases", "cheap bases"))


def measure(program, files, folder, more):
    """What a run answers and takes."""
    words = lib.synth(program, files, folder, *more)
    ran = lib.run(words)
    cost, gates, put, found = "-", "-", "-", "-"
    if ran.status == 0:
        cost, gates = (problems.lines_of(ran.said, word)[0][0] for word in ("cost", "gates"))
        found = problems.compared(os.path.join(folder, lib.WRITTEN[1]), files["--spec"])
        put = questions_of(words, folder)
    return [problems.answer_of(ran), cost, gates, put, "%.2f" % ran.seconds, "%.0f" % ran.memory, found]


def measure_copies(result, program, name, files, folder):
    """Adds the rows of a problem's copies."""
    texts, targets = texts_of(files)
    for bases, more in BASES.items():
        for count in COUNTS:
            if count * targets <= MOST_TARGETS:
                result.add(name, count, bases, *measure(program, copied(texts, targets, count, folder), folder, more))


def main():
    told = lib.words_for(__doc__).parse_args()
    lib.need("cc")
    program = lib.program_of(told)
    result = lib.Result("copies", ["problem", "copies", "bases", "answer", "cost", "gates", "questions", "seconds", "MB", "compared"])
    with tempfile.TemporaryDirectory() as folder:
        for name in filter(lambda name: lib.is_wanted(told, name), COPIED):
            measure_copies(result, program, name, lib.files_of(told, name, folder), folder)
    result.finish(told)


if __name__ == "__main__":
    main()
