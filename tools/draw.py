#!/usr/bin/env python3
"""Draws the problem of `eco gen` by itself, apart from its code (docs/FORMATS.md, "Drawn problems").

    tools/draw.py SEED SIZE TARGETS FOLDER    writes implementation.v, specification.v and weights.txt into the folder

`eco synth` on these files has to find the cost, the gates and the number of base signals that `eco gen` prints.
"""
import argparse
import os

WORD, LONG = (1 << 32) - 1, (1 << 64) - 1
MULTIPLIER = 6364136223846793005
SEEDING = 11634580027462260723
INPUTS = 16
KINDS = ["and", "nand", "or", "nor", "xor", "xnor"]


def output(state):
    """The word that PCG makes of a state: an xor with a shift, and a rotation by its highest bits."""
    word, turn = ((state >> 18 ^ state) >> 27) & WORD, state >> 59
    return (word >> turn | word << (32 - turn)) & WORD


def words(seed):
    """The generator's words, without end."""
    seeds = []
    for _ in range(4):
        seed = (seed * MULTIPLIER + SEEDING) & LONG
        seeds.append(output(seed))
    state, increment = seeds[0] | seeds[1] << 32, seeds[2] | seeds[3] << 32 | 1
    state = ((state + increment) * MULTIPLIER + increment) & LONG
    while True:
        yield output(state)
        state = (state * MULTIPLIER + increment) & LONG


def text(gates, names, ports, wires):
    inputs = ["x%d" % k for k in range(INPUTS)]
    lines = ["module gen (%s);" % ", ".join(inputs + ports)]
    lines += ["input %s;" % name for name in inputs] + ["output %s;" % name for name in ports]
    lines += ["wire %s;" % name for name in wires]
    lines += ["%s (%s);" % (kind, ", ".join(names.get(term, term) for term in terms)) for kind, terms in gates]
    return "\n".join(lines + ["endmodule", ""])


def draw(seed, size, targets):
    """The texts of implementation, specification and weights."""
    source = words(seed)

    def below(count):
        return next(source) % count

    signals, gates, read = ["x%d" % k for k in range(INPUTS)], [], set()
    for j in range(size):
        kind = KINDS[below(6)]
        terms = [signals[below(INPUTS + j)] for _ in range(2)]
        read.update(terms)
        signals.append("g%d" % j)
        gates.append((kind, ["g%d" % j] + terms))
    unread = [name for name in signals[INPUTS:] if name not in read]
    ports = ["y%d" % m for m in range(len(unread))]
    cut = {"g%d" % (i * size // targets): "t_%d" % i for i in range(targets)}
    weighed = [name for name in signals if name not in cut]
    weights = "".join("%s %d\n" % (name, below(100) + 1) for name in weighed)
    leads = [("buf", [port, name]) for port, name in zip(ports, unread)]
    left = [gate for gate in gates if gate[1][0] not in cut]
    wires = signals[INPUTS:]
    return (text(left + leads, cut, ports, [cut.get(name, name) for name in wires]),
            text(gates + leads, {}, ports, wires), weights)


def main():
    words = argparse.ArgumentParser(description=__doc__, formatter_class=argparse.RawDescriptionHelpFormatter)
    for name in ("seed", "size", "targets"):
        words.add_argument(name, type=int)
    words.add_argument("folder")
    told = words.parse_args()
    texts = draw(told.seed, told.size, told.targets)
    for name, content in zip(["implementation.v", "specification.v", "weights.txt"], texts):
        with open(os.path.join(told.folder, name), "w") as file:
            file.write(content)


if __name__ == "__main__":
    main()
