#!/usr/bin/env python3
"""Patches the problems of bench/problems without `eco synth`, by guesses from simulation that `eco prove` proves, and keeps
bench/results/cuts.csv.

    bench/cuts.py [--problems FOLDER] [--only REGEX] [PROGRAM]

This is a measurement: nothing of this script is trusted, nor are the costs and gates that it counts. Where it prints `equal`, `eco prove`
proved that the implementation with the patch equals the specification. Both netlists are simulated at the same 12288 inputs in each run:
at a third of them each bit is drawn evenly, at a third it is mostly 0, at a third mostly 1. A *literal* is the values that some net outside
the targets' fan-outs, or some net of the specification, has at all of them, or the complement of these. Nets that have the same literal are
taken to be equal: a guess, as the others below. Where a proof ends at an input at which the netlists differ, all is tried anew with this
input and those that differ from it in one bit, twenty times at most.

1. A *reference* is guessed for each target, a literal, or else `and`, `or` or `xor` of two, such that all outputs are right at all of these
   inputs where each target has the values of its reference. Of several choices of references for all targets those are kept with which
   most nets behind the targets have a net of the specification's values or their complement, and of these the first with the cheapest cut.
2. `eco prove` is asked whether the implementation equals the specification where the references drive the targets. A reference's literal
   that a net outside the fan-outs has is read there; any other is made by gates of the specification, from the inputs on.
3. The *cut* is a set of nets outside the fan-outs, of least weight together, from which gates of the specification make the references:
   a gate is left out where a net of the cut has its literal. The other gates are the patch.
4. `eco prove` is asked whether the implementation with the patch equals the specification, whatever came of the first question.

The columns: the number of targets; that of the tries; the kinds of the references, where F is a literal that a net outside the fan-outs
has, G one that only nets of the specification have, `~` stands before a complement, and 0 and 1 are constant; the seconds of the search,
which is simulating, guessing and cutting in all tries, without reading the files; of the last try the seconds of the first proof; what
the cut weighs, each net once; the gates of the patch, where a `buf` or `not` that drives a target counts, as for `eco synth`; the seconds
of the second proof; the answer. A proof that wasn't found has a word before its seconds: `differs`, `budget`, `time` or `memory`. The
answer is `equal`, `not proved`, `no references`, or `no right row at some input`, where at some simulated input no values of the targets
make all outputs right. Seconds are those of the processor (user time); a call of the program has 60 of them and 4 GiB.
"""
import functools
import itertools
import math
import operator
import os
import random
import sys
import tempfile
import time

import lib

sys.path.append(os.path.join(lib.TOP, "tools"))
from gates import gates_of, simulate, text_of, value

# how many inputs of each of three kinds are simulated, and the seed that they are drawn with
DRAWN, SEED = 4096, 1
# how many references of a kind are tried for a target, how many choices for all targets are kept, and of how many literals pairs are made
OPTIONS, CHOICES, PAIRED = 6, 48, 1500
# how often references are guessed, each time with what the proofs before found
TRIES = 20


def drawn(inputs, learned):
    """For each input its values as the bits of a number: those that are drawn, then for each learned one its neighbours and itself."""
    draw = random.Random(SEED)
    values, size = {}, len(inputs) + 1
    for place, name in enumerate(inputs):
        few, many, even = 2 ** DRAWN - 1, 0, draw.getrandbits(DRAWN)
        for _ in range(3):
            few &= draw.getrandbits(DRAWN)
            many |= draw.getrandbits(DRAWN)
        values[name] = (even << DRAWN | few) << DRAWN | many
        for bits in learned:
            values[name] = values[name] << size | (2 ** size - 1) * int(bits[place]) ^ 1 << place
    return values


def union(words):
    """The inputs at which one of the words is 1."""
    return functools.reduce(operator.or_, words)


def halves(rows):
    """The rows where the first target is 0, and those where it is 1."""
    return rows[:len(rows) // 2], rows[len(rows) // 2:]


class Problem:
    """A problem and what simulation tells of it. Literals are numbered, a complement is one more than an even number, 0 is false."""

    def __init__(self, implementation, specification, weights, learned):
        self.implementation, self.targets = implementation, implementation.targets
        self.mask = 2 ** (3 * DRAWN + (len(implementation.inputs) + 1) * len(learned)) - 1
        self.values, self.literals = [], {}
        self.numbered(0)
        given = {**drawn(implementation.inputs, learned), "1'b0": 0, "1'b1": self.mask}
        self.specified = dict(given)
        simulate(specification.gates, self.specified, self.mask)
        behind = set(self.targets)
        for _, out, terms in implementation.gates:
            if behind.intersection(terms):
                behind.add(out)
        self.behind = [gate for gate in implementation.gates if gate[1] in behind]
        self.outside = dict(given)
        simulate([gate for gate in implementation.gates if gate[1] not in behind], self.outside, self.mask)
        self.right = [self.right_where(row) for row in itertools.product([0, self.mask], repeat=len(self.targets))]
        # the cheapest net outside the fan-outs that has a literal or its complement, by the number of both
        self.cheapest = {0: (0, "1'b0")}
        for net in self.outside:
            if net in weights:
                number = self.numbered(self.outside[net]) // 2
                self.cheapest[number] = min(self.cheapest.get(number, (math.inf, "")), (weights[net], net))
        for values in self.specified.values():
            self.numbered(values)
        # how the specification makes a literal or its complement, by the number of both: the kind, the literal, the terms' literals
        self.made = {}
        leaves = {self.literals[values] // 2 for values in given.values()}
        for kind, out, terms in specification.gates:
            literal = self.literals[self.specified[out]]
            if literal // 2 not in leaves:
                self.made.setdefault(literal // 2, (kind, literal, [self.literals[self.specified[term]] for term in terms]))

    def numbered(self, values):
        """The literal of these values, a new one where there is none."""
        if values not in self.literals:
            for each in (values, values ^ self.mask):
                self.literals[each] = len(self.values)
                self.values.append(each)
        return self.literals[values]

    def with_targets(self, row):
        """The values of all nets of the implementation where the targets have those of the row."""
        values = {**self.outside, **dict(zip(self.targets, row))}
        simulate(self.behind, values, self.mask)
        return values

    def right_where(self, row):
        """The inputs at which all outputs are right where the targets have the values of the row."""
        values = self.with_targets(row)
        unlike = (values[net] ^ self.specified[net] for net in self.implementation.outputs)
        return self.mask & ~union(unlike)

    def value_of(self, reference):
        """The values of a reference, which is a kind of gate and the literals that it reads."""
        return value(reference[0], [self.values[literal] for literal in reference[1]], self.mask)

    def options(self, right, with_pairs):
        """References for the first of the targets whose rows are right at these inputs."""
        low, high = halves(right)
        ones, zeros = self.mask & ~union(low), self.mask & ~union(high)
        fitting = (literal for literal, values in enumerate(self.values) if values & ones == ones and not values & zeros)
        found = [("buf", (literal,)) for literal in itertools.islice(fitting, OPTIONS)]
        if not found and with_pairs:
            found += [("and", pair) for pair in itertools.islice(self.conjunctions(ones, zeros), OPTIONS)]
            found += [("or", (first ^ 1, second ^ 1)) for first, second in itertools.islice(self.conjunctions(zeros, ones), OPTIONS)]
            found += [("xor", pair) for pair in itertools.islice(self.parities(ones, zeros), OPTIONS)]
        return found

    def conjunctions(self, ones, zeros):
        """Pairs of literals whose conjunction is 1 at the ones and 0 at the zeros."""
        able = [literal for literal, values in enumerate(self.values) if values & ones == ones]
        able.sort(key=lambda literal: bin(self.values[literal] & zeros).count("1"))
        wrong = [(self.values[literal] & zeros, literal) for literal in able[:PAIRED]]
        for place, (second_wrong, second) in enumerate(wrong):
            yield from ((first, second) for first_wrong, first in wrong[:place] if not first_wrong & second_wrong)

    def parities(self, ones, zeros):
        """Pairs of literals whose exclusive or is 1 at the ones and 0 at the zeros."""
        first_with = {}
        for literal, values in enumerate(self.values):
            first_with.setdefault(values & (ones | zeros), literal)
        for literal in range(0, len(self.values), 2):
            other = first_with.get((self.values[literal] & (ones | zeros)) ^ ones, -1)
            if other > literal:
                yield literal, other

    def narrowed(self, right, reference):
        """The inputs at which the rows of the targets after the first one are right where that one has this reference."""
        values = self.value_of(reference)
        return [low & ~values | high & values for low, high in zip(*halves(right))]

    def choices(self):
        """Choices of references for all targets, with pairs of literals only where there are none without."""
        for with_pairs in (False, True):
            chosen = [([], self.right)]
            for _ in self.targets:
                longer = ((references + [option], self.narrowed(right, option))
                          for references, right in chosen for option in self.options(right, with_pairs))
                chosen = list(itertools.islice(longer, CHOICES))
            if chosen:
                return [references for references, _ in chosen]
        return []

    def best(self, choices):
        """The choice of references that is taken, and its cut."""
        known = set(self.specified.values()).union(values ^ self.mask for values in self.specified.values())
        alike = []
        for references in choices:
            values = self.with_targets([self.value_of(reference) for reference in references])
            alike.append(sum(values[out] in known for _, out, _ in self.behind))
        likely = [references for references, count in zip(choices, alike) if count == max(alike)]
        return min(((references, self.cut(references)) for references in likely), key=lambda pair: self.weight(pair[1]))

    def weight(self, cut):
        """What the nets of a cut weigh together."""
        return sum(self.cheapest[number][0] for number in cut)

    def reached(self, references, stops):
        """The numbers of the literals from which the references are made, without what lies before the stops."""
        found, left = set(), [literal // 2 for _, literals in references for literal in literals]
        while left:
            number = left.pop()
            if number not in found:
                found.add(number)
                if number in self.made and number not in stops:
                    left += [literal // 2 for literal in self.made[number][2]]
        return found

    def cut(self, references):
        """The numbers of the literals that are read from nets outside, of least weight: a least cut, by flows (Ford and Fulkerson)."""
        room = {"source": {}, "sink": {}}

        def join(tail, head, most):
            """Adds an edge by which so much may flow."""
            room.setdefault(tail, {})[head] = most
            room.setdefault(head, {})[tail] = 0

        numbers = self.reached(references, ())
        for number in numbers:
            join((number, "in"), (number, "out"), self.cheapest.get(number, (math.inf,))[0])
            for literal in set(self.made[number][2]) if number in self.made else ():
                join((number, "out"), (literal // 2, "in"), math.inf)
            if number not in self.made:
                join((number, "out"), "sink", math.inf)
        for _, literals in references:
            for literal in literals:
                join("source", (literal // 2, "in"), math.inf)
        while True:
            before = breadth_first(room, "source")
            if "sink" not in before:
                break
            way = list(edges_to("sink", before))
            most = min(room[tail][head] for tail, head in way)
            for tail, head in way:
                room[tail][head] -= most
                room[head][tail] += most
        cut = {number for number in numbers if (number, "in") in before and (number, "out") not in before}
        return cut & self.reached(references, cut)

    def patch(self, references, stops):
        """Gates that drive the targets by the references, over the nets that stand for the literals of the stops, and for the inputs."""
        prefix, gates = "eco_", []
        while any(net.startswith(prefix) for net in self.implementation.driven.union(self.implementation.ports)):
            prefix += "_"
        drives = {literals[0]: target for target, (kind, literals) in reversed(list(zip(self.targets, references))) if kind == "buf"}
        names = {0: "1'b0", 1: "1'b1"}

        def add(kind, literal, terms):
            """Adds a gate that makes the literal."""
            names[literal] = drives.get(literal, prefix + str(len(gates)))
            gates.append((kind, names[literal], terms))

        def name(literal):
            """The net that has the literal, of a new inverter where none has."""
            if literal not in names:
                add("not", literal, [names[literal ^ 1]])
            return names[literal]

        reached = self.reached(references, stops)
        for number in reached - {0}:
            if number in stops or number not in self.made:
                net = self.cheapest[number][1]
                names[self.literals[self.outside[net]]] = net
        for number, (kind, literal, terms) in self.made.items():
            if number in reached and number not in stops:
                add(kind, literal, [name(term) for term in terms])
        for target, (kind, literals) in zip(self.targets, references):
            terms = [name(literal) for literal in literals]
            if terms != [target]:
                gates.append((kind, target, terms))
        return gates

    def kind_of(self, reference):
        """A reference as it stands in the table."""
        words = [str(literal) if literal < 2 else "~" * (literal % 2) + ("F" if literal // 2 in self.cheapest else "G")
                 for literal in reference[1]]
        return words[0] if reference[0] == "buf" else "%s(%s)" % (reference[0], ", ".join(words))


def breadth_first(room, start):
    """For each node that is reached where room is left the one before it."""
    before, turns = {start: None}, [start]
    for node in turns:
        for head, most in room[node].items():
            if most and head not in before:
                before[head] = node
                turns.append(head)
    return before


def edges_to(node, before):
    """The edges of the way to the node, the last one first."""
    while before[node] is not None:
        yield before[node], node
        node = before[node]


def proved(program, implementation, gates, specification, folder):
    """The run of `eco prove` that is asked whether the implementation with these gates equals the specification."""
    left = os.path.join(folder, "left.v")
    with open(left, "w") as file:
        file.write(text_of("top", implementation.ports, implementation.directions, implementation.gates + gates))
    return lib.run(lib.prove(program, left, specification, folder))


def proof_cell(ran):
    """A proof as it stands in the table."""
    word = {0: "", 1: "differs, ", 4: "budget, ", 7: "memory, ", -9: "time, "}.get(ran.status, "status %d, " % ran.status)
    return word + "%.2f" % ran.seconds


def measure(told, program, name, folder):
    """The row of a problem."""
    paths = [lib.plain(told, name, file, folder) for file in ("implementation.v", "specification.v", "weights.txt")]
    implementation, specification = (gates_of(path) for path in paths[:2])
    with open(paths[2]) as file:
        weights = {net: int(weight) for net, weight in (line.split() for line in file)}
    learned, seconds = [], 0.0
    for tries in range(1, TRIES + 1):
        began = time.process_time()
        problem = Problem(implementation, specification, weights, learned)
        is_right_somehow = union(problem.right) == problem.mask
        choices = problem.choices() if is_right_somehow else []
        references, cut = problem.best(choices) if choices else ([], set())
        seconds += time.process_time() - began
        begins = (name, len(problem.targets), tries, " ".join(map(problem.kind_of, references)) or "-", "%.2f" % seconds)
        if not choices:
            return begins + ("-", "-", "-", "-", "no references" if is_right_somehow else "no right row at some input")
        read = {literal // 2 for _, literals in references for literal in literals} & set(problem.cheapest)
        patch = problem.patch(references, cut)
        proofs = [proved(program, implementation, gates, paths[1], folder) for gates in (problem.patch(references, read), patch)]
        wrong = [ran.said.split()[1] for ran in proofs if ran.status == 1]
        if proofs[1].status == 0 or not wrong:
            break
        learned.append(wrong[-1])
    answer = "equal" if proofs[1].status == 0 else "not proved"
    return begins + (proof_cell(proofs[0]), problem.weight(cut), len(patch), proof_cell(proofs[1]), answer)


def main():
    told = lib.words_for(__doc__).parse_args()
    program, result = lib.program_of(told), lib.Result("cuts", [
        "problem", "targets", "tries", "references", "search seconds", "prove of the references", "cost of the cut", "gates", "prove of the patch",
        "answer"])
    with tempfile.TemporaryDirectory() as folder:
        for name in lib.problems_of(told):
            result.add(*measure(told, program, name, folder))
    result.finish(told)


if __name__ == "__main__":
    main()
