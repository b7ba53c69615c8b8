#!/usr/bin/env python3
"""Times the search with watched literals beside minisat on the same DIMACS files, and keeps bench/results/search.csv.

    bench/search.py [--problems FOLDER] [--only REGEX] [PROGRAM]

PROGRAM is the built program bench_parts, which needs Debian's `minisat` beside it. Seconds are those of the processor (user time).

A run has 60 seconds. The search can't be stopped in between, so it is run with limits of 5,000 clauses, 10,000 and so on,
until it has an answer or takes more than 15 seconds: the last run that ends is the one told of. If it has a model, the
number of clauses learnt is found by halving the limit, to one part in a hundred, unless a run takes too long for that.
`times` is how many times minisat's time a conflict takes.
"""
import itertools
import os
import random
import re
import sys
import tempfile

import lib

sys.path.append(os.path.join(lib.TOP, "tools"))
from gates import gates_of

HEADS = ["formula", "model", "learnt", "literals a clause", "seconds", "a second", "minisat: model", "minisat: conflicts", "minisat: seconds",
         "minisat: a second", "times", "MiB"]
PROBLEMS = ("mult8_k1", "alu32_rtl", "aescol_k4", "barrel_k4", "add128_k4", "sort32_k4")
# the first seeds, from 0 on, of formulas without a model and then with one, as minisat says within a minute
SEEDS = {200: (2, 3, 0, 1), 250: (0, 2, 1, 3), 300: (1, 2)}


def pigeons(count, holes):
    def sits(pigeon, hole):
        return pigeon * holes + hole + 1

    clauses = [[sits(p, h) for h in range(holes)] for p in range(count)]
    for h in range(holes):
        for p in range(count):
            clauses += [[-sits(p, h), -sits(q, h)] for q in range(p + 1, count)]
    return clauses


def threes(count, seed):
    dice = random.Random(seed + 10 * count)
    clauses = []
    for _ in range(int(count * 4.26)):
        picked = dice.sample(range(1, count + 1), 3)
        clauses.append([v if dice.random() < 0.5 else -v for v in picked])
    return clauses


class Clauses:
    """Clauses for gates: three for a gate of two inputs, four for an xor."""

    def __init__(self):
        self.count = 0
        self.list = []

    def new(self):
        self.count += 1
        return self.count

    def conjunction(self, out, terms):
        self.list += [[-out, term] for term in terms]
        self.list.append([out] + [-term for term in terms])

    def odd(self, out, one, other):
        self.list += [[-out, one, other], [-out, -one, -other], [out, -one, other], [out, one, -other]]

    def gate(self, kind, out, terms):
        if kind in ("xor", "xnor"):
            sign = -1 if kind == "xnor" else 1
            for term in terms[1:-1]:
                between = self.new()
                self.odd(between, terms[0], term)
                terms = [between] + terms[2:]
            self.odd(sign * out, terms[0], terms[1])
        elif kind in ("and", "nand", "buf", "not"):
            self.conjunction(out if kind in ("and", "buf") else -out, terms)
        elif kind in ("or", "nor"):
            self.conjunction(-out if kind == "or" else out, [-term for term in terms])
        else:
            raise ValueError(kind)

    def circuit(self, gates, known):
        """Numbers for all nets; those that no gate drives and that aren't known are free."""
        known = dict(known)
        for _, out, terms in gates:
            for name in [out] + terms:
                if name not in known:
                    known[name] = self.new()
                    if name in ("1'b0", "1'b1"):
                        self.list.append([known[name] if name == "1'b1" else -known[name]])
        for kind, out, terms in gates:
            self.gate(kind, known[out], [known[term] for term in terms])
        return known

    def differ(self, outputs, one, other):
        """Some output has two values."""
        unlike = []
        for name in outputs:
            unlike.append(self.new())
            self.odd(unlike[-1], one[name], other[name])
        self.list.append(unlike)


def equality(told, name, everywhere, folder):
    """Whether implementation and specification differ at some input: for some values of the targets, which are inputs, or
    `everywhere`, with a copy of the implementation for all values of the targets. Then there is no model if a patch exists."""
    implementation, specification = (gates_of(lib.plain(told, name, file, folder)) for file in ("implementation.v", "specification.v"))
    clauses = Clauses()
    shared = {name: clauses.new() for name in implementation.inputs}
    wanted = clauses.circuit(specification.gates, shared)
    targets = implementation.targets
    for values in itertools.product((1, -1), repeat=len(targets) if everywhere else 0):
        copy = {target: clauses.new() for target in targets}
        clauses.list += [[value * copy[target]] for target, value in zip(targets, values)]
        clauses.differ(implementation.outputs, clauses.circuit(implementation.gates, shared | copy), wanted)
    return clauses.list


def formulas(told, folder):
    """The formulas: a name and a function that makes the clauses."""
    for p in (8, 9, 10):
        yield f"pigeons {p}/{p - 1}", lambda p=p: pigeons(p, p - 1)
    for count, seeds in SEEDS.items():
        for seed in seeds:
            yield f"random {count}, seed {seed}", lambda count=count, seed=seed: threes(count, seed)
    for everywhere in (False, True):
        for name in PROBLEMS:
            yield name + (", all values" if everywhere else ""), lambda name=name, everywhere=everywhere: equality(told, name, everywhere, folder)


class Search:
    """The search on a file of clauses. `learnt` is None if it isn't known."""

    def __init__(self, program, path):
        self.program, self.path = program, path
        self.answer, self.learnt, self.literals, self.links, self.seconds, self.memory = "open", None, 0, 0, 0.0, 0.0

    def asked(self, limit):
        """A run with this limit. What it says is empty if its time was up."""
        ran = lib.run([self.program, "search", self.path, str(limit)])
        return ran._replace(said="") if ran.status in lib.OVER else ran

    def go(self):
        """Tells of the last run that ended."""
        limit = 5000
        while True:
            ran = self.asked(limit)
            if not ran.said:
                return self
            self.answer, self.seconds, self.memory = ran.said.split()[0], ran.seconds, ran.memory
            self.learnt, self.literals, self.links = map(int, ran.said.split()[1:])
            if self.answer == "sat":
                self.learnt = self.learnt_before(limit) if ran.seconds < lib.SECONDS / 6 else None
            if self.answer != "spent" or ran.seconds > lib.SECONDS / 4:
                return self
            limit *= 2

    def learnt_before(self, most):
        """About how many clauses are learnt before the model: the search is spent below that limit, and not above."""
        low, high = 0, most
        while high - low > 1 + high // 100:
            middle = (low + high) // 2
            low, high = (low, middle) if self.asked(middle).said.startswith("sat") else (middle, high)
        return low


def write(path, clauses):
    count = max(abs(literal) for clause in clauses for literal in clause)
    with open(path, "w") as file:
        file.write(f"p cnf {count} {len(clauses)}\n")
        file.writelines(" ".join(map(str, clause)) + " 0\n" for clause in clauses)


def measure(program, name, path):
    """The row of a file of clauses."""
    found = Search(program, path).go()
    other = lib.run(["minisat", f"-cpu-lim={lib.SECONDS - 2}", path])
    conflicts = int(re.search(r"conflicts\s*: (\d+)", other.said).group(1))
    said = re.search(r"^(SAT|UNSAT|INDET)", other.said, re.MULTILINE).group(1)
    pace = found.learnt / found.seconds if found.learnt and found.seconds >= 0.1 else None
    other_pace = conflicts / other.seconds if other.seconds >= 0.1 else None
    return [
        name,
        {"sat": "yes", "unsat": "no"}.get(found.answer, "open"),
        "-" if found.learnt is None else found.learnt,
        f"{found.literals / found.learnt:.0f}" if found.literals else "-",
        f"{found.seconds:.2f}",
        f"{pace:.0f}" if pace else "-",
        {"SAT": "yes", "UNSAT": "no"}.get(said, "open"),
        conflicts,
        f"{other.seconds:.2f}",
        f"{other_pace:.0f}" if other_pace else "-",
        f"{other_pace / pace:.1f}" if other_pace and pace else "-",
        f"{found.memory:.0f}",
    ]


def main():
    told = lib.words_for(__doc__, "bench_parts").parse_args()
    lib.need("minisat")
    program, result = lib.program_of(told), lib.Result("search", HEADS)
    with tempfile.TemporaryDirectory() as folder:
        path = os.path.join(folder, "formula.cnf")
        for name, clauses in formulas(told, folder):
            if lib.is_wanted(told, name):
                write(path, clauses())
                result.add(*measure(program, name, path))
    result.finish(told)


if __name__ == "__main__":
    main()
