#!/usr/bin/env python3
"""Checks a proof of `eco prove` without the program, and writes it in the form of TraceCheck or of LRAT.

    tools/tracecheck.py CNF TRACE [OUT] [--lrat OUT]

CNF is a clause file (DIMACS), TRACE the proof from it: a line for each step, `start { pivot id } 0`, where ids count the
clauses of CNF and then the steps, from 1. Each step is resolved here anew, link by link; the last clause has to be empty. With OUT,
a file in TraceCheck's form is written: for each clause `id literals 0 antecedents 0`, a clause of CNF without antecedents.
With `--lrat`, one in LRAT's form: for each step `id literals 0 hints 0`, where the hints name clauses that become unit one after another
once the step's literals are false, the last one false. Each is found by propagation here, so a wrong one would be seen.
Prints `refuted` and the number of steps, or what is wrong, and ends with 0 or 1.
"""
import argparse
import sys


def clauses_of(path):
    """The clauses of a DIMACS file, as sets of literals."""
    numbers, header = [], None
    for line in open(path):
        if line.startswith("c"):
            continue
        if line.startswith("p"):
            header = line.split()
            continue
        numbers += [int(word) for word in line.split()]
    found, clause = [], set()
    for number in numbers:
        if number:
            clause.add(number)
        else:
            found.append(frozenset(clause))
            clause = set()
    if header is None or clause or len(found) != int(header[3]):
        sys.exit("%s is no clause file" % path)
    return found


def steps_of(path):
    """The numbers of each step, without the 0 at the end."""
    for place, line in enumerate(open(path), 1):
        numbers = [int(word) for word in line.split()]
        if not numbers:
            continue
        if numbers[-1] != 0 or 0 in numbers[:-1] or len(numbers) % 2:
            sys.exit("%s: line %d is no step" % (path, place))
        yield numbers[:-1]


def resolved(known, step):
    """The clause of a step; None where it is not legal."""
    if not all(1 <= number <= len(known) for number in [step[0], *step[2::2]]):
        return None
    clause = known[step[0] - 1]
    for pivot, number in zip(step[1::2], step[2::2]):
        other = known[number - 1]
        if pivot in clause and -pivot in other:
            clause = (clause - {pivot}) | (other - {-pivot})
        elif -pivot in clause and pivot in other:
            clause = (clause - {-pivot}) | (other - {pivot})
        else:
            return None
        if any(-literal in clause for literal in clause):
            return None
    return clause


def line(number, clause, antecedents):
    return " ".join(map(str, [number, *sorted(clause, key=abs), 0, *antecedents, 0])) + "\n"


def hints(known, clause, step):
    """Ids of clauses that refute the clause's complement by propagation; None where these don't: what was resolved, from the last back."""
    true = {-literal for literal in clause}
    found = []
    for number in [*reversed(step[2::2]), step[0]]:
        left = [literal for literal in known[number - 1] if -literal not in true]
        if not left:
            return found + [number]
        if len(left) == 1 and left[0] not in true:
            true.add(left[0])
            found.append(number)
    return None


def main(cnf, trace, out=None, lrat=None):
    known = clauses_of(cnf)
    hinted = []
    text = [line(number, clause, []) for number, clause in enumerate(known, 1)]
    count = 0
    for count, step in enumerate(steps_of(trace), 1):
        clause = resolved(known, step)
        if clause is None:
            sys.exit("step %d is not legal" % count)
        if lrat is not None:
            named = hints(known, clause, step)
            if named is None:
                sys.exit("step %d has no hints" % count)
            hinted.append(line(len(known) + 1, clause, named))
        known.append(clause)
        text.append(line(len(known), clause, [step[0], *step[2::2]]))
    if not known or known[-1]:
        sys.exit("the last clause is not empty")
    if out is not None:
        with open(out, "w") as file:
            file.writelines(text)
    if lrat is not None:
        with open(lrat, "w") as file:
            file.writelines(hinted)
    print("refuted %d" % count)


if __name__ == "__main__":
    words = argparse.ArgumentParser(description=__doc__.split("\n")[0])
    words.add_argument("cnf")
    words.add_argument("trace")
    words.add_argument("out", nargs="?")
    words.add_argument("--lrat", metavar="OUT")
    told = words.parse_args()
    try:
        main(told.cnf, told.trace, told.out, told.lrat)
    except (OSError, ValueError) as wrong:
        sys.exit("tracecheck: %s" % wrong)
