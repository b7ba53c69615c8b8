#!/usr/bin/env python3
"""Reads a netlist that eco reads into gates, and simulates it, for other scripts.

    tools/gates.py NETLIST

Called by itself it counts what it has read. All of the profile of docs/FORMATS.md is read, also assignments; it doesn't look for the
errors that eco refuses. An inner net of an assigned expression is called `=1`, `=2`, .., as no net of the file can be.
"""
import argparse
import functools
import operator
import re
import sys

from names import spelled

TOKEN = re.compile(r"\s+|//[^\n]*|/\*.*?\*/|\\(?P<escaped>\S+)|(?P<simple>[A-Za-z_][A-Za-z0-9_$]*)|(?P<constant>1'b[01])"
                   r"|(?P<mark>~\^|\^~|[(),;=~&^|])", re.S)
KINDS = ["and", "nand", "or", "nor", "xor", "xnor", "buf", "not"]
PARITIES = {"^": "xor", "~^": "xnor", "^~": "xnor"}


class Gates:
    """A netlist: its ports, and its gates as (kind, output, terms), each behind those that it reads; `listed` has the gates as they stand,
    `wires` the declared wires."""
    def __init__(self, text):
        self.words, place = [], 0
        while place < len(text):
            match = TOKEN.match(text, place)
            if not match:
                raise ValueError("byte %d can't stand there" % place)
            if match.lastgroup:
                self.words.append((match.lastgroup, match.group(match.lastgroup)))
            place = match.end()
        self.at, self.count = 1, 0
        self.ports, self.directions, self.wires, self.gates = [], {}, [], []
        self.title = self.name()
        if self.next() == ("mark", "("):
            self.header()
        self.mark(";")
        while self.next() != ("simple", "endmodule"):
            self.item()
        self.inputs = [name for name in self.ports if self.directions.get(name) == "input"]
        self.outputs = [name for name in self.ports if self.directions.get(name) == "output"]
        self.driven = {out for _, out, _ in self.gates}
        self.listed = self.gates
        self.gates = in_order(self.gates)
        self.targets = targets_of([term for _, _, terms in self.gates for term in terms] + self.outputs, self.driven.union(self.inputs))

    def next(self):
        return self.words[self.at] if self.at < len(self.words) else ("end", "the end")

    def mark(self, mark):
        if self.next() != ("mark", mark):
            raise ValueError("%s stands where %s is wanted" % (self.next()[1], mark))
        self.at += 1

    def name(self):
        kind, word = self.next()
        if kind not in ("simple", "escaped", "constant"):
            raise ValueError("%s stands where a name is wanted" % word)
        self.at += 1
        return word

    def header(self):
        self.mark("(")
        direction = None
        while self.next() != ("mark", ")"):
            if self.next()[0] == "simple" and self.next()[1] in ("input", "output"):
                direction = self.name()
                if self.next() == ("simple", "wire"):
                    self.at += 1
            name = self.name()
            self.ports.append(name)
            if direction:
                self.directions[name] = direction
            if self.next() == ("mark", ","):
                self.at += 1
        self.mark(")")

    def item(self):
        kind, word = self.next()
        if kind != "simple":
            raise ValueError("%s stands where an item is wanted" % word)
        self.at += 1
        if word in ("input", "output", "wire"):
            if self.next() == ("simple", "wire"):
                self.at += 1
            self.each(lambda: self.declare(word, self.name()))
        elif word == "assign":
            self.each(self.assigned)
        elif word in KINDS:
            self.each(lambda: self.instance(word))
        else:
            raise ValueError("%s is no gate" % word)
        self.mark(";")

    def each(self, read):
        read()
        while self.next() == ("mark", ","):
            self.at += 1
            read()

    def declare(self, word, name):
        if word == "wire":
            self.wires.append(name)
        else:
            self.directions[name] = word

    def instance(self, kind):
        if self.next() != ("mark", "("):
            self.name()
        self.mark("(")
        terms = [self.name()]
        while self.next() == ("mark", ","):
            self.at += 1
            terms.append(self.name())
        self.mark(")")
        if kind in ("buf", "not"):
            self.gates += [(kind, out, terms[-1:]) for out in terms[:-1]]
        else:
            self.gates.append((kind, terms[0], terms[1:]))

    def assigned(self):
        out = self.name()
        self.mark("=")
        kind, terms = self.chain({"|": "or"}, self.parity)
        self.gates.append((kind, out, terms))

    # An expression is a kind and its terms, (`buf`, [term]) where it is a term alone.

    def chain(self, kinds, part):
        value = part()
        while self.next()[0] == "mark" and self.next()[1] in kinds:
            kind = kinds[self.next()[1]]
            self.at += 1
            value = (kind, [self.term(value), self.term(part())])
        return value

    def term(self, value):
        if value[0] == "buf":
            return value[1][0]
        self.count += 1
        self.gates.append((value[0], "=%d" % self.count, value[1]))
        return "=%d" % self.count

    def parity(self):
        return self.chain(PARITIES, lambda: self.chain({"&": "and"}, self.operand))

    def operand(self):
        if self.next() == ("mark", "~"):
            self.at += 1
            return ("not", [self.term(self.operand())])
        if self.next() == ("mark", "("):
            self.at += 1
            value = self.chain({"|": "or"}, self.parity)
            self.mark(")")
            return value
        return ("buf", [self.name()])


def in_order(gates):
    """The gates, each behind those that it reads."""
    by_out, done, order = {gate[1]: gate for gate in gates}, set(), []
    for start in gates:
        stack = [start]
        while stack:
            gate = stack[-1]
            waits = [by_out[term] for term in gate[2] if term in by_out and term not in done]
            if gate[1] in done or not waits:
                stack.pop()
                if gate[1] not in done:
                    done.add(gate[1])
                    order.append(gate)
            elif len(stack) > len(gates):
                raise ValueError("the gates form a loop")
            else:
                stack.append(waits[0])
    return order


def targets_of(read, known):
    """The nets with names of targets that are read and that nothing drives, in the order of their numbers."""
    return sorted({name for name in read if re.fullmatch(r"t_\d{1,9}", name)} - set(known), key=lambda name: int(name[2:]))


class Circuit:
    """A netlist that a script made: its ports, and its gates as (kind, output, terms), each behind those that it reads."""
    def __init__(self, title, inputs, outputs, gates):
        self.title, self.inputs, self.outputs, self.listed = title, inputs, outputs, gates
        self.gates = in_order(gates)
        self.ports = inputs + outputs
        self.directions = {**dict.fromkeys(inputs, "input"), **dict.fromkeys(outputs, "output")}
        self.driven = {out for _, out, _ in gates}
        self.targets = targets_of([term for _, _, terms in gates for term in terms] + outputs, self.driven.union(inputs))

    def text(self):
        return text_of(self.title, self.ports, self.directions, self.listed)

    def needed_by(self, nets):
        """These nets and all on which they depend."""
        needed = set(nets)
        for _, out, terms in reversed(self.gates):
            if out in needed:
                needed.update(terms)
        return needed

    def only(self, outputs):
        """The netlist of some of the outputs, with the gates that they need; all inputs stay."""
        wanted = set(outputs)
        needed = self.needed_by(wanted)
        return Circuit(self.title, self.inputs, [name for name in self.outputs if name in wanted], [gate for gate in self.listed if gate[1] in needed])


def gates_of(path):
    """The netlist of a file; ends the script where it can't be read."""
    try:
        with open(path) as file:
            return Gates(file.read())
    except (OSError, ValueError) as wrong:
        sys.exit("%s: %s" % (path, wrong))


def value(kind, words, mask):
    """What a gate gives of these words, which have a bit for each simulated input; the mask has all of these bits."""
    join = operator.and_ if kind in ("and", "nand") else operator.or_ if kind in ("or", "nor") else operator.xor
    return functools.reduce(join, words) ^ (mask if kind in ("nand", "nor", "xnor", "not") else 0)


def simulate(gates, values, mask):
    """Adds the words of the gates' outputs to those of what they read."""
    for kind, out, terms in gates:
        values[out] = value(kind, [values[term] for term in terms], mask)


def text_of(title, ports, directions, gates):
    """The text of a netlist of these gates."""
    term = lambda name: name if name.startswith("1'b") else spelled(name)
    lines = ["module %s (%s);" % (spelled(title), ", ".join(map(spelled, ports)))]
    lines += ["%s %s;" % (directions[name], spelled(name)) for name in ports]
    lines += ["%s (%s);" % (kind, ", ".join(map(term, [out, *terms]))) for kind, out, terms in gates]
    return "\n".join(lines + ["endmodule"]) + "\n"


def main():
    words = argparse.ArgumentParser(description=__doc__, formatter_class=argparse.RawDescriptionHelpFormatter)
    words.add_argument("netlist")
    read = gates_of(words.parse_args().netlist)
    print("%s: %d inputs, %d outputs, %d gates, %d targets" % (
        read.title, len(read.inputs), len(read.outputs), len(read.gates), len(read.targets)))


if __name__ == "__main__":
    main()
