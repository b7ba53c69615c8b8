#!/usr/bin/env python3
"""Covers the gates of a patch by cells of a library, which are found by what they compute.

    tools/cover.py LIBRARY [--cells FILE]

Called by itself it prints for each function that a patch may need the cell that is taken: its truth table over the inputs A, B, ..
(row 0 first, A changing fastest), the cell and its area. `--cells FILE` has lines `cell weight` that go before the areas.

A patch is turned into conjunctions and exclusive ors of two with complements at their inputs, equal ones once. What only one other reads
belongs to its tree; a tree is covered from its leaves on by cells with up to four inputs, so that the areas sum to the least.
"""
import argparse
import itertools

from liberty import Library, table_of
from names import FAULTS, Refused, ended

MOST_PINS, MOST_CUTS = 4, 64
NONE = (float("inf"), 0)


class Network:
    """Conjunctions and exclusive ors. A literal is twice a node, or one more for its complement; node 0 is the constant 0."""
    def __init__(self):
        self.nodes, self.known = [("const",)], {}

    def node(self, key):
        if key not in self.known:
            self.known[key] = len(self.nodes)
            self.nodes.append(key)
        return 2 * self.known[key]

    def input(self, name):
        return self.node(("in", name))

    def both(self, one, other):
        one, other = min(one, other), max(one, other)
        if one == 0 or one == other ^ 1:
            return 0
        if one == 1 or one == other:
            return other
        return self.node(("and", one, other))

    def odd(self, one, other):
        turned = (one ^ other) & 1
        one, other = sorted((one & ~1, other & ~1))
        if one == other:
            return turned
        if one == 0:
            return other ^ turned
        return self.node(("xor", one, other)) ^ turned

    def gate(self, kind, literals):
        """The literal of a gate."""
        turned = kind in ("nand", "nor", "xnor", "not")
        if kind in ("xor", "xnor"):
            return self.fold(self.odd, literals) ^ turned
        flip = kind in ("or", "nor")
        return self.fold(self.both, [literal ^ flip for literal in literals]) ^ flip ^ turned

    def fold(self, join, literals):
        value = literals[0]
        for literal in literals[1:]:
            value = join(value, literal)
        return value


def stretched(table, leaves, wider):
    """A table over some leaves as one over more of them."""
    places = [wider.index(leaf) for leaf in leaves]
    found = 0
    for row in range(1 << len(wider)):
        small = sum(1 << at for at, place in enumerate(places) if row >> place & 1)
        found |= (table >> small & 1) << row
    return found


class Cells:
    """The cells that a patch may use: for each table of up to four inputs, and for each choice of which are complemented, the cheapest."""
    def __init__(self, library, weights=None):
        self.library, self.weights = library, weights or {}
        self.found, self.ties = {}, {}
        base = {}
        for cell in sorted(library.cells.values(), key=lambda cell: (self.area(cell.name), cell.name)):
            for pin, function in cell.outputs.items():
                if self.is_usable(cell):
                    table = table_of(function, cell.inputs)
                    if not cell.inputs:
                        self.ties.setdefault(table & 1, (cell.name, pin))
                    elif self.reads_all(table, len(cell.inputs)):
                        base.setdefault((len(cell.inputs), table), (cell, pin))
        for (count, table), (cell, pin) in base.items():
            self.add(count, table, cell, pin)

    def area(self, name):
        area = self.library.cells[name].area
        return self.weights.get(name, 1 if area is None else area)

    def is_usable(self, cell):
        return not (cell.unread or cell.flop or cell.barred) and len(cell.outputs) == 1 and all(cell.outputs.values()) and len(cell.inputs) <= MOST_PINS

    def reads_all(self, table, count):
        rows = range(1 << count)
        return all(any((table >> row ^ table >> (row ^ 1 << place)) & 1 for row in rows) for place in range(count))

    def add(self, count, table, cell, pin):
        """Enters the cell with its pins in any order and with any of the leaves complemented."""
        area = self.area(cell.name)
        for order in itertools.permutations(range(count)):
            for phases in range(1 << count):
                moved = 0
                for row in range(1 << count):
                    turned = row ^ phases
                    inner = sum(1 << place for place, leaf in enumerate(order) if turned >> leaf & 1)
                    moved |= (table >> inner & 1) << row
                entries = self.found.setdefault((count, moved), {})
                if phases not in entries or area < entries[phases][0]:
                    entries[phases] = (area, cell, pin, order)

    def entries(self, count, table):
        return self.found.get((count, table), {})

    def single(self, table):
        """The cheapest cell of one input with this table: 1 for an inverter, 2 for a buffer."""
        return self.entries(1, table).get(0)


class Cover:
    """Covers the nodes that some literals need. `made` has the cells: the node and phase that each gives, its cell and its pins."""
    def __init__(self, network, cells, literals):
        self.network, self.cells, self.made, self.places = network, cells, [], {}
        self.cost, self.choice, self.cuts, self.best = {}, {}, {}, {}
        inverter = cells.single(1)
        self.turn = (inverter[0], 1) if inverter else NONE
        self.count_readers(literals)
        for node in sorted(self.readers):
            self.weigh(node, literals)

    def count_readers(self, literals):
        self.readers, waiting = {}, [literal >> 1 for literal in literals]
        while waiting:
            node = waiting.pop()
            self.readers[node] = self.readers.get(node, 0) + 1
            if self.readers[node] == 1 and self.network.nodes[node][0] in ("and", "xor"):
                waiting += [literal >> 1 for literal in self.network.nodes[node][1:]]
        self.wanted = {literal >> 1 for literal in literals}

    def is_leaf(self, node):
        """Whether a tree ends here."""
        return self.network.nodes[node][0] in ("in", "const") or self.readers[node] > 1 or node in self.wanted

    def weigh(self, node, literals):
        """The least cost of each phase of the node; a leaf costs its readers nothing, but for an inverter."""
        if self.network.nodes[node][0] in ("in", "const"):
            self.cost[node] = [(0, 0), self.turn]
            return
        self.cuts[node] = self.cuts_of(node)
        cost = [NONE, NONE]
        for leaves, table in self.cuts[node]:
            full = (1 << (1 << len(leaves))) - 1
            for phase in (0, 1):
                for phases, entry in self.cells.entries(len(leaves), table ^ (full if phase else 0)).items():
                    total = self.sum_of(entry, leaves, phases)
                    if total < cost[phase]:
                        cost[phase] = total
                        self.choice[node, phase] = (leaves, phases, entry)
        for phase in (0, 1):
            turned = (cost[1 - phase][0] + self.turn[0], cost[1 - phase][1] + 1)
            if turned < cost[phase]:
                cost[phase] = turned
                self.choice[node, phase] = None
        if min(cost) == NONE:
            raise Refused("refused library cells: none with inverters for %s" % self.network.nodes[node][0])
        self.cost[node] = self.as_leaf(node, cost, literals) if self.is_leaf(node) else cost

    def as_leaf(self, node, cost, literals):
        """A node that several read is made in the phase that a target wants, else in the cheaper one."""
        phases = [literal & 1 for literal in literals if literal >> 1 == node]
        best = phases[0] if len(set(phases)) == 1 else 0 if cost[0] <= cost[1] else 1
        best = self.best[node] = best if self.choice.get((node, best)) else 1 - best
        return [self.turn, (0, 0)] if best else [(0, 0), self.turn]

    def sum_of(self, entry, leaves, phases):
        costs = [self.cost[leaf][phases >> place & 1] for place, leaf in enumerate(leaves)]
        return (entry[0] + sum(area for area, _ in costs), 1 + sum(count for _, count in costs))

    def cuts_of(self, node):
        """Sets of at most four leaves inside the tree, each with the node's table over them."""
        kind, one, other = self.network.nodes[node]
        found = {}
        for first, second in itertools.product(self.below(one >> 1), self.below(other >> 1)):
            leaves = tuple(sorted({*first[0], *second[0]}))
            if len(leaves) > MOST_PINS or len(found) >= MOST_CUTS:
                continue
            full = (1 << (1 << len(leaves))) - 1
            sides = [stretched(table, part, leaves) ^ (full if literal & 1 else 0) for (part, table), literal in ((first, one), (second, other))]
            table = sides[0] & sides[1] if kind == "and" else sides[0] ^ sides[1]
            if self.cells.reads_all(table, len(leaves)):
                found.setdefault(leaves, table)
        return list(found.items())

    def below(self, node):
        """The node itself as a leaf, and its own cuts if it belongs to the tree."""
        return [((node,), 2)] + ([] if self.is_leaf(node) else self.cuts[node])

    def build(self, literal):
        """Makes the cells that a literal needs, and says which of them gives it: a place in `made`, or the name of an input."""
        node, phase = literal >> 1, literal & 1
        if self.network.nodes[node][0] == "in" and not phase:
            return self.network.nodes[node][1]
        if literal in self.places:
            return self.places[literal]
        choice = self.choice.get((node, phase))
        if choice is None or phase != self.best.get(node, phase):
            _, cell, pin, _ = self.inverter()
            made = (cell, pin, [(cell.inputs[0], self.build(literal ^ 1))])
        else:
            leaves, phases, (_, cell, pin, order) = choice
            made = (cell, pin, [(cell.inputs[place], self.build(2 * leaves[leaf] + (phases >> leaf & 1))) for place, leaf in enumerate(order)])
        self.places[literal] = len(self.made)
        self.made.append(made)
        return self.places[literal]

    def inverter(self):
        if self.cells.single(1) is None:
            raise Refused("refused library cells: no inverter")
        return self.cells.single(1)


def weights_of(path):
    """The weights of cells of a file with lines `cell weight`."""
    weights = {}
    with open(path) as file:
        for number, line in enumerate(file, 1):
            words = line.split()
            try:
                if words:
                    weights[words[0]] = float(words[1])
            except (IndexError, ValueError):
                raise Refused("refused cells line %d %s" % (number, line.strip()))
    return weights


def main():
    words = argparse.ArgumentParser(description=__doc__, formatter_class=argparse.RawDescriptionHelpFormatter)
    words.add_argument("library")
    words.add_argument("--cells", metavar="FILE")
    told = words.parse_args()
    try:
        cells = Cells(Library(told.library), weights_of(told.cells) if told.cells else None)
        for (count, table), entries in sorted(cells.found.items()):
            if 0 in entries:
                print(format(table, "0%db" % (1 << count))[::-1], entries[0][1].name, "%g" % entries[0][0])
    except FAULTS as wrong:
        ended("cover", wrong)


if __name__ == "__main__":
    main()
