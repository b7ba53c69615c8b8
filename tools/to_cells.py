#!/usr/bin/env python3
"""Puts a patch back into the netlist of library cells from which tools/from_cells.py made the implementation, as cells of the library.

    tools/to_cells.py --lib LIBRARY NETLIST --patch PATCH --cut NET=t_0 [--cut INSTANCE.PIN=t_1].. [--cells FILE] > result.v

NETLIST, LIBRARY and the cuts are those that from_cells.py was given, PATCH is the module that `eco synth` wrote. Its gates become the
cheapest cells by area that compute them (tools/cover.py; `--cells FILE` has lines `cell weight` that go before the areas), `eco_0`,
`eco_1`, .., in a block before `endmodule`; their nets are `eco_n0`, `eco_n1`, .. Both names begin with the shortest of `eco_`, `eco__`,
.. with which no name of the netlist begins.

The cell that drove a cut net goes, with the cells that only it read; if the patch reads `NET%old`, it stays and drives another net. A cut
net or pin that becomes another net or a constant has no cell: what read it reads that. All other bytes of the netlist stay.
"""
import argparse
import sys

from cell_netlist import CONSTANTS, edited
from cover import Cells, Cover, Network, weights_of
from cut_open import opened
from from_cells import cut_of
from gates import Gates
from liberty import Library
from names import FAULTS, Refused, ended, free_prefix, natural, require, spelled


class Patch:
    """The patch as a network: a literal for each target."""
    def __init__(self, design, gates):
        self.design, self.network = design, Network()
        driven = {out for _, out, _ in gates}
        self.literals = {"1'b0": 0, "1'b1": 1}
        for name in sorted({term for _, _, terms in gates for term in terms} - driven - set(CONSTANTS)):
            self.literals[name] = self.input(name)
        for kind, out, terms in gates:
            self.literals[out] = self.network.gate(kind, [self.literals[term] for term in terms])

    def input(self, name):
        """The literal of a signal that the patch reads: a state that only its complement shows is the complement of that."""
        if name.endswith("%q"):
            flop = self.design.flops.get(name[:-2])
            added = [added for added in self.design.added if added.state == name]
            if flop and self.design.netlist.root(flop.net) == flop.net and not self.shows_state(flop):
                return self.network.input(flop.net) ^ 1
            return self.network.input(name if added else name[:-2])
        return self.network.input(name)

    def shows_state(self, flop):
        return any(function == ("pin", flop.cell.flop.states[0]) and flop.instance.pins.get(pin) is not None for pin, function in flop.cell.outputs.items())


class Result:
    """The netlist with the patch put back: `text`; `made` and `gone` are pairs of an instance's name and its cell; `states` has the nets
    of flip-flops that drive another net than before."""
    def __init__(self, design, cells, gates, cuts):
        self.design, self.netlist, self.cells, self.cuts = design, design.netlist, cells, cuts
        self.patch = Patch(design, gates)
        self.targets = cuts.targets()
        self.cover_targets()
        self.prefix, self.count = free_prefix(self.netlist.taken(), "eco"), 0
        self.made, self.gone, self.block, self.drawn = [], [], [], []
        # nets of the patch's cells, of `NET%old`, of states that were added, and behind ports that are cut; changed pins and bits
        self.nets, self.old, self.states, self.behind, self.pins, self.bits = {}, {}, {}, {}, {}, {}
        self.place()
        self.remove_idle()
        self.text = edited(self.netlist.text, self.edits())

    def cover_targets(self):
        literals = {target: self.patch.literals[target] for target in self.targets}
        self.cover = Cover(self.patch.network, self.cells, [literal for literal in literals.values() if literal > 1])
        self.operands = {target: CONSTANTS[literal] if literal < 2 else self.cover.build(literal) for target, literal in literals.items()}
        self.added_pins = {place for added in self.design.added for place in added.places()}
        self.readers = {}
        for instance in self.netlist.instances:
            for pin in self.netlist.cell_of(instance).inputs:
                self.readers.setdefault(self.netlist.source(instance.pins[pin]), []).append((instance.name, pin))

    # -- which net each operand is

    def fresh(self):
        self.count += 1
        return "%sn%d" % (self.prefix, self.count - 1)

    def net_of(self, operand):
        """The net, or the constant, that an operand of the patch is in the text: a cell of the patch, or a name of the gates."""
        if isinstance(operand, int):
            if operand not in self.nets:
                self.nets[operand] = self.fresh()
            return self.nets[operand]
        for table in (self.old, self.states, self.behind):
            if operand in table:
                return table[operand]
        if operand.endswith("%net"):
            return self.netlist.source(operand[:-4])
        require("%" not in operand, "the patch reads %s, which isn't in the netlist of cells: give it no weight" % operand)
        return operand

    def place(self):
        """Gives each cell of the patch its net, and each place that is cut what it reads."""
        self.place_behind()
        for net, target in self.cuts.nets.items():
            operand = self.operands[target]
            if isinstance(operand, int):
                self.nets.setdefault(operand, self.netlist.source(net))
        self.place_old()
        for added in self.design.added:
            self.states[added.state] = added.state if "%" not in added.state else self.fresh()
        for number, (cell, pin, pins) in enumerate(self.cover.made):
            self.add(cell.name, [(one, self.net_of(operand)) for one, operand in pins] + [(pin, self.net_of(number))])
        for net, target in self.cuts.nets.items():
            self.place_net(net, self.operands[target])
        for port, target in self.cuts.ports.items():
            self.place_port(port, self.operands[target])
        for place, target in self.cuts.pins.items():
            if place not in self.added_pins:
                self.pins[place] = self.net_of(self.operands[target])
        for added in self.design.added:
            self.place_added(added)

    def place_behind(self):
        """A port that is cut drives no longer what its net does: that is another name of it, or a fresh net."""
        lefts = {}
        for left, right in self.netlist.joins.items():
            lefts.setdefault(right, []).append(left)
        for port, target in self.cuts.ports.items():
            if port in self.netlist.joins:
                self.behind[port] = self.behind[port + "%net"] = self.netlist.source(port)
                continue
            self.behind[port] = self.behind[port + "%net"] = moved = self.fresh()
            instance, pin = self.netlist.driver[port]
            self.pins[instance.name, pin] = moved
            for place in self.readers.get(port, []):
                if self.design.instances()[place[0]].pins[place[1]] == port:
                    self.pins[place] = moved
            self.bits.update(dict.fromkeys(lefts.get(port, []), moved))
            if isinstance(self.operands[target], int):
                self.nets.setdefault(self.operands[target], port)

    def place_old(self):
        """If the patch reads `NET%old`, what drove the net drives a fresh one, unless the net is just that."""
        read = [operand for _, _, pins in self.cover.made for _, operand in pins] + list(self.operands.values())
        for operand in read:
            if isinstance(operand, str) and operand.endswith("%old") and operand not in self.old:
                net = operand[:-4]
                unchanged = self.operands[self.cuts.nets[net]] == operand
                self.old[operand] = self.netlist.source(net) if unchanged else self.fresh()

    def place_net(self, net, operand):
        """What reads a cut net reads the operand; the old driver goes, or drives another net."""
        bit = self.netlist.source(net)
        old = self.old.get(net + "%old")
        if old == bit:
            return
        instance, pin = self.netlist.driver[bit]
        self.pins[instance.name, pin] = old
        if self.net_of(operand) == bit:
            return
        if any(alias in self.design.is_output for alias in self.netlist.aliases(bit)):
            self.buffer(self.net_of(operand), bit)
            return
        for place in self.readers.get(bit, []):
            self.pins.setdefault(place, self.net_of(operand))

    def place_port(self, port, operand):
        """An output port alone becomes the operand: in the assignment that it has, or by a cell."""
        if port in self.netlist.joins:
            self.bits[port] = self.net_of(operand)
        elif self.net_of(operand) != port:
            self.buffer(self.net_of(operand), port)

    def place_added(self, added):
        """The instance of a flip-flop that is taken over."""
        pins = []
        for pin, tie in added.ties.items():
            target = self.cuts.pins.get((added.name, pin))
            pins.append((pin, self.net_of(self.operands[target]) if target else tie))
        shows = [pin for pin, function in added.cell.outputs.items() if function == ("pin", added.cell.flop.states[0])]
        if not shows:
            raise Refused("refused add %s: its cell %s shows the complement of the state alone" % (added.net, added.cell.name))
        self.add(added.cell.name, pins + [(shows[0], self.states[added.state])])

    def buffer(self, net, bit):
        """A cell, or two inverters, by which a bit becomes a net or a constant."""
        entry = self.cells.single(2)
        if net in CONSTANTS and int(net[-1]) in self.cells.ties:
            name, pin = self.cells.ties[int(net[-1])]
            self.add(name, [(pin, bit)])
        elif entry:
            self.add(entry[1].name, [(entry[1].inputs[0], net), (entry[2], bit)])
        else:
            _, cell, pin, _ = self.cover.inverter()
            between = self.fresh()
            self.add(cell.name, [(cell.inputs[0], net), (pin, between)])
            self.add(cell.name, [(cell.inputs[0], between), (pin, bit)])

    def add(self, cell, pins):
        """Puts an instance into the block."""
        name = "%s%d" % (self.prefix, len(self.made))
        self.made.append((name, cell))
        self.drawn.append([net for _, net in pins])
        lines = ["    .%s(%s)" % (spelled(pin), self.netlist.spelled(net)) for pin, net in pins]
        self.block.append("  %s %s (\n%s\n  );\n" % (spelled(cell), name, ",\n".join(lines)))

    # -- what nothing reads any more

    def source(self, bit):
        """What drives a bit in the result."""
        while bit in self.bits or bit in self.netlist.joins:
            bit = self.bits.get(bit, self.netlist.joins.get(bit))
        return bit

    def net_at(self, instance, pin):
        return self.pins.get((instance.name, pin), instance.pins.get(pin))

    def remove_idle(self):
        """Removes the drivers of cut nets, and what drove changed pins, if nothing reads them; then what only those read."""
        uses = {}
        for instance in self.netlist.instances:
            for pin in self.netlist.cell_of(instance).inputs:
                self.count_use(uses, self.net_at(instance, pin))
        for net in [bit for bit in self.design.outputs] + [net for nets in self.drawn for net in nets]:
            self.count_use(uses, net)
        for nets in self.drawn:
            # the last net of an instance is the one that it drives
            uses[self.source(nets[-1])] -= 1
        waiting = [self.netlist.source(net) for net in self.cuts.nets]
        waiting += [self.netlist.source(self.design.instances()[place[0]].pins[place[1]]) for place in self.pins if place not in self.added_pins
                    and self.design.instances()[place[0]].pins[place[1]] is not None]
        gone = set()
        while waiting:
            driver = self.netlist.driver.get(waiting.pop())
            if driver and driver[0].name not in gone and self.is_idle(driver[0], uses):
                gone.add(driver[0].name)
                self.gone.append((driver[0].name, driver[0].kind))
                for pin in self.netlist.cell_of(driver[0]).inputs:
                    source = self.source(self.net_at(driver[0], pin))
                    uses[source] -= 1
                    waiting.append(source)

    def count_use(self, uses, net):
        source = self.source(net)
        uses[source] = uses.get(source, 0) + 1

    def is_idle(self, instance, uses):
        """Whether the instance, which is no flip-flop, drives nothing that is read."""
        cell = self.netlist.cell_of(instance)
        nets = [self.net_at(instance, pin) for pin in cell.outputs]
        return not cell.flop and not any(net is not None and uses.get(net, 0) for net in nets)

    # -- the text

    def edits(self):
        """All changes of the text, as edits of ranges."""
        gone = {name for name, _ in self.gone}
        edits, early = [], []
        for name in gone:
            instance = self.design.instances()[name]
            edits.append((*self.netlist.whole_lines(instance.start, instance.end), ""))
        for (name, pin), net in self.pins.items():
            instance = self.design.instances()[name]
            if name not in gone and instance.pins.get(pin) != net:
                edits.append((*instance.places[pin], "" if net is None else self.netlist.spelled(net)))
                early.append((instance.start, net))
        edits += self.edits_of_assigns(early)
        edits += self.declarations([(place, net) for place, net in early if self.is_fresh(net)])
        start, _ = self.netlist.whole_lines(self.netlist.end, self.netlist.end + len("endmodule"))
        begins = start == 0 or self.netlist.text[start - 1] == "\n"
        put = ("" if begins else "\n") + "".join(self.block)
        return edits + [(start, start, put.replace("\n", self.line_end()))] if self.block else edits

    def line_end(self):
        return "\r\n" if "\r\n" in self.netlist.text else "\n"

    def is_fresh(self, net):
        return net is not None and net.startswith(self.prefix)

    def edits_of_assigns(self, early):
        """The assignments in which a bit has another right side."""
        edits = []
        for number in sorted({self.netlist.assigned[bit] for bit in self.bits}):
            statement, start, end, left, right = self.netlist.assigns[number]
            nets = [self.bits.get(one, other) for one, other in zip(left, right)]
            early += [(statement, net) for net in nets]
            sides = [", ".join(map(self.netlist.spelled, side)) for side in (left, nets)]
            edits.append((start, end, " = ".join(sides if len(left) == 1 else map("{{ {} }}".format, sides))))
        return edits

    def declarations(self, early):
        """Declares the fresh nets: before the first place that reads one if that isn't the block, else in the block."""
        named = {net for _, net in early}
        fresh = {net for nets in self.drawn for net in nets if self.is_fresh(net)} | named
        states = {net for state, net in self.states.items() if net not in fresh}
        inside = sorted(fresh - named, key=natural) + sorted(net for net in states if net not in self.netlist.ranges)
        self.block[:0] = ["  wire %s;\n" % spelled(net) for net in inside]
        if not named:
            return []
        place = min(place for place, _ in early)
        before = self.netlist.text[self.netlist.text.rfind("\n", 0, place) + 1:place]
        line = "wire %s;" % ", ".join(sorted(named, key=natural))
        return [(place, place, line + (" " if before.strip() else self.line_end() + before))]


def main():
    words = argparse.ArgumentParser(description=__doc__, formatter_class=argparse.RawDescriptionHelpFormatter)
    words.add_argument("netlist")
    words.add_argument("--lib", required=True)
    words.add_argument("--patch", required=True)
    words.add_argument("--cut", action="append", required=True, metavar="NET=t_0")
    words.add_argument("--cells", metavar="FILE")
    told = words.parse_args()
    try:
        library = Library(told.lib)
        design = opened(library, told.netlist, "impl")
        cuts = cut_of(design, told.cut)
        with open(told.patch) as file:
            patch = Gates(file.read())
        require(sorted(patch.outputs) == sorted(cuts.targets()), "the patch drives %s, and %s is cut" % (" ".join(patch.outputs), " ".join(cuts.targets())))
        cells = Cells(library, weights_of(told.cells) if told.cells else None)
        sys.stdout.buffer.write(Result(design, cells, patch.gates, cuts).text.encode("latin-1"))
    except FAULTS + (ValueError,) as wrong:
        ended("to_cells", wrong)


if __name__ == "__main__":
    main()
