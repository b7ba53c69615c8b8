#!/usr/bin/env python3
"""A netlist of cells, cut open at its flip-flops: the netlist of gates that eco reads, for from_cells.py, to_cells.py and fix_cells.py.

    tools/cut_open.py LIBRARY OLD NEW [--match FILE] [--match-buses]

Called by itself it prints which flip-flops of the two netlists are partners: a line with both names for each.

A flip-flop becomes ports: its state is an input NET, the name of the net that it drives (`NET%q` if that is a port), and outputs tell
what it does: `NET%next`, `NET%clock`, and, only if its cell has them, `NET%clear` and `NET%preset`.
"""
import argparse
import re

from cell_netlist import CONSTANTS, Netlist
from gates import Circuit
from liberty import Library, with_pins
from names import FAULTS, Refused, ended, natural

# what a flip-flop does, by the name of the output that tells it
TOLD = {"next": "next_state", "clock": "clocked_on", "clear": "clear", "preset": "preset"}
TURNED = {"and": "nand", "or": "nor", "xor": "xnor"}


class Builder:
    """Makes gates of functions, whose names are nets by now."""
    def __init__(self):
        self.gates = []

    def drive(self, out, function):
        """Gates that drive the net `out`, whose inner nets are `out%1`, `out%2`, .."""
        self.count = 0
        self.drive_by(out, function, out)

    def drive_by(self, out, function, base):
        turned = False
        while function[0] == "not":
            turned, function = not turned, function[1]
        if function[0] in ("pin", "const"):
            self.gates.append(("not" if turned else "buf", out, [self.term(function, base)]))
        else:
            terms = [self.term(part, base) for part in function[1]]
            self.gates.append((TURNED[function[0]] if turned else function[0], out, terms))

    def term(self, function, base):
        """A term that has the function's value."""
        if function[0] == "const":
            return CONSTANTS[function[1]]
        if function[0] == "pin":
            return function[1]
        self.count += 1
        name = "%s%%%d" % (base, self.count)
        self.drive_by(name, function, base)
        return name


class Flop:
    """A flip-flop of a netlist: its instance and cell, the name NET, the name of its state, and whether NET is the complement."""
    def __init__(self, instance, cell, net, state):
        self.instance, self.cell, self.net, self.state, self.beside = instance, cell, net, state, ()

    def ports(self):
        """The outputs that tell what it does."""
        return ["%s%%%s" % (self.net, word) for word, attribute in TOLD.items() if attribute in self.cell.flop.functions]


class Cuts:
    """What is cut: nets, output ports apart from their nets, and pins, each with its target. A pin is a pair of an instance's name and a pin."""
    def __init__(self):
        self.nets, self.ports, self.pins = {}, {}, {}

    def only(self, targets):
        """The cuts of these targets."""
        made = Cuts()
        for name in ("nets", "ports", "pins"):
            setattr(made, name, {place: target for place, target in getattr(self, name).items() if target in targets})
        return made

    def targets(self):
        return sorted({*self.nets.values(), *self.ports.values(), *self.pins.values()}, key=natural)


class Added:
    """A flip-flop of the new design that the old one takes over: the names NET and of its state, a name for its instance, and what its
    pins are tied to (None where a target is wanted)."""
    def __init__(self, flop, state, ties):
        self.flop, self.net, self.state, self.ties = flop, flop.net, state, ties
        self.cell, self.name = flop.cell, flop.net + "%added"

    def places(self):
        """The pins that want a target."""
        return [(self.name, pin) for pin, tie in self.ties.items() if tie is None]


class Opened:
    """A netlist of cells, cut open. `flops` has its flip-flops by the name NET."""
    def __init__(self, netlist):
        # flip-flops that were taken over; states that the other netlist has; outputs that it doesn't have
        self.netlist, self.added, self.extra, self.unseen = netlist, [], [], set()
        self.inputs = [bit for bit, direction in netlist.ports if direction == "input"]
        self.outputs = [bit for bit, direction in netlist.ports if direction == "output"]
        self.is_output = set(self.outputs)
        self.flops, self.flop_of = {}, {}
        for instance in netlist.instances:
            if netlist.cell_of(instance).flop:
                self.add_flop(instance, netlist.cell_of(instance))
        # other names of nets, partners of flip-flops, and the ports that stand apart from their nets, which are `PORT%net` then
        self.renamed, self.shown, self.apart = {}, {}, set()

    def add_flop(self, instance, cell):
        """The net is that of an output with the state; else that of one with its complement; else a name of its own."""
        first, second = cell.flop.states
        nets = {state: self.netlist.root(instance.pins[pin]) for pin, function in cell.outputs.items() for state in (first, second)
                if function == ("pin", state) and instance.pins.get(pin) is not None}
        net = nets.get(first) or nets.get(second) or instance.name
        plain = first in nets and net not in self.is_output
        if net in self.flops:
            raise Refused("refused %s flipflops %s" % (self.netlist.side, net))
        self.flops[net] = self.flop_of[instance.name] = Flop(instance, cell, net, net if plain else net + "%q")

    def names_of(self, flop):
        """All names of the net that a flip-flop drives."""
        pins = [flop.instance.pins[pin] for pin in flop.cell.outputs if flop.instance.pins.get(pin) is not None]
        return [flop.net] + [bit for pin in pins for bit in self.netlist.aliases(self.netlist.source(pin)) if bit != flop.net]

    # -- names of nets

    def name(self, bit):
        """The net of a bit, as the gates call it; a net of the new netlist whose name a state has is called by another one."""
        root = self.netlist.root(bit)
        return root + "%net" if root in self.apart else self.renamed.get(root, root)

    def is_named_as(self, partners):
        """Takes the names of the old netlist's flip-flops: `partners` has for a flip-flop's NET that of the old one."""
        for net, other in partners.items():
            self.shown[net] = other
        states = {self.partner(flop).state for flop in self.flops.values()} | set(self.extra)
        kept = set(self.inputs) | set(self.outputs)
        nets = {self.netlist.root(bit) for bit in self.netlist.driver} - kept
        own = {flop.net for flop in self.flops.values() if self.partner(flop).state == flop.net}
        self.renamed = {net: net + "%inner" for net in nets if net in states and net not in own}

    def partner(self, flop):
        return self.shown.get(flop.net, flop)

    # -- the netlist of gates

    def states(self):
        return sorted([self.partner(flop).state for flop in self.flops.values()] + [added.state for added in self.added] + self.extra, key=natural)

    def told(self):
        """The outputs that tell what the flip-flops do: the port, its function, and the instance whose pins it reads."""
        found = []
        for flop in self.flops.values():
            for word, attribute in TOLD.items():
                if attribute in flop.cell.flop.functions or attribute in flop.beside:
                    function = flop.cell.flop.functions.get(attribute, ("const", 0))
                    found.append(("%s%%%s" % (self.partner(flop).net, word), function, flop))
        return sorted(found, key=lambda entry: natural(entry[0]))

    def values(self, instance, cuts, buffers):
        """What each pin of an instance reads."""
        found = {}
        for pin in self.netlist.cell_of(instance).inputs:
            place = (instance.name, pin)
            if place in cuts.pins:
                found[pin] = ("pin", cuts.pins[place])
            elif place in buffers:
                found[pin] = ("pin", buffers[place])
            else:
                found[pin] = self.net(instance.pins[pin], cuts)
        return found

    def net(self, bit, cuts):
        net = self.name(bit)
        if net in CONSTANTS:
            return ("const", CONSTANTS.index(net))
        return ("pin", cuts.nets.get(net, net))

    def with_state(self, flop, values):
        state = ("pin", self.partner(flop).state)
        first, second = flop.cell.flop.states
        return {**values, first: state, second: ("not", state)}

    def circuit(self, cuts=None, buffers=None, apart=()):
        """The netlist of gates with these cuts, with a buffer at each of these pins, which is called as `buffers` says, and with these
        ports apart from their nets."""
        cuts, buffers, built = cuts or Cuts(), buffers or {}, Builder()
        self.apart = {*apart, *(self.netlist.root(port) for port in cuts.ports)}
        for instance in self.netlist.instances:
            values = self.values(instance, cuts, buffers)
            flop = self.flop_of.get(instance.name)
            if flop:
                values = self.with_state(flop, values)
            for pin, function in self.netlist.cell_of(instance).outputs.items():
                if instance.pins.get(pin) is not None:
                    self.drive(built, instance, pin, function, values, flop, cuts)
        joint = self.joint(buffers) if buffers else {}
        for net in joint:
            built.drive(net + "%readers", ("pin", net))
        for place, name in buffers.items():
            if place not in cuts.pins:
                net = self.net(self.pin_bit(place), cuts)
                built.drive(name, ("pin", net[1] + "%readers") if net[1] in joint else net)
        for port in self.outputs:
            net = ("pin", cuts.ports[port]) if port in cuts.ports else self.net(port, cuts)
            if net != ("pin", port):
                built.drive(port, net)
        told = [entry for entry in self.told() if entry[0] not in self.unseen]
        for port, function, flop in told:
            built.drive(port, with_pins(function, self.with_state(flop, self.values(flop.instance, cuts, buffers))))
        ports = [port for port, _, _ in told]
        for added in self.added:
            ports += self.drive_added(built, added, cuts)
        inputs = self.inputs + self.states()
        return Circuit(self.netlist.title, inputs, self.outputs + ports, built.gates)

    def joint(self, buffers):
        """The states and inputs that several of the buffered pins read, with these pins: one net for them all stands before them."""
        nets, found = set(self.inputs) | {self.name(flop.net) for flop in self.flops.values()}, {}
        for place in buffers:
            net = self.name(self.pin_bit(place))
            if net in nets:
                found.setdefault(net, []).append(place)
        return {net: places for net, places in found.items() if len(places) > 1}

    def pin_bit(self, place):
        return self.instances()[place[0]].pins[place[1]]

    def instances(self):
        if not hasattr(self, "by_name"):
            self.by_name = {instance.name: instance for instance in self.netlist.instances}
        return self.by_name

    def drive(self, built, instance, pin, function, values, flop, cuts):
        """The gates of an output of an instance; that of a cut net drives `NET%old`."""
        net = self.name(instance.pins[pin])
        if function is None:
            raise Refused("refused %s cell %s nofunction %s" % (self.netlist.side, instance.kind, instance.name))
        function = with_pins(function, values)
        out = net + "%old" if net in cuts.nets else net
        if function != ("pin", out):
            built.drive(out, function)

    def drive_added(self, built, added, cuts):
        """The outputs of a flip-flop that was taken over; a pin that isn't tied reads the target that is cut there, or 0."""
        values = {}
        for pin, tie in added.ties.items():
            target = cuts.pins.get((added.name, pin))
            values[pin] = ("pin", target) if target else self.net(tie, cuts) if tie else ("const", 0)
        first, second = added.cell.flop.states
        values.update({first: ("pin", added.state), second: ("not", ("pin", added.state))})
        ports = []
        for word, attribute in TOLD.items():
            if attribute in added.cell.flop.functions:
                ports.append("%s%%%s" % (added.net, word))
                built.drive(ports[-1], with_pins(added.cell.flop.functions[attribute], values))
        return ports

    # -- pins

    def ports_apart(self):
        """The output ports whose net has other readers."""
        netlist = self.netlist
        read = {netlist.root(instance.pins[pin]) for instance in netlist.instances for pin in netlist.cell_of(instance).inputs}
        twice = {}
        for port in self.outputs:
            twice.setdefault(netlist.root(port), []).append(port)
        return {root for root, ports in twice.items() if root in self.is_output and (root in read or len(ports) > 1)}

    def pin_buffers(self):
        """A buffer's name for each input pin that could be cut by itself: its net has other readers, is tied, an input or a state."""
        netlist, readers = self.netlist, {}
        self.apart = set()
        for instance in netlist.instances:
            for pin in netlist.cell_of(instance).inputs:
                readers.setdefault(self.name(instance.pins[pin]), []).append((instance.name, pin))
        alone = {self.name(bit) for bit in self.outputs} | set(self.inputs) | {flop.net for flop in self.flops.values()} | set(CONSTANTS)
        taken = {self.name(bit) for bit in netlist.driver} | set(self.inputs) | set(self.outputs)
        buffers = {}
        for net, places in readers.items():
            if len(places) > 1 or net in alone:
                for place in places:
                    name = "%s.%s" % place
                    buffers[place] = name if name not in taken else name + "%pin"
        return buffers


# ---- partners among flip-flops

def lines_of(path):
    """The pairs of a file with lines `old-name new-name`."""
    pairs = []
    with open(path) as file:
        for number, line in enumerate(file, 1):
            words = [re.sub(r"^\\", "", word) for word in line.split()]
            if words and len(words) != 2:
                raise Refused("refused match line %d %s" % (number, line.strip()))
            if words:
                pairs.append(words)
    return pairs


def as_bus(name):
    """A name with its last number as the place in a bus: `n_3_` as `n[3]`."""
    return re.sub(r"_(\d+)_$", r"[\1]", name)


def is_made(name):
    """Whether a tool made the name, so that it says nothing of what it names."""
    return re.fullmatch(r"_\d+_|[UguXx]?_*\d+", name) is not None


class Partners:
    """Finds for each flip-flop of the new netlist its partner in the old one."""
    def __init__(self, old, new):
        self.old, self.new = old, new
        self.found, self.used = {}, set()

    def pair(self, flop, other):
        if flop.net not in self.found and other.net not in self.used:
            self.found[flop.net] = other
            self.used.add(other.net)
            # a flip-flop without clear or preset, beside one that has it, is one that never clears
            flop.beside, other.beside = other.cell.flop.functions, flop.cell.flop.functions

    def by(self, names_of_old, names_of_new):
        """Pairs those with a name in common that no two flip-flops of one side have."""
        tables = []
        for opened, names_of in ((self.old, names_of_old), (self.new, names_of_new)):
            table = {}
            for flop in opened.flops.values():
                for name in set(names_of(flop)):
                    table.setdefault(name, []).append(flop)
            tables.append(table)
        for name, flops in tables[1].items():
            others = tables[0].get(name, [])
            if len(flops) == len(others) == 1:
                self.pair(flops[0], others[0])

    def by_lines(self, pairs):
        every = [{name: flop for flop in opened.flops.values() for name in [flop.instance.name, flop.state, *opened.names_of(flop)]}
                 for opened in (self.old, self.new)]
        for one, other in pairs:
            for name, known, side in ((one, every[0], "old"), (other, every[1], "new")):
                if name not in known:
                    raise Refused("refused match no flip-flop of the %s netlist is called %s" % (side, name))
            self.pair(every[1][other], every[0][one])

    def all(self, pairs, buses):
        self.by_lines(pairs)
        self.by(lambda flop: [flop.net], lambda flop: [flop.net])
        self.by(self.old.names_of, self.new.names_of)
        if buses:
            self.by(lambda flop: map(as_bus, self.old.names_of(flop)), lambda flop: map(as_bus, self.new.names_of(flop)))
        named = lambda flop: [] if is_made(flop.instance.name) else [flop.instance.name]
        self.by(named, named)
        return self.found


def take_over(old, new, lone):
    """Puts flip-flops of the new netlist into the old one; the pins that are tied, and those at an input, stay so."""
    taken = old.netlist.taken() | {old.netlist.root(bit) for bit in old.netlist.driver}
    for flop in lone:
        state = flop.state if flop.state not in taken and not old.netlist.is_bit(flop.state) else flop.net + "%q"
        ties = {}
        for pin in flop.cell.inputs:
            net = new.netlist.root(flop.instance.pins[pin])
            ties[pin] = net if net in CONSTANTS or net in old.inputs else None
        old.added.append(Added(flop, state, ties))
        new.shown[flop.net] = Flop(flop.instance, flop.cell, flop.net, state)


def check_ports(old, new, lone_old, lone_new, add):
    """Refuses ports that only one netlist has, and flip-flops without a partner unless they are taken over; names all of them."""
    names = sorted(set(old.inputs) ^ set(new.inputs) | set(old.outputs) ^ set(new.outputs))
    flops = [] if add else sorted(name for flop in lone_new for name in [flop.state, *flop.ports()])
    gone = [] if add else sorted(name for flop in lone_old for name in [flop.state, *flop.ports()])
    if names or flops or gone:
        said = ["refused ports"] + names + flops + ["(--add takes it over)"] * bool(flops)
        raise Refused(" ".join(said + ["only in the old netlist:"] * bool(gone) + gone))


def matched(old, new, match=None, buses=False, add=False, pairs=()):
    """Gives the new netlist the names of the old one's flip-flops, and the old one what it lacks if `add` says so. `pairs` are known partners."""
    found = Partners(old, new).all([*pairs, *(lines_of(match) if match else [])], buses)
    partners = {other.net for other in found.values()}
    lone_old = [flop for net, flop in old.flops.items() if net not in partners]
    lone_new = [flop for net, flop in new.flops.items() if net not in found]
    check_ports(old, new, lone_old, lone_new, add)
    if add:
        take_over(old, new, lone_new)
        new.extra = [flop.state for flop in lone_old]
        old.unseen = {port for flop in lone_old for port in flop.ports()}
    new.is_named_as(found)
    return found


def opened(library, path, side):
    return Opened(Netlist(path, library, side))


def main():
    words = argparse.ArgumentParser(description=__doc__, formatter_class=argparse.RawDescriptionHelpFormatter)
    for name in ("library", "old", "new"):
        words.add_argument(name)
    words.add_argument("--match")
    words.add_argument("--match-buses", action="store_true")
    told = words.parse_args()
    try:
        library = Library(told.library)
        old, new = opened(library, told.old, "impl"), opened(library, told.new, "spec")
        for net, flop in matched(old, new, told.match, told.match_buses).items():
            print(flop.net, net)
    except FAULTS as wrong:
        ended("cut_open", wrong)


if __name__ == "__main__":
    main()
