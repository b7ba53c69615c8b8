#!/usr/bin/env python3
"""Reads a netlist of library cells (Verilog), and keeps where each instance and each pin's net stands in the text.

    tools/cell_netlist.py LIBRARY NETLIST

Called by itself it counts what it has read: cells, nets and ports. What isn't read is refused in one line, with status 3.

It takes one flat module of declarations, assignments that only join nets, and instances of cells with named pins. A bit of a bus is a
net of its own, named `bus[3]`. Nets that assignments join are one net, which is called by a port, else by the name that a cell's pin
drives, else by the shortest name. docs/CELLS.md has the profile.
"""
import argparse
import re

from liberty import Library
from names import FAULTS, RESERVED, Refused, ended, spelled

TOKEN = re.compile(r"""(?:\s+|//[^\n]*|/\*.*?\*/|\(\*(?!\s*\)).*?\*\))+|\\(?P<escaped>[!-~]+)|(?P<simple>[A-Za-z_][A-Za-z0-9_$]*)
    |(?P<based>\d*\s*'\s*[bBoOdDhH]\s*[0-9a-fA-FxXzZ?_]+)|(?P<plain>\d+)|(?P<mark>[(){}\[\],;.=:])|(?P<bad>.)""", re.S | re.X)
BASES = {"b": 2, "o": 8, "d": 10, "h": 16}
MOST_BITS = 65536
CONSTANTS = "1'b0", "1'b1"
# a bit that is x or z: it may be joined to a net that nothing reads, and is refused where it is read
UNKNOWN = "1'bx"


class Instance:
    """An instance of a cell: the net of each pin (None if it is left open), and where all of it stands in the text."""
    __slots__ = "kind", "name", "pins", "places", "start", "end"

    def __init__(self, kind, name, start):
        self.kind, self.name, self.pins, self.places, self.start, self.end = kind, name, {}, {}, start, start


class Text:
    """The tokens of a text, and the place where reading stands."""
    def __init__(self, text, side):
        self.text, self.side, self.at = text, side, 0
        self.kinds, self.words, self.starts, self.ends = [], [], [], []
        for match in TOKEN.finditer(text):
            kind = match.lastgroup
            if kind:
                self.kinds.append(kind)
                self.words.append(match.group(kind))
                self.starts.append(match.start())
                self.ends.append(match.end())
        self.kinds.append("none")
        self.words.append("end")
        self.starts.append(len(text))
        self.ends.append(len(text))

    def line_of(self, place):
        return self.text.count("\n", 0, place) + 1

    def fail(self, thing=None, place=None):
        """Refuses the text; without a thing, for the word that stands here."""
        place = self.starts[self.at] if place is None else place
        if thing is None:
            thing = "directive" if self.words[self.at] == "`" else self.words[self.at]
        raise Refused("refused %s line %d %s" % (self.side, self.line_of(place), thing))

    def is_mark(self, mark):
        return self.words[self.at] == mark and self.kinds[self.at] == "mark"

    def is_word(self, *words):
        return self.words[self.at] in words and self.kinds[self.at] == "simple"

    def mark(self, mark):
        if self.words[self.at] != mark or self.kinds[self.at] != "mark":
            self.fail()
        self.at += 1

    def name(self):
        kind, word = self.kinds[self.at], self.words[self.at]
        if kind != "escaped" and (kind != "simple" or word in RESERVED):
            self.fail()
        if "%" in word:
            self.fail("percent " + word)
        self.at += 1
        return word

    def number(self):
        if self.kinds[self.at] != "plain":
            self.fail()
        self.at += 1
        return int(self.words[self.at - 1])

    def range(self):
        """The two ends of a bus, if they stand here."""
        if not self.is_mark("["):
            return None
        self.at += 1
        first = self.number()
        self.mark(":")
        last = self.number()
        self.mark("]")
        if abs(first - last) >= MOST_BITS:
            self.fail("range [%d:%d]" % (first, last), self.starts[self.at - 1])
        return first, last

    def constant(self):
        """The bits of a constant, the highest first."""
        said = self.words[self.at]
        width, _, rest = said.replace("_", "").partition("'")
        rest = rest.strip().lower()
        digits = rest[1:].strip()
        count = int(width) if width.strip() else 32
        unknown = set(digits) <= set("xz?")
        try:
            value = 0 if unknown else int(digits, BASES[rest[0]])
        except ValueError:
            self.fail("constant " + said)
        if not 0 < count <= MOST_BITS or value >> count:
            self.fail("constant " + said)
        self.at += 1
        return [UNKNOWN] * count if unknown else [CONSTANTS[value >> place & 1] for place in range(count - 1, -1, -1)]


def bits_between(name, first, last):
    """The bits of a bus from one place to another."""
    step = 1 if last >= first else -1
    return ["%s[%d]" % (name, place) for place in range(first, last + step, step)]


class Netlist:
    """A netlist of cells. `ports` has the bits of the ports with their directions, the lowest bit of each port first."""
    def __init__(self, path, library, side="impl"):
        with open(path, encoding="latin-1", newline="") as file:
            self.text = file.read()
        self.path, self.library, self.side = path, library, side
        self.ranges, self.directions, self.wires, self.order = {}, {}, set(), []
        self.instances, self.joins, self.names = [], {}, set()
        # each assignment: where its statement begins, where it begins and ends, and the bits of its two sides; and which one a bit has
        self.assigns, self.assigned, self.statement = [], {}, 0
        self.tokens = Text(self.text, side)
        self.module()
        self.check_names()
        self.ports = [(bit, self.directions[name]) for name in self.order for bit in reversed(self.bits_of(name))]
        self.find_drivers()
        self.name_nets()
        self.check_readers()

    # -- reading

    def module(self):
        tokens = self.tokens
        if not tokens.is_word("module"):
            tokens.fail()
        tokens.at += 1
        self.title = tokens.name()
        if tokens.is_mark("("):
            self.header()
        tokens.mark(";")
        while not tokens.is_word("endmodule"):
            self.item()
        self.end = tokens.starts[tokens.at]
        tokens.at += 1
        if tokens.kinds[tokens.at] != "none":
            tokens.fail()
        for name in self.order:
            if name not in self.directions:
                raise Refused("refused %s portundeclared %s" % (self.side, name))
        known = set(self.order)
        for name in self.directions:
            if name not in known:
                raise Refused("refused %s notaport %s" % (self.side, name))

    def header(self):
        tokens = self.tokens
        tokens.mark("(")
        direction, ends, known = None, None, set()
        while not tokens.is_mark(")"):
            if tokens.is_word("input", "output", "inout"):
                direction, ends = self.direction()
            name = tokens.name()
            if name in known:
                tokens.fail("declaredtwice " + name, tokens.starts[tokens.at - 1])
            known.add(name)
            self.order.append(name)
            if direction:
                self.declare(name, direction, ends)
            if not tokens.is_mark(")"):
                tokens.mark(",")
                if tokens.is_mark(")"):
                    tokens.fail()
        tokens.mark(")")

    def direction(self):
        """A direction, or `wire`, and a range."""
        tokens = self.tokens
        direction = tokens.words[tokens.at]
        tokens.at += 1
        if direction != "wire" and tokens.is_word("wire"):
            tokens.at += 1
        ends = tokens.range()
        if direction == "inout":
            tokens.fail("inout " + tokens.name(), tokens.starts[tokens.at - 1])
        return direction, ends

    def declare(self, name, direction, ends):
        tokens = self.tokens
        twice = name in self.wires if direction == "wire" else name in self.directions
        if twice or name in self.ranges and self.ranges[name] != ends:
            tokens.fail("declaredtwice " + name, tokens.starts[tokens.at - 1])
        self.ranges[name] = ends
        if direction == "wire":
            self.wires.add(name)
        else:
            self.directions[name] = direction

    def item(self):
        tokens = self.tokens
        if tokens.is_word("input", "output", "inout", "wire"):
            self.declarations()
        elif tokens.is_word("assign"):
            self.statement = tokens.starts[tokens.at]
            tokens.at += 1
            self.assignment()
            while tokens.is_mark(","):
                tokens.at += 1
                self.assignment()
        else:
            self.instance()
        tokens.mark(";")

    def declarations(self):
        tokens = self.tokens
        direction, ends = self.direction()
        while True:
            name = tokens.name()
            self.declare(name, direction, ends)
            if direction == "wire" and tokens.is_mark("="):
                tokens.at += 1
                if tokens.kinds[tokens.at] != "based":
                    tokens.fail()
                start = tokens.starts[tokens.at]
                self.join(self.bits_of(name), tokens.constant(), start)
            if not tokens.is_mark(","):
                return
            tokens.at += 1

    def assignment(self):
        tokens = self.tokens
        place = tokens.starts[tokens.at]
        left = self.joined()
        tokens.mark("=")
        self.join(left, self.joined(), place)

    def join(self, left, right, place):
        """Joins the bits of the two sides; the right one ends here."""
        if len(left) != len(right):
            self.tokens.fail("width %d %d" % (len(left), len(right)), place)
        for one, other in zip(left, right):
            if one in CONSTANTS or one == UNKNOWN:
                self.tokens.fail("constant " + one, place)
            if one in self.joins:
                self.tokens.fail("driventwice " + one, place)
            self.joins[one] = other
            self.assigned[one] = len(self.assigns)
        self.assigns.append((self.statement, place, self.tokens.starts[self.tokens.at], left, right))

    def instance(self):
        tokens = self.tokens
        made = Instance(tokens.name(), "", tokens.starts[tokens.at - 1])
        if tokens.words[tokens.at] == "#":
            tokens.fail("parameters " + made.kind)
        if tokens.is_mark("("):
            tokens.fail("unnamed " + made.kind)
        made.name = tokens.name()
        if made.name in self.names:
            tokens.fail("instancetwice " + made.name, tokens.starts[tokens.at - 1])
        self.names.add(made.name)
        tokens.mark("(")
        while not tokens.is_mark(")"):
            self.pin(made)
            if not tokens.is_mark(")"):
                tokens.mark(",")
                if tokens.is_mark(")"):
                    tokens.fail()
        tokens.mark(")")
        made.end = tokens.ends[tokens.at]
        self.instances.append(made)

    def pin(self, made):
        tokens = self.tokens
        if not tokens.is_mark("."):
            tokens.fail("positional " + made.name, made.start)
        tokens.at += 1
        pin = tokens.name()
        if pin in made.places:
            tokens.fail("pintwice %s.%s" % (made.name, pin), tokens.starts[tokens.at - 1])
        tokens.mark("(")
        first, bits = tokens.at, [None]
        if not tokens.is_mark(")"):
            bits = self.joined()
            if len(bits) != 1:
                tokens.fail("width %s.%s" % (made.name, pin), tokens.starts[first])
        made.pins[pin] = bits[0]
        # what stands between the parentheses, without the white space around a plain name
        made.places[pin] = (tokens.starts[first], self.end_of(first))
        tokens.mark(")")

    def end_of(self, first):
        """Where the pin's net ends; an escaped name takes the blank behind it along."""
        tokens = self.tokens
        if first == tokens.at:
            return tokens.starts[first]
        last = tokens.at - 1
        return tokens.ends[last] + (tokens.kinds[last] == "escaped" and tokens.ends[last] < tokens.starts[tokens.at])

    def joined(self):
        """The bits of a name, a part of a bus, a constant or a list of these, the highest first."""
        tokens = self.tokens
        if tokens.is_mark("{"):
            tokens.at += 1
            bits = list(self.joined())
            while tokens.is_mark(","):
                tokens.at += 1
                bits += self.joined()
            tokens.mark("}")
            return bits
        if tokens.kinds[tokens.at] == "based":
            return tokens.constant()
        name = tokens.name()
        if not tokens.is_mark("["):
            return self.bits_of(name)
        tokens.at += 1
        first = last = tokens.number()
        if tokens.is_mark(":"):
            tokens.at += 1
            last = tokens.number()
        tokens.mark("]")
        ends = self.ranges.get(name)
        if ends is None or not min(ends) <= min(first, last) <= max(first, last) <= max(ends):
            tokens.fail("index %s[%d]" % (name, first if first == last or ends is None else last), tokens.starts[tokens.at - 1])
        return bits_between(name, first, last)

    def bits_of(self, name):
        """The bits of a name, the highest first."""
        ends = self.ranges.get(name)
        return bits_between(name, *ends) if ends else [name]

    # -- nets

    def check_names(self):
        """Refuses a name that is also a bit of a bus."""
        tokens = self.tokens
        escaped = {word for kind, word in zip(tokens.kinds, tokens.words) if kind == "escaped" and word.endswith("]")} - self.names
        for name in sorted(escaped):
            if self.is_bit(name):
                raise Refused("refused %s twonames %s" % (self.side, name))

    def is_bit(self, name):
        """Whether a declared bus has this bit."""
        match = re.fullmatch(r"(.*)\[(\d+)\]", name)
        ends = self.ranges.get(match.group(1)) if match else None
        return bool(ends) and min(ends) <= int(match.group(2)) <= max(ends) and str(int(match.group(2))) == match.group(2)

    def find_drivers(self):
        """What drives each bit by itself: an input port, or a pin. A bit that an assignment drives has no other driver."""
        self.driver = {bit: None for bit, direction in self.ports if direction == "input"}
        for bit in self.driver:
            if bit in self.joins:
                raise Refused("refused %s driventwice %s" % (self.side, bit))
        self.kinds = {}
        for instance in self.instances:
            cell = self.kinds.get(instance.kind)
            if cell is None:
                cell = self.kinds[instance.kind] = self.library.cell(instance.kind, self.side, instance.name)
            for pin in cell.outputs:
                bit = instance.pins.get(pin)
                if bit is None:
                    continue
                if bit in self.driver or bit in self.joins or bit in CONSTANTS:
                    self.tokens.fail("driventwice " + bit, instance.places[pin][0])
                self.driver[bit] = (instance, pin)

    def cell_of(self, instance):
        return self.kinds[instance.kind]

    def source(self, bit):
        """The bit that drives this one through assignments."""
        path = []
        while bit in self.joins:
            if bit in self.found:
                bit = self.found[bit]
                break
            path.append(bit)
            if len(path) > len(self.joins):
                raise Refused("refused %s loop %s" % (self.side, min(path)))
            bit = self.joins[bit]
        for passed in path:
            self.found[passed] = bit
        return bit

    def name_nets(self):
        """Chooses the name of each net that has several."""
        self.found, self.chosen, self.members = {}, {}, {}
        for bit in self.joins:
            self.members.setdefault(self.source(bit), []).append(bit)
        ports = dict(self.ports)
        for source, members in self.members.items():
            if source in CONSTANTS or source == UNKNOWN:
                continue
            named = [bit for bit in [source, *members] if bit in ports]
            own = source in named or source in self.driver and not named
            self.chosen[source] = source if own else min(named or [source, *members], key=lambda bit: (len(bit), bit))

    def root(self, bit):
        """The name of the net that a bit is, or a constant."""
        source = self.source(bit)
        return self.chosen.get(source, source)

    def aliases(self, source):
        """The bits that are one net with this one, which drives them."""
        return [source, *self.members.get(source, [])]

    def check_readers(self):
        """Refuses an input pin without a net, and a net that is read and has no driver."""
        for instance in self.instances:
            for pin in self.cell_of(instance).inputs:
                bit = instance.pins.get(pin)
                if bit is None:
                    self.tokens.fail("unconnected %s.%s" % (instance.name, pin), instance.places.get(pin, (instance.start,))[0])
                self.check_driven(bit, instance.places[pin][0])
        for bit, direction in self.ports:
            if direction == "output":
                self.check_driven(bit, None)

    def check_driven(self, bit, place):
        source = self.source(bit)
        if source in CONSTANTS or source in self.driver:
            return
        thing = "constant " + UNKNOWN if source == UNKNOWN else "undriven " + bit
        if place is None:
            raise Refused("refused %s %s" % (self.side, thing + " " + bit if source == UNKNOWN else thing))
        self.tokens.fail(thing, place)

    # -- for those that change the text

    def spelled(self, bit):
        """A net or a constant as this netlist's text says it."""
        if bit in CONSTANTS:
            return bit
        if self.is_bit(bit):
            name, _, rest = bit.rpartition("[")
            return "%s[%s" % (spelled(name), rest)
        return spelled(bit)

    def taken(self):
        """All names of the text."""
        tokens = self.tokens
        return {word for kind, word in zip(tokens.kinds, tokens.words) if kind in ("simple", "escaped")}

    def whole_lines(self, start, end):
        """The range, with its lines' ends if nothing else stands on them."""
        before = self.text.rfind("\n", 0, start) + 1
        behind = self.text.find("\n", end)
        if behind >= 0 and not self.text[before:start].strip() and not self.text[end:behind].strip():
            return before, behind + 1
        return start, end


def edited(text, edits):
    """The text with each of some ranges, which don't overlap, replaced: edits are (start, end, what stands there then)."""
    parts, at = [], 0
    for start, end, put in sorted(edits):
        parts += [text[at:start], put]
        at = end
    return "".join(parts + [text[at:]])


def main():
    words = argparse.ArgumentParser(description=__doc__, formatter_class=argparse.RawDescriptionHelpFormatter)
    words.add_argument("library")
    words.add_argument("netlist")
    told = words.parse_args()
    try:
        read = Netlist(told.netlist, Library(told.library))
        nets = {read.root(bit) for bit in read.driver}
        print("%s: %d cells, %d nets, %d ports" % (read.title, len(read.instances), len(nets), len(read.ports)))
    except FAULTS as wrong:
        ended("cell_netlist", wrong)


if __name__ == "__main__":
    main()
