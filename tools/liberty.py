#!/usr/bin/env python3
"""Reads a library of cells in Liberty's form, for the scripts that read netlists of its cells.

    tools/liberty.py LIBRARY

Called by itself it prints a line for each cell: its name, its area, and its outputs with their functions, or why it isn't read.

Of a cell it takes `area`, `dont_use`, `dont_touch`, its pins with `direction` and `function`, and a flip-flop's (`ff`) next state,
clock, clear and preset. A cell with a latch, a state table, a bank, a bus, a bundle, a pin with `three_state` or one that is `inout`
is marked as not read: an instance of it is refused. docs/CELLS.md has the profile.

A function is a tree: ("pin", name), ("const", 0 or 1), ("not", f), or ("and" | "or" | "xor", [f, ..]).
"""
import argparse
import re

from names import FAULTS, Refused, ended

TOKEN = re.compile(r'(?:/\*.*?\*/|//[^\n]*|\\[ \t\r]*\n|[ \t\r\f]+)|(?P<end>\n)|"(?P<text>(?:[^"\\]|\\.)*)"|(?P<mark>[{}():;,])'
                   r'|(?P<word>[^\s{}():;,"]+)|(?P<bad>.)', re.S)
FUNCTION_TOKEN = re.compile(r"\s*([A-Za-z_][A-Za-z0-9_\[\]]*|[01]|[!'^*&+|()])")
# groups of a cell that make it a cell that isn't read, and what a flip-flop may have
UNREAD = {"latch", "statetable", "ff_bank", "latch_bank", "bus", "bundle"}
FLOP = ("next_state", "clocked_on", "clear", "preset")


class NoFunction(Exception):
    """A text isn't a function of the profile."""


class FunctionReader:
    """Reads a function: `!` and `'` bind most, then `^`, then `*`, `&` and mere neighbourhood, then `+` and `|`."""
    def __init__(self, text):
        self.words, self.at, place = [], 0, 0
        text = text.strip()
        while place < len(text):
            match = FUNCTION_TOKEN.match(text, place)
            if not match:
                raise NoFunction(text)
            self.words.append(match.group(1))
            place = match.end()
        self.words.append("")

    def next(self):
        return self.words[self.at]

    def take(self):
        self.at += 1
        return self.words[self.at - 1]

    def whole(self):
        value = self.sum()
        if self.next():
            raise NoFunction(self.next())
        return value

    def chain(self, kind, marks, part, begins=()):
        """Parts with one of the marks between two, or none where a word of `begins` starts the next part."""
        parts = [part()]
        while self.next() and (self.next() in marks or begins and (self.next() in begins or self.next()[0].isalpha() or self.next()[0] == "_")):
            if self.next() in marks:
                self.take()
            parts.append(part())
        return parts[0] if len(parts) == 1 else (kind, parts)

    def sum(self):
        return self.chain("or", ("+", "|"), self.product)

    def product(self):
        return self.chain("and", ("*", "&"), self.parity, ("!", "(", "0", "1"))

    def parity(self):
        return self.chain("xor", ("^",), self.unit)

    def unit(self):
        word = self.take()
        if word == "!":
            return ("not", self.unit())
        if word == "(":
            value = self.sum()
            if self.take() != ")":
                raise NoFunction(")")
        elif word in ("0", "1"):
            value = ("const", int(word))
        elif word and (word[0].isalpha() or word[0] == "_"):
            value = ("pin", word)
        else:
            raise NoFunction(word)
        while self.next() == "'":
            self.take()
            value = ("not", value)
        return value


def names_of(function):
    """The pins that a function reads."""
    if function[0] == "pin":
        return {function[1]}
    if function[0] == "const":
        return set()
    parts = [function[1]] if function[0] == "not" else function[1]
    return set().union(*map(names_of, parts))


def with_pins(function, values):
    """The function with each pin replaced by the function that `values` has for it."""
    if function[0] == "pin":
        return values[function[1]]
    if function[0] == "const":
        return function
    if function[0] == "not":
        return ("not", with_pins(function[1], values))
    return (function[0], [with_pins(part, values) for part in function[1]])


def word_of(function, words, mask):
    """The word of a function over the pins' words, which have a bit for each of some inputs; the mask has all of these bits."""
    if function[0] == "pin":
        return words[function[1]]
    if function[0] == "const":
        return mask if function[1] else 0
    if function[0] == "not":
        return mask ^ word_of(function[1], words, mask)
    value = word_of(function[1][0], words, mask)
    for part in function[1][1:]:
        other = word_of(part, words, mask)
        value = value & other if function[0] == "and" else value | other if function[0] == "or" else value ^ other
    return value


def input_words(count):
    """For each of some inputs its word over all rows, input 0 changing fastest."""
    rows = 1 << count
    return [sum(1 << row for row in range(rows) if row >> place & 1) for place in range(count)]


def table_of(function, pins):
    """The truth table of a function over these pins, as a word with row 0 lowest; the first pin changes fastest."""
    return word_of(function, dict(zip(pins, input_words(len(pins)))), (1 << (1 << len(pins))) - 1)


class Flop:
    """A flip-flop: the names of its state and of the complement, and its functions by Liberty's words."""
    def __init__(self, states):
        self.states, self.functions, self.forced = states, {}, {}


class Cell:
    """A cell: its input pins, the functions of its outputs, its flip-flop, and the word for what makes it unreadable."""
    def __init__(self, name):
        self.name, self.inputs, self.outputs, self.flop = name, [], {}, None
        self.area, self.barred, self.unread = None, False, None

    def mark(self, word):
        self.unread = self.unread or word


class Tokens:
    """The tokens of the file, with their places."""
    def __init__(self, text):
        self.text, self.at, self.list = text, 0, []
        for match in TOKEN.finditer(text):
            if match.lastgroup:
                self.list.append((match.lastgroup, match.group(match.lastgroup), match.start()))
                if match.lastgroup == "bad":
                    self.at = len(self.list) - 1
                    self.fail()
        self.list.append(("none", "the end", len(text)))

    def fail(self):
        token = self.list[min(self.at, len(self.list) - 1)]
        word = "end" if token[0] == "none" else token[1].strip() or "newline"
        raise Refused("refused library line %d %s" % (self.text.count("\n", 0, token[2]) + 1, word))

    def skip(self):
        while self.list[self.at][0] == "end":
            self.at += 1

    def is_mark(self, *marks):
        return self.list[self.at][0] == "mark" and self.list[self.at][1] in marks

    def take(self):
        self.at += 1
        return self.list[self.at - 1]


class Library:
    """The cells of a library by their names."""
    def __init__(self, path):
        self.cells = {}
        with open(path, encoding="latin-1") as file:
            self.tokens = Tokens(file.read())
        while self.more():
            self.statement("", None, None)

    def more(self):
        tokens = self.tokens
        while tokens.list[tokens.at][0] == "end" or tokens.is_mark(";"):
            tokens.at += 1
        return tokens.list[tokens.at][0] != "none"

    def statement(self, around, cell, pins):
        """Reads an attribute or a group inside the group `around`, which may belong to a cell and there to pins."""
        tokens = self.tokens
        kind, name, _ = tokens.take()
        if kind not in ("word", "text"):
            tokens.at -= 1
            tokens.fail()
        tokens.skip()
        if tokens.is_mark(":"):
            tokens.take()
            self.attribute(around, cell, pins, name, self.value())
            return
        if not tokens.is_mark("("):
            tokens.fail()
        given = self.arguments()
        behind = tokens.at
        tokens.skip()
        if not tokens.is_mark("{"):
            tokens.at = behind
            return
        tokens.take()
        self.group(around, cell, pins, name, given)

    def value(self):
        tokens, words = self.tokens, []
        while not tokens.is_mark(";", "}") and tokens.list[tokens.at][0] not in ("end", "none"):
            words.append(tokens.take()[1])
        return " ".join(words)

    def arguments(self):
        tokens, given = self.tokens, []
        tokens.take()
        while not tokens.is_mark(")"):
            kind, word, _ = tokens.take()
            if kind == "none" or word in ("{", "}", ";"):
                tokens.at -= 1
                tokens.fail()
            if kind in ("word", "text"):
                given.append(word)
        tokens.take()
        return given

    def group(self, around, cell, pins, name, given):
        """Reads the statements of a group up to its brace."""
        tokens = self.tokens
        inner = name
        if around == "library" and name == "cell" and given:
            if given[0] in self.cells:
                raise Refused("refused library line %d cell %s twice" % (tokens.text.count("\n", 0, tokens.list[tokens.at][2]) + 1, given[0]))
            cell = self.cells[given[0]] = Cell(given[0])
        elif around == "cell" and name == "pin":
            pins = given
        elif around == "cell" and name == "ff":
            if cell.flop or len(given) != 2:
                cell.mark("ff")
            cell.flop = Flop(given)
        else:
            if around == "cell" and name in UNREAD:
                cell.mark(name)
            inner = name if around == "" and name == "library" else "other"
        while self.more() and not tokens.is_mark("}"):
            self.statement(inner, cell, pins)
        if not tokens.is_mark("}"):
            tokens.fail()
        tokens.take()
        if inner == "cell":
            self.finish(cell)

    def attribute(self, around, cell, pins, name, value):
        if around == "cell":
            if name == "area":
                try:
                    cell.area = float(value)
                except ValueError:
                    cell.mark("area")
            elif name in ("dont_use", "dont_touch") and value != "false":
                cell.barred = True
        elif around == "ff":
            self.of_flop(cell, name, value)
        elif around == "pin":
            for pin in pins:
                self.of_pin(cell, pin, name, value)

    def of_flop(self, cell, name, value):
        if name in FLOP:
            cell.flop.functions[name] = self.function(cell, value)
        elif name.startswith("clear_preset_var"):
            cell.flop.forced[name[-1]] = value
        elif name in ("clocked_on_also", "power_down_function"):
            cell.mark(name)

    def of_pin(self, cell, pin, name, value):
        if name == "direction" and value == "input":
            cell.inputs.append(pin)
        elif name == "direction" and value == "output":
            cell.outputs.setdefault(pin, None)
        elif name == "direction":
            cell.mark(value)
        elif name == "function":
            cell.outputs[pin] = self.function(cell, value)
        elif name == "three_state":
            cell.mark("three_state")

    def function(self, cell, text):
        try:
            return FunctionReader(text).whole()
        except NoFunction:
            cell.mark("function")
            return ("const", 0)

    def finish(self, cell):
        """Marks a cell whose functions read what is no input and no state, or whose flip-flop isn't whole."""
        states = cell.flop.states if cell.flop else []
        known = set(cell.inputs) | set(states)
        functions = [function for function in cell.outputs.values() if function]
        if cell.flop:
            functions += cell.flop.functions.values()
            if not {"next_state", "clocked_on"} <= cell.flop.functions.keys():
                cell.mark("ff")
            if {"clear", "preset"} <= cell.flop.functions.keys() and self.shows_both(cell):
                cell.mark("clear_preset_var2")
        if any(names_of(function) - known for function in functions):
            cell.mark("function")

    def shows_both(self, cell):
        """Whether an output reads the complement of the state where it needn't be one: with clear and preset both."""
        first, second = cell.flop.forced.get("1"), cell.flop.forced.get("2")
        reads = any(function and cell.flop.states[1] in names_of(function) for function in cell.outputs.values())
        return reads and (first, second) not in (("L", "H"), ("H", "L"))

    def cell(self, kind, side, instance):
        """The cell of an instance; refused if there is none or if it isn't read."""
        cell = self.cells.get(kind)
        if cell is None or cell.unread:
            raise Refused("refused %s cell %s %s %s" % (side, kind, cell.unread if cell else "unknown", instance))
        return cell


def text_of(function):
    """A function in Liberty's form."""
    if function[0] in ("pin", "const"):
        return str(function[1])
    if function[0] == "not":
        return "!" + text_of(function[1])
    mark = {"and": " ", "or": "+", "xor": "^"}[function[0]]
    return "(%s)" % mark.join(map(text_of, function[1]))


def main():
    words = argparse.ArgumentParser(description=__doc__, formatter_class=argparse.RawDescriptionHelpFormatter)
    words.add_argument("library")
    try:
        for cell in Library(words.parse_args().library).cells.values():
            outputs = ["%s=%s" % (pin, text_of(function)) for pin, function in cell.outputs.items() if function]
            said = ["not read: " + cell.unread] if cell.unread else outputs
            print(" ".join([cell.name, "%g" % cell.area if cell.area is not None else "-", *said]))
    except FAULTS as wrong:
        ended("liberty", wrong)


if __name__ == "__main__":
    main()
