#!/usr/bin/env python3
"""Counts answers of `eco locate` again, by brute force and apart from its code: tries every input, and both values of every net.

    tools/relocate.py --random COUNT [--seed N] [--program ECO]

Draws small netlists, a changed one of each, and for some a cared netlist, asks the program (`tools/eco.sh`, if none is named by --program
or ECO) which net to cut, and looks: `equal` is printed exactly if no cared input is wrong; the listed nets are those that gates drive
and that some value mends at each input, with the figures of their cones and readers, in order; each printed input is wrong, and
excludes as many nets that none before it excludes as is told, all of them together the rest; and the written netlist is the old
one with the first listed net cut.
"""
import argparse
import itertools
import os
import random
import re
import subprocess
import sys
import tempfile

import recount

sys.path.append(os.path.join(os.path.dirname(os.path.realpath(__file__)), "..", "bench"))
import lib


def changed(draw, gates):
    """The gates, up to four of them of another kind."""
    gates = [[kind, out, list(terms)] for kind, out, terms in gates]
    for gate in draw.sample(gates, min(len(gates), draw.randint(1, 4))):
        single = gate[0] in ("buf", "not")
        gate[0] = draw.choice([kind for kind in recount.KINDS if (kind in ("buf", "not")) == single and kind != gate[0]])
    return gates


def drawn(draw):
    """The texts of an old netlist, of a new one, and perhaps of a cared one. Outputs are gates that others may read."""
    inputs = ["i%d" % place for place in range(draw.randint(1, 6))]
    names, gates = recount.drawn_gates(draw, inputs, 14)
    ports = draw.sample([out for _, out, _ in gates], draw.randint(1, min(5, len(gates))))
    texts = {name: text_of(inputs, ports, list_) for name, list_ in (("impl", gates), ("spec", changed(draw, gates)))}
    if draw.random() < 0.3:
        cared, more = recount.drawn_gates(draw, inputs, 4)
        texts["care"] = recount.written(inputs, [("c", draw.choice(cared))], more)
    return texts


def text_of(inputs, ports, gates):
    lines = ["module m (%s);" % ", ".join(inputs + ports)] + ["input %s;" % name for name in inputs] + ["output %s;" % name for name in ports]
    return "\n".join(lines + ["%s (%s);" % (kind, ", ".join([out] + terms)) for kind, out, terms in gates] + ["endmodule"]) + "\n"


class Change:
    def __init__(self, texts):
        self.old, self.new = recount.Netlist(texts["impl"]), recount.Netlist(texts["spec"])
        self.care = recount.Netlist(texts["care"]) if "care" in texts else None
        self.drivers = {out: terms for _, out, terms in self.old.gates}
        self.inputs = list(itertools.product([False, True], repeat=len(self.old.inputs)))
        self.wrong = [x for x in self.inputs if self.is_cared(x) and not self.is_right(x, {})]

    def given(self, x):
        return dict(zip(self.old.inputs, x))

    def is_cared(self, x):
        return self.care is None or self.care.values(self.given(x))[self.care.outputs[0]]

    def is_right(self, x, fixed):
        """Whether the outputs are right at x if these nets have these values whatever their gates give."""
        values = dict(self.given(x))
        for kind, out, terms in self.old.order:
            bits = [term == "1'b1" if term.startswith("1'b") else values[term] for term in terms]
            values[out] = fixed.get(out, bool(recount.KINDS[kind](bits)))
        right = self.new.values(self.given(x))
        return all(values[name] == right[name] for name in self.old.outputs)

    def excludes(self, x, net):
        return not any(self.is_right(x, {net: bit}) for bit in (False, True))

    def choices(self):
        return [net for net in self.drivers if not any(self.excludes(x, net) for x in self.wrong)]

    def cone(self, net):
        met, waiting = set(), [net]
        while waiting:
            here = waiting.pop()
            if here in self.drivers and here not in met:
                met.add(here)
                waiting += self.drivers[here]
        return len(met)

    def readers(self, net):
        return sum(net in terms for terms in self.drivers.values()) + self.old.outputs.count(net)

    def cut(self, net):
        """The lists of the netlist with the net cut: its wires, and its gates."""
        read = lambda name: "t_0" if name == net else name
        is_port = net in self.old.outputs
        prefix = "old_"
        while any(name.startswith(prefix) for name in self.old.ports + self.old.wires):
            prefix += "_"
        kept = prefix + net if is_port else net
        gates = [(kind, kept if out == net else out, [read(term) for term in terms]) for kind, out, terms in self.old.gates]
        return self.old.wires + ["t_0"] + [kept] * is_port, gates + [("buf", net, ["t_0"])] * is_port


def recounted(change, answer, cut_text):
    """The exit status that the answer has to have, if it holds."""
    lines = [line.split(" ") for line in answer.splitlines()]
    if not change.wrong:
        recount.require(answer == "equal\n" and cut_text is None, "nothing is wrong, and it says: " + answer)
        return 0
    choices = sorted(change.choices(), key=lambda net: (change.cone(net), net.encode()))
    recount.require(lines[:2] == [["located"], ["single", str(len(choices))]], "the number of choices")
    told = [["net", net, str(change.cone(net)), str(change.readers(net))] for net in choices]
    recount.require(lines[2:2 + len(choices)] == told, "the choices: %s, not %s" % (lines[2:2 + len(choices)], told))
    left = {net for net in change.drivers if net not in choices}
    recount.require(lines[2 + len(choices)] == ["excluded", str(len(left))], "the number of excluded nets")
    for word, bits, count in lines[3 + len(choices):]:
        x = recount.bits_of(bits)
        recount.require(word == "input" and tuple(x) in change.wrong, "an input that isn't wrong")
        gone = {net for net in left if change.excludes(x, net)}
        recount.require(gone and len(gone) == int(count), "how many nets an input excludes")
        left -= gone
    recount.require(not left, "a net that nothing excludes: %s" % left)
    if not choices:
        recount.require(cut_text is None, "a file where no net can be cut")
        return 1
    made = recount.Netlist(cut_text)
    wires, gates = change.cut(choices[0])
    recount.require((made.ports, made.inputs, made.outputs) == (change.old.ports, change.old.inputs, change.old.outputs), "the ports")
    recount.require((made.wires, made.gates) == (wires, gates), "the netlist that is cut: %s, not %s" % ((made.wires, made.gates), (wires, gates)))
    return 0


def try_drawn(seed, folder, program):
    """The exit status of an answer that holds, and the number of printed inputs."""
    texts = drawn(random.Random(seed))
    words = program + ["locate", "--cut", os.path.join(folder, "cut.v")]
    for name, text in texts.items():
        path = os.path.join(folder, name + ".v")
        with open(path, "w") as file:
            file.write(text)
        words += ["--" + name, path]
    path = os.path.join(folder, "cut.v")
    if os.path.exists(path):
        os.remove(path)
    answer = subprocess.run(words, stdout=subprocess.PIPE, text=True)
    cut_text = open(path).read() if os.path.exists(path) else None
    status = recounted(Change(texts), answer.stdout, cut_text)
    recount.require(answer.returncode == status, "status %d: %s" % (answer.returncode, answer.stdout))
    return ("equal" if answer.stdout == "equal\n" else status), answer.stdout.count("\ninput ")


def main():
    words = argparse.ArgumentParser(description=__doc__, formatter_class=argparse.RawDescriptionHelpFormatter)
    words.add_argument("--random", type=int, required=True)
    words.add_argument("--seed", type=int, default=0)
    words.add_argument("--program", default=lib.eco())
    told = words.parse_args()
    found = []
    with tempfile.TemporaryDirectory() as folder:
        for seed in range(told.seed, told.seed + told.random):
            try:
                found.append(try_drawn(seed, folder, [told.program]))
            except recount.Wrong as wrong:
                sys.exit("relocate: seed %d: %s" % (seed, wrong))
    kinds = [kind for kind, _ in found]
    print("relocate: %d answers hold: %d cut a net, %d exclude all, %d equal; at most %d inputs are printed"
          % (len(found), kinds.count(0), kinds.count(1), kinds.count("equal"), max(inputs for _, inputs in found)))


if __name__ == "__main__":
    main()
