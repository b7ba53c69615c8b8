#!/usr/bin/env python3
"""Which net to cut? Looks for nets of a netlist from which wrong outputs can be mended. An aid outside the proof: it may miss nets, and
only what `eco synth` answers about the nets that it names is proved.

    tools/which_net.py IMPLEMENTATION SPECIFICATION [--words N] [--seed N] [--list N] [--only REGEX]
                       [--confirm N [--weight FILE] [--seconds N]]

IMPLEMENTATION is the old netlist with no net cut, SPECIFICATION the revised one with the same ports (as `eco synth` reads both; the
specification not in AIGER). Both are simulated at N words (64) of 64 random inputs, a third of which are mostly 0 and a third mostly 1.
An output that differs somewhere is wrong. Then each net is flipped where outputs differ: it mends an output where the flip makes it right at
every input at which it is wrong. It mends some outputs together where they never want the flip at an input at which one of them, or
an output that is never wrong, forbids it. The nets that mend most outputs together are listed, those nearest to the outputs first; where
no net mends all, a cut has to take one net from each of several groups, but for those groups that come right by the others. The last line
says which to cut first.

`--confirm N` then asks `eco synth` (ECO=path, or tools/eco.sh) for a patch of the first N choices, and prints net, answer, cost and
gates; an input that no patch can mend joins the simulated ones, and the choices are sought again. Weights are those of FILE, or else 1 for
each net without a `%` in its name. `--only` looks only at nets whose name has this form.
"""
import argparse
import heapq
import itertools
import math
import os
import random
import re
import subprocess
import sys
import tempfile

from gates import gates_of, simulate, text_of, value

sys.path.append(os.path.join(os.path.dirname(os.path.realpath(__file__)), "..", "bench"))
import lib


class Patterns:
    """The inputs at which both netlists are simulated: for each input port a word of all its bits."""
    def __init__(self, inputs, count, seed):
        draw = random.Random(seed)
        self.columns = {name: 0 for name in inputs}
        self.count = 64 * count
        for name in inputs:
            words = [draw.getrandbits(64) for _ in range(count)]
            words = [word if place % 3 == 0 else self.biased(draw, place % 3 == 2) for place, word in enumerate(words)]
            for word in words:
                self.columns[name] = self.columns[name] << 64 | word

    def biased(self, draw, high):
        word = draw.getrandbits(64) & draw.getrandbits(64) & draw.getrandbits(64)
        return word ^ (2 ** 64 - 1) if high else word

    def add(self, inputs, bits):
        for name, bit in zip(inputs, bits):
            self.columns[name] = self.columns[name] << 1 | int(bit)
        self.count += 1


class Simulated:
    def __init__(self, netlist, patterns):
        self.netlist, self.mask = netlist, 2 ** patterns.count - 1
        self.values = dict(patterns.columns)
        self.values.update({"1'b0": 0, "1'b1": self.mask})
        simulate(netlist.gates, self.values, self.mask)
        self.readers, self.place = {}, {}
        for place, (_, out, terms) in enumerate(netlist.gates):
            self.place[out] = place
            for term in terms:
                self.readers.setdefault(term, []).append(place)

    def flipped(self, net):
        """The values of all nets that change somewhere when the net is flipped everywhere."""
        changed = {net: self.values[net] ^ self.mask}
        heap = list(set(self.readers.get(net, [])))
        heapq.heapify(heap)
        last = -1
        while heap:
            place = heapq.heappop(heap)
            if place == last:
                continue
            last = place
            kind, out, terms = self.netlist.gates[place]
            new = value(kind, [changed.get(term, self.values[term]) for term in terms], self.mask)
            if new != self.values[out]:
                changed[out] = new
                for reader in self.readers.get(out, []):
                    heapq.heappush(heap, reader)
        return changed


def mended(old, wrong, net, outputs):
    """The outputs that a net mends together; `wrong` has the places at which each output differs."""
    changed = old.flipped(net)
    wants, forbids = {}, {}
    for output in changed.keys() & outputs:
        moved = changed[output] ^ old.values[output]
        differs = wrong.get(output, 0)
        forbids[output] = moved & ~differs
        if differs and not differs & ~moved:
            wants[output] = differs
    while wants:
        wanted = forbidden = 0
        for output in wants:
            wanted |= wants[output]
        for output, places in forbids.items():
            if output in wants or output not in wrong:
                forbidden |= places
        clash = wanted & forbidden
        if not clash:
            break
        wants = {output: places for output, places in wants.items() if not places & clash}
    return frozenset(wants)


class Choices:
    """What simulation tells: the wrong outputs with the places at which they differ, and for each greatest group of outputs that one net
    mends, the nets that do, those nearest to the outputs first."""
    def __init__(self, implementation, specification, patterns, is_allowed):
        self.implementation = implementation
        self.old, self.new = Simulated(implementation, patterns), Simulated(specification, patterns)
        wrong = {name: self.old.values[name] ^ self.new.values[name] for name in implementation.outputs}
        self.wrong = {name: places for name, places in wrong.items() if places}
        groups, outputs, leading = {}, set(implementation.outputs), set(self.wrong)
        for _, net, terms in reversed(implementation.gates):
            if net not in leading:
                continue
            leading.update(terms)
            if not is_allowed(net):
                continue
            group = mended(self.old, self.wrong, net, outputs)
            if group:
                groups.setdefault(group, []).append(net)
        self.groups = {group: nets for group, nets in groups.items() if not any(group < other for other in groups)}

    def mend_all(self, lists):
        """Whether all outputs are right where the first net of each list is flipped where an output of its group is wrong."""
        flips = {}
        for group, nets in lists.items():
            for output in group:
                flips[nets[0]] = flips.get(nets[0], 0) | self.wrong[output]
        values = dict(self.old.values)
        for kind, out, terms in self.implementation.gates:
            values[out] = value(kind, [values[term] for term in terms], self.old.mask) ^ flips.get(out, 0)
        return all(values[name] == self.new.values[name] for name in self.implementation.outputs)

    def needed(self, chosen):
        """The lists of nets of these groups, without the groups that come right by the others' nets, as a flag that is made of outputs."""
        lists = {group: self.groups[group] for group in chosen}
        for group in sorted(chosen, key=len):
            others = {other: [net for net in nets if group & self.old.flipped(net).keys()]
                      for other, nets in lists.items() if other != group}
            if others and all(others.values()) and self.mend_all(others):
                lists = others
        return list(lists.values())

    def covers(self):
        """Groups that have every wrong output, the fewest first, each told by its nets: any of up to three groups, or else a greedy choice."""
        order = sorted(self.groups, key=len, reverse=True)
        for count in range(1, 4 if len(order) <= 64 else 2):
            found = [chosen for chosen in itertools.combinations(order, count) if frozenset().union(*chosen) >= set(self.wrong)]
            if found:
                return [self.needed(chosen) for chosen in found]
        chosen, left = [], set(self.wrong)
        while left:
            group = max(order, key=lambda group: len(left & group), default=frozenset())
            if not left & group:
                return []
            chosen.append(group)
            left -= group
        return [self.needed(chosen)]

    def cuts(self):
        """Tuples of nets to cut, those nearest to the outputs first; of several groups the first nets alone, as many as can be tried."""
        for lists in self.covers():
            most = 20000
            while most > 1 and math.prod(min(len(nets), most) for nets in lists) > 20000:
                most = most // 2
            places = itertools.product(*(range(min(len(nets), most)) for nets in lists))
            for place in sorted(places, key=sum):
                yield tuple(nets[index] for nets, index in zip(lists, place))


def allowed(told):
    """Which nets may be cut by these words."""
    return lambda net: net[0] != "=" and "%" not in net and not (told.only and not told.only.fullmatch(net))


def with_cuts(netlist, cuts):
    """The text of the netlist whose nets are cut, `cuts` from nets to targets."""
    cut = lambda name: cuts.get(name, name)
    gates = [(kind, out, list(map(cut, terms))) for kind, out, terms in netlist.gates if out not in cuts]
    gates += [("buf", name, [cuts[name]]) for name in netlist.outputs if name in cuts]
    return text_of(netlist.title, netlist.ports, netlist.directions, gates)


def answer(told, implementation, nets):
    """What `eco synth` says where these nets are cut: its words by line."""
    with tempfile.TemporaryDirectory() as folder:
        path = lambda name: os.path.join(folder, name)
        with open(path("f.v"), "w") as file:
            file.write(with_cuts(implementation, {net: "t_%d" % place for place, net in enumerate(nets)}))
        with open(path("w.txt"), "w") as file:
            file.writelines("%s 1\n" % out for _, out, _ in implementation.gates if "%" not in out and out[0] != "=")
        files = {"--impl": path("f.v"), "--spec": told.specification, "--weight": told.weight or path("w.txt")}
        words = lib.synth(lib.eco(), files, folder)
        try:
            done = subprocess.run(words, stdout=subprocess.PIPE, text=True, timeout=told.seconds)
        except subprocess.TimeoutExpired:
            return [["no answer in %d seconds" % told.seconds]]
    return [line.split(" ") for line in done.stdout.splitlines()] or [["status", str(done.returncode)]]


def row_of(lines):
    numbers = {line[0]: line[1] for line in lines if line[0] in ("cost", "gates")}
    said = lines[0][0] if lines[0][0] in ("patched", "unrectifiable") else " ".join(lines[0])
    return [said, numbers.get("cost", "-"), numbers.get("gates", "-")]


def confirmed(told, implementation, specification, patterns):
    """Asks about choices, and prints a row for each."""
    tried, rows = set(), 0
    print("| net | answer | cost | gates |\n|---|---|---|---|", flush=True)
    while rows < told.confirm:
        choices = Choices(implementation, specification, patterns, allowed(told))
        nets = next((nets for nets in choices.cuts() if nets not in tried), None)
        if nets is None:
            break
        tried.add(nets)
        lines = answer(told, implementation, nets)
        print("| %s |" % " | ".join([" ".join(nets)] + row_of(lines)), flush=True)
        rows += 1
        if lines[0][0] == "unrectifiable":
            patterns.add(implementation.inputs, lines[1][1] if len(lines[1]) > 1 else "")
    if not rows:
        print("which_net: no choice is left")


def main():
    words = argparse.ArgumentParser(description=__doc__.split("\n")[0])
    words.add_argument("implementation")
    words.add_argument("specification")
    words.add_argument("--words", type=int, default=64)
    words.add_argument("--seed", type=int, default=0)
    words.add_argument("--list", type=int, default=10)
    words.add_argument("--only", type=re.compile)
    words.add_argument("--confirm", type=int)
    words.add_argument("--weight")
    words.add_argument("--seconds", type=int, default=600)
    told = words.parse_args()
    implementation, specification = gates_of(told.implementation), gates_of(told.specification)
    for one, other in (("inputs", "outputs"), ("outputs", "inputs")):
        if sorted(getattr(implementation, one)) != sorted(getattr(specification, one)):
            sys.exit("which_net: the two netlists have other " + one)
    if implementation.targets:
        sys.exit("which_net: the implementation has a target already")
    patterns = Patterns(implementation.inputs, told.words, told.seed)
    choices = Choices(implementation, specification, patterns, allowed(told))
    wrong, groups = choices.wrong, choices.groups
    print("%d inputs tried; wrong outputs: %s" % (patterns.count, " ".join(wrong) or "none"))
    for group, nets in sorted(groups.items(), key=lambda item: -len(item[0])):
        print("mended by one net: %s" % ("all" if len(group) == len(wrong) else " ".join(name for name in wrong if name in group)))
        print("    %d nets: %s%s" % (len(nets), " ".join(nets[:told.list]), " .." if len(nets) > told.list else ""))
    first = next(choices.cuts(), None) if wrong else None
    if not wrong:
        print("nothing to mend: simulate more with --words")
    elif first is None:
        print("these nets don't mend all: cut outputs, or look without --only")
    else:
        print("cut: " + " ".join("%s=t_%d" % (net, place) for place, net in enumerate(first)))
        if told.confirm:
            confirmed(told, implementation, specification, patterns)


if __name__ == "__main__":
    main()
