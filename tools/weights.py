#!/usr/bin/env python3
"""Gives each net of an implementation a weight, so that nobody writes a thousand lines by hand. Prints eco's weight file.

    tools/weights.py f.v [--by distance|fanout|one] [--near NET].. [--slack FILE [--least-slack X]] [--times N] [--inputs N] [--most N]
                     [--skip REGEX] > weights.txt

f.v is the implementation with its targets, of which `eco synth` is to be asked. The weights, each at least 1 and at most N (1000):

  --by distance   how many gates lie between the net and the nearest target, by any way through the netlist, and one more (the default);
                  `--near NET` adds a place from which distance is counted, as the nets that the removed driver read: where the targets
                  drive outputs alone, no net is near without it, and the script says so
  --by fanout     how many gates read the net, and one more: a net with much to drive costs more
  --by one        1
  --times N       N times as much; `--inputs N` gives each input N instead, so that inputs can be dearer or cheaper than what gates drive
  --slack FILE    lines `name slack`, a decimal number, perhaps with a sign. The weight by the above is multiplied by 1 to 10: by 1 where
                  the slack is the greatest in the file, by 10 where it is the least. A net without a line, or with less than
                  `--least-slack`, gets no weight: a patch doesn't read it (an input may always be read; it gets the greatest weight)

A net that isn't in the netlist of cells (its name has a `%`, but for `%q` and `%old`; see tools/from_cells.py) gets none, nor does a port
that only repeats a `%q`, nor a net whose name has the form of `--skip`. Inputs get weights in the same way.
"""
import argparse
import collections
import re
import sys

from gates import gates_of


def distances(netlist, starts):
    """How many gates lie between each net and the nearest of some."""
    beside = collections.defaultdict(list)
    for gate in netlist.gates:
        for name in [gate[1]] + gate[2]:
            if not name.startswith("1'b"):
                beside[name].append(gate)
    found, queue = dict.fromkeys(starts, 0), collections.deque(starts)
    while queue:
        name = queue.popleft()
        for _, out, terms in beside[name]:
            for other in [out] + terms:
                if other not in found:
                    found[other] = found[name] + 1
                    queue.append(other)
    return found


def fan_outs(netlist):
    return collections.Counter(term for _, _, terms in netlist.gates for term in set(terms))


def slacks_of(path):
    slacks = {}
    with open(path) as file:
        for number, line in enumerate(file, 1):
            words = line.split()
            if words:
                try:
                    slacks[re.sub(r"^\\", "", words[0])] = float(words[1])
                except (IndexError, ValueError):
                    raise SystemExit("weights: %s: line %d is no name and a slack" % (path, number))
    if not slacks:
        raise SystemExit("weights: %s has no slack" % path)
    return slacks


def slack_factor(slacks, least, name):
    """From 1 to 10; None where the net may not be read."""
    slack = slacks.get(name, slacks.get(re.sub(r"%q$", "", name)))
    if slack is None or least is not None and slack < least:
        return None
    low, high = min(slacks.values()), max(slacks.values())
    return 1 if high == low else 1 + 9 * (high - slack) / (high - low)


def main():
    words = argparse.ArgumentParser(description=__doc__.split("\n")[0])
    words.add_argument("implementation")
    words.add_argument("--by", choices=["distance", "fanout", "one"], default="distance")
    words.add_argument("--near", action="append", default=[])
    words.add_argument("--slack")
    words.add_argument("--least-slack", type=float)
    words.add_argument("--times", type=int, default=1)
    words.add_argument("--inputs", type=int)
    words.add_argument("--most", type=int, default=1000)
    words.add_argument("--skip", type=re.compile)
    told = words.parse_args()
    netlist = gates_of(told.implementation)
    far = distances(netlist, netlist.targets + told.near)
    if told.by == "distance" and not far.keys() & {*netlist.inputs, *netlist.driven} - {out for out in netlist.outputs}:
        print("weights: no net is near the targets: they drive outputs alone; name some by --near, or weigh in another way", file=sys.stderr)
    loads = fan_outs(netlist)
    measure = {"distance": lambda name: far.get(name, told.most), "fanout": lambda name: loads[name], "one": lambda name: 0}[told.by]
    try:
        slacks = slacks_of(told.slack) if told.slack else None
    except (OSError, UnicodeDecodeError) as wrong:
        raise SystemExit("weights: %s: %s" % (told.slack, wrong))
    outs = [out for kind, out, terms in netlist.gates if kind != "buf" or terms[0] != out + "%q"]
    for name in netlist.inputs + outs:
        is_input = name in netlist.inputs
        inner = name[0] == "=" or "%" in name and not name.endswith(("%q", "%old"))
        if inner or told.skip and told.skip.fullmatch(name) and not is_input:
            continue
        factor = slack_factor(slacks, told.least_slack, name) if slacks else 1
        if factor is None and not is_input:
            continue
        weight = told.most if factor is None else round((1 + measure(name)) * factor * told.times)
        if is_input and told.inputs is not None:
            weight = told.inputs
        print("%s %d" % (name, max(1, min(told.most, weight))))


if __name__ == "__main__":
    main()
