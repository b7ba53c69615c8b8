#!/usr/bin/env python3
"""Counts an answer of `eco synth` again, by brute force and apart from its code: tries every input, every set of signals.

    tools/recount.py --impl F --spec G --weight W [--care C] --patch P --out O --report R [--input-weight N]
    tools/recount.py --random COUNT [--bound] [--least EFFORT] [--seed N] [--program ECO]
    tools/recount.py --try [--seed N]

R is the file of what `eco synth` printed; a specification in AIGER isn't read. The first form ends with status 0 where the answer holds: of each target the
base is the greedy one, each pair shows that its signal is needed, the patched netlist is the implementation with the patch
in it and has the specification's outputs at every cared input, or no values of the targets are right at the printed input.
Where the report tells what a base costs at least, each part's inputs force the target as told, no candidate carries more than
it weighs, the total is the sum, each part uses a candidate up, those that are used up suffice, and no set of candidates that
suffices is cheaper: the least one is found by trying.
Where it tells of each target what it costs at least, no set of candidates that suffices beside the signals of the earlier targets
costs less, which is found by trying all of them where there are at most twelve; the bases needn't be the greedy ones then, but a
single target's costs no more.

The second form draws small problems of one to four targets, some with a cared netlist, answers each with the program
(`tools/eco.sh`, if none is named by --program or ECO), and counts the answers again. At most some twelve inputs. With --bound the program is
asked for the bound too; each third problem may have several targets, and then it has to be refused. With --least it is asked with
this effort for bases of least cost.
The third form tries the counting of bounds and least costs on some that are made here, right and wrong; it runs no program.
"""
import argparse
import collections
import itertools
import os
import random
import re
import subprocess
import sys
import tempfile

from gates import Gates

sys.path.append(os.path.join(os.path.dirname(os.path.realpath(__file__)), "..", "bench"))
import lib

KINDS = {
    "and": lambda bits: all(bits), "nand": lambda bits: not all(bits),
    "or": lambda bits: any(bits), "nor": lambda bits: not any(bits),
    "xor": lambda bits: sum(bits) % 2 == 1, "xnor": lambda bits: sum(bits) % 2 == 0,
    "buf": lambda bits: bits[0], "not": lambda bits: not bits[0],
}


class Wrong(Exception):
    """The answer doesn't hold."""


def require(holds, message):
    if not holds:
        raise Wrong(message)


class Netlist:
    def __init__(self, text):
        require(not text.startswith("aag "), "a specification in AIGER isn't read here")
        try:
            read = Gates(text)
        except ValueError as wrong:
            raise Wrong(str(wrong))
        self.title, self.ports, self.directions = read.title, read.ports, read.directions
        self.inputs, self.outputs, self.driven = read.inputs, read.outputs, set()
        # nets inside an assignment are named as eco names them
        inner = "asg_"
        while any(word.startswith(inner) for kind, word in read.words if kind != "mark"):
            inner += "_"
        named = lambda name: inner + name[1:] if name[0] == "=" else name
        plain = lambda gates: [(kind, named(out), [named(term) for term in terms]) for kind, out, terms in gates]
        self.gates, self.order = plain(read.listed), plain(read.gates)
        self.driven = {out for _, out, _ in self.gates}
        mentioned = dict.fromkeys(name for _, out, terms in self.gates for name in [out] + terms if not name.startswith("1'b"))
        declared = [name for name in read.wires if name not in self.ports]
        self.wires = [name for name in declared if name in mentioned or re.fullmatch(r"t_(0|[1-9]\d{0,8})", name)]
        self.wires += [name for name in mentioned if name not in self.ports and name not in declared]
        free = [n for n in self.ports + self.wires if n not in self.driven and n not in self.inputs]
        self.targets = sorted(free, key=lambda name: int(name[2:]) if re.fullmatch(r"t_\d+", name) else 0)

    def values(self, given):
        values = dict(given)
        for kind, out, terms in self.order:
            values[out] = bool(KINDS[kind]([t == "1'b1" if t.startswith("1'b") else values[t] for t in terms]))
        return values

    def fan_out(self, sources):
        reached = set(sources)
        for kind, out, terms in self.order:
            if reached & set(terms):
                reached.add(out)
        return reached

    def lists(self):
        return self.title, self.ports, self.inputs, self.outputs, self.wires, self.gates


def bits_text(bits):
    return "".join("1" if bit else "0" for bit in bits)


def weights_of(text):
    lines = [line.rstrip("\r").split() for line in text.split("\n")]
    return {re.sub(r"^\\", "", line[0]): int(line[1]) for line in lines if line}


class Problem:
    def __init__(self, implementation, specification, weights, input_weight, care=None):
        self.f, self.g = Netlist(implementation), Netlist(specification)
        self.care = Netlist(care) if care else None
        lines = weights_of(weights)
        self.weight = {name: lines.get(name, input_weight) for name in self.f.inputs}
        self.weight.update((name, lines[name]) for name in self.f.driven if name in lines)
        self.all_inputs = list(itertools.product([False, True], repeat=len(self.f.inputs)))

    def given(self, x):
        return dict(zip(self.f.inputs, x))

    def candidates(self, place):
        """What the function of the target at this place may read: signals with a weight that lie behind earlier targets alone."""
        barred = self.f.fan_out(self.f.targets[place:])
        return [name for name in self.weight if name not in barred]

    def is_cared(self, x):
        return self.care is None or self.care.values(self.given(x))[self.care.outputs[0]]

    def is_right(self, x, targets):
        if not self.is_cared(x):
            return True
        left = self.f.values({**self.given(x), **dict(zip(self.f.targets, targets))})
        right = self.g.values(self.given(x))
        return all(left[name] == right[name] for name in self.f.outputs)

    def earlier(self, patch, place, x):
        """The values at x of the targets before this place, whose functions the patch has."""
        values = []
        for target in self.f.targets[:place]:
            given = dict(zip(self.f.targets, values + [False] * len(self.f.targets)))
            signals = self.f.values({**self.given(x), **given})
            values.append(patch.values({name: signals[name] for name in patch.inputs})[target])
        return values

    def is_wrong(self, x):
        return not any(self.is_right(x, bits) for bits in itertools.product([False, True], repeat=len(self.f.targets)))

    def forced(self, patch, place, x, bit):
        """Whether, with the patch's functions for the earlier targets, x forces the target at this place to the bit."""
        earlier = self.earlier(patch, place, x)
        later = itertools.product([False, True], repeat=len(self.f.targets) - place - 1)
        return not any(self.is_right(x, earlier + [not bit] + list(rest)) for rest in later)

    def all_signals(self, patch, place, x):
        """All values at x that don't turn on the targets from this place on."""
        targets = self.earlier(patch, place, x) + [False] * len(self.f.targets)
        return self.f.values({**self.given(x), **dict(zip(self.f.targets, targets))})

    def unpaid(self, place, paid):
        return [name for name in self.candidates(place) if name not in paid]

    def greedy(self, place, ones, zeros, paid):
        """The greedy base where these are the signals at the inputs that force the target to 1 and to 0."""
        turns = sorted(self.unpaid(place, paid), key=lambda name: (self.weight[name], name.encode()), reverse=True)
        kept = []
        for turn, name in enumerate(turns):
            left = list(paid) + kept + turns[turn + 1:]
            if {values_of(v, left) for v in ones} & {values_of(v, left) for v in zeros}:
                kept.append(name)
        return kept


    def least_cost(self, place, ones, zeros, paid):
        """The least weight of candidates that suffice there beside the paid signals."""
        names = self.unpaid(place, paid)
        rows = [{(values_of(v, paid), values_of(v, names)) for v in side} for side in (ones, zeros)]
        sets = {frozenset(name for name, a, b in zip(names, one[1], zero[1]) if a != b)
                for one, zero in itertools.product(*rows) if one[0] == zero[0]}
        require(frozenset() not in sets, "no signals suffice")
        least = least_weight(self.weight, sets)
        require(len(names) > MOST_TRIED or least == least_by_trying(self.weight, names, sets), "the least cost")
        return least


# of so many candidates all sets are tried
MOST_TRIED = 12


def values_of(values, names):
    return tuple(values[name] for name in names)


# what a base costs at least, as a report tells it: the total, and the parts with an amount and two inputs each
Bound = collections.namedtuple("Bound", "total parts")
Part = collections.namedtuple("Part", "amount one zero")


def bits_of(text):
    return tuple(bit == "1" for bit in text)


def bound_of(lines):
    """The bound that lines of a report tell."""
    word, total, count = lines[0].split(" ")
    require(word == "bound" and len(lines) == 1 + 3 * int(count), "the lines of the bound")
    parts = []
    for place in range(1, len(lines), 3):
        words = [line.split(" ") for line in lines[place:place + 3]]
        require([pair[0] for pair in words] == ["amount", "force1", "force0"], "the words of a part")
        parts.append(Part(int(words[0][1]), bits_of(words[1][1]), bits_of(words[2][1])))
    return Bound(int(total), parts)


class SingleTarget:
    """What decides which signals suffice for a single target: the inputs that force it, and the candidates' values there."""
    def __init__(self, problem):
        self.weight, self.names = problem.weight, problem.candidates(0)
        rows = [{x: values_of(problem.all_signals(None, 0, x), self.names)
                 for x in problem.all_inputs if problem.forced(None, 0, x, bit)} for bit in (False, True)]
        self.zeros, self.ones = rows
        pairs = itertools.product(set(self.ones.values()), set(self.zeros.values()))
        self.told_apart = {self.unlike(one, zero) for one, zero in pairs}

    def unlike(self, one, zero):
        """The candidates that have other values in the one row than in the other."""
        return frozenset(name for name, a, b in zip(self.names, one, zero) if a != b)

    def suffice(self, names):
        return all(apart & set(names) for apart in self.told_apart)

    def least_cost(self):
        """The least weight of candidates that suffice."""
        return least_weight(self.weight, self.told_apart)


def least_weight(weight, sets):
    """The least weight of names of which each set has one."""
    least = [s for s in sets if not any(other < s for other in sets)]
    best = [sum(weight[name] for name in set().union(*least))]

    def search(left, cost, barred):
        if cost >= best[0] and left or cost > best[0]:
            return
        if not left:
            best[0] = cost
            return
        for name in sorted(min(left, key=len) - barred):
            search([s for s in left if name not in s], cost + weight[name], barred)
            barred = barred | {name}

    search(least, 0, frozenset())
    return best[0]


def least_by_trying(weight, names, sets):
    """The same, of all sets of the names."""
    lists = itertools.chain(*(itertools.combinations(names, count) for count in range(len(names) + 1)))
    return min(sum(weight[name] for name in tried) for tried in lists if all(s & set(tried) for s in sets))


def recount_bound(problem, bound):
    """How much less the bound is than the least cost of candidates that suffice."""
    require(len(problem.f.targets) == 1, "a bound of several targets")
    single = SingleTarget(problem)
    load = dict.fromkeys(single.names, 0)
    for amount, one, zero in bound.parts:
        require(amount >= 1, "an amount of nothing")
        require(one in single.ones, "force1 of a part: " + bits_text(one))
        require(zero in single.zeros, "force0 of a part: " + bits_text(zero))
        apart = single.unlike(single.ones[one], single.zeros[zero])
        for name in apart:
            load[name] += amount
        require(all(load[name] <= single.weight[name] for name in apart), "a candidate carries more than it weighs")
        require(any(load[name] == single.weight[name] for name in apart), "a part could be greater")
    require(bound.total == sum(part.amount for part in bound.parts), "the total")
    require(single.suffice([name for name in single.names if load[name] == single.weight[name]]), "a part could be added")
    least = single.least_cost()
    require(bound.total <= least, "candidates of the weight %d suffice" % least)
    return least - bound.total


# a signal that a report tells, and a target with its signals
Signal = collections.namedtuple("Signal", "name weight one zero")
Group = collections.namedtuple("Group", "target base")


def fields_of(line, word, count):
    fields = line.split(" ")
    require(fields[0] == word and len(fields) == 1 + count, "a line in place of one of %s: %s" % (word, line))
    return fields[1:]


def groups_of(lines, count):
    """The groups of so many targets, and the lines behind them."""
    groups, place = [], 0
    for _ in range(count):
        require(place < len(lines), "no more lines")
        target, size = fields_of(lines[place], "target", 2)
        end = place + 1 + 3 * int(size)
        require(end <= len(lines), "no more lines")
        base = [Signal(*fields_of(lines[at], "base", 2), *fields_of(lines[at + 1], "force1", 1), *fields_of(lines[at + 2], "force0", 1))
                for at in range(place + 1, end, 3)]
        groups.append(Group(target, base))
        place = end
    return groups, lines[place:]


def recount_least(problem, groups, lines, costs):
    """The costs of the targets less what they cost at least, by these lines and, found by trying, in truth."""
    require(len(lines) == len(groups), "a line of least cost for each target")
    gaps = []
    for group, line, least in zip(groups, lines, costs):
        target, told = fields_of(line, "least", 2)
        require(target == group.target, "the target of a least cost: " + line)
        require(int(told) <= least, "candidates of the weight %d suffice for %s" % (least, target))
        cost = sum(int(signal.weight) for signal in group.base)
        gaps.append((cost - int(told), cost - least))
    return gaps


def recount(problem, patch_text, out_text, report):
    """Of each target how much more it costs than it costs at least, by the report and in truth, where the report tells that."""
    lines = report.split("\n")
    require(lines.pop() == "", "the report's last line has no end")
    if lines[0] == "unrectifiable":
        bits = lines[1].split(" ")[1]
        require(lines == ["unrectifiable", "input " + bits], "the lines")
        require(problem.is_wrong([bit == "1" for bit in bits]), "the input isn't wrong")
        return []
    f, patch, out = problem.f, Netlist(patch_text), Netlist(out_text)
    cost, paid, costs = 0, [], []
    groups, behind = groups_of(lines[3:], len(f.targets))
    told = [line for line in behind if line.startswith("least ")]
    require(behind[len(behind) - len(told):] == told, "a line behind a least cost")
    for place, (target, group) in enumerate(zip(f.targets, groups)):
        forced = [[x for x in problem.all_inputs if problem.forced(patch, place, x, bit)] for bit in (False, True)]
        signals = {x: problem.all_signals(patch, place, x) for xs in forced for x in xs}
        zeros, ones = [[signals[x] for x in xs] for xs in forced]
        base = [signal.name for signal in group.base]
        require(group.target == target, "the target " + target)
        greedy = problem.greedy(place, ones, zeros, paid)
        if told:
            require(len(set(base)) == len(base) and set(base) <= set(problem.unpaid(place, paid)), "the base of " + target)
            weights = [sum(problem.weight[name] for name in names) for names in (base, greedy)]
            require(len(groups) > 1 or weights[0] <= weights[1], "a base that costs more than the greedy choice")
            costs.append(problem.least_cost(place, ones, zeros, paid))
        else:
            require(base == greedy, "the base, for %s: %s" % (target, greedy))
        for name, weight, one, zero in group.base:
            cost += problem.weight[name]
            others = [other for other in paid + base if other != name]
            require(weight == str(problem.weight[name]), "the weight of " + name)
            require(one in map(bits_text, forced[1]), "force1 of " + name)
            require(zero in map(bits_text, forced[0]), "force0 of " + name)
            x, y = bits_of(one), bits_of(zero)
            require(values_of(signals[x], others) == values_of(signals[y], others), "the pair of " + name)
        paid += base
    behind = behind[:len(behind) - len(told)]
    require(not behind or behind[0].startswith("bound "), "a line too many")
    if behind:
        recount_bound(problem, bound_of(behind))
    gaps = recount_least(problem, groups, told, costs) if told else []
    require(lines[:3] == ["patched", "cost %d" % cost, "gates %d" % len(patch.gates)], "cost or gates")
    require(patch.ports == f.targets + paid and patch.outputs == f.targets and not patch.targets, "the patch's ports")
    require(set(paid) <= {term for _, _, terms in patch.gates for term in terms}, "an input that the patch doesn't read")
    require(not set(patch.wires) & set(f.ports + f.wires), "a wire of the patch that is a name of the implementation")
    spliced = f.title, f.ports, f.inputs, f.outputs, f.wires + patch.wires, f.gates + patch.gates
    require(out.lists() == spliced, "the patched netlist isn't the implementation with the patch")
    for x in filter(problem.is_cared, problem.all_inputs):
        left, right = out.values(problem.given(x)), problem.g.values(problem.given(x))
        require(all(left[name] == right[name] for name in f.outputs), "the outputs at " + bits_text(x))
    return gaps


def drawn_gates(draw, inputs, most):
    names, gates = list(inputs), []
    for number in range(draw.randint(1, most)):
        kind = draw.choice(list(KINDS))
        count = 1 if kind in ("buf", "not") else draw.randint(1, 3)
        terms = [draw.choice(names + ["1'b0", "1'b1"]) for _ in range(count)]
        gates.append([kind, "g%d" % number, terms])
        names.append("g%d" % number)
    return names, gates


def drawn_netlists(draw, inputs, most_targets):
    """An implementation with one target or more in place of gates of a specification, and perhaps another gate changed, the
    specification, and the names of the signals."""
    names, gates = drawn_gates(draw, inputs, 10)
    outputs = [("o%d" % place, draw.choice(names)) for place in range(draw.randint(1, 3))]
    cut = draw.sample(range(len(gates)), min(len(gates), draw.randint(1, most_targets)))
    target = {gates[place][1]: "t_%d" % number for number, place in enumerate(cut)}
    other = [[kind, out, [target.get(term, term) for term in terms]]
             for place, (kind, out, terms) in enumerate(gates) if place not in cut]
    other_outputs = [(port, target.get(net, net)) for port, net in outputs]
    if other and draw.random() < 0.5:
        changed = draw.choice(other)
        changed[0] = draw.choice([k for k in KINDS if (k in ("buf", "not")) == (changed[0] in ("buf", "not"))])
    if all("t_0" not in terms for _, _, terms in other) and all(net != "t_0" for _, net in other_outputs):
        other_outputs[0] = (other_outputs[0][0], "t_0")
    return written(inputs, other_outputs, other), written(inputs, outputs, gates), names


def drawn(draw, most_targets=4):
    """The texts of a problem: implementation, specification, weights, and perhaps a cared netlist."""
    inputs = ["i%d" % place for place in range(draw.randint(0, 5))]
    implementation, specification, names = drawn_netlists(draw, inputs, most_targets)
    weights = "".join("%s %d\n" % (name, draw.choice([0, 1, 1, 2, 5])) for name in names + ["zz"] if draw.random() < 0.7)
    texts = {"impl": implementation, "spec": specification, "weight": weights}
    if draw.random() < 0.4:
        cared, gates = drawn_gates(draw, inputs, 4)
        texts["care"] = written(inputs, [("c", draw.choice(cared))], gates)
    return texts


def written(inputs, outputs, gates):
    ports = inputs + [port for port, _ in outputs]
    lines = ["module m (%s);" % ", ".join(ports)] + ["input %s;" % name for name in inputs]
    lines += ["output %s;" % port for port, _ in outputs]
    lines += ["%s (%s);" % (kind, ", ".join([out] + terms)) for kind, out, terms in gates]
    lines += ["buf (%s, %s);" % pair for pair in outputs] + ["endmodule"]
    return "\n".join(lines) + "\n"


def problem_of(texts):
    return Problem(texts["impl"], texts["spec"], texts["weight"], 1, texts.get("care"))


def try_drawn(seed, folder, program, with_bound, effort):
    """The exit status, and what is said of the targets' least costs."""
    texts = drawn(random.Random(seed), 1 if with_bound and seed % 3 else 4)
    files = {"--" + name: os.path.join(folder, name) for name in texts}
    for name, text in texts.items():
        with open(files["--" + name], "w") as file:
            file.write(text)
    more = ["--bound"] * with_bound + (["--least", str(effort)] if effort else [])
    answer = subprocess.run(lib.synth(program, files, folder, *more), stdout=subprocess.PIPE, text=True)
    problem = problem_of(texts)
    if with_bound and len(problem.f.targets) > 1:
        refusal = "refused impl boundtargets %d\n" % len(problem.f.targets)
        require((answer.returncode, answer.stdout) == (3, refusal), "no refusal: %s" % answer.stdout)
        return 3, []
    require(answer.returncode in (0, 1), "status %d: %s" % (answer.returncode, answer.stdout))
    words = {line.split(" ")[0] for line in answer.stdout.split("\n")}
    require(("bound" in words) == (with_bound and answer.returncode == 0), "whether a bound is told")
    require(("least" in words) == (effort is not None and answer.returncode == 0), "whether least costs are told")
    made = [open(os.path.join(folder, file)).read() if answer.returncode == 0 else "" for file in lib.WRITTEN]
    return answer.returncode, recount(problem, made[0], made[1], answer.stdout)


# ---- bounds that are made here

IMPLEMENTATION = "module m (a, b, c, y);\ninput a;\ninput b;\ninput c;\noutput y;\n%sendmodule\n"
BY_HAND = {"impl": IMPLEMENTATION % "buf (y, t_0);\n", "spec": IMPLEMENTATION % "and (y, a, b);\n",
           "weight": "a 3\nb 5\n"}
PATCH = "module patch (t_0, b, a);\ninput b;\ninput a;\noutput t_0;\nand (t_0, b, a);\nendmodule\n"
OUT = IMPLEMENTATION % "buf (y, t_0);\nand (t_0, b, a);\n"
REPORT = """patched
cost 8
gates 1
target t_0 2
base b 5
force1 110
force0 100
base a 3
force1 110
force0 010
"""
# at 000 the target has to be 0, at two ones 1, and nothing else matters: any two of the inputs suffice, no single one does
TRIANGLE = {"impl": IMPLEMENTATION % "buf (y, t_0);\n", "spec": IMPLEMENTATION % "or (y, a, b, c);\n", "weight": "",
            "care": IMPLEMENTATION % "xnor (y, a, b, c);\n"}


# the gate w suffices by itself, and costs less than both inputs together
SHORT_CUT = {"impl": IMPLEMENTATION % "xor (w, a, b);\nbuf (y, t_0);\n", "spec": IMPLEMENTATION % "xor (y, a, b);\n",
             "weight": "a 3\nb 3\nw 4\n"}
PATCH_OF_W = "module patch (t_0, w);\ninput w;\noutput t_0;\nbuf (t_0, w);\nendmodule\n"
OUT_OF_W = IMPLEMENTATION % "xor (w, a, b);\nbuf (y, t_0);\nbuf (t_0, w);\n"
REPORT_OF_W = "patched\ncost 4\ngates 1\ntarget t_0 1\nbase w 4\nforce1 100\nforce0 000\n"


def bound_text(bound):
    lines = ["bound %d %d" % (bound.total, len(bound.parts))]
    for amount, one, zero in bound.parts:
        lines += ["amount %d" % amount, "force1 " + bits_text(one), "force0 " + bits_text(zero)]
    return "".join(line + "\n" for line in lines)


def bound_made(single):
    """Parts, one after another, each as great as it may be, until the candidates that are used up suffice."""
    left, parts = dict((name, single.weight[name]) for name in single.names), []
    for one, zero in itertools.product(single.ones, single.zeros):
        amount = min(left[name] for name in single.unlike(single.ones[one], single.zeros[zero]))
        if amount:
            parts.append(Part(amount, one, zero))
            for name in single.unlike(single.ones[one], single.zeros[zero]):
                left[name] -= amount
    return Bound(sum(part.amount for part in parts), parts)


def wrong_bounds(bound):
    """Bounds that are near to one that holds, and don't."""
    yield "total", Bound(bound.total + 1, bound.parts)
    for place, part in enumerate(bound.parts):
        def changed(parts):
            parts = bound.parts[:place] + parts + bound.parts[place + 1:]
            return Bound(sum(other.amount for other in parts), parts)
        yield "more", changed([part._replace(amount=part.amount + 1)])
        yield "less", changed([part._replace(amount=part.amount - 1)])
        yield "swapped", changed([Part(part.amount, part.zero, part.one)])
        yield "twice", changed([part, part])
    if bound.parts:
        yield "cut", Bound(bound.total - bound.parts[-1].amount, bound.parts[:-1])


def is_refused(call):
    try:
        call()
    except Wrong:
        return True
    return False


def try_by_hand():
    problem = problem_of(BY_HAND)
    parts = [Part(3, bits_of("110"), bits_of("010")), Part(5, bits_of("110"), bits_of("100"))]
    text = bound_text(Bound(8, parts))
    recount(problem, PATCH, OUT, REPORT)
    recount(problem, PATCH, OUT, REPORT + text)
    require(recount_bound(problem, Bound(8, parts)) == 0, "the bound by hand")
    require(recount_bound(problem_of(TRIANGLE), bound_made(SingleTarget(problem_of(TRIANGLE)))) == 1, "the triangle")
    for old, new in (("bound 8 2", "bound 8 3"), ("bound 8 2", "bound 7 2"), ("amount 3", "amount 2"),
                     ("amount 5", "amount 6"), ("amount", "amounts"), ("force0 010", "force0 111"),
                     ("force1 110\nforce0 010", "force1 010\nforce0 110")):
        wrong = text.replace(old, new)
        require(wrong != text and is_refused(lambda: recount(problem, PATCH, OUT, REPORT + wrong)), old + " as " + new)
    require(is_refused(lambda: recount(problem, PATCH, OUT, REPORT + text + "amount 1\n")), "a line behind the bound")
    for lines, gap in (("least t_0 8\n", 0), ("least t_0 7\n", 1), (text + "least t_0 8\n", 0)):
        require(recount(problem, PATCH, OUT, REPORT + lines) == [(gap, 0)], lines)
    for wrong in ("least t_0 9\n", "least t_1 8\n", "least t_0 8\nleast t_0 8\n", "least t_0\n", "least t_0 8\n" + text):
        require(is_refused(lambda: recount(problem, PATCH, OUT, REPORT + wrong)), wrong)
    cut = problem_of(SHORT_CUT)
    require(is_refused(lambda: recount(cut, PATCH_OF_W, OUT_OF_W, REPORT_OF_W)), "no greedy choice")
    require(recount(cut, PATCH_OF_W, OUT_OF_W, REPORT_OF_W + "least t_0 4\n") == [(0, 0)], "the short cut")
    require(is_refused(lambda: recount(cut, PATCH_OF_W, OUT_OF_W, REPORT_OF_W + "least t_0 5\n")), "more than the short cut")


def try_bounds(seed, count=300):
    """Tries the counting of bounds on some that are made here."""
    try_by_hand()
    tried, wrong, apart, place = 0, 0, 0, seed
    while tried < count:
        problem, place = problem_of(drawn(random.Random(place), 1)), place + 1
        if any(problem.is_wrong(x) for x in problem.all_inputs):
            continue
        single = SingleTarget(problem)
        bound = bound_made(single)
        require(bound_of(bound_text(bound).split("\n")[:-1]) == bound, "the text of a bound")
        apart += recount_bound(problem, bound) > 0
        if len(single.names) <= 10:
            least = least_by_trying(single.weight, single.names, single.told_apart)
            require(single.least_cost() == least, "the least cost, seed %d" % (place - 1))
        for kind, other in wrong_bounds(bound):
            require(is_refused(lambda: recount_bound(problem, other)), "%s is accepted, seed %d" % (kind, place - 1))
            wrong += 1
        tried += 1
    print("recount: %d bounds hold, %d of them below the least cost; %d wrong ones are refused" % (tried, apart, wrong))


def main():
    words = argparse.ArgumentParser(description=__doc__.split("\n")[0])
    for name in ("impl", "spec", "weight", "care", "patch", "out", "report"):
        words.add_argument("--" + name)
    words.add_argument("--input-weight", type=int, default=1)
    words.add_argument("--random", type=int)
    words.add_argument("--bound", action="store_true")
    words.add_argument("--least", type=int)
    words.add_argument("--try", dest="tries", action="store_true")
    words.add_argument("--seed", type=int, default=0)
    words.add_argument("--program", default=lib.eco())
    told = words.parse_args()
    if told.tries:
        try_bounds(told.seed)
        return
    if told.random is None:
        if None in (told.impl, told.spec, told.weight, told.report):
            words.error("--impl, --spec, --weight and --report are wanted, or --random, or --try")
        read = lambda path: open(path).read() if path else ""
        # where no patch can help there is none
        made = lambda path: read(path) if path and os.path.exists(path) else ""
        try:
            problem = Problem(read(told.impl), read(told.spec), read(told.weight), told.input_weight, read(told.care))
            recount(problem, made(told.patch), made(told.out), read(told.report))
        except Wrong as wrong:
            sys.exit("recount: " + str(wrong))
        except (OSError, ValueError, IndexError, KeyError) as wrong:
            sys.exit("recount: a file can't be read, or isn't in its form: %s" % wrong)
        return
    statuses, gaps = [], []
    with tempfile.TemporaryDirectory() as folder:
        for seed in range(told.seed, told.seed + told.random):
            try:
                status, more = try_drawn(seed, folder, told.program, told.bound, told.least)
            except Wrong as wrong:
                sys.exit("recount: seed %d: %s" % (seed, wrong))
            statuses.append(status)
            gaps += more
    print("recount: %d answers hold, %d of them patches%s" % (len(statuses), statuses.count(0), also_told(told, statuses, gaps)))


def also_told(told, statuses, gaps):
    """What else is said of the answers: refusals of a bound, and of how many targets the cost is the least."""
    text = ", %d refusals of a bound" % statuses.count(3) if told.bound else ""
    if told.least:
        shown, true = [sum(gap[side] == 0 for gap in gaps) for side in (0, 1)]
        text += ", %d targets of %d cost least, %d by the lines" % (true, len(gaps), shown)
    return text


if __name__ == "__main__":
    main()
