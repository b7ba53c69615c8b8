#!/usr/bin/env python3
"""From two netlists of library cells to a patch in cells that is proved; tools/fix_cells.sh calls it.

    tools/fix_cells.sh LIB OLD NEW FOLDER [--match FILE] [--match-buses] [--add] [--care FILE] [--cells FILE] [--yosys]

  --match FILE     lines `old-name new-name` of flip-flops, by the nets that they drive or by their instances
  --match-buses    takes `n_3_` for `n[3]`
  --add            flip-flops of NEW alone are taken over, and those of OLD alone stay as they are
  --care FILE      a netlist in the form that eco reads, whose one output is 1 for the inputs that matter; its inputs are ports and
                   flip-flops, as tools/from_cells.py names them
  --cells FILE     lines `cell weight` that go before the areas
  --yosys          compares result.v with NEW by Yosys too

Both netlists are cut open at their flip-flops. `eco locate` names the nets, pins and ports each of which can be cut alone; of these the
first by cone, those nearest to the outputs and some between are tried, and the patch is taken whose cells add the least area. If no single
one suffices, or if the question takes too long, places are chosen by simulation: for each group of wrong outputs one that mends them, up
to sixteen that lead to one output. Places that lead to no output in common are patched one after the other, each on the outputs that it
leads to; a later patch may read the gates of those before it. `eco audit` checks each patch. In the end result.v is read anew, and
`eco prove` compares it with NEW: the answer rests on that. An input at which the two differ joins the simulated ones, and all begins again.
"""
import argparse
import collections
import os
import resource
import subprocess
import sys
import time

from cell_netlist import CONSTANTS
from cover import Cells, weights_of
from cut_open import Cuts, matched, opened
from gates import Circuit, gates_of
from liberty import Library
from names import FAULTS, Refused, ended, natural
from to_cells import Result
from weights import distances
from which_net import Choices, Patterns

# the processor's seconds for a question of each kind, how many places are tried, rounds with new inputs, words of 64 random inputs
LOCATE, SYNTH, PROVE = 60, 25, 100
TRIES, ROUNDS, WORDS, MOST_TARGETS = 8, 8, 64, 16
# how many nets a patch may read, and the weight of one that is far away
NEAR, FAR = 1500, 1000

# the processor's seconds after which no more places are tried once there is a patch
ENOUGH = 45

Tried = collections.namedtuple("Tried", "names cuts gates reports result grown")


class Stopped(Exception):
    """There is no answer: the status and the words that say why."""


def processor():
    """The processor's seconds of this script and of what it ran."""
    return sum(usage.ru_utime + usage.ru_stime for usage in map(resource.getrusage, (resource.RUSAGE_SELF, resource.RUSAGE_CHILDREN)))


def yosys_says(told, steps, problem):
    """What Yosys finds of the result beside the new netlist: `equal`, or `not shown`, also if its induction doesn't get so far. Flip-flops match by the names of their nets; the names
    of other nets, which may have other values, are hidden."""
    pins = {(cell.name, pin) for design in (problem.old, problem.new) for flop in design.flops.values() for cell in [flop.cell] for pin in cell.outputs}
    kept = ["%s/t:%s %%x1:+[%s]" % (problem.old.netlist.title, *pair) for pair in sorted(pins)]
    states = " ".join(kept) + " %u" * (len(kept) - 1) + " %d" * bool(kept)
    read = ("read_liberty -ignore_miss_func {lib}; read_verilog {path}; hierarchy -check -top {top}; rename -hide {top}/w:* {states}; flatten; "
            "async2sync; opt_clean; rename {top} {name}; ")
    words = {"lib": told.library, "top": problem.old.netlist.title, "states": states}
    script = [read.format(path=steps.path("result.v"), name="gate", **words), "design -stash gate; ", read.format(path=told.new, name="gold", **words),
              "design -copy-from gate gate; equiv_make gold gate equiv; hierarchy -top equiv; clean -purge; equiv_simple; equiv_induct; "
              "equiv_status -assert"]
    with open(steps.path("yosys.txt"), "w") as file:
        done = steps.timed("yosys", lambda: subprocess.run(["yosys", "-q", "-p", "".join(script)], stdout=file, stderr=subprocess.STDOUT))
    return "equal" if done.returncode == 0 else "not shown"


class Steps:
    """Runs the program, keeps what it reads and prints, and counts the seconds of each kind of step."""
    def __init__(self, folder):
        self.folder, self.seconds, self.files = folder, collections.OrderedDict(), 0
        self.eco = os.environ.get("ECO") or os.path.join(os.path.dirname(os.path.realpath(__file__)), "eco.sh")

    def path(self, name):
        return name if name.startswith(self.folder) else os.path.join(self.folder, name)

    def write(self, name, text):
        with open(self.path(name), "w", encoding="latin-1") as file:
            file.write(text)
        return self.path(name)

    def timed(self, step, action, *arguments):
        start = time.monotonic()
        try:
            return action(*arguments)
        finally:
            self.seconds[step] = self.seconds.get(step, 0) + time.monotonic() - start

    def ask(self, step, out, seconds, words):
        """The status of the command, or None if it took more of the processor's seconds, and the lines that it printed, as words."""
        def limited():
            resource.setrlimit(resource.RLIMIT_CPU, (seconds, seconds))

        with open(self.path(out), "w") as file:
            done = self.timed(step, lambda: subprocess.run([self.eco, *words], stdout=file, stderr=subprocess.DEVNULL, preexec_fn=limited))
        status = done.returncode if done.returncode >= 0 else None
        with open(self.path(out), encoding="latin-1") as file:
            return status, [line.split(" ") for line in file.read().splitlines()]


class Problem:
    """The two netlists as gates, the inputs at which they are simulated, and what may be cut."""
    def __init__(self, told, steps):
        self.told, self.steps = told, steps
        self.library = Library(told.library)
        self.old, self.new = opened(self.library, told.old, "impl"), opened(self.library, told.new, "spec")
        matched(self.old, self.new, told.match, told.match_buses, told.add)
        self.cells = Cells(self.library, weights_of(told.cells) if told.cells else None)
        self.buffers, self.ports = self.old.pin_buffers(), self.old.ports_apart()
        self.spec = self.new.circuit()
        self.loose = self.old.circuit(None, self.buffers, self.ports)
        # the pins of each buffer: one, or all that read a state or an input
        self.places = {name: [place] for place, name in self.buffers.items()}
        self.places.update((net + "%readers", places) for net, places in self.old.joint(self.buffers).items())
        # the pins of flip-flops that are taken over are targets in any case, and tell of no other place
        self.forced = [place for added in self.old.added for place in added.places()]
        aside = {port for added in self.old.added for port in self.loose.outputs if port.startswith(added.net + "%")}
        self.asked = [port for port in self.loose.outputs if port not in aside]
        self.inputs = sorted(set(self.loose.inputs) | set(self.spec.inputs), key=natural)
        self.loose, self.spec = self.with_inputs(self.loose), self.with_inputs(self.spec)
        self.patterns = Patterns(self.inputs, WORDS, 0)
        self.care = self.cared() if told.care else None

    def with_inputs(self, circuit):
        """The netlist with the inputs of both, which are in one order then."""
        return Circuit(circuit.title, self.inputs, circuit.outputs, circuit.listed)

    def cared(self):
        """The cared netlist over all inputs."""
        read = gates_of(self.told.care)
        unknown = sorted(set(read.inputs) - set(self.inputs))
        if unknown or len(read.outputs) != 1:
            raise Refused("refused care ports " + " ".join(unknown) if unknown else "refused care outputs %d" % len(read.outputs))
        return Circuit(read.title, self.inputs, read.outputs, read.listed)

    def care_words(self):
        return ["--care", self.steps.write("care.v", self.care.text())] if self.care else []

    def with_care(self, circuit):
        """The netlist whose outputs are 0 at inputs that don't matter."""
        if self.care is None:
            return circuit
        inner = {out: out + "%care" for _, out, _ in self.care.listed if out not in self.inputs}
        name = lambda word: inner.get(word, word)
        gates = [(kind, name(out), list(map(name, terms))) for kind, out, terms in self.care.listed]
        behind = {port: port + "%all" for port in circuit.outputs}
        rest = [(kind, behind.get(out, out), [behind.get(term, term) for term in terms]) for kind, out, terms in circuit.listed]
        masked = [("and", port, [behind[port], name(self.care.outputs[0])]) for port in circuit.outputs]
        return Circuit(circuit.title, circuit.inputs, circuit.outputs, gates + rest + masked)

    def cut_of(self, names):
        """The cuts of these names of the loose netlist, and of what is cut in any case."""
        cuts = Cuts()
        for number, name in enumerate(names):
            target = "t_%d" % number
            if name in self.places:
                cuts.pins.update(dict.fromkeys(self.places[name], target))
            elif name in self.old.is_output and (name in self.ports or self.old.netlist.root(name) != name):
                cuts.ports[name] = target
            else:
                cuts.nets[name[:-4] if name.endswith("%net") else name] = target
        return cuts

    def can_cut(self, name):
        """Whether a name of the loose netlist is a place that can be cut."""
        if name in self.places or name in self.old.is_output:
            return True
        net = name[:-4] if name.endswith("%net") else name
        return "%" not in net and net not in self.old.flops and net not in self.old.inputs


class Patcher:
    """Asks for patches of chosen places."""
    def __init__(self, problem):
        self.problem, self.steps, self.calls, self.count, self.asked = problem, problem.steps, 0, 0, {}

    def patch(self, names):
        """The patch for these places and those that are cut in any case, or None; an input that shows that there is none is kept."""
        problem = self.problem
        cuts = problem.cut_of(names)
        for place in problem.forced:
            cuts.pins[place] = "t_%d" % len(cuts.targets())
        circuit = problem.with_inputs(problem.old.circuit(cuts))
        behind = targets_behind(circuit, cuts.targets())
        gates, reports = [], []
        for targets, outputs in components(circuit, behind, cuts.targets()):
            if len(targets) > MOST_TARGETS:
                return None
            if outputs:
                starts = near(problem.old, circuit, cuts.only(targets))
                found = self.known(Part(problem, circuit, targets, outputs, gates, behind, starts))
                if found is None:
                    return None
                gates += found[0]
                reports.append(found[1])
            else:
                gates += [("buf", target, ["1'b0"]) for target in targets]
        return self.tried(names, cuts, gates, reports)

    def tried(self, names, cuts, gates, reports):
        try:
            result = self.steps.timed("cells", Result, self.problem.old, self.problem.cells, gates, cuts)
        except Refused:
            return None
        area = self.problem.cells.area
        grown = sum(area(cell) for _, cell in result.made) - sum(area(cell) for _, cell in result.gone)
        return Tried(names, cuts, gates, reports, result, grown)

    def known(self, part):
        """What `part` says, which is asked only once about the same files."""
        key = part.circuit.text(), tuple(part.weights.items()), frozenset(part.outputs)
        if key not in self.asked:
            self.asked[key] = self.part(part)
        found = self.asked[key]
        return found and (self.renamed(found[0], part), (part.back, found[1]))

    def part(self, part):
        """The gates of a patch of some targets and its report."""
        steps, problem = self.steps, self.problem
        self.calls += 1
        path = lambda name: steps.path("part%d.%s" % (self.calls, name))
        files = ["--impl", steps.write(path("f.v"), part.circuit.text()), "--spec", steps.write(path("g.v"), problem.spec.only(part.outputs).text()),
                 "--weight", steps.write(path("weights.txt"), "".join("%s %d\n" % pair for pair in part.weights.items())), *problem.care_words(),
                 "--patch", path("patch.v"), "--out", path("patched.v")]
        status, lines = steps.ask("synth", path("report.txt"), SYNTH, ["synth", "--least", "1", *files])
        if status == 1 and lines and lines[0][0] == "unrectifiable":
            problem.patterns.add(problem.inputs, lines[1][1])
        if status != 0:
            return None
        status, said = steps.ask("audit", path("audit.txt"), PROVE, ["audit", *files, "--report", path("report.txt")])
        if status != 0:
            raise Stopped(1, "audit: %s (%s)" % (" ".join(said[0] if said else ["no answer"]), path("audit.txt")))
        return gates_of(path("patch.v")).gates, lines

    def renamed(self, gates, part):
        """The gates of a patch with the targets' own names, and wires that no other patch has; each target is driven by such a wire."""
        self.count += 1
        wires = {out: "%s%%%d%%patch" % (out, self.count) for _, out, _ in gates}
        name = lambda word: wires.get(word, word)
        made = [(kind, name(out), list(map(name, terms))) for kind, out, terms in gates]
        return made + [("buf", target, [wires[number]]) for number, target in part.back.items()]


def targets_behind(circuit, targets):
    """For each net that depends on targets, which these are."""
    behind = {target: frozenset([target]) for target in targets}
    for _, out, terms in circuit.gates:
        found = [behind[term] for term in terms if term in behind]
        if found:
            behind[out] = found[0].union(*found[1:])
    return behind


def components(circuit, behind, targets):
    """The targets in groups that lead to no output in common, each with its outputs."""
    groups = [({target}, set()) for target in targets]
    for port in circuit.outputs:
        leading = behind.get(port, frozenset())
        joined = [group for group in groups if group[0] & leading]
        if joined:
            groups = [group for group in groups if group not in joined]
            groups.append((set().union(*(group[0] for group in joined)), {port}.union(*(group[1] for group in joined))))
    found = [(sorted(group, key=natural), outputs) for group, outputs in groups]
    return sorted(found, key=lambda group: (len(group[1]), natural(group[0][0])))


def near(old, circuit, cuts):
    """Where distance counts from: what the removed drivers read, and what the cells of cut pins and the cut ports read."""
    terms_of = {out: terms for _, out, terms in circuit.gates}
    starts = [net + "%old" for net in cuts.nets]
    for net in list(starts):
        starts += terms_of.get(net, [])
    for name, _ in cuts.pins:
        instance = old.instances().get(name)
        pins = old.netlist.cell_of(instance).inputs if instance else []
        starts += [old.net(instance.pins[pin], cuts)[1] for pin in pins]
    starts += [old.name(port) for port in cuts.ports]
    return [name for name in starts if name in terms_of or name in circuit.directions]


class Part:
    """The problem of some targets: the outputs to which they lead, weights, and the gates that these and the outputs need."""
    def __init__(self, problem, circuit, targets, outputs, earlier, behind, starts):
        self.outputs, self.old = outputs, problem.old
        numbers = {target: "t_%d" % number for number, target in enumerate(targets)}
        self.back = {number: target for target, number in numbers.items()}
        others = {target: "1'b0" for target in behind if target in set(circuit.targets) and target not in numbers}
        rename = lambda name: numbers.get(name, others.get(name, name))
        listed = [(kind, out, list(map(rename, terms))) for kind, out, terms in circuit.listed]
        listed += [gate for gate in earlier if gate[1].endswith("%patch")]
        whole = Circuit(circuit.title, circuit.inputs, circuit.outputs, listed)
        self.weigh(whole, [name for name in starts if name not in others] + list(self.back), behind)
        kept = whole.needed_by({*outputs, *self.weights})
        self.circuit = Circuit(whole.title, whole.inputs, [port for port in whole.outputs if port in outputs], [gate for gate in listed if gate[1] in kept])

    def weigh(self, whole, starts, behind):
        """A weight by distance for the nearest nets that are in the netlist of cells and behind no target, and for all inputs."""
        far = distances(whole, starts)
        readable = [name for name in far if name in whole.driven and name not in behind and self.is_net(name)]
        nearest = sorted(readable, key=lambda name: (far[name], name))[:NEAR]
        self.weights = {name: min(FAR, 1 + far.get(name, FAR)) for name in nearest + whole.inputs}
        self.weights.update((added.state, 1) for added in self.old.added)

    def is_net(self, name):
        return "%" not in name or name.endswith(("%old", "%net", "%patch"))


class Fixer:
    """Goes from the problem to the result."""
    def __init__(self, told, steps):
        self.told, self.steps = told, steps
        self.problem = steps.timed("read", Problem, told, steps)
        self.patcher = Patcher(self.problem)
        self.start = processor()

    def locate(self):
        """What can be cut alone, as `eco locate` says: names, none, or None if it has no answer; and whether nothing is wrong."""
        problem, steps = self.problem, self.steps
        files = ["--impl", steps.write("old_gates.v", problem.loose.only(problem.asked).text()),
                 "--spec", steps.write("new_gates.v", problem.spec.only(problem.asked).text()), *problem.care_words()]
        status, lines = steps.ask("locate", "located.txt", LOCATE, ["locate", *files, "--cut", steps.path("located.v")])
        if status not in (0, 1, 4, None):
            raise Stopped(status, "locate: " + " ".join(lines[0] if lines else ["no answer"]))
        for line in lines:
            if line[0] == "input":
                problem.patterns.add(problem.inputs, line[1])
        names = [line[1] for line in lines if line[0] == "net" and problem.can_cut(line[1])]
        return names if status in (0, 1) else None, bool(lines) and lines[0][0] == "equal"

    def patch(self):
        """The best patch of those that are tried; None if nothing has to be changed."""
        located, is_equal = self.locate()
        if is_equal:
            return self.best([()]) if self.problem.forced else None
        found = self.best([(name,) for name in tried_of(located)]) if located else None
        return found or self.several()

    def best(self, tuples):
        """Of the patches for these places the one that adds the least area, and of those the one with the fewest cells."""
        found = None
        for names in tuples:
            if found and (found.grown <= 0 or processor() - self.start > ENOUGH):
                break
            tried = self.patcher.patch(names)
            if tried and (found is None or (tried.grown, len(tried.result.made)) < (found.grown, len(found.result.made))):
                found = tried
        return found

    def several(self):
        """The best patch for places that simulation chooses; each input that shows a choice to be wrong leads to new choices."""
        problem, seen = self.problem, set()
        for _ in range(ROUNDS):
            parts = problem.loose.only(problem.asked), problem.spec.only(problem.asked)
            choices = self.steps.timed("choose", Choices, *parts, problem.patterns, problem.can_cut)
            tuples = [names for names in spread(choices) if names not in seen]
            known = problem.patterns.count
            for place, names in enumerate(tuples):
                seen.add(names)
                found = self.patcher.patch(names)
                if found:
                    others = self.best([tuple(names) for names in tuples[place + 1:]])
                    return min([found] + [others] * (others is not None), key=lambda tried: tried.grown)
                if problem.patterns.count > known or processor() - self.start > 2 * ENOUGH:
                    break
            if not tuples or processor() - self.start > 2 * ENOUGH:
                break
        raise Stopped(1, "no places were found that can be patched (docs/CELLS.md says what to do)")

    def proved(self, tried):
        """Whether the result, read anew, is equal to the new netlist; an input at which it differs is kept."""
        problem, steps = self.problem, self.steps
        path = steps.write("result.v", tried.result.text)
        result, new = opened(problem.library, path, "result"), opened(problem.library, self.told.new, "spec")
        matched(result, new, self.told.match, self.told.match_buses, self.told.add, self.pairs(tried))
        sides = [problem.with_care(Circuit("top", problem.inputs, circuit.outputs, circuit.listed)) for circuit in (result.circuit(), new.circuit())]
        files = [word for side, circuit in zip(("left", "right"), sides) for word in ("--" + side, steps.write(side + ".v", circuit.text()))]
        status, lines = steps.ask("prove", "equal.txt", PROVE, ["prove", *files, "--cnf", steps.path("equal.cnf"), "--trace", steps.path("equal.trace")])
        if status == 0:
            return True
        if lines and lines[0][0] == "differs":
            problem.patterns.add(problem.inputs, lines[0][1])
            return False
        raise Stopped(4 if status is None else status, "prove: " + (" ".join(lines[0]) if lines else "no answer in %d seconds" % PROVE))

    def pairs(self, tried):
        """The names of flip-flops that the patch added or moved to another net, and those of their partners."""
        new_of = {flop.net: net for net, flop in self.problem.new.shown.items()}
        pairs = [(tried.result.states[added.state], added.net) for added in self.problem.old.added]
        return pairs + [(moved, new_of[port]) for port, moved in tried.result.behind.items() if port in self.problem.old.flops and port in new_of]

    def run(self):
        for _ in range(ROUNDS):
            tried = self.patch()
            if tried is None:
                return None
            if self.steps.timed("read", self.proved, tried):
                return tried
            self.patch = self.several
        raise Stopped(1, "prove: the result differs (equal.txt)")


def tried_of(names):
    """Those of a list that are tried: from both ends and from between."""
    count = len(names)
    places = [0, count - 1, 1, count - 2] + [count * part // 5 for part in (1, 2, 3, 4)]
    return [names[place] for place in dict.fromkeys(place for place in places if 0 <= place < count)]


def spread(choices):
    """Tuples of places: in each group those nearest to the outputs, those furthest, and between; then others."""
    found = []
    for lists in choices.covers():
        for share in (0, 1, 0.5, 0.25, 0.75):
            found.append(tuple(nets[round((len(nets) - 1) * share)] for nets in lists))
    found += [names for _, names in zip(range(TRIES), choices.cuts())]
    return list(dict.fromkeys(found))[:2 * TRIES]


# ---- what is printed

def write_report(tried, steps):
    """Writes the reports of all parts as one, and the patch as one module."""
    head, rest, numbers = {"cost": 0, "gates": 0}, [], {}
    for back, lines in tried.reports:
        for line in lines[1:]:
            if line[0] in head:
                head[line[0]] += int(line[1])
            elif line[0] == "target":
                rest.append(["target", back[line[1]], line[2]])
            elif line[0] == "base":
                rest.append(line)
    lines = [["patched"]] + [[word, str(count)] for word, count in head.items()] + rest
    steps.write("report.txt", "".join(" ".join(line) + "\n" for line in lines))
    driven = {out for _, out, _ in tried.gates}
    base = sorted({term for _, _, terms in tried.gates for term in terms} - driven - set(CONSTANTS))
    steps.write("patch.v", Circuit("patch", base, tried.cuts.targets(), tried.gates).text())
    return head


def place_names(cuts):
    """What is cut, as it is said to the scripts."""
    pins = ["%s.%s" % place for place in cuts.pins]
    return [*cuts.nets, *(port + ":" for port in cuts.ports), *pins]


def table_of(tried, head, steps, answer):
    """The table of the answer."""
    result = tried.result
    rows = [("cut", " ".join(place_names(tried.cuts))), ("targets", len(tried.cuts.targets())), ("cost", head["cost"]), ("gates", head["gates"]),
            ("cells added", len(result.made)), ("cells gone", len(result.gone)), ("area added", "%g" % tried.grown), ("answer", answer)]
    rows += [("seconds, " + step, "%.1f" % seconds) for step, seconds in steps.seconds.items()]
    return "\n".join(["| what | value |", "|---|---|"] + ["| %s | %s |" % row for row in rows])


def fix(told, steps):
    fixer = Fixer(told, steps)
    tried = fixer.run()
    if tried is None:
        print("the netlists are equal: nothing has to be changed")
        return 0
    head = write_report(tried, steps)
    cells = collections.Counter(cell for _, cell in tried.result.made)
    print("cells added: " + (", ".join("%d %s" % (count, cell) for cell, count in sorted(cells.items())) or "none"))
    print("cells gone: " + (" ".join(name for name, _ in tried.result.gone) or "none"))
    said = yosys_says(told, steps, fixer.problem) if told.yosys else None
    print(table_of(tried, head, steps, "equal" + (", by Yosys " + said if said else "")))
    return 0


def main():
    words = argparse.ArgumentParser(description=__doc__, formatter_class=argparse.RawDescriptionHelpFormatter)
    for name in ("library", "old", "new", "folder"):
        words.add_argument(name)
    words.add_argument("--match", metavar="FILE")
    words.add_argument("--match-buses", action="store_true")
    words.add_argument("--add", action="store_true")
    words.add_argument("--care", metavar="FILE")
    words.add_argument("--cells", metavar="FILE")
    words.add_argument("--yosys", action="store_true")
    told = words.parse_args()
    try:
        os.makedirs(told.folder, exist_ok=True)
        sys.exit(fix(told, Steps(told.folder)))
    except Stopped as stopped:
        print(stopped.args[1])
        sys.exit(stopped.args[0])
    except FAULTS as wrong:
        ended("fix_cells", wrong)


if __name__ == "__main__":
    main()
