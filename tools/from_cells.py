#!/usr/bin/env python3
"""Turns a netlist of library cells with flip-flops into the structural Verilog that eco reads.

    tools/from_cells.py --lib LIBRARY NETLIST [--pins] [--cut NET=t_0].. > f.v
    tools/from_cells.py --lib LIBRARY NETLIST --old OLD [--match FILE] [--match-buses] > g.v

LIBRARY is in Liberty's form; NETLIST is one flat module of its cells (docs/CELLS.md has what is read of both, and what is refused).

Each cell becomes primitive gates by its function; nets keep their names, and a bit of a bus is a net `bus[3]`. Each flip-flop becomes
ports: its state is an input NET, which has the name of the net that it drives (`NET%q` if that is a port), and outputs tell what it
does: `NET%next` is its next state, `NET%clock` its clock, and `NET%clear` and `NET%preset` are there if its cell has them. Nets inside a
cell are `NET%1`, `NET%2`, ..

--cut NET=t_0   what read the net reads the target `t_0`; what drove it drives `NET%old`
--cut INSTANCE.PIN,INSTANCE.PIN=t_0   these input pins read the target, also one that is tied or at a flip-flop
--cut PORT:=t_0   the output port alone, not what else its net leads to
--pins          a buffer `INSTANCE.PIN` stands at each input pin whose net has other readers, is tied, or is an input or a state, so that
                `eco locate` speaks of pins as of nets
--old OLD       the flip-flops have the names of their partners in this netlist: those that drive a net of the same name, or of a name
                that assignments give it, or that are instances of one name; `--match FILE` has lines `old-name new-name`,
                `--match-buses` takes `n_3_` for `n[3]`. All names without a partner are printed.

tools/to_cells.py takes a patch back, tools/fix_cells.sh does all of it in a row.
"""
import argparse
import sys

from cut_open import Cuts, matched, opened
from liberty import Library
from names import FAULTS, Refused, cuts_of, ended


def cut_of(design, words):
    """The cuts of words `NET=t_0` and `INSTANCE.PIN,..=t_0`; a net that has this name comes before pins."""
    cuts = Cuts()
    for target, what in cuts_of(words).items():
        if what.endswith(":") and what[:-1] in design.is_output:
            cuts.ports[what[:-1]] = target
        elif design.netlist.source(what) in design.netlist.driver:
            cut_net(design, cuts, design.name(what), target)
        else:
            for place in what.split(","):
                cuts.pins[pin_of(design, place)] = target
    return cuts


def cut_net(design, cuts, net, target):
    if net in design.inputs or net in design.flops:
        raise Refused("refused cut %s %s" % (net, "input" if net in design.inputs else "flipflop"))
    cuts.nets[net] = target


def pin_of(design, place):
    """The instance's name and the pin of a word `INSTANCE.PIN`."""
    name, _, pin = place.rpartition(".")
    instance = design.instances().get(name)
    if instance is None or pin not in design.netlist.cell_of(instance).inputs:
        raise Refused("refused cut %s unknown" % place)
    return name, pin


def main():
    words = argparse.ArgumentParser(description=__doc__, formatter_class=argparse.RawDescriptionHelpFormatter)
    words.add_argument("netlist")
    words.add_argument("--lib", required=True)
    words.add_argument("--cut", action="append", default=[], metavar="NET=t_0")
    words.add_argument("--pins", action="store_true")
    words.add_argument("--old")
    words.add_argument("--match")
    words.add_argument("--match-buses", action="store_true")
    told = words.parse_args()
    try:
        library = Library(told.lib)
        design = opened(library, told.netlist, "spec" if told.old else "impl")
        if told.old:
            matched(opened(library, told.old, "impl"), design, told.match, told.match_buses)
        cuts = cut_of(design, told.cut)
        apart, buffers = (design.ports_apart(), design.pin_buffers()) if told.pins else ((), None)
        sys.stdout.write(design.circuit(cuts, buffers, apart).text())
    except FAULTS as wrong:
        ended("from_cells", wrong)


if __name__ == "__main__":
    main()
