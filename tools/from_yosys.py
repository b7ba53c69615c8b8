#!/usr/bin/env python3
"""Turns a netlist that Yosys wrote as JSON into the structural Verilog that eco reads.

    yosys -p 'read_verilog design.v; synth -flatten -top TOP; abc -g AND,NAND,OR,NOR,XOR,XNOR; opt_clean;
              write_json design.json'
    tools/from_yosys.py design.json [--cut NET=t_0].. > design.eco.v

The module must be flat and combinational, with gates of Yosys' library of simple cells. A bit of a bus is a net of its
own, named `bus[3]`. `--cut NET=t_0` takes the driver of the net away: what read the net reads the target `t_0`. NET is a name that is
printed without a cut, or another one that the design has for the same net.
"""
import argparse
import json
import sys

from names import FAULTS, cuts_of, spelled

KINDS = {"$_AND_": "and", "$_NAND_": "nand", "$_OR_": "or", "$_NOR_": "nor", "$_XOR_": "xor", "$_XNOR_": "xnor",
         "$_NOT_": "not", "$_BUF_": "buf"}

def fail(message):
    sys.exit("from_yosys: %s" % message)


def named_bits(name, wire):
    """The bits of a port or a net, the lowest first, with their names; the design may number them upwards and from any number on."""
    bits, first = wire["bits"], wire.get("offset", 0)
    if len(bits) == 1:
        return [(name, bits[0])]
    places = range(first, first + len(bits))
    return [("%s[%d]" % (name, place), bit) for place, bit in zip(reversed(places) if wire.get("upto") else places, bits)]


def arguments():
    """The modules of the file, and the cuts."""
    words = argparse.ArgumentParser(description=__doc__.split("\n")[0])
    words.add_argument("design")
    words.add_argument("--cut", action="append", default=[], metavar="NET=t_0")
    told = words.parse_args()
    try:
        with open(told.design) as file:
            return json.load(file)["modules"], cuts_of(told.cut)
    except FAULTS as wrong:
        fail(wrong)
    except (ValueError, KeyError, TypeError):
        fail("%s isn't what Yosys' write_json writes" % told.design)


def chosen_names(module, ports):
    """A name for each bit: that of its port, else its shortest public name, else one made from its number."""
    names = {}
    for name, bit in ports:
        names.setdefault(bit, name)
    for name, net in sorted(module["netnames"].items(), key=lambda item: (item[1]["hide_name"], len(item[0]), item[0])):
        for bit_name, bit in named_bits(name, net):
            names.setdefault(bit, bit_name if not net["hide_name"] else "n%s" % bit)
    return names


def chosen_cuts(cuts, module, names):
    """The cuts by the nets' chosen names; a net may be cut by any name that it has."""
    others = {}
    for name, net in module["netnames"].items():
        for bit_name, bit in named_bits(name, net):
            others[bit_name] = names[bit]
    found = {}
    for target, net in cuts.items():
        chosen = net if net in names.values() else others.get(net)
        if chosen is None:
            fail("no net is called " + net)
        if chosen in found:
            fail("%s is cut twice" % net)
        found[chosen] = target
    return found


def main():
    modules, cuts = arguments()
    if len(modules) != 1:
        fail("one flat module is wanted, %d are there" % len(modules))
    title, module = next(iter(modules.items()))
    ports, directions = [], {}
    for name, port in module["ports"].items():
        for bit_name, bit in named_bits(name, port):
            ports.append((bit_name, bit))
            directions[bit_name] = port["direction"]
    inputs = {bit for name, bit in ports if directions[name] == "input"}
    names = chosen_names(module, ports)
    cuts = chosen_cuts(cuts, module, names)

    def term(bit):
        if bit in ("0", "1"):
            return "1'b" + bit
        if bit not in names:
            fail("a net has no value (x or z)")
        return spelled(cuts.get(names[bit], names[bit]))

    gates = []
    for cell_name, cell in module["cells"].items():
        kind = KINDS.get(cell["type"])
        if kind is None:
            fail("cell %s is a %s; map to simple gates first" % (cell_name, cell["type"]))
        pins = {pin: bits[0] for pin, bits in cell["connections"].items()}
        out = pins.pop("Y")
        if names[out] not in cuts:
            gates.append("%s (%s);" % (kind, ", ".join([term(out)] + [term(pins[pin]) for pin in sorted(pins)])))
    for name, bit in ports:
        if directions[name] == "output" and (bit in inputs or bit in ("0", "1") or names[bit] != name or name in cuts):
            gates.append("buf (%s, %s);" % (spelled(name), term(bit)))
    print("module %s (%s);" % (spelled(title), ", ".join(spelled(name) for name, _ in ports)))
    for name, _ in ports:
        print("%s %s;" % (directions[name], spelled(name)))
    for gate in gates:
        print(gate)
    print("endmodule")


if __name__ == "__main__":
    main()
