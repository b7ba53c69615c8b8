#!/usr/bin/env python3
"""How names are spelled in Verilog and put in order, and how the scripts that read cells end if they refuse a file.

    tools/names.py NAME..

Called by itself it prints each name as Verilog spells it: plain if it can be, else escaped.
"""
import argparse
import re
import sys


class Refused(Exception):
    """A file isn't read, or a request can't be met; the text is the whole line that says why."""


class Unreadable(Exception):
    """A request is wrong in itself; the text says why."""


# what ends a script with a line in place of a trace
FAULTS = (Unreadable, Refused, OSError, UnicodeDecodeError)


def require(holds, message):
    if not holds:
        raise Unreadable(message)


def ended(script, wrong):
    """Ends the script with one line and the status of the program: 3 if a file is refused, 5 if it can't be read, 2 for wrong words."""
    if isinstance(wrong, Refused):
        print(wrong, file=sys.stderr)
        sys.exit(3)
    if isinstance(wrong, OSError):
        print("failed %s" % wrong.filename, file=sys.stderr)
        sys.exit(5)
    print("%s: %s" % (script, wrong), file=sys.stderr)
    sys.exit(2)


RESERVED = set("""always and assign automatic begin buf bufif0 bufif1 case casex casez cmos deassign default defparam
disable edge else end endcase endfunction endgenerate endmodule endprimitive endspecify endtable endtask event for force
forever fork function generate genvar if initial inout input integer join localparam macromodule module nand negedge nmos
nor not notif0 notif1 or output parameter pmos posedge primitive pulldown pullup real realtime reg release repeat scalared
signed specify specparam strong0 strong1 supply0 supply1 table task time tran tri tri0 tri1 triand trior trireg vectored
wait wand weak0 weak1 while wire wor xnor xor""".split())
SIMPLE = re.compile(r"[A-Za-z_][A-Za-z0-9_$]*")


def spelled(name):
    """A name as Verilog spells it: plain if it can be, else escaped."""
    if SIMPLE.fullmatch(name) and name not in RESERVED:
        return name
    return "\\" + name + " "


def natural(name):
    """A key by which numbers inside names count as numbers."""
    return [int(part) if part.isdigit() else part for part in re.split(r"(\d+)", name)]


def free_prefix(names, base):
    """The shortest of `base_`, `base__`, .. with which no name begins."""
    prefix = base + "_"
    while any(name.startswith(prefix) for name in names):
        prefix += "_"
    return prefix


def cuts_of(words):
    """What is cut, by its target, of words `NET=t_0` and `INSTANCE.PIN,INSTANCE.PIN=t_0`: lists of nets or pins."""
    cuts = {}
    for word in words:
        what, mark, target = word.rpartition("=")
        require(mark and re.fullmatch(r"t_(0|[1-9]\d{0,8})", target), "--cut wants NET=t_0, not " + word)
        require(target not in cuts, "--cut %s comes twice" % word)
        cuts[target] = what
    require(len(set(cuts.values())) == len(cuts), "one net is cut twice")
    return cuts


def main():
    words = argparse.ArgumentParser(description=__doc__, formatter_class=argparse.RawDescriptionHelpFormatter)
    words.add_argument("names", nargs="+", metavar="NAME")
    for name in words.parse_args().names:
        print(spelled(name))


if __name__ == "__main__":
    main()
