#!/usr/bin/env python3
"""Tells which definitions a name of the statement stands on: those that it names, and what these name in turn.

    tools/statement.py [--names]      of the clauses of `run`: how many there are, crate by crate, or which
    tools/statement.py --text NAME    the definitions of NAME themselves, lowest first, and how many there are
    tools/statement.py --ladder       the table of docs/STATEMENT.md
    tools/statement.py --refresh      puts it there, and its short form into README.md
    tools/statement.py --check        that both hold just these tables, and docs/STATEMENT.md shows definitions as they are

NAME is `run`, a definition (`IsPatched`), or one with its module before it where several have the name
(`Synth.IsSolved`).

Counted are the definitions of the crates' specs/, and the types and constants of src/ that these name; a type that
clauses see as a value of another type (its model) counts as the line that says so. Lines are counted without comments
and blanks.
Not counted, though a reader needs them: what is the kit's (numbers, lists, options, the order of bytes in `std`; how
words are read in `clap`; the numbers of `rand_pcg`), how the program's values are seen as those of a model, the
contracts of the traits `Store` and `Sink`, which bind whoever brings a store, and the clauses of `run` themselves,
which are counted apart.
Names are found by their spelling, so a definition may be counted that only shares its name with a variable.
"""
import argparse
import collections
import functools
import os
import re
import sys

ROOT = os.path.join(os.path.dirname(os.path.abspath(__file__)), "..")
DOCUMENT, README = "docs/STATEMENT.md", "README.md"
MARKS = "<!-- ladder: tools/statement.py --ladder -->", "<!-- end of the ladder -->"
RUNGS = [
    ("the outputs are right", ["IsEquivalent"]),
    ("it fits, is the splice, has no loop", ["IsPatched"]),
    ("cost and need are true", ["Report.IsReported", "AreNeeded"]),
    ("from bytes to bytes, of files in gates alone", ["IsEndOfGates"]),
    ("which words ask for it", ["IsSynthOfGates"]),
    ("with `assign`, and directions in headers", ["IsNetlistText"]),
    ("a specification in AIGER", ["IsSpecificationText"]),
    ("the bound, if there is one", ["Report.Meets", "HasBoundAsked"]),
    ("the base is the greedy choice", ["AreGreedy"]),
    ("or none costs less than is told", ["Report.AreLeast", "IsThrifty"]),
    ("all of this of `synth`, as one clause", ["IsSynthHeadline"]),
    ("which nets can be cut, and the netlist with one cut", ["IsLocateAnswer", "IsHopeless"]),
    ("all that is said of a run", ["run"]),
]
# the rungs that README.md has
SHORT = 1, 3, 4, 5, 11, 12, 13
TOP = "crates/eco_cli/src/top.rt"

NAMED = re.compile(r"^(?:ghost )?\s*(?:ghost )?use Rattle\.(eco_\w+)\.specs\.([\w.]+?)\.\{([^}]*)\}", re.M)
RENAMED = re.compile(r"^(?:ghost )?\s*(?:ghost )?use Rattle\.(eco_\w+)\.specs\.([\w.]+) as (\w+)", re.M)
HANDED = re.compile(r"^pub use Rattle\.(eco_\w+)\.specs\.(\w+)(?: as (\w+))?$", re.M)
START = re.compile(r"^(?:abbrev |unfoldable )?(?:pub )?(?:record |data )?([\w-]+)[ (:]")
ITEM = re.compile(r"^pub(?:\(crate\))? (?:struct|enum|const) (\w+)")
RUST_USE = re.compile(r"^(?:pub )?use ((?:crate|eco_\w+)(?:::\w+)*?)::(?:\{([^}]*)\}|(\w+));", re.M)
WORD = re.compile(r"(?<![\w.-])[A-Za-z_][\w-]*")

# a definition: the file in which it stands and its name
Key = collections.namedtuple("Key", "path name")
# its text with its comments, its lines without them, and the definitions that it names
Definition = collections.namedtuple("Definition", "text lines names")


@functools.lru_cache(None)
def read(path):
    full = os.path.join(ROOT, path)
    if not os.path.isfile(full):
        return ""
    with open(full) as file:
        return file.read()


@functools.lru_cache(None)
def sources(crate):
    """The files of a crate's src/."""
    folder = os.path.join("crates", crate, "src")
    return sorted(os.path.join(folder, name) for name in os.listdir(os.path.join(ROOT, folder)) if name.endswith(".rt"))


def words_of(text):
    """The words that may name something: no field behind a dot, no label of a field."""
    text = re.sub(r"^  pub [\w-]+ :", "  :", text, flags=re.M)
    text = re.sub(r"([{;])\s*[\w-]+ = ", r"\1 ", text)
    return set(WORD.findall(text))


# ---- where a name stands

def spec_key(crate, module, name):
    """The definition of this name in a module of specs, or None where it is none of this repository."""
    parts = module.split(".")
    if parts[0] == "declared":
        return declared_key(crate, parts[1:], name)
    path = "crates/%s/specs/%s.antt" % (crate, "/".join(parts))
    if not read(path):
        for other, handed, renamed in HANDED.findall(read("crates/%s/specs/Lib.antt" % crate)):
            if (renamed or handed) == module:
                return spec_key(other, handed, name)
        outer, _, kind = module.rpartition(".")
        if not outer:
            sys.exit("statement: no module %s of %s" % (module, crate))
        return spec_key(crate, outer, kind)
    return Key(path, name)


def declared_key(crate, parts, name):
    """The type or the constant of src/ that specs name by this path."""
    if parts[-1] == "TheConstants":
        return Key("crates/%s/src/%s.rt" % (crate, "/".join(parts[:-1]) or "lib"), name)
    if parts[-1] == "TheVariants":
        parts = parts[:-1]
    return Key("crates/%s/src/%s.rt" % (crate, "/".join(parts[:-1]) or "lib"), parts[-1])


def type_key(crate, name):
    """The type of this name in a crate, or in the crate from which it is handed on."""
    for path in sources(crate):
        if name in items(path):
            return Key(path, name)
    for used, names, single in RUST_USE.findall(read("crates/%s/src/lib.rt" % crate)):
        if name in re.findall(r"\w+", names or single) and used.startswith("eco_"):
            return type_key(used.split("::")[0], name)
    return None


@functools.lru_cache(None)
def known(path, inner=""):
    """What each word stands for that a file imports, or a block in it."""
    found, crate = {}, path.split("/")[1]
    for text in (read(path), inner):
        for other, module, names in NAMED.findall(text):
            for name in filter(None, (name.strip() for name in names.split(","))):
                plain, _, other_name = name.partition(" as ")
                found[other_name or plain] = spec_key(other, module, plain)
        for other, module, name in RENAMED.findall(text):
            found[name] = spec_key(other, module, "")
    for used, names, single in RUST_USE.findall(read(path)):
        home = crate if used.startswith("crate") else used.split("::")[0]
        for name in re.findall(r"\w+", names or single):
            found.setdefault(name, type_key(home, name))
    return found


# ---- what a file defines

@functools.lru_cache(None)
def spec_texts(path):
    """Each definition of a file of specs, with the comment above it."""
    found, comment, current = {}, [], None
    for line in re.sub(r"^(pub )?use .*$", "", read(path), flags=re.M).split("\n"):
        if not line.strip():
            comment = []
        elif line.startswith("--"):
            comment.append(line)
        else:
            if re.match(r"(abbrev|unfoldable|pub)\b", line):
                current = START.match(line).group(1)
                found[current] = []
            if current:
                found[current] += comment + [line]
            comment = []
    return found


@functools.lru_cache(None)
def items(path):
    """Each type and constant of a file of src/, with the comment above it."""
    found, comment, current = {}, [], None
    for line in read(path).split("\n"):
        start = ITEM.match(line)
        if line.startswith(("///", "#[")) and not current:
            comment.append(line)
        elif start:
            current = start.group(1)
            found[current] = [above for above in comment if not above.startswith("#[")] + [line]
            comment = []
        elif current and not line.lstrip().startswith("#["):
            found[current].append(line)
        elif not current:
            comment = []
        if current and (line == "}" or line.endswith(";")):
            current = None
    return found


def model_of(crate, name):
    """The block that says as what a type's values are seen, with its file, where there is one."""
    start = re.compile(r"^impl(?:<[^>]*>)? (?:marker::)?Model for %s\b.*?^}" % name, re.M | re.S)
    for path in sources(crate):
        block = start.search(read(path))
        if block:
            return path, re.sub(r"^ +ghost", "ghost", block.group(), flags=re.M)
    return None


def spec_definition(key):
    text = spec_texts(key.path)[key.name]
    lines = [line for line in text if not line.lstrip().startswith("--")]
    own, imported = spec_texts(key.path), known(key.path)
    names = {Key(key.path, word) if word in own else imported.get(word) for word in words_of("\n".join(lines))}
    return Definition(text, lines, names)


def source_definition(key):
    crate, text = key.path.split("/")[1], items(key.path)[key.name]
    comment = [line for line in text if line.startswith("///")]
    model = model_of(crate, key.name)
    if model:
        path, block = model
        value = re.search(r"ghost Value = \{ (.*?) \};", block, re.S).group(1)
        line = "%s  // seen as: %s" % (re.match(r"pub(?:\(crate\))? \w+ \w+", text[len(comment)]).group(), value)
        imported = known(path, block)
        return Definition(comment + [line], [line], {imported.get(word) for word in words_of(value)})
    lines = [line for line in text if line.strip() and not line.lstrip().startswith("//")]
    named = re.sub(r"^    \w+(?=[,({ ])", "", "\n".join(lines), flags=re.M)
    return Definition(text, lines, rust_names(key.path, named) - {key})


def rust_names(path, text):
    """The types of this repository that a text of a file of src/ names."""
    own = items(path)
    return {Key(path, word) if word in own else known(path).get(word) for word in set(re.findall(r"\w+", text))}


@functools.lru_cache(None)
def definition(key):
    """What stands under this name, or None: then it is a constructor, a variable or not of this repository."""
    if key.path.endswith(".rt"):
        return source_definition(key) if key.name in items(key.path) else None
    return spec_definition(key) if key.name in spec_texts(key.path) else None


# ---- what a name stands on

def contract_of_run():
    """The comment, the signature and the clauses of `run`."""
    text = read(TOP)
    start = text.rindex("\n\n", 0, text.index("pub fn run<")) + 2
    return text[start:text.index("\n{", start)].split("\n")


def named_by_run():
    text = "\n".join(line for line in contract_of_run() if not line.startswith("///"))
    return {known(TOP).get(word) for word in words_of(text)} | rust_names(TOP, text[:text.index("ensures")])


def roots_of(name):
    """The definitions with which a name begins."""
    if name == "run":
        return named_by_run()
    module, _, plain = name.rpartition(".")
    found = []
    for crate in sorted(os.listdir(os.path.join(ROOT, "crates"))):
        folder = os.path.join("crates", crate, "specs")
        files = os.listdir(os.path.join(ROOT, folder)) if os.path.isdir(os.path.join(ROOT, folder)) else []
        for file in sorted(files):
            place, path = ".%s.%s" % (crate, file[:-len(".antt")]), os.path.join(folder, file)
            if plain in spec_texts(path) and place.endswith("." + module if module else ""):
                found.append(Key(path, plain))
    if len(found) != 1:
        places = ["%s.%s.%s" % (key.path.split("/")[1], os.path.basename(key.path)[:-5], plain) for key in found]
        sys.exit("statement: %s" % ("one of " + ", ".join(places) if places else "no definition " + name))
    return set(found)


def reached_from(roots):
    reached, waiting = set(), list(roots)
    while waiting:
        key = waiting.pop()
        if key is None or key in reached or definition(key) is None:
            continue
        reached.add(key)
        waiting += definition(key).names
    return reached


def place_in_file(key):
    return list(items(key.path) if key.path.endswith(".rt") else spec_texts(key.path)).index(key.name)


def lowest_first(reached):
    """The definitions, each behind those that it names, and file by file as far as that allows."""
    files = collections.defaultdict(list)
    for key in sorted(reached, key=lambda key: (key.path, place_in_file(key))):
        files[key.path].append(key)
    ordered, done = [], set()

    def visit_file(path):
        if path not in done:
            done.add(path)
            for key in files[path]:
                for other in sorted(name.path for name in definition(key).names if name in reached):
                    visit_file(other)
            ordered.extend(files[path])

    def visit(key, placed, out):
        if key not in placed:
            placed.add(key)
            for other in sorted(name for name in definition(key).names if name in reached):
                visit(other, placed, out)
            out.append(key)

    for path in sorted(files):
        visit_file(path)
    out, placed = [], set()
    for key in ordered:
        visit(key, placed, out)
    return out


# ---- what is printed

def count_of(keys):
    types = [key for key in keys if key.path.endswith(".rt")]
    return len(keys), sum(len(definition(key).lines) for key in keys), len(types)


def says(keys):
    return "%d definitions, %d lines; %d of them types and constants of src/" % count_of(keys)


def print_counts(names):
    reached = reached_from(named_by_run())
    by_crate = collections.defaultdict(list)
    for key in reached:
        by_crate[key.path.split("/")[1]].append(key)
    for crate in sorted(by_crate):
        print("%-14s %3d definitions, %4d lines; %2d of src/" % ((crate,) + count_of(by_crate[crate])))
    print("%-14s %3d definitions, %4d lines; %2d of src/" % (("all",) + count_of(reached)))
    if names:
        for key in sorted(reached):
            crate, _, file = key.path.split("/", 1)[1].partition("/")
            print("%s.%s.%s" % (crate, os.path.splitext(file)[0].split("/", 1)[1].replace("/", "."), key.name))


def print_text(name):
    reached, path = reached_from(roots_of(name)), None
    for key in lowest_first(reached):
        if key.path != path:
            path = key.path
            print("-- ======== %s\n" % path)
        print("\n".join(definition(key).text) + "\n")
    if name == "run":
        print("\n".join(contract_of_run()) + "\n")
    print("-- %s: %s." % (name, says(reached)))


def crates_of(keys):
    """How many of the definitions stand in which crate, the most first."""
    counts = collections.Counter(key.path.split("/")[1] for key in keys)
    return ", ".join("`%s` %d" % pair for pair in sorted(counts.items(), key=lambda pair: (-pair[1], pair[0])))


def rungs():
    """For each rung its place, meaning and names, what it adds to those below, and all of it."""
    below = set()
    for place, (meaning, names) in enumerate(RUNGS, 1):
        reached = set().union(*(reached_from(roots_of(name)) for name in names))
        title = ", ".join("`%s`" % name.split(".")[-1] for name in names)
        yield place, meaning, title, reached - below, reached | below
        below |= reached


def ladder():
    """A row a rung: what it adds to the rungs below it, and what all of it comes to."""
    rows, by_crate = ["| | to believe that | read | adds | in all |", "|---|---|---|---|---|"], []
    for place, meaning, title, more, below in rungs():
        added, every = count_of(more), count_of(below)
        counts = added[0], format(added[1], ","), every[0], format(every[1], ",")
        rows.append("| %d | %s | %s | " % (place, meaning, title) + "%d definitions, %s lines | %d, %s |" % counts)
        by_crate += ["", "Rung %d adds in %s." % (place, crates_of(more))] if place > 3 else []
    clauses = [line for line in contract_of_run() if not line.startswith("///")]
    rows += ["", "The clauses of `run` themselves are %d lines more; of the %d definitions %d are types and constants "
             "of `src/`." % (len(clauses), len(below), count_of(below)[2])]
    return "\n".join(rows + by_crate)


def short_ladder():
    """A row for some rungs: what all of it comes to."""
    rows = ["| to believe that | read | definitions | lines |", "|---|---|---|---|"]
    for place, meaning, title, _, below in rungs():
        if place in SHORT:
            every = count_of(below)
            rows.append("| %s | %s | %d | %s |" % (meaning, title, every[0], format(every[1], ",")))
    return "\n".join(rows)


def document(path, table):
    """The document with the table as it is now."""
    text = read(path)
    start, end = text.find(MARKS[0]) + len(MARKS[0]), text.find(MARKS[1])
    if not len(MARKS[0]) <= start <= end:
        sys.exit("statement: %s has no marks around its table" % path)
    return text[:start] + "\n\n" + table + "\n\n" + text[end:]


def check():
    for path, table in (DOCUMENT, ladder()), (README, short_ladder()):
        if document(path, table) != read(path):
            sys.exit("statement: the table of %s isn't what tools/statement.py --refresh puts there" % path)
    text = read(DOCUMENT)
    definitions = ["\n".join(definition(key).text) for key in reached_from(named_by_run())]
    for block in re.findall(r"^```antt\n(.*?)^```$", text, re.M | re.S):
        for shown in block.strip().split("\n\n"):
            if not any(stands.startswith(shown) for stands in definitions):
                sys.exit("statement: %s shows what stands nowhere: %s" % (DOCUMENT, shown.split("\n")[0]))


def refresh():
    for path, table in (DOCUMENT, ladder()), (README, short_ladder()):
        text = document(path, table)
        with open(os.path.join(ROOT, path), "w") as file:
            file.write(text)


def main():
    words = argparse.ArgumentParser(description=__doc__, formatter_class=argparse.RawDescriptionHelpFormatter)
    choice = words.add_mutually_exclusive_group()
    choice.add_argument("--text", metavar="NAME")
    for name in ("--names", "--ladder", "--check", "--refresh"):
        choice.add_argument(name, action="store_true")
    told = words.parse_args()
    if told.text:
        print_text(told.text)
    elif told.ladder:
        print(ladder())
    elif told.check:
        check()
    elif told.refresh:
        refresh()
    else:
        print_counts(told.names)


if __name__ == "__main__":
    main()
