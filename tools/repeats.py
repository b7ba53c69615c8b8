#!/usr/bin/env python3
"""Prints the lemmas of crates/*/proofs that are stated more than once, and fails where there are any. Says nothing where none is.

    tools/repeats.py

Two statements are the same where only the names that they bind differ, or the sides of the equation at their end. A statement
that speaks of what stands around it, as of the variables of its module, and a type that binds nothing are passed over. So what
two crates need stands once: in eco_lists, or in the lowest crate that has its words.
"""
import argparse
import collections
import glob
import os
import re
import sys

ROOT = os.path.join(os.path.dirname(os.path.abspath(__file__)), "..")
WORD = r"[^\s(){}\[\],;]+"
TOKEN = re.compile(r"[(){}\[\],;]|" + WORD)
STATED = re.compile(r"^( *)(?:pub )?([^\W\d][\w\-'≢≡]*) : (.*)$")
USED = re.compile(r"^(?:pub )?use (.*)\.\{(.*)\}$")
OWN = re.compile(r"^(?:abbrev |unfoldable )?(?:pub )?(?:record |data )?([^\W\d][\w\-'≢≡]*)(?: .*)? : ")
BUILT_IN = {"Type", "let", "in", "λ", "elim", "as", "record", "tt", "absurd"}


def statements(lines):
    """The name, the first line's number and the type of each lemma; a type goes on over lines that stand further in."""
    for number, line in enumerate(lines, 1):
        found = STATED.match(line)
        if not found:
            continue
        indent, name, type_ = found.groups()
        for later in lines[number:]:
            if not later.startswith(indent + " ") or later.lstrip().startswith((name + " ", "pub ", "where", "--")):
                break
            type_ += " " + later.strip()
        yield name, number, type_


def known_words(path, lines):
    """What the words stand for that a file brings in or says at its outermost level; the standard library's are called what they
    are wherever they come from, ours with their file."""
    known = {word: word for word in BUILT_IN}
    for line in lines:
        used, own = USED.match(line), OWN.match(line)
        for item in used.group(2).split(",") if used else []:
            name, _, other = item.strip().partition(" as ")
            known[other or name] = used.group(1) + "." + name if used.group(1).startswith("Rattle.eco_") else name
        if own:
            known[own.group(1)] = path + " " + own.group(1)
    return known


def bound_names(tokens):
    """The names that binders like (a b : A) and λ a b. bring in."""
    bound = set()
    for place, token in enumerate(tokens):
        if token in "({":
            names = []
            for later in tokens[place + 1:]:
                if later == ":":
                    bound.update(names)
                if later in "(){}[],;:→":
                    break
                names.append(later)
        if token == "λ":
            for later in tokens[place + 1:]:
                bound.add(later.rstrip("."))
                if later.endswith("."):
                    break
    return bound


def is_word(token):
    return re.match(r"[^\W\d_]", token) is not None


def canonical(type_, known):
    """The type with its bound names numbered, or nothing where it binds none or speaks of what stands around it."""
    ungrouped = re.sub(
        r"([({])((?:[^\W\d][\w\-']* )+[^\W\d][\w\-']*) : ([^(){}]*)([)}])",
        lambda group: " ".join("(%s : %s)" % (name, group.group(3)) for name in group.group(2).split()), type_)
    tokens = TOKEN.findall(ungrouped.replace("{", "(").replace("}", ")").replace(") (", ") → ("))
    bound = bound_names(tokens)
    numbers, written = {}, []
    for token in tokens:
        head, dot, field = token.partition(".")
        if head in bound:
            written.append("#%d%s%s" % (numbers.setdefault(head, len(numbers)), dot, field))
        elif head in known:
            written.append(known[head] + dot + field)
        elif is_word(head):
            return None
        else:
            written.append(token)
    parts = " ".join(written).split(" → ")
    sides = parts[-1].split(" ≡ ")
    parts[-1] = " ≡ ".join(sorted(sides)) if len(sides) == 2 else parts[-1]
    return " → ".join(parts) if "#" in parts[-1] or bound and parts[-1] == "⊥" else None


def main():
    argparse.ArgumentParser(description=__doc__, formatter_class=argparse.RawDescriptionHelpFormatter).parse_args()
    places = collections.defaultdict(list)
    for path in sorted(glob.glob(os.path.join(ROOT, "crates", "*", "proofs", "**", "*.antt"), recursive=True)):
        with open(path) as file:
            lines = file.read().splitlines()
        known = known_words(os.path.relpath(path, ROOT), lines)
        for name, number, type_ in statements(lines):
            form = canonical(type_, known)
            if form:
                places[form].append("%s:%d %s" % (os.path.relpath(path, ROOT), number, name))
    repeated = [found for found in places.values() if len(found) > 1]
    for found in repeated:
        print("stated %d times: %s" % (len(found), ", ".join(found)))
    sys.exit(1 if repeated else 0)


if __name__ == "__main__":
    main()
