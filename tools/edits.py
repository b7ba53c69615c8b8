#!/usr/bin/env python3
"""edits.py: whether each edit in crates/NAME/must-fail and crates/NAME/more-edits can still be made, and says what it is.

An edit is a file that begins with a line 'bug: ' (what a tired programmer did) and a line 'refused by: ' (the clause, or the
functions, that refuse it). Then come a line 'file: PATH', of a file of its crate, and pairs of lines 'old: TEXT' and
'new: TEXT'; each old text has to stand once in what the pairs before it made of that file, and each name in backquotes behind
'refused by: ' has to be a function, a clause or a type of the crate's src/. Names each edit of which that isn't so, and ends with
status 1 where there is one. It proves nothing: the gate tries the edits in must-fail, tools/more_edits.sh the others, and
tools/planted.py prints them all as a table."""
import argparse
import functools
import pathlib
import re
import sys

TOP = pathlib.Path(__file__).resolve().parent.parent
HEAD = "bug: ", "refused by: "


def all_edits():
    """The paths of all edits, crate by crate."""
    return sorted([*TOP.glob("crates/*/must-fail/*.edit"), *TOP.glob("crates/*/more-edits/*.edit")])


def head_of(edit):
    """What the edit's first two lines say: the bug and what refuses it; or None where they aren't these lines."""
    lines = edit.read_text().splitlines()
    if len(lines) < 2 or any(not line.startswith(mark) or line == mark for mark, line in zip(HEAD, lines)):
        return None
    return tuple(line[len(mark) :] for mark, line in zip(HEAD, lines))


@functools.lru_cache(None)
def source_of(crate):
    """All of the src/ of the crate of this folder."""
    return "\n".join(path.read_text() for path in sorted(crate.glob("src/**/*.rt")))


def fault_of_head(edit):
    """What is wrong with the edit's first two lines, or None."""
    head = head_of(edit)
    if head is None:
        return "it doesn't begin with a line 'bug: ' and a line 'refused by: '"
    for name in re.findall(r"`([\w:]+)`", head[1]):
        if not re.search(rf"\b(fn|ensures|struct|enum|trait) {name.split('::')[-1]}\b", source_of(edit.parent.parent)):
            return f"no function, clause or type {name}"
    return None


def lines_of(edit):
    """The path and the pairs of an edit, and what is wrong with its form, if anything is."""
    path, pairs = None, []
    for line in edit.read_text().splitlines():
        if line.startswith("file: "):
            path = line[len("file: ") :]
        elif line.startswith("old: "):
            pairs.append([path, line[len("old: ") :], None])
        elif line.startswith("new: ") or line == "new:":
            if not pairs or pairs[-1][2] is not None:
                return pairs, "a new text without an old one"
            pairs[-1][2] = line[len("new: ") :]
    if not pairs or any(path is None or new is None for path, _, new in pairs):
        return pairs, "no file, no pair, or an old text without a new one"
    return pairs, None


def fault_of(edit):
    """Why the edit can't be made, or None."""
    pairs, fault = lines_of(edit)
    if fault or fault_of_head(edit):
        return fault or fault_of_head(edit)
    texts = {}
    for path, old, new in pairs:
        if path not in texts:
            try:
                texts[path] = (edit.parent.parent / path).read_text()
            except OSError:
                return f"there is no {path}"
        if texts[path].count(old) != 1:
            return f"the old text stands {texts[path].count(old)} times in {path}: {old}"
        texts[path] = texts[path].replace(old, new)
    return None


def main():
    argparse.ArgumentParser(description=__doc__, formatter_class=argparse.RawDescriptionHelpFormatter).parse_args()
    edits = all_edits()
    faults = [(edit.relative_to(TOP), fault_of(edit)) for edit in edits]
    found = [f"{name}: {fault}" for name, fault in faults if fault]
    print(*found, f"{len(edits)} edits, {len(found)} that can't be made or don't say what they are", sep="\n")
    sys.exit(bool(found))


if __name__ == "__main__":
    main()
