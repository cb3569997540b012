#!/usr/bin/env python3
"""Spells the repository's own definitions, lemmas, fields and constructors as today's Rattle does: in snake case.

usage: respell.py FOLDER

FOLDER is the top of a checkout that the kit's port.py has turned and that nobody has edited since. A name that is declared in specs/ or
proofs/ in camel case, with a small first letter, becomes snake case (cellsAfter: cells_after); a field of a record and a constructor also lose their
dashes (still-accepted: still_accepted). Words are turned whole, in .antt, .rt and .edit files below crates/ and in the pages. Functions of src/,
exported names, strings, inputs and outputs have other spellings and stay. It prints each name with its new spelling, and stops where two names would
fall together.
"""

import os
import re
import sys

# what a word of antt is made of; a word of it that is declared somewhere is turned whole
WORD = re.compile(r"[^\s(){}\[\];,.\"`:|*=λ∷<>/]+")
CAMEL = re.compile(r"[a-z][a-z0-9_]*[A-Z]")
# a lemma of a function of the logic that has a new name, and a field whose new name a definition takes
BY_HAND = {"getD-from": "get_or-from", "no-plan": "no_complete_plan"}


def below(top, folders, ends):
    for folder in folders:
        for path, inner, files in os.walk(os.path.join(top, folder)):
            inner[:] = sorted(it for it in inner if it not in ("out", "target", ".git"))
            for name in sorted(files):
                if name.endswith(ends):
                    yield os.path.join(path, name)


def read(path):
    with open(path, encoding="utf-8") as f:
        return f.read()


def code(text):
    return re.sub(r"(?m)(^|\s)--(\s.*)?$", "", text)


def snake(name):
    parts = []
    for part in name.split("-"):
        if CAMEL.match(part):
            part = re.sub(r"([a-z0-9])([A-Z])", r"\1_\2", part).lower()
        parts.append(part)
    return "-".join(parts)


def members(text):
    """The fields of records and the constructors of data that a file declares."""
    found, inside = set(), False
    for line in code(text).split("\n"):
        if re.match(r"(pub )?(abbrev |unfoldable )?(pub )?(record|data)\b", line):
            inside = True
        elif line and not line.startswith(" "):
            inside = False
        elif inside:
            m = re.match(r"  (?:pub )?((?:[^\s(){}:]+ )+):(?!:)", line)
            if m:
                found.update(m[1].split())
    return found


def main():
    if len(sys.argv) != 2:
        sys.exit(__doc__.split("\n\n")[1])
    top = sys.argv[1]
    antt = list(below(top, ["crates"], ".antt"))
    words, labels, theirs = set(), set(), set()
    for path in antt:
        text = read(path)
        labels |= members(text)
        words.update(WORD.findall(code(text)))
        for module, names in re.findall(r"(?m)^use (\S+)\.\{(.*)\}", text):
            crate = module.split(".")[1] if module.startswith("Rattle.") else ""
            if not os.path.isdir(os.path.join(top, "crates", crate)) or not crate:
                theirs.update(it.split(" as ")[0].strip() for it in names.split(","))
    table = {it: snake(it) for it in words if snake(it) != it and it not in theirs}
    for it in labels:
        if it not in theirs and snake(it).replace("-", "_") != it:
            table[it] = snake(it).replace("-", "_")
    table.update({old: new for old, new in BY_HAND.items() if old in words})
    back = {}
    for old, new in sorted(table.items()):
        if new in back:
            sys.exit(f"{old} and {back[new]} would both be {new}")
        back[new] = old
        if new in labels:
            print(f"look: {new} is a field already, and {old} becomes it")
        print(f"{old}\t{new}")
    paths = antt + list(below(top, ["crates"], (".rt", ".edit"))) + list(below(top, ["docs", "tests", "samples", "examples"], ".md"))
    for path in paths + [os.path.join(top, "README.md")]:
        text = read(path)
        new = WORD.sub(lambda m: table.get(m[0], m[0]), text)
        if new != text:
            with open(path, "w", encoding="utf-8") as f:
                f.write(new)


if __name__ == "__main__":
    main()
