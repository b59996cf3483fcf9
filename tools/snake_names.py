#!/usr/bin/env python3
"""Gives the repository's own names in specs/ and proofs/ the spelling of today's Rattle.

usage: python3 tools/snake_names.py        at the top of the repository, once, after port.py

Definitions, lemmas, fields and constructors are in snake case. A dash stays where it joins two definitions, as in `low_first-length`;
before a plain word it becomes `_`. Types, modules, names of src/ and the goals that Rattle names keep their spelling. It goes over
.antt and .rt files, must-fail edits and the pages of docs/.
"""

import os
import re
import sys

WORD = r"[A-Za-z_][A-Za-z0-9_'\-]*"
DECLARED = re.compile(r"^\s*(?:abbrev |unfoldable |pub |data |record |infix[lr]? \d+ )*(" + WORD + r") :(?!=)(.*)$")
GOAL = re.compile(r"^\s*(?:tie|goal)\.")
STD_WORDS = {"length", "append", "take", "drop", "replicate"}
# lemmas that would have the name of a definition, now that it is in snake case
LEMMAS = {"in_order", "kept_of", "in_use", "place_at", "line-number"}
# variables and aliases in camel case
VARIABLES = {"balisesAt", "dotOf", "rootOf", "decodedLines", "decodedTrains", "lastBlock", "stopPoints"}


def snake(word):
    """One word without dashes, in snake case."""
    if not word[:1].islower():
        return word
    return re.sub(r"(?<=[a-z0-9])([A-Z])", lambda m: "_" + m.group(1).lower(), word)


def files(*endings):
    for top in ("crates", "docs"):
        for folder, dirs, names in os.walk(top):
            dirs[:] = sorted(d for d in dirs if d != "out")
            for name in sorted(names):
                if name.endswith(endings):
                    yield os.path.join(folder, name)


def text_of(path):
    with open(path, encoding="utf-8") as f:
        return f.read()


def of_a_function(path):
    """A file of proofs/F/, whose goals Rattle names."""
    return path.endswith("/Proof.antt")


def declared():
    """The names that .antt files declare at their top level, as fields or as constructors: name -> is it a definition of specs/?"""
    found = {}
    for path in files(".antt"):
        specs = "/specs/" in path
        lines = text_of(path).splitlines() + [""]
        for line, after in zip(lines, lines[1:]):
            m = DECLARED.match(line)
            if not m:
                continue
            name, rest = m.groups()
            if of_a_function(path) and GOAL.match(rest.strip() or after):
                continue
            found[name] = found.get(name, False) or specs
    return found


def turned(found):
    """Old name -> new name, for the names that change."""
    words = {snake(n) for n, specs in found.items() if specs and "-" not in n} | STD_WORDS

    def join(parts):
        for k in range(len(parts) - 1, 0, -1):
            head, tail = parts[:k], parts[k:]
            if "_".join(head) in words:
                if "_".join(tail) in words:
                    return "_".join(head) + "-" + "_".join(tail)
        return "_".join(parts)

    new = {name: snake(name) for name in VARIABLES}
    for name in found:
        if not name[:1].islower():
            continue
        to = join([snake(p) for p in name.split("-")])
        if name in LEMMAS or "-" in name and to in words:
            to += "_lem"
        if to != name:
            new[name] = to
    return new


def main():
    found = declared()
    new = turned(found)
    kept = {n for n in found if n not in new}
    clashes = sorted((n, t) for n, t in new.items() if t in kept or sum(1 for o in new.values() if o == t) > 1)
    for n, t in clashes:
        print(f"look: {n} and another name are both {t}", file=sys.stderr)
    if "--list" in sys.argv:
        for n in sorted(new):
            print(n, new[n])
        return
    dashed = re.compile(r"(?<![A-Za-z0-9_'\-])(" + "|".join(re.escape(n) for n in sorted(new, key=len, reverse=True)) + r")(?![A-Za-z0-9_'\-])")
    for path in files(".antt", ".rt", ".edit", ".md"):
        was = text_of(path)
        now = dashed.sub(lambda m: new[m.group(1)], was)
        if now != was:
            with open(path, "w", encoding="utf-8") as f:
                f.write(now)


main()
