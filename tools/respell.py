#!/usr/bin/env python3
"""Brings the repository's own ghost names to the spelling of today's Rattle: words of a name in snake case.

usage: python3 tools/respell.py        at the top, once, after the kit's port.py

Every name in crates/*/specs and crates/*/proofs that begins with a small letter and has a capital in it is respelled (mostPrefactors becomes
most_prefactors, getD-later get_or-later), there, in the clauses of crates/*/src and in the edits that quote either. A law that would fall together with a
definition so has _lem after its name. Types, modules, constructors, functions of src/, exported names, strings and comments of src/ stay.
It prints each name that it turned.
"""
import os
import re

NAME = re.compile(r"(?<![\w'\u00b7-])[^\W\d_A-Z][\w']*(?:[-→≤≡+][\w'→≤≡+]+)*")
# names of the library that have capitals
LEAVE = {"not_T"}
# laws whose name is that of a definition, respelled
FALL_TOGETHER = {"one_byte", "first_count", "of_c", "goes_on", "term_of", "place_after", "too_many"}


def texts(ending):
    for folder, dirs, files in os.walk("crates"):
        dirs[:] = sorted(d for d in dirs if d != "out")
        for f in sorted(files):
            if f.endswith(ending):
                yield os.path.join(folder, f)


def snake(name):
    name = name.replace("getD", "get_or")
    name = re.sub(r"(?<=[a-z0-9])([A-Z]+)(?=[A-Z][a-z])", lambda m: "_" + m.group(1).lower(), name)
    return re.sub(r"(?<=[a-z0-9])([A-Z]+)", lambda m: "_" + m.group(1).lower(), name).lower()


def part(word):
    """One part of a name between dashes: a type keeps its capital."""
    return snake(word) if re.match(r"[a-z]", word) and re.search(r"[A-Z]", word) else word


def respelled(name):
    if name in LEAVE or not re.search(r"[A-Z]", name):
        return name
    return "".join(part(p) for p in re.split(r"([-→≤≡+])", name))


def main():
    turned = {}

    def turn(m):
        name = m.group(0)
        new = respelled(name)
        if new != name:
            turned[name] = new
        return new

    # first the laws that would fall together: as names of their own, not in a path and not as a field
    fall = re.compile(r"(?<![\w'.\u00b7«-])(" + "|".join(sorted(FALL_TOGETHER)) + r")(?![\w'.\u00b7-])")
    for path in texts(".antt"):
        with open(path, encoding="utf-8") as f:
            old = f.read()
        new = fall.sub(r"\1_lem", old)
        new = NAME.sub(turn, new)
        if new != old:
            with open(path, "w", encoding="utf-8") as f:
                f.write(new)
    # in the sources and the edits the same names alone: no name of Rust's has such a form
    def known(m):
        return turned.get(m.group(0), m.group(0))

    for ending, mark in ((".rt", "//"), (".edit", "#")):
        for path in texts(ending):
            with open(path, encoding="utf-8") as f:
                old = f.read()
            new = "\n".join(line if line.lstrip().startswith(mark) else NAME.sub(known, line) for line in old.split("\n"))
            if new != old:
                with open(path, "w", encoding="utf-8") as f:
                    f.write(new)
    for name in sorted(turned):
        print(f"{name} {turned[name]}")


main()
