#!/usr/bin/env python3
"""Brings the names of definitions and laws that the pages cite to today's spelling, after tools/respell.py has turned those of the tree.

usage: python3 tools/respell_pages.py        at the top

In README.md, CHANGELOG.md, oracle/README.md, docs/*.md and docs/requests/*.md, between backquotes, and elsewhere where it has a capital: a name that
crates/*/specs and crates/*/proofs no longer have, and have in its new spelling, is turned to that one, and an operator _X_ to ◌X◌; a path Rattle·CRATE·specs.specs.X is Rattle.CRATE.specs.X. The customer's papers (docs/00 to
docs/02) and docs/PORT.md stay. It prints each name that it turned.
"""
import glob
import os
import re

STAY = {"docs/00-request.md", "docs/01-scope.md", "docs/02-change-requests.md", "docs/PORT.md"}
NAME = re.compile(r"(?<![\w'.\u00b7/-])(?:[a-z][\w']*(?:[-→≤≡+][\w'→≤≡+]+)*)(?![\w/-])|(?<=\.)[a-z][\w']*(?:[-→≤≡+][\w'→≤≡+]+)*(?![\w/-])")
CAPITAL = re.compile(r"(?<![\w'.\u00b7/-])[a-z][a-z0-9]*[A-Z]\w*(?![\w/-])")
OPERATOR = re.compile(r"(?<!\w)_(?:[⊕⊖⊗⊘]|[a-z]+_[a-z])_(?!\w)")
DECLARED = re.compile(r"^ *(?:abbrev |unfoldable )?(?:pub )?([^ ]+) :(?: .*)?$|^ *(?:pub )?(?:record|data) ([^ ]+) ", re.M)
OLD_PATH = re.compile(r"Rattle·(\w+)·(specs|proofs)((?:\.\w+)*)")


def respelled():
    """The function of tools/respell.py, which runs when it is loaded: of its text only what stands before that."""
    with open(os.path.join("tools", "respell.py"), encoding="utf-8") as f:
        text = f.read()
    scope = {}
    exec(text[: text.rindex("\nmain()")], scope)
    return scope["respelled"]


def names():
    """Every name of a definition or law of the tree."""
    found = set()
    for folder, dirs, files in os.walk("crates"):
        dirs[:] = [d for d in dirs if d != "out"]
        parts = folder.split(os.sep)
        if len(parts) < 3 or parts[2] not in ("specs", "proofs"):
            continue
        for file in files:
            if file.endswith(".antt"):
                with open(os.path.join(folder, file), encoding="utf-8") as f:
                    found.update(a or b for a, b in DECLARED.findall(f.read()))
    return found


def main():
    turn, there, turned = respelled(), names(), {}

    def name(match):
        old = match.group(0)
        if old in there:
            return old
        for new in (turn(old), turn(old).replace("-", "_"), turn(old).replace("-", "_") + "_lem", turn(old) + "_lem", turn(old).lower()):
            if new != old and new in there:
                turned[old] = new
                return new
        return old

    def operator(match):
        new = match.group(0).replace("_", "◌")
        if new not in there:
            return match.group(0)
        turned[match.group(0)] = new
        return new

    def path(match):
        crate, part, rest = match.groups()
        if rest.startswith("." + part):
            rest = rest[len(part) + 1 :]
        return f"Rattle.{crate}.{part}{rest}"

    def quoted(match):
        if match.group(1) is None:
            return CAPITAL.sub(name, match.group(0))
        return "`" + NAME.sub(name, OPERATOR.sub(operator, OLD_PATH.sub(path, match.group(1)))) + "`"

    pages = ["README.md", "CHANGELOG.md", "oracle/README.md"] + sorted(glob.glob("docs/*.md") + glob.glob("docs/requests/*.md"))
    for page in pages:
        if page in STAY:
            continue
        with open(page, encoding="utf-8") as f:
            old = f.read()
        new = "\n".join(re.sub(r"`([^`]*)`|[^`]+", quoted, line) for line in old.split("\n"))
        if new != old:
            with open(page, "w", encoding="utf-8") as f:
                f.write(new)
    for old in sorted(turned):
        print(f"{old} {turned[old]}")


main()
