#!/usr/bin/env python3
"""Turns a crate's proofs that walk the code (Proof.antt) into Invariants.antt and Answers.antt.

usage: python3 tools/convert.py NAME..        at the top, once the crates below NAME are proved

It reads the names of today's goals from `rt check --generated DIR --old-names`, keeps each answer that names a law or a path under its new name, with its
paths in today's form, and leaves out those that the check finds alone (search rules, omega arith). It proves nothing: what it could not turn it prints,
and rt check says the rest. Of a cycle (a folder that begins with +) the measures are written by hand.
"""
import json
import os
import re
import subprocess
import sys
import tempfile

ENTRY = re.compile(r"^(abbrev )?(pub )?([^\s:]+) : (.*)$")


def norm(name):
    name = name.replace("_", "-")
    return re.sub(r"^(overflow-|nonzero-|slice-bounds-|part-)", "", name)


def names_of(crate):
    into = tempfile.mkdtemp()
    run = subprocess.run(["rt", "check", "--generated", into, "--old-names"], cwd="crates/" + crate, capture_output=True, text=True)
    path = os.path.join(into, "names.json")
    if not os.path.exists(path):
        sys.exit(f"{crate}: no names\n" + "\n".join((run.stdout + run.stderr).split("\n")[-30:]))
    with open(path) as f:
        return json.load(f)


class Places:
    def __init__(self, told):
        self.told = told
        self.at = {}
        for i, (old, parent, step, callee, _) in enumerate(told["places"]):
            self.at[old] = (i, parent, step[0], step[1])
        self.typed = told["typed"]
        self.arms = told["arms"]
        self.clauses = told["clauses"]

    def field(self, start, fields):
        """The new path of fields, read from a place; None where it can't be told."""
        place = start
        fields = list(fields)
        while fields and fields[0] == "before":
            if place not in self.at or self.at[place][1] is None:
                return None
            place = self.at[place][1]
            fields.pop(0)
        if not fields:
            return ("place", place)
        first = fields[0]
        if first == "args":
            return ("path", ["args"] + fields[1:])
        if norm(first) == "well-formed":
            return ("path", ["well_formed"] + fields[1:])
        if first in ("requires", "pre"):
            pre = self.told["pre"]
            rest = fields[1:]
            if pre and pre.get("fields") and rest and rest[0].isdigit() and int(rest[0]) < len(pre["fields"]):
                rest = [pre["fields"][int(rest[0])]] + rest[1:]
            return ("path", ["requires"] + rest)
        i, parent, old, new = self.at[place]
        if norm(old) != norm(first):
            # maybe the step of a place above with that name
            up = place
            while up and norm(self.at[up][2]) != norm(first):
                up = self.at[up][1]
            if not up:
                return None
            place = up
            i, parent, old, new = self.at[place]
        rest = fields[1:]
        # a slice's numbers fit: what the type says
        for row in [self.typed[self.at[start][0]]] + self.typed:
            for var, step in row:
                if step == old and norm(step).startswith(("shared-slice-known", "slice-known")):
                    if rest and rest[0] == "given":
                        rest = rest[1:]
                    return ("path", ["type_inv", var] + rest)
        best = None
        for arm in self.arms:
            if not arm:
                continue
            for fieldname, step, olds in arm[2]:
                if step == old and rest[: len(olds)] == olds and fieldname != arm[0] + "-own" and (best is None or len(olds) > best[2]):
                    best = (arm[0], fieldname, len(olds))
        if best:
            return ("path", [best[0], best[1]] + rest[best[2]:])
        if rest and rest[0] == "ensures" and len(rest) > 1 and self.clauses[i] and rest[1].isdigit() and int(rest[1]) < len(self.clauses[i]):
            rest = ["ensures", self.clauses[i][int(rest[1])]] + rest[2:]
        return ("path", [re.sub(r"^(.*)-own$", r"\1", new)] + rest)


PATH = re.compile(r"(?<![\w'.\-])(%s)((?:\.[\w'\-«»]+)+|(?![\w'.\-]))")


def turn(body, start, places, said):
    """The body of an answer with the paths of today."""
    alias = {"c": start}
    # let b = c.before.before in
    while True:
        m = re.search(r"let (\w+) = (\w+)((?:\.before)*) in\s*", body)
        if not m or m.group(2) not in alias:
            break
        got = places.field(alias[m.group(2)], m.group(3).split(".")[1:])
        if not got or got[0] != "place":
            break
        alias[m.group(1)] = got[1]
        body = body[: m.start()] + body[m.end():]

    def put(m):
        name, fields = m.group(1), [x for x in m.group(2).split(".") if x]
        if not fields:
            return m.group(0)
        got = places.field(alias[name], fields)
        if not got or got[0] != "path":
            said.append(m.group(0))
            return m.group(0)
        return "c." + ".".join(got[1])

    return re.sub(PATH.pattern % "|".join(sorted(alias, key=len, reverse=True)), put, body)


def convert(crate, folder, told, said):
    path = os.path.join(folder, "Proof.antt")
    with open(path, encoding="utf-8") as f:
        text = f.read()
    blocks = re.split(r"\n[ \t]*\n", text)
    comments, uses, entries = [], [], []
    for b in blocks:
        lines = b.rstrip("\n").split("\n")
        note = []
        while lines and (lines[0].startswith("--") or lines[0].startswith("use ") or not lines[0].strip()):
            line = lines.pop(0)
            if line.startswith("use "):
                uses.append(line)
            elif line.startswith("--"):
                (note if entries or uses else comments).append(line)
        if lines:
            entries.append((note, lines))
    places = Places(told)
    needs = told["needs"]
    asked = told["asked_at"]
    if len(asked) != len(needs):
        said.append(f"{len(needs)} needs, {len(asked)} places")
    byold = {}
    for k, (old, new) in enumerate(needs):
        byold.setdefault(norm(old), []).append((new, asked[k][0] if k < len(asked) else "Start"))
    fine = {norm(x) for x in told["settled"]}
    answers, invariants, laws = [], [], []
    for note, lines in entries:
        m = ENTRY.match(lines[0])
        if not m:
            laws.append("\n".join(note + lines))
            continue
        kind = m.group(4)
        if kind.endswith("statement M"):
            continue
        loop = re.match(r"tie\.(invariant|decreases)-(\S+)$", kind)
        need = re.match(r"tie\.Need-(\S+)", kind)
        if loop:
            found = [x for x in zip(told["loops"], told["changed"]) if norm(x[0][0][0]) == norm(loop.group(2))]
            if not found:
                said.append("no loop " + lines[0])
                continue
            ((old, new), names), changed = found[0]
            text = "\n".join(lines[1:])
            head, body = text.split(" =", 1)
            given = head.split()[1:]
            want = [("l.initial." if c else "l.") + n for n, c in zip(names, changed)] + ["l." + n for n, c in zip(names, changed) if c]
            if len(given) != len(want):
                said.append(f"{lines[0]}: {len(given)} arguments for {len(want)}")
            table = {g: w for g, w in zip(given, want) if g != "_"}
            body = re.sub(r"(?<![\w'.\-₀])([^\W\d][\w'₀]*(?:-[\w'₀]+)*)", lambda q: table.get(q.group(1), q.group(1)), body)
            name = f"{loop.group(1)}-{new}"
            invariants.append("\n".join(note + [f"abbrev pub {name} : goal.{name}", f"{name} l ={body}"]))
        elif need:
            old = norm(need.group(1))
            if old not in byold:
                if old not in fine:
                    said.append(f"no goal {need.group(1)}: " + " ".join(x.strip() for x in lines[1:])[:200])
                continue
            new, start = byold[old][0]
            unfold = [x for x in lines[1:] if x.startswith("unfolding ")]
            text = "\n".join(x for x in lines[1:] if not x.startswith("unfolding "))
            q = re.match(r"\S+((?: [^\s=]+)*) =", text)
            if not q:
                said.append("unread " + text[:80])
                continue
            given = q.group(1).split()
            body = text[q.end():]
            if not unfold and body.strip() in ("search rules", "search needs", "omega arith", "tt", "refl"):
                continue
            body = turn(body, start, places, said)
            if new in told["asked"]:
                body = as_record(body, told["asked"][new])
            answers.append("\n".join(note + [f"pub {new} : goal.{new}"] + unfold + [f"{new} c ={body}"]))
        else:
            laws.append("\n".join(note + lines))
    write(crate, folder, comments, uses, invariants, laws, answers)
    os.remove(path)


def split_top(text):
    """The parts of a tuple."""
    parts, deep, part = [], 0, ""
    for ch in text:
        deep += (ch in "([{") - (ch in ")]}")
        if ch == "," and deep == 0:
            parts.append(part.strip())
            part = ""
        else:
            part += ch
    return parts + [part.strip()]


def as_record(body, fields):
    """A tuple as the record that today's goal is."""
    text = body.strip()
    if not (text.startswith("(") and text.endswith(")")):
        return body
    parts = split_top(text[1:-1])
    if len(parts) != len(fields):
        return body
    line = " record { " + "; ".join(f"{a} = {b}" for a, b in zip(fields, parts)) + " }"
    if len(line) <= 110 and "\n" not in line:
        return line
    return "\n    record {\n" + "".join(f"      {a} = {b};\n" for a, b in zip(fields, parts)) + "    }"


def cycle(crate, folder, members, said):
    """A cycle of calls: the answers of each member."""
    path = os.path.join(folder, "Proof.antt")
    with open(path, encoding="utf-8") as f:
        text = f.read()
    comments = re.findall(r"^--.*$", text.split("\nuse ")[0], re.M)
    uses = re.findall(r"^use .*$", text, re.M)
    answers = []
    for block in re.split(r"\n[ \t]*\n", text):
        m = re.match(r"(?:--.*\n)*(\S+) : \(t : ℕ\) → (\S+?)-lts\.Need-(\S+)", block)
        if not m:
            continue
        name, member, old = m.groups()
        told = [v for k, v in members.items() if norm(k) == norm(member)]
        if not told:
            said.append("no member " + member)
            continue
        told = told[0]
        places = Places(told)
        got = [(new, told["asked_at"][k][0]) for k, (o, new) in enumerate(told["needs"]) if norm(o) == norm(old)]
        d = re.search(r"^((?:unfolding .*\n)?)" + re.escape(name) + r" t((?: [^\s=]+)*) =((?:.|\n)*)", block, re.M)
        if not got or not d:
            said.append(f"no goal {member} {old}: " + (d.group(3).strip()[:200] if d else ""))
            continue
        (new, start), body = got[0], d.group(3).rstrip()
        if not d.group(1) and body.strip() in ("search rules", "search needs", "omega arith", "tt", "refl"):
            continue
        body = turn(body, start, places, said)
        if new in told["asked"]:
            body = as_record(body, told["asked"][new])
        if len(members) > 1:
            new = f"{[k for k in members if norm(k) == norm(member)][0]}-{new}"
        answers.append(f"pub {new} : goal.{new}\n{d.group(1)}{new} t c ={body}")
    write(crate, folder, comments, uses, [], [], answers)
    os.remove(path)


def write(crate, folder, comments, uses, invariants, laws, answers):
    mod = "Rattle." + crate + ".proofs." + ".".join(folder.split("/proofs/", 1)[1].split("/"))
    uses = [u for u in uses if ".Tie as tie" not in u and ".Statement.{statement}" not in u]
    for name, kind, parts in (("Invariants", "Given", invariants), ("Answers", "Goals", laws + answers)):
        if not parts or (name == "Answers" and not answers):
            continue
        body = "\n\n".join(parts)
        mine = []
        for u in uses:
            n = re.match(r"use ([^\s{]+)\.\{(.*)\}$", u)
            if n:
                kept = [x for x in re.split(r",\s*", n.group(2)) if used(x, body)]
                if kept:
                    mine.append(f"use {n.group(1)}.{{{', '.join(kept)}}}")
            else:
                n = re.match(r"use (\S+) as (\S+)$", u)
                if not n or re.search(r"(?<![\w'])" + re.escape(n.group(2)) + r"\.", body):
                    mine.append(u)
        out = "\n".join(comments + mine + [f"use {mod}.{kind} as goal"]) + "\n\n" + body + "\n"
        with open(os.path.join(folder, name + ".antt"), "w", encoding="utf-8") as f:
            f.write(out)


def used(item, body):
    item = item.split(" as ")[-1].strip()
    parts = [p for p in item.split("◌") if p]
    if item.startswith("◌") or "◌" in item:
        return all(re.search(re.escape(p), body) for p in parts)
    return bool(re.search(r"(?<![\w'.\-])" + re.escape(item) + r"(?![\w'\-])", body))


def main():
    for crate in sys.argv[1:]:
        names = names_of(crate)
        for folder, dirs, files in sorted(os.walk(f"crates/{crate}/proofs")):
            if "Proof.antt" not in files:
                continue
            if os.path.basename(folder).startswith("+"):
                start = f"Rattle-{crate}-proofs." + ".".join(folder.split("/proofs/", 1)[1].split("/")) + ".Lts-"
                said = []
                cycle(crate, folder, {k[len(start):]: v for k, v in names.items() if k.startswith(start)}, said)
                for s in said + ["a cycle: its measure by hand"]:
                    print(f"{folder}: {s}")
                continue
            key = f"Rattle-{crate}-proofs." + ".".join(folder.split("/proofs/", 1)[1].split("/")) + ".Lts"
            if key not in names:
                print(f"{folder}: no names")
                continue
            said = []
            convert(crate, folder, names[key], said)
            for s in said:
                print(f"{folder}: {s}")


main()
