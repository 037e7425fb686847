#!/usr/bin/env python3
"""Lists the wrong programs that cannot be tried: each edit of must-fail/ and refused/ whose old text does not stand exactly once in its file, the
earlier pairs of the edit applied, or whose new text is the old.

usage: python3 tools/edits.py [NAME..]        at the top: all crates, or those named

The last line is `N edits, M that cannot be tried`; the status is 0 where M is 0.
"""
import os
import re
import sys

FOLDERS = ("must-fail", "refused")


def pairs(text):
    """The pairs of an edit: (file, old, new); old or file is None where the line is missing."""
    path = old = None
    for line in text.split("\n"):
        if line.startswith("file: "):
            path = line[len("file: "):].strip()
        elif line.startswith("old: "):
            old = line[len("old: "):]
        elif line.startswith("new:"):
            new = line[len("new:"):]
            yield path, old, new[1:] if new.startswith(" ") else new
            old = None
        elif line and not line.startswith("#"):
            yield path, line, None


def edits(folder, names=()):
    """The edits of the crates below a folder: (crate, folder of the crate, path of the edit)."""
    for name in names or sorted(os.listdir(folder)):
        for part in FOLDERS:
            at = os.path.join(folder, name, part)
            if os.path.isdir(at):
                for file in sorted(os.listdir(at)):
                    if file.endswith(".edit"):
                        yield name, os.path.join(folder, name), os.path.join(at, file)


def applied(crate, edit):
    """The texts that an edit changes, as they stand and as it leaves them, and what is wrong with it."""
    with open(edit, encoding="utf-8") as f:
        text = f.read()
    before, after, number = {}, {}, 0
    for path, old, new in pairs(text):
        number += 1
        if new is None:
            return before, after, "a line is neither file:, old:, new: nor a comment: " + old[:60]
        if not path or not old:
            return before, after, "pair %d has no file: or no old:" % number
        if not re.match(r"(src|specs)/", path) or ".." in path:
            return before, after, "it names no file of src/ or specs/"
        if path not in after:
            try:
                with open(os.path.join(crate, path), encoding="utf-8") as f:
                    before[path] = after[path] = f.read()
            except OSError:
                return before, after, "there is no " + path
        if old == new:
            return before, after, "pair %d: its new text is its old text" % number
        times = after[path].count(old)
        if times != 1:
            return before, after, "pair %d: its old text stands in %s %d times: %s" % (number, path, times, old)
        after[path] = after[path].replace(old, new)
    if not number:
        return before, after, "it has no pair"
    return before, after, "it changes nothing" if before == after else None


def main(names):
    total = bad = 0
    for _, crate, edit in edits("crates", names):
        total += 1
        wrong = applied(crate, edit)[2]
        if wrong:
            bad += 1
            print(f"{edit}: {wrong}")
    print(f"{total} edits, {bad} that cannot be tried")
    return 1 if bad else 0


if __name__ == "__main__":
    sys.exit(main(sys.argv[1:]))
