#!/usr/bin/env python3
"""Respells the repository's own definitions and lemmas by the table names.txt beside this script: an old and a new name a line.

usage: tools/rename_names.py [FOLDER]      FOLDER: a checkout whose files port.py has turned; by default this one

Rewrites .antt and .rt files below crates/, and the lines old: and new: of must-fail edits. In comments only names that no English
word could be (with a capital inside) change; strings stay. Functions of src/, exports and outputs keep their names.
"""
import os
import re
import sys

HERE = os.path.dirname(os.path.realpath(__file__))
SPLIT = re.compile(r'([\s(){}\[\];,."λ]+)')
HUMP = re.compile(r"[a-z0-9][A-Z]")


def table():
    with open(os.path.join(HERE, "names.txt"), encoding="utf-8") as f:
        return dict(line.split() for line in f if line.strip() and not line.startswith("#"))


def words(text, names, only_humps=False):
    return "".join(names[w] if w in names and not (only_humps and not HUMP.search(w)) else w for w in SPLIT.split(text))


def antt_line(line, names):
    at = re.search(r"(^|\s)--(\s|$)", line)
    if not at:
        return words(line, names)
    return words(line[: at.start()], names) + words(line[at.start() :], names, True)


def rt_line(line, names):
    parts = re.split(r'("(?:[^"\\]|\\.)*"|//.*)', line)
    return "".join(p if p.startswith('"') else words(p, names, p.startswith("//")) for p in parts)


def edit_line(line, names):
    at = re.match(r"(old|new): ", line)
    return line[: at.end()] + rt_line(line[at.end() :], names) if at else line


def main(folder):
    names = table()
    turn = {".antt": antt_line, ".rt": rt_line, ".edit": edit_line}
    for here, dirs, files in os.walk(os.path.join(folder, "crates")):
        dirs[:] = sorted(d for d in dirs if d != "out")
        for f in sorted(files):
            how = turn.get(os.path.splitext(f)[1])
            if not how:
                continue
            path = os.path.join(here, f)
            with open(path, encoding="utf-8") as it:
                old = it.read()
            new = "".join(how(line, names) for line in old.splitlines(keepends=True))
            if new != old:
                with open(path, "w", encoding="utf-8") as it:
                    it.write(new)


if __name__ == "__main__":
    main(sys.argv[1] if len(sys.argv) > 1 else os.path.dirname(HERE))
