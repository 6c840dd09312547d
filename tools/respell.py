#!/usr/bin/env python3
"""Brings the names of definitions, lemmas and fields from camel case (`columnLimit`) to snake case (`column_limit`), as today's Rattle spells them.

usage: python3 tools/respell.py [--list]      at the top of the repository, once, after the toolchain's own script
It goes over the .rt, .antt and .edit files of crates/ and over the pages. Names of types, facts, modules and constants keep their spelling, and so
do those of the toolchain (THEIRS). --list prints the names and changes nothing.
"""

import os
import re
import sys

# names of the toolchain's libraries
THEIRS = {"uint_Makes", "uint_Tells", "shr_slice_Tells", "mut_Tells", "walk_Meets", "shr_Tells", "uint_Lawful", "mut_slice_Tells", "is_IsWide"}

# names whose spelling in snake case is taken by something else
OTHERWISE = {"tooMany": "is_too_many", "rowFrom": "row_started", "parentColumn": "column_of_parent", "front-getD": "front-get_or"}


def snake(name):
    if name in OTHERWISE:
        return OTHERWISE[name]
    return re.sub(r"(?<![_\-])([A-Z])", lambda m: "_" + m.group(1).lower(), name)


def texts():
    for folder, dirs, files in os.walk("crates"):
        dirs[:] = sorted(d for d in dirs if d != "out")
        for f in sorted(files):
            if f.endswith((".rt", ".antt", ".edit")):
                yield os.path.join(folder, f)


def declared():
    """The names in camel case that stand in the repository's definitions, lemmas and clauses, and those that a clause gives a definition."""
    found = {}
    for path in texts():
        if path.endswith(".rt"):
            with open(path, encoding="utf-8") as f:
                for line in f:
                    if line.startswith("ghost use "):
                        found.update((word, snake(word)) for word in re.findall(r" as ([a-z][A-Za-z0-9]*[A-Z][A-Za-z0-9]*)", line))
        if path.endswith(".antt") and not path.endswith(("/Answers.antt", "/Invariants.antt")):
            with open(path, encoding="utf-8") as f:
                for line in f:
                    if not line.lstrip().startswith("--"):
                        for word in re.findall(r"[^\s(){}.,;«»:]+", line):
                            if re.fullmatch(r"[a-z][A-Za-z0-9_'\-]*", word) and re.search("[A-Z]", word) and word not in THEIRS:
                                found[word] = snake(word)
    return found


def main():
    names = declared()
    if sys.argv[1:] == ["--list"]:
        for name, new in sorted(names.items()):
            print(name, new)
        return
    word = re.compile(r"(?<![A-Za-z0-9_'\-])[a-z][A-Za-z0-9_'\-]*(?![A-Za-z0-9_'\-])")
    pages = [os.path.join("docs", f) for f in sorted(os.listdir("docs")) if f.endswith(".md")] + ["README.md", "oracle/README.md"]
    for path in [*texts(), *pages]:
        with open(path, encoding="utf-8") as f:
            text = f.read()
        new = word.sub(lambda m: names.get(m.group(0), m.group(0)), text)
        if new != text:
            with open(path, "w", encoding="utf-8") as f:
                f.write(new)


main()
