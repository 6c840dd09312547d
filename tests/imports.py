#!/usr/bin/env python3
"""No file below crates/ imports a name that it never uses. The words of a file are compared, not their scopes."""
import glob
import re
import sys

# an import, and a name that is passed on: in a line, or up to the semicolon where the braces are closed further down
IMPORT, PASSED_ON = (rf"^ *{before}use (?:[^{{\n]*\{{[^}}]*\}}.*|.*)$" for before in ("(?:ghost )?", "pub "))
# where a comment begins, by the file's ending
COMMENT = {"antt": r"--.*", "rt": r"//.*"}
# traits of std, each with the methods whose calls use it
METHODS = {"Read": {"read"}, "Write": {"write", "write_all"}}
# the places of a crate's files; what rt makes beside them is none of ours
PLACES = "crates/*/{}/**/*.{}"


def imported(line):
    """The names that an import brings in: those in its braces, else one; of a renamed one, the new name."""
    braces = re.search(r"(?s)\{(.*)\}", line)
    for item in filter(str.strip, braces[1].split(",") if braces else [line]):
        yield re.split(r"::|\s+", item.strip().rstrip(";"))[-1]


def words(text, ending):
    """The words of a text; those of Rattle's own syntax, too, where the file is of Rattle."""
    found = set(re.split(r"[\s(){};,.]+", text))
    return found.union(re.findall(r"\w+", text)) if ending == "rt" else found


def is_used(name, used):
    """Whether a name is among the words used; an operator may stand there by its signs, and a trait by a method of it."""
    return name in used or not used.isdisjoint(METHODS.get(name, ())) or "◌" in name and used.issuperset(filter(None, name.split("◌")))


def main():
    count, faults = 0, []
    places = [PLACES.format(*place) for place in (("src", "rt"), ("specs", "antt"), ("proofs", "antt"))]
    for path in sorted(path for place in places for path in glob.glob(place, recursive=True)):
        ending = path.rsplit(".", 1)[1]
        with open(path, encoding="utf-8") as file:
            text = re.sub(COMMENT[ending], "", file.read())
        used = words(re.sub(f"{IMPORT}|{PASSED_ON}", "", text, flags=re.M), ending)
        for name in (name for line in re.findall(IMPORT, text, re.M) for name in imported(line)):
            count += 1
            if not is_used(name, used):
                faults.append(f"{path}: {name} is imported and never used")
    for fault in faults:
        print(fault)
    print(f"{count} imported names looked at, {len(faults)} never used")
    sys.exit(1 if faults or count == 0 else 0)


main()
