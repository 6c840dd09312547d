#!/usr/bin/env python3
"""Every public function says what it gives and demands nothing: an `ensures` and no `requires` on each `pub fn` below crates/."""
import glob
import re
import sys


def heads(text):
    """The name of each public function of a source text with its head, clauses included, up to the body's brace."""
    text = re.sub(r"//[^\n]*", "", text)
    for found in re.finditer(r'\bpub\s+(?:const\s+|unsafe\s+)*(?:extern\s+"C"\s+)?fn\s+(\w+)', text):
        at, depth = found.end(), 0
        while at < len(text):
            char = text[at]
            # a clause, which may be starred and may have a name
            clause = re.search(r"\b(requires|ensures)\b\*?\s*\w*\s*$", text[found.end():at])
            if char == "{" and depth == 0 and not clause:
                break
            if char == ";" and depth == 0:
                break
            depth += {"(": 1, "[": 1, "{": 1, ")": -1, "]": -1, "}": -1}.get(char, 0)
            at += 1
        yield found.group(1), text[found.end():at]


def main():
    count, faults = 0, []
    for path in sorted(glob.glob("crates/*/src/**/*.rt", recursive=True)):
        with open(path, encoding="utf-8") as file:
            source = file.read()
        for name, head in heads(source):
            count += 1
            if re.search(r"\brequires\b", head):
                faults.append(f"{path}: {name} has a `requires`")
            if not re.search(r"\bensures\b", head):
                faults.append(f"{path}: {name} has no `ensures`")
    for fault in faults:
        print(fault)
    print(f"{count} public functions looked at")
    sys.exit(1 if faults or count == 0 else 0)


main()
