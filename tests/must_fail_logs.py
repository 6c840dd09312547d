#!/usr/bin/env python3
"""Each must-fail edit was tried and refused because a fact fails: what `rt ci` says of it is none of fit (a proof file that names what the edit took
away, a parse or a scope error, a limit of the prover). Run after `test` has left what `rt ci` printed."""
import glob
import os
import re
import sys

LOG = "target/ci.log"

# a line of `rt ci` about an edit: what it came to, and the first that the prover says of it
TOLD = r"(?m)^rt: must-fail (\w+)/([\w.-]+)\.edit: (refused, as it must be)?(.*)$"

# what rt and the prover say where an edit only made a proof file unfit for the code, or where nothing was decided
FIT = [
    r"only because a proof file names",
    r"only by a limit",
    r"error: `[^`]*`: (?:`[^`]*`: )?(?:record|module) `",
    r"has no field",
    r"has no `",
    r"missing field",
    r"not in scope",
    r"is not exported",
    r"no such module",
    r"was not admitted",
    r"\bparse",
    r"unexpected",
    r"expected a ",
]


def main():
    text = open(LOG, encoding="utf-8").read() if os.path.exists(LOG) else ""
    told = {f"{crate}/{label}": (refused, said) for crate, label, refused, said in re.findall(TOLD, text)}
    faults = count = 0
    for edit in sorted(glob.glob("crates/*/must-fail/*.edit")):
        name = f"{edit.split('/')[1]}/{os.path.basename(edit)[:-len('.edit')]}"
        count += 1
        refused, said = told.get(name, ("", ""))
        if not refused:
            print(f"{name}: not refused{said or ', and not told of'}")
        elif not said.startswith(": ") or any(re.search(words, said) for words in FIT):
            print(f"{name}: UNFIT{said or ': nothing is said of why'}")
        else:
            print(f"{name}{said}")
            continue
        faults += 1
    print(f"{count} must-fail edits looked at")
    sys.exit(1 if faults or count == 0 else 0)


main()
