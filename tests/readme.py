#!/usr/bin/env python3
"""What README.md, docs/HOUSE.md and oracle/README.md quote and name is so.

- README quotes the pages and the table of QUOTED as they are in examples/.
- README's table of refusals is the one that tools/refusals.py prints.
- That table has the refusals of document 01 (1 to 12), by the variants of the code's `Refusal`, and of the later ones those that some code gives.
- The paths that the documents name are there, oracle/README.md names every file of the Rust side, and the functions that docs/HOUSE.md names stand in their crates.
- docs/HOUSE.md has the crates of crates.txt, in its table and in its drawing, each in a layer above those that it uses."""
import glob
import re
import sys

sys.dont_write_bytecode = True

from common import read_text
from refusals import REFUSALS, table

DOCUMENTS = ("README.md", "docs/HOUSE.md", "oracle/README.md")
HOUSE = "docs/HOUSE.md"
NUMBERS = "crates/render/src/refusals.rt"

# the files of examples/ that README quotes, each with the line in front of its lines and the one behind them
QUOTED = {"merges.page": ("```", "```"), "first.history": ("cat >mine.history <<'END'", "END"), "first.page": ("```", "```"), "reading.page": ("```", "```")}

# the lines around README's table of refusals
TABLE = "<!-- tools/refusals.py -->\n", "<!-- end -->\n"

# the last refusal of document 01
LAST = 12

# what has a slash and is no path of the repository: what a build makes, and what stands beside the repository
ELSEWHERE = r"target/|crates/\w+/out\b|/dev/|\.\./shared\b"


def quotes():
    """Files that README does not quote as they are."""
    readme = read_text("README.md")
    for name, (before, behind) in QUOTED.items():
        if f"\n{before}\n{read_text(f'examples/{name}')}{behind}\n" not in readme:
            yield f"README.md does not quote examples/{name} as it is"


def refusal_table():
    """README's table of refusals, where it is not the tool's."""
    begins, ends = TABLE
    parts = re.findall(re.escape(begins) + "(.*?)" + re.escape(ends), read_text("README.md"), re.S)
    if parts != ["".join(f"{line}\n" for line in table())]:
        yield "README.md: the table of refusals is not the one that `python3 tools/refusals.py` prints"


def variants():
    """The number and the name of each refusal of the code."""
    return {int(number): name for name, number in re.findall(r"(?m)^    (\w+) = (\d+),$", read_text(NUMBERS))}


def given():
    """The words of the code outside the refusals' own file, without comments and without names that are only passed on."""
    files = [path for path in glob.glob("crates/*/src/**/*.rt", recursive=True) if path != NUMBERS]
    texts = (re.sub(r"//.*|(?m:^ *pub use [^;]*;)", "", read_text(path)) for path in files)
    return {word for text in texts for word in re.findall(r"\w+", text)}


def refusal_numbers():
    """Refusals that the tool's table lacks, has too many, or names otherwise than the code."""
    known, words = variants(), given()
    wanted = {number: name for number, name in known.items() if number <= LAST or name in words}
    told = {refusal.number: refusal.variant for refusal in REFUSALS}
    if len(told) != len(REFUSALS) or not set(range(1, LAST + 1)) <= set(known):
        yield f"a number stands twice in tools/refusals.py, or one of 1 to {LAST} not in {NUMBERS}"
    for number, name in sorted(wanted.items() ^ told.items()):
        where = "tools/refusals.py alone has" if told.get(number) == name else "tools/refusals.py lacks"
        yield f"{where} the refusal {number}, {name}"


def paths(document):
    """The paths that a document names: words with a slash, and names of Markdown, Python and text files."""
    text = re.sub(r"https?://\S+", "", read_text(document))
    words = re.findall(r"[\w.*-]*(?:/[\w.*-]+)+/?|[\w-]+\.(?:md|py|txt)\b", text)
    return {word.rstrip(".") for word in words if not re.match(ELSEWHERE, word)}


def missing_paths():
    """Paths that are not there, seen from the repository's folder."""
    for document in DOCUMENTS:
        for path in sorted(paths(document)):
            if not glob.glob(path):
                yield f"{document} names {path}, which is not there"


def untold_files():
    """Files of the Rust side that oracle/README.md does not name."""
    for path in sorted(glob.glob("oracle/**/*.rs", recursive=True)):
        if path not in paths("oracle/README.md"):
            yield f"oracle/README.md does not name {path}"


def crates():
    """The crates, each with those that it uses."""
    lines = (line.partition("#")[0].partition(":") for line in read_text("crates.txt").splitlines())
    return {name.split()[0]: used.split() for name, _, used in lines if name.strip()}


def functions():
    """The functions that docs/HOUSE.md names, each with its crate: `crate::function`, `crate::Type::function`."""
    known = crates()
    return {(crate, name) for crate, name in re.findall(r"`(\w+)::(?:\w+::)?(\w+)`", read_text(HOUSE)) if crate in known}


def missing_functions():
    """Functions that their crates do not have."""
    for crate, name in sorted(functions()):
        if not any(re.search(rf"\bfn {name}\b", read_text(path)) for path in glob.glob(f"crates/{crate}/src/**/*.rt", recursive=True)):
            yield f"{HOUSE} names {crate}::{name}, which is not there"


def layers():
    """The crates of the drawing of docs/HOUSE.md, each with its layer."""
    drawn = re.findall(r"(?m)^ *(\d+) {2,}(\w+(?: +\w+)*)$", read_text(HOUSE))
    return {crate: int(layer) for layer, row in drawn for crate in row.split()}


def house():
    """What docs/HOUSE.md says of the crates and is not so."""
    uses, drawn = crates(), layers()
    cells = re.findall(r"(?m)^\| (`\w+`(?:, `\w+`)*) \|", read_text(HOUSE))
    told = {name for cell in cells for name in re.findall(r"\w+", cell)}
    for name in sorted(told ^ set(uses)):
        yield f"{name} stands only in one of crates.txt and the table of {HOUSE}"
    for name in sorted(set(drawn) ^ set(uses)):
        yield f"{name} stands only in one of crates.txt and the drawing of {HOUSE}"
    for name in sorted(set(drawn) & set(uses)):
        above = [used for used in uses[name] if drawn.get(used, 0) >= drawn[name]]
        if above:
            yield f"{HOUSE}: {name} uses {', '.join(above)} and is not drawn above"


def main():
    checks = (quotes, refusal_table, refusal_numbers, missing_paths, untold_files, missing_functions, house)
    faults = [fault for check in checks for fault in check()]
    for fault in faults:
        print(fault)
    counts = [len(QUOTED), len(REFUSALS), sum(len(paths(document)) for document in DOCUMENTS), len(functions()), len(layers())]
    print("{} quotations, {} refusals, {} paths, {} functions and {} crates looked at".format(*counts))
    sys.exit(1 if faults or 0 in counts else 0)


main()
