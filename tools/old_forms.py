"""Counts the places in crates/*/src that still have an older form, by the points of docs/DESIGN-PASS.md.

`python3 tools/old_forms.py [--places] [COMMIT]`: of a commit, or of the files as they stand; with `--places` each place too.
"""
import collections
import glob
import re
import subprocess
import sys

FUNCTION = r"(?m)^ *(?:pub(?:\(crate\))? )?(?:unsafe )?(?:extern \"C\" )?fn (\w+)"


def git(*words):
    """What git prints."""
    return subprocess.run(["git", *words], capture_output=True, text=True, check=True).stdout


def sources(commit, ending):
    """The files of crates/ with this ending, each with its text."""
    if commit is None:
        paths = sorted(path for path in glob.glob("crates/**/*" + ending, recursive=True) if "/out/" not in path)
        return {path: open(path, encoding="utf-8").read() for path in paths}
    paths = [path for path in git("ls-tree", "-r", "--name-only", commit, "crates").split() if path.endswith(ending)]
    return {path: git("show", f"{commit}:{path}") for path in paths}


def code(text):
    """A file without comments and proof lines; the lines stay where they are."""
    return re.sub(r"(?m)//.*$|^ghost use .*$", "", text)


def functions(text):
    """The functions of a file: name, line, parameters, clauses, body."""
    for found in re.finditer(FUNCTION, text):
        at = text.index("(", found.end())
        end, depth = at, 0
        while True:
            depth += {"(": 1, ")": -1}.get(text[end], 0)
            end += 1
            if depth == 0:
                break
        begin = re.compile(r"(?m)(?:^ *|\s)\{$").search(text, end)
        if not begin:
            continue
        start = stop = begin.end() - 1
        depth = 0
        while True:
            depth += {"{": 1, "}": -1}.get(text[stop], 0)
            stop += 1
            if depth == 0:
                break
        yield found.group(1), text.count("\n", 0, found.start()) + 1, text[at + 1:end - 1], text[end:start], text[start:stop]


def parameters(text):
    """How many parameters a list has."""
    flat = re.sub(r"<[^<>]*>|\[[^\[\]]*\]|\([^()]*\)", "", text)
    return len([word for word in flat.split(",") if word.strip()])


def lines(pattern):
    """A form that stands in a line."""
    def places(path, text):
        for number, line in enumerate(text.split("\n"), 1):
            if re.search(pattern, line):
                yield path, number, line.strip()
    return places


def shaped(path, text):
    """Enums of at most three variants, one of them without a value and one with: the shape of Option or Result."""
    for found in re.finditer(r"(?m)^(?:pub(?:\(crate\))? )?enum (\w+) \{\n(.*?)^\}", text, re.S | re.M):
        variants = [line.strip() for line in found.group(2).split("\n") if line.strip()]
        full = [line for line in variants if "(" in line]
        if 0 < len(full) < len(variants) <= 3:
            yield path, text.count("\n", 0, found.start()) + 1, "enum " + found.group(1)


def flags(path, text):
    """Structs with a flag beside the value that it is about."""
    for found in re.finditer(r"(?m)^(?:pub(?:\(crate\))? )?struct (\w+)[^{;]*\{\n(.*?)^\}", text, re.S | re.M):
        for field in re.findall(r"\b((?:is_queued|too_many|was_direct|goes_on|open|is_\w+ed)): bool", found.group(2)):
            yield path, text.count("\n", 0, found.start()) + 1, f"{found.group(1)}.{field}"


def predicates(path, text):
    """Matches with an arm for each variant that give true or false alone."""
    for found in re.finditer(r"match [\w.]+ \{\n((?:\s*[\w:()|_ ]+ => (?:true|false),\n)+)\s*\}", text):
        yield path, text.count("\n", 0, found.start()) + 1, "match of " + str(found.group(1).count("=>")) + " arms"


def pairs(path, text):
    """Structs that hold an array and a count of it."""
    for found in re.finditer(r"(?m)^(?:pub(?:\(crate\))? )?struct (\w+)[^{;]*\{\n(.*?)^\}", text, re.S | re.M):
        if re.search(r": \[.*; \w+\],", found.group(2)) and re.search(r"\b(?:count|width|used|\w*length): usize", found.group(2)):
            yield path, text.count("\n", 0, found.start()) + 1, "struct " + found.group(1)


def array_parameters(path, text):
    """Functions that are given an array and, beside it, a count of it."""
    for name, line, given, _, _ in functions(text):
        if re.search(r"\[\w+; \w+\],\s*(?:count|width|n): usize", given):
            yield path, line, "fn " + name


def wide_functions(path, text):
    """Functions of six parameters or more."""
    for name, line, given, _, _ in functions(text):
        if parameters(given) >= 6:
            yield path, line, f"fn {name}, {parameters(given)} parameters"


def twins(texts):
    """Functions of two statements or more whose bodies differ in names, numbers and characters alone."""
    groups = collections.defaultdict(list)
    for path, text in texts.items():
        for name, line, _, _, body in functions(code(text)):
            shape = re.sub(r"b?'[^']*'|b?\"[^\"]*\"|\b[\w:]+\b", "x", body)
            shape = re.sub(r"\s+", "", shape)
            if len(shape) >= 24:
                groups[shape].append((path, line, "fn " + name))
    for group in groups.values():
        if len(group) > 1:
            yield from group


def shared_facts(texts):
    """Facts of a `requires` that stand in three contracts or more of a crate: one place for each contract."""
    found = collections.defaultdict(list)
    for path, text in texts.items():
        for name, line, _, clauses, _ in functions(text):
            for clause in re.findall(r"requires(?: \w+)? \{ (.*) \}", clauses):
                for fact in re.split(r" × ", clause):
                    found[path.split("/")[1], fact.strip(" ()")].append((path, line, f"fn {name}: {fact.strip(' ()')}"))
    for group in found.values():
        if len(group) >= 3:
            yield from group


POINTS = (
    (1, "enums of the shape of Option or Result", shaped),
    (1, "numbers for refusals", lines(r"\brefusal: u8|^(?:pub )?const [A-Z_]+: u8 = \d+;|refusal [!=]= (?:ACCEPTED|0)")),
    (1, "flags with a value beside them", flags),
    (2, "functions alike but for names and numbers", twins),
    (3, "loops that count or step by hand (`while`)", lines(r"^ *while\b(?! let)")),
    (3, "loops over a range of places (`for .. in a..b`)", lines(r"^ *for \w+ in [\w.() ,:]+\.\.[^.]")),
    (4, "predicates by a match of every variant", predicates),
    (4, "greater, lesser, difference, conversions by hand", lines(r"\bfn (?:greater|lesser|difference|saturating_sub|pick|wide|is_some|digit|write_decimal|one_if|ended_by|flag|low_byte)\(")),
    (4, "a number taken for a kind by a match", lines(r"match (?:kind|code|number|character|k) \{")),
    (5, "facts of a `requires` in three contracts or more", shared_facts),
    (5, "functions of six parameters or more", wide_functions),
    (6, "structs of an array and its count", pairs),
    (6, "functions given an array and its count", array_parameters),
    (7, "switches on which step to run", lines(r"match (?:program|frame|letter) \{|Frame::Listed = frame")),
)


def main(words):
    """Prints the counts."""
    show = "--places" in words
    rest = [word for word in words if word != "--places"]
    commit = rest[0] if rest else None
    texts = {path: text for path, text in sources(commit, ".rt").items() if "/src/" in path}
    for point, label, places in POINTS:
        if places in (twins, shared_facts):
            found = list(places(texts))
        else:
            found = [place for path, text in texts.items() for place in places(path, code(text))]
        print(f"{point} {label}: {len(found)}")
        if show:
            for path, line, what in found:
                print(f"    {path}:{line}: {what}")
    for name in ("Invariants.antt", "Answers.antt", "Proof.antt"):
        files = {path: text for path, text in sources(commit, name).items() if "/proofs/" in path}
        print(f"8 files {name}: {len(files)}, lines {sum(text.count(chr(10)) for text in files.values())}")
    laws = {path: text for path, text in sources(commit, ".antt").items() if re.match(r"crates/\w+/proofs/\w+\.antt$", path)}
    print(f"8 files of lemmas: {len(laws)}, lines {sum(text.count(chr(10)) for text in laws.values())}")


if __name__ == "__main__":
    main(sys.argv[1:])
