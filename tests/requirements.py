#!/usr/bin/env python3
"""What docs/REQUIREMENTS.md names is there, and every must-fail edit and every mutant of demand 3 and of R-9 is named in it.

Each name in backquotes, but for those in the quotations of document 01 (a table's left column), is looked up:
- `a/path`: a file or folder, below crates/ unless it begins with one of PLACES, or a must-fail edit, `crate/label`;
- `path` `a`, `b`, and `a`, `b` of `path`: defined in that file;
- `crate::function`, `crate::Type::function`: a function of that crate, with a contract;
- `T` (`a`), `T` (its field `a`), field `a` of `T`: stands in a definition of T, or in T's contract;
- crate, program, test or mutant `a`: one of these, a mutant as `test` and a file of MUTANTS name it;
- any other: a crate, or defined in some file of the crates."""
import glob
import os
import re
import sys
import textwrap

sys.dont_write_bytecode = True

from common import read_text

DOCUMENT = "docs/REQUIREMENTS.md"
# the lists of mutants in `test`, each with the file of the Rust side that has the same ones
MUTANTS = {"wrong_machines": "oracle/src/demand3/faults.rs", "broken_links": "oracle/src/no_gap/faults.rs"}
PLACES = ("oracle/", "tests/", "examples/", "docs/", "crates/", "./")

# names in backquotes that are nothing of ours: words of the language and of the document, and files of a program
OTHER = {"requires", "ensures", "&mut out[at..]", "&mut drawn[at..]", "..", "stdin", "stdout"}

# the folders of a crate that hold its files, each with their ending
PARTS = (("src", ".rt"), ("specs", ".antt"), ("proofs", ".antt"))
# how a definition begins, by the file's ending: a name with its type, a record or a data type; an item
BEGINS = {
    ".antt": r"(?m)^ *(?:abbrev |unfoldable )?(?:pub )?(?:(?:record|data) |(?=\S+(?: \{[^}\n]*\})* :\s))([^\s:=(){}]+)",
    ".rt": r"(?m)^ *(?:pub(?:\(crate\))? )?(?:extern \"C\" )?(?:fn|struct|enum|const|mod|type) (\w+)",
}
# a field of a struct, or a case of an enum
PART = r"(?m)^ {4}(?:pub )?(\w+(?=: )|[A-Z]\w*(?=,$|\())"
# a function's head, which ends where its body begins
HEAD = r"(?ms)^(?:pub(?:\(crate\))? )?(?:extern \"C\" )?fn %s\b.*?^\{$"


def listed(variable):
    """The mutants that a list of `test` names."""
    return set(re.findall(r"(?m)^(\w+) ", re.search(rf"(?s)\n{variable}='(.*?)'", read_text("test"))[1]))


def uneven():
    """Mutants that only one of `test` and the file of the Rust side names, and names that stand for two mutants."""
    named = [(path, listed(variable), set(re.findall(r'\("(\w+)", Fault::', read_text(path)))) for variable, path in MUTANTS.items()]
    for path, tried, built in named:
        yield from (f"only one of `test` and {path} names the mutant `{name}`" for name in sorted(tried ^ built))
    yield from (f"two mutants have the name `{name}`" for name in sorted(set.intersection(*(tried for _, tried, _ in named))))


def stands(name, texts):
    """Whether a name stands in one of these texts."""
    word = re.compile(r"(?<![\w-])" + re.escape(name) + r"(?![\w-])")
    return any(word.search(text) for text in texts)


class Source:
    """A file of code, definitions or proofs, and what it defines."""

    def __init__(self, path):
        ending = os.path.splitext(path)[1]
        self.text = read_text(path)
        self.begins = [(found[1], found.start()) for found in re.finditer(BEGINS[ending], self.text)]
        self.names = {name for name, _ in self.begins}
        if ending == ".rt":
            self.names.update(re.findall(PART, self.text))

    def definitions(self, name):
        """The text of each definition of a name, up to an empty line with no indented one behind it."""
        return [re.split(r"\n\n(?=\S)", self.text[start:], maxsplit=1)[0] for begun, start in self.begins if begun == name]


class Sources:
    """All that the document can name."""

    def __init__(self):
        paths = [path for part, ending in PARTS for path in glob.glob(f"crates/*/{part}/**/*{ending}", recursive=True)]
        self.files = {path: Source(path) for path in paths}
        self.crates = set(re.findall(r"(?m)^(\w+)[^#\n]*:", read_text("crates.txt")))
        self.tests = set(re.findall(r"(?m)^ *check (\S+)", read_text("test")))
        self.mutants = set.union(*map(listed, MUTANTS))
        self.names = set.union(self.crates, *(file.names for file in self.files.values()))

    def heads(self, name):
        """The heads of the functions with this name: a crate, perhaps a type or a module of it, and the function."""
        crate, *owner, function = name.split("::")
        files = {path: file.text for path, file in self.files.items() if path.startswith(f"crates/{crate}/src/")}
        if owner:
            block = re.compile(rf"(?ms)^impl {owner[0]} \{{\n(.*?)^\}}")
            methods = [textwrap.dedent(found) for text in files.values() for found in block.findall(text)]
            texts = methods + [text for path, text in files.items() if path.endswith(f"/{owner[0]}.rt")]
        else:
            texts = files.values()
        return [found for text in texts for found in re.findall(HEAD % function, text)]

    def about(self, name):
        """The definitions of a name; of a function of a crate, the heads; of a crate, what it defines."""
        if "::" in name:
            return self.heads(name)
        of_crate = [" ".join(file.names) for path, file in self.files.items() if path.startswith(f"crates/{name}/")]
        return of_crate + [text for file in self.files.values() for text in file.definitions(name)]


class Frame:
    """A cell or a paragraph, or what stands in brackets there, as far as it has been read."""

    def __init__(self, owner=None):
        self.owner = owner  # the name in front of the bracket
        self.gap = ""  # the words since the last name
        self.lead, self.listed = "", []  # the words in front of the list of names that is being read, and its names
        self.file = None  # the file in which they are defined
        self.parts, self.are_fields = [], False  # the names of the list before where `of` stands between, and whether they are fields

    def begin(self):
        """Begins a list of names, unless only a comma or an `and` stands in front of the next one."""
        gap, self.gap = self.gap.strip(), ""
        if self.listed and re.fullmatch(r",?( ?and)?", gap):
            return
        self.parts, self.are_fields = (self.listed if gap == "of" else []), re.search(r"\bfields?$", self.lead)
        if self.listed and not re.search(r"\bits\b", self.lead):
            self.owner = self.listed[-1]
        self.lead, self.listed, self.file = gap, [], None


class Reader:
    """Reads the document, and collects the must-fail edits and mutants that it names and what is not there."""

    def __init__(self):
        self.sources = Sources()
        self.faults, self.edits, self.mutants, self.count, self.line = [], set(), set(), 0, 0

    def demand(self, holds, name, words):
        if not holds:
            self.faults.append(f"{DOCUMENT}:{self.line}: `{name}` {words}")

    def read(self, text):
        """A cell or a paragraph."""
        frames = [Frame()]
        for place, part in enumerate(re.split(r"`([^`]+)`", text)):
            if place % 2:
                self.count += 1
                frames[-1].begin()
                self.look_up(part, frames[-1])
                frames[-1].listed.append(part)
                continue
            for char in part:
                if char == "(":
                    outer = frames[-1]
                    frames.append(Frame(outer.listed[-1] if outer.listed and not outer.gap.strip() else None))
                elif char == ")" and len(frames) > 1:
                    frames.pop()
                else:
                    frames[-1].gap += char

    def look_up(self, name, frame):
        """A name, by how it is written and by what stands in front of it."""
        if name in OTHER:
            return
        if "/" in name:
            frame.file = self.path(name.split()[0])
            for part in [] if frame.are_fields or not frame.file else frame.parts:
                self.demand(part in frame.file.names, part, f"is not defined in {name}")
            return
        for part in frame.parts:
            self.demand(stands(part, self.sources.about(name)), part, f"does not stand in {name}")
        if "::" in name:
            self.demand(stands("ensures", self.sources.heads(name)), name, "is no function with a contract")
        elif name.endswith(".antt"):
            self.demand(any(path.endswith("/" + name) for path in self.sources.files), name, "is no file")
        elif re.search(r"\b(crate|program)s?$", frame.lead):
            self.demand(name in self.sources.crates, name, "is no crate")
        elif re.search(r"\btests?$", frame.lead):
            self.demand(name in self.sources.tests, name, "is no test")
        elif re.search(r"\bmutants?$", frame.lead):
            self.mutants.add(name)
            self.demand(name in self.sources.mutants, name, "is no mutant")
        elif frame.file:
            self.demand(name in frame.file.names, name, "is not defined in the file that is named in front of it")
        elif frame.owner and re.search(r"\bits( fields?)?$", frame.lead):
            self.demand(stands(name, self.sources.about(frame.owner)), name, f"does not stand in {frame.owner}")
        else:
            self.demand(name in self.sources.names, name, "is defined nowhere")
            if frame.owner and not frame.lead:
                self.demand(stands(name, self.sources.about(frame.owner)), name, f"does not stand in {frame.owner}")

    def path(self, name):
        """A file, a folder or a must-fail edit; the source, if it is one."""
        path = name if name.startswith(PLACES) else f"crates/{name}"
        if os.path.exists(path):
            return self.sources.files.get(path)
        crate, _, label = name.partition("/")
        self.edits.add(name)
        self.demand(os.path.exists(f"crates/{crate}/must-fail/{label}.edit"), name, "is no file and no must-fail edit")
        return None


def main():
    reader = Reader()
    for reader.line, line in enumerate(read_text(DOCUMENT).splitlines(), 1):
        reader.read(re.split(r"(?<!\\)\|", line)[-2] if line.startswith("|") else line)
    edits = [path.split("/") for path in sorted(glob.glob("crates/*/must-fail/*.edit"))]
    names = [f"{crate}/{os.path.splitext(file)[0]}" for _, crate, _, file in edits]
    faults = reader.faults + [f"{DOCUMENT} does not name the must-fail edit `{name}`" for name in names if name not in reader.edits]
    faults += uneven()
    faults += [f"{DOCUMENT} does not name the mutant `{name}`" for name in sorted(reader.sources.mutants - reader.mutants)]
    for fault in faults:
        print(fault)
    print(f"{reader.count} names and {len(names)} must-fail edits looked at")
    sys.exit(1 if faults or reader.count == 0 or not names else 0)


main()
