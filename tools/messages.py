"""Every message of `draw`, `pack` and `unpack`, by name. tests/tables.py and tests/draw.py fail where one of them was never seen."""


def escaped(data):
    """Bytes as escapes."""
    return "".join(f"\\x{byte:02X}" for byte in data)


def printable(text):
    """A text as it stands in a message: what is not printable as escapes of its bytes."""
    return "".join(one if one.isprintable() else escaped(one.encode("utf-8", "surrogateescape")) for one in text)


# a mistake or a doubt in a line of a table
MISTAKE = "{file}:{line}: {mistake}"

# what is wrong, and what would be right
MISTAKES = {
    "utf-16": "this is UTF-16; a table is plain text, so save it as ASCII or UTF-8",
    "zero-byte": "a zero byte; a table is plain text, and if this is a record file, ./unpack shows it as a table",
    "no-id": "{word} is no id; an id is a number from 0 to 4294967295",
    "no-mark": "there is no mark; one character from ! to ~ stands behind the id, as in `7 o`",
    "long-mark": "the mark {word} has {count} characters; a mark is one character from ! to ~, with a blank behind it",
    "strange-mark": r"the mark {word} is no printable ASCII character; a mark is one from ! to ~ (`\xHH` can write a byte outside of these, which the page refuses)",
    "mark-escape": r"the mark {word} is no escape; `\x` with two hexadecimal digits writes a byte, as `\x07`",
    "forgotten-mark": "the mark is `|`, and {word} is no parent; if the message begins there, a mark stands in front of the `|`, as in `7 o | text`",
    "no-parent": "{word} is no parent; a parent is an id from 0 to 4294967295, `~` and an id, or `?`, and a message stands behind a `|`",
    "many-parents": "there are {count} parents; a record has at most {most}",
    "kind-escape": r"{word} is no parent; `\kind=K:ID`, with K from 3 to 255, writes a parent of an unknown kind",
    "known-kind": "{word} is a parent of a known kind; it is written {plain}",
    "count-escape": r"{word} is no parent count; `\count=N`, with N from 9 to 255, writes one",
    "count-place": "{word} stands behind a parent; a parent count stands in front of all parents",
    "count-parents": "the number of parents behind {word} is {count}; a parent count above {most} stands with exactly {most}",
    "long-message": "the message has {count} bytes; a record has room for {most}",
    "message-byte": "{character} in the message; only the characters from blank to ~ are drawn ({escape} writes it, and the page refuses it)",
    "message-escape": r"{word} in the message; `\n` writes a line end, `\\` a backslash, `\xHH` a byte",
    "message-zero": r"`\x00` in the message; a zero byte ends a message, so leave it out and all behind it",
    "rest-form": r"{word} is no cut record; `\rest=` writes one, with 1 to {most} bytes of two hexadecimal digits each behind it",
    "rest-place": r"records stand behind a cut record; `\rest=` is the last line of a table",
}

# what may not be meant
DOUBTS = {
    "bar-mark": r"the mark is `|`, and there is no message; if the message begins there, a mark stands in front of the `|`, as in `7 o | text` "
                r"(if not, write the mark as `\x7C`)",
}

# of all three commands
SHARED = {
    "unusable": "{tool}: {file}: {reason}",
    "too-long": "{tool}: {file}: there are more than {most} bytes, and {tool} reads no more",
    "no-memory": "{tool}: there is not enough memory",
    "no-records": "{tool}: {file}: there are no records, and nothing is {done}",
    "more": "{file}: and {count} more",
    "read-cut": "{tool}: {file}: cannot be read beyond byte {count}: {reason}",
    "unwritable": "{tool}: standard output: {reason}",
}

PACK = {
    "terminal": "pack: standard output is a terminal; write the records into a file: ./pack TABLE >FILE",
}

UNPACK = {
    "ignored": "{file}: {record}: bytes are set that no program reads, and the table leaves them out: {parts}",
}

# of `unpack` and `draw`
RECORDS = {
    "text": "{tool}: {file}: this begins like text; if it is a table, ./pack makes its records, and ./draw draws it where its name ends in .history",
}

DRAW = {
    "building": "draw: the first run proves and builds the program; this takes about {minutes} minutes on two cores",
    "building-again": "draw: the sources are newer than the program, which is proved and built again; this takes up to {minutes} minutes on two cores",
    "progress": "  {at} of {all}: {crate}",
    "no-toolchain": "draw: the program is not built, and the Rattle toolchain is missing: its command rt must be in PATH (see README.md)\n"
                    "draw: the toolchain is needed only for the first run, which proves and builds the program, and after a change of the sources",
    "no-toolchain-again": "draw: the sources are newer than the program, and the Rattle toolchain, which proves and builds it again, is missing: "
                          "its command rt must be in PATH (see README.md)",
    "not-built": "draw: the program was not proved and built; {log} says why",
    "refused": "{place}{record}: {wrong} (refusal {number})",
    "taken-as-records": "draw: {file}: it was taken as a record file, as it does not begin like text; the name of a table ends in .history",
    "not-started": "draw: {program} cannot be started: {reason}",
    "ended": "draw: {program} ended early: {reason}",
}

MESSAGES = SHARED | PACK | UNPACK | RECORDS | DRAW

USAGE = {
    "pack": "usage: ./pack TABLE >FILE (- is standard input)",
    "unpack": "usage: ./unpack FILE (- is standard input)",
    "draw": "usage: ./draw [--listing] [FILE] (a table or a record file; - is standard input)",
}

# what --help says of a table, behind the usage
TABLE = r"""
A table has a line for each record, ID MARK PARENTS.. | MESSAGE:
  70 o 60 ~40 ? | 5.2.0 from the maker,\nwith our range rings
An id is a number from 0 to 4294967295, a mark one character from ! to ~. A parent is 60 (direct), ~60 (indirect) or ? (anonymous);
there are at most eight. A message has at most 82 characters from blank to ~, without the blanks around it; \n writes a line end,
\\ a backslash. Lines that are empty or begin with # are passed over.
What no page shows is written by an escape: \xHH (a byte of a message, or a mark), \kind=K:ID (a parent of an unknown kind), \count=N
in front of eight parents (a parent count above eight), and \rest=HEX.. as the last line (a cut record)."""
