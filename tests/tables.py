#!/usr/bin/env python3
"""`pack` and `unpack`: bad tables, each with the whole of what is said; tables at the limits; round trips; files that cannot be read or written."""
import glob
import os
import random
import struct
import subprocess
import sys
import tempfile

sys.dont_write_bytecode = True

from checks import Checks, breaking_source
from common import ROOT, read

from messages import DOUBTS, MISTAKES, PACK, RECORDS, SHARED, UNPACK, USAGE
from records import ignored_parts, is_text, pieces, read_table, table_line

PACKER, UNPACKER = [os.path.join(ROOT, "pack")], [os.path.join(ROOT, "unpack")]

SEED, TABLES, FILES = 17, 300, 300

TOP = 4294967295

# a table with one mistake, the mistake's name, and what is said of it behind the file's name
BAD = [
    ("\ufeff7 o | text\n".encode("utf-16-le"), "utf-16", "1: this is UTF-16; a table is plain text, so save it as ASCII or UTF-8"),
    ("\ufeff7 o | text\n".encode("utf-16-be"), "utf-16", "1: this is UTF-16; a table is plain text, so save it as ASCII or UTF-8"),
    ("\ufeff# text".encode("utf-16-le") + b"\n", "utf-16", "1: this is UTF-16; a table is plain text, so save it as ASCII or UTF-8"),
    (b"1 o\n\n2 o\0", "zero-byte", "3: a zero byte; a table is plain text, and if this is a record file, ./unpack shows it as a table"),
    (b"x7 o", "no-id", "1: `x7` is no id; an id is a number from 0 to 4294967295"),
    (b"+7 o", "no-id", "1: `+7` is no id; an id is a number from 0 to 4294967295"),
    (b"-7 o", "no-id", "1: `-7` is no id; an id is a number from 0 to 4294967295"),
    (b"1_0 o", "no-id", "1: `1_0` is no id; an id is a number from 0 to 4294967295"),
    (b"7. o", "no-id", "1: `7.` is no id; an id is a number from 0 to 4294967295"),
    ("\u0667 o".encode(), "no-id", "1: `\u0667` is no id; an id is a number from 0 to 4294967295"),
    (b"4294967296 o", "no-id", "1: `4294967296` is no id; an id is a number from 0 to 4294967295"),
    (b"9" * 5000 + b" o", "no-id", f"1: `{'9' * 40}..` is no id; an id is a number from 0 to 4294967295"),
    (b"\\id=7 o", "no-id", "1: `\\id=7` is no id; an id is a number from 0 to 4294967295"),
    (b"# first\r\n\r\n  7\r\n", "no-mark", "3: there is no mark; one character from ! to ~ stands behind the id, as in `7 o`"),
    (b"7 ab 5", "long-mark", "1: the mark `ab` has 2 characters; a mark is one character from ! to ~, with a blank behind it"),
    (b"7 o| text", "long-mark", "1: the mark `o|` has 2 characters; a mark is one character from ! to ~, with a blank behind it"),
    ("7 é".encode(), "strange-mark",
     "1: the mark `é` is no printable ASCII character; a mark is one from ! to ~ (`\\xHH` can write a byte outside of these, which the page refuses)"),
    (b"7 \xe9", "strange-mark",
     "1: the mark `\\xE9` is no printable ASCII character; a mark is one from ! to ~ (`\\xHH` can write a byte outside of these, which the page refuses)"),
    (b"7 \x7f", "strange-mark",
     "1: the mark `\\x7F` is no printable ASCII character; a mark is one from ! to ~ (`\\xHH` can write a byte outside of these, which the page refuses)"),
    (b"7 \\x7", "mark-escape", "1: the mark `\\x7` is no escape; `\\x` with two hexadecimal digits writes a byte, as `\\x07`"),
    (b"7 \\n 6", "mark-escape", "1: the mark `\\n` is no escape; `\\x` with two hexadecimal digits writes a byte, as `\\x07`"),
    (b"7 | from the maker", "forgotten-mark",
     "1: the mark is `|`, and `from` is no parent; if the message begins there, a mark stands in front of the `|`, as in `7 o | text`"),
    (b"7 o 6 from the maker", "no-parent",
     "1: `from` is no parent; a parent is an id from 0 to 4294967295, `~` and an id, or `?`, and a message stands behind a `|`"),
    (b"7 o ~x | text", "no-parent",
     "1: `~x` is no parent; a parent is an id from 0 to 4294967295, `~` and an id, or `?`, and a message stands behind a `|`"),
    (b"7 o ~4294967296 | text", "no-parent",
     "1: `~4294967296` is no parent; a parent is an id from 0 to 4294967295, `~` and an id, or `?`, and a message stands behind a `|`"),
    (b"7 o ~ | text", "no-parent",
     "1: `~` is no parent; a parent is an id from 0 to 4294967295, `~` and an id, or `?`, and a message stands behind a `|`"),
    (b"7 o ?5 | text", "no-parent",
     "1: `?5` is no parent; a parent is an id from 0 to 4294967295, `~` and an id, or `?`, and a message stands behind a `|`"),
    (b"7 o \\parent=6", "no-parent",
     "1: `\\parent=6` is no parent; a parent is an id from 0 to 4294967295, `~` and an id, or `?`, and a message stands behind a `|`"),
    (b"7 o 1 2 3 4 5 6 7 8 ?", "many-parents", "1: there are 9 parents; a record has at most 8"),
    (b"7 o \\kind=256:6", "kind-escape",
     "1: `\\kind=256:6` is no parent; `\\kind=K:ID`, with K from 3 to 255, writes a parent of an unknown kind"),
    (b"7 o \\kind=3:4294967296", "kind-escape",
     "1: `\\kind=3:4294967296` is no parent; `\\kind=K:ID`, with K from 3 to 255, writes a parent of an unknown kind"),
    (b"7 o \\kind=3", "kind-escape", "1: `\\kind=3` is no parent; `\\kind=K:ID`, with K from 3 to 255, writes a parent of an unknown kind"),
    (b"7 o \\kind=0:6", "known-kind", "1: `\\kind=0:6` is a parent of a known kind; it is written `?`"),
    (b"7 o \\kind=1:6", "known-kind", "1: `\\kind=1:6` is a parent of a known kind; it is written `~6`"),
    (b"7 o \\kind=2:6", "known-kind", "1: `\\kind=2:6` is a parent of a known kind; it is written `6`"),
    (b"7 o \\count=8 1 2 3 4 5 6 7 8", "count-escape", "1: `\\count=8` is no parent count; `\\count=N`, with N from 9 to 255, writes one"),
    (b"7 o \\count=256 1 2 3 4 5 6 7 8", "count-escape", "1: `\\count=256` is no parent count; `\\count=N`, with N from 9 to 255, writes one"),
    (b"7 o \\count 1 2 3 4 5 6 7 8", "count-escape", "1: `\\count` is no parent count; `\\count=N`, with N from 9 to 255, writes one"),
    (b"7 o 1 \\count=9 2", "count-place", "1: `\\count=9` stands behind a parent; a parent count stands in front of all parents"),
    (b"7 o \\count=9 1 2 3 4 5 6 7", "count-parents",
     "1: the number of parents behind `\\count=9` is 7; a parent count above 8 stands with exactly 8"),
    (b"7 o | " + b"m" * 83, "long-message", "1: the message has 83 bytes; a record has room for 82"),
    (b"7 o | " + b"\\n\\x41\\\\" * 28, "long-message", "1: the message has 84 bytes; a record has room for 82"),
    (b"7 o | a\tb", "message-byte",
     "1: a tab in the message; only the characters from blank to ~ are drawn (`\\x09` writes it, and the page refuses it)"),
    ("7 o | für für".encode(), "message-byte",
     "1: the character `ü` in the message; only the characters from blank to ~ are drawn (`\\xC3\\xBC` writes it, and the page refuses it)"),
    (b"7 o | \xff", "message-byte",
     "1: the character `\\xFF` in the message; only the characters from blank to ~ are drawn (`\\xFF` writes it, and the page refuses it)"),
    (b"7 o | a\rb", "message-byte",
     "1: the character `\\x0D` in the message; only the characters from blank to ~ are drawn (`\\x0D` writes it, and the page refuses it)"),
    (b"7 o | C:\\temp", "message-escape", "1: `\\t` in the message; `\\n` writes a line end, `\\\\` a backslash, `\\xHH` a byte"),
    (b"7 o | \\x4", "message-escape", "1: `\\x4` in the message; `\\n` writes a line end, `\\\\` a backslash, `\\xHH` a byte"),
    (b"7 o | end \\", "message-escape", "1: `\\` in the message; `\\n` writes a line end, `\\\\` a backslash, `\\xHH` a byte"),
    (b"7 o | a\\x00b", "message-zero", "1: `\\x00` in the message; a zero byte ends a message, so leave it out and all behind it"),
    (b"\\rest=", "rest-form",
     "1: `\\rest=` is no cut record; `\\rest=` writes one, with 1 to 127 bytes of two hexadecimal digits each behind it"),
    (b"\\rest=012", "rest-form",
     "1: `\\rest=012` is no cut record; `\\rest=` writes one, with 1 to 127 bytes of two hexadecimal digits each behind it"),
    (b"\\rest=01 02", "rest-form",
     "1: `\\rest=01 02` is no cut record; `\\rest=` writes one, with 1 to 127 bytes of two hexadecimal digits each behind it"),
    (b"\\rest=" + b"00" * 128, "rest-form",
     f"1: `\\rest={'0' * 34}..` is no cut record; `\\rest=` writes one, with 1 to 127 bytes of two hexadecimal digits each behind it"),
    (b"\\rest=01\n7 o", "rest-place", "1: records stand behind a cut record; `\\rest=` is the last line of a table"),
]


def packed(number, mark=b"o", parents=(), message=b"", count=None):
    """A record by document 01, made without tools/records.py."""
    entries = list(parents) + [(0, 0)] * (8 - len(parents))
    head = struct.pack("<IcB", number, mark, len(parents) if count is None else count)
    return head + b"".join(struct.pack("<BI", *entry) for entry in entries) + struct.pack("82s", message)


EIGHT = [(2, number) for number in range(1, 9)]

# what is said of tables without records, and of a mark that may be meant otherwise
NO_RECORDS = ("no-records", "pack: standard input: there are no records, and nothing is written")
BAR_MARK = "the mark is `|`, and there is no message; if the message begins there, a mark stands in front of the `|`, as in `7 o | text` (if not, "\
           "write the mark as `\\x7C`)"

# tables of which something is said, their bytes, and what is said
DOUBTFUL = [
    (b"", b"", [NO_RECORDS]),
    (b"# nothing\r\n \t\r\n\n  # nothing either", b"", [NO_RECORDS]),
    (b"7 | 6", packed(7, b"|", [(2, 6)]), [("bar-mark", f"standard input:1: {BAR_MARK}")]),
    (b"8 o\n7 |\n", packed(8) + packed(7, b"|"), [("bar-mark", f"standard input:2: {BAR_MARK}")]),
    (b"7 |\n" * 22, packed(7, b"|") * 22, [*(("bar-mark", f"standard input:{line}: {BAR_MARK}") for line in range(1, 21)),
                                           ("more", "standard input: and 2 more")]),
]

# tables at the limits, and their bytes
GOOD = [
    (b"0 ! 4294967295 ~0 ?", packed(0, b"!", [(2, TOP), (1, 0), (0, 0)])),
    (b"4294967295 ~ 0", packed(TOP, b"~", [(2, 0)])),
    (b"007 o 0" + b"0" * 5000 + b"6", packed(7, b"o", [(2, 6)])),
    (b"7 | 6 | text", packed(7, b"|", [(2, 6)], b"text")),
    (b"7 \\x7c 6", packed(7, b"|", [(2, 6)])),
    (b"7 | |", packed(7, b"|")),
    (b"7 2 | x", packed(7, b"2", (), b"x")),
    (rb"70 o 60 ~40 ? | 5.2.0 from the maker,\nwith our range rings", packed(70, b"o", [(2, 60), (1, 40), (0, 0)], b"5.2.0 from the maker,\nwith our range rings")),
    (b"7 \\ 6 | # | text", packed(7, b"\\", [(2, 6)], b"# | text")),
    (b"7 # ?|text", packed(7, b"#", [(0, 0)], b"text")),
    (b"\xef\xbb\xbf\t7\to\t~6\t|\ttext \t\r\n", packed(7, b"o", [(1, 6)], b"text")),
    (b"7 o |", packed(7)),
    (b"7 o | \\x20a\\nb\\\\n\\xff\\x09\\x7C\\x20", packed(7, b"o", (), b" a\nb\\n\xff\t| ")),
    (b"7 o | " + b"m" * 82, packed(7, b"o", (), b"m" * 82)),
    (b"7 o | " + b"\\n" * 82, packed(7, b"o", (), b"\n" * 82)),
    (b"7 o 1 2 3 4 5 6 7 8", packed(7, b"o", EIGHT)),
    (b"7 \\x00 \\count=9 1 2 3 4 5 6 7 8", packed(7, b"\0", EIGHT, b"", 9)),
    (b"7 \\xfF \\count=255 1 2 3 4 5 6 7 \\kind=255:8 | x", packed(7, b"\xff", EIGHT[:7] + [(255, 8)], b"x", 255)),
    (b"7 o \\kind=3:4294967295", packed(7, b"o", [(3, TOP)])),
    (b"7 o\n\\rest=00fF\n\n# the end\n", packed(7) + b"\x00\xff"),
    (b"\\rest=" + b"61" * 127, b"a" * 127),
]


def unpacked(data):
    """The table of records, in this process."""
    return "".join(table_line(piece) + "\n" for piece in pieces(data)).encode()


def lines(data):
    """The lines of the records in a table of their own."""
    return list(range(1, len(pieces(data)) + 1))


def bad_tables(checks):
    """Each mistake is told in whole, and nothing is written. Several are told in the order of their lines."""
    for table, name, said in BAD:
        checks.run([*PACKER, "-"], 1, b"", [(name, f"standard input:{said}")], input=table)
    with tempfile.TemporaryDirectory() as folder:
        file = os.path.join(folder, "bad.history")
        with open(file, "wb") as table:
            table.write(b"7 o | good\nx oo 1y ~z | \\q\n\n\\rest=0\n6\n")
        words = "is no parent; a parent is an id from 0 to 4294967295, `~` and an id, or `?`, and a message stands behind a `|`"
        checks.run([*PACKER, file], 1, b"", [
            ("no-id", f"{file}:2: `x` is no id; an id is a number from 0 to 4294967295"),
            ("long-mark", f"{file}:2: the mark `oo` has 2 characters; a mark is one character from ! to ~, with a blank behind it"),
            ("no-parent", f"{file}:2: `1y` {words}"),
            ("no-parent", f"{file}:2: `~z` {words}"),
            ("message-escape", f"{file}:2: `\\q` in the message; `\\n` writes a line end, `\\\\` a backslash, `\\xHH` a byte"),
            ("rest-form", f"{file}:4: `\\rest=0` is no cut record; `\\rest=` writes one, with 1 to 127 bytes of two hexadecimal digits each behind it"),
            ("rest-place", f"{file}:4: records stand behind a cut record; `\\rest=` is the last line of a table"),
            ("no-mark", f"{file}:5: there is no mark; one character from ! to ~ stands behind the id, as in `7 o`"),
        ])
    checks.listed(PACKER)
    # no text at all makes pack fail
    rng = random.Random(SEED)
    for _ in range(2000):
        read_table(bytes(rng.choices(b"0123456789 ~?|\\xnrestkindcount=:\n\t\r#o\xc3\xa9\xff", k=rng.randrange(60))))


def good_tables(checks):
    """Tables at the limits have their bytes, and so have the tables that `unpack` makes of these."""
    for table, data in GOOD:
        checks.run([*PACKER, "-"], 0, data, input=table)
        checks.same(f"{table!r} packed, unpacked and packed", read_table(unpacked(data)), (data, lines(data), [], []))
    for table, data, said in DOUBTFUL:
        checks.run([*PACKER, "-"], 0, data, said, input=table)
        checks.same(f"{table!r} packed, unpacked and packed", read_table(unpacked(data)), (data, lines(data), [], []))


def random_record(rng):
    """A record that a table may hold plainly, and its line, with blanks and escapes anywhere."""
    number, mark = rng.choice((0, TOP, rng.randrange(TOP))), rng.randrange(0x21, 0x7F)
    parents = [(kind, rng.randrange(TOP) if kind else 0) for kind in rng.choices((0, 1, 2), k=rng.randrange(9))]
    message = bytes(rng.choices(range(0x20, 0x7F), k=rng.randrange(83))).strip()
    words = [("?", f"~{parent}", str(parent))[kind] for kind, parent in parents]
    blanks = ["".join(rng.choices(" \t", k=rng.randrange(1, 3))) for _ in range(4)]
    text = "".join(rng.choice((chr(byte), f"\\x{byte:02x}")) if byte != 0x5C else rng.choice(("\\\\", "\\x5C")) for byte in message)
    line = blanks[0].join([str(number), chr(mark), *words])
    return packed(number, bytes([mark]), parents, message), f"{line}{blanks[1]}|{blanks[2]}{text}{blanks[3]}"


def random_tables(checks):
    """Random tables have their bytes."""
    rng = random.Random(SEED)
    for _ in range(TABLES):
        made = [random_record(rng) for _ in range(rng.randrange(9))]
        data, table = b"".join(one for one, _ in made), rng.choice(("\n", "\r\n", "\n\n# more\n")).join(line for _, line in made).encode()
        checks.same(f"{table!r}", read_table(table)[::2], (data, []))
        checks.same(f"{table!r} packed, unpacked and packed", read_table(unpacked(data)), (data, lines(data), [], []))


def examples(checks):
    """The examples, both ways."""
    for table in glob.glob(os.path.join(ROOT, "examples", "*.history")):
        data = read(table.removesuffix("history") + "records")
        checks.run([*PACKER, table], 0, data)
        run = subprocess.run([*UNPACKER, table.removesuffix("history") + "records"], stdout=subprocess.PIPE, check=True)
        checks.run([*PACKER, "-"], 0, data, input=run.stdout)


def every_byte():
    """Records with every byte value as mark, parent count, kind of each entry, and as the first, a middle and the last byte of a message."""
    for byte in range(256):
        yield packed(1, bytes([byte]))
        yield packed(2, b"o", EIGHT[:min(byte, 8)], b"", byte)
        for at in range(8):
            parents = EIGHT[:at] + [(byte, at if byte else 0)] + EIGHT[at + 1:]
            yield packed(3, b"o", parents)
        yield packed(4, b"o", (), bytes([byte]) + (b"m" if byte else b""))
        yield packed(5, b"o", (), b"m" + bytes([byte]) + (b"m" if byte else b""))
        yield packed(6, b"o", (), b"m" * 81 + bytes([byte]))


def random_file(rng):
    """A file of any bytes without ignored ones, perhaps cut; and the same file with ignored bytes set, and what is said of each record."""
    clean, stained, said = b"", b"", []
    for at in range(rng.randrange(6)):
        count, number = rng.choice((rng.randrange(9), rng.randrange(256))), rng.randrange(TOP)
        kinds = rng.choices((0, 1, 2, rng.randrange(256)), k=min(count, 8))
        parents = [(kind, rng.randrange(TOP) if kind else 0) for kind in kinds]
        message = bytes(rng.choices(rng.choice((range(1, 256), range(0x20, 0x7F))), k=rng.randrange(83)))
        one = packed(number, bytes([rng.randrange(256)]), parents, message, count)
        other, parts = bytearray(one), []
        if count < 8 and rng.random() < 0.5:
            other[rng.randrange(6 + 5 * count, 46)] = 1
            parts.append("entries behind its parents")
        if 0 in kinds and rng.random() < 0.5:
            other[6 + 5 * kinds.index(0) + rng.randrange(1, 5)] = 1
            parts.append("the id of an anonymous parent")
        if len(message) < 81 and rng.random() < 0.5:
            other[rng.randrange(46 + len(message) + 1, 128)] = 1
            parts.append("bytes behind its message")
        if parts:
            said.append((at, number, ", ".join(parts)))
        clean, stained = clean + one, stained + bytes(other)
    cut = bytes(rng.randrange(256) for _ in range(rng.randrange(128)))
    return clean + cut, stained + cut, said


def files(checks):
    """`pack` of `unpack` gives every file back that has no ignored bytes set, and of the others those without; what is set is said."""
    rng = random.Random(SEED)
    whole = b"".join(every_byte())
    run = subprocess.run([*UNPACKER, "-"], input=whole, stdout=subprocess.PIPE, stderr=subprocess.PIPE, check=True)
    checks.same("every byte, said", run.stderr, b"")
    checks.same("every byte, lines", run.stdout.count(b"\n"), len(whole) // 128)
    checks.run([*PACKER, "-"], 0, whole, input=run.stdout)
    for cut in range(128):
        data = packed(1) + bytes(rng.randrange(256) for _ in range(cut))
        checks.same(f"cut after {cut} bytes", read_table(unpacked(data)), (data, lines(data), [], []))
    for _ in range(FILES):
        clean, stained, said = random_file(rng)
        checks.same(f"{clean!r} unpacked and packed", read_table(unpacked(clean)), (clean, lines(clean), [], []))
        checks.same(f"{stained!r} unpacked", unpacked(stained), unpacked(clean))
        found = [(at, struct.unpack("<I", piece[:4])[0], ", ".join(parts)) for at, piece in enumerate(pieces(stained)) if (parts := ignored_parts(piece))]
        checks.same(f"{stained!r}, ignored", found, said)
        checks.same(f"{clean!r}, ignored", [piece for piece in pieces(clean) if ignored_parts(piece)], [])


def unpack_lines(checks):
    """The lines that `unpack` writes, and what it says."""
    data = packed(40, b" ", [(0, 0), (3, 6), (1, 5)], b" a\\b\n\xe9 ") + packed(30, b"|", EIGHT, b" ", 200) + b"\x01\xab"
    lines = b"40 \\x20 ? \\kind=3:6 ~5 | \\x20a\\\\b\\n\\xE9\\x20\n30 | \\count=200 1 2 3 4 5 6 7 8 | \\x20\n\\rest=01AB\n"
    checks.run([*UNPACKER, "-"], 0, lines, input=data)
    checks.run([*UNPACKER, "-"], 0, b"", [("no-records", "unpack: standard input: there are no records, and nothing is written")], input=b"")
    checks.run([*UNPACKER, "-"], 0, b"7 \\x7C\n7 | | x\n", input=packed(7, b"|") + packed(7, b"|", (), b"x"))
    stained = packed(30) + packed(20, b"o", [(0, 9)], b"a\0b", 1)[:-1] + b"\x01"
    stained = stained[:128 + 20] + b"\x02" + stained[128 + 21:]
    told = "bytes are set that no program reads, and the table leaves them out"
    checks.run([*UNPACKER, "-"], 0, b"30 o\n20 o ? | a\n", [
        ("ignored", f"standard input: record 1 (id 20): {told}: entries behind its parents, the id of an anonymous parent, bytes behind its message")],
        input=stained)
    checks.run([*UNPACKER, "-"], 0, b"9 o\n" * 24, [
        *(("ignored", f"standard input: record {at} (id 9): {told}: bytes behind its message") for at in range(20)),
        ("more", "standard input: and 4 more")], input=packed(9, b"o", (), b"\0m") * 24)
    table = os.path.join(ROOT, "examples", "m1.history")
    run = subprocess.run([*UNPACKER, table], stdout=subprocess.PIPE, stderr=subprocess.PIPE, check=True)
    checks.compare("unpack of a table", (run.returncode, b"", run.stderr), 0, b"", [
        ("text", f"unpack: {table}: this begins like text; if it is a table, ./pack makes its records, and ./draw draws it where its name ends in .history")])
    checks.run([*PACKER, "-"], 0, read(table), input=run.stdout)


def reading_and_writing(checks):
    """Wrong arguments, files that cannot be read, outputs that cannot be written, an interrupt, a call from elsewhere."""
    table, data = os.path.join(ROOT, "examples", "merges.history"), os.path.join(ROOT, "examples", "merges.records")
    for command, tool, file in ((PACKER, "pack", table), (UNPACKER, "unpack", data)):
        checks.usage(command, tool, ([], ["a", "b"], ["--unknown"], ["-x"], ["--help", file]))
        checks.unreadable(command, tool)
        good = subprocess.run([*command, file], stdout=subprocess.PIPE, check=True).stdout
        checks.streams([*command, file], tool, good)
        checks.named(command, file, good)
        checks.long(command, tool)
        checks.interrupted([*command, "-"])
    checks.broken_pipe([*UNPACKER, "-"], b"1 o\n", packed(1) * 100000)
    records = packed(30, b"o", [(2, 20)]) + packed(20)
    with open(breaking_source(records + b"\x05"), "rb", buffering=0) as source:
        checks.run([*UNPACKER, "-"], 1, b"30 o 20\n20 o\n\\rest=05\n", [
            ("read-cut", "unpack: standard input: cannot be read beyond byte 257: Input/output error")], stdin=source)
    with open(breaking_source(b"30 o 20\n20 o\n"), "rb", buffering=0) as source:
        checks.run([*PACKER, "-"], 1, b"", [("read-cut", "pack: standard input: cannot be read beyond byte 13: Input/output error")], stdin=source)
    checks.terminal([*PACKER, table], [("terminal", "pack: standard output is a terminal; write the records into a file: ./pack TABLE >FILE")])


def beginnings(checks):
    """No record that document 01 accepts is taken as text, with any id and count, and every table is; so is UTF-16, whatever stands further behind."""
    rng = random.Random(SEED)
    for count in range(9):
        for number in (0x0000FEFF, 0x0037FEFF, 0x6F6FFFFE, 0x0A0D0920, TOP, rng.randrange(TOP)):
            parents = [(rng.choice((1, 2)), rng.randrange(0x01010101, TOP)) for _ in range(count)]
            checks.same(f"id {number} and {count} parents are text", is_text(packed(number, b"o", parents, b"m" * 82)), False)
    for table in (table for table, *_ in GOOD + DOUBTFUL if table):
        checks.same(f"{table!r} is text", is_text(table), True)
        for kind in ("utf-16-le", "utf-16-be"):
            checks.same(f"{table!r} in {kind} is text", is_text(("\ufeff" + table.decode("latin-1") + " " * 99 + "\0").encode(kind)), True)


def main():
    """Tries all parts, and gives the exit status."""
    checks = Checks()
    for part in (bad_tables, good_tables, random_tables, examples, files, beginnings, unpack_lines, reading_and_writing):
        part(checks)
    wanted = [*MISTAKES, *DOUBTS, *SHARED, *PACK, *UNPACK, *RECORDS, *(f"usage {tool}" for tool in USAGE if tool != "draw")]
    return checks.finish(wanted, f"{len(BAD)} bad tables, {len(GOOD) + len(DOUBTFUL) + TABLES} good ones, {FILES} record files")


if __name__ == "__main__":
    sys.exit(main())
