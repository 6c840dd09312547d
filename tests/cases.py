#!/usr/bin/env python3
"""Record files at the edges of document 01: tests/cases.py COMMAND.. runs the command on each and prints its name and what the command writes.

What the Rust writes stands in tests/cases.page and tests/cases.listing (oracle/pages makes them); ours must write the same."""
import subprocess
import sys

sys.dont_write_bytecode = True

from common import LIMIT
from records import ANONYMOUS, COUNT, ENTRIES, ENTRY, MARK, MESSAGE, PARENT, RECORD, read_table, record

# three records; the second has two used entries, and six that are not used
HISTORY = read_table(b"""
    30 o 20 10 | newest
    20 @ 10 ~5 | middle
    10 o       | oldest
""").records


def with_byte(place, byte, number=1):
    """The history with another byte at a place of one of its records."""
    at = number * RECORD + place
    return HISTORY[:at] + bytes([byte]) + HISTORY[at + 1:]


def wide(last):
    """Eight records of eight parents each that no other names, so that 64 lines wait, and a last record."""
    parents = [[(PARENT, 1000 + 8 * row + i) for i in range(8)] for row in range(8)]
    return b"".join(record(500 - row, "o", eight) for row, eight in enumerate(parents)) + last


def marks_and_counts():
    """Marks, parent counts and kinds on both sides of their limits."""
    for mark in (0x00, 0x0A, 0x20, 0x21, 0x7E, 0x7F, 0x80, 0xFF):
        yield f"mark {mark:02X}", with_byte(MARK, mark)
    for count in (0, 1, 2, 8, 9, 255):
        yield f"parent count {count}", with_byte(COUNT, count)
    for kind in (0, 1, 2, 3, 255):
        yield f"kind {kind} in the second used entry", with_byte(ENTRIES + ENTRY, kind)
        yield f"kind {kind} in the first entry not used", with_byte(ENTRIES + 2 * ENTRY, kind)


def messages():
    """Message bytes on both sides of their limits, and messages as long as their room."""
    for byte in (0x00, 0x09, 0x0A, 0x0D, 0x1F, 0x20, 0x7E, 0x7F, 0x80, 0xC2, 0xFF):
        yield f"message byte {byte:02X}", with_byte(MESSAGE + 2, byte)
        yield f"byte {byte:02X} behind the message", with_byte(RECORD - 1, byte)
    room = RECORD - MESSAGE
    yield "a message of its whole room", record(1, "o", (), b"m" * room)
    yield "a message of line ends", record(2, "o", [(PARENT, 1)], b"\n" * room) + record(1)
    yield "a message of blanks", record(1, "o", (), b" " * room)


def order():
    """More than one refusal in a record: the record call's come first, then the mark's, the message's and the row's."""
    yield "count 9 and mark 20", with_byte(COUNT, 9)[:RECORD + MARK] + b" " + with_byte(COUNT, 9)[RECORD + COUNT:]
    yield "kind 3 and message byte 7F", with_byte(ENTRIES, 3)[:RECORD + MESSAGE] + b"\x7f" + HISTORY[RECORD + MESSAGE + 1:]
    yield "mark 20 and message byte 7F", record(1, " ", (), b"\x7f")
    yield "mark 20 in a row that does not fit", wide(record(1, " "))
    yield "message byte 7F in a row that does not fit", wide(record(1, "o", (), b"\x7f"))


def widths():
    """Nearly 64 lines, and one more."""
    yield "64 lines and a row that one of them waits for", wide(record(1000, "o", [(PARENT, 1)]))
    yield "64 lines and a row that none of them waits for", wide(record(1))
    yield "64 lines and a further parent", wide(record(1000, "o", [(PARENT, 1), (PARENT, 2)]))
    yield "64 lines and a message of line ends", wide(record(1000, "o", [(PARENT, 1)], b"\n" * (RECORD - MESSAGE)))
    yield "64 lines and an anonymous parent", wide(record(1000, "o", [(PARENT, 1), (ANONYMOUS, 0)]))


def ids():
    """The least and the greatest id."""
    top = 0xFFFFFFFF
    yield "ids 0 and 4294967295", record(top, "o", [(PARENT, 0)]) + record(0, "o", [(PARENT, top)]) + record(top)
    yield "a record that names itself", record(7, "o", [(PARENT, 7)]) * 2
    yield "the records backwards", b"".join(HISTORY[at:at + RECORD] for at in (2 * RECORD, RECORD, 0))


def like_refusals():
    """Drawings in which the line of a refusal stands behind a prefix."""
    line = b"refused 5 at record 0"
    yield "a message like a refusal", record(1, "r", (), line)
    yield "a mark and a message like a refusal", record(1, "r", (), line[1:])
    yield "a last line like a refusal", record(2, "r", [(PARENT, 1)], b"x\n" + line) + record(1, "r", (), b"x\n" + line)


def cases():
    """Every file, with its name."""
    yield "no bytes", b""
    for part in (marks_and_counts, messages, order, widths, ids, like_refusals):
        yield from part()
    for rest in range(RECORD):
        yield f"cut after two records and {rest} bytes", HISTORY[:2 * RECORD + rest]
    for place in range(RECORD):
        yield f"byte {place} of a record turned over", with_byte(place, HISTORY[RECORD + place] ^ 0xFF)


def main():
    """Runs the command on each file."""
    for name, file in cases():
        run = subprocess.run(sys.argv[1:], input=file, stdout=subprocess.PIPE, timeout=LIMIT, check=True)
        sys.stdout.buffer.write(f"== {name}\n".encode() + run.stdout)


if __name__ == "__main__":
    main()
