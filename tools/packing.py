"""What `pack` and `unpack` do: records from a table, and a table from records."""
import os

from command import FAILED, GOOD, Failure, is_file, list_first, output, read_file, say, say_mistakes, say_read_cut, shown_name, wrong_usage
from records import ignored_parts, is_text, pieces, read_table, table_line, title


def pack(arguments):
    """Packs the table that the arguments name, and gives the exit status."""
    if len(arguments) != 1 or not is_file(arguments[0]):
        return wrong_usage("pack")
    file = arguments[0]
    data, reason = read_file("pack", file)
    if reason is not None:
        return say_read_cut("pack", file, data, reason)
    table = read_table(data)
    if say_mistakes(file, table):
        return FAILED
    if not table.records:
        say("no-records", tool="pack", file=shown_name(file), done="written")
    elif os.isatty(1):
        raise Failure("terminal")
    output("pack", table.records)
    return GOOD


def unpack(arguments):
    """Unpacks the record file that the arguments name, and gives the exit status."""
    if len(arguments) != 1 or not is_file(arguments[0]):
        return wrong_usage("unpack")
    file = shown_name(arguments[0])
    data, reason = read_file("unpack", arguments[0])
    records = pieces(data)
    if not records:
        say("no-records", tool="unpack", file=file, done="written")
    if is_text(data):
        say("text", tool="unpack", file=file)
    output("unpack", "".join(table_line(piece) + "\n" for piece in records).encode())
    ignored = [(title(at, piece), ", ".join(parts)) for at, piece in enumerate(records) if (parts := ignored_parts(piece))]
    list_first(file, ignored, lambda record, parts: say("ignored", file=file, record=record, parts=parts))
    return say_read_cut("unpack", arguments[0], data, reason)
