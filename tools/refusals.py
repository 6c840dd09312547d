"""The refusal numbers in plain words: the table in README.md (`python3 tools/refusals.py` prints it) and what `draw` says of a refused record."""
import signal
from typing import NamedTuple


class Refusal(NamedTuple):
    """A refusal number: its variant in the code, the calls that give it, what is wrong (said of a record: `its mark is ..`), what helps."""
    number: int
    variant: str
    calls: str
    wrong: str
    helps: str


REFUSALS = (
    Refusal(1, "HeightAboveLimit", "new shaper", "the minimum row height is above 16", "a height of 0 to 16"),
    Refusal(2, "NoColumnLeft", "reserving", "all 64 columns are taken, and none of them holds the id", "draw a row that frees a column first"),
    Refusal(3, "TooManyEntries", "row, preview, width, text", "it has more than eight parents", "at most eight parents in a row"),
    Refusal(4, "NodeLineTooWide", "row, preview, text", "its row would be wider than 64 columns", "a shorter history, or one with fewer branches open at once"),
    Refusal(5, "MarkOutsideSpan", "renderer, text", "its mark is not a printable character", "a mark from ! to ~; a blank is none"),
    Refusal(6, "MessageTooLong", "text", "its message is longer than 512 bytes", "a shorter message"),
    Refusal(7, "MessageByteNotWritable", "text", "its message has a character that is not plain ASCII, or a control character other than a line end",
            "plain ASCII, without tabs and accents"),
    Refusal(8, "OutputShorterThanLines", "renderer, text", "its lines do not fit into the output", "a longer output"),
    Refusal(9, "RecordCutShort", "record", "the file ends within it", "the whole file: it was cut short, and a record has 128 bytes"),
    Refusal(10, "TooManyParents", "record", "it names more than eight parents", "a record file; this one is damaged, or something else"),
    Refusal(11, "KindAboveLimit", "record", "a parent of it is of no known kind", "kind 0, 1 or 2 (anonymous, indirect, direct)"),
    Refusal(12, "ShapeTooWide", "renderer", "the shape is wider than 64 cells", "a shape that the row call gave"),
)

# what is wrong, by number
WRONG = {refusal.number: refusal.wrong for refusal in REFUSALS}


def table():
    """The lines of README's table."""
    yield "| number | given by | what is wrong | what helps |"
    yield "|---|---|---|---|"
    for refusal in REFUSALS:
        yield f"| {refusal.number} | {refusal.calls} | {refusal.wrong} | {refusal.helps} |"


if __name__ == "__main__":
    # a reader that takes no more ends this without a word
    signal.signal(signal.SIGPIPE, signal.SIG_DFL)
    print("\n".join(table()))
