"""The record format of document 01, and the tables of examples/: records from a table, and a table from records. TABLE in tools/messages.py says
what a table is; the mark is its second word, whatever it is."""
import re
from typing import NamedTuple

from messages import DOUBTS, MISTAKES, escaped, printable

# the bytes of a record, and where its parts begin
RECORD, MARK, COUNT, ENTRIES, ENTRY, MESSAGE = 128, 4, 5, 6, 5, 46

# how many entries a record has, and the bytes that a message has room for
MOST_PARENTS = (MESSAGE - ENTRIES) // ENTRY
MESSAGE_ROOM = RECORD - MESSAGE

ANONYMOUS, ANCESTOR, PARENT = 0, 1, 2

# the greatest id, and the greatest value of a byte
ID_LIMIT, BYTE_LIMIT = 0xFFFFFFFF, 0xFF

# the bytes that are a mark, and how a message's bytes are written in a table; all others are written \xHH
MARKS = range(0x21, 0x7F)
WRITTEN = {byte: chr(byte) for byte in range(0x20, 0x7F)} | {0x0A: "\\n", 0x5C: "\\\\"}

BLANKS = b" \t"
BYTE_ORDER_MARK = b"\xef\xbb\xbf"

# the longest word that a message shows whole
SHOWN = 40

REST = b"\\rest"
WORDS = re.compile(rb"([^ \t]+)(?:[ \t]+([^ \t]+)(.*))?", re.DOTALL)
NUMBER = re.compile(rb"[0-9]+")
LIKE_PARENT = re.compile(rb"~?[0-9]+|\?|\\.*", re.DOTALL)
KIND = re.compile(rb"\\kind=([0-9]+):([0-9]+)")
BYTE = re.compile(rb"\\x([0-9A-Fa-f]{2})")
# a piece of a message: plain bytes; an escape; what is neither, an escape of no kind or a character outside of ASCII
PIECE = re.compile(rb"([ -\[\]-~]+)|\\(n|\\|x[0-9A-Fa-f]{2})|(\\x.{0,2}|\\.?|[\xc2-\xf4][\x80-\xbf]{1,3}|.)", re.DOTALL)
# how a table begins, and no good record, whose sixth byte, the parent count, is 0 to 8 and none of these
TEXT = re.compile(rb"[\t\n\r -~\x80-\xff]{1,%d}" % ENTRIES)
# UTF-16, which begins with its mark and has no zero character: a record has one if it has no parents, and is told by its parent count if it has some
UTF_16 = re.compile(rb"(?:\xff\xfe|\xfe\xff)(?!.{3}[\x01-\x08])(?:(?!\0\0)..)*.?", re.DOTALL)


class Mistake(Exception):
    """What is wrong in a line of a table, and what would be right."""

    def __init__(self, name, **fields):
        super().__init__(MISTAKES[name].format(**fields))


class Table(NamedTuple):
    """What a table says: its records, the line of each, and its mistakes and doubts, each with its line. Lines count from 1."""
    records: bytes
    lines: list
    mistakes: list
    doubts: list


def record(number, mark="o", parents=(), message=b"", count=None):
    """A record; a parent is a kind and an id, and the parent count is that of the parents unless another is given."""
    entries = b"".join(bytes([kind]) + parent.to_bytes(4, "little") for kind, parent in parents)
    made = number.to_bytes(4, "little") + bytes([ord(mark), len(parents) if count is None else count])
    made += entries.ljust(MESSAGE - ENTRIES, b"\0") + message.ljust(MESSAGE_ROOM, b"\0")
    if len(made) != RECORD:
        raise ValueError(f"record {number} has too many parents or too long a message")
    return made


def is_utf_16(data):
    """Whether bytes begin like UTF-16."""
    return UTF_16.fullmatch(data[:RECORD]) is not None


def is_text(data):
    """Whether bytes begin like a table, and not like a record that document 01 accepts."""
    return is_utf_16(data) or TEXT.fullmatch(data[:ENTRIES]) is not None


def shown(word):
    """A word of a table in a message: what is not printable as escapes, and a long word cut."""
    text = printable(word.decode("utf-8", "surrogateescape"))
    return f"`{text[:SHOWN]}..`" if len(text) > SHOWN else f"`{text}`"


def number_of(word, limit):
    """The number that a word of decimal digits is, or None where it is no such word or above the limit."""
    digits = word.lstrip(b"0") or word[:1]
    if NUMBER.fullmatch(word) is None or len(digits) > len(str(limit)) or int(digits) > limit:
        return None
    return int(digits)


def read_id(word):
    """The id that a table's word is."""
    number = number_of(word, ID_LIMIT)
    if number is None:
        raise Mistake("no-id", word=shown(word))
    return number


def read_mark(word):
    """The mark that a table's word is."""
    if word is None:
        raise Mistake("no-mark")
    characters = len(word.decode("utf-8", "surrogateescape"))
    if characters == 1 and word[0] in MARKS:
        return word.decode()
    if escape := BYTE.fullmatch(word):
        return chr(int(escape[1], 16))
    if characters == 1:
        raise Mistake("strange-mark", word=shown(word))
    if word.startswith(b"\\"):
        raise Mistake("mark-escape", word=shown(word))
    raise Mistake("long-mark", word=shown(word), count=characters)


def read_parent(word):
    """The parent, a kind and an id, that a table's word is."""
    if word == b"?":
        return ANONYMOUS, 0
    if word.startswith(b"\\kind"):
        return read_kind(word)
    is_ancestor = word.startswith(b"~")
    number = number_of(word[is_ancestor:], ID_LIMIT)
    if number is None:
        raise Mistake("no-parent", word=shown(word))
    return (ANCESTOR if is_ancestor else PARENT), number


def read_kind(word):
    """The parent of an unknown kind that a table's word is."""
    found = KIND.fullmatch(word)
    kind, number = (number_of(found[1], BYTE_LIMIT), number_of(found[2], ID_LIMIT)) if found else (None, None)
    if kind is None or number is None:
        raise Mistake("kind-escape", word=shown(word))
    if kind <= PARENT:
        raise Mistake("known-kind", word=shown(word), plain=shown(parent_word(kind, number).encode()))
    return kind, number


def read_count(word):
    """The parent count above eight that a table's word is."""
    number = number_of(word.removeprefix(b"\\count="), BYTE_LIMIT)
    if number is None or number <= MOST_PARENTS:
        raise Mistake("count-escape", word=shown(word))
    return number


def is_count(word):
    """Whether a table's word is meant as a parent count."""
    return word.startswith(b"\\count")


class LineReader:
    """Reads a line of a table, and collects its mistakes and doubts, each once."""

    def __init__(self):
        self.mistakes, self.doubts = {}, []

    def attempt(self, read, word):
        """What `read` gives for a word, or None, and then the mistake is kept."""
        try:
            return read(word)
        except Mistake as mistake:
            self.wrong(mistake)
            return None

    def wrong(self, mistake):
        """Keeps a mistake."""
        self.mistakes[str(mistake)] = None

    def record(self, line):
        """The record that a line is, or None."""
        first, mark_word, behind = WORDS.fullmatch(line).groups()
        words, bar, message = (behind or b"").partition(b"|")
        number, mark = self.attempt(read_id, first), self.attempt(read_mark, mark_word)
        if mark is None and b"|" in (mark_word or b""):
            words = b""  # a | at the end of the mark's word: what stands behind it is the message
        parents, count = self.parents(words.replace(b"\t", b" ").split(b" "), mark, bar)
        if mark_word == b"|" and not bar:
            self.doubts.append(DOUBTS["bar-mark"])
        text = self.message(message.strip(BLANKS))
        return None if self.mistakes else record(number, mark, parents, text, count)

    def parents(self, words, mark, bar):
        """The parents of a line, and its parent count where that is above eight. Without a | the first strange word is the message's."""
        words = [word for word in words if word]
        count_word = words.pop(0) if words and is_count(words[0]) else None
        count = None if count_word is None else self.attempt(read_count, count_word)
        strange = [word for word in words if LIKE_PARENT.fullmatch(word) is None]
        if strange and not bar:
            self.wrong(Mistake("forgotten-mark" if mark == "|" else "no-parent", word=shown(strange[0])))
            return [], count
        for word in filter(is_count, words):
            self.wrong(Mistake("count-place", word=shown(word)))
        parents = [self.attempt(read_parent, word) for word in words if not is_count(word)]
        if len(parents) > MOST_PARENTS:
            self.wrong(Mistake("many-parents", count=len(parents), most=MOST_PARENTS))
        elif count is not None and len(parents) < MOST_PARENTS:
            self.wrong(Mistake("count-parents", word=shown(count_word), count=len(parents), most=MOST_PARENTS))
        return parents, count

    def message(self, text):
        """The bytes of a line's message."""
        message = b""
        for plain, escape, strange in PIECE.findall(text):
            if strange:
                self.strange(strange)
            elif escape == b"x00":
                self.wrong(Mistake("message-zero"))
            else:
                message += plain or (bytes([int(escape[1:], 16)]) if escape[:1] == b"x" else escape.replace(b"n", b"\n"))
        if len(message) > MESSAGE_ROOM:
            self.wrong(Mistake("long-message", count=len(message), most=MESSAGE_ROOM))
        return message

    def strange(self, piece):
        """Keeps the mistake that a piece of a message is."""
        if piece.startswith(b"\\"):
            self.wrong(Mistake("message-escape", word=shown(piece)))
        else:
            character = "a tab" if piece == b"\t" else f"the character {shown(piece)}"
            self.wrong(Mistake("message-byte", character=character, escape=f"`{escaped(piece)}`"))

    def rest(self, line):
        """The bytes of a cut record that a line is, or none."""
        digits = line.removeprefix(REST + b"=")
        if re.fullmatch(rb"(?:[0-9A-Fa-f]{2}){1,%d}" % (RECORD - 1), digits) is None:
            self.wrong(Mistake("rest-form", word=shown(line), most=RECORD - 1))
            return None
        return bytes.fromhex(digits.decode())


def unreadable(table):
    """What makes a whole table unreadable, with its line, if something does."""
    if is_utf_16(table):
        return [(1, str(Mistake("utf-16")))]
    return [(table[:table.index(b"\0")].count(b"\n") + 1, str(Mistake("zero-byte")))] if b"\0" in table else []


def read_table(table):
    """What a table says."""
    if found := unreadable(table):
        return Table(b"", [], found, [])
    records, lines, mistakes, doubts, rest_line = [], [], [], [], None
    for at, line in enumerate(table.removeprefix(BYTE_ORDER_MARK).split(b"\n"), 1):
        line = line.removesuffix(b"\r").strip(BLANKS)
        if not line or line.startswith(b"#"):
            continue
        if rest_line is not None:
            mistakes.append((rest_line, str(Mistake("rest-place"))))
        reader, is_rest = LineReader(), line.startswith(REST)
        records.append((reader.rest if is_rest else reader.record)(line))
        lines.append(at)
        mistakes += [(at, mistake) for mistake in reader.mistakes]
        doubts += [(at, doubt) for doubt in reader.doubts]
        rest_line = at if is_rest else None
    return Table(b"" if mistakes else b"".join(records), lines, mistakes, doubts)


def pieces(data):
    """The records of a file, the last one perhaps cut."""
    return [data[at:at + RECORD] for at in range(0, len(data), RECORD)]


def id_of(data):
    """The id of a record, cut or not, or None where its bytes are not all there."""
    return int.from_bytes(data[:MARK], "little") if len(data) >= MARK else None


def title(at, data):
    """A record in a message: its place in the file, counted from 0, and its id."""
    number = id_of(data)
    return f"record {at}" if number is None else f"record {at} (id {number})"


def entries_of(data):
    """All entries of a record, each a kind and an id."""
    places = range(ENTRIES, MESSAGE, ENTRY)
    return [(data[at], int.from_bytes(data[at + 1:at + ENTRY], "little")) for at in places]


def message_of(data):
    """The message of a record, which ends before its first zero byte."""
    return data[MESSAGE:].partition(b"\0")[0]


def parent_word(kind, number):
    """A parent as a table's word."""
    words = {ANONYMOUS: "?", ANCESTOR: f"~{number}", PARENT: f"{number}"}
    return words.get(kind, f"\\kind={kind}:{number}")


def message_text(message):
    """A message as it stands in a table. A blank at its beginning or its end is an escape, since a table's own blanks stand there."""
    words = [WRITTEN.get(byte, f"\\x{byte:02X}") for byte in message]
    for end in {0, len(words) - 1} if words else ():
        words[end] = "\\x20" if words[end] == " " else words[end]
    return "".join(words)


def table_line(data):
    """A record, cut or not, as a table's line."""
    if len(data) < RECORD:
        return f"{REST.decode()}={data.hex().upper()}"
    mark, count = data[MARK], data[COUNT]
    message = message_text(message_of(data))
    is_plain = mark in MARKS and (message or mark != ord("|"))
    words = [str(id_of(data)), chr(mark) if is_plain else escaped([mark])]
    words += [f"\\count={count}"] if count > MOST_PARENTS else []
    words += [parent_word(kind, number) for kind, number in entries_of(data)[:count]]
    return " ".join(words + (["|", message] if message else []))


def ignored_parts(data):
    """The parts of a record in which bytes are set that no program reads."""
    if len(data) < RECORD:
        return []
    used, unused = entries_of(data)[:data[COUNT]], entries_of(data)[data[COUNT]:]
    parts = {
        "entries behind its parents": any(kind or number for kind, number in unused),
        "the id of an anonymous parent": any(kind == ANONYMOUS and number for kind, number in used),
        "bytes behind its message": any(data[MESSAGE + len(message_of(data)):]),
    }
    return [part for part, is_set in parts.items() if is_set]
