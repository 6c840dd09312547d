"""What `draw`, `pack` and `unpack` have in common: their arguments, what they read, write and say, and how they end."""
import os
import signal
import sys

from messages import MESSAGES, MISTAKE, TABLE, USAGE, printable

ROOT = os.path.dirname(os.path.dirname(os.path.realpath(__file__)))

# the exit statuses; that of a signal is, as a shell gives it, above SIGNALLED by the signal's number
GOOD, FAILED, WRONG_USAGE, SIGNALLED = 0, 1, 2, 128

# the signals that end a command: an interrupt, a request to end, a terminal that is closed
ENDING = (signal.SIGINT, signal.SIGTERM, signal.SIGHUP)

STANDARD_INPUT = "standard input"

# how many bytes are read at once, and how many at most
CHUNK, MOST = 1 << 16, 64 << 20

# how many mistakes are listed
LISTED = 20


class Failure(Exception):
    """What ends a command with the status 1; its message is said."""

    def __init__(self, name, **fields):
        super().__init__(name)
        self.name, self.fields = name, fields


class Signalled(BaseException):
    """A signal that ends a command."""

    def __init__(self, number):
        super().__init__(number)
        self.number = number


def write(number, data):
    """Writes all bytes to an open file."""
    while data:
        data = data[os.write(number, data):]


def say_bytes(data):
    """Writes bytes on standard error. Where that is not possible, nothing else can be said."""
    try:
        write(2, data)
    except OSError:
        pass


def say_line(template, **fields):
    """Writes a message, from its template, on standard error."""
    shown = {name: printable(str(field)) for name, field in fields.items()}
    say_bytes(template.format(**shown).encode() + b"\n")


def say(name, **fields):
    """Writes a message, by its name, on standard error."""
    say_line(MESSAGES[name], **fields)


def shown_name(file):
    """A file's name in a message."""
    return STANDARD_INPUT if file == "-" else file


def read_file(tool, file):
    """All bytes of a file that can be read, and the reason why the reading ended before the file did, if it has."""
    is_named = file != "-"
    if not is_named and sys.stdin is None:
        raise Failure("unusable", tool=tool, file=STANDARD_INPUT, reason="it is closed, or a directory")
    read, reason = bytearray(), None
    try:
        with open(file if is_named else os.dup(0), "rb", buffering=0) as source:
            while len(read) <= MOST and (chunk := os.read(source.fileno(), CHUNK)):
                read += chunk
    except OSError as error:
        reason = error.strerror
    if len(read) > MOST:
        raise Failure("too-long", tool=tool, file=shown_name(file), most=MOST)
    if reason is not None and not read:
        raise Failure("unusable", tool=tool, file=shown_name(file), reason=reason)
    return bytes(read), reason


def say_read_cut(tool, file, data, reason):
    """Says where the reading of a file ended, if that was before the file's end, and gives the exit status."""
    if reason is None:
        return GOOD
    say("read-cut", tool=tool, file=shown_name(file), count=len(data), reason=reason)
    return FAILED


def list_first(file, found, tell):
    """Tells the first of what was found in a file, and how many more there are."""
    for one in found[:LISTED]:
        tell(*one)
    if len(found) > LISTED:
        say("more", file=shown_name(file), count=len(found) - LISTED)


def say_mistakes(file, table):
    """Says what is wrong in a table, or else what may not be meant in it, a line for each. Gives whether something is wrong."""
    found = table.mistakes or table.doubts
    list_first(file, found, lambda line, mistake: say_line(MISTAKE, file=shown_name(file), line=line, mistake=mistake))
    return bool(table.mistakes)


def output(tool, data):
    """Writes bytes to standard output."""
    try:
        if sys.stdout is None:
            raise Failure("unwritable", tool=tool, reason="it is closed")
        write(1, data)
    except BrokenPipeError:
        raise
    except OSError as error:
        raise Failure("unwritable", tool=tool, reason=error.strerror) from error


def fill_standard_streams():
    """Opens /dev/null in the place of each standard stream that is closed, so that no file gets its number."""
    while (number := os.open(os.devnull, os.O_RDWR)) <= 2:
        pass
    os.close(number)


def on_signals(action):
    """Sets what is done at a signal that ends a command; one that is ignored, as under nohup, stays so."""
    for number in ENDING:
        if signal.getsignal(number) != signal.SIG_IGN:
            signal.signal(number, action)


def raise_signal(number, _):
    """Raises a signal as an exception."""
    raise Signalled(number)


def run(tool, command, arguments):
    """Runs a command and gives its exit status."""
    fill_standard_streams()
    try:
        on_signals(raise_signal)
        if arguments == ["--help"]:
            output(tool, f"{USAGE[tool]}\n{TABLE}\n".encode())
            return GOOD
        return command(arguments)
    except Failure as failure:
        say(failure.name, **failure.fields)
        return FAILED
    except MemoryError:
        say("no-memory", tool=tool)
        return FAILED
    except BrokenPipeError:
        return SIGNALLED + signal.SIGPIPE
    except Signalled as signalled:
        return SIGNALLED + signalled.number
    finally:
        on_signals(signal.SIG_DFL)


def wrong_usage(tool):
    """Says how a command is used, and gives the exit status."""
    say_line(USAGE[tool])
    return WRONG_USAGE


def is_file(argument):
    """Whether an argument names a file, or standard input, and is no option."""
    return argument == "-" or not argument.startswith("-")
