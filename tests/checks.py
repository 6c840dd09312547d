"""What tests/tables.py and tests/draw.py have in common: runs of `draw`, `pack` and `unpack`, of which all that is written is compared, and
the messages seen."""
import contextlib
import fcntl
import os
import re
import shutil
import signal
import string
import subprocess
import tempfile
import termios
import threading
import time
import tty

from common import LIMIT, ROOT

from command import ENDING, MOST
from messages import DOUBTS, MESSAGES, MISTAKE, MISTAKES, USAGE

# the commands themselves see to it that no __pycache__ is left behind
os.environ.pop("PYTHONDONTWRITEBYTECODE", None)

# every message by its name, as the line that it is
LINES = MESSAGES | {name: MISTAKE.replace("{mistake}", text) for name, text in (MISTAKES | DOUBTS).items()}
LINES |= {f"usage {tool}": usage for tool, usage in USAGE.items()}

# what --help says behind the usage
HELP = rb"""
A table has a line for each record, ID MARK PARENTS.. | MESSAGE:
  70 o 60 ~40 ? | 5.2.0 from the maker,\nwith our range rings
An id is a number from 0 to 4294967295, a mark one character from ! to ~. A parent is 60 (direct), ~60 (indirect) or ? (anonymous);
there are at most eight. A message has at most 82 characters from blank to ~, without the blanks around it; \n writes a line end,
\\ a backslash. Lines that are empty or begin with # are passed over.
What no page shows is written by an escape: \xHH (a byte of a message, or a mark), \kind=K:ID (a parent of an unknown kind), \count=N
in front of eight parents (a parent count above eight), and \rest=HEX.. as the last line (a cut record).
"""

# a file's name with a colour, a line end, a byte outside of UTF-8 and a letter, and how it stands in a message
NAME, SHOWN_NAME = b"\x1b[31m\n\xe9\xc3\xa9", "\\x1B[31m\\x0A\\xE9\u00e9"

# less memory than a command needs for the longest file, in KiB
MEMORY = 120000


def pattern(template):
    """What a message looks like, whatever its fields are."""
    parts = string.Formatter().parse(template)
    return "".join(re.escape(literal) + ("" if field is None else "(.*)") for literal, field, _, _ in parts)


def breaking_source(data):
    """An open file that gives bytes and then an error: the end of a terminal whose other end is closed."""
    master, slave = os.openpty()
    tty.setraw(slave)

    def give():
        """Writes the bytes at the other end, and closes it."""
        with open(slave, "wb", buffering=0) as file:
            left = data
            while left:
                left = left[file.write(left):]

    threading.Thread(target=give, daemon=True).start()
    return master


def wait_until(holds):
    """Waits until a condition holds, at most as long as a run may take."""
    end = time.monotonic() + LIMIT
    while not holds():
        if time.monotonic() > end:
            raise TimeoutError("what was waited for did not come")
        time.sleep(0.01)


def default_signals():
    """Lets the signals that end a command end it, also where they do not end the tests."""
    for number in ENDING:
        signal.signal(number, signal.SIG_DFL)


def start(command, **options):
    """Starts a command that can be interrupted."""
    options = {"stdout": subprocess.PIPE, "stderr": subprocess.PIPE, **options}
    return subprocess.Popen(command, preexec_fn=default_signals, **options)


def ended(run, given=None, limit=LIMIT):
    """What a started command writes until it ends. One that takes too long is told to end, with all that it has started, and is then killed."""
    try:
        return run.communicate(given, timeout=limit)
    except subprocess.TimeoutExpired:
        run.terminate()
    try:
        return run.communicate(timeout=LIMIT)
    except subprocess.TimeoutExpired:
        run.kill()
    return run.communicate()


class Checks:
    """The runs so far, the messages seen, and what was not as expected."""

    def __init__(self):
        self.runs, self.seen, self.failures = 0, set(), []

    def same(self, what, found, expected):
        """Compares two values."""
        if found != expected:
            self.failures.append(f"{what}:\n  found    {found!r}\n  expected {expected!r}")

    def run(self, command, status=0, out=b"", said=(), **options):
        """Runs a command and compares its exit status, its output and what it says: lines, each with its message's name."""
        given, limit = options.pop("input", None), options.pop("limit", LIMIT)
        options = {"stdin": subprocess.DEVNULL if given is None else subprocess.PIPE, **options}
        with start(command, **options) as run:
            written, told = ended(run, given, limit)
        self.compare(command, (run.returncode, written or b"", told), status, out, said)

    def compare(self, command, found, status, out, said):
        """Compares what a run gave: its exit status, its output, and what it said. A line passed on has no message's name, but None."""
        self.runs += 1
        self.same(f"{command}, status", found[0], status)
        self.same(f"{command}, output", found[1], out)
        self.same(f"{command}, standard error", found[2].decode("utf-8", "surrogateescape"), "".join(f"{line}\n" for _, line in said))
        named = [(name, line) for name, line in said if name is not None]
        for name, line in named:
            if re.fullmatch(pattern(LINES[name]), line) is None:
                self.failures.append(f"{line!r} is not the message {name}")
            self.seen.add(name)

    def interrupted(self, command):
        """Runs a command that waits for more input, and interrupts it: it ends without a word."""
        end, other = os.pipe()
        os.write(other, b"7 o")
        with start(command, stdin=end) as run:
            wait_until(lambda: fcntl.ioctl(end, termios.FIONREAD, bytes(4)) == bytes(4))
            run.send_signal(signal.SIGINT)
            out, said = ended(run)
        os.close(end)
        os.close(other)
        self.compare(command, (run.returncode, out, said), 130, b"", ())

    def broken_pipe(self, command, first, data):
        """Runs a command on much input, and closes its output behind the first line: it ends without a word."""
        with tempfile.TemporaryFile() as source:
            source.write(data)
            source.seek(0)
            with start(command, stdin=source) as run:
                line = run.stdout.readline()
                run.stdout.close()
                said = ended(run)[1]
        self.compare(command, (run.returncode, line, said), 141, first, ())

    def terminal(self, command, said):
        """Runs a command whose output is a terminal, and which must not write there."""
        master, slave = os.openpty()
        self.run(command, 1, b"", said, stdout=slave)
        os.close(slave)
        with contextlib.suppress(OSError):
            self.same(f"{command} on a terminal", os.read(master, 1), b"")
        os.close(master)

    def streams(self, command, tool, good, **options):
        """Runs a command that writes, on a closed output and on a full disk."""
        closed = ("unwritable", f"{tool}: standard output: it is closed")
        full = ("unwritable", f"{tool}: standard output: No space left on device")
        self.run(["sh", "-c", 'exec "$@" >&-', "sh", *command], 1, b"", [closed], **options)
        with open("/dev/full", "wb") as disk:
            self.run(command, 1, b"", [full], stdout=disk, **options)
        # with its standard error closed a command says nothing, and works
        self.run(["sh", "-c", 'exec "$@" 2>&-', "sh", *command], 0, good, **options)

    def unreadable(self, command, tool):
        """Runs a command on files that cannot be read."""
        with tempfile.TemporaryDirectory() as folder:
            missing, link = os.path.join(folder, "missing"), os.path.join(folder, "link")
            os.symlink("link", link)
            reasons = {missing: "No such file or directory", folder: "Is a directory", link: "Too many levels of symbolic links",
                       "/proc/self/mem": "Input/output error"}
            for file, reason in reasons.items():
                self.run([*command, file], 1, b"", [("unusable", f"{tool}: {file}: {reason}")])
            with open(folder + "/unwritten", "wb") as file:
                self.run([*command, "-"], 1, b"", [("unusable", f"{tool}: standard input: Bad file descriptor")], stdin=file)
            closed = [("unusable", f"{tool}: standard input: it is closed, or a directory")]
            self.run(["sh", "-c", 'exec "$@" <&-', "sh", *command, "-"], 1, b"", closed)
            self.run(["sh", "-c", 'exec "$@" <"$0"', folder, *command, "-"], 1, b"", closed)
            self.run([os.fsencode(command[0]), os.fsencode(folder) + b"/" + NAME], 1, b"", [
                ("unusable", f"{tool}: {folder}/{SHOWN_NAME}: No such file or directory")])

    def long(self, command, tool):
        """Runs a command on a file without an end, and with too little memory on the longest file that it reads."""
        self.run([*command, "/dev/zero"], 1, b"", [("too-long", f"{tool}: /dev/zero: there are more than 67108864 bytes, and {tool} reads no more")])
        with tempfile.NamedTemporaryFile() as file:
            file.write(b"1 o\n" * (MOST // 4))
            file.flush()
            self.run(["sh", "-c", 'ulimit -v "$0"; exec "$@"', str(MEMORY), *command, file.name], 1, b"", [
                ("no-memory", f"{tool}: there is not enough memory")])

    def named(self, command, file, good):
        """Runs a command on a file under a name that is not printable, by a link to the command, from elsewhere, with a directory as standard input, and
        with a user's own modules for Python."""
        with tempfile.TemporaryDirectory() as folder:
            shutil.copy(file, os.path.join(os.fsencode(folder), NAME))
            os.symlink(command[0], os.path.join(folder, "link"))
            with open(os.path.join(folder, "typing.py"), "w", encoding="utf-8") as module:
                module.write("raise SystemExit('a module of the user')\n")
            self.run(["sh", "-c", 'exec "$@" <.', "sh", "./link", NAME], 0, good, cwd=folder, env=os.environ | {"PYTHONPATH": folder})

    def listed(self, command):
        """Runs a command on tables with as many mistakes as are listed, and with more."""
        said = [("no-id", f"standard input:{line}: `x` is no id; an id is a number from 0 to 4294967295") for line in range(1, 21)]
        self.run([*command, "-"], 1, b"", said, input=b"x o\n" * 20)
        self.run([*command, "-"], 1, b"", [*said, ("more", "standard input: and 3 more")], input=b"x o\n" * 23)

    def usage(self, command, tool, wrong):
        """Runs a command with wrong arguments, and with --help alone."""
        for arguments in wrong:
            self.run([*command, *arguments], 2, b"", [(f"usage {tool}", USAGE[tool])])
        self.run([*command, "--help"], 0, USAGE[tool].encode() + b"\n" + HELP)

    def finish(self, wanted, counts):
        """Prints what failed and the counts, and gives the exit status. Each message wanted must have been seen, and no file be left behind."""
        self.same("messages never seen", sorted(set(wanted) - self.seen), [])
        self.same("__pycache__", [path for path in ("tools", "tests") if os.path.exists(os.path.join(ROOT, path, "__pycache__"))], [])
        print("\n".join([*self.failures, f"{counts}, {self.runs} runs, {len(self.seen)} messages seen"]))
        return 1 if self.failures else 0
