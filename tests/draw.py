#!/usr/bin/env python3
"""`draw`: the examples and the edges as the Rust draws them, each refusal explained, and each message with the whole of what is said. Takes
the built programs page and listing, as new as their sources; builds are tried in a small tree with a stand-in for `rt`, and in one with the
toolchain."""
import contextlib
import glob
import os
import re
import shutil
import signal
import subprocess
import sys
import tempfile

sys.dont_write_bytecode = True

from checks import Checks, breaking_source, ended, start, wait_until
from common import ROOT, read

import cases
from building import MINUTES, is_outdated, path_of
from messages import DRAW, RECORDS, SHARED
from records import PARENT, pieces, read_table, record, table_line
from refusals import WRONG

DRAWER = [os.path.join(ROOT, "draw")]

EXAMPLES = os.path.join(ROOT, "examples")

# a record file of tests/cases.py, the number with which it is refused, and the record
REFUSED = [
    ("mark 20", 5, "record 1 (id 20)"),
    ("message byte 7F", 7, "record 1 (id 20)"),
    ("cut after two records and 3 bytes", 9, "record 2"),
    ("cut after two records and 4 bytes", 9, "record 2 (id 10)"),
    ("cut after two records and 127 bytes", 9, "record 2 (id 10)"),
    ("parent count 255", 10, "record 1 (id 20)"),
    ("kind 3 in the second used entry", 11, "record 1 (id 20)"),
    ("64 lines and a row that none of them waits for", 4, "record 8 (id 1)"),
]

# the record files whose drawings have lines like that of a refusal, and are not refused
LIKE_REFUSED = ("a message like a refusal", "a mark and a message like a refusal", "a last line like a refusal")

# a small tree: what its crates are made of, the sources of the page program among them, and what rt prints of it
CRATES = "# the crates\n\npage: middle hex\nleaf: hex\nmiddle: leaf # and no more\nother: leaf\nother_c staticlib: other\nlisting: other hex\n"
PAGE_SOURCES = ("crates.txt", "crates/leaf/src/lib.rt", "crates/leaf/specs/Leaf.antt", "crates/middle/proofs/a/Answers.antt", "crates/page/src/main.rt")
OTHER_SOURCES = ("crates/other/src/lib.rt", "crates/listing/src/main.rt", "crates/leaf/must-fail/a.edit", "crates/leaf/out/rlib/stamp")
LEAF = "only=0 proved=0\nfn leaf::one: proved\nlibrary hex: modules loaded=7 checked=0\ncrate leaf: modules loaded=5 checked=4\nlogic=proved functions=1 sum=0\n"
NOT_PROVED = "fn middle::two: not proved\ncrate middle: modules loaded=5 checked=4\nlogic=not-proved\n"
PROVED = LEAF + "crate middle: modules loaded=5 checked=4\nlogic=proved functions=0 sum=0\n"
PROVED += "fn page::main: proved\ncrate page: modules loaded=5 checked=4\naxioms os: none reached of the 2 declared\nlogic=proved functions=1 axioms=3\n"
RUNNING = "rt: running out/page; to give it other input, run that file yourself\n"
RAN = PROVED + RUNNING
RUN_FAILED = "rt: nothing has changed since the last proved build, by out/page.stamp, so nothing is checked now\n" + RUNNING

# crates that the toolchain itself builds a page program of, which draws one record, and how long that may take, in seconds
REAL = {
    "crates.txt": "page: middle\nmiddle: leaf\nleaf:\n",
    "crates/leaf/src/lib.rt": "// A library.\n#![tactic(auto)]\n",
    "crates/middle/src/lib.rt": "// Another library.\n#![tactic(auto)]\n",
    "crates/page/src/main.rt": "// Draws a mark.\n#![tactic(auto)]\n\nuse std::io;\n\nfn main(rt: HostRuntime) -> io::Result<()> {\n    println!(rt; \"o\")\n}\n",
}
REAL_LIMIT = 600

# a date in the future, in seconds
FUTURE = 1 << 32

BUILDING = ("building", f"draw: the first run proves and builds the program; this takes about {MINUTES} minutes on two cores")
AGAIN = ("building-again", f"draw: the sources are newer than the program, which is proved and built again; this takes up to {MINUTES} minutes on two cores")
PROGRESS = [("progress", f"  {at} of 3: {crate}") for at, crate in enumerate(("leaf", "middle", "page"), 1)]


def drawings(program):
    """What the Rust draws of the record files of tests/cases.py."""
    parts = re.split(rb"(?m)^== (.*)\n", read(os.path.join(ROOT, "tests", f"cases.{program}")))
    return dict(zip((name.decode() for name in parts[1::2]), parts[2::2]))


def taken(file):
    """What is said of a file whose first record is refused, if it was taken as a record file by how it begins."""
    return "taken-as-records", f"draw: {file}: it was taken as a record file, as it does not begin like text; the name of a table ends in .history"


def like_text(file):
    """What is said of a file that begins like text, and is drawn as a record file by its name."""
    return "text", f"draw: {file}: this begins like text; if it is a table, ./pack makes its records, and ./draw draws it where its name ends in .history"


def explained(number, record, place=""):
    """What is said of a refused record."""
    return "refused", f"{place}{record}: {WRONG[number]} (refusal {number})"


class Tree:
    """A small tree with `draw`, without a program, and with folders for PATH: one with what draw needs, one without python3, one with a stand-in for rt."""

    def __init__(self, folder):
        self.root = os.path.realpath(folder)
        self.program = self.path("crates/page/out/page")
        shutil.copy(os.path.join(ROOT, "draw"), self.root)
        shutil.copytree(os.path.join(ROOT, "tools"), self.path("tools"))
        shutil.copytree(EXAMPLES, self.path("examples"))
        for file in PAGE_SOURCES + OTHER_SOURCES:
            self.write(file, CRATES if file == "crates.txt" else "")
        for link, file in (("bare/readlink", shutil.which("readlink")), ("python/readlink", shutil.which("readlink")), ("python/python3", sys.executable)):
            os.makedirs(os.path.dirname(self.path(link)), exist_ok=True)
            os.symlink(file, self.path(link))
        self.command = [self.path("draw")]

    def path(self, name):
        """Where a file of the tree is."""
        return os.path.join(self.root, name)

    def write(self, name, text, mode=0o644):
        """Writes a file of the tree."""
        os.makedirs(os.path.dirname(self.path(name)), exist_ok=True)
        with open(self.path(name), "w", encoding="utf-8") as file:
            file.write(text)
        os.chmod(self.path(name), mode)

    def stand_in(self, printed, status=0, program=path_of("page"), then=""):
        """A stand-in for rt: notes its call and in which folder it comes, prints, copies a program to its place, and ends."""
        self.write("printed", printed)
        copy = f"mkdir -p {os.path.dirname(self.program)} && cp {program} {self.program}\n" if program else ""
        self.write("bin/rt", f'#!/bin/sh\necho "${{PWD##*/}}: $@" >>{self.root}/calls\ncd {self.root}\ncat printed\n{copy}{then}\nexit {status}\n', 0o755)

    def calls(self):
        """What the stand-in for rt was called with since this was asked last."""
        called = read(self.path("calls")).decode() if os.path.exists(self.path("calls")) else ""
        self.write("calls", "")
        return called

    def environment(self, *folders):
        """The environment with these folders in PATH, those of the tree among them."""
        return os.environ | {"PATH": os.pathsep.join(map(self.path, folders))}

    def with_rt(self):
        """The environment with a stand-in for rt, and with what that needs."""
        return self.environment("bin", "python", "/usr/bin", "/bin")


@contextlib.contextmanager
def tree():
    """A small tree, removed afterwards."""
    with tempfile.TemporaryDirectory() as folder:
        yield Tree(folder)


def examples(checks):
    """Every example is drawn: its table and its records, by name, by standard input, and under a name without an ending."""
    with tempfile.TemporaryDirectory() as folder:
        for page in glob.glob(os.path.join(EXAMPLES, "*.page")):
            for ending in ("history", "records"):
                file, other = page.removesuffix("page") + ending, os.path.join(folder, "other")
                checks.run([*DRAWER, file], 0, read(page))
                checks.run([*DRAWER, "-"], 0, read(page), input=read(file))
                shutil.copy(file, other)
                checks.run([*DRAWER, "other"], 0, read(page), cwd=folder)
    listing = os.path.join(ROOT, "crates", "listing")
    checks.run([*DRAWER, "--listing", os.path.join(EXAMPLES, "m1.history")], 0, read(os.path.join(listing, "stdout")))
    checks.run([*DRAWER, "-", "--listing"], 0, read(os.path.join(listing, "stdout")), input=read(os.path.join(listing, "stdin")))


def refusals(checks):
    """Each refusal is explained, of records and of a table; a drawing with lines like a refusal's is not refused."""
    files = dict(cases.cases())
    with tempfile.TemporaryDirectory() as folder:
        table = os.path.join(folder, "edge.history")
        for program, options in (("page", []), ("listing", ["--listing"])):
            drawn = drawings(program)
            for name, number, record in REFUSED:
                if (program, number) == ("listing", 7):
                    continue
                data, at = files[name], int(record.split()[1])
                checks.run([*DRAWER, *options, "-"], 1, drawn[name], [explained(number, record)], input=data)
                with open(table, "w", encoding="utf-8") as file:
                    file.write("\n".join(["# an edge", *map(table_line, pieces(data))]))
                checks.run([*DRAWER, *options, table], 1, drawn[name], [explained(number, record, f"{table}:{at + 2}: ")])
            for name in LIKE_REFUSED:
                checks.run([*DRAWER, *options, "-"], 0, drawn[name], input=files[name])
    # a refusal behind which much more stands
    checks.run([*DRAWER, "-"], 1, b"refused 5 at record 0\n", [explained(5, "record 0 (id 7)"), taken("standard input")],
               input=read_table(b"7 \\x20\n6 o\n").records * 50000)
    # the words of refusal 5, in whole
    checks.run([*DRAWER, "-"], 1, drawings("page")["mark 20"],
               [("refused", "record 1 (id 20): its mark is not a printable character (refusal 5)")], input=files["mark 20"])
    # the table of refusals, of which nothing is taken
    end, other = os.pipe()
    os.close(end)
    checks.run([sys.executable, os.path.join(ROOT, "tools", "refusals.py")], -signal.SIGPIPE, stdout=other)
    os.close(other)


def files_and_streams(checks):
    """Wrong arguments, files that cannot be read or hold nothing, mistakes, outputs that cannot be written, an interrupt."""
    merges, page = os.path.join(EXAMPLES, "merges.records"), read(os.path.join(EXAMPLES, "merges.page"))
    checks.usage(DRAWER, "draw", (["a", "b"], ["--unknown"], ["-l"], ["--listing", "a", "b"], ["--help", "a"]))
    checks.unreadable(DRAWER, "draw")
    checks.named(DRAWER, merges, page)
    checks.long(DRAWER, "draw")
    checks.listed(DRAWER)
    checks.streams([*DRAWER, merges], "draw", page)
    checks.broken_pipe([*DRAWER, "-"], b"o\n", read_table(b"1 o\n").records * 100000)
    checks.interrupted([*DRAWER, "-"])
    nothing = "there are no records, and nothing is drawn"
    checks.run([*DRAWER, "-"], 0, b"", [("no-records", f"draw: standard input: {nothing}")], input=b"")
    with tempfile.TemporaryDirectory() as folder:
        for name, data in (("a.records", b""), ("a.history", b"# nothing\n\n"), ("a", b"\n")):
            file = os.path.join(folder, name)
            with open(file, "wb") as made:
                made.write(data)
            checks.run([*DRAWER, file], 0, b"", [("no-records", f"draw: {file}: {nothing}")])
        with open(file, "wb") as made:
            made.write(b"7 o | good\n6 oo\nx o\n")
        checks.run([*DRAWER, file], 1, b"", [
            ("long-mark", f"{file}:2: the mark `oo` has 2 characters; a mark is one character from ! to ~, with a blank behind it"),
            ("no-id", f"{file}:3: `x` is no id; an id is a number from 0 to 4294967295")])
    checks.run([*DRAWER, "-"], 0, b"|\n\no  x\n", [
        ("bar-mark", "standard input:1: the mark is `|`, and there is no message; if the message begins there, a mark stands in front of the `|`, "
                     "as in `7 o | text` (if not, write the mark as `\\x7C`)")], input=b"7 |\n6 o | x\n")


def tables_and_records(checks):
    """What a file is taken as: by the ending of its name, else by how it begins."""
    merges, m1 = read(os.path.join(EXAMPLES, "merges.records")), read(os.path.join(EXAMPLES, "m1.history"))
    zero = ("zero-byte", "a zero byte; a table is plain text, and if this is a record file, ./unpack shows it as a table")
    utf_16 = ("utf-16", "this is UTF-16; a table is plain text, so save it as ASCII or UTF-8")
    wide = ("\ufeff" + m1.decode() * 2).encode("utf-16-le")
    with tempfile.TemporaryDirectory() as folder:
        def run(name, data, status, out, *said):
            """Draws these bytes under a name. The line of a mistake is put in front of it."""
            file = os.path.join(folder, name)
            with open(file, "wb") as made:
                made.write(data)
            checks.run([*DRAWER, file], status, out, [one(file) if callable(one) else (one[0], f"{file}:1: {one[1]}") for one in said])

        def refused(number, record):
            """What is said of a refused record of a record file."""
            return lambda _: explained(number, record)

        run("a.history", merges, 1, b"", zero)
        run("a.history", wide, 1, b"", utf_16)
        run("a.records", m1, 1, b"refused 9 at record 0\n", like_text, refused(9, "record 0 (id 1866735651)"))
        run("a.records", b"\xff\xfe7\0", 1, b"refused 9 at record 0\n", like_text, refused(9, "record 0 (id 3669759)"))
        run("a.records", b"\1 o\n", 1, b"refused 9 at record 0\n", refused(9, "record 0 (id 175054849)"))
        run("a", wide, 1, b"", utf_16)
        for strange in (b"\x01", b"\x1b", b"\x7f"):
            run("a", b"7 o | " + strange + b"\n", 1, b"", (
                "message-byte", f"the character `\\x{strange.hex().upper()}` in the message; only the characters from blank to ~ are drawn "
                                f"(`\\x{strange.hex().upper()}` writes it, and the page refuses it)"))
        run("a", b"7 o 6 \0\n", 1, b"", zero)
        run("a", b"7 o \x1b[0m", 1, b"refused 9 at record 0\n", refused(9, "record 0 (id 544153655)"), taken)
        run("a", merges[:5] + b"\xff" + merges[6:], 1, b"refused 10 at record 0\n", refused(10, "record 0 (id 90)"), taken)
        # ids that begin like UTF-16, and any ids with a good parent count, are records
        run("a", record(0xFEFF), 0, b"o\n")
        run("a", record(0x3020FEFF, "o", [(PARENT, 0x01010101)] * 8, b"m" * 82), 0, b"o  " + b"m" * 82 + b"\n")


def read_errors(checks):
    """What was read before an error is drawn, whole records and whole lines of a table; and the error is told."""
    def broken(data, out, *said):
        """Draws standard input, in which an error stands behind these bytes."""
        told = ("read-cut", f"draw: standard input: cannot be read beyond byte {len(data)}: Input/output error")
        with open(breaking_source(data), "rb", buffering=0) as source:
            checks.run([*DRAWER, "-"], 1, out, [*said, told], stdin=source)

    page = read(os.path.join(EXAMPLES, "merges.page"))
    table = read(os.path.join(EXAMPLES, "merges.history"))
    broken(read(os.path.join(EXAMPLES, "merges.records")), page)
    for count, more in ((0, 5), (0, 127), (1, 0), (2, 1), (2, 127)):
        whole = cases.HISTORY[:count * cases.RECORD]
        broken(cases.HISTORY[:len(whole) + more], subprocess.run([path_of("page")], input=whole, stdout=subprocess.PIPE, check=True).stdout)
    broken(table + b"5 o 3", page)
    broken(table + b"5 oo\n4 x", b"", ("long-mark", f"standard input:{table.count(10) + 1}: the mark `oo` has 2 characters; "
                                       "a mark is one character from ! to ~, with a blank behind it"))
    broken(b"5 o", b"")
    broken(b"# nothing\n", b"")
    # forty records of a long history are drawn up to the line of the next one
    releases = os.path.join(EXAMPLES, "git-releases.")
    whole = read(releases + "page")
    broken(read(releases + "records")[:40 * cases.RECORD], whole[:whole.rindex(b"\n", 0, whole.index(b"  v2.31.5 ")) + 1])


def toolchain_missing(checks):
    """Without rt nothing is built, and what is missing is told; what can be told of the file is told before."""
    missing = ("no-toolchain", "draw: the program is not built, and the Rattle toolchain is missing: its command rt must be in PATH (see README.md)\n"
               "draw: the toolchain is needed only for the first run, which proves and builds the program, and after a change of the sources")
    again = ("no-toolchain-again", "draw: the sources are newer than the program, and the Rattle toolchain, which proves and builds it again, is missing: "
             "its command rt must be in PATH (see README.md)")
    with tree() as small:
        options = {"env": small.environment("python")}
        checks.run(small.command, 1, b"", [missing], **options)
        checks.run([*small.command, small.root], 1, b"", [("unusable", f"draw: {small.root}: Is a directory")], **options)
        checks.run([*small.command, "-"], 1, b"", [("no-id", "standard input:1: `x` is no id; an id is a number from 0 to 4294967295")],
                   input=b"x o", **options)
        checks.run(["sh", "-c", 'exec "$@" >&-', "sh", *small.command], 1, b"", [("unwritable", "draw: standard output: it is closed")],
                   env=small.with_rt())
        os.makedirs(os.path.dirname(small.program))
        shutil.copy(path_of("page"), small.program)
        checks.run(small.command, 0, read(os.path.join(EXAMPLES, "merges.page")), **options)
        os.utime(small.path(PAGE_SOURCES[-1]))
        checks.run(small.command, 1, b"", [again], **options)
        checks.run(small.command, 1, b"", [(None, "draw: python3 is missing: it must be in PATH (see README.md)")], env=small.environment("bare"))


def builds(checks):
    """The first run builds, with its progress; so does one after a change of a source, and no other."""
    page = read(os.path.join(EXAMPLES, "merges.page"))
    with tree() as small:
        def run(*said):
            """Draws, and compares whether rt was called."""
            checks.run(small.command, 0, page, said, env=small.with_rt())
            checks.same("calls of rt", small.calls(), "page: run\n" if said else "")

        small.stand_in(RAN)
        run(BUILDING, *PROGRESS)
        checks.same("the log", read(small.path("target/draw.log")).decode(), RAN)
        run()
        # where nothing can be said, nothing is said elsewhere
        os.remove(small.program)
        checks.run(["sh", "-c", 'exec "$@" 2>&-', "sh", *small.command], 0, page, env=small.with_rt())
        checks.same("the log of a build with standard error closed", read(small.path("target/draw.log")).decode(), RAN)
        small.calls()
        small.stand_in(RAN, program=None)
        for source in PAGE_SOURCES:
            os.utime(small.path(source))
            run(AGAIN, *PROGRESS)
            run()
        for source in OTHER_SOURCES:
            os.utime(small.path(source))
            run()
        os.remove(small.path("crates/leaf/specs/Leaf.antt"))
        run(AGAIN, *PROGRESS)
        run()
        # a link to nothing, as an editor leaves it
        os.symlink("nothing", small.path("crates/leaf/src/link"))
        run(AGAIN, *PROGRESS)
        run()
        # an old date, as a copied source keeps it; a date in the future
        os.utime(small.path(PAGE_SOURCES[-1]), (0, 0))
        run()
        os.utime(small.path(PAGE_SOURCES[-1]), (FUTURE, FUTURE))
        run(AGAIN, *PROGRESS)
        run()
        os.utime(small.path("crates.txt"))
        run(AGAIN, *PROGRESS)
        run()
        # a build has no part of the standard input of `draw`
        os.utime(small.path("crates.txt"))
        small.stand_in(RAN, program=None, then="cat >given")
        checks.run(small.command, 0, page, [AGAIN, *PROGRESS], env=small.with_rt(), input=b"given")
        checks.same("what rt is given", read(small.path("given")), b"")


def failing_builds(checks):
    """A build that fails, or gives no program, ends `draw` with the log's name, and is tried again."""
    with tree() as small:
        def run(*said):
            """Draws nothing."""
            checks.run(small.command, 1, b"", said, env=small.with_rt())

        not_built = ("not-built", f"draw: the program was not proved and built; {small.path('target/draw.log')} says why")
        small.stand_in(LEAF + NOT_PROVED, 1, None)
        run(BUILDING, PROGRESS[0], not_built)
        small.stand_in(LEAF, 0, None)
        run(BUILDING, PROGRESS[0], not_built)
        small.stand_in(RUN_FAILED, 1)
        run(BUILDING, not_built)
        run(AGAIN, not_built)
        checks.same("the log", read(small.path("target/draw.log")).decode(), RUN_FAILED)
        small.write("bin/rt", "no program\n", 0o755)
        run(AGAIN, ("unusable", "draw: rt: Exec format error"))
        os.remove(small.path("crates.txt"))
        run(("unusable", f"draw: {small.path('crates.txt')}: No such file or directory"))
    with tree() as small:
        small.stand_in(RAN)
        small.write("target", "no folder")
        run(BUILDING, ("unusable", f"draw: {small.path('target')}: File exists"))


def is_gone(process):
    """Whether a process has ended."""
    status = f"/proc/{process}/stat"
    return not os.path.exists(status) or read(status).rpartition(b")")[2].split()[0] == b"Z"


def ended_builds(checks):
    """An interrupt, a request to end and a closed terminal end a build with all its processes. A signal that was ignored stays so."""
    ignoring = ["sh", "-c", 'trap "" HUP; exec "$@"', "sh"]
    signals = (([], [signal.SIGINT], 130), ([], [signal.SIGTERM], 143), ([], [signal.SIGHUP], 129), (ignoring, [signal.SIGHUP, signal.SIGTERM], 143))
    for before, sent, status in signals:
        with tree() as small:
            small.stand_in(LEAF, program=None, then="sleep 1000 &\necho $! >started.new\nmv started.new started\nwait")
            with start([*before, *small.command], env=small.with_rt()) as run:
                said = run.stderr.readline() + run.stderr.readline()
                wait_until(lambda: os.path.exists(small.path("started")))
                for number in sent:
                    run.send_signal(number)
                out, rest = ended(run)
            checks.compare(f"a build ended by {sent}", (run.returncode, out, said + rest), status, b"", [BUILDING, PROGRESS[0]])
            wait_until(lambda: is_gone(int(read(small.path("started")))))


def early_interrupt(checks):
    """An interrupt while the modules are read ends `draw` without a word."""
    with tree() as small:
        small.write("tools/messages.py", "import time\nopen('reading', 'w').close()\ntime.sleep(1000)\n")
        with start(small.command, env=small.environment("python"), cwd=small.root) as run:
            wait_until(lambda: os.path.exists(small.path("reading")))
            run.send_signal(signal.SIGINT)
            out, said = ended(run)
        checks.compare("an early interrupt", (run.returncode, out, said), -signal.SIGINT, b"", ())


def programs(checks):
    """What a program says on standard error is passed on, and so is how it ended."""
    with tree() as small:
        def run(program, out, *said, mode=0o755):
            """Draws two records with a program of the test's own."""
            small.write("crates/page/out/page", program, mode)
            checks.run([*small.command, "-"], 1, out, said, env=small.with_rt(), input=b"7 o\n6 o\n")

        run("#!/bin/sh\ncat >/dev/null; echo o; echo cannot write record 1 >&2\n", b"o\n", (None, "cannot write record 1"))
        unknown = "it is refused with a number that tools/refusals.py does not explain"
        run("#!/bin/sh\necho refused 99 at record 1\n", b"refused 99 at record 1\n", ("refused", f"standard input:2: record 1 (id 6): {unknown} (refusal 99)"))
        run("#!/bin/sh\necho refused 5 at record 9\n", b"refused 5 at record 9\n", explained(5, "record 9"))
        run("#!/bin/sh\necho o; kill -SEGV $$\n", b"o\n", ("ended", f"draw: {small.program} ended early: Segmentation fault"))
        run("#!/bin/sh\nexit 3\n", b"", ("ended", f"draw: {small.program} ended early: status 3"))
        run("", b"", ("not-started", f"draw: {small.program} cannot be started: Permission denied"), mode=0o644)
        run("#!/bin/sh\ncat >/dev/null; echo o; printf 'a\\377\\n' >&2\n", b"o\n", (None, "a\udcff"))


def real_build(checks):
    """The toolchain itself builds a program where `draw` looks for it, and prints what `draw` takes its progress from: of each crate that is
    proved anew."""
    with tree() as small:
        def run(*said):
            """Draws."""
            checks.run(small.command, 0, b"o\n", said, limit=REAL_LIMIT)

        shutil.rmtree(small.path("crates"))
        for file, text in REAL.items():
            small.write(file, text)
        run(BUILDING, *PROGRESS)
        run()
        os.utime(small.path("crates/leaf/src/lib.rt"))
        run(AGAIN)
        small.write("crates/middle/src/lib.rt", REAL["crates/middle/src/lib.rt"].replace("Another", "A changed"))
        run(AGAIN, *PROGRESS[1:])


def main():
    """Tries all parts, and gives the exit status."""
    for program, command in (("page", "./draw"), ("listing", "./draw --listing")):
        if not os.path.exists(path_of(program)) or is_outdated(program):
            print(f"crates/{program}/out/{program} is not there, or older than its sources: {command} proves and builds it")
            return 1
    checks = Checks()
    parts = (examples, refusals, files_and_streams, tables_and_records, read_errors, toolchain_missing, builds, failing_builds, ended_builds, early_interrupt,
             programs, real_build)
    for part in parts:
        part(checks)
    return checks.finish([*SHARED, *RECORDS, *DRAW, "usage draw"], f"{len(glob.glob(EXAMPLES + '/*.page'))} examples, {len(REFUSED)} refusals")


if __name__ == "__main__":
    sys.exit(main())
