#!/usr/bin/env python3
"""The built programs where reading or writing does not go well: tests/reads_and_writes.py

What they write up to there is held to what the Rust writes (examples/git-releases.page, crates/listing/stdout, tests/cases.page and
tests/cases.listing), and what they say on standard error to its words. The errors are the system's own: a directory, a closed input or output, a memory
that ends, a full disk, a file that may not grow."""
import ctypes
import mmap
import os
import resource
import signal
import subprocess
import sys
import tempfile

sys.dont_write_bytecode = True

import cases
from common import LIMIT

from building import path_of

RECORD = cases.RECORD

# the bytes of stack with which a program has to do: more than it needs (docs/HOUSE.md) by what the system puts in front of it
STACK = {"page": 72 * 1024, "listing": 48 * 1024}

READ, WRITE = "cannot read record {}\n", "cannot write record {}\n"


class Count:
    """How many cases were tried."""
    tried = 0


def content(path):
    """The bytes of a file."""
    with open(path, "rb") as file:
        return file.read()


class PageExample:
    """A history with its page by the Rust. No line is queued in it, and each message is a line's end of its own."""
    records, drawing, many = content("examples/git-releases.records"), content("examples/git-releases.page"), 40

    def drawn(self, count):
        """What is written for so many of its records: all in front of the next one's node line."""
        message = self.records[count * RECORD + cases.MESSAGE:(count + 1) * RECORD].rstrip(b"\0 ")
        return self.drawing[:self.drawing.rindex(b"\n", 0, self.drawing.index(b"  " + message + b"\n")) + 1] if count > 0 else b""


class ListingExample:
    """A history with its listing by the Rust."""
    records, drawing, many = content("crates/listing/stdin"), content("crates/listing/stdout"), 2

    def drawn(self, count):
        """What is written for so many of its records: all in front of the next one's first line, that of kind P."""
        return b"".join(b"P:" + lines for lines in self.drawing.split(b"P:")[1:count + 1])


def run(program, before=None, **how):
    """What a program writes on both outputs; `before` is done in its process first."""
    how = {"stdout": subprocess.PIPE, "stderr": subprocess.PIPE, "timeout": LIMIT, "preexec_fn": before, "check": True} | how
    ended = subprocess.run([path_of(program)], **how)
    return ended.stdout, ended.stderr.decode()


def expect(name, found, right):
    """One case."""
    Count.tried += 1
    if found != right:
        sys.exit(f"{name}: {found!r}, and it should be {right!r}")


def failing_after(records):
    """A file that gives these bytes and then an error: the memory of this process, up to a page that is not there."""
    page = mmap.PAGESIZE
    room = -(-len(records) // page) * page
    system = ctypes.CDLL(None)
    system.mmap.restype = ctypes.c_void_p
    start = system.mmap(None, ctypes.c_size_t(room + page), mmap.PROT_READ | mmap.PROT_WRITE, mmap.MAP_PRIVATE | mmap.MAP_ANONYMOUS, -1, ctypes.c_long(0))
    system.munmap(ctypes.c_void_p(start + room), ctypes.c_size_t(page))
    at = start + room - len(records)
    ctypes.memmove(at, records, len(records))
    memory = open("/proc/self/mem", "rb", buffering=0)
    memory.seek(at)
    return memory


def inputs(program, example):
    """An input that can't be read from its beginning on, or behind some records: these are drawn, and the program says where it stopped."""
    directory = os.open("examples", os.O_RDONLY)
    expect(f"{program}, a directory", run(program, stdin=directory), (b"", READ.format(0)))
    os.close(directory)
    expect(f"{program}, a closed input", run(program, before=lambda: os.close(0)), (b"", READ.format(0)))
    for count, more in ((0, 0), (0, 7), (1, 0), (example.many, 0), (example.many, 1), (example.many, RECORD - 1)):
        with failing_after(example.records[:count * RECORD + more]) as given:
            expect(f"{program}, an error behind {count} records and {more} bytes", run(program, stdin=given), (example.drawn(count), READ.format(count)))


def no_growth(size):
    """Lets a process's files grow to so many bytes only, and a write beyond them fail."""
    signal.signal(signal.SIGXFSZ, signal.SIG_IGN)
    resource.setrlimit(resource.RLIMIT_FSIZE, (size, size))


def outputs(program, example):
    """An output that can't be written from its beginning on, or behind the lines of some records."""
    records, many = example.records, example.many
    with open("/dev/full", "wb") as full:
        expect(f"{program}, a full disk", run(program, input=records, stdout=full), (None, WRITE.format(0)))
    expect(f"{program}, a closed output", run(program, before=lambda: os.close(1), input=records), (b"", WRITE.format(0)))
    size = len(example.drawn(many)) + 1
    with tempfile.TemporaryFile() as file:
        told = run(program, before=lambda: no_growth(size), input=records, stdout=file)
        expect(f"{program}, a disk full behind {many} records", told, (None, WRITE.format(many)))
        file.seek(0)
        expect(f"{program}, what is on that disk", file.read(), example.drawing[:size])


def pieces(program, example):
    """Records that come byte by byte, or two and a half at a time, are the same records."""
    given = example.records[:2 * RECORD]
    for size in (1, 100, RECORD, 320):
        with subprocess.Popen([path_of(program)], stdin=subprocess.PIPE, stdout=subprocess.PIPE, stderr=subprocess.PIPE, bufsize=0) as running:
            for at in range(0, len(given), size):
                running.stdin.write(given[at:at + size])
            expect(f"{program}, {size} bytes at a time", running.communicate(timeout=LIMIT), (example.drawn(2), b""))


def stack(program):
    """The widest rows, with the longest messages, are drawn on a small stack as on a large one, and nothing is said on standard error."""
    for name, file in cases.widths():
        small = run(program, before=lambda: resource.setrlimit(resource.RLIMIT_STACK, (STACK[program], STACK[program])), input=file, env={})
        right = content(f"tests/cases.{program}").split(f"== {name}\n".encode())[1].split(b"== ")[0]
        expect(f"{program}, {STACK[program]} bytes of stack, {name}", small, (right, ""))


def main():
    """Tries both programs."""
    for program, example in (("page", PageExample()), ("listing", ListingExample())):
        inputs(program, example)
        outputs(program, example)
        pieces(program, example)
        stack(program)
    print(f"{Count.tried} inputs and outputs that fail, come in pieces or leave little stack")


main()
