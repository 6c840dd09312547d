"""Proves and builds a program for `draw`, where it is not there or older than its sources."""
import os
import re
import shutil
import signal
import subprocess
import time

from command import ROOT, Failure, say

# how long the first run takes on two cores
MINUTES = 10

CRATES = os.path.join(ROOT, "crates.txt")
LOG = os.path.join(ROOT, "target", "draw.log")

# the folders of a crate that a program is made of
PARTS = ("src", "specs", "proofs")

# the lines with which `rt run` ends a crate that was proved: its name, and further down the verdict
NAMED, PROVED = re.compile(rb"crate (\w+): "), re.compile(rb"logic=proved\b")


def folder_of(program):
    """The folder of a program's crate."""
    return os.path.join(ROOT, "crates", program)


def path_of(program):
    """Where a program lies once it is built."""
    return os.path.join(folder_of(program), "out", program)


def needed(program):
    """The crates that a program is made of, those that crates.txt names for it and for them, and itself: in the order in which rt proves them."""
    with open(CRATES, encoding="utf-8") as file:
        lines = [line.partition("#")[0].partition(":") for line in file]
    named, found = {crate.split()[0]: crates.split() for crate, _, crates in lines if crate.strip()}, []

    def add(crate):
        """Adds a crate behind those that it uses."""
        if crate in named and crate not in found:
            for used in named[crate]:
                add(used)
            found.append(crate)

    add(program)
    return found


def sources(program):
    """The files and folders that a program is made from."""
    yield CRATES
    for crate in needed(program):
        for part in PARTS:
            for folder, _, files in os.walk(os.path.join(ROOT, "crates", crate, part)):
                yield folder
                yield from (os.path.join(folder, file) for file in files)


def changed(source):
    """When a source was changed: its date, or where that was set to a later time, when it was set."""
    status = os.lstat(source)
    return min(status.st_mtime_ns, status.st_ctime_ns)


def is_outdated(program):
    """Whether a source is newer than a program that is there."""
    built = os.stat(path_of(program)).st_mtime_ns
    return any(changed(source) > built for source in sources(program))


def follow(program, log):
    """Proves, builds and runs a program, with nothing to read: what rt prints goes into the log, and each crate that is proved anew is said, with
    its place among all. Gives the status, which is the program's own where it ran."""
    crates, crate = needed(program), None
    # in a process group of its own, so that a signal to `draw` ends all its processes
    with subprocess.Popen(["rt", "run"], cwd=folder_of(program), stdin=subprocess.DEVNULL, stdout=subprocess.PIPE, stderr=subprocess.STDOUT,
                          start_new_session=True) as run:
        try:
            for line in run.stdout:
                log.write(line)
                if named := NAMED.match(line):
                    crate = named[1].decode()
                elif PROVED.match(line) and crate in crates:
                    say("progress", at=crates.index(crate) + 1, all=len(crates), crate=crate)
                    crate = None
        except BaseException:
            os.killpg(run.pid, signal.SIGTERM)
            raise
    return run.returncode


def build(program):
    """Proves and builds a program. It is then as old as the start of this run; after a failure, older than any source."""
    began, path = time.time_ns(), path_of(program)
    os.makedirs(os.path.dirname(LOG), exist_ok=True)
    with open(LOG, "wb", buffering=0) as log:
        status = follow(program, log)
    is_there = os.path.exists(path)
    if is_there:
        os.utime(path, ns=(began, began if status == 0 else 0))
    if status != 0 or not is_there:
        raise Failure("not-built", log=LOG)


def provide(program):
    """Builds a program where that is needed."""
    is_there = os.path.exists(path_of(program))
    if is_there and not is_outdated(program):
        return
    if shutil.which("rt") is None:
        raise Failure("no-toolchain-again" if is_there else "no-toolchain")
    say("building-again" if is_there else "building", minutes=MINUTES)
    build(program)


def provided(program):
    """The path of a program, which is built first where that is needed."""
    try:
        provide(program)
    except OSError as error:
        raise Failure("unusable", tool="draw", file=error.filename or LOG, reason=error.strerror) from error
    return path_of(program)
