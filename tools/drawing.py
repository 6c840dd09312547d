"""What `draw` does: reads a table or a record file, has the program built, runs it, and explains a refusal."""
import contextlib
import os
import re
import signal
import subprocess
from concurrent.futures import ThreadPoolExecutor
from typing import NamedTuple

from building import provided
from command import CHUNK, FAILED, GOOD, ROOT, Failure, is_file, output, read_file, say, say_bytes, say_mistakes, say_read_cut, shown_name, wrong_usage
from records import RECORD, is_text, pieces, read_table, title
from refusals import WRONG

# what is drawn where no file is named
EXAMPLE = os.path.join(ROOT, "examples", "merges.history")

# the line at which a program stops at a refusal; no line of a drawing is like it, since each begins with a prefix or a kind letter
REFUSED = re.compile(rb"refused ([0-9]+) at record ([0-9]+)\n")

# what is said of a number that tools/refusals.py does not have
UNKNOWN = "it is refused with a number that tools/refusals.py does not explain"


class History(NamedTuple):
    """What is drawn: a file's records, the lines of its table if it is one, and whether it was taken as a record file by how it begins."""
    file: str
    records: bytes
    lines: list
    is_guess: bool


def is_table(file, data):
    """Whether a file is a table: by the ending of its name, or by how it begins."""
    return file.endswith(".history") or not file.endswith(".records") and is_text(data)


def read_history(file, data, is_cut):
    """What is drawn of a file, or None where it is a table with mistakes. Of one that was not read to its end, whole records or lines are drawn."""
    if is_table(file, data):
        table = read_table(data[:data.rfind(b"\n") + 1] if is_cut else data)
        return None if say_mistakes(file, table) else History(file, table.records, table.lines, False)
    if is_text(data):
        say("text", tool="draw", file=shown_name(file))
    return History(file, data[:-(len(data) % RECORD) or None] if is_cut else data, [], not file.endswith(".records"))


def feed(pipe, records):
    """Gives a program its records; one that stops at a refusal reads no further."""
    with contextlib.suppress(BrokenPipeError), pipe:
        pipe.write(records)


def pass_on(pipe):
    """Writes what a program writes to standard output, and gives its last line."""
    last = b""
    while chunk := pipe.read1(CHUNK):
        output("draw", chunk)
        last += chunk
        last = last[last.rfind(b"\n", 0, -1) + 1:]
    return last


def run_program(path, records):
    """Runs a program on records, and gives the last line of its output, what it said on standard error, and its status."""
    pipes = {name: subprocess.PIPE for name in ("stdin", "stdout", "stderr")}
    try:
        run = subprocess.Popen([path], **pipes)
    except OSError as error:
        raise Failure("not-started", program=path, reason=error.strerror) from error
    with run, ThreadPoolExecutor() as pool:
        try:
            fed, said = pool.submit(feed, run.stdin, records), pool.submit(run.stderr.read)
            last = pass_on(run.stdout)
            fed.result()
        except BaseException:
            run.kill()
            raise
    return last, said.result(), run.returncode


def explain(history, number, at):
    """Says why a record was refused, with the line of its table if it has one."""
    file, lines = shown_name(history.file), history.lines
    piece = b"".join(pieces(history.records)[at:at + 1])
    place = f"{file}:{lines[at]}: " if at < len(lines) else ""
    say("refused", place=place, record=title(at, piece), wrong=WRONG.get(number, UNKNOWN), number=number)
    if at == 0 and history.is_guess:
        say("taken-as-records", file=file)


def draw_with(program, history):
    """Draws a history with a program, says what went wrong, and gives the exit status."""
    # a closed standard output is found before anything is built
    output("draw", b"")
    path = provided(program)
    last, said, status = run_program(path, history.records)
    say_bytes(said)
    if status != 0:
        reason = signal.strsignal(-status) if status < 0 else f"status {status}"
        raise Failure("ended", program=path, reason=reason)
    if refused := REFUSED.fullmatch(last):
        explain(history, int(refused[1]), int(refused[2]))
    return FAILED if said or refused else GOOD


def draw(arguments):
    """Draws the file that the arguments name, and gives the exit status."""
    files = [argument for argument in arguments if argument != "--listing"]
    if len(files) > 1 or not all(is_file(file) for file in files):
        return wrong_usage("draw")
    file, status = files[0] if files else EXAMPLE, GOOD
    data, reason = read_file("draw", file)
    history = read_history(file, data, reason is not None)
    if history is None:
        status = FAILED
    elif history.records:
        status = draw_with("listing" if "--listing" in arguments else "page", history)
    elif reason is None:
        say("no-records", tool="draw", file=shown_name(file), done="drawn")
    return max(status, say_read_cut("draw", file, data, reason))
