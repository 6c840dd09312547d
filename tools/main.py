"""Runs `draw`, `pack` or `unpack`, with which tools/start calls it: main.py TOOL ARGUMENTS.."""
import signal
import sys

# until a command ends itself at an interrupt, an interrupt ends it without a word
if signal.getsignal(signal.SIGINT) == signal.default_int_handler:
    signal.signal(signal.SIGINT, signal.SIG_DFL)

from command import run
from drawing import draw
from packing import pack, unpack

if __name__ == "__main__":
    tool, *arguments = sys.argv[1:]
    sys.exit(run(tool, {"draw": draw, "pack": pack, "unpack": unpack}[tool], arguments))
