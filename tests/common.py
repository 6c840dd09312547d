"""What the tests have in common: where the repository and its tools are, how long a run may take, and how a file is read."""
import os
import sys

sys.path.insert(0, os.path.join(os.path.dirname(os.path.realpath(__file__)), "..", "tools"))

from command import ROOT

# the longest that one run may take, in seconds
LIMIT = 60


def read(path):
    """All bytes of a file."""
    with open(path, "rb") as file:
        return file.read()


def read_text(path):
    """The text of a file."""
    return read(path).decode()
