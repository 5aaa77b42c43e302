"""The program step while it runs. Where it stands is what it says."""

import contextlib
import fcntl
import os
import re
import subprocess
import tempfile
from dataclasses import dataclass

from streams import Stopped, stopping
from traces import Unreadable

STREAMS = 3
FORWARD, BACK, BEGINNING = b"f", b"b", b"0"
OPENED = re.compile(r"opened (0) (\d+)")
MOVED = re.compile(r"(?:moved|end) (\d+) (\d+)")
# What the test says of a sheet that is no passing trace.
OUTCOME = re.compile(r"safe holds|void|[A-F]|refused \d+ \d+")


@dataclass(frozen=True)
class Position:
    place: int
    state: int
    # The move that led to no other place, because this is an end.
    stopped: bytes = b""


@contextlib.contextmanager
def playing(program, text, sheet):
    """A player on a text and a sheet. Their copies have no name, so that
    nothing is left of them, however this ends."""
    copies = [copied(text), copied(sheet)]
    process = subprocess.Popen(
        [program, *map("/dev/fd/{}".format, copies)], pass_fds=copies,
        bufsize=0, stdin=subprocess.PIPE, stdout=subprocess.PIPE)
    for copy in copies:
        os.close(copy)
    # At the end of its input the program ends.
    with process:
        yield Player(process)


def copied(data):
    """A descriptor. It is no standard stream's, even where one is closed."""
    with (stopping("cannot write a temporary file"),
          tempfile.TemporaryFile() as file):
        file.write(data)
        file.flush()
        return fcntl.fcntl(file, fcntl.F_DUPFD_CLOEXEC, STREAMS)


class Player:
    """`opened` is the first position, or None where `outcome`, the test's
    line, says why there is nothing to play."""

    def __init__(self, process):
        self.process = process
        said = self.line()
        found = OPENED.fullmatch(said)
        if not found and not OUTCOME.fullmatch(said):
            raise Unreadable
        self.opened = Position(*map(int, found.groups())) if found else None
        self.outcome = "" if found else said

    def move(self, key):
        # A program that is gone says no more, which is told below.
        with contextlib.suppress(BrokenPipeError):
            self.process.stdin.write(key)
        said = self.line()
        found = MOVED.fullmatch(said)
        if not found:
            raise Unreadable
        return Position(*map(int, found.groups()),
                        key if said.startswith("end") else b"")

    def line(self):
        said = self.process.stdout.readline().decode("latin-1")
        if not said.endswith("\n"):
            raise Stopped("step ended before its time")
        return said[:-1]
