"""What is taken from the step program, and what it is handed."""

import io
import os
import tempfile
import unittest
from pathlib import Path
from types import SimpleNamespace

from player import BACK, BEGINNING, FORWARD, Player, Position, playing
from streams import Stopped
from traces import Unreadable

NO_LINES = ("", "opened 0", "opened 1 0", "opened 0 -1", "opened 0 1 2",
            "opened  0 1", " opened 0 1", "opened 0 1\r", "Opened 0 1",
            "opened 0 x", "moved 0 1", "trace holds", "G", "AB", "unsafe",
            "safe", "void holds", "refused 9", "refused 9 17 1")
NO_MOVES = ("", "opened 0 1", "moved 1", "moved -1 1", "moved 1 1 1",
            "foreign 1 1", "ended 1 1", "moved  1 1", "Moved 1 1", "A",
            "moved 1 1\r")


def player(*lines):
    """Over a program that says these lines, and what it was told."""
    said = "".join(f"{line}\n" for line in lines).encode()
    process = SimpleNamespace(stdin=io.BytesIO(), stdout=io.BytesIO(said))
    return Player(process), process.stdin


class Lines(unittest.TestCase):
    def test_opened(self):
        made, _ = player("opened 0 4095")
        self.assertEqual((made.opened, made.outcome), (Position(0, 4095), ""))

    def test_outcomes(self):
        for line in ("safe holds", "void", *"ABCDEF", "refused 9 17",
                     "refused 1 16384"):
            made, _ = player(line)
            self.assertEqual((made.opened, made.outcome), (None, line))

    def test_moves(self):
        made, told = player("opened 0 1", "moved 1 7", "end 1 7", "moved 0 1",
                            "end 0 1", "moved 0 1")
        keys = FORWARD, FORWARD, BACK, BACK, BEGINNING
        self.assertEqual([made.move(key) for key in keys], [
            Position(1, 7), Position(1, 7, FORWARD), Position(0, 1),
            Position(0, 1, BACK), Position(0, 1)])
        self.assertEqual(told.getvalue(), b"ffbb0")

    def test_other_lines(self):
        for line in NO_LINES:
            self.assertRaises(Unreadable, player, line)
        for line in NO_MOVES:
            made, _ = player("opened 0 1", line)
            self.assertRaises(Unreadable, made.move, FORWARD)

    def test_no_line(self):
        self.assertRaises(Stopped, player)
        made, _ = player("opened 0 1")
        self.assertRaises(Stopped, made.move, FORWARD)


class Copies(unittest.TestCase):
    def test_the_program_has_both(self):
        """Whole, in this order, and as often as it opens them."""
        text, sheet = b"a text" * 3000, bytes(range(256)) * 257
        with tempfile.TemporaryDirectory() as name:
            folder = Path(name)
            (folder / "text").write_bytes(text)
            (folder / "sheet").write_bytes(sheet)
            program = folder / "program"
            program.write_text(
                f"#!/bin/sh\ncmp \"$1\" '{name}/text' && "
                f"cmp \"$1\" '{name}/text' && cmp \"$2\" '{name}/sheet' && "
                "echo opened 0 5\ncat >/dev/null\n")
            program.chmod(0o755)
            before = os.listdir("/proc/self/fd")
            with playing(program, text, sheet) as made:
                self.assertEqual(made.opened, Position(0, 5))
                process = made.process
            self.assertEqual(process.returncode, 0)
            self.assertEqual(os.listdir("/proc/self/fd"), before)


if __name__ == "__main__":
    unittest.main()
