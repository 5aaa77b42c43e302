"""Statuses, the file of a page, and what happens where there is no report or
no reservation, with stand-ins for the programs that print stored ones."""

import contextlib
import io
import os
import tempfile
import unittest
from errno import EBADF, ENOSPC, EPIPE
from pathlib import Path
from unittest import mock

from explaining import asked, main, shown
from stored import cases

CASES = {case.name: case for case in cases()}
STATUSES = (("safe", 0), ("safe_settings", 0), ("safe_rows", 0),
            ("several_steps", 1), ("void_both", 1), ("tab", 2))
# Lines that could stand behind `safe` for 2 shared and 2 row names, but for
# one fault each.
NO_COUNTS = (
    "states 7", "states 0", "at 0 1|at 1 4|at 3 2",
    "states 8|at 0 1|at 1 4|at 3 2", "states 6|at 0 1|at 1 4|at 3 2",
    "at 0 1|at 1 4|at 3 2|states 7", "states 7|states 7|at 0 1|at 1 4|at 3 2",
    "states 7|at 1 4|at 0 1|at 3 2", "states 7|at 0 1|at 1 2|at 1 2|at 3 2",
    "states 7|at 0 1|at 1 4|at 2 0|at 3 2", "states 7|at -1 1|at 1 4|at 3 2",
    "states 5|at 0 -1|at 1 4|at 3 2", "states 7|at 0 1|at 1 4|at 4 2",
    "states 8|at 0 1|at 1 5|at 3 2", "states 07|at 0 1|at 1 4|at 3 2",
    "states 7|at 00 1|at 1 4|at 3 2", "states 7|at 0 +1|at 1 4|at 3 2",
    "states 7|at 0 1 1|at 1 4|at 3 2", "states 7|at 0|at 1 4|at 3 2",
    "states 7|at  0 1|at 1 4|at 3 2", "states 7|at 0 1 |at 1 4|at 3 2",
    "states 7|At 0 1|at 1 4|at 3 2", "state 7|at 0 1|at 1 4|at 3 2",
    "states 7 7|at 0 1|at 1 4|at 3 2", "states 7||at 0 1|at 1 4|at 3 2",
    "states 7|at 0 1|at 1 4|at 3 2|", "states 7|at 0 1|at 1 4|at 3 2|safe",
    "states 7|at 0 1|at 1 4|at 3 2|start 0", "states 7|at a 1|at 1 4|at 3 2",
    "states 7\r|at 0 1\r|at 1 4\r|at 3 2\r",
)
# What is not quite the reservation of 4 names and of commands with 0, 2, 2
# and 0 stars, which is entries 16, bytes 167, trials 160.
NO_RESERVATIONS = (
    "", "refused 3 0|", "entries 16|", "entries 16|bytes 167|",
    "entries 16|bytes 167|trials 160", "entries 16|bytes 167|trials 160||",
    "entries 16|bytes 167|trials 160|safe|", "entries 16|trials 160|",
    "bytes 167|entries 16|trials 160|", "entries 8|bytes 87|trials 80|",
    "entries 32|bytes 327|trials 320|", "entries 16|bytes 167|trials 159|",
    "entries 16|bytes 167|trials 161|", "entries 16|bytes 167|trials 64|",
    "entries 16|bytes 167|trials 0160|", "entries 016|bytes 167|trials 160|",
    "entries 16|bytes -167|trials 160|", "entries 16|bytes 167|trials +160|",
    "entries 16|bytes |trials 160|", "entries  16|bytes 167|trials 160|",
    "entries 16 |bytes 167|trials 160|", "Entries 16|bytes 167|trials 160|",
    "entries 16 bytes 167 trials 160|", "entries 0x10|bytes 167|trials 160|",
    "entries 16\r|bytes 167\r|trials 160\r|",
    "entries 16|bytes 166|trials 160|", "entries 16|bytes 168|trials 160|",
)


@contextlib.contextmanager
def standard_output(given):
    """Another descriptor as standard output; None closes it."""
    kept = os.dup(1)
    if given is None:
        os.close(1)
    else:
        os.dup2(given, 1)
    try:
        yield
    finally:
        os.dup2(kept, 1)
        os.close(kept)


class Explaining(unittest.TestCase):
    def setUp(self):
        made = tempfile.TemporaryDirectory()
        self.addCleanup(made.cleanup)
        self.folder = Path(made.name)
        self.programs = [str(self.folder / name)
                         for name in ("report", "reserve")]
        self.text = self.folder / "model.text"
        self.out = self.folder / "page.html"

    def stand_in(self, name, said):
        """A program that says this only of a text that it is handed whole."""
        stored = self.folder / f"{name}.said"
        stored.write_bytes(said)
        program = self.folder / name
        program.write_text(f"#!/bin/sh\ncmp -s - '{self.text}' && "
                           f"cat '{stored}'\n")
        program.chmod(0o755)

    def explain(self, case, output, report=None, out=None, reserved=None):
        """Status and standard error."""
        self.text.write_bytes(case.text)
        self.stand_in("report", case.report if report is None else report)
        self.stand_in("reserve",
                      case.reservation if reserved is None else reserved)
        with (standard_output(output),
              contextlib.redirect_stderr(io.StringIO()) as error):
            status = main(*self.programs, str(self.text), out)
        return status, error.getvalue()

    def run_on(self, case, report=None, out=None, reserved=None):
        """Status, standard output and standard error."""
        with tempfile.TemporaryFile() as output:
            status, error = self.explain(case, output.fileno(), report, out,
                                         reserved)
            output.seek(0)
            return status, output.read().decode(), error

    def test_statuses(self):
        for name, status in STATUSES:
            plain = CASES[name].plain.replace("FILE", str(self.text))
            self.assertEqual(self.run_on(CASES[name]), (status, plain, ""))

    def test_page(self):
        for name, status in STATUSES:
            first = CASES[name].plain.replace("FILE", str(self.text))
            first = first.splitlines(keepends=True)[0]
            self.assertEqual(self.run_on(CASES[name], out=str(self.out)),
                             (status, first, ""))
            page = self.out.read_text(encoding="utf-8")
            self.assertIn(f"<h1>{self.text}: ", page)

    def test_no_report(self):
        for report in (b"", b"safe\n", b"model 1 1\nsafe\n",
                       b"model 2 2 4\nunsafe 2\nstart 0\nstep 1 lock 0 2\n",
                       b"model 2 2 4\nunsafe 1\nstart 0\nstep 1 none 0 2\n",
                       b"model 2 2 4\nunsafe 1\nstart 0\nstep 1 Lock 0 2\n",
                       b"model 2 1 4\nunsafe 0\nstart 0\n",
                       b"model 2 2 4\nvoid\n",
                       b"model 2 2 4\nvoid\nstart 0\n"):
            status, said, error = self.run_on(CASES["several_steps"], report)
            self.assertEqual((status, said), (2, ""), report)
            self.assertIn("gave no report of this text", error)

    def test_no_counts(self):
        case = CASES["safe_settings"]
        first = b"model 2 2 4\nsafe\n"
        self.assertEqual(case.report,
                         first + b"states 7\nat 0 1\nat 1 4\nat 3 2\n")
        faults = [first + lines.replace("|", "\n").encode() + b"\n"
                  for lines in NO_COUNTS]
        cut = [first, case.report[:-1], case.report[:-2], case.report + b"at"]
        for report in cut + faults:
            for out in (None, str(self.out)):
                status, said, error = self.run_on(case, report, out)
                self.assertEqual((status, said), (2, ""), report)
                self.assertIn("gave no report of this text", error)

    def test_no_reservation(self):
        case = CASES["safe_settings"]
        self.assertEqual(case.reservation,
                         b"entries 16\nbytes 167\ntrials 160\n")
        for lines in NO_RESERVATIONS:
            reserved = lines.replace("|", "\n").encode()
            for out in (None, str(self.out)):
                status, said, error = self.run_on(case, out=out,
                                                  reserved=reserved)
                self.assertEqual((status, said), (2, ""), reserved)
                self.assertIn("gave no reservation of this text", error)

    def test_programs_that_are_asked(self):
        """Of a refused text there is nothing to reserve."""
        for name, count in (("tab", 1), ("void_both", 2)):
            with mock.patch("explaining.asked", wraps=asked) as called:
                self.run_on(CASES[name])
            self.assertEqual([call.args[0] for call in called.mock_calls],
                             self.programs[:count])

    def test_no_page(self):
        for out, why in ((self.folder, "cannot write"),
                         (self.folder / "none" / "page", "cannot write"),
                         (self.text, "is the model's own file")):
            status, said, error = self.run_on(CASES["safe"], out=str(out))
            self.assertEqual((status, said), (2, ""))
            self.assertIn(why, error)
        self.assertEqual(self.text.read_bytes(), CASES["safe"].text)

    def test_no_output(self):
        full = os.open("/dev/full", os.O_WRONLY)
        unread, pipe = os.pipe()
        os.close(unread)
        for output, error in ((full, ENOSPC), (pipe, EPIPE), (None, EBADF)):
            line = f"cannot write standard output: {os.strerror(error)}\n"
            for out in (None, str(self.out)):
                told = self.explain(CASES["several_steps"], output, out=out)
                self.assertEqual(told, (2, f"nutseason: {line}"))
        os.close(full)
        os.close(pipe)

    def test_a_fault_is_not_unsafe(self):
        with mock.patch("explaining.model_of", side_effect=KeyError):
            status, _, error = self.run_on(CASES["several_steps"])
        self.assertEqual(status, 2)
        self.assertIn("KeyError", error)

    def test_paths(self):
        self.assertEqual(shown("né.text"), "né.text")
        self.assertEqual(shown(os.fsdecode(b"\xff\n.text")),
                         "\\xff\\n.text")


if __name__ == "__main__":
    unittest.main()
