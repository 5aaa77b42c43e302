"""Programs that take corpora to a library: their status, and what they say."""

import io
import unittest
from contextlib import redirect_stderr, redirect_stdout
from unittest import mock

from tests.player_cases import PLAYERS, entries
from comparing.entries import compare_player
from comparing.over_corpora import compare_corpora


def run(name, *arguments):
    """Status, output and errors of a program that is handed a library with
    this player."""
    out, errors = io.StringIO(), io.StringIO()
    walks = entries()[:3]
    with (mock.patch("comparing.over_corpora.Library",
                     lambda path: PLAYERS[name]()),
          mock.patch("comparing.over_corpora.faulthandler"),
          redirect_stdout(out), redirect_stderr(errors)):
        status = compare_corpora("usage", arguments,
                                 ("walks", walks, compare_player),
                                 ("others", walks[:2], compare_player))
    return status, out.getvalue(), errors.getvalue()


class Programs(unittest.TestCase):
    def test_no_difference(self):
        status, out, errors = run("Player", "library")
        self.assertEqual((status, errors), (0, ""))
        # Each walk has 14 calls, each with four numbers of entries.
        self.assertEqual(out.splitlines()[-1],
                         "3 walks, 2 others, 280 calls, no difference")

    def test_differences(self):
        status, out, errors = run("EndAtTheBeginning", "library")
        self.assertEqual((status, errors), (1, ""))
        self.assertIn("checker: ('moved', [0, 1", out)
        self.assertIn("program: ('end', [0, 1", out)
        self.assertTrue(out.endswith(" differences\n"))

    def test_usage(self):
        for arguments in ((), ("library", "more")):
            self.assertEqual(run("Player", *arguments), (2, "", "usage\n"))


if __name__ == "__main__":
    unittest.main()
