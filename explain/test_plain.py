"""Plain explanations against stored ones and against what reports say."""

import unittest

import plain
from explaining import explained_by
from stored import MOST_SETTINGS, MOST_STEPS, all_settings, cases, counter
from traces import report_of


def said(text, report, reservation=None):
    return explained_by(plain, "FILE", text, report_of(report), reservation)


class Stored(unittest.TestCase):
    def test_every_case(self):
        numbers = set()
        for case in cases():
            with self.subTest(case.name):
                lines = said(*case.said)
                self.assertEqual("\n".join(lines) + "\n", case.plain)
            numbers.add(case.report.split()[1] if b"refused" in case.report
                        else case.report.split()[4])
        self.assertEqual(numbers, {b"safe", b"void", b"unsafe", b"2", b"3",
                                   b"4", b"5", b"6", b"7"})

    def test_text_too_long(self):
        lines = said(b" " * 16385, b"refused 1 16384\n")
        self.assertEqual(lines, [
            "FILE: refused 1: the text is over 16,384 bytes",
            "A text has at most 16,384 bytes, blanks included."])

    def test_longest_run(self):
        """The rows say each value of a counter's states, and each change."""
        lines = said(*counter())[4:]
        for number in range(MOST_STEPS + 1):
            _, low, high = lines[number].split("|")
            shown = (low + high).split()
            before = max(0, number - 1)
            for j, cell in enumerate(shown):
                was, now = before >> j & 1, number >> j & 1
                self.assertEqual(cell, str(now) if was == now
                                 else f"{was}>{now}")
            self.assertEqual(len(shown), 12)
        self.assertEqual(lines[MOST_STEPS + 1], "")

    def test_most_settings(self):
        """The table has every setting, with all names."""
        lines = said(*all_settings())
        self.assertIn("2,944 of 4,096 states, at 256 of 256", lines[2])
        self.assertEqual(len(lines[5:-2]), MOST_SETTINGS)
        for number, line in enumerate(lines[5:-2]):
            shown, names, reached = line.split(" | ")
            self.assertEqual(int(shown), number)
            self.assertEqual(names.strip().split(", "),
                             [f"low_{j}" if number >> j & 1 else f"not low_{j}"
                              for j in range(8)])
            self.assertEqual(reached.split(),
                             [["4", "0.1%", "#" * 6], ["16", "0.5%", "#" * 24],
                              ["10", "0.3%", "#" * 15],
                              ["16", "0.5%", "#" * 24]][number % 4])

    def test_no_names_at_all(self):
        lines = said(b"shared. row. start 1 each 1. keep 1 each 1. "
                     b"command c if 1 do skip else skip.",
                     b"model 0 0 1\nsafe\nstates 1\nat 0 1\n",
                     b"entries 1\nbytes 17\ntrials 1\n")
        self.assertIn("at most 1 trial; ", lines[-1])
        self.assertEqual(lines[2:-2], [
            "Runs over a table of one row reach 1 of 1 state. There are no "
            "shared names, so there is one setting, 0:", "",
            "setting | states  share", f"      0 |      1   100%  {'#' * 24}"])


if __name__ == "__main__":
    unittest.main()
