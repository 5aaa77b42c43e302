"""Views in windows of every size."""

import re
import unittest

from player import Position
from screen import KEYS, window
from test_sheets import unsafe_cases
from views import Trace

MESSAGE = "The trace ends here: no step forward."


def views():
    """The first place, the second and the last of every trace."""
    for text, sheet, report in unsafe_cases():
        trace = Trace("some/folder/né.text", text, sheet)
        for place in {0, min(1, len(report.steps)), len(report.steps)}:
            yield trace.view(Position(place, report.states[place]))


def bare(lines):
    return [re.sub("\x1b\\[1?m", "", line) for line in lines]


class Windows(unittest.TestCase):
    def test_every_size(self):
        for view in views():
            for columns in (*range(1, 25, 2), 40, 80):
                for rows in (*range(1, 14), 24, 60):
                    lines = window(view, MESSAGE, columns, rows)
                    self.assertEqual(len(lines), rows)
                    shown = bare(lines)
                    self.assertLessEqual(max(map(len, shown)), columns)
                    if columns >= len(view.place):
                        self.assertTrue(shown[0].endswith(view.place))

    def test_all_is_there(self):
        for view in views():
            shown = bare(window(view, MESSAGE, 300, 60))
            self.assertEqual(shown[0], f"{view.file}: {view.place}")
            self.assertEqual(shown[-1], "  ".join(KEYS))
            self.assertEqual(shown[-2], MESSAGE)
            words = " ".join(shown).split()
            for _, cells in view.values:
                for cell in cells:
                    self.assertIn(cell, words)
            for line in (view.step, view.judged, *view.parts, *view.stars):
                self.assertIn(line, shown)

    def test_what_is_left_out(self):
        """With fewer rows, never more of a view."""
        for view in views():
            parts = [{line.strip() for line in part} for part in (
                [view.judged.rstrip(":.")], view.parts, view.stars, KEYS)]
            before = [True] * len(parts)
            for rows in range(60, 0, -1):
                shown = " ".join(bare(window(view, "", 300, rows)))
                there = [all(line in shown for line in part)
                         for part in parts]
                self.assertTrue(all(now <= was for now, was
                                    in zip(there, before)))
                before = there
            self.assertFalse(any(now for now, part in zip(before, parts)
                                 if part))

    def test_marks(self):
        for view in views():
            shown = " ".join(window(view, "", 80, 60))
            self.assertEqual(
                re.findall("\x1b\\[1m(.*?)\x1b\\[m", shown),
                [cell for _, cells in view.values for cell in cells
                 if ">" in cell])

    def test_long_name(self):
        view = next(views())
        place = view.place
        for columns, head in ((60, f"some/folder/né.text: {place}"),
                              (34, f"some/folder/né.text: {place}"),
                              (33, f".../folder/né.text: {place}"),
                              (17, f"...: {place}"), (16, place)):
            self.assertEqual(window(view, "", columns, 9)[0], head)

    def test_nothing_moves(self):
        """A name stands where it stood, whatever its value is."""
        for text, sheet, report in unsafe_cases():
            trace = Trace("FILE", text, sheet)
            places = {}
            for place, state in enumerate(report.states[:50]):
                lines = bare(window(trace.view(Position(place, state)), "",
                                    100, 60))
                for number, line in enumerate(lines[4:7]):
                    for found in re.finditer(r"(\w+)=[01]", line):
                        places.setdefault(found[1], set()).add(
                            (number, found.start()))
            for name, found in places.items():
                self.assertEqual(len(found), 1, name)


if __name__ == "__main__":
    unittest.main()
