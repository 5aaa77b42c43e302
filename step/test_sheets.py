"""Runs from the bytes of sheets, and what is not quite a trace's sheet."""

import struct
import unittest

from sheets import LONGEST_SHEET, run_in
from stored import cases, counter
from texts import model_of
from traces import Unreadable, Unsafe, report_of


def sheet_of(report, model):
    """The sheet that says a report's run."""
    names = [command.name for command in model.commands]
    steps = [struct.pack("<IHBBH", 4, 4, names.index(step.command), step.word,
                         step.after) for step in report.steps]
    return b"".join([struct.pack("<IHBBB", 3, 1, *report.counts),
                     struct.pack("<IHH", 2, 3, report.start), *steps])


def unsafe_cases():
    """Texts and their sheets, with the reports that these are made from."""
    texts = [case.said for case in cases()] + [counter()]
    for text, said, _ in texts:
        report = report_of(said)
        if isinstance(report, Unsafe):
            yield text, sheet_of(report, model_of(text)), report


class Sheets(unittest.TestCase):
    def test_every_run(self):
        counts = []
        for text, sheet, report in unsafe_cases():
            self.assertEqual(run_in(sheet, model_of(text)), report)
            self.assertEqual(len(sheet), 17 + 10 * len(report.steps))
            counts.append(len(report.steps))
        self.assertLess(len(sheet), LONGEST_SHEET)
        self.assertIn(0, counts)
        self.assertIn(5, counts)
        self.assertIn(4095, counts)

    def test_no_trace(self):
        text, sheet, _ = next(
            found for found in unsafe_cases() if len(found[2].steps) == 5)
        model = model_of(text)
        other = bytearray(sheet)
        other[6] += 1
        unknown = bytearray(sheet)
        unknown[23] = len(model.commands)
        for fault in (b"", sheet[:16], sheet[:-1], sheet + b"\0", other,
                      unknown):
            self.assertRaises(Unreadable, run_in, bytes(fault), model)


if __name__ == "__main__":
    unittest.main()
