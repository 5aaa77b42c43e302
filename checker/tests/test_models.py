"""The designs in models/: their stored reports are those of this checker,
tables of two and three rows agree with them, and no search makes more trials
than are reserved."""

import pathlib
import unittest

from evidence.one_row import OneRow
from evidence.report import report
from evidence.reservations import reserved
from evidence.searching import search
from evidence.trials import made, returned
from reader.reading import read
from rows.copied_runs import copied_run_holds
from rows.tables import can_start, goes_wrong, walked

MODELS = pathlib.Path(__file__).resolve().parents[2] / "models"
MOST_WALKED = 1_000_000


class Models(unittest.TestCase):
    @classmethod
    def setUpClass(cls):
        cls.texts = {path.stem: path.read_bytes()
                     for path in sorted(MODELS.glob("*.text"))}

    def stored(self, name):
        return (MODELS / f"{name}.report").read_text()

    def verdict(self, name):
        """By the stored report, without the number of steps."""
        return self.stored(name).splitlines()[1].split()[0]

    def states(self, name):
        """As the stored report tells them; none but where it says safe."""
        lines = self.stored(name).splitlines()
        return int(lines[2].split()[1]) if lines[1] == "safe" else 0

    def is_stored_unsafe(self, name):
        return self.verdict(name) == "unsafe"

    def test_reports(self):
        for name, text in self.texts.items():
            self.assertEqual(report(text), self.stored(name), name)

    def test_every_verdict(self):
        self.assertEqual(set(map(self.verdict, self.texts)),
                         {"safe", "void", "unsafe"})

    def test_tables_of_two_rows(self):
        count = 0
        for name, text in self.texts.items():
            model = read(text)
            if walked(model, 2) <= MOST_WALKED:
                count += 1
                self.assertEqual(goes_wrong(model, 2),
                                 self.is_stored_unsafe(name), name)
                self.assertEqual(can_start(model, 2),
                                 self.verdict(name) != "void", name)
        self.assertGreaterEqual(count, 9)

    def test_trials(self):
        """The words tried at a state are those of the stars that stand
        between one word `command` and the next."""
        for name, text in self.texts.items():
            table = OneRow(read(text))
            commands = text.split(b"command")[1:]
            self.assertEqual(len(commands), table.commands, name)
            words = sum(2 ** each.count(b"*") for each in commands)
            size = 2 ** table.names
            self.assertEqual(reserved(text),
                             (size, 7 + 10 * size, size * words), name)
            self.assertEqual(returned(table), self.states(name) * words, name)
            self.assertLessEqual(made(table)[0], size * words, name)

    def test_traces_in_every_row(self):
        for name in filter(self.is_stored_unsafe, self.texts):
            table = OneRow(read(self.texts[name]))
            found = search(table)
            for rows in (2, 3):
                self.assertTrue(copied_run_holds(table, *found, rows), name)


if __name__ == "__main__":
    unittest.main()
