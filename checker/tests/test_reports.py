"""The corpus of reports: that it is what its labels say, has all that it
should have, agrees with tables of one, two and three rows, and shows up
searches that are wrong in one way."""

import unittest
from collections import Counter
from functools import cache
from unittest import mock

from tests import wrong_searches as wrong
from corpora.reports import corpus
from corpora.reports_order import ORDER
from evidence.acceptance import HOLDS, answer
from evidence.one_row import OneRow
from evidence.report import report, searched, sheet
from evidence.reservations import most_trials
from evidence.searching import search
from inputs.cases import G, G_SHEET, G_VOID, H
from inputs.feed import packed
from inputs.graphs import graph
from inputs.random_searches import random_models
from reader.model import Refusal
from reader.reading import read
from rows.copied_runs import copied_run_holds
from rows.tables import can_start, goes_wrong, walked

MOST_WALKED = 3000


@cache
def right_report(text):
    return report(text)


def meant_by(label):
    """The verdict or refusal that a label says, or None."""
    _, arrow, meant = label.rpartition(" -> ")
    return meant if arrow else None


def verdict(lines):
    return lines[min(1, len(lines) - 1)]


def found_in(lines, model):
    """What a report says was found: a run, or None where it has none."""
    if lines[1] in ("safe", "void"):
        return None
    numbers = {command.name.word: number
               for number, command in enumerate(model.commands)}
    return int(lines[2].split()[1]), tuple(
        (numbers[name], int(word), int(after))
        for _, _, name, word, after in map(str.split, lines[3:]))


class Reports(unittest.TestCase):
    @classmethod
    def setUpClass(cls):
        cls.texts = corpus()
        cls.said = [right_report(text).splitlines() for _, text in cls.texts]

    def tables(self):
        """Label, table and run, if there is one, of each text that says a
        model."""
        for (label, text), lines in zip(self.texts, self.said):
            if lines[0].startswith("model "):
                model = read(text)
                yield label, OneRow(model), found_in(lines, model)

    def test_size(self):
        self.assertGreaterEqual(len(self.texts), 500)
        self.assertLess(len(packed(text for _, text in self.texts)), 700_000)
        self.assertLess(sum(len(line) + 1 for lines in self.said
                            for line in lines), 500_000)

    def test_all_differ(self):
        count = len(self.texts)
        self.assertEqual(len({text for _, text in self.texts}), count)
        self.assertEqual(len({label for label, _ in self.texts}), count)

    def test_same_again(self):
        self.assertEqual(corpus(), self.texts)

    def test_labels_that_say_the_verdict(self):
        met = Counter()
        for (label, _), lines in zip(self.texts, self.said):
            meant = meant_by(label)
            if meant is None:
                continue
            said = verdict(lines)
            if meant.startswith("refused") and meant.count(" ") == 1:
                said = said.rsplit(" ", 1)[0]
            self.assertEqual(said, meant, label)
            met[meant.split(" ")[0]] += 1
        for kind in ("safe", "void", "unsafe", "refused"):
            self.assertGreaterEqual(met[kind], 50, kind)

    def test_refusals(self):
        met = Counter(lines[0].split()[1] for lines in self.said
                      if lines[0].startswith("refused "))
        for number in "1234567":
            self.assertGreaterEqual(met[number], 5, number)
        self.assertEqual(set(met), set("1234567"))

    def test_random_models_have_every_verdict(self):
        met = Counter()
        for (label, _), lines in zip(self.texts, self.said):
            if label.split(":")[0] in ("small_random", "larger_random",
                                       "random_graphs"):
                met[verdict(lines)] += 1
        for kind in ("safe", "void", "unsafe 0", "unsafe 1", "unsafe 2",
                     "unsafe 3"):
            self.assertGreaterEqual(met[kind], 5, kind)

    def test_fuzzed_models_have_every_verdict(self):
        met = Counter(verdict(right_report(text).splitlines()).split()[0]
                      for text in random_models(500, 3))
        for kind in ("safe", "void", "unsafe"):
            self.assertGreaterEqual(met[kind], 50, kind)

    def test_void_in_every_row(self):
        """No table of one, two or three rows has a start state where the
        report says void, and each has one where it says something else."""
        met, names = Counter(), set()
        for (label, text), lines in zip(self.texts, self.said):
            if lines[0].startswith("refused "):
                continue
            model, void = read(text), lines[1] == "void"
            self.assertEqual(OneRow(model).can_start(), not void, label)
            if void:
                self.assertEqual(lines[2:], [], label)
                self.assertFalse(any(sheet(text)[15:]), label)
                names.add((len(model.shared), len(model.row)))
            for rows in (1, 2, 3):
                if walked(model, rows) <= MOST_WALKED:
                    self.assertEqual(can_start(model, rows), not void, label)
                    met[rows, void] += 1
        for rows in (1, 2, 3):
            for void in (False, True):
                self.assertGreaterEqual(met[rows, void], 40, rows)
        self.assertLessEqual({(0, 0), (0, 1), (1, 0), (1, 1), (8, 4)}, names)

    def test_what_is_met(self):
        steps, starts, words, commands, lengths = (set() for _ in range(5))
        names, stars, counts = set(), set(), set()
        for _, table, found in self.tables():
            names.add((table.names, found is None))
            counts.add((table.commands, found is None))
            stars |= {command.stars for command in table.model.commands}
            if found is not None:
                lengths.add(len(found[1]))
                starts.add(found[0])
                for command, word, after in found[1]:
                    commands.add(command)
                    words.add(word)
                    steps.add(after)
        self.assertTrue({0, 1, 2, 3, 7, 15, 31, 63, 127, 255, 511, 1023, 2047,
                         4095} <= lengths)
        for count in range(13):
            self.assertIn((count, False), names)
        for count in (0, 1, 2, 3, 8, 10, 12):
            self.assertIn((count, True), names)
        self.assertEqual(stars, set(range(9)))
        self.assertEqual(commands, set(range(16)))
        self.assertTrue({(1, True), (16, True), (16, False)} <= counts)
        self.assertTrue({0, 1, 63, 64, 65, 127, 128, 192, 254, 255} <= words)
        self.assertTrue(set(range(16)) | {4095} <= starts)
        self.assertTrue({0, 4095, 255, 256} <= steps)

    def test_worked_examples(self):
        self.assertEqual(report(G.encode()),
                         "model 1 2 1\nunsafe 1\nstart 1\nstep 1 grant 3 7\n")
        self.assertEqual(report(H.encode()),
                         "model 1 2 1\nsafe\nstates 3\nat 1 3\n")
        self.assertEqual(report(G_VOID.encode()), "model 1 2 1\nvoid\n")
        self.assertEqual(report(b""), "refused 3 0\n")
        self.assertEqual(sheet(G.encode()), G_SHEET)
        for text, said, byte in ((H, "safe", "2a"), (G_VOID, "void", "00")):
            verdict_met, written = searched(text.encode())
            self.assertEqual(verdict_met, said)
            self.assertEqual(written, sheet(text.encode()))
            self.assertEqual(written[9:].hex(), "010000000200" + byte)
        self.assertEqual(sheet(b""), Refusal(3, 0))
        tried = {text for _, text in self.texts}
        for text in (G, H, G_VOID, ""):
            self.assertIn(text.encode(), tried)

    def test_order(self):
        tried = {text for _, text in self.texts}
        for detail, starts, breaks, steps, start, run in ORDER:
            text = graph(3, 2, starts, breaks, steps).encode()
            self.assertIn(text, tried)
            self.assertEqual(search(OneRow(read(text))), (start, run), detail)

    def test_other_way(self):
        """A queue of runs finds the same."""
        for label, table, found in self.tables():
            if table.states <= 64:
                met = wrong.by_queue(table)
                self.assertEqual(met, search(table), label)
                self.assertEqual(isinstance(met, set), found is None, label)

    def test_sheets_hold(self):
        for (label, text), lines in zip(self.texts, self.said):
            if len(lines) > 600 or lines[0].startswith("refused "):
                continue
            table = OneRow(read(text))
            if most_trials(table) > MOST_WALKED:
                continue
            self.assertEqual(answer(text, sheet(text)),
                             HOLDS[lines[1].split()[0]], label)

    def test_copied_runs(self):
        """Each trace, copied to every row, is a breaking run there too."""
        count = 0
        for label, table, found in self.tables():
            if found is not None:
                count += 1
                for rows in (2, 3):
                    self.assertTrue(copied_run_holds(table, *found, rows),
                                    label)
        self.assertGreaterEqual(count, 250)

    def test_walked_tables(self):
        """One, two and three rows go wrong where the report says so."""
        met = Counter()
        for label, table, found in self.tables():
            for rows in (1, 2, 3):
                if walked(table.model, rows) <= MOST_WALKED:
                    self.assertEqual(goes_wrong(table.model, rows),
                                     found is not None, label)
                    met[rows, found is not None] += 1
        for rows in (1, 2, 3):
            for verdict_met in (False, True):
                self.assertGreaterEqual(met[rows, verdict_met], 40, rows)


class WrongSearches(unittest.TestCase):
    """Each names groups of the corpus that show it up."""

    @classmethod
    def setUpClass(cls):
        cls.texts = corpus()

    def assert_shown(self, place, part, *groups):
        for group in groups:
            mine = [text for label, text in self.texts
                    if label.startswith(f"{group}: ") and len(text) < 2000]
            right = [right_report(text) for text in mine]
            with mock.patch(f"evidence.{place}", part):
                self.assertNotEqual([report(text) for text in mine], right,
                                    (group, part))

    def test_right_one_passes(self):
        for group in ("order", "random_graphs", "one_start"):
            with self.assertRaises(AssertionError):
                self.assert_shown("report.search", wrong.by_queue, group)

    def test_order_of_steps(self):
        for part in (wrong.LastWordFirst, wrong.LastCommandFirst,
                     wrong.WordBeforeCommand, wrong.ByStateAfter):
            self.assert_shown("report.OneRow", part, "order", "random_graphs")

    def test_steps_left_out(self):
        self.assert_shown("report.OneRow", wrong.WordsBelow64, "one_word")
        self.assert_shown("report.OneRow", wrong.FifteenCommands,
                          "one_command")

    def test_other_ways_to_search(self):
        self.assert_shown("report.search", wrong.after_a_step, "worked",
                          "broken_start", "no_names")
        self.assert_shown("report.search", wrong.depth_first, "order",
                          "random_graphs")
        self.assert_shown("report.search", wrong.last_start_first, "order",
                          "random_graphs")
        self.assert_shown("report.search", wrong.first_start_only,
                          "one_start", "order")
        self.assert_shown("report.search", wrong.all_safe, "worked")
        self.assert_shown("report.search", wrong.one_step_more, "worked")

    def test_void(self):
        self.assert_shown("report.verdict", wrong.never_void, "worked",
                          "nothing_starts", "wide_starts", "circles",
                          "no_names", "small_random", "larger_random")
        self.assert_shown("report.verdict", wrong.void_where_nothing_moves,
                          "no_names", "wide_starts", "limits")
        self.assert_shown("report.verdict", wrong.void_where_starts_break,
                          "worked", "one_starts", "broken_start")
        self.assert_shown("report.OneRow", wrong.PartsOfStartApart,
                          "nothing_starts", "wide_starts")
        for part in (wrong.FirstStateAlone, wrong.AllButLastState):
            self.assert_shown("report.OneRow", part, "one_starts",
                              "wide_starts")


if __name__ == "__main__":
    unittest.main()
