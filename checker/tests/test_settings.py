"""How many states a report says there are, in all and at each setting of the
shared names: against the sheet, against walked tables of one row, and that
the corpus shows up counts that are wrong in one way."""

import unittest
from collections import Counter
from functools import cache

from tests import wrong_counts as wrong
from corpora.reports import corpus
from corpora.reports_settings import COUNTED, PLACED, first_rows, these
from evidence.one_row import OneRow
from evidence.report import report_lines
from evidence.searching import search
from evidence.sheets import map_sheet
from inputs.random_searches import random_models
from reader.reading import read
from rows.tables import reachable, walked

MOST_WALKED = 5000


@cache
def right_lines(text):
    return report_lines(text)


@cache
def searched(text):
    """The table of a safe model, and the members of its map."""
    table = OneRow(read(text))
    return table, search(table)


def is_safe(text):
    return right_lines(text)[1:2] == ["safe"]


def counts_of(text):
    """Total and counts by setting, in the order of a safe report's lines."""
    words = [line.split(" ") for line in right_lines(text)[2:]]
    assert [word for word, *_ in words] == ["states"] + ["at"] * len(words[1:])
    return int(words[0][1]), [(int(number), int(count))
                              for _, number, count in words[1:]]


def lines_of(shared, row, counts):
    return [f"model {shared} {row} 1", "safe",
            f"states {sum(counts.values())}",
            *(f"at {number} {count}" for number, count in counts.items())]


def map_bytes(text):
    return map_sheet(*searched(text))[15:]


def ones(text):
    """The one bits in the bytes of the map."""
    return "".join(f"{byte:b}" for byte in map_bytes(text)).count("1")


class Settings(unittest.TestCase):
    @classmethod
    def setUpClass(cls):
        cls.stored = [text for _, text in corpus()]
        cls.fuzzed = random_models(1000, 7)
        cls.safe = {text: counts_of(text) for text in cls.stored + cls.fuzzed
                    if is_safe(text)}

    def test_models_with_known_counts(self):
        known = [(detail, shared, row, these(shared, row, states), counts)
                 for detail, shared, row, states, counts in PLACED]
        known += [(detail, shared, row, first_rows(shared, row, counts),
                   counts) for detail, shared, row, counts in COUNTED]
        for detail, shared, row, text, counts in known:
            self.assertIn(text.encode(), self.stored)
            self.assertEqual(right_lines(text.encode()),
                             lines_of(shared, row, counts), detail)

    def test_lines_and_sheet_agree(self):
        for text, (total, counts) in self.safe.items():
            model = read(text)
            self.assertEqual(total, sum(count for _, count in counts), text)
            self.assertEqual(total, ones(text), text)
            numbers = [number for number, _ in counts]
            self.assertEqual(numbers, sorted(set(numbers)), text)
            self.assertLess(numbers[-1], 1 << len(model.shared), text)
            for _, count in counts:
                self.assertLessEqual(1, count, text)
                self.assertLessEqual(count, 1 << len(model.row), text)
        self.assertGreaterEqual(len(self.safe), 500)

    def test_walked_tables(self):
        """Tables of one row, walked without numbers of states, have as many
        states with the same shared bits."""
        met = Counter()
        for text, (total, counts) in self.safe.items():
            model = read(text)
            if walked(model, 1) > MOST_WALKED:
                continue
            states = reachable(model, 1)
            shared = Counter(bits for bits, _ in states)
            self.assertEqual(total, len(states), text)
            self.assertEqual(
                counts, sorted((sum(bit << j for j, bit in enumerate(bits)),
                                count) for bits, count in shared.items()),
                text)
            met[len(counts) > 1] += 1
        self.assertGreaterEqual(met[False], 300)
        self.assertGreaterEqual(met[True], 200)

    def test_what_is_met(self):
        totals, settings, counted, names, lines, octets = (
            set() for _ in range(6))
        for text in self.stored:
            if text not in self.safe:
                continue
            total, counts = self.safe[text]
            model = read(text)
            totals.add(total)
            lines.add(len(counts))
            settings |= {number for number, _ in counts}
            counted |= {count for _, count in counts}
            names.add((len(model.shared), len(model.row)))
            octets |= set(map_bytes(text))
        self.assertEqual(settings, set(range(256)))
        self.assertEqual(octets, set(range(256)))
        self.assertLessEqual({1, 2, 3, 4, 8, 255, 256, 999, 1000, 1024, 2048,
                              4096}, totals)
        self.assertLessEqual({1, 9, 10, 16, 99, 100, 255, 256, 257, 999, 1000,
                              1024}, counted)
        self.assertLessEqual({1, 2, 3, 4, 8, 128, 256}, lines)
        self.assertLessEqual({(0, 0), (0, 1), (1, 0), (0, 10), (8, 0), (8, 4),
                              (2, 10)}, names)

    def test_fuzzed_models_have_several_settings(self):
        """Of a hundred texts more than ten are safe with several settings,
        and more than five have more states at one of them than at another."""
        several = [[count for _, count in self.safe[text][1]]
                   for text in self.fuzzed
                   if text in self.safe and len(self.safe[text][1]) > 1]
        unequal = [counts for counts in several if len(set(counts)) > 1]
        self.assertGreater(len(several), len(self.fuzzed) // 10)
        self.assertGreater(len(unequal), len(self.fuzzed) // 20)


class WrongCounts(unittest.TestCase):
    """Each names groups of the corpus that show it up."""

    @classmethod
    def setUpClass(cls):
        cls.texts = corpus()

    def group(self, name):
        return [text for label, text in self.texts
                if label.startswith(f"{name}: ")]

    def assert_shown(self, part, *groups):
        for group in groups:
            safe = filter(is_safe, self.group(group))
            self.assertTrue(any(part(*searched(text)) != right_lines(text)[2:]
                                for text in safe), (group, part))

    def test_right_one_passes(self):
        for group in ("placed", "counted", "every_byte", "other_names",
                      "spread"):
            with self.assertRaises(AssertionError):
                self.assert_shown(wrong.by_remainder, group)

    def test_other_numbers_for_settings(self):
        for part in (wrong.by_row_names, wrong.past_as_many_as_row_names,
                     wrong.of_as_many_as_row_names, wrong.of_one_name_fewer,
                     wrong.of_one_name_more, wrong.of_the_byte):
            self.assert_shown(part, "placed", "counted", "spread")
        self.assert_shown(wrong.of_reversed_bits, "placed", "counted",
                          "every_byte", "other_names", "spread")
        self.assert_shown(wrong.of_the_place_in_a_byte, "placed", "counted",
                          "every_byte")
        self.assert_shown(wrong.from_one, "worked", "placed", "spread")

    def test_other_states(self):
        self.assert_shown(wrong.all_states, "worked", "placed", "counted",
                          "other_names", "spread")
        for part in (wrong.kept_states, wrong.start_states):
            self.assert_shown(part, "worked", "other_names", "spread")
        for part in (wrong.without_last_byte, wrong.first_byte_alone,
                     wrong.without_lowest_bits):
            self.assert_shown(part, "placed", "counted", "every_byte")

    def test_other_totals(self):
        for part in (wrong.bytes_in_use, wrong.eight_to_a_byte,
                     wrong.settings_for_states):
            self.assert_shown(part, "worked", "placed", "counted",
                              "every_byte")
        self.assert_shown(wrong.total_in_a_byte, "counted", "every_byte")

    def test_other_lines(self):
        self.assert_shown(wrong.empty_settings_too, "worked", "placed",
                          "counted", "every_byte", "spread")
        for part in (wrong.running_totals, wrong.descending):
            self.assert_shown(part, "placed", "counted", "every_byte",
                              "spread")
        self.assert_shown(wrong.in_the_order_of_words, "counted",
                          "every_byte")
        self.assert_shown(wrong.largest_first, "placed", "counted", "spread")
        self.assert_shown(wrong.without_a_single_setting, "worked", "placed",
                          "no_names")
        self.assert_shown(wrong.without_last_setting, "worked", "placed",
                          "counted", "every_byte")
        self.assert_shown(wrong.counts_in_a_byte, "counted", "every_byte")
        self.assert_shown(wrong.count_before_setting, "worked", "placed")
        self.assert_shown(wrong.three_digits_at_most, "counted")

    def test_lines_elsewhere(self):
        for part in (wrong.without_total, wrong.total_last):
            self.assert_shown(part, "worked", "placed", "no_names")

    def test_lines_of_void_models(self):
        for name in ("worked", "nothing_starts"):
            void = [text for text in self.group(name)
                    if right_lines(text)[1:] == ["void"]]
            self.assertTrue(void)
            for text in void:
                self.assertNotEqual(wrong.after_void(text), right_lines(text))


if __name__ == "__main__":
    unittest.main()
