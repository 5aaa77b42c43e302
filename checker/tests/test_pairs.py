"""The corpus of the acceptance test: that it is what its labels say, has all
that it should have, and shows up tests that are wrong in one way."""

import unittest
from collections import Counter
from unittest import mock

from tests import wrong_tests as wrong
from corpora.pairs import corpus
from evidence.acceptance import answer
from evidence.sheets import LONGEST_SHEET, contents
from inputs.cases import G, G_SHEET, H, map_for, table_of, trace_for
from inputs.feed import packed
from inputs.random_pairs import random_pairs

LETTERS = ("A", "B", "C", "D", "E", "F")
HOLDING = ("safe holds", "void", "trace holds")
REFUSALS = tuple(f"refused {n}" for n in (1, 2, 3, 4, 5, 6, 7, 9, 10))


def kind(said):
    """An answer line without the place of a refusal."""
    return " ".join(said.split()[:2])


def note_void(met, text, sheet, said):
    """Counts the answer where nothing starts in the text's model."""
    if said.startswith("refused ") or table_of(text.decode()).can_start():
        return
    if said == "void":
        said += ", members" if any(sheet[15:]) else ", empty"
    met[said] += 1


def meant_by(label):
    """The answer line that a label says, or None."""
    _, arrow, meant = label.rpartition(" -> ")
    return meant if arrow else None


class Corpus(unittest.TestCase):
    @classmethod
    def setUpClass(cls):
        cls.pairs = corpus()
        cls.said = [answer(text, sheet) for _, text, sheet in cls.pairs]

    def sheets_of(self, text):
        return {sheet for _, other, sheet in self.pairs
                if other == text.encode()}

    def test_size(self):
        self.assertGreaterEqual(len(self.pairs), 1500)
        written = packed(part for _, *pair in self.pairs for part in pair)
        self.assertLess(len(written), 2_000_000)

    def test_all_differ(self):
        count = len(self.pairs)
        self.assertEqual(len({(text, sheet) for _, text, sheet in self.pairs}),
                         count)
        self.assertEqual(len({label for label, _, _ in self.pairs}), count)

    def test_same_again(self):
        self.assertEqual(corpus(), self.pairs)

    def test_labels_that_say_the_answer(self):
        met = Counter()
        for (label, _, _), said in zip(self.pairs, self.said):
            meant = meant_by(label)
            if meant is not None:
                self.assertEqual(said, meant, label)
                met[kind(meant)] += 1
        for meant in LETTERS + HOLDING + REFUSALS:
            self.assertGreaterEqual(met[meant], 5, meant)

    def test_random_pairs_have_every_answer(self):
        met = Counter(
            kind(said) for (label, _, _), said in zip(self.pairs, self.said)
            if "_random: " in label)
        for meant in LETTERS + HOLDING + ("refused 9", "refused 10"):
            self.assertGreaterEqual(met[meant], 10, meant)

    def test_void_models_have_every_answer(self):
        """By hand, in the stored random pairs, and in those of fuzz_sheets."""
        by_hand, at_random, fuzzed = Counter(), Counter(), Counter()
        for (label, text, sheet), said in zip(self.pairs, self.said):
            met = at_random if "_random: " in label else by_hand
            note_void(met, text, sheet, said)
        for text, sheet in random_pairs(1000, 5, False):
            note_void(fuzzed, text, sheet, answer(text, sheet))
        for met, least in ((by_hand, 30), (at_random, 5), (fuzzed, 5)):
            for meant in ("void, empty", "void, members", "B", "C", "D"):
                self.assertGreaterEqual(met[meant], least, meant)
            self.assertFalse({"safe holds", "trace holds", "A", "E", "F"}
                             & set(met))

    def test_places(self):
        met = set(self.said)
        for place in (0, 9, 16, 17, 27, 37, 527, 65527, 65536):
            self.assertIn(f"refused 9 {place}", met)
        for place in (0, 9, 17, 27, 47):
            self.assertIn(f"refused 10 {place}", met)

    def test_cut_at_every_length(self):
        for text, whole in ((G, trace_for(G, 1, (0, 1, 3), (0, 3, 7))),
                            (H, map_for(H, {1, 3, 5}))):
            tried = self.sheets_of(text)
            for length in range(len(whole) + 1):
                self.assertIn(whole[:length], tried)

    def test_lengths(self):
        sheets = {len(sheet) for _, _, sheet in self.pairs}
        for length in (0, 15 + 512, 65527, 65536, 65537, 131073):
            self.assertIn(length, sheets)
        texts = {len(text) for _, text, _ in self.pairs}
        for length in (0, 16384, 16385, 32768, 32769):
            self.assertIn(length, texts)

    def test_worked_examples(self):
        self.assertIn(G_SHEET, self.sheets_of(G))
        self.assertIn(G_SHEET, self.sheets_of(H))
        for byte in range(256):
            self.assertIn(map_for(H, ())[:15] + bytes([byte]),
                          self.sheets_of(H))

    def test_numbers_of_states(self):
        met = set()
        for (_, text, _), said in zip(self.pairs, self.said):
            if said in LETTERS + HOLDING:
                met.add((table_of(text.decode()).states, said))
        for states in (1, 2, 4):
            for said in HOLDING + ("A", "B", "F"):
                self.assertIn((states, said), met)
        for said in HOLDING + LETTERS:
            self.assertIn((4096, said), met)


class WrongTests(unittest.TestCase):
    """Each names a group of the corpus that shows it up."""

    @classmethod
    def setUpClass(cls):
        cls.pairs = corpus()

    def assert_shown(self, group, place, part):
        with mock.patch(f"evidence.{place}", part):
            self.assertTrue(any(
                answer(text, sheet) != meant_by(label)
                for label, text, sheet in self.pairs
                if label.startswith(f"{group}: ")), (group, part))

    def test_right_ones_pass(self):
        for group in ("letters_of_maps", "letters_of_traces"):
            with self.assertRaises(AssertionError):
                self.assert_shown(group, "acceptance.contents", contents)

    def test_steps_left_out(self):
        for table in (wrong.WordsBelow64, wrong.WordsBelow255,
                      wrong.FifteenCommands):
            self.assert_shown("last_word_of_last_command",
                              "acceptance.OneRow", table)
        self.assert_shown("last_word_of_last_command",
                          "acceptance.map_fault", wrong.all_but_last_member)

    def test_other_readings(self):
        self.assert_shown("readings", "acceptance.OneRow", wrong.OldValues)
        for table in (wrong.SharedPartOfStart, wrong.RowPartOfKeep):
            self.assert_shown("clauses", "acceptance.OneRow", table)

    def test_maps(self):
        self.assert_shown("members_out_of_reach", "acceptance.map_fault",
                          wrong.reached_members)
        self.assert_shown("letters_of_maps", "acceptance.map_fault",
                          wrong.breaks_before_starts)

    def test_void(self):
        for part in (wrong.never_void, wrong.void_of_empty_map_alone,
                     wrong.void_before_faults):
            for group in ("worked_void", "maps_where_nothing_starts"):
                self.assert_shown(group, "acceptance.map_answer", part)
        for group in ("maps_where_one_starts", "letters_of_maps",
                      "wide_void"):
            self.assert_shown(group, "acceptance.map_answer",
                              wrong.void_of_any_empty_map)
        for group in ("worked_void", "traces_where_nothing_starts"):
            self.assert_shown(group, "acceptance.trace_answer",
                              wrong.void_of_traces)
        self.assert_shown("maps_where_nothing_starts", "acceptance.OneRow",
                          wrong.PartsOfStartApart)
        for table in (wrong.FirstStateAlone, wrong.AllButLastState):
            for group in ("maps_where_one_starts", "wide_void"):
                self.assert_shown(group, "acceptance.OneRow", table)

    def test_traces(self):
        for group in ("one_wrong_step", "longest"):
            for part in (wrong.first_step, wrong.all_but_last_step,
                         wrong.any_word):
                self.assert_shown(group, "acceptance.trace_fault", part)
        for part in (wrong.steps_before_start, wrong.break_anywhere):
            self.assert_shown("letters_of_traces", "acceptance.trace_fault",
                              part)

    def test_sheets(self):
        for group, part in (
                ("headers", wrong.header_unread),
                ("unused_bits", wrong.unused_bits_allowed),
                ("map_bytes", wrong.more_after_map),
                ("start_states", wrong.start_cut_to_names),
                ("step_numbers", wrong.words_cut_to_stars),
                ("cut_traces", wrong.cut_step_dropped)):
            self.assert_shown(group, "acceptance.contents", part)

    def test_limit_of_length(self):
        for limit in (LONGEST_SHEET - 1, LONGEST_SHEET + 1):
            self.assert_shown("too_long", "sheets.LONGEST_SHEET", limit)


if __name__ == "__main__":
    unittest.main()
