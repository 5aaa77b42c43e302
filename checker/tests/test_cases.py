"""Letters in both cases: the corpora and random texts against a reader that
knows of no cases, and readers that are wrong in one way."""

import random
import re
import string
import unittest
from collections import Counter
from functools import cache
from unittest import mock

from tests import wrong_cases as wrong
from corpora import pairs_cases, reports, reports_cases
from corpora import texts, texts_cases, texts_reserved, values, values_texts
from corpora.texts_reserved import casings
from evidence.acceptance import answer
from evidence.report import report_lines
from evidence.values import line as value_line
from inputs.cases import G, G_CASES, H, H_CASES
from inputs.random_cases import names_recased, reserved_recased
from inputs.random_searches import random_models
from inputs.random_texts import random_texts
from reader.faults import DECLARING
from reader.layout import line
from reader.model import Refusal
from reader.reading import read
from reader.tokens import NAME, RESERVED, cut

WORD = re.compile(rb"[A-Za-z0-9_]+")
CUT = "reader.reading.cut"


@cache
def right_line(text):
    return line(text)


@cache
def groups():
    """The texts of each group of the reader's corpus."""
    found = {}
    for label, text in texts.corpus():
        found.setdefault(label.split(":")[0], []).append(text)
    return found


def without_cases(text):
    """The text for a reader that tells capitals from small letters: all are
    small, and a reserved word that was not is a word that stands nowhere."""
    def word(match):
        small = match.group().lower()
        if small != match.group() and small.decode() in RESERVED:
            return b"_" + small[1:]
        return small
    return WORD.sub(word, text)


class Answers(unittest.TestCase):
    def test_like_a_reader_without_cases(self):
        """All texts with a capital, of the corpus and at random."""
        met = Counter()
        tried = [text for _, text in texts.corpus() + random_texts(400, 23)]
        for text in tried:
            plain = without_cases(text)
            if plain == text:
                continue
            with mock.patch(CUT, wrong.as_written):
                meant = line(plain)
            self.assertEqual(right_line(text), meant, text)
            met[meant.split()[0]] += 1
        self.assertGreater(min(met["model"], met["refused"]), 500)

    def test_worked_examples(self):
        self.assertEqual(G_CASES.lower(), G)
        self.assertEqual(H_CASES.lower(), H)
        for one, other in ((G_CASES, G), (H_CASES, H)):
            self.assertNotEqual(one, other)
            self.assertEqual(right_line(one.encode()),
                             right_line(other.encode()))

    def test_names_changed_at_random(self):
        """Neither model nor refusal is another, nor any place."""
        rng = random.Random(61)
        met = Counter()
        for _, text in random_texts(400, 62):
            other = names_recased(rng, text)
            meant = line(text)
            self.assertEqual(line(other), meant, other)
            met[meant.split()[0]] += other != text
        self.assertGreater(min(met["model"], met["refused"]), 100)

    def test_reserved_words_changed_at_random(self):
        """The first that is changed is refused, or what stands before it."""
        rng = random.Random(63)
        met = Counter()
        for _, text in random_texts(400, 64):
            other, place = reserved_recased(rng, text)
            said = read(text)
            if place is None:
                self.assertEqual(other, text)
                continue
            if not isinstance(said, Refusal) or (said.number != 1
                                                 and said.place >= place):
                met["changed"] += 1
                said = Refusal(3, place)
            else:
                met["before"] += 1
            self.assertEqual(read(other), said, other)
        self.assertGreater(met["changed"], 150)
        self.assertGreater(met["before"], 30)


class Inputs(unittest.TestCase):
    """What is met in the corpora and at random."""

    def test_reserved_words(self):
        casing = {WORD.findall(text)[2].decode()
                  for text in groups()["every_casing"]}
        self.assertEqual(len(casing), sum(2 ** len(word) - 1
                                          for word in RESERVED))
        self.assertEqual({word.lower() for word in casing}, set(RESERVED))
        own = {wrong.word_at(text, read(text).place)
               for text in groups()["in_its_own_place"]}
        self.assertEqual(own, {spelled for word in RESERVED
                               for spelled in casings(word)})

    def test_random_texts(self):
        """Names used in another case than declared, in accepted texts, and
        reserved words in another case."""
        for found in ([text for _, text in random_texts(200, 65)],
                      random_models(200, 66)):
            met = Counter()
            for text in found:
                said = read(text)
                tokens = cut(text)
                if isinstance(said, Refusal):
                    met["reserved"] += any(
                        token.place == said.place
                        and wrong.is_reserved_otherwise(token.word)
                        for token in tokens)
                    continue
                spelled = {}
                for token in tokens:
                    if token.kind == NAME:
                        spelled.setdefault(token.small, set()).add(token.word)
                met["names"] += any(len(words) > 1
                                    for words in spelled.values())
            self.assertGreater(met["reserved"], 2)
            self.assertGreater(met["names"], 20)

    def test_reports(self):
        stored = {text for _, text in reports.corpus()}
        for detail, text, lines in reports_cases.REPORTED:
            self.assertEqual(report_lines(text.encode()), list(lines), detail)
            self.assertIn(text.encode(), stored)

    def test_values(self):
        tried = list(values_texts.names_in_cases())
        for label, text, state, word in tried:
            self.assertEqual(value_line(text.encode(), state, word),
                             value_line(text.lower().encode(), state, word),
                             label)
        stored = {tuple(entry) for _, *entry in values.corpus()}
        self.assertLessEqual({(text.encode(), state, word)
                              for _, text, state, word in tried}, stored)

    def test_pairs(self):
        """A sheet is answered as for the text in small letters."""
        for group in (pairs_cases.worked_in_cases,
                      pairs_cases.readings_in_cases):
            for label, text, sheet in group():
                small = text.lower()
                self.assertNotEqual(text, small, label)
                self.assertEqual(answer(text.encode(), sheet),
                                 answer(small.encode(), sheet), label)


class WrongReaders(unittest.TestCase):
    """Each names groups of the reader's corpus that show it up."""

    def is_shown(self, place, part, group):
        mine = groups()[group]
        right = [right_line(text) for text in mine]
        with mock.patch(f"reader.{place}", part):
            return any(line(text) != meant
                       for text, meant in zip(mine, right))

    def assert_shown(self, place, part, *names):
        for name in names:
            self.assertTrue(self.is_shown(place, part, name), (name, part))

    def test_right_ones_pass(self):
        mine = [group.__name__
                for group in texts_cases.GROUPS + texts_reserved.GROUPS]
        for place, part in (("reading.cut", wrong.all_small),
                            ("reading.cut", wrong.bit_set),
                            ("reading.cut", wrong.bit_cleared),
                            ("tokens.word_kind", wrong.reserved_nowhere),
                            ("layout.read", wrong.refused_with_3),
                            ("faults.repeated", wrong.repeated_in_any_kind)):
            for name in mine:
                self.assertFalse(self.is_shown(place, part, name),
                                 (name, part))

    def test_names_compared_otherwise(self):
        for part in (wrong.as_written, wrong.first_letter, wrong.last_letter,
                     wrong.all_but_first, wrong.all_but_last,
                     wrong.small_finds_capitals, wrong.capitals_find_small,
                     wrong.capitals_found, wrong.small_found):
            self.assert_shown("reading.cut", part, "repeated_cases",
                              "used_cases", "lengths_and_places")
        self.assert_shown("reading.cut", wrong.whole_words_alone,
                          "repeated_cases", "used_cases",
                          "lengths_and_places")
        for part in (wrong.first_eight, wrong.from_the_ninth,
                     wrong.first_fifteen):
            self.assert_shown("reading.cut", part, "lengths_and_places")
        for part in (wrong.first_half_alone, wrong.second_half_alone,
                     wrong.lengths_unlooked, wrong.letters_in_any_order):
            self.assert_shown("reading.cut", part, "other_names")
        for part in (wrong.five_bits, wrong.six_bits_of_small):
            self.assert_shown("reading.cut", part, "not_letters")

    def test_one_letter_told_from_its_capital(self):
        for letter in string.ascii_lowercase:
            self.assert_shown("reading.cut", wrong.but_for(letter),
                              "every_letter")

    def test_texts_changed_before(self):
        self.assert_shown("reading.cut", wrong.text_in_small,
                          "in_its_own_place", "for_names")
        for part in (wrong.text_bit_set, wrong.text_bit_set_from_64,
                     wrong.text_bit_cleared, wrong.text_of_seven_bits):
            self.assert_shown("reading.cut", part, "not_letters")

    def test_reserved_words_taken_for_something(self):
        self.assert_shown("tokens.word_kind", wrong.reserved_as_themselves,
                          "in_its_own_place", "for_names", "before_and_after")
        self.assert_shown("tokens.word_kind", wrong.reserved_as_names,
                          "every_casing", "for_names", "before_and_after")
        self.assert_shown("tokens.word_kind", wrong.reserved_as_bad,
                          "every_casing", "in_its_own_place",
                          "between_tokens", "for_names", "before_and_after")
        for part in (wrong.names_unless_capitalised,
                     wrong.names_unless_in_capitals, wrong.names_unless_last):
            self.assert_shown("tokens.word_kind", part, "every_casing",
                              "for_names")

    def test_one_reserved_word_forgotten(self):
        for word in RESERVED:
            self.assert_shown("tokens.word_kind", wrong.forgotten(word, NAME),
                              "every_casing", "for_names")
            self.assert_shown("tokens.word_kind", wrong.forgotten(word, word),
                              "in_its_own_place")

    def test_longer_words(self):
        for part in (wrong.long_ones_by_their_beginning,
                     wrong.long_ones_by_their_end,
                     wrong.long_ones_in_capitals,
                     wrong.names_by_their_beginning, wrong.names_by_a_part,
                     wrong.names_without_underscores):
            self.assert_shown("tokens.word_kind", part, "in_longer_words")

    def test_refusals_of_reserved_words(self):
        for part in (wrong.refused_with_2, wrong.refused_with_4,
                     wrong.refused_with_5, wrong.refused_with_7,
                     wrong.at_its_end, wrong.at_the_texts_end):
            self.assert_shown("layout.read", part, "every_casing",
                              "in_its_own_place", "between_tokens",
                              "for_names", "before_and_after")
        self.assert_shown("layout.read", wrong.at_the_first_capital,
                          "every_casing", "in_its_own_place")

    def test_reserved_words_refused_in_some_places(self):
        self.assert_shown("reading.cut", wrong.only_where_a_name_may_stand,
                          "in_its_own_place")
        self.assert_shown("reading.cut", wrong.only_where_no_name_may_stand,
                          "for_names", "between_tokens", "every_casing")
        self.assert_shown("reading.cut", wrong.only_in_its_own_place,
                          "for_names", "between_tokens", "every_casing")
        self.assert_shown("reading.cut", wrong.only_out_of_its_place,
                          "in_its_own_place")
        self.assert_shown("reading.cut", wrong.operators_alone,
                          "in_its_own_place", "for_names")

    def test_repeated_names(self):
        for part in (wrong.repeated_in_one_kind,
                     wrong.repeated_in_other_kinds,
                     wrong.commands_as_written, wrong.repeated_at_the_first,
                     wrong.repeated_with_5):
            self.assert_shown("faults.repeated", part, "repeated_cases")
        for j, first in enumerate(DECLARING):
            for second in DECLARING[j:]:
                self.assert_shown("faults.repeated",
                                  wrong.pair_as_written(first, second),
                                  "repeated_cases")

    def test_used_names(self):
        self.assertEqual(len(wrong.USING), 19)
        for slot in wrong.USING:
            self.assert_shown("faults.misused", wrong.as_written_in(slot),
                              "used_cases")
        self.assert_shown("faults.misused", wrong.kinds_unlooked,
                          "used_cases", "limits_and_cases")
        self.assert_shown("faults.misused", wrong.wrong_kinds_with_3,
                          "used_cases", "limits_and_cases")

    def test_places_of_names(self):
        self.assert_shown("reading.names_of", wrong.names_at_their_last_use,
                          "used_cases", "wholes_in_cases")


class WrongReports(unittest.TestCase):
    def is_shown(self, place, part):
        with mock.patch(place, part):
            return any(report_lines(text.encode()) != list(lines)
                       for _, text, lines in reports_cases.REPORTED)

    def test_right_one_passes(self):
        self.assertFalse(self.is_shown("evidence.report.read",
                                       wrong.as_declared))

    def test_wrong_ones(self):
        for part in (wrong.in_small_letters, wrong.in_capitals,
                     wrong.capitalised, wrong.first_letter_small,
                     wrong.as_first_met, wrong.as_last_met):
            self.assertTrue(self.is_shown("evidence.report.read", part), part)
        for part in (wrong.as_written, wrong.text_in_small):
            self.assertTrue(self.is_shown(CUT, part), part)


class WrongTests(unittest.TestCase):
    """The corpora of sheets and values show it up too."""

    def test_sheets(self):
        for part in (wrong.as_written, wrong.first_eight):
            for group in pairs_cases.GROUPS:
                with mock.patch(CUT, part):
                    differ = any(
                        answer(text.encode(), sheet)
                        != label.rpartition(" -> ")[2]
                        for label, text, sheet in group())
                self.assertEqual(differ, part is wrong.as_written,
                                 (group, part))

    def test_values(self):
        with mock.patch(CUT, wrong.as_written):
            for label, text, *where in values_texts.names_in_cases():
                self.assertTrue(value_line(text.encode(), *where)
                                .startswith("refused 5 "), label)


if __name__ == "__main__":
    unittest.main()
