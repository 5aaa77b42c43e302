"""Players that walk at random: that the right one passes, that what is met
there is varied, and that wrong ones are shown up; and the same through
addresses, in guarded memory."""

import random
import unittest
from collections import Counter

from tests.in_memory import library_of
from tests.player_cases import KEEPING, PLAYERS, RIGHT, is_shown
from tests.player_program import Player
from tests.portion_cases import found
from tests.showing import compared_at_random
from comparing.random_pairs import random_pairs
from comparing.random_player import compare_random_player
from evidence.acceptance import answer
from evidence.calls_player import CALLS
from evidence.one_row import OneRow
from evidence.player import played_in
from evidence.searching import search
from inputs.random_searches import random_models
from reader.model import Refusal
from reader.reading import read

SHOWN_AT_RANDOM = """
    OpensAtTheLast OpensInStateZero OpensWhereTheRecordIs ForwardPastTheEnd
    ForwardAroundTheEnd ForwardByTwo ForwardFromTheFirstSuchState
    BackBelowZero BackStaysAtZero BackBeforeTheFirstSuchState
    EndAtTheBeginning BeginningOfAnything StateUnmoved StateOfTheNextPlace
    StateBeforePlace StepBehindTheRecord EndWritten ForeignMended
    ForeignIsAnEnd AnyStateOfTheTrace AnyStateAtZero AnyStateBetween
    StateIn16Bits StateIn32Bits PlaceIn16Bits PlaceIn32Bits MapsOpened
    FirstStepTested EndUntested NamesInOneCase ClearedByALetter
    MovedThoughItFails OneEntryWritten EightBeforeTheOutcome
    ForeignBeforeEight ForeignBeforeTheOutcome EndBeforeForeign
    PastTheLastIsAnEnd
"""


def breaks(text):
    """Whether a text says a model that has a trace."""
    due = found(text)
    return not isinstance(due, Refusal) and due.verdict == "unsafe"


def compared(player, texts):
    return compared_at_random(compare_random_player, player, texts)


class AtRandom(unittest.TestCase):
    @classmethod
    def setUpClass(cls):
        """Models with a trace come first: there most wrong ones differ."""
        cls.texts = sorted(random_models(100, 5), key=breaks, reverse=True)

    def test_right_one_passes(self):
        differences = compared(Player(), self.texts)
        self.assertEqual(differences.count, 0)
        met = Counter()
        for kind, count in differences.met.items():
            _, said = kind.split(": ")
            met[said] += count
        for call in CALLS:
            self.assertGreaterEqual(differences.met[f"{call}: refused 8"], 30)
            self.assertGreaterEqual(differences.met[f"{call}: refused"], 30)
        for call, said, least in (
                ("player", "opened", 150), ("forward", "moved", 150),
                ("back", "moved", 30), ("beginning", "moved", 100),
                ("forward", "end", 40), ("back", "end", 40),
                ("forward", "foreign", 60), ("back", "foreign", 40),
                ("beginning", "foreign", 40)):
            self.assertGreaterEqual(differences.met[f"{call}: {said}"], least,
                                    (call, said))
        for said in ("A", "B", "C", "D", "E", "F", "safe", "void"):
            self.assertGreaterEqual(met[said], 3, said)

    def test_wrong_ones_are_shown(self):
        for name in SHOWN_AT_RANDOM.split():
            self.assertGreater(compared(PLAYERS[name](), self.texts).count, 0,
                               name)

    def test_what_is_kept_is_shown(self):
        self.assertGreaterEqual(len(KEEPING.keys() - RIGHT), 5)
        for name in KEEPING.keys() - RIGHT:
            self.assertGreater(compared(KEEPING[name](), self.texts).count, 0,
                               name)

    def test_traces(self):
        """They pass, and many are not shortest, or meet a state again."""
        rng = random.Random(4)
        met = Counter()
        for text in self.texts[:40]:
            pairs = random_pairs(rng, text, played_in)
            for pair in pairs:
                passes = isinstance(pair.due, list)
                self.assertEqual(passes, answer(pair.text, pair.sheet)
                                 == "trace holds")
                met["passes" if passes else "does not"] += 1
            first = pairs[0]
            self.assertEqual(isinstance(first.due, list), breaks(text))
            if breaks(text):
                _, steps = search(OneRow(read(text)))
                met["longer"] += len(first.due) > len(steps) + 1
                met["again"] += len(set(first.due)) < len(first.due)
                met["cases"] += pairs[1].text != text
        for kind, least in (("passes", 60), ("does not", 100),
                            ("longer", 15), ("again", 12), ("cases", 20)):
            self.assertGreaterEqual(met[kind], least, kind)


class InProcess(unittest.TestCase):
    def test_right_one_passes(self):
        library = library_of()
        for group in ("one_step", "no_steps", "two_steps", "several_steps",
                      "states_apart_from_places", "carried", "outcome_first",
                      "too_short", "more_entries"):
            self.assertFalse(is_shown(library, group), group)

    def test_random_ones_pass(self):
        self.assertEqual(compared(library_of(),
                                  random_models(40, 6)).count, 0)

    def test_wrong_ones(self):
        for name, group in (
                ("ForwardPastTheEnd", "one_step"),
                ("BackBelowZero", "no_steps"),
                ("StateIn32Bits", "other_states"),
                ("PlaceIn32Bits", "places_past_the_last"),
                ("EndWritten", "two_steps"),
                ("BehindTheRecordCleared", "more_entries"),
                ("ClearedByALetter", "outcome_first"),
                ("OneEntryWritten", "too_short")):
            self.assertTrue(is_shown(library_of(player=PLAYERS[name]()),
                                     group), name)


if __name__ == "__main__":
    unittest.main()
