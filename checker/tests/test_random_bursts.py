"""Steps, bursts and counts at random: that the right program passes, that
what is met there is varied, and that wrong ones are shown up; and the same
through addresses, in guarded memory."""

import random
import unittest
from collections import Counter

from tests.burst_cases import PROGRAMS, is_shown
from tests.burst_program import Bursts
from tests.in_memory import library_of
from tests.showing import compared_at_random
from comparing.random_bursts import compare_random_bursts
from evidence.bursts import called, listed
from inputs.random_bursts import (bursting, some_command, some_entries,
                                  some_places, some_width)
from inputs.random_searches import random_models

SHOWN_AT_RANDOM = """
    LastOfTheMost FirstStretchAlone OneTooWide OneTooNarrow
    LastStretchLeftOut FirstStretchLeftOut SideBySide CutAtTheEnd
    AroundTheEnd FromACallOn WithoutPause ToTheEndOfTheList
    CommandsInOrderOfNames PlacesFromZero PlaceOfTheFirstCall NoneAtTheLast
    ShorterIsNothing AsLongIsNothing ShorterAtItsFirstCall StateBefore
    WordThenCommand HighByteFirst CommandIn2Bits FromTheSecondPlace
    LastStepNotPut BurstsFillNothing CountsFillNothing SparePlaceCleared
    SparePlacesClearedByABurst FilledThoughEight FilledThoughTen
    FilledThoughSixteen FilledThoughItFails FilledThoughEntriesAreFew
    OnePlaceMoreNeeded OnePlaceFewerIsEnough PlacesIn8Bits
    EntriesOfTheModelAlone AddedToWhatIsThere AddedToTheLastCounts
    SeventeenthCleared InOrderOfNames FifteenAreEnough SeventeenNeeded
    EntriesIn8Bits CountedThoughPlacesAreFew CommandIn8Bits CommandIn32Bits
    SixteenAreKnown OneMoreIsKnown CalledOrUnknown WidthIn16Bits
    WidthIn32Bits ZeroIsAWidth Width4095Refused Width4096Taken
    WidthBeforeCommand CommandBeforePlaces WidthBeforePlaces MapsListed
    PlacesFirst PlacesBeforeALetter EntriesFirst WidthFirst CommandFirst
    BurstsOfAnyTrace CountsOfAnyTrace ListsOfAnyTrace BurstsNamesInOneCase
    BurstsEndUntested KeepsTheOutcome KeepsTheSteps
"""


def compared(program, texts):
    return compared_at_random(compare_random_bursts, program, texts)


class AtRandom(unittest.TestCase):
    @classmethod
    def setUpClass(cls):
        cls.texts = random_models(100, 5)

    def test_right_one_passes(self):
        differences = compared(Bursts(), self.texts)
        self.assertEqual(differences.count, 0)
        met = Counter()
        for kind, count in differences.met.items():
            _, said = kind.split(": ")
            met[said] += count
        for call, said, least in (
                ("steps", "steps", 80), ("steps", "refused 8", 20),
                ("counts", "steps", 100), ("counts", "refused 8", 100),
                ("burst", "burst", 250), ("burst", "refused 8", 100),
                ("burst", "refused 10", 50), ("burst", "refused 16", 50)):
            self.assertGreaterEqual(differences.met[f"{call}: {said}"], least,
                                    (call, said))
        for said in ("A", "B", "C", "D", "E", "F", "safe", "void",
                     "refused"):
            self.assertGreaterEqual(met[said], 2, said)

    def test_wrong_ones_are_shown(self):
        self.assertGreaterEqual(len(SHOWN_AT_RANDOM.split()), 70)
        for name in SHOWN_AT_RANDOM.split():
            self.assertGreater(compared(PROGRAMS[name](), self.texts).count,
                               0, name)

    def test_traces(self):
        """They pass, and commands come in bursts."""
        rng = random.Random(4)
        met = Counter()
        for _ in range(80):
            found = listed(*bursting(rng))
            commands = called(found.steps)
            met[found.commands] += 1
            met["in a row"] += any(commands[place:place + 3]
                                   == commands[place:place + 1] * 3
                                   for place in range(len(commands) - 2))
            met["several"] += len(set(commands)) > 1
            met["over a byte"] += len(commands) > 255
        for kind in (1, 2, 3, 4, 15, 16, "over a byte"):
            self.assertGreaterEqual(met[kind], 3, kind)
        for kind in ("in a row", "several"):
            self.assertGreaterEqual(met[kind], 30, kind)

    def test_numbers(self):
        """On both sides of what they are judged by."""
        rng = random.Random(4)
        commands, widths, places, lent = (
            Counter(draw() for _ in range(2000)) for draw in (
                lambda: some_command(rng, 3), lambda: some_width(rng, 9),
                lambda: some_places(rng, 9), lambda: some_entries(rng)))
        for drawn, numbers in ((commands, (0, 1, 2, 3, 16, 255)),
                               (widths, (0, 1, 8, 9, 10, 4094, 4095, 4096)),
                               (places, (0, 8, 9, 10, 309)),
                               (lent, (0, 14, 15, 16, 17))):
            for number in numbers:
                self.assertGreaterEqual(drawn[number], 5, number)
            self.assertGreaterEqual(len(drawn), 15)
        for drawn in (commands, widths):
            self.assertGreaterEqual(max(drawn), 1 << 63)
            for bits in (16, 32, 48, 63):
                self.assertGreaterEqual(sum(drawn[(1 << bits) + like]
                                            for like in range(6)), 5, bits)


class InProcess(unittest.TestCase):
    def test_right_one_passes(self):
        library = library_of()
        for group in ("worked", "ties", "no_steps", "found_traces",
                      "most_steps", "filled", "counted", "too_few_places",
                      "nothing_to_list", "in_turns", "longer_lists",
                      "command_before_width", "outcome_first"):
            self.assertFalse(is_shown(library, group), group)

    def test_random_ones_pass(self):
        self.assertEqual(compared(library_of(),
                                  random_models(15, 6)).count, 0)

    def test_wrong_ones(self):
        for name, group in (
                ("LastOfTheMost", "ties"), ("WordThenCommand", "filled"),
                ("HighByteFirst", "filled"), ("CommandIn32Bits",
                                              "unknown_commands"),
                ("WidthIn32Bits", "widths_out_of_range"),
                ("SparePlaceByteCleared", "filled"),
                ("FilledThoughSixteen", "longer_lists"),
                ("SeventeenthCleared", "counted"),
                ("LowByteWritten", "counted"),
                ("EntriesClearedByALetter", "outcome_first"),
                ("FilledThoughEight", "too_few_places")):
            self.assertTrue(is_shown(library_of(bursts=PROGRAMS[name]()),
                                     group), name)


if __name__ == "__main__":
    unittest.main()
