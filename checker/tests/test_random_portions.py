"""Searches in portions at random: that the right program passes, that what
is met there is varied, and that wrong programs are shown up."""

import io
import random
import unittest
from contextlib import redirect_stdout

from tests import wrong_altered
from tests.in_memory import library_of
from tests.portion_cases import PROGRAMS, is_shown, random_cases
from tests.portion_program import Program
from comparing.altered import compare_altered
from comparing.differences import Differences
from comparing.random_walks import compare_random_walk
from comparing.reached import compare_reached
from evidence.calls_portions import passing
from evidence.reservations import most_trials
from inputs.random_sheets import random_sheet
from reader.model import Refusal

MOST_TRIALS = 5000

SHOWN_AT_RANDOM = """
    OneStateMore ZeroExpandsOne AllStartsTakenIn LastInFirstOut
    LedByTheLast LastCommandFirst BreakSeenAfterTheState
    UnfinishedStateCounts EndedTooEarly NeverEnds GoesOnAfterABreak
    TrialsOfThisPortion QueueClosed KeepsItsOwnQueue EndBeforeRefusals
    YesToEveryStart NoToTheBreak SparePlacesLookedAt TenBeforeEight
    StopsHere BeginsAnewAtTheEnd BeyondCleared RunThoughRefused
    LastMoveThatFits
"""


class AtRandom(unittest.TestCase):
    """Random searches, and what is altered at random."""

    @classmethod
    def setUpClass(cls):
        cls.cases = random_cases(300, 5)
        cls.models = [case for case in cls.cases
                      if not isinstance(case.table, Refusal)]

    def compared(self, compare, program, cases):
        rng = random.Random(3)
        differences = Differences()
        with redirect_stdout(io.StringIO()):
            for case in cases:
                compare(rng, program, case, differences)
        return differences

    def test_right_one_passes(self):
        walks = self.compared(compare_random_walk, Program(), self.cases)
        self.assertEqual(walks.count, 0)
        for kind in ("open: paused", "open: ended", "open: refused",
                     "open: refused 8", "portion: paused", "portion: ended",
                     "portion: refused 8", "met: yes", "met: no",
                     "met: refused", "met: refused 8", "finish: safe",
                     "finish: void", "finish: unsafe", "finish: refused 8"):
            self.assertGreaterEqual(walks.met[kind], 15, kind)

    def test_altered_passes(self):
        changed = self.compared(compare_altered, Program(), self.cases)
        self.assertEqual(changed.count, 0)
        for kind in ("portion: paused", "portion: ended", "portion: refused",
                     "portion: refused 8", "met: yes", "met: no",
                     "met: out of range", "met: refused", "met: refused 8",
                     "finish: safe", "finish: void", "finish: unsafe",
                     "finish: refused", "finish: refused 8"):
            self.assertGreaterEqual(changed.met[f"altered {kind}"], 10, kind)

    def test_wrong_walks(self):
        for name in SHOWN_AT_RANDOM.split():
            self.assertGreater(self.compared(
                compare_random_walk, PROGRAMS[name](),
                self.models[:120]).count, 0, name)

    def test_wrong_where_altered(self):
        """As long as nothing is altered they are right."""
        programs = [program for program in vars(wrong_altered).values()
                    if isinstance(program, type) and program is not Program]
        self.assertGreaterEqual(len(programs), 12)
        for program in programs:
            self.assertEqual(self.compared(
                compare_random_walk, program(), self.models[:40]).count, 0,
                program)
            self.assertGreater(self.compared(
                compare_altered, program(), self.cases).count, 0, program)

    def test_random_maps(self):
        rng = random.Random(6)
        differences = Differences()
        for case in self.models:
            if most_trials(case.table) > MOST_TRIALS:
                continue
            sheet = random_sheet(rng, case.table)
            compare_reached(rng, Program(), case.title, case.text, sheet,
                            passing(case.text, sheet), differences)
        self.assertEqual(differences.count, 0)
        for kind in ("yes", "no", "refused", "A", "B", "C", "D", "E", "F",
                     "trace"):
            self.assertGreaterEqual(differences.met[f"reached: {kind}"], 20,
                                    kind)


class InProcess(unittest.TestCase):
    """The same through addresses, in guarded memory."""

    def test_right_one_passes(self):
        library = library_of()
        for group in ("worked", "worked_breaks", "names", "refused", "maps",
                      "void_maps", "traces", "refused_sheets"):
            self.assertFalse(is_shown(library, group), group)

    def test_random_ones_pass(self):
        rng = random.Random(8)
        library = library_of()
        differences = Differences()
        for case in random_cases(40, 5):
            compare_random_walk(rng, library, case, differences)
            compare_altered(rng, library, case, differences)
        self.assertEqual(differences.count, 0)

    def test_wrong_ones(self):
        for name, group in (
                ("OneStateMore", "worked"), ("QueueClosed", "worked"),
                ("YesToAll", "worked"), ("AnyMapAsked", "maps"),
                ("BeyondCleared", "worked"),
                ("HeaderThoughRefused", "worked")):
            self.assertTrue(is_shown(library_of(PROGRAMS[name]()), group),
                            name)


if __name__ == "__main__":
    unittest.main()
