"""Searches in portions: that the checker comes to the pauses worked out by
hand, that they are what the runs of a model say, and that any portions end in
the search in one go."""

import random
import unittest
from collections import Counter

from tests.first_runs import first_runs, pause_by_runs
from tests.portion_cases import (entries, found, maps, random_tables, walked)
from tests.portion_program import table_of
from comparing.told import position_told, question_told
from corpora import portions, reached
from corpora.portions_labels import ALL, meant_by, states_meant
from evidence.acceptance import answer
from evidence.calls import found_in, search_leaves
from evidence.calls_portions import (Passing, met_said, passing,
                                     pause_leaves, position_said,
                                     reached_said)
from evidence.portions import Pause, gone_on, opened, pauses
from evidence.reservations import trials_at_a_state
from evidence.searching import search
from evidence.sheets import map_sheet, trace_sheet
from evidence.trials import made
from inputs.cases import G, G_SHEET, G_VOID, H, map_for
from inputs.cases import table_of as case_table
from inputs.random_portions import position_of, some_portions
from reader.model import Refusal
from reader.reading import read


class ByHand(unittest.TestCase):
    def test_pauses(self):
        for label, text, sizes, meant in walked():
            here = pauses(table_of(text), sizes)
            self.assertEqual(here, meant.pauses, label)
            # Dictionaries are equal in whatever order they were filled.
            self.assertEqual([list(pause.met) for pause in here],
                             [list(pause.met) for pause in meant.pauses],
                             label)

    def test_ends(self):
        for label, text, _, _ in walked():
            _, due = portions.due(label, text)
            self.assertEqual(found(text), due, label)

    def test_refusals(self):
        for label, text, _ in entries():
            meant = meant_by(label)
            said = read(text)
            self.assertEqual(isinstance(meant, Refusal),
                             isinstance(said, Refusal), label)
            if isinstance(meant, Refusal):
                self.assertEqual(said, meant, label)

    def test_maps(self):
        for label, text, sheet in maps():
            self.assertEqual(passing(text, sheet), reached.due(label, text),
                             label)

    def test_labels(self):
        self.assertEqual(states_meant("none"), {})
        self.assertEqual(states_meant("4 1 2<4 5-7"),
                         {4: 4, 1: 1, 2: 4, 5: 5, 6: 6, 7: 7})
        self.assertEqual(list(states_meant("9 0 1-3<").items()),
                         [(9, 9), (0, 0), (1, 0), (2, 1), (3, 2)])

    def test_told(self):
        """Numbers as a library answers them, in words, and back."""
        for pause, number, words in (
                (Pause({}, 0, 0, False), 0x65, "ended 0 0 0"),
                (Pause({1: 1, 3: 3}, 0, 0, False), 0x70 + (2 << 22),
                 "paused 0 2 0"),
                (Pause({1: 1, 3: 3, 5: 1}, 2, 8, False),
                 0x70 + (2 << 9) + (3 << 22) + (8 << 35), "paused 2 3 8"),
                (Pause({1: 1, 3: 3, 5: 1, 7: 1}, 0, 4, True),
                 0x165 + (4 << 22) + (4 << 35), "ended 0 4 4 broken"),
                (Pause(dict.fromkeys(range(4096)), 4096, 1 << 24, False),
                 0x65 + (1 << 21) + (1 << 34) + (1 << 59),
                 "ended 4096 4096 16777216")):
            self.assertEqual(position_of(pause), number)
            self.assertEqual(position_said(pause), words)
            self.assertEqual(position_told(number), words)
        self.assertEqual(position_told(0x170 + (1 << 35)),
                         "paused 0 0 1 broken")
        self.assertEqual(position_told(8), "refused 8 0")
        self.assertEqual(position_told(7 + 256 * 54), "refused 7 54")
        self.assertEqual(question_told(ord("y")), "yes")
        self.assertEqual(question_told(ord("n")), "no")
        self.assertEqual(question_told(ord("n") + 256), "no, then 1")
        self.assertEqual(question_told(ord("t")), "trace holds")
        self.assertEqual(question_told(ord("C")), "C")
        self.assertEqual(question_told(10), "refused 10 0")
        self.assertEqual(question_told(9 + 256 * 65536), "refused 9 65536")


class Corpus(unittest.TestCase):
    def test_size(self):
        self.assertGreaterEqual(len(entries()), 700)
        self.assertGreaterEqual(len(maps()), 180)
        self.assertLess(sum(len(text) for _, text, _ in entries()), 600_000)

    def test_all_differ(self):
        for corpus in (entries(), maps()):
            self.assertEqual(len({entry[0] for entry in corpus}),
                             len(corpus))
            self.assertEqual(len({entry[1:] for entry in corpus}),
                             len(corpus))

    def test_same_again(self):
        self.assertEqual(portions.corpus(), entries())
        self.assertEqual(reached.corpus(), maps())

    def test_what_is_met(self):
        names, ends, sizes_met = Counter(), Counter(), Counter()
        for label, text, sizes, meant in walked():
            names[table_of(text).names] += 1
            sizes_met.update(sizes)
            for pause in meant.pauses:
                ends[pause.ended(), pause.broken, bool(pause.expanded)] += 1
            verdict = meant.finish.split(" ")[0]
            ends[verdict, meant.pauses[0].ended()] += 1
            ends[verdict, meant.pauses[-1].ended()] += 1
        self.assertLessEqual({0, 1, 2, 3, 4, 5, 6, 7, 8, 9, 10, 11, 12},
                             set(names))
        self.assertLessEqual({0, 1, 2, 3, 4095, 4096, 4097, 65536, 1 << 32,
                              1 << 63, ALL}, set(sizes_met))
        for kind in ((False, False, False), (False, False, True),
                     (True, False, False), (True, False, True),
                     (True, True, False), (True, True, True),
                     ("safe", False), ("safe", True), ("unsafe", False),
                     ("unsafe", True), ("void", True)):
            self.assertGreaterEqual(ends[kind], 20, kind)

    def test_refusals(self):
        met = Counter(meant.number for meant in
                      (meant_by(label) for label, _, _ in entries())
                      if isinstance(meant, Refusal))
        self.assertEqual(set(met), set(range(1, 8)))

    def test_sheets_asked(self):
        met = Counter()
        for label, text, sheet in maps():
            due = reached.due(label, text)
            if isinstance(due, Passing):
                due = answer(text, sheet)
                met["larger"] += passing(text, sheet).members > search(
                    table_of(text))
            met[" ".join(due.split(" ")[:2])] += 1
        for kind in ("safe holds", "void", "trace holds", "A", "B", "C", "D",
                     "E", "F", "refused 1", "refused 2", "refused 3",
                     "refused 4", "refused 5", "refused 6", "refused 7",
                     "refused 9", "refused 10", "larger"):
            self.assertGreaterEqual(met[kind], 2, kind)


class Walked(unittest.TestCase):
    """What the runs of a model say of its search in portions."""

    @classmethod
    def setUpClass(cls):
        """Small ones, of the corpus and at random."""
        found_here = {text: (label, table_of(text))
                      for label, text, _, _ in walked()}
        cls.tables = [(title, table) for title, table in
                      [*found_here.values(), *random_tables(200, 9)]
                      if table.states <= 64
                      and trials_at_a_state(table) <= 64]

    def test_order_of_first_runs(self):
        """At every pause there are all states and no others that are met by
        then, in the order of their first runs, each with the state before
        it; and the trials are those that were made by then."""
        met = Counter()
        for title, table in self.tables:
            runs = first_runs(table)
            pause = opened(table)
            for count in range(len(runs) + 2):
                due = pause_by_runs(table, runs, count)
                self.assertEqual(pause, due, title)
                self.assertEqual(list(pause.met), list(due.met), title)
                met[pause.ended(), pause.broken] += 1
                pause = gone_on(table, pause, 1)
        for kind in ((False, False), (True, False), (True, True)):
            self.assertGreaterEqual(met[kind], 150, kind)

    def test_met_by_sets(self):
        """Where nothing broke, yes is said to start states and to results of
        steps from expanded states, and to no others."""
        for title, table in self.tables:
            pause = opened(table)
            while not pause.ended():
                done = list(pause.met)[:pause.expanded]
                results = {after for state in done
                           for _, _, after in table.steps_from(state)}
                starts = set(filter(table.starts, range(table.states)))
                self.assertEqual(set(pause.met), starts | results, title)
                pause = gone_on(table, pause, 1)

    def test_yes_stays(self):
        for title, table in self.tables:
            pause = opened(table)
            while not pause.ended():
                later = gone_on(table, pause, 1)
                self.assertLessEqual(pause.met.items(), later.met.items(),
                                     title)
                pause = later

    def test_any_portions(self):
        """Only how many states were to be expanded matters."""
        rng = random.Random(4)
        for title, table in self.tables:
            sizes = some_portions(rng)
            total = sum(sizes)
            self.assertEqual(pauses(table, sizes)[-1],
                             gone_on(table, opened(table), total), title)

    def test_end_in_one_go(self):
        """At the end the states met tell the sheet and the trials that the
        search in one go has."""
        met = Counter()
        for title, table in self.tables:
            pause = gone_on(table, opened(table), ALL)
            self.assertTrue(pause.ended())
            meant = search(table)
            self.assertEqual(pause.broken, isinstance(meant, tuple), title)
            met[pause.broken] += 1
            count, broken = made(table)
            self.assertEqual((pause.trials, pause.broken), (count, broken),
                             title)
            if not pause.broken:
                self.assertEqual(map_sheet(table, pause.met),
                                 map_sheet(table, meant), title)
                continue
            state = list(pause.met)[-1]
            steps = []
            while pause.met[state] != state:
                before = pause.met[state]
                steps.insert(0, next(step for step in table.steps_from(before)
                                     if step[2] == state))
                state = before
            self.assertEqual(trace_sheet(table, state, steps),
                             trace_sheet(table, *meant), title)
        self.assertGreaterEqual(min(met[True], met[False]), 40)


class Lent(unittest.TestCase):
    """What is due in buffers that are short, just right, or longer."""

    def test_opening(self):
        table = case_table(H)
        first, second = [91] * 9, [92] * 10
        self.assertEqual(
            pause_leaves(table, opened(table), first, second),
            ("paused 0 2 0", [1, 3] + [91] * 7,
             [0, 2, 0, 4, 0, 0, 0, 0, 92, 92]))
        self.assertEqual((first, second), ([91] * 9, [92] * 10))
        for given in ((7, 8), (8, 7), (0, 9), (9, 0)):
            lent = [5] * given[0], [6] * given[1]
            self.assertEqual(pause_leaves(table, opened(table), *lent),
                             ("refused 8 0", *lent))
        self.assertEqual(pause_leaves(Refusal(3, 0), None, [], [7]),
                         ("refused 3 0", [], [7]))

    def test_going_on(self):
        """A place of the queue that is not taken yet is not touched, and one
        that is taken now holds its state, whatever was there."""
        for text, count, said, queue, leading in (
                (H, 1, "paused 1 3 4", [1, 3, 5], [0, 2, 0, 4, 0, 2, 0, 0]),
                (G, 1, "ended 0 4 4 broken", [1, 3, 5, 7],
                 [0, 2, 0, 4, 0, 2, 0, 2]),
                (G_VOID, ALL, "ended 0 0 0", [], [0] * 8)):
            table = case_table(text)
            pause = opened(table)
            _, *lent = pause_leaves(table, pause, [9] * 10, [8] * 10)
            pause = gone_on(table, pause, count)
            self.assertEqual(pause_leaves(table, pause, *lent),
                             (said, queue + [9] * (10 - len(queue)),
                              leading + [8, 8]))

    def test_questions(self):
        table = case_table(H)
        pause = gone_on(table, opened(table), 1)
        tables = [0] * 8, [0] * 8
        for state in range(8):
            self.assertEqual(met_said(table, pause, state, *tables),
                             "yes" if state in (1, 3, 5) else "no")
        self.assertEqual(met_said(table, pause, 8, *tables), "refused 10 0")
        for short in (([0] * 7, [0] * 8), ([0] * 8, [0] * 7)):
            for state in (1, 8, ALL):
                self.assertEqual(met_said(table, pause, state, *short),
                                 "refused 8 0")
        self.assertEqual(met_said(Refusal(5, 7), None, ALL, [], []),
                         "refused 5 7")

    def test_starts_behind_a_break(self):
        """States 1 and 3 start, and 1 breaks."""
        table = case_table(G.replace("keep 1 each not (w and x)",
                                     "keep 0 each 1"))
        tables = [0] * 8, [0] * 8
        for count in (0, 1, ALL):
            pause = gone_on(table, opened(table), count)
            self.assertEqual([met_said(table, pause, state, *tables)
                              for state in (1, 3)], ["yes", "no"])

    def test_finishing(self):
        """As after a search in one go, wherever the tables stand."""
        found = found_in(G.encode())
        table = case_table(G)
        pause = gone_on(table, opened(table), 1)
        _, first, second = pause_leaves(table, pause, [3] * 8, [4] * 9)
        self.assertEqual(
            search_leaves(found, first, second, bytearray(b"\7" * 88)),
            ("unsafe 27 0", [0] * 8, [0] * 8 + [4],
             bytearray(G_SHEET + b"\7" * 61)))
        self.assertEqual(
            search_leaves(found, first, second, bytearray(86)),
            ("refused 8 0", first, second, bytearray(86)))

    def test_maps(self):
        due = passing(H.encode(), map_for(H, range(6)))
        self.assertEqual([reached_said(due, state) for state in range(8)],
                         ["yes"] * 6 + ["no"] * 2)
        for state in (8, 9, ALL):
            self.assertEqual(reached_said(due, state), "refused 10 0")
            self.assertEqual(reached_said("trace holds", state),
                             "trace holds")
            self.assertEqual(reached_said("refused 9 16", state),
                             "refused 9 16")


if __name__ == "__main__":
    unittest.main()
