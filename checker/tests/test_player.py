"""A player: that the checker moves as was worked out by hand, and keeps what
is said of moves on any trace."""

import random
import unittest
from collections import Counter
from functools import cache

from tests.player_cases import entries
from tests.player_program import Player
from tests.portion_program import table_of
from tests.showing import AllDiffer
from comparing.lending import memory
from comparing.player import compare_walk
from comparing.differences import Differences
from comparing.told import player_told
from corpora import player
from corpora.player_labels import Step, meant_by
from evidence.calls_player import CALLS, player_leaves, with_record
from evidence.player import MOVES, Record, is_foreign, played, standing
from evidence.searching import search
from evidence.sheets import contents
from inputs.cases import G, G_CASES, G_SHEET, G_VOID, H, map_for, trace_for
from inputs.random_searches import random_models
from inputs.random_traces import passing_traces
from reader.model import Refusal

LARGEST = (1 << 64) - 1

states_due = cache(played)


def passing():
    """Text, sheet and states of each trace of the corpus that passes."""
    pairs = dict.fromkeys((text, sheet) for _, text, sheet, _, _ in entries())
    for text, sheet in pairs:
        due = states_due(text, sheet)
        if isinstance(due, list):
            yield text, sheet, due


class ByHand(unittest.TestCase):
    def test_walks(self):
        for label, text, sheet, given, calls in entries():
            due, held = states_due(text, sheet), [*given]
            for call, step in zip(calls, meant_by(label), strict=True):
                left = (held if step.record is None
                        else with_record(step.record, held))
                self.assertEqual(
                    (step.call, *player_leaves(due, call, held, len(held))),
                    (call, step.said, left), label)
                held = left

    def test_labels(self):
        self.assertEqual(
            meant_by("a -> b -> player opened 0 4; forward moved 1-3 9-11; "
                     "forward end; back moved 2-1 5-4"),
            [Step("player", "opened", (0, 4)),
             Step("forward", "moved", (1, 9)),
             Step("forward", "moved", (2, 10)),
             Step("forward", "moved", (3, 11)), Step("forward", "end", None),
             Step("back", "moved", (2, 5)), Step("back", "moved", (1, 4))])
        self.assertEqual(
            meant_by("a -> moves foreign; all refused 9 17"),
            [Step(call, "foreign", None)
             for call in ("forward", "back", "beginning")]
            + [Step(call, "refused 9 17", None)
               for call in ("player", "forward", "back", "beginning")])
        with self.assertRaises(ValueError):
            meant_by("one state too few -> forward moved 1-3 1-2")

    def test_told(self):
        """Numbers as a library answers them, in words."""
        for number, words in (
                (ord("o"), "opened"), (ord("m"), "moved"), (ord("e"), "end"),
                (ord("f"), "foreign"), (ord("m") + 256, "moved, then 1"),
                (ord("e") + (1 << 40), "end, then 4294967296"),
                (ord("E"), "E"), (ord("F"), "F"), (ord("s"), "safe holds"),
                (ord("v"), "void"), (ord("t"), "trace holds"),
                (8, "refused 8 0"), (10 + 256 * 17, "refused 10 17"),
                (9 + 256 * 65536, "refused 9 65536")):
            self.assertEqual(player_told(number), words)

    def test_states(self):
        for text, sheet, due in (
                (G, G_SHEET, [1, 7]), (G_CASES, G_SHEET, [1, 7]),
                (G, trace_for(G, 3, (0, 0, 1), (0, 3, 7)), [3, 1, 7]),
                (G, trace_for(G, 1), "F"), (H, G_SHEET, "E"),
                (G_VOID, G_SHEET, "D"), (G, G_SHEET[:-1], "refused 9 17"),
                (H, map_for(H, {1, 3, 5}), "safe holds"),
                (G_VOID, map_for(G_VOID, ()), "void"),
                (G[:-1], G_SHEET, f"refused 3 {len(G) - 1}")):
            self.assertEqual(played(text.encode(), sheet), due)


class Corpus(AllDiffer, unittest.TestCase):
    entries = staticmethod(entries)
    corpus = staticmethod(player.corpus)

    def test_size(self):
        self.assertGreaterEqual(len(entries()), 2300)
        self.assertGreaterEqual(sum(len(calls) for *_, calls in entries()),
                                10_000)

    def test_answers(self):
        """Each answer to each call, at each number of entries."""
        met = Counter()
        for label, _, _, given, _ in entries():
            for step in meant_by(label):
                said = " ".join(step.said.split(" ")[:2])
                met[step.call, said] += 1
                met[len(given), said in ("opened", "moved")] += 1
        for call in CALLS:
            for said in ("safe holds", "void", "A", "B", "C", "D", "E", "F",
                         *(f"refused {number}" for number in range(1, 11))):
                self.assertGreaterEqual(met[call, said], 5, (call, said))
        for kind in (("player", "opened"), ("forward", "moved"),
                     ("back", "moved"), ("beginning", "moved"),
                     ("forward", "end"), ("back", "end"),
                     ("forward", "foreign"), ("back", "foreign"),
                     ("beginning", "foreign"), (0, False), (1, False),
                     (2, True), (2, False), (3, True), (4, True)):
            self.assertGreaterEqual(met[kind], 5, kind)
        for never in (("player", "foreign"), ("player", "end"),
                      ("beginning", "end"), (0, True), (1, True)):
            self.assertEqual(met[never], 0, never)

    def test_traces(self):
        lengths, met = Counter(), Counter()
        for text, _, states in passing():
            lengths[len(states) - 1] += 1
            _, steps = search(table_of(text))
            met["longer"] += len(states) > len(steps) + 1
            met["again"] += len(set(states)) < len(states)
            met["breaks on the way"] += any(map(table_of(text).breaks,
                                                states[:-1]))
            met["two bytes"] += max(states) > 255
        self.assertLessEqual({0, 1, 2, 3, 5, 255, 4095, 6551}, set(lengths))
        for kind, least in (("longer", 5), ("again", 4),
                            ("breaks on the way", 3), ("two bytes", 4)):
            self.assertGreaterEqual(met[kind], least, kind)


class Moves(unittest.TestCase):
    """On the traces of the corpus and on random ones."""

    @classmethod
    def setUpClass(cls):
        rng = random.Random(2)
        cls.traces = list(passing())
        for text in random_models(60, 8):
            if not isinstance(table_of(text), Refusal):
                cls.traces += [(text, sheet, played(text, sheet)) for sheet
                               in passing_traces(rng, table_of(text), 2)]

    def test_states_of_the_sheet(self):
        """What the commands make is what stands in the sheet."""
        self.assertGreaterEqual(len(self.traces), 40)
        for text, sheet, states in self.traces:
            trace = contents(sheet, table_of(text))
            self.assertEqual(states, [trace.start, *(
                after for _, _, after in trace.steps)])

    def test_there_and_back(self):
        """Either undoes the other, and only at the ends there is none."""
        forward, back = MOVES["forward"], MOVES["back"]
        for _, _, states in self.traces:
            for place in range(len(states)):
                here = standing(states, place)
                self.assertEqual(MOVES["beginning"](states, here),
                                 (0, states[0]))
                if place:
                    self.assertEqual(forward(states, back(states, here)),
                                     here)
                else:
                    self.assertIsNone(back(states, here))
                if place + 1 < len(states):
                    self.assertEqual(back(states, forward(states, here)),
                                     here)
                else:
                    self.assertIsNone(forward(states, here))

    def test_any_moves(self):
        """The record is always that of its place, and the place is counted up
        and down between the ends."""
        rng = random.Random(7)
        for _, _, states in self.traces:
            noise = memory(rng, 2)
            _, held = player_leaves(states, "player", [5, 5, *noise], 4)
            place = 0
            for _ in range(30):
                call = rng.choice(("forward", "forward", "back", "beginning"))
                said, held = player_leaves(states, call, held, 4)
                wanted = {"forward": place + 1, "back": place - 1,
                          "beginning": 0}[call]
                place = min(max(wanted, 0), len(states) - 1)
                self.assertEqual(said, "moved" if place == wanted else "end")
                self.assertEqual(held, [place, states[place], *noise])

    def test_foreign(self):
        """All records but one for each place."""
        for _, _, states in self.traces:
            if len(states) > 50 or max(states) > 50:
                continue
            numbers = [*range(60), *(1 << width for width in (8, 16, 32, 63)),
                       *((1 << width) + states[0] for width in (16, 32, 63)),
                       LARGEST]
            fitting = [(place, state) for place in numbers
                       for state in numbers
                       if not is_foreign(states, Record(place, state))]
            self.assertEqual(fitting, list(enumerate(states)))


class Lent(unittest.TestCase):
    """What is due in records that are short, just right, or longer."""

    def test_order(self):
        """The outcome, then 8, then foreign, then an end."""
        for call in CALLS:
            for held in ([], [0], [9], [0, 1], [1, 7], [9, 9], [0, 1, 4]):
                for outcome in ("E", "void", "refused 9 0"):
                    self.assertEqual(
                        player_leaves(outcome, call, held, len(held)),
                        (outcome, held))
            for held in ([], [0], [1], [9]):
                self.assertEqual(player_leaves([1, 7], call, held, len(held)),
                                 ("refused 8 0", held))
        for call in MOVES:
            for held in ([0, 7], [1, 1], [2, 7], [LARGEST, 1]):
                self.assertEqual(player_leaves([1, 7], call, held, 2),
                                 ("foreign", held))
        self.assertEqual(player_leaves([1, 7], "back", [0, 1], 2),
                         ("end", [0, 1]))
        self.assertEqual(player_leaves([1, 7], "forward", [1, 7], 2),
                         ("end", [1, 7]))

    def test_what_is_left(self):
        held = [1, 3, 5, 6]
        for call, left in (("player", [0, 1, 5, 6]), ("back", [0, 1, 5, 6]),
                           ("forward", [2, 7, 5, 6]),
                           ("beginning", [0, 1, 5, 6])):
            for count in (2, 3, 4):
                said = "opened" if call == "player" else "moved"
                self.assertEqual(
                    player_leaves([1, 3, 7], call, held, count), (said, left))
            for count in (0, 1):
                self.assertEqual(
                    player_leaves([1, 3, 7], call, held, count),
                    ("refused 8 0", held))
        self.assertEqual(held, [1, 3, 5, 6])


class Counting(Player):
    """Notes how many entries it is lent."""

    def __init__(self):
        self.lent = Counter()

    def play(self, call, text, sheet, memory, count):
        self.lent[call, count] += 1
        return super().play(call, text, sheet, memory, count)


class Compared(unittest.TestCase):
    """How many entries each call is lent where a walk is compared."""

    def walked(self, given, *steps):
        counting, differences = Counting(), Differences()
        compare_walk(random.Random(1), counting, "G", G.encode(), G_SHEET,
                     given, steps, differences)
        self.assertEqual(differences.count, 0)
        return counting.lent

    def test_records(self):
        lent = self.walked((9, 9), Step("player", "opened", Record(0, 1)),
                           Step("forward", "moved", Record(1, 7)),
                           Step("forward", "end", None))
        for call, times in (("player", 1), ("forward", 2)):
            for count in (0, 1, 2):
                self.assertEqual(lent[call, count], times, (call, count))
            self.assertEqual(sum(lent[call, count] for count in (3, 4, 5, 6)),
                             times)
        self.assertEqual(lent.total(), 12)

    def test_short_ones(self):
        for given in ((), (0,)):
            lent = self.walked(given, Step("back", "refused 8 0", None))
            self.assertEqual(lent, {("back", len(given)): 1})


if __name__ == "__main__":
    unittest.main()
