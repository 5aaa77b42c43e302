"""Steps, bursts and counts: that the checker tells them as was worked out by
hand, and keeps what is said of them on any trace."""

import random
import unittest
from collections import Counter

from tests.burst_cases import entries
from tests.burst_program import Bursts
from tests.portion_program import table_of
from tests.showing import AllDiffer
from comparing.bursts import compare_call, handed
from comparing.differences import Differences
from comparing.lending import counts_unlike, places_unlike
from comparing.told import steps_told
from corpora import bursts
from corpora.bursts import due
from corpora.bursts_labels import Meant, is_meant, meant_by
from corpora.bursts_traces import LETTERS, lettered, steps_of, trace
from corpora.player_walks import BROKEN, TWICE_AROUND
from evidence.bursts import Listed, burst, called, counts, listed
from evidence.calls_bursts import (LEAVES, burst_leaves, counts_leaves,
                                   steps_leaves)
from evidence.player import played
from inputs.cases import G, G_CASES, G_SHEET, G_VOID, H, map_for, trace_for
from inputs.random_bursts import bursting
from inputs.random_searches import random_models
from inputs.random_traces import passing_traces
from reader.model import Refusal

LARGEST = (1 << 64) - 1


def steps(letters):
    """Steps of these commands, whatever else there is to them."""
    return tuple((LETTERS.index(letter), 0, 0) for letter in letters)


def passing():
    """Text, sheet and Listed of each trace of the corpus that passes."""
    for text, sheet in dict.fromkeys(entry[1:3] for entry in entries()):
        found = due(text, sheet)
        if isinstance(found, Listed):
            yield text, sheet, found


class ByHand(unittest.TestCase):
    def test_listed(self):
        for text, sheet, meant in (
                (G, G_SHEET, (1, ((0, 3, 7),))),
                (G_CASES, G_SHEET, (1, ((0, 3, 7),))),
                (G, TWICE_AROUND, (1, ((0, 1, 3), (0, 0, 1), (0, 1, 3),
                                       (0, 0, 1), (0, 3, 7)))),
                (BROKEN, trace_for(BROKEN, 1), (1, ())),
                (*trace("ba", 3), (3, ((1, 11, 267), (0, 48, 48)))),
                (G, trace_for(G, 1), "F"), (H, G_SHEET, "E"),
                (G_VOID, G_SHEET, "D"), (G, G_SHEET[:-1], "refused 9 17"),
                (H, map_for(H, {1, 3, 5}), "safe holds"),
                (H, map_for(H, {1, 3}), "C"),
                (G_VOID, map_for(G_VOID, ()), "void"),
                (G[:-1], G_SHEET, f"refused 3 {len(G) - 1}")):
            self.assertEqual(listed(text.encode(), sheet), meant)

    def test_bursts(self):
        for letters, letter, width, meant in (
                ("", "a", 1, (0, 1)), ("", "a", 4095, (0, 1)),
                ("a", "a", 1, (1, 1)), ("a", "a", 2, (1, 1)),
                ("a", "b", 1, (0, 1)), ("ba", "a", 1, (1, 2)),
                ("ba", "a", 2, (1, 1)), ("ba", "a", 3, (1, 1)),
                ("bbaab", "a", 1, (1, 3)), ("bbaab", "a", 2, (2, 3)),
                ("bbaab", "a", 3, (2, 2)), ("bbaab", "a", 4, (2, 1)),
                ("bbaab", "a", 5, (2, 1)), ("bbaab", "a", 6, (2, 1)),
                ("aabaa", "a", 2, (2, 1)), ("aabaa", "a", 4, (3, 1)),
                ("abbaa", "a", 2, (2, 4)), ("abcabc", "c", 4, (2, 3)),
                ("ab" * 3000, "b", 4095, (2048, 2)),
                ("b" * 6550 + "a", "a", 4095, (1, 2457)),
                ("p" * 5000, "p", 4095, (4095, 1))):
            self.assertEqual(
                burst(steps(letters), LETTERS.index(letter), width), meant,
                (letters[:9], letter, width))

    def test_counts(self):
        for letters, meant in (
                ("", []), ("a", [1]), ("abaab", [3, 2]), ("cc", [0, 0, 2]),
                (LETTERS, [1] * 16), ("a" * 6551, [6551])):
            self.assertEqual(counts(steps(letters)),
                             meant + [0] * (16 - len(meant)))

    def test_entries(self):
        """What is lent does not matter here, but for its length."""
        for label, text, sheet, call, (places, *numbers) in entries():
            lent = [[(1, 2, 3)] * places]
            if call == "counts":
                lent.append([9] * numbers.pop())
            said, _, *counted = LEAVES[call](due(text, sheet), *lent,
                                             *numbers)
            self.assertTrue(is_meant(label, said, *counted), label)

    def test_labels(self):
        for label, meant in (
                ("a: b -> c, 4 places -> steps 3", Meant("steps 3", None)),
                ("a -> burst 3 7", Meant("burst 3 7", None)),
                ("a -> steps 3, counts 1 0 2",
                 Meant("steps 3", [1, 0, 2] + [0] * 13)),
                ("a -> safe holds", Meant("safe holds", None)), ("a", None)):
            self.assertEqual(meant_by(label), meant)
        for label, said, held, fits in (
                ("a", "burst 1 1", (), True),
                ("a -> burst 1 1", "burst 1 1", (), True),
                ("a -> burst 1 1", "burst 1 2", (), False),
                ("a -> steps 2", "steps 2", [7] * 20, True),
                ("a -> steps 2, counts 2", "steps 2", [2] + [0] * 15, True),
                ("a -> steps 2, counts 2", "steps 2", [2] + [0] * 15 + [7],
                 True),
                ("a -> steps 2, counts 2", "steps 2", [2, 1] + [0] * 14,
                 False),
                ("a -> steps 2, counts 2", "steps 3", [2] + [0] * 15,
                 False)):
            self.assertEqual(is_meant(label, said, held), fits, label)

    def test_told(self):
        """Numbers as a library answers them, in words."""
        for number, words in (
                (ord("n"), "steps 0"), (ord("n") + 256 * 6551, "steps 6551"),
                (ord("n") + (1 << 40), "steps 4294967296"),
                (ord("b") + 256 * (3 + 65536 * 7), "burst 3 7"),
                (ord("b") + 256 * (4095 + 65536 * 2457), "burst 4095 2457"),
                (ord("b") + 256 * 65536, "burst 0 1"),
                (ord("b") + (1 << 63), "burst 0 549755813888"),
                (ord("E"), "E"), (ord("s"), "safe holds"),
                (ord("v"), "void"), (ord("t"), "trace holds"),
                (ord("E") + 256, "E, then 1"), (8, "refused 8 0"),
                (10, "refused 10 0"), (16, "refused 16 0"),
                (16 + 256 * 5, "refused 16 5"),
                (9 + 256 * 65536, "refused 9 65536")):
            self.assertEqual(steps_told(number), words)

    def test_lettered(self):
        """The state is the choice word, and the command above it."""
        self.assertEqual([*steps_of("abp")],
                         [(0, 11, 11), (1, 48, 304), (15, 85, 3925)])
        table = table_of(lettered(16).encode())
        for state in (0, 1, 2047, 4095):
            for command in range(16):
                for word in (0, 1, 128, 255):
                    self.assertEqual(table.step(state, command, word),
                                     word + 256 * command)


class Corpus(AllDiffer, unittest.TestCase):
    entries = staticmethod(entries)
    corpus = staticmethod(bursts.corpus)

    def test_size(self):
        self.assertGreaterEqual(len(entries()), 8000)

    def test_answers(self):
        """Each answer to each call; most stand in the labels."""
        met = Counter()
        for label, text, sheet, call, _ in entries():
            meant = meant_by(label)
            if meant is None:
                met["left open"] += 1
                continue
            passes = isinstance(due(text, sheet), Listed)
            said = " ".join(meant.said.split(" ")[:2]
                            if meant.said.startswith(("refused", "safe"))
                            else meant.said.split(" ")[:1])
            met[call, said, passes] += 1
        self.assertLess(10 * met["left open"], len(entries()))
        for call in LEAVES:
            for said in ("safe holds", "void", "A", "B", "C", "D", "E", "F",
                         *(f"refused {number}" for number in range(1, 8)),
                         "refused 9", "refused 10"):
                self.assertGreaterEqual(met[call, said, False], 5,
                                        (call, said))
            self.assertGreaterEqual(met[call, "refused 8", True], 50, call)
        for call, said in (("steps", "steps"), ("burst", "burst"),
                           ("counts", "steps"), ("burst", "refused 10"),
                           ("burst", "refused 16")):
            self.assertGreaterEqual(met[call, said, True], 100, (call, said))
        for never in (("steps", "refused 10"), ("steps", "refused 16"),
                      ("counts", "refused 10"), ("counts", "refused 16")):
            self.assertEqual(met[(*never, True)], 0, never)

    def test_traces(self):
        lengths, commands, used = set(), set(), set()
        met = Counter()
        for _, _, found in passing():
            lengths.add(len(found.steps))
            commands.add(found.commands)
            used.add(len(set(called(found.steps))))
            met["words"] += any(word > 127 for _, word, _ in found.steps)
            met["states"] += any(after > 255 for *_, after in found.steps)
            met["equal steps"] += any(map(
                lambda one, other: one == other, found.steps,
                found.steps[1:]))
        self.assertLessEqual({0, 1, 2, 3, 5, 8, 255, 256, 257, 4094, 4095,
                              4096, 6551}, lengths)
        self.assertLessEqual({1, 2, 3, 15, 16}, commands)
        self.assertLessEqual({0, 1, 2, 3, 15, 16}, used)
        for kind, least in (("words", 50), ("states", 50),
                            ("equal steps", 2)):
            self.assertGreaterEqual(met[kind], least, kind)

    def test_numbers(self):
        """Widths, commands and lengths on both sides of what they are judged
        by."""
        widths, others, lists, lent = (Counter() for _ in range(4))
        for _, text, sheet, call, (places, *numbers) in entries():
            found = due(text, sheet)
            if not isinstance(found, Listed):
                continue
            lists[call, places - len(found.steps)] += 1
            if call == "burst":
                command, width = numbers
                widths[width] += 1
                widths["steps", width - len(found.steps)] += 1
                others[command - found.commands] += 1
                others[command] += 1
            elif call == "counts":
                lent[numbers[0]] += 1
        for width in (0, 1, 2, 3, 4094, 4095, 4096, 4097, 65536, 65537,
                      (1 << 32) + 1, 1 << 63, LARGEST, ("steps", -1),
                      ("steps", 0), ("steps", 1)):
            self.assertGreaterEqual(widths[width], 10, width)
        for command in (-1, 0, 1, 15, 16, 255, 256, 1 << 32, LARGEST):
            self.assertGreaterEqual(others[command], 10, command)
        for call in LEAVES:
            for more in (-1, 0, 1):
                self.assertGreaterEqual(lists[call, more], 10, (call, more))
        for count in (0, 1, 15, 16, 17, 20):
            self.assertGreaterEqual(lent[count], 10, count)


class AnyTrace(unittest.TestCase):
    """On the traces of the corpus and on random ones."""

    @classmethod
    def setUpClass(cls):
        rng = random.Random(2)
        cls.traces = list(passing())
        for text in random_models(60, 8):
            if not isinstance(table_of(text), Refusal):
                cls.traces += [(text, sheet, listed(text, sheet)) for sheet
                               in passing_traces(rng, table_of(text), 2)]
        for _ in range(30):
            text, sheet = bursting(rng)
            cls.traces.append((text, sheet, listed(text, sheet)))

    def test_states(self):
        """Those that a player comes to, but for the first."""
        self.assertGreaterEqual(len(self.traces), 300)
        for text, sheet, found in self.traces:
            if len(found.steps) < 1000:
                self.assertEqual([after for _, _, after in found.steps],
                                 played(text, sheet)[1:])

    def test_steps_of_the_sheet(self):
        """Ten bytes each, behind the first 17."""
        for _, sheet, found in self.traces:
            self.assertEqual(sheet[17:], b"".join(
                bytes([4, 0, 0, 0, 4, 0, command, word, after % 256,
                       after // 256])
                for command, word, after in found.steps))

    def test_counts_add_up(self):
        for _, sheet, found in self.traces:
            each = counts(found.steps)
            self.assertEqual(len(each), 16)
            self.assertEqual(sum(each), (len(sheet) - 17) // 10)
            self.assertFalse(any(each[found.commands:]))
            for command in range(found.commands):
                self.assertEqual(burst(found.steps, command,
                                       max(len(found.steps), 1)),
                                 (each[command], 1))

    def test_densest(self):
        """No stretch has more, and none before has as many."""
        rng = random.Random(5)
        for _, _, found in self.traces:
            commands = called(found.steps)
            if len(commands) > 400:
                continue
            command = rng.randrange(found.commands)
            for width in {1, 2, 3, rng.randint(1, len(commands) + 2)}:
                most, place = burst(found.steps, command, width)
                whole = max(1, len(commands) - width + 1)
                self.assertIn(place, range(1, whole + 1))
                for other in range(1, whole + 1):
                    times = sum(
                        one == command for number, one
                        in enumerate(commands, 1)
                        if other <= number < other + width)
                    if other < place:
                        self.assertLess(times, most)
                    elif other == place:
                        self.assertEqual(times, most)
                    else:
                        self.assertLessEqual(times, most)


class Lent(unittest.TestCase):
    """What is due in lists and entries that are short, just right, or
    longer."""

    found = Listed(2, ((1, 5, 7), (0, 0, 300)))
    noise = [(9, 9, 9), (8, 8, 8), (7, 7, 7)]

    def test_order(self):
        """The outcome, then 8, then 10, then 16."""
        few = self.noise[:1]
        for outcome in ("E", "void", "refused 9 0"):
            self.assertEqual(steps_leaves(outcome, few), (outcome, few))
            self.assertEqual(counts_leaves(outcome, few, [4]),
                             (outcome, few, [4]))
            self.assertEqual(burst_leaves(outcome, few, LARGEST, 0),
                             (outcome, few))
        self.assertEqual(steps_leaves(self.found, few), ("refused 8 0", few))
        for command in (0, 2, LARGEST):
            for width in (0, 1, 4096, LARGEST):
                self.assertEqual(
                    burst_leaves(self.found, few, command, width),
                    ("refused 8 0", few))
        for command in (2, 16, LARGEST):
            for width in (0, 1, 4095, 4096, LARGEST):
                self.assertEqual(
                    burst_leaves(self.found, self.noise, command, width),
                    ("refused 10 0", self.noise))
        for width in (0, 4096, LARGEST):
            self.assertEqual(burst_leaves(self.found, self.noise, 1, width),
                             ("refused 16 0", self.noise))

    def test_what_is_left(self):
        left = [(1, 5, 7), (0, 0, 300), (7, 7, 7)]
        for count in (2, 3):
            places = self.noise[:count]
            self.assertEqual(steps_leaves(self.found, places),
                             ("steps 2", left[:count]))
            for width, said in ((1, "burst 1 2"), (2, "burst 1 1"),
                                (4095, "burst 1 1")):
                self.assertEqual(burst_leaves(self.found, places, 0, width),
                                 (said, left[:count]))
            for behind in ([], [6], [6, 5]):
                self.assertEqual(
                    counts_leaves(self.found, places, [3] * 16 + behind),
                    ("steps 2", left[:count], [1, 1] + [0] * 14 + behind))
            self.assertEqual(places, self.noise[:count])
        for count in range(16):
            self.assertEqual(
                counts_leaves(self.found, self.noise, [3] * count),
                ("refused 8 0", self.noise, [3] * count))

    def test_no_steps(self):
        nothing = Listed(1, ())
        self.assertEqual(steps_leaves(nothing, []), ("steps 0", []))
        self.assertEqual(burst_leaves(nothing, [], 0, 5), ("burst 0 1", []))
        self.assertEqual(counts_leaves(nothing, [], [3] * 16),
                         ("steps 0", [], [0] * 16))


class Noise(unittest.TestCase):
    """What is lent has no byte that a right call would put there."""

    def test_places(self):
        rng = random.Random(1)
        own = tuple((rng.randrange(256), rng.randrange(256),
                     rng.randrange(65536)) for _ in range(500))
        for count in (0, 1, 499, 500, 501, 900):
            places = places_unlike(rng, own, count, 3)
            self.assertEqual(len(places), count)
            for (one, word, after), step in zip(places, own):
                self.assertNotEqual(one, step[0])
                self.assertNotEqual(word, step[1])
                self.assertNotEqual(after % 256, step[2] % 256)
                self.assertNotEqual(after // 256, step[2] // 256)
            for number, (one, word, after) in enumerate(places[500:]):
                self.assertTrue(number % 2 or one == 3)
                self.assertTrue(word and after % 256 and after // 256)

    def test_counts(self):
        rng = random.Random(1)
        for each in ([0] * 16, [6551] + [0] * 15, list(range(250, 266))):
            for count in (0, 5, 16, 40):
                lent = counts_unlike(rng, each, count)
                self.assertEqual(len(lent), count)
                for number, times in zip(lent, each + [0] * 24):
                    self.assertNotEqual(number % 256, times % 256)
                    self.assertNotEqual(number // 256, times // 256)

    def test_handed(self):
        """Numbers of a corpus entry, and what a function takes."""
        rng = random.Random(1)
        found = Listed(1, steps("aaa"))
        (places,), numbers = handed(rng, found, "steps", 5)
        self.assertEqual((len(places), numbers), (5, ()))
        (places,), numbers = handed(rng, found, "burst", 2, 600, 0)
        self.assertEqual((len(places), numbers), (2, (600, 0)))
        (places, lent), numbers = handed(rng, "E", "counts", 0, 17)
        self.assertEqual((len(places), len(lent), numbers), (0, 17, ()))


class Noting(Bursts):
    """Notes what it is handed."""

    def __init__(self):
        self.met = []

    def list_steps(self, text, sheet, places):
        self.met.append(("steps", text, sheet, len(places)))
        return super().list_steps(text, sheet, places)

    def find_burst(self, text, sheet, places, command, width):
        self.met.append(("burst", text, sheet, len(places), command, width))
        return super().find_burst(text, sheet, places, command, width)

    def count_steps(self, text, sheet, places, entries):
        self.met.append(("counts", text, sheet, len(places), len(entries)))
        return super().count_steps(text, sheet, places, entries)


class Compared(unittest.TestCase):
    def test_numbers_handed_over(self):
        noting, differences = Noting(), Differences()
        pair = G.encode(), G_SHEET
        calls = (("steps", (4,)), ("burst", (1, LARGEST, 1 << 63)),
                 ("burst", (3, 0, 2)), ("counts", (1, 20)),
                 ("counts", (0, 3)))
        said = [compare_call(random.Random(1), noting, "G", *pair, due(*pair),
                             call, numbers, differences)[0]
                for call, numbers in calls]
        self.assertEqual(noting.met, [(call, *pair, *numbers)
                                      for call, numbers in calls])
        self.assertEqual(said, ["steps 1", "refused 10 0", "burst 1 1",
                                "steps 1", "refused 8 0"])
        self.assertEqual(differences.count, 0)
        self.assertEqual(differences.met, {
            "steps: steps": 1, "burst: refused 10": 1, "burst: burst": 1,
            "counts: steps": 1, "counts: refused 8": 1})


if __name__ == "__main__":
    unittest.main()
