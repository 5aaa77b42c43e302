"""Which part of `start` is said to contradict itself, against every value of
the names one after the other."""

import itertools
import unittest

import sentences
from starts import tried
from texts import model_of
from traces import Unreadable

MODEL = ("shared {}. row {}. start {} each {}. keep 1 each 1. "
         "command c if 1 do skip else skip.")
SHARED = ("1", "0", "a", "not a", "a and not a", "a or b", "a and not b")
ROW = ("1", "0", "x", "not a", "x and a", "x and not x", "not (a or x)",
       "b and not a")


def model(shared, row, first, second):
    return model_of(MODEL.format(shared, row, first, second).encode())


def somewhere(*parts):
    """Whether some values make all of them true, by Python's operators."""
    return any(all(eval(part, {}, dict(zip("abx", bits))) for part in parts)
               for bits in itertools.product((0, 1), repeat=3))


class Starts(unittest.TestCase):
    def test_every_pair_of_parts(self):
        for first, second in itertools.product(SHARED, ROW):
            said = model("a b", "x", first, second)
            if somewhere(first, second):
                with self.assertRaises(Unreadable):
                    tried(said)
                continue
            self.assertEqual(
                [(part.quote, part.can_hold) for part in tried(said)],
                [(first, somewhere(first)), (second, somewhere(second))])

    def test_sentences(self):
        for (first, second), begin in (
                (("a and not a", "x"), "The shared part of "),
                (("a", "x and not x"), "The `each` part of "),
                (("a", "not a"), "Each part of "),
                (("0", "0"), "Both parts of ")):
            told = sentences.contradiction(tried(model("a", "x", first,
                                                       second)))
            self.assertEqual(told[:len(begin)], begin)

    def test_no_names(self):
        for first, second, held in (("0", "1", [False, True]),
                                    ("1", "0", [True, False])):
            parts = tried(model("", "", first, second))
            self.assertEqual([part.can_hold for part in parts], held)

    def test_longest_clause(self):
        """All names and nearly all nodes, with the most parentheses."""
        shared = [f"s{j}" for j in range(8)]
        row = [f"r{j}" for j in range(4)]
        names = shared + row
        deep = "(" * 15 + " or ".join(names[j % 12] for j in range(500))
        part = f"{deep + ')' * 15} and 0"
        parts = tried(model(" ".join(shared), " ".join(row), "1", part))
        self.assertEqual([part.can_hold for part in parts], [True, False])


if __name__ == "__main__":
    unittest.main()
