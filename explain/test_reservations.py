"""Trials and times of searches, worked by hand, and times in words."""

import unittest
from fractions import Fraction
from unittest import mock

import sentences
from reservations import Search, Unreserved, search_of
from sentences import lasting
from stored import stars
from texts import model_of

UNITS = {"ms": Fraction(1, 1000), "second": Fraction(1),
         "seconds": Fraction(1)}


def model(names, *counts):
    """So many row names, and commands with so many stars."""
    row = " ".join(f"x{j}" for j in range(names))
    commands = " ".join(
        f"command c{j} if {stars(count) if count else 1} do skip else skip."
        for j, count in enumerate(counts))
    return model_of(f"shared. row {row}. start 1 each 1. keep 1 each 1. "
                    f"{commands}".encode())


def reservation(entries, trials):
    return (f"entries {entries}\nbytes {7 + 10 * entries}\n"
            f"trials {trials}\n").encode()


class Searches(unittest.TestCase):
    def test_by_hand(self):
        """States, trials, and how often 64 words or fewer are run."""
        for names, counts, states, trials, batches in (
                (0, (0,), 1, 1, 1),
                (1, (1, 0), 2, 2 * 3, 2 * 2),
                (3, (2,), 8, 8 * 4, 8),
                (2, (6,), 4, 4 * 64, 4),
                (2, (7,), 4, 4 * 128, 4 * 2),
                (2, (8,), 4, 4 * 256, 4 * 4),
                (4, (3, 0, 2, 1), 16, 16 * 15, 16 * 4),
                (10, (8, 7, 6, 5, 0), 1024, 1024 * 481, 1024 * 9),
                (10, (8,) * 16, 1024, 1024 * 4096, 1024 * 64)):
            with mock.patch("speed.BATCH_NANOSECONDS", 1300):
                found = search_of(reservation(states, trials),
                                  model(names, *counts))
            self.assertEqual(found, Search(trials, 1300 * batches))

    def test_of_another_text(self):
        """As many trials of more or of fewer states are not these."""
        for entries, trials in ((8, 33), (8, 16), (16, 32), (4, 32), (4, 16)):
            with self.assertRaises(Unreserved):
                search_of(reservation(entries, trials), model(3, 2))

    def test_sentence(self):
        said = sentences.search(Search(1048576, 81920000))
        self.assertIn("at most 1,048,576 trials; ", said)
        self.assertIn("at most 82 ms. ", said)
        self.assertIn("at most 1 trial; ", sentences.search(Search(1, 5000)))


class Times(unittest.TestCase):
    def test_units(self):
        for nanoseconds, said in (
                (1, "0.1 ms"), (5000, "0.1 ms"), (100000, "0.1 ms"),
                (100001, "0.2 ms"), (900001, "1 ms"), (1000000, "1 ms"),
                (1000001, "1.1 ms"), (2000000, "2 ms"), (9900000, "9.9 ms"),
                (9900001, "10 ms"), (10000000, "10 ms"), (10000001, "11 ms"),
                (999000000, "999 ms"), (999000001, "1 second"),
                (1000000000, "1 second"), (1000000001, "1.1 seconds"),
                (1310720000, "1.4 seconds"), (1900000001, "2 seconds"),
                (9900000001, "10 seconds"), (10000000001, "11 seconds"),
                (4321000000000, "4,321 seconds")):
            self.assertEqual(lasting(nanoseconds), said)

    def test_rounded_up(self):
        """What is said is never less, and less than a tenth or a whole one
        more."""
        for power in range(40):
            for nanoseconds in (3 ** power - 1, 3 ** power, 3 ** power + 1):
                number, unit = lasting(max(1, nanoseconds)).split(" ")
                told = Fraction(number.replace(",", "")) * UNITS[unit]
                time = Fraction(max(1, nanoseconds), 10 ** 9)
                step = UNITS[unit] / (10 if told < 10 * UNITS[unit] else 1)
                self.assertLessEqual(time, told)
                self.assertLess(told, time + step)


if __name__ == "__main__":
    unittest.main()
