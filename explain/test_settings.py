"""Shares and lengths of bars for every count there can be, settings in words,
and settings that a model does not have."""

import unittest
from decimal import ROUND_HALF_UP, Decimal

from settings import bar, setting_lines, share
from stored import cases
from texts import model_of
from traces import Safe, Setting, Unreadable, report_of

TOTALS = (1, 2, 3, 6, 7, 999, 1000, 1001, 1999, 2000, 2001, 2049, 4095, 4096)
CASES = {case.name: case for case in cases()}


def percent(count, total):
    exact = Decimal(100 * count) / Decimal(total)
    return exact.quantize(Decimal("0.1"), ROUND_HALF_UP)


class Shares(unittest.TestCase):
    def test_every_count(self):
        met = set()
        for total in TOTALS:
            for count in range(1, total + 1):
                said = share(count, total)
                if count == total:
                    self.assertEqual(said, "100%")
                elif said in ("<0.1%", ">99.9%"):
                    met.add(said)
                    self.assertEqual(f"{percent(count, total)}",
                                     {"<0.1%": "0.0",
                                      ">99.9%": "100.0"}[said])
                else:
                    self.assertEqual(said, f"{percent(count, total)}%")
                    self.assertNotIn(said, ("0.0%", "100.0%"))
        self.assertEqual(met, {"<0.1%", ">99.9%"})

    def test_halves(self):
        for count, total, said in ((1, 2000, "0.1%"), (1, 2001, "<0.1%"),
                                   (1, 16, "6.3%"), (1, 3, "33.3%"),
                                   (2, 3, "66.7%"), (1999, 2000, ">99.9%"),
                                   (1998, 2000, "99.9%"), (1, 2, "50.0%")):
            self.assertEqual(share(count, total), said)


class Bars(unittest.TestCase):
    def test_every_count(self):
        for longest in (24, 100):
            for most in (1, 2, 3, 24, 25, 100, 1023, 1024):
                for count in range(1, most + 1):
                    length = bar(count, most, longest)
                    self.assertLessEqual(1, length)
                    self.assertLessEqual(length, longest)
                    if length > 1:
                        self.assertLessEqual(
                            abs(2 * length * most - 2 * longest * count), most)
                self.assertEqual(bar(most, most, longest), longest)

    def test_little_is_seen(self):
        self.assertEqual(bar(1, 1024, 24), 1)
        self.assertEqual(bar(64, 1024, 24), 2)


class Settings(unittest.TestCase):
    def test_words(self):
        case = CASES["safe_settings"]
        lines = setting_lines(report_of(case.report), model_of(case.text), 24)
        self.assertEqual([(line.number, line.names, line.states, line.bar)
                          for line in lines],
                         [(0, "not booted, not sealed", 1, 6),
                          (1, "booted, not sealed", 4, 24),
                          (3, "booted, sealed", 2, 12)])

    def test_no_shared_names(self):
        case = CASES["safe_rows"]
        line, = setting_lines(report_of(case.report), model_of(case.text), 24)
        self.assertEqual((line.number, line.names, line.share),
                         (0, "", "100%"))

    def test_settings_that_the_model_has_not(self):
        for name, last, most in (("safe_settings", 3, 4), ("safe_rows", 0, 4),
                                 ("safe", 1, 2)):
            model = model_of(CASES[name].text)
            fitting = Safe(model.counts, (Setting(last, most),))
            self.assertEqual(len(setting_lines(fitting, model, 24)), 1)
            for setting in (Setting(last + 1, 1), Setting(last, most + 1)):
                report = Safe(model.counts, (setting,))
                with self.assertRaises(Unreadable):
                    setting_lines(report, model, 24)


if __name__ == "__main__":
    unittest.main()
