"""Keys from bytes, in one piece and in parts."""

import itertools
import unittest

from keys import BACK, BEGINNING, FORWARD, KEYS, QUIT, keys_in

PASSED = (b"x", b"F", b"\n", b" ", b"\x1a", b"\xc3\xa9", b"\x1b[A",
          b"\x1b[1;5C", b"\x1b[1;10C", b"\x1b[3~", b"\x1b[20~", b"\x1b[?0b",
          b"\x1b[0 q", b"\x1bOP", b"\x1b[[A")


def typed(*parts):
    """The keys in parts that come one after the other, and what is left."""
    keys, held = [], b""
    for part in parts:
        more, held = keys_in(held + part)
        keys += more
    return keys, held


class Keys(unittest.TestCase):
    def test_every_key(self):
        self.assertEqual(set(KEYS.values()), {FORWARD, BACK, BEGINNING, QUIT})
        for said, key in KEYS.items():
            self.assertEqual(typed(said), ([key], b""))
            self.assertEqual(typed(said * 3), ([key] * 3, b""))

    def test_two_keys_in_all_parts(self):
        for first, second in itertools.product(KEYS, repeat=2):
            said = first + second
            for one, two in itertools.combinations(range(len(said) + 1), 2):
                self.assertEqual(
                    typed(said[:one], said[one:two], said[two:]),
                    ([KEYS[first], KEYS[second]], b""), said)

    def test_what_is_passed_over(self):
        for said in PASSED:
            self.assertEqual(typed(said), ([], b""), said)
            self.assertEqual(typed(said + b"f"), ([FORWARD], b""), said)
            self.assertEqual(typed(*(bytes([byte]) for byte in said), b"b"),
                             ([BACK], b""), said)

    def test_escape(self):
        for said in (b"\x1b", b"\x1b[", b"\x1bO", b"\x1b[1", b"\x1b\x1b"):
            keys, held = typed(said)
            self.assertEqual(keys, [])
            self.assertTrue(held)
            self.assertEqual(typed(said, b"\x1b[C"), ([FORWARD], b""), said)
            self.assertEqual(typed(said, b"\x03"), ([QUIT], b""), said)
        self.assertEqual(typed(b"\x1b", b"f"), ([FORWARD], b""))


if __name__ == "__main__":
    unittest.main()
