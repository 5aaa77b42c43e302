"""The value of expressions, against Python's own operators."""

import itertools
import unittest

from tokens import cut
from values import in_all_states, used, value

EXPRESSIONS = ("a", "not a", "a and b or c", "a or b and c", "not a and b",
               "not (a and b)", "(a or b) and (b or c)", "not not a or 0",
               "a and 1 and not (b or not (c or a))", "1", "0")


class Values(unittest.TestCase):
    def test_every_value(self):
        for said in EXPRESSIONS:
            for bits in itertools.product((0, 1), repeat=3):
                values = dict(zip("abc", bits))
                self.assertEqual(value(cut(said.encode()), values),
                                 bool(eval(said, {}, values)), said)

    def test_all_states_at_once(self):
        columns, every = in_all_states("abc")
        for said in EXPRESSIONS:
            tokens = cut(said.encode())
            held = value(tokens, columns, every)
            self.assertEqual(
                [held >> state & 1 for state in range(8)],
                [value(tokens, {name: state >> j & 1
                                for j, name in enumerate("abc")})
                 for state in range(8)], said)
            self.assertLess(held, 1 << 8)

    def test_no_names(self):
        columns, every = in_all_states("")
        self.assertEqual((columns, every), ({}, 1))

    def test_names_that_are_used(self):
        values = {"a": 1, "b": 0, "c": 1}
        self.assertEqual(used(cut(b"not (c or a) and c"), values),
                         {"c": 1, "a": 1})


if __name__ == "__main__":
    unittest.main()
