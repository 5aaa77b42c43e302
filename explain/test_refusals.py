"""Which limit a token is said to go over, and what a token that the notation
does not allow is said to stand for."""

import unittest

import limits
from limits import gone_over
from notation import walk
from refusals import explained
from tokens import cut
from traces import Refused

LISTS = "shared a. row x. "
CLAUSES = "start 1 each 1. keep 1 each 1. "
ANY = "command c{} if 1 do skip else skip. "
DO = LISTS + CLAUSES + "command c if 1 do "


def names(stem, count):
    return " ".join(f"{stem}{j}" for j in range(count))


def over(text):
    """The limits gone over at the last token and at the one before it."""
    parts, _ = walk(cut(text.encode()))
    return gone_over(parts), gone_over(parts[:-1])


class Limits(unittest.TestCase):
    def told(self, text, *limit):
        self.assertEqual(over(text), (list(limit), []))

    def test_names(self):
        self.told("shared " + names("a", 9), limits.SHARED)
        self.told("shared . row " + names("x", 11), limits.ROW)
        self.told(f"shared {names('a', 8)}. row {names('x', 5)}",
                  limits.TOGETHER)
        self.told(f"shared a0 a1. row {names('x', 11)}",
                  limits.ROW, limits.TOGETHER)

    def test_commands(self):
        commands = "".join(ANY.format(j) for j in range(16))
        self.told(LISTS + CLAUSES + commands + "command", limits.COMMANDS)

    def test_items(self):
        """What ends an expression is no node: those here are 770 alone."""
        items = "a := 1 and 1; " * 255
        self.told(DO + items + "skip; for", limits.ITEMS)
        items = "x := 1 and 1; " * 254
        self.told(DO + "for 1 do " + items + "skip else x",
                  limits.ITEMS)

    def test_nodes(self):
        """Five stand before; a parenthesis is none."""
        self.told(DO + "a := " + "(1) and " * 510, limits.NODES)
        self.told(DO + "a := " + "(a) or " * 509 + "not (*", limits.NODES)

    def test_stars(self):
        first = LISTS + CLAUSES + "command b if * do skip else skip. "
        self.told(first + "command c if " + "* or " * 8 + "*", limits.STARS)

    def test_depth(self):
        self.told(DO + "a := " + "not " * 17, limits.DEPTH)
        self.told(DO + "a := " + "(" * 17, limits.DEPTH)
        done = "not (not 1 or not not 0) and "
        self.told(DO + "a := " + done * 3 + "(not " * 8 + "(", limits.DEPTH)


class Allowed(unittest.TestCase):
    def told(self, text, *words):
        """Behind the text, what may stand is named by these words alone."""
        rule = explained(text.encode(), Refused(3, len(text))).rule
        said = rule.removeprefix("The text ends too early. ")
        listed = ", ".join(words[:-1]) + " or " if words[1:] else ""
        self.assertEqual(said,
                         f"What may stand here: {listed}{words[-1]}.")

    def test_places(self):
        operand = ("a name", "`0`", "`1`", "`not`", "`(`")
        self.told("shared a", "a name", "`.`")
        self.told(LISTS + "start", *operand)
        self.told(LISTS + "start 1 or (1 and not", *operand)
        self.told(LISTS + "start 1 or (1", "`and`", "`or`", "`)`")
        self.told(LISTS + "start 1 each 1", "`and`", "`or`", "`.`")
        self.told(DO, "`skip`", "a name", "`for`")
        self.told(DO + "for 1 do", "`skip`", "a name")
        self.told(DO + "for", "a name", "`0`", "`1`", "`*`", "`not`", "`(`")
        self.told(DO + "for 1 do skip else skip", "`;`", "`end`")
        self.told(DO + "skip else a := a", "`and`", "`or`", "`;`", "`.`")
        self.told(LISTS + CLAUSES, "`command`")
        self.told(DO + "skip else skip.", "`command`", "the end of the text")


if __name__ == "__main__":
    unittest.main()
