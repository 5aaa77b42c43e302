"""Names in any case: which words are names, that a use is found however it is
spelt, and that every name is shown as it is declared."""

import itertools
import re
import unittest

import page
import plain
from explaining import explained_by
from refusals import explained
from stored import cases
from test_pages import Page
from tokens import NAME, RESERVED, Token
from traces import Refused, report_of

REST = "start 1 each 1. keep 1 each 1. "
DO = REST + "command step if 1 do "


def spellings(word):
    return map("".join, itertools.product(*zip(word, word.upper())))


def turned(word):
    return word if word.decode() in RESERVED else word.swapcase()


def uses_turned(text):
    """The text with capitals for small letters and the reverse in each name
    but where it is declared: in the two lists and behind `command`."""
    shared, row, rest = text.split(b".", 2)
    rest = re.sub(rb"(command\s+\w+)|\b[A-Za-z]\w*",
                  lambda found: found[1] or turned(found[0]), rest)
    return b".".join([shared, row, rest])


class Words(unittest.TestCase):
    def test_reserved_words_in_every_spelling(self):
        for word in RESERVED:
            for spelt in spellings(word):
                token = Token(0, spelt)
                self.assertEqual(token.kind, word if spelt == word else "")
                self.assertEqual(token.is_reserved_in_another_case,
                                 spelt != word)

    def test_names(self):
        for word in ("Row_1", "aRow", "rows", "ROWS", "N", "I_f", "Ends",
                     "SHARED_", "Sixteen_letters_"):
            token = Token(0, word)
            self.assertEqual(token.kind, NAME)
            self.assertFalse(token.is_reserved_in_another_case)
        for word in ("Seventeen_letters", "_Row", "1Row"):
            self.assertEqual(Token(0, word).kind, "")


class Uses(unittest.TestCase):
    """The spelling of a use shows only where the text itself is shown."""

    def turned(self):
        """The cases whose texts use names, with these texts."""
        found = [(case, uses_turned(case.text)) for case in cases()
                 if not case.report.startswith(b"refused")]
        found = [(case, text) for case, text in found if text != case.text]
        self.assertEqual(len(found), 14)
        return found

    def test_plain(self):
        for case, text in self.turned():
            with self.subTest(case.name):
                lines = explained_by(plain, "FILE", text,
                                     report_of(case.report), case.reservation)
                self.assertEqual("\n".join(lines) + "\n", case.plain)

    def test_page(self):
        for case, text in self.turned():
            with self.subTest(case.name):
                first, second = (
                    Page(explained_by(page, "FILE", said,
                                      report_of(case.report),
                                      case.reservation))
                    for said in (case.text, text))
                self.assertEqual(second.tags, first.tags)
                self.assertEqual(second.rows, first.rows)
                shown = "\n".join(first.lines), "\n".join(second.lines)
                self.assertEqual(shown[1], text.decode().rstrip("\n"))
                self.assertEqual(second.read.replace(*reversed(shown)),
                                 first.read)


class Faults(unittest.TestCase):
    def told(self, number, text, rule):
        """The token in brackets is refused, and this is the rule."""
        before, rest = text.split("[")
        said = explained((before + rest.replace("]", "")).encode(),
                         Refused(number, len(before)))
        self.assertEqual(said.rule, rule)
        self.assertEqual(said.length, rest.index("]"))

    def same(self, spelt, declared):
        return (f"`{spelt}` and `{declared}` are the same name, since case "
                "makes no difference. ")

    def test_declared_before(self):
        for text, spelt, where in (
                ("shared Page [page]. row.", "page", "1:8 as a shared name"),
                ("shared Page. row [PAGE].", "PAGE", "1:8 as a shared name"),
                ("shared a. row Page\n[paGe].", "paGe", "1:15 as a row name"),
                (f"shared. row Page. {REST}\ncommand [pAGE] if", "pAGE",
                 "1:13 as a row name"),
                (f"shared. row. {REST}\ncommand Page if 1 do skip else skip."
                 "\ncommand [page] if", "page", "2:9 as a command")):
            self.told(4, text, f"{self.same(spelt, 'Page')}`Page` is declared "
                      f"at {where}; no name is declared twice, commands "
                      "included.")

    def test_declared_before_in_the_same_spelling(self):
        self.told(4, "shared Page. row [Page].",
                  "`Page` is declared at 1:8 as a shared name; no name is "
                  "declared twice, commands included.")

    def test_of_another_kind(self):
        for text, spelt, declared, rule in (
                ("shared. row Page. start [page]", "page", "Page",
                 "a row name; outside a `for` and an `each` part only shared "
                 "names stand."),
                (f"shared Open. row w. {DO} for 1 do [OPEN] := 1", "OPEN",
                 "Open", "a shared name; inside a `for` only row names are "
                 "assigned."),
                (f"shared. row. {REST} command Stay if [stay]", "stay",
                 "Stay", "a command; only shared names and row names have a "
                 "value.")):
            self.told(5, text, f"{self.same(spelt, declared)}`{declared}` is "
                      f"{rule}")

    def test_not_declared(self):
        self.told(5, "shared Page. row. start [Pages]",
                  "`Pages` is not declared; a name in an expression or before "
                  "`:=` is declared after `shared` or `row`.")

    def test_reserved_in_another_case(self):
        lists = "shared a. row x. "
        operand = "a name, `0`, `1`, `not` or `(`"
        for text, word, due in (
                ("[Shared] a.", "shared", "`shared`"),
                ("shared [IF].", "if", "a name or `.`"),
                ("shared a [ROW]", "row", "a name or `.`"),
                (f"{lists}start [NOT] a", "not", operand),
                (f"{lists}start a [And] a", "and", "`and`, `or` or `each`"),
                (f"{lists}{REST}[Command] c", "command", "`command`"),
                (f"{lists}{REST}command [Do] if", "do", "a name"),
                (f"{lists}{DO}[sKip]", "skip", "`skip`, a name or `for`"),
                (f"{lists}{DO}for 1 do skip else skip [eNd]", "end",
                 "`;` or `end`"),
                (f"{lists}{DO}skip else skip. [Command]", "command",
                 "`command` or the end of the text")):
            spelt = text[text.index("[") + 1:text.index("]")]
            self.told(3, text, f"`{spelt}` can stand nowhere: the reserved "
                      f"word `{word}` is written in small letters, and is no "
                      f"name however it is spelt. What may stand here: {due}.")

    def test_reserved_in_small_letters(self):
        """Of a reserved word itself nothing is said but what may stand."""
        self.told(3, "shared a. row [end].",
                  "What may stand here: a name or `.`.")


if __name__ == "__main__":
    unittest.main()
