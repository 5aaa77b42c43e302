"""Cuts a text into tokens, each with its place."""

import re
from dataclasses import dataclass

LONGEST_WORD = 16
RESERVED = ("shared", "row", "start", "keep", "each", "command", "if", "do",
            "else", "for", "end", "skip", "and", "or", "not")
MARKS = (".", ";", ":=", "(", ")", "*")
NAME = "a name"

# A byte that is not allowed is a token by itself, as `:` and `=` alone are.
CUT = re.compile(rb"[A-Za-z0-9_]+|:=|[^ \n]")


@dataclass(frozen=True)
class Token:
    place: int
    word: str

    @property
    def end(self):
        return self.place + len(self.word)

    @property
    def is_word(self):
        return re.fullmatch("[A-Za-z0-9_]+", self.word) is not None

    @property
    def folded(self):
        """In small letters, which is all that tells names apart."""
        return self.word.lower()

    @property
    def is_reserved_in_another_case(self):
        return self.word not in RESERVED and self.folded in RESERVED

    @property
    def kind(self):
        """What the notation sees; nothing where it has no such token."""
        if self.word in RESERVED + MARKS + ("0", "1"):
            return self.word
        is_name = (self.is_word and self.word[0].isalpha()
                   and len(self.word) <= LONGEST_WORD
                   and self.folded not in RESERVED)
        return NAME if is_name else ""


def cut(text):
    return [Token(match.start(), match.group().decode("latin-1"))
            for match in CUT.finditer(text)]


def quoted(tokens, marks=None):
    """The tokens in one line, with a single space where the text has blanks,
    and behind those at the places marked what they are marked with."""
    said, end = "", None
    for token in tokens:
        gap = "" if end in (None, token.place) else " "
        said += gap + token.word + (marks or {}).get(token.place, "")
        end = token.end
    return said
