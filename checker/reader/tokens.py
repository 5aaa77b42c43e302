"""Cuts a text into tokens, each with its place, length and kind.

A reserved word, a constant or a mark is its own kind. Cutting never fails:
what the notation cannot hold becomes a token of kind BAD, and the text's end
is a token too, so that a fault always has a token to stand at.
"""

import re
import string
from dataclasses import dataclass

RESERVED = ("shared", "row", "start", "keep", "each", "command", "if", "do",
            "else", "for", "end", "skip", "and", "or", "not")
LONGEST_WORD = 16

NAME = "name"
BAD = "bad byte or long word"
MISFIT = "word that can stand nowhere"
TEXT_END = "end of text"

# Alternatives are tried in turn: := must come before : alone.
CUT = re.compile(rb"(?P<blank>[ \n]+)"
                 rb"|(?P<word>[A-Za-z0-9_]+)"
                 rb"|(?P<mark>:=|[.;:=()*])"
                 rb"|(?P<other>[\x00-\xff])")

# Only these letters have two cases, and every other byte is itself alone.
IN_SMALL = str.maketrans(string.ascii_uppercase, string.ascii_lowercase)


@dataclass(frozen=True)
class Token:
    """The word as the text spells it, and in small letters: names are the
    same where these are."""

    place: int
    length: int
    kind: str
    word: str
    small: str


def in_small(word):
    return word.translate(IN_SMALL)


def word_kind(word):
    if len(word) > LONGEST_WORD:
        return BAD
    if word in RESERVED or word in ("0", "1"):
        return word
    if in_small(word) in RESERVED or word[0] not in string.ascii_letters:
        return MISFIT
    return NAME


def cut(text):
    tokens = []
    for match in CUT.finditer(text):
        word = match.group().decode("latin-1")
        if match.lastgroup == "blank":
            continue
        if match.lastgroup == "word":
            kind = word_kind(word)
        elif match.lastgroup == "mark":
            kind = word
        else:
            kind = BAD
        tokens.append(Token(match.start(), len(word), kind, word,
                            in_small(word)))
    tokens.append(Token(len(text), 0, TEXT_END, "", ""))
    return tokens
