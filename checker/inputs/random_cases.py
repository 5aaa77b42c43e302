"""Texts in which the case of letters is changed at random."""

import re

from reader.tokens import RESERVED

WORD = re.compile(rb"[A-Za-z0-9_]+")
LETTER = re.compile(rb"[A-Za-z]")


def is_reserved(word):
    """In whatever case."""
    return word.lower().decode() in RESERVED


def recased(rng, word):
    """Of some words no letter is changed, of some all are."""
    share = rng.choice((0, 0.2, 0.5, 1))
    return LETTER.sub(lambda letter: letter.group().swapcase()
                      if rng.random() < share else letter.group(), word)


def otherwise(rng, word):
    """A word that has a letter, with one changed at the least."""
    while True:
        found = recased(rng, word)
        if found != word:
            return found


def names_recased(rng, text):
    """What the text says, and where it is refused, stays as it is."""
    return WORD.sub(lambda word: word.group() if is_reserved(word.group())
                    else recased(rng, word.group()), text)


def reserved_recased(rng, text):
    """Some reserved words are no longer in small letters: the text, and the
    place of the first of them, or None where the text has no such word."""
    found = [word for word in WORD.finditer(text)
             if word.group().decode() in RESERVED]
    if not found:
        return text, None
    chosen = rng.sample(found, min(len(found), rng.choice((1, 1, 2, 5))))
    changed = bytearray(text)
    for word in chosen:
        changed[word.start():word.end()] = otherwise(rng, word.group())
    return bytes(changed), min(word.start() for word in chosen)
