"""The value of an expression without stars, in one state or in several at
once. A value is a number with a bit for each state; in one state it is 0 or
1."""

from functools import reduce
from operator import and_, or_


def value(tokens, values, every=1):
    """Splits at the operator that binds loosest, down to one token. The names
    have these values, and `every` has the bits of all states."""
    for operator, join in (("or", or_), ("and", and_)):
        sides = split(tokens, operator)
        if len(sides) > 1:
            return reduce(join, [value(side, values, every)
                                 for side in sides])
    first = tokens[0].word
    if first == "not":
        return every ^ value(tokens[1:], values, every)
    if first == "(":
        return value(tokens[1:-1], values, every)
    return {"0": 0, "1": every, **values}[first]


def split(tokens, operator):
    """Cuts at each such operator that no parenthesis holds."""
    sides, opened = [[]], 0
    for token in tokens:
        opened += (token.word == "(") - (token.word == ")")
        if not opened and token.word == operator:
            sides.append([])
        else:
            sides[-1].append(token)
    return sides


def used(tokens, values):
    """The names that the tokens have, in text order, with their values."""
    return {token.word: values[token.word] for token in tokens
            if token.word in values}


def in_all_states(names):
    """Each name's value in all states at once, and the bits of all states.
    The first name is the lowest bit of a state's number."""
    every = (1 << (1 << len(names))) - 1
    return {name: sum(1 << state for state in range(1 << len(names))
                      if state >> j & 1)
            for j, name in enumerate(names)}, every
