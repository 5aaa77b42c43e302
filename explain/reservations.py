"""What a search takes at most: the trials that the reserve program tells, and
the time that they take at the speed that was measured."""

import re
from dataclasses import dataclass

import speed

NUMBER = rb"([1-9][0-9]*)"
LINES = re.compile(rb"entries %b\nbytes %b\ntrials %b\n" % ((NUMBER,) * 3))


class Unreserved(Exception):
    """What the reserve program wrote is no reservation of this text."""


@dataclass(frozen=True)
class Search:
    """What a search takes at most."""

    trials: int
    nanoseconds: int


def search_of(said, model):
    """From the reservation in its bytes. The time is reckoned from the stars
    that are found in the text, so they have to give the same trials."""
    lines = LINES.fullmatch(said)
    if lines is None:
        raise Unreserved
    entries, size, trials = map(int, lines.groups())
    words = [1 << len(command.stars) for command in model.commands]
    due = 1 << len(model.names), 7 + 10 * entries, entries * sum(words)
    if (entries, size, trials) != due:
        raise Unreserved
    return Search(trials,
                  entries * batches(words) * speed.BATCH_NANOSECONDS)


def batches(words):
    """How often commands are run from one state, where each has so many
    choice words."""
    return sum(rounded_up(count, speed.BATCH_WORDS) for count in words)


def rounded_up(number, divisor):
    """The least whole number that is not below a quotient."""
    return (number + divisor - 1) // divisor
