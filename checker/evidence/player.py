"""A player, which stands at one place of a trace that passes.

Place 0 is where the trace starts, and each of its steps leads to the next
place. A player has nothing but its record: the place, and the state there.
"""

from itertools import accumulate
from typing import NamedTuple

from evidence.traces import for_text, passing_in


class Record(NamedTuple):
    place: int
    state: int


def played(text, sheet):
    """The states of a trace that passes, place by place; or what the test
    says of any other sheet."""
    return for_text(played_in, text, sheet)


def played_in(table, sheet):
    """The same for the table of a text's model."""
    trace = passing_in(table, sheet)
    return (trace if isinstance(trace, str)
            else states_of(table, trace.start, trace.steps))


def states_of(table, start, steps):
    """Each is what a command makes of the one before. What the steps say of
    it themselves is left to the test."""
    return list(accumulate(
        steps, lambda state, step: table.step(state, *step[:2]),
        initial=start))


def standing(states, place):
    return Record(place, states[place])


def is_foreign(states, record):
    """Whether these states have no such place, or another state there."""
    return (record.place >= len(states)
            or standing(states, record.place) != record)


def forward(states, record):
    """The record then, or None at the last place."""
    place = record.place + 1
    return standing(states, place) if place < len(states) else None


def back(states, record):
    """The record then, or None at place 0."""
    return standing(states, record.place - 1) if record.place else None


def beginning(states, record):
    return standing(states, 0)


MOVES = {"forward": forward, "back": back, "beginning": beginning}
