"""What a search is to be lent, and how many trials it makes at most, from the
model alone. A trial is a step that is tried: a state, a command and one of
its choice words."""

from typing import NamedTuple

from evidence.one_row import OneRow
from reader.model import Refusal
from reader.reading import read


class Reservation(NamedTuple):
    """The entries of one table, the bytes of the sheet buffer, the most
    trials."""

    entries: int
    bytes: int
    trials: int


def trials_at_a_state(table):
    return sum(map(table.words, range(table.commands)))


def most_trials(table):
    return table.states * trials_at_a_state(table)


def reservation(table):
    return Reservation(table.states, 7 + 10 * table.states,
                       most_trials(table))


def reserved(text):
    """The Reservation, or the text's Refusal."""
    model = read(text)
    return model if isinstance(model, Refusal) else reservation(OneRow(model))


def written(due):
    """What the program `reserve` writes of a Reservation or a Refusal."""
    if isinstance(due, Refusal):
        return f"refused {due.number} {due.place}\n"
    return "".join(f"{name} {number}\n"
                   for name, number in due._asdict().items())
