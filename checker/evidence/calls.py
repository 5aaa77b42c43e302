"""What the functions for C answer, in words, and what is left then in what
they were lent."""

from typing import NamedTuple

from evidence.one_row import OneRow
from evidence.report import searched_in
from evidence.reservations import Reservation, reservation
from evidence.trials import returned
from reader.model import Refusal
from reader.reading import read

TOO_SHORT = Refusal(8, 0)


class Found(NamedTuple):
    """All that a search tells of a model, and what it is to be lent."""

    reservation: Reservation
    verdict: str
    sheet: bytes
    trials: int


def found_in(text):
    """A Found, or the text's Refusal."""
    model = read(text)
    if isinstance(model, Refusal):
        return model
    table = OneRow(model)
    return Found(reservation(table), *searched_in(table), returned(table))


def refused(refusal):
    return f"refused {refusal.number} {refusal.place}"


def reserve_leaves(due, memory, count):
    """After a call that is lent the first entries of a memory, so many. A
    Reservation is due, or the text's Refusal."""
    if isinstance(due, Refusal):
        return refused(due), memory[:]
    if count < len(due):
        return refused(TOO_SHORT), memory[:]
    return "reserved 0", [*due, *memory[len(due):]]


def search_leaves(due, first, second, buffer):
    """After a call that is lent two tables and a buffer. A Found is due, or
    the text's Refusal."""
    untouched = first[:], second[:], buffer[:]
    if isinstance(due, Refusal):
        return refused(due), *untouched
    entries, size, _ = due.reservation
    if min(len(first), len(second)) < entries or len(buffer) < size:
        return refused(TOO_SHORT), *untouched
    return (f"{due.verdict} {len(due.sheet)} {due.trials}",
            [0] * entries + first[entries:], [0] * entries + second[entries:],
            bytearray(due.sheet) + buffer[len(due.sheet):])
