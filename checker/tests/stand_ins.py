"""Libraries made of this checker, to be compared as a built one is. Any part
of one may be exchanged for a wrong part."""

from dataclasses import dataclass
from functools import cache
from typing import Callable

from comparing.told import reserve_told, search_told
from evidence.calls import reserve_leaves, search_leaves
from evidence.one_row import OneRow
from evidence.reservations import reservation
from reader.model import Refusal
from reader.reading import read

LETTERS = {"safe": "s", "void": "v", "unsafe": "u"}
WIDTH = 64


@cache
def table_in(text):
    """The table of a text that says a model."""
    return OneRow(read(text))


def members(due):
    """How many the map of a Found has."""
    return sum(byte.bit_count() for byte in due.sheet[15:])


def trials_due(table, due):
    return due.trials


def packed(length, trials):
    """The rest of a search's answer."""
    return length + 65536 * trials


def number(letter, rest):
    return (ord(letter) + 256 * rest) % (1 << WIDTH)


@dataclass
class StandIn:
    """Knows what is due for each text, a Found or a Refusal."""

    known: dict
    reserves: Callable = reservation
    returns: Callable = trials_due
    packs: Callable = packed
    leaves_entries: Callable = reserve_leaves
    leaves_buffers: Callable = search_leaves

    def reserve(self, text, memory, count):
        due = self.known[text]
        if not isinstance(due, Refusal):
            due = self.reserves(table_in(text))
        said, memory[:] = self.leaves_entries(due, memory, count)
        letter, rest = said.split(" ", 1)
        return (said if letter == "refused"
                else reserve_told(number("r", int(rest))))

    def search(self, text, first, second, buffer):
        due = self.known[text]
        said, first[:], second[:], buffer[:] = self.leaves_buffers(
            due, first, second, buffer)
        verdict, length, *_ = said.split(" ")
        if verdict == "refused":
            return said
        trials = self.returns(table_in(text), due)
        return search_told(number(LETTERS[verdict],
                                  self.packs(int(length), trials)))
