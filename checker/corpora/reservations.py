"""The corpus of reservations: labelled texts.

A label is a group and a detail. Behind an arrow follow the entries of one
table, the bytes of the sheet buffer and the most trials, all worked out by
hand, then the verdict, of a safe model with the trials of its search; or the
refusal.
"""

from typing import NamedTuple

from corpora import reservations_searches
from corpora import reservations_stars
from corpora import reservations_texts
from evidence.calls import Found
from evidence.one_row import OneRow
from evidence.report import found_sheet
from evidence.reservations import Reservation
from evidence.searching import search
from evidence.sheets import map_sheet
from inputs.feed import gathered
from reader.model import Refusal
from reader.reading import read

GROUPS = (reservations_texts.GROUPS + reservations_stars.GROUPS
          + reservations_searches.GROUPS)


class Meant(NamedTuple):
    reservation: Reservation
    verdict: str
    trials: int


def meant_by(label):
    """The Meant or the Refusal that a label says."""
    _, _, meant = label.rpartition(" -> ")
    if meant.startswith("refused "):
        return Refusal(*map(int, meant.split(" ")[1:]))
    numbers, said = meant.split(", ")
    verdict, *trials = said.split(" ")
    # Only a safe search returns trials, and it makes some.
    assert bool(trials) == (verdict == "safe"), label
    return Meant(Reservation(*map(int, numbers.split(" "))), verdict,
                 int(*trials))


def sheet_meant(text, meant):
    """Where no trial is spared every state is in the map, and there is no
    need to search, which may take minutes."""
    table = OneRow(read(text))
    if meant.trials == meant.reservation.trials:
        return map_sheet(table, range(table.states))
    return found_sheet(table, search(table))


def due(label, text):
    """What a label says, with the sheet that belongs to it, as a Found; or
    the Refusal."""
    meant = meant_by(label)
    if isinstance(meant, Refusal):
        return meant
    return Found(meant.reservation, meant.verdict, sheet_meant(text, meant),
                 meant.trials)


def corpus():
    """All (label, bytes)."""
    return gathered(GROUPS)
