"""The corpus of searches in portions: labelled texts, each with the portions
by which its search goes on. `portions_labels.py` tells what a label says."""

from functools import cache

from corpora import portions_ends
from corpora import portions_texts
from corpora import portions_trials
from corpora import portions_walks
from corpora.portions_labels import meant_by
from corpora.reservations import Meant, sheet_meant
from evidence.calls import Found
from evidence.one_row import OneRow
from evidence.reservations import reservation
from inputs.feed import gathered
from reader.model import Refusal
from reader.reading import read

GROUPS = (portions_walks.GROUPS + portions_ends.GROUPS
          + portions_trials.GROUPS + portions_texts.GROUPS)


@cache
def searched(text, finish):
    """The table, and a Found that has what is said at the end."""
    table = OneRow(read(text))
    verdict, length, trials = finish.split(" ")
    meant = Meant(reservation(table), verdict, int(trials))
    sheet = sheet_meant(text, meant)
    assert len(sheet) == int(length), finish
    return table, Found(meant.reservation, verdict, sheet, meant.trials)


def due(label, text):
    """The table of a text's model, and what a label says of its search as a
    Found; or twice the Refusal."""
    meant = meant_by(label)
    if isinstance(meant, Refusal):
        return meant, meant
    return searched(text, meant.finish)


def corpus():
    """All (label, bytes, portions)."""
    return gathered(GROUPS)
