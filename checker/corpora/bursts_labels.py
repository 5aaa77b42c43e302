"""Labels of calls about the steps of a trace: how they are written, and what
they say.

Most labels end in an arrow and the answer. Behind the answer may stand
`counts` and how often the first commands occur; the others do not occur. What
a label without an arrow leaves open is what the checker says.
"""

from typing import NamedTuple, Optional

from evidence.bursts import MOST_COMMANDS


class Meant(NamedTuple):
    """The answer, and the counts where they are written."""

    said: str
    counts: Optional[list]


def listing(detail, pair, places, said):
    """A corpus entry with its label. A pair is a text and a sheet."""
    return (f"{detail}, {places} places -> {said}", *pair, "steps",
            (places,))


def burst(detail, pair, places, command, width, said=None):
    arrow = "" if said is None else f" -> {said}"
    return (f"{detail}, {places} places, command {command}, width {width}"
            f"{arrow}", *pair, "burst", (places, command, width))


def counting(detail, pair, places, entries, said):
    return (f"{detail}, {places} places, {entries} counts -> {said}", *pair,
            "counts", (places, entries))


def too_few(detail, pair, places):
    """None of the three functions does with so few places."""
    said = "refused 8 0"
    yield listing(detail, pair, places, said)
    yield burst(detail, pair, places, 0, 1, said)
    yield counting(detail, pair, places, MOST_COMMANDS, said)


def meant_by(label):
    """A Meant, or None."""
    _, arrow, meant = label.rpartition(" -> ")
    if not arrow:
        return None
    said, _, numbers = meant.partition(", counts")
    counts = [int(number) for number in numbers.split()]
    if not counts:
        return Meant(said, None)
    return Meant(said, counts + [0] * (MOST_COMMANDS - len(counts)))


def is_meant(label, said, entries=()):
    """Whether a label leaves this open, or says it: the answer, and what the
    entries for counts hold then."""
    meant = meant_by(label)
    return meant is None or said == meant.said and (
        meant.counts is None or entries[:MOST_COMMANDS] == meant.counts)
