"""Sheets that are no trace that passes, with lists, counts, commands and
widths of which some would be refused too."""

from corpora.bursts_labels import burst, counting, listing
from corpora.not_passing import tested, worked

LARGEST = (1 << 64) - 1


def outcomes():
    """With all that a trace of a few steps asks for."""
    for detail, text, sheet, said in tested():
        pair = text, sheet
        yield listing(detail, pair, 12, said)
        yield burst(detail, pair, 12, 0, 1, said)
        yield counting(detail, pair, 12, 16, said)


def outcome_first():
    """Before too few places or entries, an unknown command and a width out of
    range, by themselves and together."""
    for detail, text, sheet, said in worked():
        pair = text, sheet
        for places in (0, 1, 2, 30):
            yield listing(detail, pair, places, said)
            for command, width in (
                    (0, 1), (0, 4095), (0, 0), (0, 4096), (0, LARGEST),
                    (1, 1), (16, 1), (256, 1), (LARGEST, 1), (1, 0),
                    (LARGEST, LARGEST)):
                yield burst(detail, pair, places, command, width, said)
            for entries in (0, 1, 15, 16, 20):
                yield counting(detail, pair, places, entries, said)


GROUPS = (outcomes, outcome_first)
