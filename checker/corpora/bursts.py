"""The corpus of calls about the steps of a trace: labelled texts, each with a
sheet, the function, and the numbers that it is handed. `bursts_labels.py`
tells what a label says."""

from functools import cache

from corpora import (bursts_lists, bursts_long, bursts_numbers,
                     bursts_outcomes, bursts_widths)
from evidence.bursts import listed
from inputs.feed import gathered

GROUPS = (bursts_widths.GROUPS + bursts_long.GROUPS + bursts_lists.GROUPS
          + bursts_numbers.GROUPS + bursts_outcomes.GROUPS)


def corpus():
    """All (label, text, sheet, function, numbers). The first number is that
    of the places in the list. Behind it stand the command and the width of a
    burst, or the number of entries for counts."""
    return gathered(GROUPS)


@cache
def due(text, sheet):
    """A Listed, or what the test says."""
    return listed(text, sheet)
