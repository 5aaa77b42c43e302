"""The corpus of values: labelled texts, each with a state and a choice word.

A label is a group and a detail. Where it ends in an arrow, the passes of all
expressions follow, or the refusal or its number.
"""

from corpora import values_bits
from corpora import values_deep
from corpora import values_limits
from corpora import values_operators
from corpora import values_places
from corpora import values_random
from corpora import values_texts
from inputs.feed import gathered

GROUPS = (values_texts.GROUPS + values_places.GROUPS + values_bits.GROUPS
          + values_operators.GROUPS + values_deep.GROUPS
          + values_limits.GROUPS + values_random.GROUPS)


def corpus():
    """All (label, text, state, word)."""
    return gathered(GROUPS)
