"""The corpus: labelled texts that meet each rule of the notation at its edges.

A label is a group and a detail. Where it ends in an arrow, the answer meant
follows: `model`, the number of a refusal, or the refusal with its place.
"""

from corpora import texts_cases
from corpora import texts_limits
from corpora import texts_names
from corpora import texts_notation
from corpora import texts_order
from corpora import texts_reserved
from corpora import texts_words
from inputs.feed import gathered

GROUPS = (texts_notation.GROUPS + texts_words.GROUPS + texts_names.GROUPS
          + texts_cases.GROUPS + texts_reserved.GROUPS + texts_limits.GROUPS
          + texts_order.GROUPS)


def corpus():
    """All (label, bytes)."""
    return gathered(GROUPS)
