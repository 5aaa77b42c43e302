"""The corpus of the acceptance test: labelled texts, each with a sheet.

A label is a group and a detail. Where it ends in an arrow, the answer line
meant follows.
"""

from corpora import pairs_cases
from corpora import pairs_maps
from corpora import pairs_random
from corpora import pairs_readings
from corpora import pairs_refused
from corpora import pairs_texts
from corpora import pairs_traces
from corpora import pairs_void
from inputs.feed import gathered

GROUPS = (pairs_texts.GROUPS + pairs_cases.GROUPS + pairs_refused.GROUPS
          + pairs_maps.GROUPS + pairs_traces.GROUPS + pairs_void.GROUPS
          + pairs_readings.GROUPS + pairs_random.GROUPS)


def corpus():
    """All (label, text, sheet)."""
    return gathered(GROUPS)
