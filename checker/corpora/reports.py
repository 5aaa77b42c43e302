"""The corpus of reports: labelled texts.

A label is a group and a detail. Where it ends in an arrow, the verdict meant
follows, or the refusal or its number.
"""

from corpora import reports_cases
from corpora import reports_order
from corpora import reports_random
from corpora import reports_runs
from corpora import reports_settings
from corpora import reports_texts
from corpora import reports_void
from inputs.feed import gathered

GROUPS = (reports_texts.GROUPS + reports_cases.GROUPS + reports_runs.GROUPS
          + reports_void.GROUPS + reports_settings.GROUPS
          + reports_order.GROUPS + reports_random.GROUPS)


def corpus():
    """All (label, bytes)."""
    return gathered(GROUPS)
