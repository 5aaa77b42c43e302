"""The corpus of a player's walks: labelled texts, each with a sheet, what the
record holds at first, and the calls. `player_labels.py` tells what a label
says."""

from corpora import player_foreign
from corpora import player_outcomes
from corpora import player_walks
from inputs.feed import gathered

GROUPS = (player_walks.GROUPS + player_foreign.GROUPS
          + player_outcomes.GROUPS)


def corpus():
    """All (label, text, sheet, entries, calls)."""
    return gathered(GROUPS)
