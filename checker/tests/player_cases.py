"""What tests of a player are made on: players, right and wrong, and the
corpus."""

from functools import cache

from comparing.entries import compare_player
from corpora import player
from tests import wrong_memories, wrong_moves, wrong_outcomes, wrong_records
from tests.player_program import Player
from tests.showing import by_group, programs_in, shows

# Each of these is shown up by the corpus.
PLAYERS = programs_in((wrong_moves, wrong_records, wrong_outcomes), Player)
# These go wrong only where a walk goes from one text or sheet to another.
KEEPING = programs_in((wrong_memories,), Player)
# These have parts to be exchanged, and are right.
RIGHT = {"Player", "Leaving"}


@cache
def entries():
    return player.corpus()


@cache
def groups():
    """Entries of the corpus by their groups."""
    return by_group((compare_player, entries()))


def is_shown(program, group):
    return shows(groups()[group], program)
