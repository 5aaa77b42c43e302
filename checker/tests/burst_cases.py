"""What tests of steps, bursts and counts are made on: programs, right and
wrong, and the corpus."""

from functools import cache

from comparing.entries import compare_bursts
from corpora import bursts
from tests import (wrong_entries, wrong_lists, wrong_numbers, wrong_outcomes,
                   wrong_sheets, wrong_stretches)
from tests.burst_program import Bursts
from tests.showing import by_group, programs_in, shows

# Players that are wrong about sheets: programs for bursts may be wrong about
# them in the same ways.
MISJUDGING = """
    VoidIsSafe MapsAreTen FirstStepTested LastStepUntested StepsUntested
    StartUntested EndUntested ShortestAlone AtMost4095Steps NamesInOneCase
    PlaceForgotten SheetBeforeText SheetRefusedAsText
"""


class Misjudging(Bursts):
    """Has what it says of a sheet from a player."""

    player = None

    def outcome(self, text, sheet):
        return self.player().outcome(text, sheet)


def misjudging():
    """By the names of the players with `Bursts` before them."""
    for name in MISJUDGING.split():
        player = getattr(wrong_outcomes, name)
        yield f"Bursts{name}", type(name, (Misjudging,), {"player": player})


# Each of these is shown up by the corpus.
PROGRAMS = programs_in((wrong_stretches, wrong_lists, wrong_entries,
                        wrong_numbers, wrong_sheets), Bursts)
PROGRAMS |= dict(misjudging())
# These have parts to be exchanged, and are right.
RIGHT = {"Bursts", "FilledThough", "Lossy"}


@cache
def entries():
    return bursts.corpus()


@cache
def groups():
    """Entries of the corpus by their groups."""
    return by_group((compare_bursts, entries()))


def is_shown(program, group):
    return shows(groups()[group], program)
