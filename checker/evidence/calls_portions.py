"""What the functions for a search in portions answer, in words, and what is
left then in what they were lent.

All that is handed over is taken to be as the call before left it, wherever it
stands now. What a call that finishes the search answers and leaves is that of
a search in one go: `search_leaves` in `calls.py`.
"""

from typing import NamedTuple

from evidence.acceptance import HOLDS, answer
from evidence.calls import TOO_SHORT, refused
from evidence.one_row import OneRow
from evidence.sheets import contents
from reader.model import Refusal
from reader.reading import read

OUT_OF_RANGE = Refusal(10, 0)


def position_said(pause):
    """Whether anything is left to expand, how many states are expanded and
    met, the trials, and whether the last state met breaks."""
    return (f"{'ended' if pause.ended() else 'paused'} {pause.expanded} "
            f"{len(pause.met)} {pause.trials}" + " broken" * pause.broken)


def tables_at(table, pause, first, second):
    """The first table begins with the states met. The second has, for each
    state of the model, 0 or one more than the state that led to it. All else
    is as it was."""
    queue = list(pause.met)
    leading = [pause.met[state] + 1 if state in pause.met else 0
               for state in range(table.states)]
    return queue + first[len(queue):], leading + second[table.states:]


def call_refused(table, first, second):
    """The Refusal of a call that is lent these tables, or None. A table of
    the model is due, or the text's Refusal."""
    if isinstance(table, Refusal):
        return table
    too_short = min(len(first), len(second)) < table.states
    return TOO_SHORT if too_short else None


def pause_leaves(table, pause, first, second):
    """After a call that opens the search or goes on with it, to this
    pause."""
    refusal = call_refused(table, first, second)
    if refusal is not None:
        return refused(refusal), first[:], second[:]
    return position_said(pause), *tables_at(table, pause, first, second)


def met_said(table, pause, state, first, second):
    refusal = call_refused(table, first, second)
    if refusal is None and state >= table.states:
        refusal = OUT_OF_RANGE
    if refusal is not None:
        return refused(refusal)
    return yes_or_no(state in pause.met)


class Passing(NamedTuple):
    """A map that passes: the states of its model, and its members."""

    states: int
    members: frozenset


def passing(text, sheet):
    """A Passing, or the test's answer where the sheet is no such map."""
    return where_said(answer(text, sheet), text, sheet)


def where_said(said, text, sheet):
    """The same where the test has said this of the sheet."""
    if said not in (HOLDS["safe"], HOLDS["void"]):
        return said
    table = OneRow(read(text))
    return Passing(table.states, contents(sheet, table).members)


def reached_said(due, state):
    """A Passing is due, or what the test says."""
    if not isinstance(due, Passing):
        return due
    if state >= due.states:
        return refused(OUT_OF_RANGE)
    return yes_or_no(state in due.members)


def yes_or_no(holds):
    return "yes" if holds else "no"
