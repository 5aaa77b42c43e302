"""A search in portions, walked state by state.

A state is met where it starts, or where a step leads to it from one that is
being expanded. To expand a state is to try every command with every choice
word there; the states met wait for it in the order in which they were. The
search has ended when a state met breaks, or when none waits any more.
"""

from typing import NamedTuple


class Pause(NamedTuple):
    """How far a search has come. `met` has the states met, first come first,
    each with the state that led to it first; to a start state it is that
    state itself. Of these the first, so many, are expanded. The last may
    break."""

    met: dict
    expanded: int
    trials: int
    broken: bool

    def ended(self):
        return self.broken or self.expanded == len(self.met)


def opened(table):
    """The start states are met from the lowest up; at one that breaks this
    stops, and those behind it are not met."""
    met = {}
    for state in filter(table.starts, range(table.states)):
        met[state] = state
        if table.breaks(state):
            return Pause(met, 0, 0, True)
    return Pause(met, 0, 0, False)


def gone_on(table, pause, states):
    """So many states more are expanded, or as many as there are before the
    end."""
    while states and not pause.ended():
        pause = next_expanded(table, pause)
        states -= 1
    return pause


def next_expanded(table, pause):
    """The first that waits is expanded. A break leaves it unfinished, and
    then it does not count; the trial that led there does."""
    met, trials = dict(pause.met), pause.trials
    state = list(met)[pause.expanded]
    for _, _, after in table.steps_from(state):
        trials += 1
        if after in met:
            continue
        met[after] = state
        if table.breaks(after):
            return Pause(met, pause.expanded, trials, True)
    return Pause(met, pause.expanded + 1, trials, False)


def pauses(table, portions):
    """The pause after opening, and that after each portion."""
    found = [opened(table)]
    for states in portions:
        found.append(gone_on(table, found[-1], states))
    return found
