"""Searches that are wrong in one way each: a corpus that does not tell them
from the right one is too weak."""

from collections import deque

from evidence.one_row import OneRow
from evidence.report import verdict
from evidence.searching import search
from tests.wrong_tables import (AllButLastState, FifteenCommands,
                                FirstStateAlone, PartsOfStartApart,
                                WordsBelow64)


class LastWordFirst(OneRow):
    """Tries choice words from the last down."""

    def steps_from(self, state):
        for command in range(self.commands):
            for word in reversed(range(self.words(command))):
                yield command, word, self.step(state, command, word)


class LastCommandFirst(OneRow):
    def steps_from(self, state):
        for command in reversed(range(self.commands)):
            for word in range(self.words(command)):
                yield command, word, self.step(state, command, word)


class WordBeforeCommand(OneRow):
    def steps_from(self, state):
        return iter(sorted(super().steps_from(state),
                           key=lambda step: (step[1], step[0])))


class ByStateAfter(OneRow):
    """Prefers the step to the lowest state."""

    def steps_from(self, state):
        return iter(sorted(super().steps_from(state),
                           key=lambda step: step[2]))


def by_runs(table, starts, deep=False, at_start=True):
    """Keeps a queue of runs, or a stack, and stops at the first break."""
    if at_start:
        for state in starts:
            if table.breaks(state):
                return state, ()
    waiting = deque((state, state, ()) for state in starts)
    met = set(starts)
    while waiting:
        state, start, steps = waiting.popleft()
        found = []
        for step in table.steps_from(state):
            after = step[2]
            if table.breaks(after):
                return start, steps + (step,)
            if after not in met:
                met.add(after)
                found.append((after, start, steps + (step,)))
        if deep:
            waiting.extendleft(reversed(found))
        else:
            waiting.extend(found)
    return met


def starts_of(table):
    return [state for state in range(table.states) if table.starts(state)]


def by_queue(table):
    """Not wrong: a queue of runs keeps to the order of runs."""
    return by_runs(table, starts_of(table))


def after_a_step(table):
    """Looks for a break only after a step."""
    return by_runs(table, starts_of(table), at_start=False)


def depth_first(table):
    return by_runs(table, starts_of(table), deep=True)


def last_start_first(table):
    return by_runs(table, starts_of(table)[::-1])


def first_start_only(table):
    return by_runs(table, starts_of(table)[:1])


def all_safe(table):
    found = search(table)
    return found if isinstance(found, set) else set()


def one_step_more(table):
    """Goes on for one step behind the break."""
    found = search(table)
    if isinstance(found, set):
        return found
    start, steps = found
    last = steps[-1][2] if steps else start
    return start, steps + (next(table.steps_from(last)),)


def never_void(table, found):
    """Takes a model in which nothing starts for a safe one."""
    return "unsafe" if isinstance(found, tuple) else "safe"


def void_where_nothing_moves(table, found):
    """Says void of a model whose steps lead nowhere."""
    still = isinstance(found, set) and all(map(table.starts, found))
    return "void" if still else verdict(table, found)


def void_where_starts_break(table, found):
    """Looks for a start state among those that are kept."""
    kept = any(table.starts(state) and not table.breaks(state)
               for state in range(table.states))
    return verdict(table, found) if kept else "void"
