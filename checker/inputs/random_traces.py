"""Random traces that pass, and other sheets to be met beside them."""

from evidence.reservations import most_trials
from evidence.searching import gathered, shortest, steps_left
from evidence.sheets import trace_sheet
from inputs.random_sheets import random_sheet, walk

MOST_TRIALS = 2000


def passing_traces(rng, table, count):
    """So many sheets of runs that break, none where no run does."""
    starts = [state for state in range(table.states) if table.starts(state)]
    left = steps_left(table, gathered(table, starts))
    starts = [state for state in starts if state in left]
    return [passing_trace(rng, table, rng.choice(starts), left)
            for _ in range(count if starts else 0)]


def passing_trace(rng, table, start, left):
    """Goes astray for a while, among states that have a break ahead."""
    state, steps = start, []
    for _ in range(rng.choice((0, 0, 1, 2, 3, 8, 20))):
        fitting = [step for step in table.steps_from(state)
                   if step[2] in left]
        if not fitting:
            break
        steps.append(rng.choice(fitting))
        state = steps[-1][2]
    return trace_sheet(table, start, [*steps, *shortest(table, state, left)])


def some_sheet(rng, table):
    """Of a wide table no map: to test one would take long."""
    return (walk if most_trials(table) > MOST_TRIALS
            else random_sheet)(rng, table)
