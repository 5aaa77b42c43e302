"""The first breaking run of a table of one row, or its reachable states.

All states that runs lead to are gathered first, in any order. How many steps
each of them is from a break is then counted backwards, from the breaks on.
With those counts the first run is written down from its start: of the states
and steps that lose no time, the first in the order of runs is always taken.
"""


def search(table):
    """The start state and steps of the run that comes first, or the set of
    states that runs lead to, which is empty where nothing starts."""
    starts = [state for state in range(table.states) if table.starts(state)]
    befores = gathered(table, starts)
    left = steps_left(table, befores)
    nearest = min((left[state] for state in starts if state in left),
                  default=None)
    if nearest is None:
        return set(befores)
    start = next(state for state in starts if left.get(state) == nearest)
    return start, tuple(shortest(table, start, left))


def gathered(table, starts):
    """For each state that a run leads to the states one step before it. What
    comes after a break is left out: no first run goes on from there."""
    befores = {state: set() for state in starts}
    waiting = list(starts)
    while waiting:
        state = waiting.pop()
        if table.breaks(state):
            continue
        for after in {after for _, _, after in table.steps_from(state)}:
            if after not in befores:
                befores[after] = set()
                waiting.append(after)
            befores[after].add(state)
    return befores


def steps_left(table, befores):
    """The least number of steps to a break, of each state that has one
    ahead."""
    left = {}
    layer = {state for state in befores if table.breaks(state)}
    count = 0
    while layer:
        left |= dict.fromkeys(layer, count)
        layer = {before for state in layer for before in befores[state]
                 if before not in left}
        count += 1
    return left


def shortest(table, state, left):
    while left[state]:
        step = next(step for step in table.steps_from(state)
                    if left.get(step[2]) == left[state] - 1)
        yield step
        state = step[2]
