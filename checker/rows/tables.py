"""Tables of any number of rows, walked state by state.

Nothing here is taken from the numbers of one row: a state is a pair of the
shared bits and the rows, and a choice gives each star outside `for` one value
and each star inside one value for every row.
"""

from itertools import product

from reader.model import (Assignment, Chain, Constant, For, Not, Row, Shared,
                          Star)


def stars_in(tree):
    if isinstance(tree, Star):
        return {tree.index}
    if isinstance(tree, Not):
        return stars_in(tree.operand)
    if isinstance(tree, Chain):
        return set().union(*map(stars_in, tree.parts))
    return set()


def outer_stars(command):
    found = stars_in(command.test)
    for item in command.yes + command.no:
        if isinstance(item, Assignment):
            found |= stars_in(item.value)
    return sorted(found)


def truth(tree, stars, shared, row):
    if isinstance(tree, Constant):
        return bool(tree.value)
    if isinstance(tree, Star):
        return stars[tree.index]
    if isinstance(tree, Shared):
        return shared[tree.index]
    if isinstance(tree, Row):
        return row[tree.index]
    if isinstance(tree, Not):
        return not truth(tree.operand, stars, shared, row)
    parts = [truth(part, stars, shared, row) for part in tree.parts]
    return all(parts) if tree.operator == "and" else any(parts)


def put(bits, index, value):
    return bits[:index] + (value,) + bits[index + 1:]


def run_row(items, stars, shared, row):
    for item in items:
        if isinstance(item, Assignment):
            row = put(row, item.target.index,
                      truth(item.value, stars, shared, row))
    return row


def run(command, outer, inner, state):
    """The state after a command: `outer` has the values of the stars outside
    `for`, and `inner` has those inside, row by row."""
    shared, rows = state
    chosen = truth(command.test, outer, shared, ())
    for item in command.yes if chosen else command.no:
        if isinstance(item, Assignment):
            shared = put(shared, item.target.index,
                         truth(item.value, outer, shared, ()))
        elif isinstance(item, For):
            rows = tuple(
                run_row(item.yes if truth(item.condition, stars, shared, row)
                        else item.no, stars, shared, row)
                for stars, row in zip(inner, rows))
    return shared, rows


def choices(indexes):
    for values in product((False, True), repeat=len(indexes)):
        yield dict(zip(indexes, values))


def successors(model, state):
    for command in model.commands:
        outside = outer_stars(command)
        inside = [j for j in range(command.stars) if j not in outside]
        for outer in choices(outside):
            by_row = [list(choices(inside)) for _ in state[1]]
            for inner in product(*by_row):
                yield run(command, outer, inner, state)


def states(model, rows):
    bits = (False, True)
    for shared in product(bits, repeat=len(model.shared)):
        one = list(product(bits, repeat=len(model.row)))
        for table in product(one, repeat=rows):
            yield shared, table


def is_start(model, state):
    shared, rows = state
    return (truth(model.start.shared, {}, shared, ())
            and all(truth(model.start.row, {}, shared, row) for row in rows))


def can_start(model, rows):
    """Whether a table of so many rows has a start state."""
    return any(is_start(model, state) for state in states(model, rows))


def is_broken(model, state):
    shared, rows = state
    return (not truth(model.keep.shared, {}, shared, ())
            or any(not truth(model.keep.row, {}, shared, row)
                   for row in rows))


def reachable(model, rows):
    """Every state that a run over a table of so many rows leads to."""
    met = {state for state in states(model, rows) if is_start(model, state)}
    waiting = list(met)
    while waiting:
        for state in successors(model, waiting.pop()):
            if state not in met:
                met.add(state)
                waiting.append(state)
    return met


def walked(model, rows):
    """About how many steps a walk over so many rows takes."""
    choices = 0
    for command in model.commands:
        outer = len(outer_stars(command))
        choices += 1 << outer + rows * (command.stars - outer)
    return choices << len(model.shared) + rows * len(model.row)


def goes_wrong(model, rows):
    return any(is_broken(model, state) for state in reachable(model, rows))
