"""Random sheets for a model: found by the search, walked at random, with a
fault in their contents, or with damaged bytes."""

from evidence.report import found_sheet
from evidence.searching import search
from evidence.sheets import header, map_sheet, record, trace_sheet


def found(rng, table):
    return found_sheet(table, search(table))


def some_map(rng, table):
    """Often close to a map that holds: one state more or less."""
    answer = search(table)
    kept = {state for state in range(table.states)
            if not table.breaks(state)}
    reached = kept if isinstance(answer, tuple) else set(answer)
    members = set(rng.choice([
        reached, reached, kept, range(table.states), (),
        [state for state in kept if rng.random() < 0.5]]))
    later = [state for state in members if not table.starts(state)]
    if later and rng.random() < 0.4:
        members.remove(rng.choice(later))
    elif rng.random() < 0.4:
        members ^= {rng.randrange(table.states)}
    return map_sheet(table, members)


def walk(rng, table):
    """A run from any state, or from a start state if there is one, with a
    wrong step now and then."""
    starts = [state for state in range(table.states) if table.starts(state)]
    if not starts or rng.random() < 0.1:
        starts = range(table.states)
    state = start = rng.choice(starts)
    steps = []
    for _ in range(rng.choice([0, 1, 2, 3, 10])):
        command = rng.randrange(table.commands)
        word = rng.randrange(table.words(command))
        state = table.step(state, command, word)
        if rng.random() < 0.15:
            state = rng.randrange(table.states)
        steps.append((command, word, state))
        if table.breaks(state) and rng.random() < 0.7:
            break
    return trace_sheet(table, start, steps)


def ranges(rng, table):
    """Numbers just beyond what the model has, in one of the records."""
    command = rng.randrange(table.commands)
    step = [command, table.words(command) - 1, table.states - 1]
    start = table.states - 1
    which = rng.randrange(4)
    if which == 3:
        start += 1
    else:
        step[which] += 1
        if which == 0:
            step[0] = table.commands
    if step[1] > 255:
        step[1] = 255
    return trace_sheet(table, start, [step] * rng.randint(1, 2))


def damaged(rng, table):
    return harmed(rng, rng.choice([found, some_map, walk])(rng, table))


def harmed(rng, sheet):
    """Cut, with more behind it, or with another bit."""
    sheet = bytearray(sheet)
    kind = rng.randrange(4)
    if kind == 0:
        return bytes(sheet[:rng.randrange(len(sheet))])
    if kind == 1:
        return bytes(sheet) + bytes(rng.randrange(256)
                                    for _ in range(rng.randint(1, 12)))
    if kind == 2:
        return bytes(sheet) + record(rng.randint(0, 5),
                                     bytes(rng.choice([0, 2, 3, 4])))
    sheet[rng.randrange(len(sheet))] ^= 1 << rng.randrange(8)
    return bytes(sheet)


def odd(rng, table):
    return rng.choice([
        b"", bytes(65537), bytes(65536), header(table),
        header(table) + header(table),
        trace_sheet(table, 0, [(0, 0, 0)] * 6551),
        trace_sheet(table, 0, [(0, 0, 0)] * 6552)])


def random_sheet(rng, table):
    way = rng.choice([found, some_map, some_map, some_map, walk, walk, walk,
                      ranges, damaged, damaged])
    return (odd if rng.random() < 0.02 else way)(rng, table)
