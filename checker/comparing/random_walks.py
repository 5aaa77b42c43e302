"""Searches in portions, taken up and left at random, compared with those that
the checker walks."""

from comparing.lending import like_states, sheet_buffer, words
from comparing.portions import (compare_finish, compare_met, compare_open,
                                compare_portion, in_range, moved,
                                out_of_range, shortened)
from comparing.walks import compare_refused_text
from evidence.portions import gone_on, opened
from inputs.random_portions import one_portion, some_portions
from reader.model import Refusal

LONGER = 0, 0, 1, 7, 300


def compare_random_walk(rng, library, case, differences):
    """It is not followed beyond a call that differs."""
    if isinstance(case.table, Refusal):
        compare_refused_text(rng, library, case, differences)
        return
    before = differences.count
    held = compare_random_open(rng, library, case, differences)
    for states in some_portions(rng):
        compare_random_pause(rng, library, case, held, differences)
        if differences.count > before:
            return
        if held.pause.ended() and rng.random() < 0.6:
            break
        if rng.random() < 0.5:
            held = moved(rng, case.table, held, rng.choice(LONGER))
        pause = gone_on(case.table, held.pause, states)
        held = compare_portion(library, case, held, states, pause,
                               differences)
    if differences.count == before:
        compare_random_pause(rng, library, case, held, differences)
        compare_finish(library, case, held, room(rng, case), differences)


def compare_random_open(rng, library, case, differences):
    """Now and then a table is too short at first."""
    states, pause = case.table.states, opened(case.table)
    lengths = [states + rng.choice(LONGER) for _ in range(2)]
    if rng.random() < 0.2:
        short = lengths[:]
        short[rng.randrange(2)] = rng.randrange(states)
        compare_open(library, case, pause,
                     *(words(rng, length) for length in short), differences)
    tables = [like_states(rng, length, states) for length in lengths]
    return compare_open(library, case, pause, *tables, differences)


def compare_random_pause(rng, library, case, held, differences):
    """Questions; then now and then refused calls, a portion from copies, and
    the search finished from copies."""
    table = case.table
    outside = rng.choice(out_of_range(table, held.pause))
    compare_met(library, case, held,
                in_range(rng, table, held.pause) + [outside], differences)
    if rng.random() < 0.2:
        short = rng.choice(shortened(table, held))
        compare_met(library, case, short, [0, outside], differences)
        compare_portion(library, case, short, one_portion(rng), held.pause,
                        differences)
        compare_finish(library, case, short, room(rng, case), differences)
    if rng.random() < 0.3:
        copy = moved(rng, table, held, rng.choice(LONGER))
        states = one_portion(rng)
        compare_portion(library, case, copy, states,
                        gone_on(table, held.pause, states), differences)
    if rng.random() < 0.3:
        copy = moved(rng, table, held, rng.choice(LONGER))
        compare_finish(library, case, copy, room(rng, case), differences)


def room(rng, case):
    """A sheet buffer that is mostly long enough."""
    size = case.due.reservation.bytes
    return sheet_buffer(rng, rng.choice(
        (size, size, size + 1, size + 300, size - 1, rng.randrange(size))))
