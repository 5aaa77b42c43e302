"""Searches in portions, each compared with the pauses that it should come to,
and at each pause with all that may be asked and refused there."""

from comparing.lending import like_states, noise, sheet_buffer
from comparing.portions import (Held, compare_finish, compare_met,
                                compare_open, compare_portion, in_range,
                                moved, out_of_range, shortened)

# Entries and bytes behind what is asked for.
LONGER = 3

# For texts that are refused: no position, positions, none of a search.
POSITIONS = 0, ord("p"), ord("e"), (1 << 64) - 1
NO_BUFFERS = 0, 0, 0
LARGE_BUFFERS = 4096, 4096, 40967


def compare_walk(rng, library, case, portions, pauses, differences):
    """The search is opened, and goes on by these portions. It is not followed
    beyond a call that differs."""
    before = differences.count
    held = compare_opening(rng, library, case, pauses[0], differences)
    for states, pause in zip(portions, pauses[1:]):
        if differences.count > before:
            return
        compare_pause(rng, library, case, held, differences)
        compare_refused_portions(library, case, held, states, differences)
        for copy in (moved(rng, case.table, held),
                     moved(rng, case.table, held, LONGER)):
            compare_portion(library, case, copy, states, pause, differences)
        held = compare_portion(library, case, held, states, pause,
                               differences)
    if differences.count == before:
        compare_pause(rng, library, case, held, differences)


def compare_opening(rng, library, case, pause, differences):
    """Too few entries, more than enough, and just enough; what is held after
    the last."""
    states = case.table.states
    for given in ((states - 1, states), (states, states - 1),
                  (states + LONGER, states - 1), (states - 1, states - 1),
                  (states + LONGER, states), (states, states + LONGER)):
        tables = [like_states(rng, count, states) for count in given]
        compare_open(library, case, pause, *tables, differences)
    return compare_open(library, case, pause,
                        like_states(rng, states, states),
                        like_states(rng, states, states), differences)


def compare_pause(rng, library, case, held, differences):
    """Questions, and the search finished from here; both also refused. After
    a refusal the same is taken up again."""
    table = case.table
    outside = out_of_range(table, held.pause)
    asked = in_range(rng, table, held.pause) + outside
    compare_met(library, case, held, asked, differences)
    elsewhere = moved(rng, table, held, LONGER)
    compare_met(library, case, elsewhere, asked, differences)
    size = case.due.reservation.bytes
    for short in shortened(table, held):
        compare_met(library, case, short, [0, *outside], differences)
        compare_finish(library, case, short, sheet_buffer(rng, size),
                       differences)
    for given in (0, size - 1, size):
        compare_finish(library, case, held, sheet_buffer(rng, given),
                       differences)
    compare_finish(library, case, elsewhere,
                   sheet_buffer(rng, size + LONGER), differences)


def compare_refused_portions(library, case, held, states, differences):
    for short in shortened(case.table, held):
        for count in (0, states):
            compare_portion(library, case, short, count, held.pause,
                            differences)


def compare_refused_text(rng, library, case, differences):
    """All functions say the text's refusal, whatever else they are handed."""
    for given in (NO_BUFFERS, LARGE_BUFFERS):
        first, second, sheet = noise(rng, given)
        compare_open(library, case, None, first, second, differences)
        for position in POSITIONS:
            held = Held(position, None, first, second)
            for states in (0, 1, (1 << 64) - 1):
                compare_portion(library, case, held, states, None,
                                differences)
            compare_met(library, case, held, (0, 4096, (1 << 64) - 1),
                        differences)
            compare_finish(library, case, held, sheet, differences)
