"""Compares what is answered to questions about a sheet's map."""

from comparing.reservations import kind_of
from evidence.calls_portions import Passing, reached_said

MOST_ASKED = 64
OUTSIDE = 4096, 4097, 65535, 65536, 1 << 32, 1 << 63, (1 << 64) - 1


def states_asked(rng, due):
    """Numbers of states and of none, also some that would be if bits were
    lost. Where no map passes, any will do."""
    if not isinstance(due, Passing):
        return [0, 1, 7, *OUTSIDE]
    inside = range(due.states)
    if due.states > MOST_ASKED:
        members = sorted(due.members)
        inside = sorted({0, due.states - 1, *rng.sample(inside, MOST_ASKED),
                         *members[:2], *members[-2:]})
    like = min(due.members, default=0)
    return [*inside, due.states, due.states + like, 65536 + like,
            (1 << 32) + like, *OUTSIDE]


def compare_reached(rng, library, title, text, sheet, due, differences):
    """A Passing is due, or what the test says of the sheet."""
    asked = states_asked(rng, due)
    said = library.reached(text, sheet, asked)
    for state, answer in zip(asked, said):
        meant = reached_said(due, state)
        differences.met[f"reached: {kind_of(meant)}"] += 1
        differences.note(f"reached, {state}: {title}", meant, answer)
