"""A player that walks at random, among sheets that need not pass and with
records that need not fit."""

from comparing.lending import memory
from comparing.player import BEHIND, compare_call
from comparing.random_pairs import random_pairs
from evidence.calls_player import player_leaves, record_in, with_record
from evidence.player import Record, played_in
from inputs.random_player import other_record, some_calls

# How many entries are lent; a record has two.
LENT = 2, 2, 2, 2, 2, 3, 6, 0, 1


def compare_random_player(rng, library, text, differences):
    """Where a trace passes, most calls are made on it, with the record as the
    call before left it. It is not followed beyond a call that differs."""
    before = differences.count
    first, *others = random_pairs(rng, text, played_in)
    passing = first.passes()
    held = memory(rng, len(Record._fields) + BEHIND)
    for call in some_calls(rng, passing):
        here = first
        if others and rng.random() < (0.25 if passing else 0.8):
            here = rng.choice(others)
        if rng.random() < 0.15:
            held = with_record(other_record(rng, record_in(held), here.due),
                               held)
        count = rng.choice(LENT)
        expected = player_leaves(here.due, call, held, count)
        compare_call(library, f"{here.sheet.hex()}: {here.text!r}",
                     here.text, here.sheet, call, held, count, expected,
                     differences)
        if differences.count > before:
            return
        _, held = expected
