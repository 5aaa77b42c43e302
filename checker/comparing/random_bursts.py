"""Steps, bursts and counts of random traces, and of sheets that need not
pass."""

from comparing.bursts import compare_call
from comparing.random_pairs import Pair, random_pairs
from evidence.bursts import Listed, listed, listed_in
from inputs.random_bursts import bursting, some_numbers

CALLS = "steps", "counts", "counts", "burst", "burst", "burst", "burst"
CALLS_MADE = 14


def about(due):
    """How many steps and commands there are. Where no trace passes, any
    numbers will do."""
    return ((len(due.steps), due.commands) if isinstance(due, Listed)
            else (2, 1))


def compare_random_bursts(rng, library, text, differences):
    """Half of the calls are about a trace in which commands come in bursts,
    the others about the text's. It is not followed beyond a call that
    differs."""
    before = differences.count
    pairs = random_pairs(rng, text, listed_in)
    another, sheet = bursting(rng)
    free = Pair(another, sheet, listed(another, sheet))
    for _ in range(CALLS_MADE):
        here = free if rng.random() < 0.5 else rng.choice(pairs)
        call = rng.choice(CALLS)
        compare_call(rng, library, f"{here.sheet.hex()}: {here.text!r}",
                     here.text, here.sheet, here.due, call,
                     some_numbers(rng, call, *about(here.due)), differences)
        if differences.count > before:
            return
