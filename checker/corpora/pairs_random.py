"""Random models with the sheets that their search finds, and sheets that
differ from those by one change."""

import random

from evidence.acceptance import HOLDS
from evidence.report import found_sheet, verdict
from evidence.searching import search
from evidence.sheets import map_sheet, trace_sheet
from inputs.cases import table_of
from inputs.random_models import Writer
from inputs.random_texts import spelled
from inputs.small_models import small_text

SMALL_MODELS = 90
LARGER_MODELS = 40
MOST_STEPS = 6000


def wandering(rng, table):
    """A run of a few steps, mostly from a start state if there is one."""
    starts = [state for state in range(table.states) if table.starts(state)]
    if not starts or rng.random() < 0.1:
        starts = range(table.states)
    start = state = rng.choice(starts)
    steps = []
    for _ in range(rng.randint(0, 6)):
        command = rng.randrange(table.commands)
        word = rng.randrange(table.words(command))
        state = table.step(state, command, word)
        steps.append((command, word, state))
    return trace_sheet(table, start, steps)


def any_map(rng, table):
    """The start states and some of the others, fewer where they break."""
    share = rng.choice((0.3, 0.6, 1))
    return map_sheet(table, [
        state for state in range(table.states) if table.starts(state)
        or rng.random() < (0.03 if table.breaks(state) else share)])


def bit_flipped(rng, sheet):
    place = rng.randrange(len(sheet))
    return (sheet[:place] + bytes([sheet[place] ^ 1 << rng.randrange(8)])
            + sheet[place + 1:])


def byte_changed(rng, sheet):
    place = rng.randrange(len(sheet))
    return sheet[:place] + bytes([rng.randrange(256)]) + sheet[place + 1:]


def payload_changed(rng, sheet):
    """A low bit of a map, a start state or a step is another."""
    place = rng.choice([at for at in range(15, len(sheet))
                        if at < 17 or (at - 17) % 10 >= 6])
    return (sheet[:place] + bytes([sheet[place] ^ 1 << rng.randrange(2)])
            + sheet[place + 1:])


def cut(rng, sheet):
    return sheet[:rng.randrange(len(sheet))]


def extended(rng, sheet):
    return sheet + bytes(rng.randrange(256) for _ in range(rng.randint(1, 12)))


def last_record_again(rng, sheet):
    return sheet + sheet[-10:]


def last_record_gone(rng, sheet):
    return sheet[:-10]


CHANGES = (bit_flipped, byte_changed, cut, extended, last_record_again,
           last_record_gone) + (payload_changed,) * 6


def sheets_of(rng, number, text):
    """A model's sheets: the one found, two of another making, changed ones."""
    table = table_of(text)
    found = search(table)
    kind = "trace" if isinstance(found, tuple) else "map"
    whole = found_sheet(table, found)
    meant = HOLDS[verdict(table, found)]
    walk = wandering(rng, table)
    yield f"{number}, {kind} found -> {meant}", text, whole
    yield f"{number}, any map", text, any_map(rng, table)
    yield f"{number}, wandering", text, walk
    for source, sheet in ((kind, whole), ("wandering", walk)):
        for turn in (1, 2):
            change = rng.choice(CHANGES)
            yield (f"{number}, {source}, {change.__name__} {turn}",
                   text, change(rng, sheet))


def small_random():
    rng = random.Random(2024)
    for number in range(SMALL_MODELS):
        yield from sheets_of(rng, number, small_text(rng))


def larger_random():
    """Models of up to eight names; those with too many steps are left out,
    which would take this checker long."""
    rng = random.Random(2025)
    number = 0
    while number < LARGER_MODELS:
        text = spelled(rng, Writer(rng).tokens(), "tight")
        table = table_of(text)
        words = sum(map(table.words, range(table.commands)))
        if table.names < 3 or table.states * words > MOST_STEPS:
            continue
        yield from sheets_of(rng, number, text)
        number += 1


GROUPS = (small_random, larger_random)
