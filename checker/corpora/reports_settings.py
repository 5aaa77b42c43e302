"""Safe models by how many states they have at each setting of the shared
names."""

import random

from corpora.pairs_models import exactly
from corpora.reports_runs import counter, names_of
from inputs.cases import H
from inputs.graphs import any_of
from inputs.phrases import SKIPPING, command, loop, model
from inputs.random_settings import spread_text

SPREAD_MODELS = 60
MOST_STEPS = 3000


def resting(shared, row, here, commands=(SKIPPING,)):
    """The states where an expression holds start, and nothing changes; all
    others break."""
    shared, row = names_of(shared, row)
    return model(" ".join(shared), " ".join(row), ("1", here), ("1", here),
                 commands)


def these(shared, row, states, commands=(SKIPPING,)):
    names = sum(names_of(shared, row), [])
    return resting(shared, row, any_of(exactly(names, state) or "1"
                                       for state in states), commands)


def below(names, count):
    """True where the number of these bits is below the count."""
    if count == 1 << len(names):
        return "1"
    said = "0"
    for j, name in enumerate(names):
        said = (f"not {name} or ({said})" if count >> j & 1
                else f"not {name} and ({said})")
    return said


def first_rows(shared, row, counts):
    """At each of these settings as many rows as are to be counted."""
    low, high = names_of(shared, row)
    return resting(shared, row, any_of(
        f"{exactly(low, setting)} and ({below(high, count)})"
        for setting, count in counts.items()))


# What is shown, shared names, row names, states, how many at each setting.
PLACED = (
    ("one setting, the lower", 1, 2, (0, 4), {0: 2}),
    ("one setting, the higher", 1, 2, (1, 3, 7), {1: 3}),
    ("both settings of one name, unequal", 1, 2, (0, 3, 5, 7), {0: 1, 1: 3}),
    ("all settings of two names", 2, 1, (0, 1, 2, 3, 5, 7),
     {0: 1, 1: 2, 2: 1, 3: 2}),
    ("none at the settings between", 2, 2, (0, 8, 3), {0: 2, 3: 1}),
    ("none at the lowest and the highest", 2, 2, (1, 6, 14), {1: 1, 2: 2}),
    ("one at every other setting", 3, 1, (1, 9, 3, 13, 15),
     {1: 2, 3: 1, 5: 1, 7: 1}),
    ("no shared names, some states", 0, 3, (0, 3, 6), {0: 3}),
    ("no shared names, one state", 0, 3, (5,), {0: 1}),
    ("no row names", 3, 0, (1, 2, 6), {1: 1, 2: 1, 6: 1}),
    ("no row names, all settings", 2, 0, range(4), {0: 1, 1: 1, 2: 1, 3: 1}),
    ("no names", 0, 0, (0,), {0: 1}),
    ("one setting, though the rows differ", 2, 2, (1, 5, 9, 13), {1: 4}),
    ("all settings, though the rows are alike", 2, 2, (8, 9, 10, 11),
     {0: 1, 1: 1, 2: 1, 3: 1}),
    ("more rows than settings", 1, 3, (0, 2, 4, 9), {0: 3, 1: 1}),
    ("more settings than rows", 3, 1, (2, 3, 11, 14), {2: 1, 3: 2, 6: 1}),
    ("the first shared name is the lowest bit", 3, 1, (1, 9, 4), {1: 2, 4: 1}),
    ("settings that the other order would exchange", 3, 0, (1, 3),
     {1: 1, 3: 1}),
    ("two states, one in the map", 1, 0, (1,), {1: 1}),
    ("two states, both in the map", 1, 0, (0, 1), {0: 1, 1: 1}),
    ("two states of a row", 0, 1, (0, 1), {0: 2}),
    ("four states, three in the map", 1, 1, (0, 1, 3), {0: 1, 1: 2}),
    ("four states, all in the map", 1, 1, range(4), {0: 2, 1: 2}),
    ("four states of a row", 0, 2, (1, 2, 3), {0: 3}),
    ("a whole byte", 1, 2, range(8), {0: 4, 1: 4}),
    ("the edges of two bytes", 2, 2, (0, 7, 8, 15), {0: 2, 3: 2}),
    ("the last byte alone", 4, 2, (56, 63), {8: 1, 15: 1}),
    ("each byte has one", 3, 3, (0, 9, 18, 27, 36, 45, 54, 63),
     {0: 1, 1: 1, 2: 1, 3: 1, 4: 1, 5: 1, 6: 1, 7: 1}),
    ("one in many bytes, at one setting", 2, 4, (2, 10, 18, 34, 58), {2: 5}),
)

# What is shown, shared names, row names, how many at each setting.
COUNTED = (
    ("counts of one and two digits", 2, 4, {0: 9, 1: 10, 3: 16}),
    ("counts of two and three digits", 2, 8, {0: 99, 1: 100, 2: 101}),
    ("counts of three and four digits", 2, 10, {0: 999, 1: 1000, 3: 1024}),
    ("counts of one to four digits", 2, 10, {0: 1, 1: 16, 2: 256, 3: 1024}),
    ("counts around that of a byte's values", 2, 9, {0: 255, 1: 256, 2: 257}),
    ("a total of 255 states", 1, 8, {0: 127, 1: 128}),
    ("a total of 256 states", 1, 8, {0: 129, 1: 127}),
    ("a total of 999 states", 1, 9, {0: 487, 1: 512}),
    ("a total of 1000 states", 1, 9, {0: 511, 1: 489}),
    ("settings of one and two digits", 4, 3, {2: 1, 9: 5, 10: 3, 11: 8}),
    ("settings of one, two and three digits", 8, 4,
     {0: 1, 9: 2, 10: 3, 99: 10, 100: 11, 101: 1, 254: 15, 255: 16}),
    ("settings that words would order otherwise", 8, 0,
     {2: 1, 11: 1, 19: 1, 100: 1, 200: 1}),
)


def placed():
    for detail, shared, row, states, _ in PLACED:
        yield f"{detail} -> safe", these(shared, row, states)


def counted():
    for detail, shared, row, counts in COUNTED:
        yield f"{detail} -> safe", first_rows(shared, row, counts)


def every_setting():
    """A counter goes through all states."""
    for shared, row in ((3, 4), (8, 0), (0, 10), (1, 10), (2, 10), (7, 5),
                        (8, 3)):
        yield f"{shared} and {row} bits -> safe", counter(shared, row)


def every_byte():
    """Byte j of the map is the number j: its bit i, state 8 * j + i, is that
    of the number."""
    for shared, row in ((1, 10), (3, 8), (5, 6), (8, 3)):
        names = sum(names_of(shared, row), [])
        here = any_of(f"{exactly(names[:3], i)} and {names[3 + i]}"
                      for i in range(8))
        yield f"{shared} and {row} names -> safe", resting(shared, row, here)


def other_names():
    """H with more names: one that no command changes, before the first and
    behind it, and one that a command does."""
    for names in ("k m", "m k"):
        more = H.replace("shared m", f"shared {names}")
        yield f"{names}, k at first as it likes -> safe", more
        for start in ("k", "not k"):
            yield (f"{names}, at first {start} -> safe",
                   more.replace("start m", f"start m and {start}"))
        turned = command("turn", "1", f"k := *; {loop(yes='x := 0')}")
        yield (f"{names}, k is turned -> safe",
               more.replace("start m", "start m and k") + " " + turned)
    yield "no shared name -> safe", (
        H.replace("shared m", "shared").replace("start m", "start 1")
        .replace("if m", "if 1"))


def spread():
    rng = random.Random(51)
    for number in range(SPREAD_MODELS):
        yield f"{number} -> safe", spread_text(rng, MOST_STEPS)


GROUPS = (placed, counted, every_setting, every_byte, other_names, spread)
