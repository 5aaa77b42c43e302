"""Random models, small ones, larger ones and ones at a limit."""

import random

from inputs.random_values import at_random, larger_text
from inputs.small_models import small_text

SMALL_MODELS = 80
LARGER_MODELS = 160

# How many models at each limit; those of many nodes or items are long.
AT_LIMITS = {"shared": 12, "row": 12, "together": 15, "stars": 20,
             "depth": 15, "commands": 4, "items": 2, "nodes": 4}


def entry(rng, detail, text):
    data, state, word = at_random(rng, text.encode("latin-1"))
    return detail, data.decode("latin-1"), state, word


def small_values():
    rng = random.Random(71)
    for number in range(SMALL_MODELS):
        yield entry(rng, f"{number}", small_text(rng))


def larger_values():
    rng = random.Random(72)
    for number in range(LARGER_MODELS):
        yield entry(rng, f"{number}", larger_text(rng))


def values_at_limits():
    rng = random.Random(73)
    for aim, count in AT_LIMITS.items():
        for number in range(count):
            yield entry(rng, f"{aim} {number}", larger_text(rng, aim))


GROUPS = (small_values, larger_values, values_at_limits)
