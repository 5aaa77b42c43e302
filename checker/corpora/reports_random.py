"""Random models, small ones and ones of up to eight names."""

import random

from evidence.reservations import most_trials
from inputs.cases import table_of
from inputs.random_models import Writer
from inputs.random_texts import spelled
from inputs.small_models import small_text

SMALL_MODELS = 80
LARGER_MODELS = 60
MOST_STEPS = 6000


def larger_text(rng, most):
    """A model with few enough steps for this checker."""
    while True:
        text = spelled(rng, Writer(rng).tokens(), "tight")
        table = table_of(text)
        if table.names >= 3 and most_trials(table) <= most:
            return text


def small_random():
    rng = random.Random(41)
    for number in range(SMALL_MODELS):
        yield f"{number}", small_text(rng)


def larger_random():
    rng = random.Random(42)
    for number in range(LARGER_MODELS):
        yield f"{number}", larger_text(rng, MOST_STEPS)


GROUPS = (small_random, larger_random)
