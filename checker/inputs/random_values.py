"""Random texts, each with a random state and choice word."""

import random

from inputs.random_cases import names_recased
from inputs.random_models import LIMITS, Writer
from inputs.random_texts import random_texts, spelled
from inputs.small_models import small_text
from reader.model import Refusal
from reader.reading import read

MOST_NAMES = 12
MOST_STARS = 8


def bits(rng, count):
    """A number of so many bits, in which often one differs from all others or
    none does."""
    full = (1 << count) - 1
    one = 1 << rng.randrange(count) if count else 0
    return rng.choice([0, full, one, full ^ one]
                      + [rng.randint(0, full)] * 4)


def at_random(rng, text):
    """The text, a state that its model has, and a word. Where no model is
    said, any state will do."""
    said = read(text)
    names = (MOST_NAMES if isinstance(said, Refusal)
             else len(said.shared + said.row))
    return text, bits(rng, names), bits(rng, MOST_STARS)


def larger_text(rng, aim=None):
    return spelled(rng, Writer(rng, aim).tokens(), "tight")


def model_text(rng):
    way = rng.random()
    if way < 0.3:
        return small_text(rng)
    return larger_text(rng, None if way < 0.7 else rng.choice(list(LIMITS)))


def random_entries(count, seed):
    """Most texts say a model; of some the names are in other cases."""
    rng = random.Random(seed)
    entries = []
    for _, text in random_texts(count, seed):
        if rng.random() < 0.75:
            text = model_text(rng).encode("latin-1")
            if rng.random() < 0.4:
                text = names_recased(rng, text)
        entries.append(at_random(rng, text))
    return entries
