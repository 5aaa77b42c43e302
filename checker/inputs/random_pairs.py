"""Random texts, each with a random sheet."""

import random

from evidence.one_row import OneRow
from evidence.reservations import most_trials
from inputs.random_cases import names_recased
from inputs.random_models import Writer
from inputs.random_sheets import random_sheet
from inputs.random_texts import random_texts
from inputs.small_models import small_text
from reader.model import Refusal
from reader.reading import read

MOST_STEPS = 20000


def model_text(rng):
    """A text whose table can be walked in no time."""
    while True:
        text = (small_text(rng) if rng.random() < 0.5
                else " ".join(Writer(rng).tokens())).encode()
        said = read(text)
        if (not isinstance(said, Refusal)
                and most_trials(OneRow(said)) <= MOST_STEPS):
            return text


def random_pairs(count, seed, accepted):
    """Of texts that say a model only, or of others too."""
    rng = random.Random(seed)
    other = [] if accepted else [text for _, text in random_texts(count, seed)]
    for number in range(count):
        text = model_text(rng)
        if rng.random() < 0.4:
            text = names_recased(rng, text)
        sheet = random_sheet(rng, OneRow(read(text)))
        if not accepted and rng.random() < 0.1:
            said = read(other[number])
            if isinstance(said, Refusal):
                text = other[number]
        yield text, sheet
