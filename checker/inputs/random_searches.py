"""Random texts for a search: most say a model that this checker searches fast."""

import random

from corpora.reports_order import random_graph
from corpora.reports_random import larger_text
from inputs.random_cases import names_recased, reserved_recased
from inputs.random_settings import spread_text
from inputs.random_stars import starry_text
from inputs.random_texts import random_texts
from inputs.small_models import small_text
from reader.model import Refusal
from reader.reading import read

MOST_STEPS = 1500


def random_models(count, seed):
    """Of some the names are in other cases, of a few reserved words."""
    rng = random.Random(seed)
    other = [text for _, text in random_texts(count // 20 + 1, seed)]
    texts = []
    while len(texts) < count:
        kind = rng.random()
        if kind < 0.3:
            text = small_text(rng).encode()
        elif kind < 0.4:
            text = starry_text(rng, MOST_STEPS).encode()
        elif kind < 0.63:
            text = random_graph(rng).encode()
        elif kind < 0.77:
            text = larger_text(rng, MOST_STEPS).encode("latin-1")
        elif kind < 0.95 or not other:
            text = spread_text(rng, MOST_STEPS).encode("latin-1")
        else:
            text = other.pop()
            if not isinstance(read(text), Refusal):
                continue
        case = rng.random()
        if case < 0.03:
            text, _ = reserved_recased(rng, text)
        elif case < 0.4:
            text = names_recased(rng, text)
        texts.append(text)
    return texts
