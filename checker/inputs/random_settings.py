"""Random safe models whose states are spread over the settings of the shared
names, often with more states at some settings than at others."""

from corpora.pairs_models import exactly
from evidence.reservations import most_trials
from evidence.searching import search
from inputs.cases import table_of
from inputs.graphs import any_of
from inputs.random_models import Writer
from inputs.random_texts import spelled

MOST_STARTS = 10


def with_clause(tokens, word, row):
    """The tokens with this as the `each` part of a clause and no other."""
    first = tokens.index(word)
    end = tokens.index(".", first)
    return tokens[:first] + [word, "1", "each", *row.split()] + tokens[end:]


def spread_text(rng, most):
    """Some states start, whatever they are; the commands are random. A state
    that no run leads to breaks, if there is one."""
    while True:
        writer = Writer(rng)
        names = writer.shared + writer.row
        every = range(1 << len(names))
        count = min(len(every), rng.randint(1, MOST_STARTS))
        starts = rng.sample(every, count)
        some = any_of(exactly(names, state) for state in starts)
        tokens = with_clause(writer.tokens(), "keep", "1")
        tokens = with_clause(tokens, "start", some if names else "1")
        table = table_of(" ".join(tokens))
        if table.names >= 3 and most_trials(table) <= most:
            left = sorted(set(every) - search(table))
            if left:
                broken = exactly(names, rng.choice(left))
                tokens = with_clause(tokens, "keep", f"not ( {broken} )")
            return spelled(rng, tokens, "tight")
