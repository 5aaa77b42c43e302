"""Random safe models of any number of names, in which one command has more
stars than another. Few states are reached, so that there may be many stars."""

from corpora.pairs_models import exactly
from corpora.reports_runs import names_of
from inputs.graphs import any_of
from inputs.phrases import command, loop, model
from inputs.random_models import LIMITS

# Many names are rare: this checker looks at every state for those that start.
NAMES = (0, 1, 2, 3, 3, 4, 4, 5, 5, 6, 7, 8, 10, 12)
MOST_STARTS = 3


def star_counts(rng, most):
    """The stars of each command; so many words are tried at a state at
    most."""
    counts = []
    for _ in range(rng.choice((1, 2, 3, 4, LIMITS["commands"]))):
        fitting = [count for count in range(LIMITS["stars"] + 1)
                   if 1 << count <= most]
        if not fitting:
            break
        counts.append(rng.choice(fitting))
        most -= 1 << counts[-1]
    return counts


def of_stars(rng, count):
    """An expression of so many stars, or a constant."""
    joint = rng.choice((" and ", " or ", " or not "))
    return joint.join(["*"] * count) or rng.choice("01")


def one_command(rng, name, count, shared, row):
    """Outside `for` and inside; the last name alone may change."""
    outside = rng.randint(0, count)
    test, value = of_stars(rng, outside), of_stars(rng, count - outside)
    if row:
        item = rng.choice((loop(yes=f"{row[-1]} := {value}"),
                           loop(value, f"{row[-1]} := 1")))
    else:
        item = f"{shared[-1]} := {value}" if shared else loop(value)
    return command(name, test, *rng.choice(((item,), ("skip", item))))


def starry_text(rng, most):
    """Of so many trials at most."""
    count = rng.choice(NAMES)
    shared, row = names_of(*rng.choice([
        (low, count - low) for low in range(LIMITS["shared"] + 1)
        if 0 <= count - low <= LIMITS["row"]]))
    states = 1 << count
    starts = rng.sample(range(states),
                        rng.randint(1, min(states, MOST_STARTS)))
    words = star_counts(rng, most // (2 * len(starts)))
    here = any_of(exactly(shared + row, state) or "1" for state in starts)
    return model(" ".join(shared), " ".join(row), ("1", here),
                 commands=[one_command(rng, f"c{j}", stars, shared, row)
                           for j, stars in enumerate(words)])
