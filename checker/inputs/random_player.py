"""Random calls of a player, and records that need not fit a trace."""

from evidence.calls_player import CALLS

LARGEST = (1 << 64) - 1
WIDTHS = 8, 12, 16, 32, 48, 63


def some_calls(rng, passing):
    """Forward for the most part, or any; few where no trace passes."""
    if not passing:
        return rng.sample(CALLS, 3)
    ahead = CALLS + ("forward",) * rng.choice((1, 6))
    return ["player"] + [rng.choice(rng.choice((ahead, CALLS)))
                         for _ in range(rng.choice((10, 40, 80)))]


def other_number(rng, number):
    """A neighbour, one that would be the same if bits were lost, or any."""
    return rng.choice((
        (number + 1) & LARGEST, (number - 1) & LARGEST,
        number ^ 1 << rng.choice(WIDTHS), number ^ 1 << rng.randrange(64),
        number ^ 1 << rng.randrange(4), 0, LARGEST, rng.getrandbits(64)))


def other_record(rng, record, due):
    """Another place and its state, so that a player stands elsewhere; a place
    with the state of another; or other numbers. The states of a trace are
    due, or what the test says."""
    place, state = record
    way = rng.randrange(6)
    if isinstance(due, list) and way < 3:
        place = rng.choice((0, len(due) - 1, rng.randrange(len(due))))
        return place, due[place]
    if isinstance(due, list) and way == 3:
        return rng.randint(0, len(due)), rng.choice(due)
    if way != 4:
        place = other_number(rng, place)
    if way != 5:
        state = other_number(rng, state)
    return place, state
