"""Random runs in which commands come in bursts; and commands, widths and
lengths of lists that need not fit a trace."""

from corpora.bursts_traces import LETTERS, lettered, steps_of
from evidence.bursts import MOST_COMMANDS, WIDEST
from evidence.sheets import trace_sheet
from inputs.cases import table_of
from inputs.random_cases import names_recased

LOST = tuple(1 << bits for bits in (8, 12, 16, 32, 48, 63))


def some_letters(rng, commands):
    """A few commands in turn, each once or several times."""
    few = rng.sample(LETTERS[:commands], rng.randint(1, min(commands, 4)))
    return "".join(rng.choice(few) * rng.choice((1, 1, 1, 2, 3, 8))
                   for _ in range(rng.choice((1, 2, 5, 10, 20, 100))))


def bursting(rng):
    """Text and sheet of a trace that passes."""
    commands = rng.choice((1, 2, 3, 4, MOST_COMMANDS - 1, MOST_COMMANDS))
    text = lettered(commands)
    sheet = trace_sheet(table_of(text), rng.randrange(4096),
                        tuple(steps_of(some_letters(rng, commands))))
    return names_recased(rng, text.encode()), sheet


def some_command(rng, commands):
    """Mostly one that the model has."""
    known = rng.randrange(commands)
    if rng.random() < 0.8:
        return known
    return rng.choice((commands, MOST_COMMANDS, 255, rng.choice(LOST) + known,
                       rng.getrandbits(64)))


def some_width(rng, count):
    """Mostly in range, and about as often less than the steps as more."""
    way = rng.random()
    if way < 0.5:
        return rng.randint(1, max(count, 1))
    if way < 0.8:
        return rng.choice((1, 2, 3, count + 1, count + 5, WIDEST - 1, WIDEST))
    return rng.choice((0, WIDEST + 1, rng.choice(LOST[1:]) + rng.randint(0, 5),
                       rng.getrandbits(64)))


def some_places(rng, count):
    """Mostly enough, and now and then one too few."""
    return rng.choice((count, count, count, count + 1,
                       count + rng.randint(1, 40), count + 300,
                       max(count - 1, 0), rng.randint(0, count)))


def some_entries(rng):
    return rng.choice((MOST_COMMANDS, MOST_COMMANDS, MOST_COMMANDS + 1,
                       MOST_COMMANDS + rng.randint(0, 300), MOST_COMMANDS - 1,
                       rng.randrange(MOST_COMMANDS)))


def some_numbers(rng, call, count, commands):
    """What a call is handed about a trace of so many steps, with so many
    commands in its model."""
    places = some_places(rng, count)
    if call == "steps":
        return (places,)
    if call == "counts":
        return places, some_entries(rng)
    return places, some_command(rng, commands), some_width(rng, count)
