"""Random portions of a search; positions, tables and texts altered at
random."""

from inputs.cases import G, H
from inputs.random_texts import harm_bytes
from inputs.small_models import small_text

ALL = (1 << 64) - 1

# Where a position has its fields: the lowest bit, and how many there are.
LETTER = 0, 8
BROKEN = 8, 1
EXPANDED = 9, 13
MET = 22, 13
TRIALS = 35, 29


def one_portion(rng):
    return rng.choice((0, 1, 1, 1, 2, 2, 3, 5, rng.randint(0, 40), 65536,
                       1 << 32, ALL))


def some_portions(rng):
    """Small ones, any, or small ones and a last one that comes to the end."""
    small = [rng.choice((0, 1, 1, 1, 2, 3))
             for _ in range(rng.choice((0, 1, 2, 4, 8)))]
    return rng.choice((small, small + [ALL], [one_portion(rng), ALL]))


def with_field(position, field, value):
    low, width = field
    mask = (1 << width) - 1
    return position & ~(mask << low) | (value & mask) << low


def position_of(pause):
    """The number that says it."""
    position = 0
    for field, value in ((LETTER, ord("e" if pause.ended() else "p")),
                         (BROKEN, pause.broken), (EXPANDED, pause.expanded),
                         (MET, len(pause.met)), (TRIALS, pause.trials)):
        position = with_field(position, field, value)
    return position


def altered_position(rng, position, states):
    """Any number, some bits changed, or a field that is out of range or at
    odds with the others."""
    way = rng.randrange(5)
    if way == 0:
        return rng.choice((rng.getrandbits(64), 0, ALL, position >> 8))
    if way == 1:
        for _ in range(rng.randint(1, 3)):
            position ^= 1 << rng.randrange(64)
        return position
    if way == 2:
        return with_field(position, LETTER, rng.choice(b"pesvu\0\1\x08\xff"))
    if way == 3:
        return with_field(position, rng.choice((BROKEN, TRIALS)),
                          rng.getrandbits(29))
    for field in rng.choice(((EXPANDED,), (MET,), (EXPANDED, MET))):
        position = with_field(position, field, rng.choice(
            (0, 1, states - 1, states, states + 1, 4095, 4096, 4097, 8191,
             rng.randrange(8192), rng.randint(0, states))))
    return position


def alter_queue(rng, first, second, states, met):
    """Often near the front, where the search stands."""
    place = rng.randrange(min(states, rng.choice((1, 2, 4, states))))
    first[place] = rng.choice(
        (65535, states, states + 1, states - 1, 0, rng.randrange(states),
         rng.getrandbits(16)))


def alter_leading(rng, first, second, states, met):
    """What led to a state, or that it was not met; also that it led there
    itself."""
    state = rng.randrange(states)
    second[state] = rng.choice(
        (0, 0, 65535, states, states + 1, state + 1,
         rng.randrange(states) + 1, rng.getrandbits(16)))


def make_circle(rng, first, second, states, met):
    """States that are led to by each other, often the last that was met
    among them."""
    circle = rng.sample(range(states), min(states, rng.randint(1, 4)))
    if met and rng.random() < 0.7:
        last = first[met - 1] % states
        circle = [last] + [state for state in circle if state != last]
    for state, before in zip(circle, circle[1:] + circle[:1]):
        second[state] = before + 1


def alter_all(rng, first, second, states, met):
    for table in rng.choice(((first,), (second,), (first, second))):
        value = rng.choice((0, 1, states, 65535, None))
        table[:states] = [rng.getrandbits(16) if value is None else value
                          for _ in range(states)]


def altered_tables(rng, first, second, states, met):
    """Copies of the tables at a pause with so many states met."""
    first, second = first[:], second[:]
    for way in rng.choices((alter_queue, alter_leading, make_circle,
                            alter_all), (3, 3, 3, 1),
                           k=rng.choice((1, 1, 2, 5))):
        way(rng, first, second, states, met)
    return first, second


def another_text(rng, text):
    """A text of another model, another text of the same, or any."""
    return rng.choice((text + b" ", harm_bytes(rng, text), G.encode(),
                       H.encode(), small_text(rng).encode(),
                       small_text(rng).encode(), text[:-1]))
