"""Models with several breaking runs, where the order of runs picks one."""

import random

from inputs.graphs import graph

# What is shown, starts, breaks, a graph for each command, the run picked.
ORDER = (
    ("by start", (1, 2), (7,),
     [{(1, 0): 7, (2, 0): 7}], 1, ((0, 0, 7),)),
    ("length before start", (0, 1), (7,),
     [{(0, 0): 2, (2, 0): 7, (1, 3): 7}], 1, ((0, 3, 7),)),
    ("start before command", (0, 1), (7,),
     [{(1, 0): 7}, {(0, 0): 7}], 0, ((1, 0, 7),)),
    ("start before word", (0, 1), (7,),
     [{(1, 0): 7, (0, 3): 7}], 0, ((0, 3, 7),)),
    ("by command", (0,), (7,),
     [{}, {(0, 2): 7}, {(0, 2): 7}], 0, ((1, 2, 7),)),
    ("command before word", (0,), (7,),
     [{(0, 3): 7}, {(0, 0): 7}], 0, ((0, 3, 7),)),
    ("by word", (0,), (7,),
     [{(0, 1): 7, (0, 2): 7}], 0, ((0, 1, 7),)),
    ("word before the state after", (0,), (5, 6),
     [{(0, 1): 6, (0, 2): 5}], 0, ((0, 1, 6),)),
    ("command before the state after", (0,), (5, 6),
     [{(0, 3): 6}, {(0, 0): 5}], 0, ((0, 3, 6),)),
    ("start before the state after", (0, 1), (5, 6),
     [{(0, 0): 6, (1, 0): 5}], 0, ((0, 0, 6),)),
    ("first step before second", (0,), (7,),
     [{(0, 0): 1, (0, 1): 2, (2, 0): 7}, {(1, 3): 7}],
     0, ((0, 0, 1), (1, 3, 7))),
    ("first step before the state between", (0,), (7,),
     [{(0, 0): 3, (0, 1): 1, (3, 2): 7, (1, 0): 7}],
     0, ((0, 0, 3), (0, 2, 7))),
    ("second step before third", (0,), (7,),
     [{(0, 0): 1, (1, 0): 3, (1, 1): 2, (2, 0): 7, (3, 3): 7}],
     0, ((0, 0, 1), (0, 0, 3), (0, 3, 7))),
    ("second step by command", (0,), (7,),
     [{(0, 2): 1, (1, 3): 3}, {(1, 0): 2, (2, 0): 7, (3, 1): 7}],
     0, ((0, 2, 1), (0, 3, 3), (1, 1, 7))),
    ("length before command", (0,), (7,),
     [{(0, 0): 1, (1, 0): 2, (2, 0): 7}, {(0, 0): 7}], 0, ((1, 0, 7),)),
    ("length before word", (0,), (7,),
     [{(0, 0): 1, (1, 0): 2, (2, 0): 7, (0, 3): 7}], 0, ((0, 3, 7),)),
    ("a start that breaks before a step", (0, 2), (2, 7),
     [{(0, 0): 7}], 2, ()),
    ("the first start that breaks", (3, 4, 6), (4, 6), [{}], 4, ()),
    ("start first though the ways meet", (0, 1), (7,),
     [{(1, 0): 4, (4, 0): 7}, {(0, 3): 4}], 0, ((1, 3, 4), (0, 0, 7))),
    ("start first over two steps", (0, 1), (7,),
     [{(0, 3): 2, (2, 3): 7, (1, 0): 3, (3, 0): 7}],
     0, ((0, 3, 2), (0, 3, 7))),
    ("a start passed on the way", (0, 3), (7,),
     [{(0, 0): 3, (3, 2): 7}], 3, ((0, 2, 7),)),
    ("circles are left", (0,), (7,),
     [{(0, 0): 1, (1, 0): 0, (1, 1): 2, (2, 0): 0, (2, 2): 7}],
     0, ((0, 0, 1), (0, 1, 2), (0, 2, 7))),
    ("a dead end first", (0,), (7,),
     [{(0, 0): 1, (0, 1): 2, (2, 3): 7}, {(1, 0): 5, (5, 0): 6}],
     0, ((0, 1, 2), (0, 3, 7))),
)


def order():
    for detail, starts, breaks, steps, _, run in ORDER:
        yield (f"{detail} -> unsafe {len(run)}",
               graph(3, 2, starts, breaks, steps))


def circles():
    """The same graphs with no state that breaks, and with none to start."""
    for detail, starts, _, steps, _, _ in ORDER[::3]:
        yield f"{detail}, no break -> safe", graph(3, 2, starts, (), steps)
        yield (f"{detail}, no start -> void",
               graph(3, 2, (), tuple(range(8)), steps))


def random_graph(rng):
    """Steps mostly lead a little nearer to a break, so that there are several
    runs of one length; what is near has no say in the numbers of states."""
    bits, stars = rng.choice((2, 3, 3, 4, 4)), rng.choice((0, 1, 2, 2))
    states = 1 << bits
    number = rng.sample(range(states), states)
    commands = [{} for _ in range(rng.randint(1, 3))]
    for _ in range(rng.randint(states, min(26, 3 * states))):
        place = rng.randrange(states - 1)
        after = (min(states - 1, place + rng.randint(1, 3))
                 if rng.random() < 0.8 else rng.randrange(states))
        step = number[place], rng.randrange(1 << stars)
        rng.choice(commands)[step] = number[after]
    starts = sorted(number[:rng.choice((1, 2, 3))])
    breaks = sorted(number[states - rng.choice((0, 1, 1, 1, 2)):])
    return graph(bits, stars, starts, breaks, commands)


def random_graphs():
    rng = random.Random(31)
    for number in range(120):
        yield f"{number}", random_graph(rng)


GROUPS = (order, circles, random_graphs)
