"""Searches without a break, in portions: worked examples, the order in which
states are met, what led to them first, the number of names, and portions of
all sizes."""

from corpora.pairs_models import starred
from corpora.portions_labels import ALL, walk, walks, ways_of
from corpora.reports_runs import counter
from corpora.reports_settings import resting, these
from inputs.cases import G_VOID, H, H_CASES
from inputs.graphs import graph
from inputs.phrases import model

H_STATES = "1 3 5<1"
H_POSITIONS = "paused 0 2 0", "paused 1 3 4", "paused 2 3 8", "ended 3 3 12"
H_FINISH = "safe 16 12"


def worked():
    """From state 1 of H, words 0, 1 and 2 lead to 1, 3 and 5."""
    yield from walks("H", H, ways_of(3), H_STATES, H_POSITIONS, H_FINISH)
    for detail, text in (("names in other cases", H_CASES),
                         ("a newline after it", H + "\n")):
        yield from walks(f"H, {detail}", text, ((1, 1), (ALL,)), H_STATES,
                         H_POSITIONS, H_FINISH)
    yield from walks("G without a start state", G_VOID, ways_of(1), "none",
                     ("ended 0 0 0",), "void 16 0")


def sizes_of_portions():
    """Numbers that lose what matters if they are cut to 8, 16 or 32 bits, or
    are taken to be below 0."""
    for states in (255, 256, 257, 4096, 65535, 65536, 65537, 65538,
                   1 << 31, 1 << 32, (1 << 32) + 1, (1 << 32) + 2, 1 << 63,
                   (1 << 63) + 1, ALL - 1, ALL):
        for before in ((), (1,)):
            yield from walks("H", H, (before + (states,),), H_STATES,
                             H_POSITIONS, H_FINISH)


# What is shown, starts, a graph for each command, the states met, how many of
# them there are after each state expanded. Of each command there are two
# words.
ORDER = (
    ("first come first served", (0,),
     [{(0, 0): 3, (3, 0): 5, (1, 0): 2}, {(0, 0): 1, (3, 1): 4, (1, 1): 6}],
     "0 3<0 1<0 5<3 4<3 2<1 6<1", (1, 3, 5, 7, 7, 7, 7, 7)),
    ("not by their numbers", (0,),
     [{(0, 0): 6, (0, 1): 2, (6, 0): 1, (2, 0): 5}],
     "0 6<0 2<0 1<6 5<2", (1, 3, 4, 5, 5, 5)),
    ("word by word, then the next command", (0,),
     [{(0, 1): 4, (0, 0): 2}, {(0, 0): 1, (0, 1): 3}],
     "0 2<0 4<0 1<0 3<0", (1, 5, 5, 5, 5, 5)),
    ("start states from the lowest up", (6, 2, 5),
     [{(5, 0): 1, (6, 0): 0, (2, 0): 7}],
     "2 5 6 7<2 1<5 0<6", (3, 4, 5, 6, 6, 6, 6)),
    ("start states before what the first leads to", (1, 4),
     [{(1, 0): 2, (4, 0): 3}], "1 4 2<1 3<4", (2, 3, 4, 4, 4)),
    ("from one to the next", (7,),
     [{(7, 1): 6, (6, 1): 4, (4, 1): 5, (5, 1): 0}],
     "7 6<7 4<6 5<4 0<5", (1, 2, 3, 4, 5, 5)),
    ("nothing leads on", (3,), [{}], "3", (1, 1)),
    ("every state starts", range(8), [{(0, 0): 7, (7, 0): 0}],
     "0-7", (8,) * 9),
    ("the last state leads on", (0,),
     [{(0, 0): 1, (0, 1): 2, (2, 1): 3}], "0 1<0 2<0 3<2", (1, 3, 3, 4, 4)),
)

# The same, of states that several others lead to.
LED = (
    ("by the first that was met, not the lowest", (0,),
     [{(0, 0): 5, (0, 1): 2, (5, 0): 7, (2, 0): 7}],
     "0 5<0 2<0 7<5", (1, 3, 4, 4, 4)),
    ("by the first, not the last", (1, 2, 3),
     [{(1, 1): 6, (2, 0): 6, (3, 0): 6}], "1 2 3 6<1", (3, 4, 4, 4, 4)),
    ("twice by one state", (2,), [{(2, 0): 4, (2, 1): 4}, {(2, 0): 4}],
     "2 4<2", (1, 2, 2)),
    ("a start state by another", (0, 1), [{(0, 0): 1, (1, 0): 0}],
     "0 1", (2, 2, 2)),
    ("a start state by one that was met later", (0, 4),
     [{(0, 0): 6, (6, 0): 4, (6, 1): 0}], "0 4 6<0", (2, 3, 3, 3)),
    ("round in a circle", (4,), [{(4, 0): 5, (5, 0): 6, (6, 0): 4}],
     "4 5<4 6<5", (1, 2, 3, 3)),
    ("back by the second command", (4,),
     [{(4, 0): 5, (5, 1): 7}, {(5, 0): 4, (7, 0): 5}],
     "4 5<4 7<5", (1, 2, 3, 3)),
    ("by itself", (6,), [{(6, 0): 6, (6, 1): 1, (1, 0): 1}],
     "6 1<6", (1, 2, 2)),
)


def graphs(entries):
    """Each divided in all ways. There are 5 names, and so 4 bytes in a map,
    behind 15 others."""
    for detail, starts, commands, states, counts in entries:
        words = 2 * len(commands)
        last = len(counts) - 1
        positions = [f"{'ended' if expanded == last else 'paused'} "
                     f"{expanded} {met} {expanded * words}"
                     for expanded, met in enumerate(counts)]
        yield from walks(detail, graph(3, 1, starts, (), commands),
                         ways_of(last), states, positions,
                         f"safe 19 {last * words}")


def order_met():
    return graphs(ORDER)


def led_to():
    return graphs(LED)


# Shared names, row names, the bytes of a sheet with a map.
NAMES = ((0, 0, 16), (1, 0, 16), (0, 1, 16), (1, 1, 16), (3, 0, 16),
         (2, 2, 17), (0, 5, 19), (3, 3, 23), (7, 0, 31), (8, 0, 47),
         (0, 9, 79), (5, 5, 143), (1, 10, 271), (8, 4, 527), (2, 10, 527))


def names():
    """The last state alone starts, and a command of one star leaves it."""
    for shared, row, size in NAMES:
        last = (1 << shared + row) - 1
        yield from walks(
            f"{shared} and {row}, the last state",
            these(shared, row, (last,), starred((1,))), ((), (0, 1), (ALL,)),
            str(last), ("paused 0 1 0", "ended 1 1 2"), f"safe {size} 2")
    for start, meant in ((("0", "1"), "shared"), (("1", "0"), "each")):
        yield from walks(f"no names, void by its {meant} part",
                         model("", "", start), ways_of(1), "none",
                         ("ended 0 0 0",), "void 16 0")


def all_states():
    """Small tables whole, one state after another or all at the start."""
    for shared, row, size in NAMES[1:7]:
        count = 1 << shared + row
        yield from walks(
            f"{shared} and {row}, a counter", counter(shared, row),
            ((), (1, 0, 1), (count - 1,), (count - 1, 1), (ALL,)),
            f"0 1-{count - 1}<",
            [f"paused {done} {done + 1} {done}" for done in range(count)]
            + [f"ended {count} {count} {count}"], f"safe {size} {count}")
        yield from walks(
            f"{shared} and {row}, all start", resting(shared, row, "1"),
            ((), (1, 0, 1), (count - 1,), (count - 1, 1), (ALL,)),
            f"0-{count - 1}",
            [f"paused {done} {count} {done}" for done in range(count)]
            + [f"ended {count} {count} {count}"], f"safe {size} {count}")


def wide_tables():
    """4,096 states."""
    up = counter(8, 4)
    states, finish = "0 1-4095<", "safe 527 4096"
    yield walk("a counter", up, (1, 2047, 2047, 1, 1), states,
               "paused 0 1 0", "paused 1 2 1", "paused 2048 2049 2048",
               "paused 4095 4096 4095", "ended 4096 4096 4096",
               "ended 4096 4096 4096", finish)
    yield walk("a counter", up, (4096, 0), states, "paused 0 1 0",
               "ended 4096 4096 4096", "ended 4096 4096 4096", finish)
    yield walk("a counter", up, (4094, 4097), states, "paused 0 1 0",
               "paused 4094 4095 4094", "ended 4096 4096 4096", finish)
    yield walk("a counter", up, (4095, 65536), states, "paused 0 1 0",
               "paused 4095 4096 4095", "ended 4096 4096 4096", finish)
    yield walk("a counter", up, (ALL,), states, "paused 0 1 0",
               "ended 4096 4096 4096", finish)
    rest = resting(2, 10, "1")
    yield walk("all start", rest, (1, 4094, 1, 0), "0-4095",
               "paused 0 4096 0", "paused 1 4096 1", "paused 4095 4096 4095",
               "ended 4096 4096 4096", "ended 4096 4096 4096", finish)
    yield walk("all start", rest, (2048, ALL), "0-4095", "paused 0 4096 0",
               "paused 2048 4096 2048", "ended 4096 4096 4096", finish)
    yield walk("nothing starts", resting(8, 4, "0"), (0, ALL), "none",
               "ended 0 0 0", "ended 0 0 0", "ended 0 0 0", "void 527 0")


GROUPS = (worked, sizes_of_portions, order_met, led_to, names, all_states,
          wide_tables)
