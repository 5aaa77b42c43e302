"""Searches in portions that end at a break: worked examples, a break at the
start, one in the midst of the moves of a state, and one far on."""

from corpora.pairs_models import exactly, starred, under
from corpora.portions_labels import ALL, walk, walks, ways_of
from corpora.reports_runs import counter, names_of
from inputs.cases import G, G_CASES
from inputs.graphs import graph
from inputs.phrases import command, loop, model


def worked_breaks():
    """From state 1 of G, words 0 to 3 lead to 1, 3, 5 and 7."""
    positions = "paused 0 2 0", "ended 0 4 4 broken"
    for detail, text in (("G", G), ("G, names in other cases", G_CASES)):
        yield from walks(detail, text, ways_of(1) + ways_of(2),
                         "1 3 5<1 7<1", positions, "unsafe 27 0")
    yield from walks("G, every start breaks",
                     G.replace("keep 1 each not (w and x)", "keep 0 each 1"),
                     ways_of(1), "1", ("ended 0 1 0 broken",), "unsafe 17 0")


# What is shown, starts, breaks, the states met, how many they are.
AT_START = (
    ("the first of three", (2, 4, 5), (2,), "2", 1),
    ("the second of three", (2, 4, 5), (4,), "2 4", 2),
    ("the last of three", (2, 4, 5), (5,), "2 4 5", 3),
    ("the second and the third", (2, 4, 5), (5, 4), "2 4", 2),
    ("all of three", (6, 1, 3), (1, 3, 6), "1", 1),
    ("state 0", range(8), (0,), "0", 1),
    ("state 6 of all", range(8), (6, 7), "0-6", 7),
    ("state 7 of all", range(8), (7,), "0-7", 8),
    ("the only one", (5,), (5, 1), "5", 1),
)


def breaks_at_start():
    """From every start state a step would lead to a break too."""
    for detail, starts, breaks, states, count in AT_START:
        steps = {(state, 0): breaks[0] for state in starts}
        yield from walks(detail, graph(3, 1, starts, breaks, [steps]),
                         ways_of(2), states,
                         (f"ended 0 {count} 0 broken",), "unsafe 17 0")
    for shared, row in ((0, 0), (0, 1), (1, 0)):
        yield from walks(f"{shared} and {row} names, all break",
                         model(*map(" ".join, names_of(shared, row)),
                               keep=("0", "1")), ((), (0,), (1,), (ALL, 1)),
                         "0", ("ended 0 1 0 broken",), "unsafe 17 0")
    # 4,096 states start, and one of them breaks.
    shared, row = names_of(8, 4)
    for broken in (0, 1, 255, 256, 4094, 4095):
        keep = "1", f"not ({exactly(shared + row, broken)})"
        yield walk(f"{broken} of 4,096", model(" ".join(shared),
                                               " ".join(row), keep=keep),
                   (0, ALL), f"0-{broken}",
                   *[f"ended 0 {broken + 1} 0 broken"] * 3, "unsafe 17 0")


# What is shown, starts, a graph for each command, the states met, positions,
# how many steps lead to the break. State 7 breaks; each command has 2 words.
AMONG_MOVES = (
    ("by the first move", (0, 1), [{(0, 0): 7, (0, 1): 2}, {(1, 0): 3}],
     "0 1 7<0", ("paused 0 2 0", "ended 0 3 1 broken"), 1),
    ("after two others, moves left", (0, 1),
     [{(0, 0): 2, (0, 1): 3}, {(0, 0): 7, (0, 1): 4}, {(0, 0): 5}],
     "0 1 2<0 3<0 7<0", ("paused 0 2 0", "ended 0 5 3 broken"), 1),
    ("by the last move", (0, 1), [{(0, 0): 2}, {(0, 1): 7}],
     "0 1 2<0 7<0", ("paused 0 2 0", "ended 0 4 4 broken"), 1),
    ("by the second word of two", (4,), [{(4, 1): 7}, {(4, 0): 5}],
     "4 7<4", ("paused 0 1 0", "ended 0 2 2 broken"), 1),
    ("from the second start", (0, 1), [{(0, 0): 2, (1, 1): 7}, {(1, 0): 4}],
     "0 1 2<0 7<1",
     ("paused 0 2 0", "paused 1 3 4", "ended 1 4 6 broken"), 1),
    ("from the second start, by its last move", (0, 1),
     [{(0, 0): 2}, {(1, 0): 4, (1, 1): 7}], "0 1 2<0 4<1 7<1",
     ("paused 0 2 0", "paused 1 3 4", "ended 1 5 8 broken"), 1),
    ("from the state met last", (0,), [{(0, 0): 1, (0, 1): 2, (2, 0): 7}],
     "0 1<0 2<0 7<2",
     ("paused 0 1 0", "paused 1 3 2", "paused 2 3 4", "ended 2 4 5 broken"),
     2),
    ("three steps on", (6,), [{(6, 1): 0, (0, 1): 3}, {(3, 1): 7}],
     "6 0<6 3<0 7<3",
     ("paused 0 1 0", "paused 1 2 4", "paused 2 3 8", "ended 2 4 12 broken"),
     3),
    ("states still wait", (0, 2, 4), [{(0, 0): 1, (0, 1): 3, (2, 0): 7}],
     "0 2 4 1<0 3<0 7<2",
     ("paused 0 3 0", "paused 1 5 2", "ended 1 6 3 broken"), 1),
    ("the break leads on", (0,), [{(0, 0): 7, (7, 0): 5, (0, 1): 6}],
     "0 7<0", ("paused 0 1 0", "ended 0 2 1 broken"), 1),
    ("several lead there", (1, 2), [{(1, 1): 7, (2, 0): 7}],
     "1 2 7<1", ("paused 0 2 0", "ended 0 3 2 broken"), 1),
    ("several moves lead there", (1,), [{(1, 0): 7, (1, 1): 7}, {(1, 0): 7}],
     "1 7<1", ("paused 0 1 0", "ended 0 2 1 broken"), 1),
    ("several moves lead on the way", (1,),
     [{(1, 0): 4, (1, 1): 4, (4, 1): 7}, {(1, 1): 4, (4, 0): 7}],
     "1 4<1 7<4",
     ("paused 0 1 0", "paused 1 2 4", "ended 1 3 6 broken"), 2),
)


def breaks_among_moves():
    for detail, starts, commands, states, positions, steps in AMONG_MOVES:
        yield from walks(detail, graph(3, 1, starts, (7,), commands),
                         ways_of(len(positions)), states, positions,
                         f"unsafe {17 + 10 * steps} 0")


def breaks_far_on():
    """Counters, whose traces are the longest that there are."""
    for shared, row in ((1, 0), (0, 2), (2, 1), (2, 3)):
        last = (1 << shared + row) - 1
        yield from walks(
            f"after {last} steps", counter(shared, row, 0, last),
            ways_of(last), f"0 1-{last}<",
            [f"paused {done} {done + 1} {done}" for done in range(last)]
            + [f"ended {last - 1} {last + 1} {last} broken"],
            f"unsafe {17 + 10 * last} 0")
    yield walk("after 4,095 steps", counter(8, 4, 0, 4095),
               (4000, 94, 1, 1), "0 1-4095<", "paused 0 1 0",
               "paused 4000 4001 4000", "paused 4094 4095 4094",
               "ended 4094 4096 4095 broken", "ended 4094 4096 4095 broken",
               "unsafe 40967 0")
    yield walk("after 4,095 steps", counter(2, 10, 0, 4095), (ALL,),
               "0 1-4095<", "paused 0 1 0", "ended 4094 4096 4095 broken",
               "unsafe 40967 0")


def breaks_under_one_word():
    """Of 256 words of a command one leads to a break, behind a command of 8
    words."""
    for word in (0, 1, 63, 64, 127, 128, 254, 255):
        text = model("a", "x", ("not a", "not x"), ("1", "not x"), [
            *starred((3,)), command("d", under(word), loop(yes="x := 1"))])
        yield from walks(
            f"word {word}", text, ((), (0,), (1,), (ALL, 1)), "0 2<0",
            ("paused 0 1 0", f"ended 0 2 {8 + word + 1} broken"),
            "unsafe 27 0")


GROUPS = (worked_breaks, breaks_at_start, breaks_among_moves, breaks_far_on,
          breaks_under_one_word)
