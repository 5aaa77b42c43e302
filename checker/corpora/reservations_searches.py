"""Models by what their search finds: few states or all of them, states that
steps lead to, no start state, a break; and the most trials there can be."""

from corpora.pairs_models import exactly, idle, sixteen, starred, under
from corpora.reports_runs import counter
from corpora.reports_settings import resting, these
from corpora.reports_void import KEEPS
from corpora.texts_limits import everything
from inputs.phrases import command, loop, model, numbered
from inputs.starts import NOTHING_STARTS

# Shared names, row names, the states that start and stay, the stars of each
# command, what is reserved and returned.
FEW = (
    (0, 0, (0,), (3,), "1 17 8, safe 8"),
    (1, 0, (1,), (2, 1), "2 27 12, safe 6"),
    (0, 2, (1, 2), (0, 3), "4 47 36, safe 18"),
    (1, 2, (1, 3, 5), (2, 0, 4), "8 87 168, safe 63"),
    (1, 2, range(7), (3, 1), "8 87 80, safe 70"),
    (1, 2, range(1, 8), (3, 1), "8 87 80, safe 70"),
    (2, 2, (0, 7, 8, 15), (1, 3), "16 167 160, safe 40"),
    (3, 3, (63,), (8,), "64 647 16384, safe 256"),
    (3, 3, (0, 1, 62, 63), (5, 0), "64 647 2112, safe 132"),
    (8, 0, (100, 255), (6, 7), "256 2567 49152, safe 384"),
    (0, 10, (1023,), (1, 1, 1), "1024 10247 6144, safe 6"),
    (8, 4, (0, 7, 8, 4095), (8, 0, 2), "4096 40967 1069056, safe 1044"),
    (6, 6, (5, 4000), (8, 8, 8), "4096 40967 3145728, safe 1536"),
    (2, 10, (2048,), (0, 0), "4096 40967 8192, safe 2"),
)

# Shared names, row names, the stars of each command, what is reserved and
# returned.
ALL = (
    (0, 0, (0,), "1 17 1, safe 1"),
    (0, 0, (8,), "1 17 256, safe 256"),
    (1, 1, (1, 2), "4 47 24, safe 24"),
    (3, 0, (0, 0, 0), "8 87 24, safe 24"),
    (4, 4, (2,), "256 2567 1024, safe 1024"),
    (0, 10, (0, 1), "1024 10247 3072, safe 3072"),
    (8, 4, (0,), "4096 40967 4096, safe 4096"),
    (2, 10, (1, 0), "4096 40967 12288, safe 12288"),
)


def few_states():
    for shared, row, states, counts, meant in FEW:
        yield (f"{' '.join(map(str, states))} of {shared} and {row} names, "
               f"{counts} -> {meant}",
               these(shared, row, states, starred(counts)))


def all_states():
    for shared, row, counts, meant in ALL:
        yield (f"{shared} and {row} names, {counts} -> {meant}",
               resting(shared, row, "1", starred(counts)))


def from_first(*commands, keep=("1", "1")):
    """Two shared names and two of a row; a run begins in state 0."""
    return model("a b", "x y", (exactly("ab", 0), exactly("xy", 0)), keep,
                 commands)


def reached_by_steps():
    """States met on the way are tried as the start is."""
    free = command("c", yes="a := *; b := *")
    yield "4 states, 4 words -> 16 167 64, safe 16", from_first(free)
    yield ("4 states, 4 words in a row -> 16 167 64, safe 16",
           from_first(command("c", yes=loop(yes="x := *; y := *"))))
    yield ("2 states, 1 + 2 words -> 16 167 48, safe 6",
           from_first(command("c"), command("d", yes="a := *")))
    yield ("3 states one by one, 1 + 2 words -> 16 167 48, safe 9",
           from_first(command("c", "a", "b := 1"),
                      command("d", "*", "a := 1")))
    yield ("8 states, 4 + 8 words -> 16 167 192, safe 96",
           from_first(free, command("d", "* and *", loop(yes="x := *"))))
    yield ("all 16, one by one -> 16 167 16, safe 16", counter(2, 2))
    yield ("all 16, under one of 2 words -> 16 167 32, safe 32",
           counter(2, 2, test="*"))
    yield ("all 128, one by one -> 128 1287 128, safe 128", counter(3, 4))
    yield ("all 256, under one of 128 words -> 256 2567 32768, safe 32768",
           counter(4, 4, test=under(127, 7)))
    yield ("all 256, under one of 256 words -> 256 2567 65536, safe 65536",
           counter(4, 4, test=under(255)))


# What is reserved for 2 + 4 words, by the number of names.
WITHOUT_START = ("1 17 6", "2 27 12", "4 47 24")


def nothing_starts():
    for detail, shared, row, start in NOTHING_STARTS:
        reserved = WITHOUT_START[len(f"{shared} {row}".split())]
        for keep in KEEPS[:2]:
            yield (f"{detail}, keep {keep[0]} -> {reserved}, void",
                   model(shared, row, start, keep, starred((1, 2))))
    yield ("12 names, 256 + 1 + 256 words -> 4096 40967 2101248, void",
           model(numbered("s", 8), numbered("r", 4), ("s7 and not s7", "1"),
                 commands=starred((8, 0, 8))))


def breaks():
    yield ("at the start, 8 + 2 words -> 16 167 160, unsafe",
           model(keep=("0", "1"), commands=starred((3, 1))))
    yield ("at the last start -> 16 167 160, unsafe",
           model(keep=("1", f"not ({exactly('abxy', 15)})"),
                 commands=starred((3, 1))))
    first = command("c", yes="a := 1")
    yield ("by the first trial, 1 + 4 words -> 16 167 80, unsafe",
           from_first(first, command("d", "* or *"), keep=("not a", "1")))
    yield ("by the last trial at a state -> 16 167 65536, unsafe",
           sixteen(command("last", under(255), "a := 1"),
                   keep=("not a", "1")))
    for shared, row, reserved in ((0, 1, "2 27 2"), (2, 3, "32 327 32"),
                                  (4, 4, "256 2567 256"),
                                  (8, 4, "4096 40967 4096")):
        last = (1 << shared + row) - 1
        yield (f"after {last} steps -> {reserved}, unsafe",
               counter(shared, row, 0, last))
    yield ("after 15 steps under the last of 4 words -> 16 167 64, unsafe",
           counter(2, 2, 0, 15, under(3, 2)))


def greatest():
    """Twelve names and sixteen commands of eight stars: 4,096 words at each
    of 4,096 states; then a little less."""
    yield ("every state -> 4096 40967 16777216, safe 16777216",
           resting(8, 4, "1", idle(16)))
    yield ("one state -> 4096 40967 16777216, safe 4096",
           these(2, 10, (4095,), idle(16)))
    yield ("three states -> 4096 40967 16777216, safe 12288",
           these(8, 4, (0, 1, 2048), idle(16)))
    yield ("nothing starts -> 4096 40967 16777216, void",
           resting(8, 4, "0", idle(16)))
    yield ("every start breaks -> 4096 40967 16777216, unsafe",
           model(numbered("s", 8), numbered("r", 4), keep=("0", "1"),
                 commands=idle(16)))
    yield ("all nodes and items, nothing starts "
           "-> 4096 40967 16777216, void",
           everything(256, 1024, 8).replace("start s0 each", "start 0 each"))
    yield ("a star fewer, 3968 words -> 4096 40967 16252928, safe 3968",
           these(7, 5, (1,), starred([8] * 15 + [7])))
    yield ("a command fewer, 3840 words -> 4096 40967 15728640, safe 3840",
           these(6, 6, (64,), idle(15)))
    yield ("a name fewer -> 2048 20487 8388608, safe 4096",
           these(8, 3, (2047,), idle(16)))


GROUPS = (few_states, all_states, reached_by_steps, nothing_starts, breaks,
          greatest)
