"""Models in which nothing starts, and models in which one state does."""

from corpora.pairs_models import exactly, idle, tossing
from inputs.cases import G_VOID
from inputs.phrases import model, numbered
from inputs.starts import NOTHING_STARTS, ONE_STARTS

# Everything is kept, nothing, nothing in any row.
KEEPS = ("1", "1"), ("0", "1"), ("1", "0")


def nothing_starts():
    yield ("G without a start state, all is kept -> void",
           G_VOID.replace("not (w and x)", "1"))
    for detail, shared, row, start in NOTHING_STARTS:
        for keep in KEEPS:
            yield (f"{detail}, keep {keep[0]} each {keep[1]} -> void",
                   model(shared, row, start, keep, [tossing(shared, row)]))


def one_starts():
    """The command goes between two states, if there are two."""
    for detail, shared, row, start, state in ONE_STARTS:
        for keep in KEEPS:
            meant = "safe" if keep == ("1", "1") else "unsafe 0"
            yield (f"{detail}, keep {keep[0]} each {keep[1]} -> {meant}",
                   model(shared, row, start, keep, [tossing(shared, row)]))
        names = f"{shared} {row}".split()
        other = state ^ (1 << len(names) >> 1)
        if names:
            yield (f"{detail}, the other state breaks -> unsafe 1",
                   model(shared, row, start,
                         ("1", f"not ({exactly(names, other)})"),
                         [tossing(shared, row)]))


def wide_starts():
    """Twelve names: no state of 4,096 starts, or one of them."""
    shares, rows = numbered("s", 8), numbered("r", 4)
    names = f"{shares} {rows}".split()
    for detail, start in (("the shared part", ("s7 and not s7", "1")),
                          ("the each part", ("s0", "r3 and not r3")),
                          ("both together", ("s7", "not s7 and r0"))):
        for count in (1, 16):
            yield (f"{detail}, {count} commands -> void",
                   model(shares, rows, start, ("0", "1"), idle(count)))
    for state in (0, 7, 8, 255, 256, 2047, 4095):
        start = ("1", exactly(names, state))
        yield f"{state} -> safe", model(shares, rows, start)
        yield (f"{state}, which breaks -> unsafe 0",
               model(shares, rows, start, ("1", f"not ({start[1]})")))


GROUPS = (nothing_starts, one_starts, wide_starts)
