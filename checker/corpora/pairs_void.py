"""Sheets of models in which nothing starts: a map is void where it passes,
whatever its members, and a trace has no state to begin in. Beside them models
in which one state starts."""

from corpora.pairs_maps import whole_byte
from corpora.pairs_models import exactly, subsets, tossing
from inputs.cases import G_SHEET, G_VOID, map_for, trace_for
from inputs.phrases import model, numbered
from inputs.starts import NOTHING_STARTS, ONE_STARTS


def small_models(starts):
    """What is shown, names, the rest of the entry, `keep` and the text. All
    states are kept, or all but the last; the command sets the last name."""
    for detail, shared, row, start, *rest in starts:
        names = f"{shared} {row}".split()
        last = exactly(names, (1 << len(names)) - 1) or "1"
        for keep in ("1", f"not ({last})"):
            text = model(shared, row, start, ("1", keep),
                         [tossing(shared, row)])
            yield f"{detail}, keep {keep}", names, rest, keep, text


def fault_of(names, keep, members):
    """B or C, if the members have such a fault."""
    if keep != "1" and (1 << len(names)) - 1 in members:
        return "B"
    top = 1 << len(names) >> 1
    return None if {state ^ top for state in members} <= members else "C"


def worked_void():
    """States 0, 2 and 4 stay, and from the odd ones 7 is reached."""
    for byte, meant in ((0x00, "void"), (0x15, "void"), (0x01, "void"),
                        (0x3F, "C"), (0x02, "C"), (0x2A, "C"), (0x40, "B"),
                        (0xFF, "B"), (0xAA, "B")):
        yield f"{byte:02X} -> {meant}", G_VOID, whole_byte(G_VOID, byte)
    kept = G_VOID.replace("not (w and x)", "1")
    for byte, meant in ((0x00, "void"), (0xFF, "void"), (0x7F, "C")):
        yield (f"{byte:02X} where all is kept -> {meant}",
               kept, whole_byte(kept, byte))
    yield "G's own trace -> D", G_VOID, G_SHEET
    yield ("a byte after the empty map -> refused 9 16",
           G_VOID, whole_byte(G_VOID, 0) + b"\0")
    yield ("the empty map cut -> refused 9 9",
           G_VOID, whole_byte(G_VOID, 0)[:-1])


def maps_where_nothing_starts():
    for detail, names, _, keep, text in small_models(NOTHING_STARTS):
        for members in subsets(1 << len(names)):
            meant = fault_of(names, keep, members) or "void"
            yield (f"{detail}, {sorted(members)} -> {meant}",
                   text, map_for(text, members))


def traces_where_nothing_starts():
    """No letter but D, though the steps may be wrong or the end be kept."""
    for detail, names, _, _, text in small_models(NOTHING_STARTS):
        last, top = (1 << len(names)) - 1, 1 << len(names) >> 1
        word = 1 if names else 0
        for start, *steps in ((0,), (last,), (0, (0, word, top)),
                              (0, (0, word, last)), (last, (0, 0, last))):
            yield (f"{detail}, from {start} by {steps} -> D",
                   text, trace_for(text, start, *steps))


def maps_where_one_starts():
    for detail, names, (start,), keep, text in small_models(ONE_STARTS):
        for members in subsets(1 << len(names)):
            meant = ("A" if start not in members
                     else fault_of(names, keep, members) or "safe holds")
            yield (f"{detail}, {sorted(members)} -> {meant}",
                   text, map_for(text, members))


def wide_void():
    """Twelve names. Where one state starts, only a map that has it passes."""
    shares, rows = numbered("s", 8), numbered("r", 4)
    names = f"{shares} {rows}".split()
    every, last = range(4096), f"not ({exactly(names, 4095)})"
    for detail, start in (("the shared part", ("s7 and not s7", "1")),
                          ("the each part", ("s0", "r3 and not r3")),
                          ("both together", ("s7", "not s7 and r0"))):
        text = model(shares, rows, start)
        yield f"{detail}, no member -> void", text, map_for(text, ())
        yield f"{detail}, one member -> void", text, map_for(text, {4095})
        yield f"{detail}, all members -> void", text, map_for(text, every)
        kept = model(shares, rows, start, ("1", last))
        yield f"{detail}, the last breaks -> B", kept, map_for(kept, every)
    for state in (0, 7, 8, 255, 256, 2047, 4095):
        text = model(shares, rows, ("1", exactly(names, state)))
        yield f"{state} starts, no member -> A", text, map_for(text, ())
        yield (f"{state} starts, a member alone -> safe holds",
               text, map_for(text, {state}))


GROUPS = (worked_void, maps_where_nothing_starts, traces_where_nothing_starts,
          maps_where_one_starts, wide_void)
