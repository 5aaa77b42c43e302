"""Sheets that are no trace that passes, records that are too short, and which
answer comes first where several are due."""

from corpora.not_passing import tested, worked
from corpora.player_labels import walk
from corpora.player_walks import BROKEN, FULL, TWICE_AROUND
from inputs.cases import G, G_CASES, G_SHEET, trace_for


def outcomes():
    """With a record that fits where the trace is G's, and with one that fits
    nowhere."""
    for detail, text, sheet, said in tested():
        for given in ((0, 1), FULL):
            yield walk(f"{detail}, from {given}", text, sheet, given,
                       f"all {said}")


def outcome_first():
    """Before a record that is too short, one that is foreign, and an end. The
    records of two entries are at G's ends, or foreign."""
    for detail, text, sheet, said in worked():
        for given in ((), (0,), (1 << 63,), (0, 1), (1, 7), (0, 3), (2, 7),
                      (0, 0), FULL, (0, 1, 5)):
            yield walk(f"{detail}, from {given}", text, sheet, given,
                       f"all {said}")


# G's own states are 1 and 7; those of twice around 1 3 1 3 1 7; that of no
# step is 1.
PASSING = (("G's own", G, G_SHEET), ("names in other cases", G_CASES, G_SHEET),
           ("around twice", G, TWICE_AROUND),
           ("no step", BROKEN, trace_for(BROKEN, 1)))


def too_short():
    """Before a place that is foreign by itself, and before an end."""
    for detail, text, sheet in PASSING:
        for given in ((), (0,), (1,), (5,), (6,), (1 << 32,), (1 << 63,),
                      FULL[:1]):
            yield walk(f"{detail}, from {given}", text, sheet, given,
                       "all refused 8 0")


def foreign_before_an_end():
    for detail, text, sheet in PASSING:
        for state in (0, 2, 3, 7, 65537, FULL[0]):
            yield walk(f"{detail}, at 0 with {state}", text, sheet,
                       (0, state), "back foreign", "moves foreign")
    for detail, text, sheet, last in (("G's own", G, G_SHEET, 1),
                                      ("around twice", G, TWICE_AROUND, 5)):
        for state in (1, 3, 6, 7 + 65536, FULL[0]):
            yield walk(f"{detail}, at the last with {state}", text, sheet,
                       (last, state), "forward foreign", "moves foreign")
        for place in (last + 1, last + 2, (1 << 32) + last, FULL[0]):
            yield walk(f"{detail}, at {place}", text, sheet, (place, 7),
                       "forward foreign", "moves foreign")


def more_entries():
    """What stands behind the record stays."""
    for rest in ((0,), (1,), FULL[:1], (7, 7), (0, 0, 0), (1, 7, 1, 7)):
        yield walk(f"G's own, then {rest}", G, G_SHEET, (9, 9, *rest),
                   "moves foreign", "player opened 0 1", "forward moved 1 7",
                   "forward end", "back moved 0 1", "back end",
                   "forward moved 1 7", "beginning moved 0 1")


GROUPS = (outcomes, outcome_first, too_short, foreign_before_an_end,
          more_entries)
