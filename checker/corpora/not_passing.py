"""Sheets that are no trace that passes, each with what the test says."""

from corpora import (pairs_cases, pairs_maps, pairs_readings, pairs_refused,
                     pairs_texts, pairs_traces, pairs_void)
from inputs.cases import G, G_SHEET, G_VOID, H, map_for, trace_for
from inputs.phrases import TOO_LONG, refused_at

# What the test says of these pairs stands in their labels.
TESTED = (
    pairs_maps.worked_maps, pairs_maps.letters_of_maps,
    pairs_maps.members_out_of_reach, pairs_void.worked_void,
    pairs_cases.worked_in_cases, pairs_cases.refused_in_cases,
    pairs_traces.worked_traces, pairs_traces.every_step,
    pairs_traces.every_start, pairs_traces.letters_of_traces,
    pairs_traces.longer_than_needed, pairs_traces.one_wrong_step,
    pairs_traces.longest, pairs_traces.wide_traces, pairs_readings.clauses,
    *pairs_refused.GROUPS, *pairs_texts.GROUPS)

# What is shown, text and sheet, what the test says.
SHEETS = (
    ("a map", H, map_for(H, {1, 3, 5}), "safe holds"),
    ("a larger map", H, map_for(H, range(6)), "safe holds"),
    ("a void map", G_VOID, map_for(G_VOID, ()), "void"),
    ("a start is missing", H, map_for(H, {1, 5}), "A"),
    ("a member breaks", H, map_for(H, range(8)), "B"),
    ("a step leads out", H, map_for(H, {1, 3}), "C"),
    ("not from a start", G_VOID, G_SHEET, "D"),
    ("the first step is wrong", H, G_SHEET, "E"),
    ("the last step is wrong", G, trace_for(G, 1, (0, 1, 3), (0, 2, 7)), "E"),
    ("no break at the end", G, trace_for(G, 1, (0, 1, 3)), "F"),
    ("no step and no break", G, trace_for(G, 1), "F"),
    ("no sheet", G, b"", "refused 9 0"),
    ("a cut step", G, G_SHEET[:-1], "refused 9 17"),
    ("a sheet too long", G, G_SHEET.ljust(65537), "refused 9 65536"),
    ("a name more", G.replace("w x", "w x y"), G_SHEET, "refused 10 0"),
    ("a word too large", G, trace_for(G, 1, (0, 4, 7)), "refused 10 17"),
)

# What is shown, by which number it is refused, and a text with a mark where.
TEXTS = (
    ("a word of 17 bytes", 2, G.replace("grant", "^" + TOO_LONG)),
    ("no text", 3, "^"),
    ("a name again", 4, G.replace("w x.", "w ^w.")),
    ("an unknown name", 5, G.replace("if m", "if ^n")),
    ("a star in start", 6, G.replace("start m", "start ^*")),
    ("9 shared names", 7, G.replace("m.", "m a b c d e f g ^h.", 1)),
)


def tested():
    """All (detail, text, sheet, what the test says) of the groups above."""
    for group in TESTED:
        for label, text, sheet in group():
            detail, _, said = label.rpartition(" -> ")
            if said != "trace holds":
                yield f"{group.__name__}: {detail}", text, sheet, said


def worked():
    """The same of a few pairs of each kind."""
    yield from SHEETS
    for detail, number, text in TEXTS:
        label, text = refused_at(detail, number, text)
        yield detail, text, G_SHEET, label.rpartition(" -> ")[2]
    yield "a text too long", G.ljust(16385), G_SHEET, "refused 1 16384"
