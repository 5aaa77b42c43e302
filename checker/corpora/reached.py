"""The corpus of questions to the map of a sheet: labelled texts, each with a
sheet.

A label is a group and a detail. Behind an arrow follows what the test says of
the sheet, which is the answer to every question; or, where the sheet is a map
that passes, `map` and the states to which the answer is yes. There 2-5 are
the states from 2 to 5.
"""

from corpora.pairs_maps import whole_byte
from corpora.pairs_models import quiet
from corpora.reports_settings import resting, these
from corpora.reservations_texts import refused as refused_texts
from evidence.calls_portions import Passing
from evidence.sheets import header, record
from inputs.cases import (G, G_CASES, G_SHEET, G_VOID, H, H_CASES, map_for,
                          table_of, trace_for)
from inputs.feed import gathered
from inputs.phrases import model
from inputs.starts import NOTHING_STARTS, ONE_STARTS
from reader.reading import read

H_SHEET = map_for(H, {1, 3, 5})


def maps():
    """The search's own map of H is 2A; others that pass are larger."""
    for byte, meant in ((0x2A, "map 1 3 5"), (0x2B, "map 0 1 3 5"),
                        (0x2E, "map 1 2 3 5"), (0x3A, "map 1 3 4 5"),
                        (0x3E, "map 1-5"), (0x3F, "map 0-5"),
                        (0x22, "A"), (0x00, "A"), (0xC0, "A"), (0x15, "A"),
                        (0xFF, "B"), (0x6A, "B"), (0xAA, "B"), (0x4A, "B"),
                        (0x0A, "C"), (0x1F, "C")):
        yield f"{byte:02X} for H -> {meant}", H, whole_byte(H, byte)
    yield "2A, names in other cases -> map 1 3 5", H_CASES, H_SHEET
    yield "2A for G -> C", G, H_SHEET


def void_maps():
    """Nothing starts, so no run reaches a member either; the map is asked
    all the same."""
    for byte, meant in ((0x00, "map none"), (0x01, "map 0"),
                        (0x15, "map 0 2 4"), (0x14, "map 2 4"),
                        (0x3F, "C"), (0x02, "C"), (0x40, "B"), (0xFF, "B")):
        yield f"{byte:02X} -> {meant}", G_VOID, whole_byte(G_VOID, byte)
    kept = G_VOID.replace("not (w and x)", "1")
    yield "FF, all is kept -> map 0-7", kept, whole_byte(kept, 0xFF)
    yield "7F, all is kept -> C", kept, whole_byte(kept, 0x7F)
    for detail, shared, row, start in NOTHING_STARTS[::3]:
        text = model(shared, row, start)
        last = (1 << len(f"{shared} {row}".split())) - 1
        yield f"{detail}, no member -> map none", text, map_for(text, ())
        yield (f"{detail}, the last member -> map {last}",
               text, map_for(text, {last}))


def traces():
    """No trace has a map, whether it holds or not."""
    yield "G's own -> trace holds", G, G_SHEET
    yield "G's own, other cases -> trace holds", G_CASES, G_SHEET
    yield ("longer than need be -> trace holds",
           G, trace_for(G, 1, (0, 1, 3), (0, 2, 5), (0, 3, 7)))
    yield "not from a start state -> D", G, trace_for(G, 4, (0, 3, 7))
    yield "G's own for H -> E", H, G_SHEET
    yield "a wrong step -> E", G, trace_for(G, 1, (0, 2, 7))
    yield "not to the end -> F", G, trace_for(G, 1, (0, 1, 3))
    yield "no step -> F", H, trace_for(H, 1)
    yield "where nothing starts -> D", G_VOID, G_SHEET
    broken = G.replace("keep 1 each not (w and x)", "keep 0 each 1")
    yield "of no steps -> trace holds", broken, trace_for(broken, 3)


def refused_sheets():
    for detail, number, place, text, sheet in (
            ("no sheet", 9, 0, H, b""),
            ("a cut header", 9, 0, H, H_SHEET[:8]),
            ("the header alone", 9, 9, H, H_SHEET[:9]),
            ("a cut map", 9, 9, H, H_SHEET[:-1]),
            ("a byte after the map", 9, 16, H, H_SHEET + b"\0"),
            ("a wrong kind", 9, 9, H, H_SHEET[:13] + b"\5" + H_SHEET[14:]),
            ("unused bits", 9, 9, model("a", ""),
             map_for(model("a", ""), ())[:15] + b"\4"),
            ("a cut step", 9, 17, G, G_SHEET[:-1]),
            ("wrong counts", 10, 0, H, record(1, [2, 1, 1]) + H_SHEET[9:]),
            ("wrong counts, then a wrong kind", 10, 0, H,
             record(1, [1, 2, 2]) + record(6, [0])),
            ("a start out of range", 10, 9, H,
             header(table_of(H)) + record(3, [8, 0])),
            ("an unknown command", 10, 17, G, trace_for(G, 1, (1, 0, 1))),
            ("a word out of range", 10, 17, G, trace_for(G, 1, (0, 4, 1))),
            ("a map filled up to 65536", 9, 16, H,
             H_SHEET + bytes(65536 - 16)),
            ("a map filled up to 65537", 9, 65536, H,
             H_SHEET + bytes(65537 - 16)),
            ("where nothing starts, a cut map", 9, 9, G_VOID,
             map_for(G_VOID, ())[:-1])):
        yield f"{detail} -> refused {number} {place}", text, sheet


def texts_refused():
    """The text comes first, also before a sheet that is refused."""
    for label, text in refused_texts():
        for detail, sheet in (("a map", H_SHEET), ("a trace", G_SHEET),
                              ("no sheet", b"")):
            yield f"{detail}: {label}", text, sheet
    long = H.ljust(16385)
    for detail, sheet in (("a map", H_SHEET), ("no sheet", b"")):
        yield f"{detail}, a long text -> refused 1 16384", long, sheet


def sizes():
    """One state, a few, and 4,096."""
    for detail, shared, row, start, state in ONE_STARTS:
        text = model(shared, row, start)
        last = (1 << len(f"{shared} {row}".split())) - 1
        states = f"0-{last}" if last else "0"
        yield f"{detail} -> map {state}", text, map_for(text, {state})
        yield (f"{detail}, all members -> map {states}",
               text, map_for(text, range(last + 1)))
        yield f"{detail}, no member -> A", text, map_for(text, ())
    wide = quiet(12)
    yield "12 names, all -> map 0-4095", wide, map_for(wide, range(4096))
    yield "12 names, all but one -> A", wide, map_for(wide, range(4095))
    for shared, row in ((8, 4), (2, 10)):
        void = resting(shared, row, "0").replace("keep 1 each 0",
                                                 "keep 1 each 1")
        for members in ((), (0,), (4095,), (7, 8, 255, 256, 2047, 2048)):
            said = " ".join(map(str, members)) or "none"
            few = these(shared, row, members or (9,))
            yield (f"{shared} and {row} names, void -> map {said}",
                   void, map_for(void, members))
            if members:
                yield (f"{shared} and {row} names -> map {said}",
                       few, map_for(few, members))
                yield (f"{shared} and {row} names, {said} and one more -> B",
                       few, map_for(few, (*members, 1234)))


GROUPS = maps, void_maps, traces, refused_sheets, texts_refused, sizes


def due(label, text):
    """The Passing that a label says, or what the test says."""
    _, _, meant = label.rpartition(" -> ")
    if not meant.startswith("map "):
        return meant
    members = set()
    for word in meant.split(" ")[1:] if meant != "map none" else ():
        first, _, last = word.partition("-")
        members |= set(range(int(first), int(last or first) + 1))
    model_read = read(text)
    return Passing(1 << len(model_read.shared + model_read.row),
                   frozenset(members))


def corpus():
    """All (label, text, sheet)."""
    return gathered(GROUPS)
