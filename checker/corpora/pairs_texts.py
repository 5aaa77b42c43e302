"""Refused texts: the sheet that comes with them is not looked at."""

from evidence.sheets import record
from inputs.cases import G, G_SHEET
from inputs.phrases import TOO_LONG, nested, numbered, stars

SHEETS = {
    "a whole sheet": G_SHEET,
    "no sheet": b"",
    "a cut sheet": G_SHEET[:12],
    "a sheet of wrong kind": record(7, b"") + G_SHEET[9:],
    "a sheet of wrong counts": record(1, [9, 9, 9]) + G_SHEET[9:],
}


def changed(old, new, mark=None):
    """G with a change, and the place of the mark, or else of the new part."""
    text = G.replace(old, new, 1)
    assert text != G, old
    return text, text.index(mark or new)


def padded(length):
    return G + " " * (length - len(G))


def refused_texts():
    faults = {
        "2 for a byte": changed("w :=", "w ~=", "~"),
        "2 for a long word": changed("grant", TOO_LONG),
        "3 for no text": ("", 0),
        "3 for a cut text": (G[:-1], len(G) - 1),
        "3 for a word after the text": (G + " end", len(G) + 1),
        "4 for a row name": changed("row w x", "row w m", "m.\nstart"),
        "4 for a command's name": changed("grant", "w", "w if"),
        "5 for an undeclared name": changed("w :=", "v :="),
        "5 for a row name outside for": changed("if m", "if w", "w do"),
        "6 for a star in start": changed("each not x", "each *", "*"),
        "6 for a star in keep": changed("keep 1", "keep *", "*"),
        "7 for the ninth star": changed(
            "w := *; x", f"w := {stars(8)}; x", "* else skip end"),
        "7 for the eleventh row name": changed(
            "w x", f"w x {numbered('r', 9)}", "r8"),
        "7 for depth 17": changed(
            "if m", f"if {nested('(', ')', 17, 'm')}", "(m)"),
    }
    for fault, (text, place) in faults.items():
        for with_it, sheet in SHEETS.items():
            yield (f"{fault}, {with_it} -> refused {fault[0]} {place}",
                   text, sheet)
    yield "3 with a sheet too long -> refused 3 0", "", bytes(65537)


def long_texts():
    whole = padded(16384)
    yield "at the limit, a whole sheet -> trace holds", whole, G_SHEET
    yield "at the limit, no sheet -> refused 9 0", whole, b""
    yield "one over, a whole sheet -> refused 1 16384", whole + " ", G_SHEET
    yield "one over, no sheet -> refused 1 16384", whole + " ", b""
    yield ("twice the limit, a whole sheet -> refused 1 16384",
           padded(32768), G_SHEET)
    yield ("more than a program has room for, a cut sheet"
           " -> refused 1 16384", padded(32769), G_SHEET[:9])
    yield ("bad bytes, a sheet of wrong kind -> refused 1 16384",
           "~" * 16385, SHEETS["a sheet of wrong kind"])


GROUPS = (refused_texts, long_texts)
