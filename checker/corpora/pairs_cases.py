"""Sheets of a text, tried on a text with its names in other cases."""

import re

from corpora.pairs_readings import READINGS
from inputs.cases import (G, G_CASES, G_SHEET, G_VOID, H, H_CASES, map_for,
                          trace_for)
from inputs.phrases import refused_at

# A name of the models in READINGS.
NAME = re.compile(r"\b[abdxy]\b")


def used_in_capitals(text):
    """The lists of names stay as they are, up to the second full stop."""
    lists = text.index(".", text.index(".") + 1)
    return text[:lists] + NAME.sub(lambda name: name.group().upper(),
                                   text[lists:])


def worked_in_cases():
    for byte, meant in ((0x2A, "safe holds"), (0x3F, "safe holds"),
                        (0x22, "A"), (0xFF, "B"), (0x0A, "C")):
        yield (f"H, map {byte:02X} -> {meant}",
               H_CASES, map_for(H, ())[:15] + bytes([byte]))
    yield "G -> trace holds", G_CASES, G_SHEET
    yield "G for H -> E", H_CASES, G_SHEET
    yield "H for G -> C", G_CASES, map_for(H, (1, 3, 5))
    yield "not from a start state -> D", G_CASES, trace_for(G, 4, (0, 3, 7))
    yield "not to the end -> F", G_CASES, trace_for(G, 1, (0, 1, 3))
    yield ("nothing starts -> void",
           G_CASES.replace("start m each not x", "start M each not m"),
           map_for(G_VOID, ()))
    yield "no sheet -> refused 9 0", G_CASES, b""
    yield ("a command too many -> refused 10 17",
           G_CASES, trace_for(G, 1, (1, 0, 1)))


def readings_in_cases():
    for detail, text, start, right, wrong in READINGS:
        other = used_in_capitals(text)
        yield f"{detail} -> trace holds", other, trace_for(text, start, right)
        yield (f"{detail}, read otherwise -> E",
               other, trace_for(text, start, wrong))


def refused_in_cases():
    for detail, number, text in (
            ("a row name again", 4, G.replace("row w x", "row w ^W")),
            ("a command like a row name", 4, G.replace("grant", "^X")),
            ("a row name outside for", 5, G.replace("if m", "if ^W")),
            ("a command's name", 5, G.replace("if m", "if ^GRANT")),
            ("a reserved word in its place", 3, G.replace("if m", "^If m")),
            ("a reserved word for a name", 3, G.replace("grant", "^Keep")),
            ("a long word", 2, G.replace("grant", "^Grantgrantgrantgr"))):
        yield *refused_at(detail, number, text), G_SHEET
        yield *refused_at(f"{detail}, no sheet", number, text), b""


GROUPS = (worked_in_cases, readings_in_cases, refused_in_cases)
