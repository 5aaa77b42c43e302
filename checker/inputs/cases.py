"""Two models that most sheets are tried on, and sheets made for a text."""

from evidence.one_row import OneRow
from evidence.sheets import map_sheet, trace_sheet
from reader.model import Refusal
from reader.reading import read

# States 1 and 3 are start states, 6 and 7 break. G is unsafe, H is safe.
G = ("shared m. row w x.\n"
     "start m each not x.\n"
     "keep 1 each not (w and x).\n"
     "command grant if m do\n"
     "for 1 do w := *; x := * else skip end else skip.")
H = G.replace("x := *", "x := not w and *")

# Names in other cases: these texts say the same models, and so have the same
# sheets.
G_CASES = ("shared M. row w X.\n"
           "start m each not x.\n"
           "keep 1 each not (W and x).\n"
           "command Grant if m do\n"
           "for 1 do W := *; x := * else skip end else skip.")
H_CASES = G_CASES.replace("x := *", "X := not W and *")

# Nothing starts; 6 and 7 break as in G.
G_VOID = G.replace("start m each not x", "start 1 each 0")

# The first breaking run of G: from state 1 by word 3 to state 7.
G_SHEET = bytes.fromhex("030000000100010201"
                        "0200000003000100"
                        "04000000040000030700")


def table_of(text):
    said = read(text.encode())
    assert not isinstance(said, Refusal), text
    return OneRow(said)


def map_for(text, members):
    return map_sheet(table_of(text), members)


def trace_for(text, start, *steps):
    return trace_sheet(table_of(text), start, steps)
