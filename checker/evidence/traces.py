"""Traces that pass, for all that is asked about them."""

from evidence.acceptance import HOLDS, answer_in
from evidence.calls import refused
from evidence.one_row import OneRow
from evidence.sheets import contents
from reader.model import Refusal
from reader.reading import read


def passing_in(table, sheet):
    """A Trace that passes, or what the test says of any other sheet."""
    said = answer_in(table, sheet)
    return contents(sheet, table) if said == HOLDS["unsafe"] else said


def for_text(due_in, text, sheet):
    """What is due of a sheet in the table of a text's model, or the text's
    refusal."""
    model = read(text)
    return (refused(model) if isinstance(model, Refusal)
            else due_in(OneRow(model), sheet))
