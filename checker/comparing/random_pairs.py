"""Texts with sheets: a trace that passes, and what may be met beside it."""

from typing import Any, NamedTuple

from evidence.calls import refused
from evidence.one_row import OneRow
from evidence.traces import for_text
from inputs.cases import G_SHEET
from inputs.random_cases import names_recased
from inputs.random_portions import another_text
from inputs.random_sheets import found, harmed
from inputs.random_traces import passing_traces, some_sheet
from reader.model import Refusal
from reader.reading import read


class Pair(NamedTuple):
    """A text and a sheet; what is due of the trace if it passes, or what the
    test says."""

    text: bytes
    sheet: bytes
    due: Any

    def passes(self):
        return not isinstance(self.due, str)


def random_pairs(rng, text, due_in):
    """A text with its sheets: the first is a trace that passes, if there is
    one, and the others are to be met on the way. `due_in` tells what is due
    in the table of a model."""
    model = read(text)
    if isinstance(model, Refusal):
        sheet = rng.choice((G_SHEET, b"", rng.randbytes(27)))
        return [Pair(text, sheet, refused(model))]
    table = OneRow(model)
    traces = passing_traces(rng, table, 2)
    sheet = traces[0] if traces else found(rng, table)
    first = Pair(text, sheet, due_in(table, sheet))
    other_text = another_text(rng, text)
    return [first, first._replace(text=names_recased(rng, text)),
            Pair(other_text, sheet, for_text(due_in, other_text, sheet)),
            *(Pair(text, other, due_in(table, other))
              for other in (*traces[1:], harmed(rng, sheet),
                            some_sheet(rng, table)))]
