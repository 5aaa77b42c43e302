"""The acceptance test: a text and a sheet, one line of answer."""

from evidence.one_row import OneRow
from evidence.sheets import Map, contents
from reader.model import Refusal
from reader.reading import read

# What is said of a sheet without fault, by the verdict that it is for.
HOLDS = {"safe": "safe holds", "void": "void", "unsafe": "trace holds"}


def map_fault(table, members):
    if any(table.starts(state) and state not in members
           for state in range(table.states)):
        return "A"
    if any(table.breaks(state) for state in members):
        return "B"
    if any(after not in members for state in members
           for _, _, after in table.steps_from(state)):
        return "C"
    return None


def map_answer(table, members):
    """Where nothing starts there is no run to be safe, whichever members a
    map without fault has."""
    fault = map_fault(table, members)
    return fault or HOLDS["safe" if table.can_start() else "void"]


def trace_fault(table, start, steps):
    if not table.starts(start):
        return "D"
    state = start
    for command, word, after in steps:
        if table.step(state, command, word) != after:
            return "E"
        state = after
    return None if table.breaks(state) else "F"


def trace_answer(table, start, steps):
    return trace_fault(table, start, steps) or HOLDS["unsafe"]


def answer(text, sheet):
    model = read(text)
    if isinstance(model, Refusal):
        return f"refused {model.number} {model.place}"
    return answer_in(OneRow(model), sheet)


def answer_in(table, sheet):
    """The same for the table of a text's model."""
    held = contents(sheet, table)
    if isinstance(held, Refusal):
        return f"refused {held.number} {held.place}"
    if isinstance(held, Map):
        return map_answer(table, held.members)
    return trace_answer(table, held.start, held.steps)
