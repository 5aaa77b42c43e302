"""Calls that are handed what no call left: another position, other entries in
the tables, another text. Refusals are as due, and so is what they leave. Else
only the kind of an answer is known, and that nothing is written but the
entries for the model's states and, at the end, the room for a sheet."""

from typing import NamedTuple, Union

from comparing.lending import beside, sheet_buffer, words
from comparing.portions import lengths
from comparing.random_walks import LONGER
from comparing.reservations import kind_of
from comparing.told import position_told
from evidence.calls import TOO_SHORT, refused
from evidence.calls_portions import OUT_OF_RANGE, call_refused, tables_at
from evidence.one_row import OneRow
from evidence.portions import gone_on, opened
from evidence.reservations import reservation
from inputs.random_portions import (ALL, altered_position, altered_tables,
                                    another_text, one_portion, position_of)
from reader.model import Refusal
from reader.reading import read


class Handed(NamedTuple):
    """A text with the table of its model, or with its Refusal; and what is
    handed over with it."""

    text: bytes
    table: Union[OneRow, Refusal]
    position: int
    first: list
    second: list

    def refusal(self):
        return call_refused(self.table, self.first, self.second)

    def lent(self):
        return self.first[:], self.second[:]


def compare_altered(rng, library, case, differences):
    """Some calls, each of which is handed what the one before left."""
    if isinstance(case.table, Refusal):
        return
    handed = altered(rng, case)
    for _ in range(rng.randint(1, 4)):
        call = rng.choice((compare_portion, compare_portion, compare_met,
                           compare_finish))
        handed = call(rng, library, handed, differences)


def altered(rng, case):
    """What is held at a pause of a search, then altered."""
    text, table = case.text, case.table
    pause = gone_on(table, opened(table), rng.choice((0, 0, 1, 2, ALL)))
    tables = tables_at(table, pause, *(
        words(rng, table.states + rng.choice(LONGER)) for _ in range(2)))
    position = position_of(pause)
    if rng.random() < 0.2:
        position = position_of(rng.choice((opened(table),
                                           gone_on(table, pause, 1))))
    elif rng.random() < 0.6:
        position = altered_position(rng, position, table.states)
    if rng.random() < 0.6:
        tables = altered_tables(rng, *tables, table.states,
                                len(pause.met))
    if rng.random() < 0.3:
        text = another_text(rng, text)
        said = read(text)
        table = said if isinstance(said, Refusal) else OneRow(said)
    if rng.random() < 0.1:
        cut = rng.randrange(2)
        tables = [part[:rng.randrange(len(part))] if cut == number else part
                  for number, part in enumerate(tables)]
    return Handed(text, table, position, *tables)


def note(differences, what, handed, given, free, kinds, said, lent):
    """An answer of one of these kinds, beside what it left in the buffers
    given. So many entries of each are free."""
    refusal = refusal_due(handed, given)
    if refusal is None:
        expected = said if said.split(" ")[0] in kinds else " or ".join(kinds)
        left = [after[:count] + before[count:]
                for before, after, count in zip(given, lent, free)]
    else:
        expected, left = refused(refusal), given
    name = what.split(",")[0]
    differences.met[f"altered {name}: {kind_of(expected)}"] += 1
    differences.note(f"altered {what} of {handed.position:#x}, buffers of "
                     f"{lengths(*given)}: {handed.text!r}",
                     beside(expected, left, lent), beside(said, lent, left))


def refusal_due(handed, given):
    """That of the text, of a table, or of a sheet buffer if there is one."""
    refusal = handed.refusal()
    if refusal is None and len(given) > 2:
        too_short = len(given[2]) < reservation(handed.table).bytes
        return TOO_SHORT if too_short else None
    return refusal


def states_of(handed):
    return 0 if isinstance(handed.table, Refusal) else handed.table.states


def compare_portion(rng, library, handed, differences):
    states = rng.choice((0, 1, 1, 2, one_portion(rng)))
    lent = handed.lent()
    position = library.portion(handed.position, states, handed.text, *lent)
    note(differences, f"portion, {states}", handed, handed[3:],
         [states_of(handed)] * 2, ("paused", "ended"),
         position_told(position), lent)
    if handed.refusal() is not None:
        return handed
    return handed._replace(position=position, first=lent[0], second=lent[1])


def compare_met(rng, library, handed, differences):
    count = states_of(handed)
    inside = rng.choice((0, rng.randrange(count + 1), count - 1))
    asked = [max(0, inside), count, count + 1, (1 << 64) - 1]
    lent = handed.lent()
    said = library.met(handed.position, asked, handed.text, *lent)
    for state, answer in zip(asked, said):
        if handed.refusal() is None and state >= count:
            differences.met["altered met: out of range"] += 1
            differences.note(f"altered met, {state}: {handed.text!r}",
                             refused(OUT_OF_RANGE), answer)
        else:
            note(differences, f"met, {state}", handed, handed[3:], (0, 0),
                 ("yes", "no"), answer, lent)
    return handed


def compare_finish(rng, library, handed, differences):
    size = 7 + 10 * states_of(handed)
    buffer = sheet_buffer(rng, max(0, size + rng.choice((0, 1, 40, 40, -1))))
    lent = *handed.lent(), buffer[:]
    said = library.finish(handed.position, handed.text, *lent)
    note(differences, "finish", handed, (*handed[3:], buffer),
         (*[states_of(handed)] * 2, size), ("safe", "void", "unsafe"), said,
         lent)
    if refusal_due(handed, (*handed[3:], buffer)) is not None:
        return handed
    length = int(said.split(" ")[1])
    differences.note(f"altered finish, the sheet's length: {handed.text!r}",
                     min(length, size), length)
    return handed._replace(first=lent[0], second=lent[1])
