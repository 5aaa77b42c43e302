"""Compares searches in portions, call by call, with what is due. All that is
handed over is as the call before left it."""

from typing import NamedTuple, Union

from comparing.lending import beside, like_states, words
from comparing.reservations import kind_of
from comparing.told import position_told
from evidence.calls import Found, search_leaves
from evidence.calls_portions import met_said, pause_leaves
from evidence.one_row import OneRow
from evidence.portions import Pause
from reader.model import Refusal

MOST_ASKED = 64
WIDTHS = 16, 32, 48, 63


class Case(NamedTuple):
    """A text, with the table of its model and what a search in one go finds;
    or with the text's Refusal for both."""

    title: str
    text: bytes
    table: Union[OneRow, Refusal]
    due: Union[Found, Refusal]


class Held(NamedTuple):
    """What one has at a pause: a position and the tables; and which pause it
    is."""

    position: int
    pause: Pause
    first: list
    second: list

    def lent(self):
        """Copies, so that the same can be taken up again."""
        return self.first[:], self.second[:]


def note(differences, what, expected, left, said, lent):
    """An answer with what it left, beside what is due."""
    name = what.split(",")[0]
    differences.met[f"{name}: {kind_of(expected)}"] += 1
    differences.note(what, beside(expected, left, lent),
                     beside(said, lent, left))


def lengths(*buffers):
    return " ".join(str(len(buffer)) for buffer in buffers)


def compare_open(library, case, pause, first, second, differences):
    """What is held after the call, which is to come to this pause."""
    expected, *left = pause_leaves(case.table, pause, first, second)
    lent = first[:], second[:]
    position = library.open(case.text, *lent)
    note(differences, f"open, tables of {lengths(*lent)}: {case.title}",
         expected, left, position_told(position), lent)
    return Held(position, pause, *lent)


def compare_portion(library, case, held, states, pause, differences):
    """What is held after so many states more, which come to this pause."""
    expected, *left = pause_leaves(case.table, pause, held.first, held.second)
    lent = held.lent()
    position = library.portion(held.position, states, case.text, *lent)
    note(differences, f"portion, {states} after {shown(held)}, tables of "
         f"{lengths(*lent)}: {case.title}", expected, left,
         position_told(position), lent)
    return Held(position, pause, *lent)


def compare_met(library, case, held, asked, differences):
    """The question of each of these states."""
    expected = [met_said(case.table, held.pause, state, held.first,
                         held.second) for state in asked]
    lent = held.lent()
    said = library.met(held.position, asked, case.text, *lent)
    for state, meant, answer in zip(asked, expected, said):
        differences.met[f"met: {kind_of(meant)}"] += 1
        differences.note(f"met, {state} after {shown(held)}, tables of "
                         f"{lengths(*lent)}: {case.title}", meant, answer)
    differences.note(f"tables after met, {shown(held)}: {case.title}",
                     beside(len(asked), held[2:], lent),
                     beside(len(said), lent, held[2:]))


def compare_finish(library, case, held, sheet, differences):
    """From here to the end, with this sheet buffer."""
    expected, *left = search_leaves(case.due, *held.lent(), sheet)
    lent = *held.lent(), sheet[:]
    said = library.finish(held.position, case.text, *lent)
    note(differences, f"finish, after {shown(held)}, buffers of "
         f"{lengths(*lent)}: {case.title}", expected, left, said, lent)


def shown(held):
    return position_told(held.position)


def moved(rng, table, held, longer=0):
    """The same in other memory, with other noise where none of it stands."""
    met = len(held.pause.met)
    spare = like_states(rng, table.states + longer - met, table.states)
    return held._replace(
        first=held.first[:met] + spare,
        second=held.second[:table.states] + words(rng, longer))


def shortened(table, held):
    """The same, with one entry too few in either table or in both."""
    short = table.states - 1
    return (held._replace(first=held.first[:short]),
            held._replace(second=held.second[:short]),
            held._replace(first=held.first[:short],
                          second=held.second[:short]))


def in_range(rng, table, pause):
    """States to be asked about: all, or of many some that are met and some
    that need not be."""
    if table.states <= MOST_ASKED:
        return list(range(table.states))
    met = list(pause.met)
    return sorted({0, 1, table.states - 1, *met[:4], *met[-4:],
                   *rng.sample(met, min(len(met), MOST_ASKED // 4)),
                   *rng.sample(range(table.states), MOST_ASKED // 2)})


def out_of_range(table, pause):
    """Numbers of no state, also some that would be if bits were lost."""
    like = [*pause.met, 0][0]
    return sorted({table.states, table.states + 1, table.states + like,
                   2 * table.states, 4096, 65535, (1 << 64) - 1,
                   *(like + (1 << width) for width in WIDTHS)})
