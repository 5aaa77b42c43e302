"""The functions of a search in portions as a program has to do them, which
knows at a call only what it is handed: numbers, a text, and lists. It is
called as a library is. Any part of it may be exchanged for a wrong part."""

from dataclasses import dataclass
from functools import cache

from comparing.told import TEST, question_told, search_told
from evidence.acceptance import answer
from evidence.one_row import OneRow
from evidence.sheets import map_sheet, trace_sheet
from reader.model import Refusal
from reader.reading import read
from tests.stand_ins import LETTERS, number, packed

MANY = (1 << 64) - 1


class Remembering(OneRow):
    """Tries the moves of a state once and for all."""

    def __init__(self, model):
        super().__init__(model)
        self.moves = cache(lambda state: tuple(super(
            Remembering, self).steps_from(state)))
        self.starts = cache(super().starts)
        self.breaks = cache(super().breaks)

    def steps_from(self, state):
        return self.moves(state)


@cache
def table_of(text):
    """The table of a text's model, or the text's Refusal."""
    said = read(text)
    return said if isinstance(said, Refusal) else Remembering(said)


@cache
def tested(text, sheet):
    return answer(text, sheet)


@dataclass
class Here:
    """Where a search stands, in the tables that it was handed."""

    table: OneRow
    first: list
    second: list
    expanded: int = 0
    met: int = 0
    trials: int = 0
    broken: bool = False


class Program:
    """The right one."""

    # Opening.

    def open(self, text, first, second):
        said = self.refusal(text, first, second)
        if said:
            return said
        here = Here(table_of(text), first, second)
        self.take_in_starts(here)
        return self.position(here)

    def take_in_starts(self, here):
        states = here.table.states
        here.second[:states] = [0] * states
        for state in filter(here.table.starts, range(states)):
            self.meet(here, state, state)
            if here.broken:
                return

    def meet(self, here, state, by):
        here.first[here.met] = state
        here.second[state] = by + 1
        here.met += 1
        here.broken = here.table.breaks(state)

    # Going on.

    def portion(self, position, states, text, first, second):
        said = self.refusal(text, first, second)
        if said:
            return said
        here = self.taken_up(position, text, first, second)
        self.go_on(here, states)
        return self.position(here)

    def go_on(self, here, states):
        while states and not self.has_ended(here):
            self.expand(here, self.next_state(here))
            states -= 1

    def next_state(self, here):
        return here.first[here.expanded] % here.table.states

    def expand(self, here, state):
        for after in self.results(here, state):
            here.trials += 1
            if not here.second[after] and here.met < here.table.states:
                self.meet(here, after, state)
                if here.broken:
                    return
        here.expanded += 1

    def results(self, here, state):
        return [after for _, _, after in here.table.steps_from(state)]

    def has_ended(self, here):
        return here.broken or here.expanded >= here.met

    # Positions.

    def position(self, here):
        letter = "e" if self.has_ended(here) else "p"
        return number(letter, int(here.broken) | here.expanded << 1
                      | here.met << 14 | here.trials << 27)

    def taken_up(self, position, text, first, second):
        """No more than the model has, whatever the position says."""
        table = table_of(text)
        met = min(position >> 22 & 8191, table.states)
        return Here(table, first, second, min(position >> 9 & 8191, met), met,
                    position >> 35, bool(position >> 8 & 1))

    # Refusals.

    def refusal(self, text, first, second):
        """As a number, or 0."""
        table = table_of(text)
        if isinstance(table, Refusal):
            return table.number + 256 * table.place
        return 8 * (min(len(first), len(second)) < table.states)

    # Questions.

    def met(self, position, states, text, first, second):
        return [question_told(self.asked(position, state, text, first,
                                         second)) for state in states]

    def asked(self, position, state, text, first, second):
        said = self.refusal(text, first, second)
        if said:
            return said
        here = self.taken_up(position, text, first, second)
        if not self.is_state(here.table, state):
            return 10
        return ord("y" if self.is_met(here, state) else "n")

    def is_state(self, table, state):
        return state < table.states

    def is_met(self, here, state):
        return here.second[state] != 0

    def reached(self, text, sheet, states):
        return [question_told(self.asked_map(text, sheet, state))
                for state in states]

    def asked_map(self, text, sheet, state):
        said = tested(text, sheet)
        if said not in ("safe holds", "void"):
            return number_of(said)
        if not self.is_state(table_of(text), state):
            return 10
        return ord("y" if self.is_member(text, sheet, state) else "n")

    def is_member(self, text, sheet, state):
        return sheet[15 + state // 8] >> state % 8 & 1

    # Finishing.

    def finish(self, position, text, first, second, sheet):
        return search_told(self.finished(position, text, first, second,
                                         sheet))

    def finished(self, position, text, first, second, sheet):
        said = self.refusal(text, first, second)
        if not said and not self.has_room(table_of(text), sheet):
            said = 8
        if said:
            self.leave(said, text, first, second, sheet)
            return said
        here = self.taken_up(position, text, first, second)
        self.go_on(here, MANY)
        verdict, found = self.found(here)
        self.write(here, sheet, found)
        self.clear(here)
        trials = self.trials_told(here, verdict)
        return number(LETTERS[verdict], packed(len(found), trials))

    def has_room(self, table, sheet):
        return len(sheet) >= 7 + 10 * table.states

    def leave(self, said, text, first, second, sheet):
        """What is done where the call is refused: nothing."""

    def write(self, here, sheet, found):
        sheet[:len(found)] = found

    def trials_told(self, here, verdict):
        return here.trials if verdict == "safe" else 0

    def found(self, here):
        """Verdict and sheet."""
        if here.broken and here.met:
            return "unsafe", trace_sheet(here.table, *self.run(here))
        return ("safe" if here.met else "void",
                map_sheet(here.table, self.members(here)))

    def members(self, here):
        return [state for state in range(here.table.states)
                if here.second[state]]

    def run(self, here):
        """From the break back to the start that led there."""
        state = here.first[here.met - 1] % here.table.states
        steps = []
        while len(steps) < here.table.states - 1:
            before = (here.second[state] - 1) % here.table.states
            if before == state:
                break
            steps.insert(0, self.step_between(here, before, state))
            state = before
        return state, steps

    def step_between(self, here, before, after):
        """The first that there is. In altered tables there may be none."""
        moves = here.table.steps_from(before)
        return next((step for step in moves if step[2] == after), moves[0])

    def clear(self, here):
        for table in (here.first, here.second):
            table[:here.table.states] = [0] * here.table.states


def number_of(said):
    """The number of what the test says."""
    words = said.split(" ")
    if words[0] == "refused":
        return int(words[1]) + 256 * int(words[2])
    letters = {meant: letter for letter, meant in TEST.items()}
    return ord(letters.get(said, said))
