"""Programs that are right as long as all is handed over as it was left, and
wrong in one way each where something is altered."""

from evidence.sheets import trace_sheet
from tests.portion_program import Program, table_of


def is_odd(position, states):
    """Whether its numbers of states are at odds."""
    expanded, met = position >> 9 & 8191, position >> 22 & 8191
    return met > states or expanded > met


class RefusesOddPositions(Program):
    def portion(self, position, states, text, first, second):
        said = super().portion(position, states, text, first, second)
        odd = said % 256 > 16 and is_odd(position, table_of(text).states)
        return 10 if odd else said


class RefusesToFinish(Program):
    def finished(self, position, text, first, second, sheet):
        said = super().finished(position, text, first, second, sheet)
        odd = said % 256 > 16 and is_odd(position, table_of(text).states)
        return 9 if odd else said


class GivesNoPositionBack(Program):
    """A number that is no position is given back as it is."""

    def portion(self, position, states, text, first, second):
        said = super().portion(position, states, text, first, second)
        return said if said % 256 < 16 or position % 256 in b"pe" else position


class TrustsTheQueue(Program):
    """Notes what it finds in the queue without a look whether it is a
    state."""

    def next_state(self, here):
        state = here.first[here.expanded]
        if here.table.states <= state < len(here.second):
            here.second[state] = here.expanded + 1
        return super().next_state(here)


class TrustsThePosition(Program):
    """Takes the position's word for how many were met."""

    def taken_up(self, position, text, first, second):
        here = super().taken_up(position, text, first, second)
        here.met = position >> 22 & 8191
        return here

    def has_ended(self, here):
        return (here.broken or here.expanded >= here.met
                or here.expanded >= here.table.states)

    def expand(self, here, state):
        for _, _, after in here.table.steps_from(state):
            here.trials += 1
            if not here.second[after] and here.met < len(here.first):
                self.meet(here, after, state)
                if here.broken:
                    return
        here.expanded += 1

    def found(self, here):
        here.met = min(here.met, here.table.states)
        return super().found(here)


class FollowsCircles(Program):
    """Writes as many steps of a circle as the buffer takes."""

    def finished(self, position, text, first, second, sheet):
        self.room = (len(sheet) - 17) // 10
        return super().finished(position, text, first, second, sheet)

    def found(self, here):
        verdict, found = super().found(here)
        if verdict == "unsafe" and len(found) == 7 + 10 * here.table.states:
            start, steps = self.run(here)
            # A run that meets no state twice has no more steps than that.
            passed = [start] + [after for _, _, after in steps]
            if len(set(passed)) < len(passed):
                steps += steps[-1:] * (self.room - len(steps))
                found = trace_sheet(here.table, start, steps)
        return verdict, found


class TellsTooMuch(Program):
    """Counts all states that a position says were met into the length."""

    def finished(self, position, text, first, second, sheet):
        said = super().finished(position, text, first, second, sheet)
        met = position >> 22 & 8191
        if said % 256 == ord("u") and met > table_of(text).states:
            return ord("u") + 256 * (7 + 10 * met)
        return said


class WritesBehindOddSheets(Program):
    def finished(self, position, text, first, second, sheet):
        said = super().finished(position, text, first, second, sheet)
        if said % 256 > 16 and is_odd(position, table_of(text).states):
            sheet[-1] ^= 255
        return said


class RefusesOddEntries(Program):
    """A state that no state can have led to is said to be none."""

    def asked(self, position, state, text, first, second):
        said = super().asked(position, state, text, first, second)
        odd = said % 256 > 16 and second[state] > table_of(text).states
        return 10 if odd else said


class DoesNotKnow(Program):
    """Has a third answer where the tables contradict each other."""

    def asked(self, position, state, text, first, second):
        said = super().asked(position, state, text, first, second)
        met = first[:position >> 22 & 8191]
        if said == ord("n") and state in met:
            return ord("?")
        return said


class NoStateIsOdd(Program):
    """Says no to a number of no state where the position is odd."""

    def asked(self, position, state, text, first, second):
        said = super().asked(position, state, text, first, second)
        odd = said == 10 and is_odd(position, table_of(text).states)
        return ord("n") if odd else said


class ClearsOddTables(Program):
    """Clears all of the tables where their entries are odd."""

    def portion(self, position, states, text, first, second):
        said = super().portion(position, states, text, first, second)
        least = table_of(text).states if said % 256 > 16 else 0
        if any(entry > least for entry in second[:least]):
            first[:], second[:] = [0] * len(first), [0] * len(second)
        return said


class EndsWithoutALetter(Program):
    """A number that is no position has ended, whatever comes with it."""

    def portion(self, position, states, text, first, second):
        if position % 256 not in b"pe":
            return ord("e")
        return super().portion(position, states, text, first, second)


class EmptyWithoutALetter(Program):
    """The same where the search is to be finished: nothing is written."""

    def finished(self, position, text, first, second, sheet):
        if position % 256 not in b"pe":
            return ord("v")
        return super().finished(position, text, first, second, sheet)


class TextUnreadWhereOdd(Program):
    """A question with odd numbers of states is answered no at once."""

    def asked(self, position, state, text, first, second):
        if is_odd(position, 4096):
            return ord("n")
        return super().asked(position, state, text, first, second)
