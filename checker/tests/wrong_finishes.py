"""Programs that finish a search in portions wrongly, in one way each: in what
is still run, in what they answer, in what they write and clear, and in when
they refuse."""

from evidence.sheets import header, map_sheet
from tests.portion_program import MANY, Program, table_of


# What is run, and what is answered.

class StopsHere(Program):
    """Writes the map of what was met so far."""

    def go_on(self, here, states):
        super().go_on(here, 0 if states == MANY else states)


class OneMoreIsTheEnd(Program):
    """Expands one state more and stops."""

    def go_on(self, here, states):
        super().go_on(here, 1 if states == MANY else states)


class BeginsAnewAtTheEnd(Program):
    """Searches once more from the start; the trials of before are kept."""

    def finished(self, position, text, first, second, sheet):
        if not self.refusal(text, first, second) and self.has_room(
                table_of(text), sheet):
            before = position >> 35
            position = self.open(text, first, second) + (before << 35)
        return super().finished(position, text, first, second, sheet)


class TrialsOfTheRest(Program):
    """Counts the trials from the last pause on."""

    def finished(self, position, text, first, second, sheet):
        return super().finished(position % (1 << 35), text, first, second,
                                sheet)


class TrialsOfThePause(Program):
    """Tells the trials that were made before."""

    def finished(self, position, text, first, second, sheet):
        before = position >> 35
        said = super().finished(position, text, first, second, sheet)
        if said % 256 != ord("s"):
            return said
        return said % (1 << 24) + (before << 24)


class TrialsNeverTold(Program):
    def trials_told(self, here, verdict):
        return 0


class TrialsToldAtABreak(Program):
    def trials_told(self, here, verdict):
        return here.trials


class ExpandedForTrials(Program):
    def trials_told(self, here, verdict):
        return here.expanded if verdict == "safe" else 0


class BreakForgotten(Program):
    """Calls safe what ended before."""

    def found(self, here):
        if here.broken:
            return "safe", map_sheet(here.table, self.members(here))
        return super().found(here)


class VoidIsSafe(Program):
    def found(self, here):
        verdict, sheet = super().found(here)
        return "safe" if verdict == "void" else verdict, sheet


class VoidWhereNothingIsExpanded(Program):
    """Takes a search that was never gone on with for one without a start."""

    def finished(self, position, text, first, second, sheet):
        said = super().finished(position, text, first, second, sheet)
        if said % 256 == ord("s") and not position >> 9 & 8191:
            return ord("v") + said % (1 << 24) - ord("s")
        return said


class ExpandedAlone(Program):
    """Leaves out of the map what the last portion met."""

    def finished(self, position, text, first, second, sheet):
        self.last = position >> 22 & 8191
        return super().finished(position, text, first, second, sheet)

    def members(self, here):
        return sorted(here.first[:self.last])


class StepBehindTheBreak(Program):
    """Where there is room, a trace goes on for one step."""

    def run(self, here):
        start, steps = super().run(here)
        if len(steps) + 1 < here.table.states:
            last = here.first[here.met - 1]
            steps.append(here.table.steps_from(last)[0])
        return start, steps


class LastMoveThatFits(Program):
    """In a trace, the last command and word that lead to a state."""

    def step_between(self, here, before, after):
        return [step for step in here.table.steps_from(before)
                if step[2] == after][-1]


class TraceFromTheBreak(Program):
    """Writes the steps as they are found, the last first."""

    def run(self, here):
        start, steps = super().run(here)
        return start, steps[::-1]


# What is written and cleared.

class TablesLeft(Program):
    def clear(self, here):
        pass


class FirstLeft(Program):
    def clear(self, here):
        states = here.table.states
        here.second[:states] = [0] * states


class SecondLeft(Program):
    def clear(self, here):
        states = here.table.states
        here.first[:states] = [0] * states


class QueueAloneCleared(Program):
    def clear(self, here):
        states = here.table.states
        here.first[:here.met] = [0] * here.met
        here.second[:states] = [0] * states


class BeyondCleared(Program):
    def clear(self, here):
        for table in (here.first, here.second):
            table[:] = [0] * len(table)


class LastEntryLeft(Program):
    def clear(self, here):
        last = here.first[here.table.states - 1]
        super().clear(here)
        here.first[here.table.states - 1] = last


class RoomCleared(Program):
    """Clears the sheet's room first."""

    def write(self, here, sheet, found):
        room = 7 + 10 * here.table.states
        sheet[:room] = bytes(room)
        super().write(here, sheet, found)


class ByteBehindTheSheet(Program):
    def write(self, here, sheet, found):
        super().write(here, sheet, found)
        if len(found) < len(sheet):
            sheet[len(found)] = 0


class SheetUnwritten(Program):
    def write(self, here, sheet, found):
        pass


class SheetAtTheEnd(Program):
    """Writes the sheet to the end of its buffer."""

    def write(self, here, sheet, found):
        sheet[len(sheet) - len(found):] = found


# Refusals.

class RoomForThisSheet(Program):
    """Is content where the sheet fits that is written."""

    def has_room(self, table, sheet):
        return len(sheet) >= 17 + 10 * (table.states // 2)


class AByteMore(Program):
    def has_room(self, table, sheet):
        return len(sheet) >= 8 + 10 * table.states


class AByteFewer(Program):
    def has_room(self, table, sheet):
        return len(sheet) >= 6 + 10 * table.states

    def write(self, here, sheet, found):
        sheet[:] = found[:len(sheet)] + sheet[len(found):]


class TablesClearedByEight(Program):
    def leave(self, said, text, first, second, sheet):
        if said == 8:
            first[:] = [0] * len(first)
            second[:] = [0] * len(second)


class SecondClearedByEight(Program):
    """Only where the sheet buffer is too short."""

    def leave(self, said, text, first, second, sheet):
        if not self.refusal(text, first, second):
            states = table_of(text).states
            second[:states] = [0] * states


class RunThoughRefused(Program):
    """Looks at the sheet buffer when the search is through."""

    def finished(self, position, text, first, second, sheet):
        said = super().finished(position, text, first, second, sheet)
        if said == 8 and not self.refusal(text, first, second):
            self.go_on(self.taken_up(position, text, first, second), MANY)
        return said


class HeaderThoughRefused(Program):
    """Begins to write before it knows that there is room."""

    def leave(self, said, text, first, second, sheet):
        if said == 8:
            start = header(table_of(text))[:len(sheet)]
            sheet[:len(start)] = start


class SheetClearedByRefusals(Program):
    def leave(self, said, text, first, second, sheet):
        sheet[:] = bytes(len(sheet))


class EightForASheetFirst(Program):
    """No buffer at all is 8 before the text is read."""

    def finished(self, position, text, first, second, sheet):
        return super().finished(position, text, first, second,
                                sheet) if sheet else 8
