"""Programs that answer questions wrongly, in one way each: whether a state
has been met, and whether a sheet's map has it."""

from functools import cache

from evidence.searching import search
from evidence.sheets import contents
from tests.portion_program import Program, table_of, tested

searched = cache(search)


# Whether a state has been met.

class YesToAll(Program):
    def is_met(self, here, state):
        return True


class YesToWhatIsReached(Program):
    """Also to what a run leads to from where the search stands."""

    def is_met(self, here, state):
        found = searched(here.table)
        return super().is_met(here, state) or (
            isinstance(found, set) and state in found)


class YesToResults(Program):
    """Also to the results of steps from states that wait."""

    def is_met(self, here, state):
        return super().is_met(here, state) or any(
            after == state for waiting in here.first[here.expanded:here.met]
            for _, _, after in here.table.steps_from(waiting))


class YesToEveryStart(Program):
    """Also to start states behind one that breaks."""

    def is_met(self, here, state):
        return super().is_met(here, state) or here.table.starts(state)


class NoToTheBreak(Program):
    def is_met(self, here, state):
        return super().is_met(here, state) and not here.table.breaks(state)


class NoToWhatWaits(Program):
    """Yes only to states that are expanded."""

    def is_met(self, here, state):
        return state in here.first[:here.expanded]


class NoToTheExpanded(Program):
    def is_met(self, here, state):
        return state in here.first[here.expanded:here.met]


class NoToStarts(Program):
    def is_met(self, here, state):
        return here.second[state] not in (0, state + 1)


class NoToWhatZeroLedTo(Program):
    def is_met(self, here, state):
        return here.second[state] > 1


class NoToTheLastMet(Program):
    def is_met(self, here, state):
        return state in here.first[:here.met - 1] if here.met else False


class SparePlacesLookedAt(Program):
    """Looks for a state in the whole first table, beyond the queue too."""

    def is_met(self, here, state):
        return state in here.first


class NoAfterTheEnd(Program):
    def is_met(self, here, state):
        return not self.has_ended(here) and super().is_met(here, state)


class NoAtABreak(Program):
    def is_met(self, here, state):
        return not here.broken and super().is_met(here, state)


class YesAndNoExchanged(Program):
    def is_met(self, here, state):
        return not super().is_met(here, state)


class TakenOutByAsking(Program):
    """A state that is asked for is taken out of the second table."""

    def is_met(self, here, state):
        said = super().is_met(here, state)
        here.second[state] = 0
        return said


# Which numbers are states, in both questions.

class NoBeyondTheStates(Program):
    """Never refuses a state."""

    def asked(self, position, state, text, first, second):
        said = super().asked(position, state, text, first, second)
        return ord("n") if said == 10 else said

    def asked_map(self, text, sheet, state):
        said = super().asked_map(text, sheet, state)
        return ord("n") if said == 10 else said


class CutToNames(Program):
    def asked(self, position, state, text, first, second):
        if not self.refusal(text, first, second):
            state %= table_of(text).states
        return super().asked(position, state, text, first, second)

    def asked_map(self, text, sheet, state):
        if tested(text, sheet) in ("safe holds", "void"):
            state %= table_of(text).states
        return super().asked_map(text, sheet, state)


class StateIn16Bits(Program):
    bits = 16

    def asked(self, position, state, text, first, second):
        return super().asked(position, state % (1 << self.bits), text, first,
                             second)

    def asked_map(self, text, sheet, state):
        return super().asked_map(text, sheet, state % (1 << self.bits))


class StateIn32Bits(StateIn16Bits):
    bits = 32


class LastStateRefused(Program):
    def is_state(self, table, state):
        return state < table.states - 1


class TenFrom4096(Program):
    """Refuses by the most states that there can be; below that it says
    no."""

    def is_state(self, table, state):
        return state < 4096

    def is_met(self, here, state):
        return state < here.table.states and super().is_met(here, state)

    def is_member(self, text, sheet, state):
        return (state < table_of(text).states
                and super().is_member(text, sheet, state))


class PlaceOfTen(Program):
    """Gives the state as the place."""

    def asked(self, position, state, text, first, second):
        said = super().asked(position, state, text, first, second)
        return (10 + 256 * state) % (1 << 64) if said == 10 else said

    def asked_map(self, text, sheet, state):
        said = super().asked_map(text, sheet, state)
        return (10 + 256 * state) % (1 << 64) if said == 10 else said


class TenBeforeEight(Program):
    def asked(self, position, state, text, first, second):
        said = super().asked(position, state, text, first, second)
        return 10 if said == 8 and state >= table_of(text).states else said


class TenBeforeTheText(Program):
    """Knows of one thing without a text: that there are at most 4,096
    states."""

    def asked(self, position, state, text, first, second):
        return 10 if state >= 4096 else super().asked(position, state, text,
                                                      first, second)


class NoBeforeEight(Program):
    """Answers where tables are short, if the state's entry is there."""

    def asked(self, position, state, text, first, second):
        said = super().asked(position, state, text, first, second)
        if said == 8 and state < len(second):
            return ord("y" if second[state] else "n")
        return said


# Whether a sheet's map has a state.

class TenBeforeTheTest(Program):
    def asked_map(self, text, sheet, state):
        said = super().asked_map(text, sheet, state)
        if said % 256 > 10 or said % 256 > 8 and said != 10:
            return 10 if state >= table_of(text).states else said
        return said


class TenBeforeAnyText(Program):
    def asked_map(self, text, sheet, state):
        return (10 if state >= 4096
                else super().asked_map(text, sheet, state))


class AnyMapAsked(Program):
    """Also one that fails."""

    def asked_map(self, text, sheet, state):
        if tested(text, sheet) not in ("A", "B", "C"):
            return super().asked_map(text, sheet, state)
        if not self.is_state(table_of(text), state):
            return 10
        return ord("y" if self.is_member(text, sheet, state) else "n")


class VoidIsTold(Program):
    """Takes a void map for one that cannot be asked."""

    def asked_map(self, text, sheet, state):
        if tested(text, sheet) == "void":
            return ord("v")
        return super().asked_map(text, sheet, state)


class SafeIsTold(Program):
    def asked_map(self, text, sheet, state):
        if tested(text, sheet) == "safe holds":
            return ord("s")
        return super().asked_map(text, sheet, state)


class NoWhereNothingStarts(Program):
    def is_member(self, text, sheet, state):
        return (tested(text, sheet) != "void"
                and super().is_member(text, sheet, state))


class YesWhereNothingStarts(Program):
    def is_member(self, text, sheet, state):
        return (tested(text, sheet) == "void"
                or super().is_member(text, sheet, state))


class MapOfTheSearch(Program):
    """Asks the map that a search would find."""

    def is_member(self, text, sheet, state):
        return state in searched(table_of(text))


class MapOfTheKept(Program):
    """Says yes to whatever does not break."""

    def is_member(self, text, sheet, state):
        return not table_of(text).breaks(state)


class StatesOfATrace(Program):
    """Looks for the state in a trace that holds."""

    def asked_map(self, text, sheet, state):
        if tested(text, sheet) != "trace holds":
            return super().asked_map(text, sheet, state)
        held = contents(sheet, table_of(text))
        passed = [held.start] + [after for _, _, after in held.steps]
        return ord("y" if state in passed else "n")


class HighestBitFirst(Program):
    def is_member(self, text, sheet, state):
        return sheet[15 + state // 8] >> 7 - state % 8 & 1


class LastByteFirst(Program):
    def is_member(self, text, sheet, state):
        return sheet[-1 - state // 8] >> state % 8 & 1


class HeaderForTheMap(Program):
    """Counts the bits from a record's beginning."""

    def is_member(self, text, sheet, state):
        return sheet[9 + state // 8] >> state % 8 & 1


class SheetBeforeText(Program):
    """An empty sheet is refused before the text is read."""

    def asked_map(self, text, sheet, state):
        return super().asked_map(text, sheet, state) if sheet else 9


class PlaceForgotten(Program):
    """Gives no place with a refusal of the sheet."""

    def asked_map(self, text, sheet, state):
        said = super().asked_map(text, sheet, state)
        return said % 256 if said % 256 in (9, 10) else said
