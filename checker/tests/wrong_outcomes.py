"""Players that are wrong about sheets that do not pass, about short records,
or about which answer comes first, in one way each."""

from tests.player_program import Player
from tests.portion_program import table_of, tested
from evidence.acceptance import trace_fault
from evidence.sheets import Trace, contents
from reader.model import Refusal


def trace_in(text, sheet):
    """The Trace of a text's model, whether it passes or not; or None."""
    table = table_of(text)
    if isinstance(table, Refusal):
        return None
    held = contents(sheet, table)
    return held if isinstance(held, Trace) else None


def is_trace(text, sheet):
    return trace_in(text, sheet) is not None


# What is said of a sheet.

class MapsOpened(Player):
    """Opens at place 0 in state 0."""

    said = "safe holds"

    def player(self, text, sheet, record):
        if tested(text, sheet) == self.said and len(record) > 1:
            record[:2] = [0, 0]
            return self.opened
        return super().player(text, sheet, record)


class VoidMapsOpened(MapsOpened):
    said = "void"


class MapsMoved(Player):
    def beginning(self, text, sheet, record):
        said = super().beginning(text, sheet, record)
        return self.moved if said == ord("s") else said


class VoidIsSafe(Player):
    def outcome(self, text, sheet):
        said = super().outcome(text, sheet)
        return ord("s") if said == ord("v") else said


class MapsAreTen(Player):
    """Refuses what is a map, at the map's record."""

    def outcome(self, text, sheet):
        said = super().outcome(text, sheet)
        return 10 + 256 * 9 if said % 256 in b"svABC" else said


class NoOutcome(Player):
    """Says of all that fails that it is foreign."""

    def outcome(self, text, sheet):
        said = super().outcome(text, sheet)
        return self.foreign if said % 256 > 10 else said


class FirstStepTested(Player):
    """Tests the start and the first step, and waves the rest through."""

    def outcome(self, text, sheet):
        trace = trace_in(text, sheet)
        if trace is None:
            return super().outcome(text, sheet)
        fault = trace_fault(table_of(text), trace.start, trace.steps[:1])
        return ord(fault) if fault in ("D", "E") else 0


class LastStepUntested(Player):
    def outcome(self, text, sheet):
        said = super().outcome(text, sheet)
        if said != ord("E"):
            return said
        trace = trace_in(text, sheet)
        fault = trace_fault(table_of(text), trace.start, trace.steps[:-1])
        return ord("E") if fault == "E" else 0


class StepsUntested(Player):
    overlooked = b"E"

    def outcome(self, text, sheet):
        said = super().outcome(text, sheet)
        return 0 if said % 256 in self.overlooked else said


class StartUntested(StepsUntested):
    overlooked = b"D"


class EndUntested(StepsUntested):
    """A trace need not break."""

    overlooked = b"F"


class AnyTraceOpened(StepsUntested):
    overlooked = b"DEF"


class TestedAtOpeningAlone(Player):
    """A move is made on any trace in form."""

    def move(self, text, sheet, record, target):
        if not is_trace(text, sheet):
            return super().move(text, sheet, record, target)
        return AnyTraceOpened().move(text, sheet, record, target)


class TestedToThePlace(Player):
    """A move tests the sheet as far as the player has come."""

    def move(self, text, sheet, record, target):
        if tested(text, sheet) == "E" and record:
            trace = trace_in(text, sheet)
            steps = trace.steps[:record[0] + 1]
            if trace_fault(table_of(text), trace.start, steps) != "E":
                return StepsUntested().move(text, sheet, record, target)
        return super().move(text, sheet, record, target)


class ShortestAlone(Player):
    """A state that comes twice is not needed, so the trace is said to
    fail."""

    def outcome(self, text, sheet):
        said = super().outcome(text, sheet)
        if said:
            return said
        states = [self.state_at(sheet, place)
                  for place in range(self.last(sheet) + 1)]
        return ord("F") if len(set(states)) < len(states) else 0


class AtMost4095Steps(Player):
    def outcome(self, text, sheet):
        said = super().outcome(text, sheet)
        too_many = not said and self.last(sheet) > 4095
        return 9 + 256 * 40967 if too_many else said


class NamesInOneCase(Player):
    """Refuses a text with a capital letter, where it would open."""

    def outcome(self, text, sheet):
        said = super().outcome(text, sheet)
        return 3 if not said and text != text.lower() else said


class PlaceForgotten(Player):
    """Gives no place with a refusal."""

    def outcome(self, text, sheet):
        return super().outcome(text, sheet) % 256


class SheetBeforeText(Player):
    """An empty sheet is refused before the text is read."""

    def outcome(self, text, sheet):
        return super().outcome(text, sheet) if sheet else 9


class SheetRefusedAsText(Player):
    """By a number that texts are refused by."""

    def outcome(self, text, sheet):
        said = super().outcome(text, sheet)
        return said - 6 if said % 256 in (9, 10) else said


# What is left in the record where the sheet does not pass.

class ClearedByAnOutcome(Player):
    def refusal(self, text, sheet, record):
        said = super().refusal(text, sheet, record)
        if said and len(record) > 1:
            record[:2] = [0, 0]
        return said


class ClearedByALetter(Player):
    """The same where the sheet is in form."""

    def refusal(self, text, sheet, record):
        said = super().refusal(text, sheet, record)
        if said % 256 > 10 and len(record) > 1:
            record[:2] = [0, 0]
        return said


class OpenedThoughItFails(Player):
    """Writes the record of a trace before it is tested."""

    def player(self, text, sheet, record):
        if is_trace(text, sheet) and len(record) > 1:
            self.open(sheet, record)
        return super().player(text, sheet, record)


class MovedThoughItFails(Player):
    def forward(self, text, sheet, record):
        said = super().forward(text, sheet, record)
        if said % 256 in b"DEF" and len(record) > 1:
            place = self.after_forward(sheet, record)
            if place is not None:
                self.put(sheet, record, place)
        return said


class PlaceWrittenThoughRefused(Player):
    """Puts the place of a refusal into the record."""

    def refusal(self, text, sheet, record):
        said = super().refusal(text, sheet, record)
        if 0 < said % 256 < 8 and record:
            record[0] = said // 256
        return said


# Records that are too short.

class ThreeEntriesNeeded(Player):
    def too_short(self, record):
        return 8 if len(record) < 3 else 0


class OneEntryWritten(Player):
    """Writes the place before it finds no room for the state."""

    def player(self, text, sheet, record):
        said = super().player(text, sheet, record)
        if said == 8 and record:
            record[0] = 0
        return said


class OneEntryIsEnough(OneEntryWritten):
    """And says that it opened."""

    def player(self, text, sheet, record):
        said = super().player(text, sheet, record)
        return self.opened if said == 8 and record else said


class ClearedByEight(Player):
    def too_short(self, record):
        said = super().too_short(record)
        record[:1] = [0] * len(record[:1]) if said else record[:1]
        return said


class PlaceOfEight(Player):
    """Tells how many entries there are."""

    def too_short(self, record):
        said = super().too_short(record)
        return said and said + 256 * len(record)


class NineForEight(Player):
    def too_short(self, record):
        return 9 if super().too_short(record) else 0


# Which answer comes first.

class EightBeforeTheOutcome(Player):
    def refusal(self, text, sheet, record):
        return self.too_short(record) or self.outcome(text, sheet)


class EightBeforeALetter(Player):
    """Between the refusals of a text or sheet and its letters."""

    def refusal(self, text, sheet, record):
        said = self.outcome(text, sheet)
        return said if 0 < said % 256 < 11 else self.too_short(record) or said


class EightBeforeTheSheet(Player):
    """Between the text and the sheet."""

    def refusal(self, text, sheet, record):
        said = self.outcome(text, sheet)
        return said if 0 < said % 256 < 8 else self.too_short(record) or said


class EightFirstAtMoves(Player):
    """Opening has the right order."""

    def move(self, text, sheet, record, target):
        return self.too_short(record) or super().move(text, sheet, record,
                                                      target)


class ForeignBeforeEight(Player):
    """A place past the last is foreign in whatever state."""

    def move(self, text, sheet, record, target):
        said = super().move(text, sheet, record, target)
        if said == 8 and record and self.is_past(sheet, record[0]):
            return self.foreign
        return said


class NoRecordIsForeign(Player):
    """Says of a record that is too short that it is foreign."""

    def move(self, text, sheet, record, target):
        said = super().move(text, sheet, record, target)
        return self.foreign if said == 8 else said


class EndBeforeEight(Player):
    def back(self, text, sheet, record):
        said = super().back(text, sheet, record)
        return self.ended if said == 8 and record[:1] == [0] else said


class LastBeforeEight(Player):
    def forward(self, text, sheet, record):
        said = super().forward(text, sheet, record)
        return (self.ended if said == 8
                and record[:1] == [self.last(sheet)] else said)


class ForeignBeforeTheOutcome(Player):
    """A place that no sheet has is foreign to all of them."""

    def move(self, text, sheet, record, target):
        if len(record) > 1 and record[0] > 6551:
            return self.foreign
        return super().move(text, sheet, record, target)


class ForeignBeforeALetter(Player):
    def move(self, text, sheet, record, target):
        said = super().move(text, sheet, record, target)
        if (said % 256 in b"DEF" and len(record) > 1
                and self.is_foreign(sheet, record)):
            return self.foreign
        return said


class EndBeforeTheOutcome(Player):
    """Place 0 is an end of whatever there is."""

    def back(self, text, sheet, record):
        said = super().back(text, sheet, record)
        if said != self.foreign and len(record) > 1 and record[0] == 0:
            return self.ended
        return said


class LastBeforeTheOutcome(Player):
    def forward(self, text, sheet, record):
        said = super().forward(text, sheet, record)
        if (said % 256 in b"DEF" and len(record) > 1
                and record[0] == self.last(sheet)):
            return self.ended
        return said


class EndBeforeForeign(Player):
    """At place 0 in whatever state."""

    def back(self, text, sheet, record):
        said = super().back(text, sheet, record)
        return (self.ended if said == self.foreign and record[0] == 0
                else said)


class LastBeforeForeign(Player):
    def forward(self, text, sheet, record):
        said = super().forward(text, sheet, record)
        return (self.ended if said == self.foreign
                and record[0] == self.last(sheet) else said)


class PastTheLastIsAnEnd(Player):
    def forward(self, text, sheet, record):
        said = super().forward(text, sheet, record)
        return (self.ended if said == self.foreign
                and self.is_past(sheet, record[0]) else said)
