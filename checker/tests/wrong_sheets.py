"""Programs that answer before they know whether the sheet is a trace that
passes, or take a sheet for one that is none, in one way each."""

from tests.burst_program import Bursts
from tests.portion_program import table_of, tested
from reader.model import Refusal


def steps_in(sheet):
    """As many as the sheet has room for, whatever it holds."""
    return max(len(sheet) - 17, 0) // 10


# Maps.

class MapsListed(Bursts):
    """As traces of no steps."""

    maps = ("safe holds",)

    def outcome(self, text, sheet):
        return 0 if tested(text, sheet) in self.maps else super().outcome(
            text, sheet)

    def last(self, sheet):
        return 0 if sheet[13:14] == b"\x02" else super().last(sheet)


class VoidMapsListed(MapsListed):
    maps = ("void",)


# The outcome is not the first thing to be judged.

class PlacesFirst(Bursts):
    def refusal(self, text, sheet, places):
        if len(places) < steps_in(sheet):
            return 8
        return super().refusal(text, sheet, places)


class PlacesBeforeALetter(Bursts):
    """Between the refusals of a text or sheet and its letters."""

    def refusal(self, text, sheet, places):
        said = self.outcome(text, sheet)
        if said % 256 > 10 and len(places) < steps_in(sheet):
            return 8
        return super().refusal(text, sheet, places)


class PlacesBeforeTheSheet(Bursts):
    """Between the text and the sheet."""

    def refusal(self, text, sheet, places):
        read = not isinstance(table_of(text), Refusal)
        if read and len(places) < steps_in(sheet):
            return 8
        return super().refusal(text, sheet, places)


class NoPlacesFirst(Bursts):
    """Without a single place nothing is tested."""

    def refusal(self, text, sheet, places):
        if not places and len(sheet) != 17:
            return 8
        return super().refusal(text, sheet, places)


class EntriesFirst(Bursts):
    def counts_refusal(self, text, sheet, places, entries):
        return (self.too_few_entries(text, entries)
                or self.refusal(text, sheet, places))


class EntriesBeforeALetter(Bursts):
    def counts_refusal(self, text, sheet, places, entries):
        said = self.outcome(text, sheet)
        few = said % 256 > 10 and self.too_few_entries(text, entries)
        return few or super().counts_refusal(text, sheet, places, entries)


class EntriesBeforeTheSheet(Bursts):
    def counts_refusal(self, text, sheet, places, entries):
        if not isinstance(table_of(text), Refusal):
            return (self.too_few_entries(text, entries)
                    or self.refusal(text, sheet, places))
        return self.refusal(text, sheet, places)


class WidthFirst(Bursts):
    def burst_refusal(self, text, sheet, places, command, width):
        return (self.no_width(sheet, width)
                or super().burst_refusal(text, sheet, places, command, width))


class WidthBeforeALetter(Bursts):
    def burst_refusal(self, text, sheet, places, command, width):
        said = self.outcome(text, sheet)
        none = said % 256 > 10 and self.no_width(sheet, width)
        return none or super().burst_refusal(text, sheet, places, command,
                                             width)


class WidthBeforeTheSheet(Bursts):
    def burst_refusal(self, text, sheet, places, command, width):
        if not isinstance(table_of(text), Refusal):
            said = self.no_width(sheet, width)
            if said:
                return said
        return super().burst_refusal(text, sheet, places, command, width)


class CommandFirst(Bursts):
    """A command that no model has."""

    def burst_refusal(self, text, sheet, places, command, width):
        if command >= 16:
            return 10
        return super().burst_refusal(text, sheet, places, command, width)


class CommandBeforeALetter(Bursts):
    def burst_refusal(self, text, sheet, places, command, width):
        said = self.outcome(text, sheet)
        none = said % 256 > 10 and self.unknown(text, sheet, command)
        return none or super().burst_refusal(text, sheet, places, command,
                                             width)


class CommandBeforeTheSheet(Bursts):
    def burst_refusal(self, text, sheet, places, command, width):
        if not isinstance(table_of(text), Refusal):
            said = self.unknown(text, sheet, command)
            if said:
                return said
        return super().burst_refusal(text, sheet, places, command, width)


# The functions differ from each other.

class BurstsOfAnyTrace(Bursts):
    """A burst is found in what fails, too."""

    overlooked = b"DEF"

    def find_burst(self, text, sheet, places, command, width):
        said = super().find_burst(text, sheet, places, command, width)
        if said % 256 not in self.overlooked:
            return said
        return OfAnything().find_burst(text, sheet, places, command, width)


class CountsOfAnyTrace(Bursts):
    def count_steps(self, text, sheet, places, entries):
        said = super().count_steps(text, sheet, places, entries)
        if said % 256 not in b"DEF":
            return said
        return OfAnything().count_steps(text, sheet, places, entries)


class ListsOfAnyTrace(Bursts):
    def list_steps(self, text, sheet, places):
        said = super().list_steps(text, sheet, places)
        if said % 256 not in b"DEF":
            return said
        return OfAnything().list_steps(text, sheet, places)


class OfAnything(Bursts):
    """Any trace in form passes."""

    def outcome(self, text, sheet):
        said = super().outcome(text, sheet)
        return 0 if said % 256 in b"DEF" else said


class KeepsTheOutcome(Bursts):
    """A sheet that passed once is not tested again, whatever the text is."""

    def __init__(self):
        self.passed = set()

    def outcome(self, text, sheet):
        if sheet in self.passed and not isinstance(table_of(text), Refusal):
            return 0
        said = super().outcome(text, sheet)
        if not said:
            self.passed.add(sheet)
        return said


class KeepsTheText(Bursts):
    """The commands of a text are those of the text before, if it is as
    long."""

    kept = b""

    def unknown(self, text, sheet, command):
        if len(self.kept) != len(text):
            self.kept = text
        return super().unknown(self.kept, sheet, command)


class KeepsTheSteps(Bursts):
    """A sheet that is as long as the one before is taken for it."""

    kept = b""

    def step_at(self, sheet, number):
        if len(self.kept) != len(sheet):
            self.kept = sheet
        return super().step_at(self.kept, number)
