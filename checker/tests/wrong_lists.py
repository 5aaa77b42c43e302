"""Programs that fill a list of steps wrongly, or ask for the wrong number of
places, in one way each."""

from evidence.sheets import Trace, contents
from reader.model import Refusal
from tests.burst_program import Bursts
from tests.portion_program import table_of


# What a step is.

class StateBefore(Bursts):
    """The state of the record before, which may be the start's."""

    def step_at(self, sheet, number):
        command, word, _ = super().step_at(sheet, number)
        end = 17 + 10 * number
        return command, word, int.from_bytes(sheet[end - 2:end], "little")


class StateAtTheEnd(Bursts):
    def step_at(self, sheet, number):
        command, word, _ = super().step_at(sheet, number)
        return command, word, int.from_bytes(sheet[-2:], "little")


class WordThenCommand(Bursts):
    def step_at(self, sheet, number):
        command, word, after = super().step_at(sheet, number)
        return word, command, after

    def commands_in(self, text, sheet, places):
        return [word for _, word, _ in places[:self.last(sheet)]]


class HighByteFirst(Bursts):
    def step_at(self, sheet, number):
        command, word, after = super().step_at(sheet, number)
        return command, word, after // 256 + after % 256 * 256


class StateInFront(Bursts):
    """The four bytes as state, command and word."""

    def step_at(self, sheet, number):
        command, word, after = super().step_at(sheet, number)
        return after % 256, after // 256, command + 256 * word

    def commands_in(self, text, sheet, places):
        return [after % 256 for _, _, after in places[:self.last(sheet)]]


class LowByteOfTheState(Bursts):
    def step_at(self, sheet, number):
        command, word, after = super().step_at(sheet, number)
        return command, word, after % 256


class WordForgotten(Bursts):
    def step_at(self, sheet, number):
        command, _, after = super().step_at(sheet, number)
        return command, 0, after


class StateForgotten(Bursts):
    def step_at(self, sheet, number):
        command, word, _ = super().step_at(sheet, number)
        return command, word, 0


class CommandIn2Bits(Bursts):
    def step_at(self, sheet, number):
        command, word, after = super().step_at(sheet, number)
        return command % 4, word, after


class CommandsListedFromOne(Bursts):
    def step_at(self, sheet, number):
        command, word, after = super().step_at(sheet, number)
        return command + 1, word, after

    def commands_in(self, text, sheet, places):
        return [command - 1 for command, _, _ in places[:self.last(sheet)]]


class WordIn7Bits(Bursts):
    def step_at(self, sheet, number):
        command, word, after = super().step_at(sheet, number)
        return command, word % 128, after


class RecordOneTooEarly(Bursts):
    """The first step is taken for the first two."""

    def step_at(self, sheet, number):
        return super().step_at(sheet, max(number - 1, 0))


class LastRecordTwice(Bursts):
    def step_at(self, sheet, number):
        return super().step_at(sheet, min(number + 1, self.last(sheet) - 1))


# Which places they are put in.

class FromTheSecondPlace(Bursts):
    """If there is one more."""

    def fill(self, sheet, places):
        spare = len(places) > self.last(sheet)
        for number in range(self.last(sheet)):
            places[number + spare] = self.step_at(sheet, number)

    def commands_in(self, text, sheet, places):
        spare = len(places) > self.last(sheet)
        return [place[0] for place in places[spare:self.last(sheet) + spare]]


class AtTheListsEnd(Bursts):
    def fill(self, sheet, places):
        first = len(places) - self.last(sheet)
        for number in range(self.last(sheet)):
            places[first + number] = self.step_at(sheet, number)

    def commands_in(self, text, sheet, places):
        return [place[0] for place in places[len(places)
                                             - self.last(sheet):]]


class LastStepFirst(Bursts):
    def fill(self, sheet, places):
        super().fill(sheet, places)
        places[:self.last(sheet)] = places[:self.last(sheet)][::-1]

    def commands_in(self, text, sheet, places):
        return super().commands_in(text, sheet, places)[::-1]


class InOrderOfCommands(Bursts):
    """Steps of one command stand side by side."""

    def fill(self, sheet, places):
        super().fill(sheet, places)
        places[:self.last(sheet)] = sorted(places[:self.last(sheet)])

    def commands_in(self, text, sheet, places):
        return [self.step_at(sheet, number)[0]
                for number in range(self.last(sheet))]


class LastStepNotPut(Bursts):
    def fill(self, sheet, places):
        kept = places[:]
        super().fill(sheet, places)
        last = self.last(sheet)
        places[last - 1:last] = kept[last - 1:last] if last else []

    def commands_in(self, text, sheet, places):
        return [self.step_at(sheet, number)[0]
                for number in range(self.last(sheet))]


class FirstStepNotPut(LastStepNotPut):
    def fill(self, sheet, places):
        kept = places[:1]
        Bursts.fill(self, sheet, places)
        places[:1] = kept


class AtMost4095Put(LastStepNotPut):
    def fill(self, sheet, places):
        kept = places[4095:]
        Bursts.fill(self, sheet, places)
        places[4095:] = kept


class EqualStepsOnce(LastStepNotPut):
    """A step that is as the one before is not put."""

    def fill(self, sheet, places):
        kept = places[:]
        Bursts.fill(self, sheet, places)
        for number in range(1, self.last(sheet)):
            if self.step_at(sheet, number) == self.step_at(sheet, number - 1):
                places[number] = kept[number]


class OnlyTheCommandsOfABurst(LastStepNotPut):
    """A burst needs no more than the commands."""

    def find_burst(self, text, sheet, places, command, width):
        kept = places[:]
        said = super().find_burst(text, sheet, places, command, width)
        places[:] = [(one, *before[1:]) for (one, _, _), before
                     in zip(places, kept)]
        return said

    def fill(self, sheet, places):
        Bursts.fill(self, sheet, places)


class BurstsFillNothing(Bursts):
    def find_burst(self, text, sheet, places, command, width):
        return super().find_burst(text, sheet, places[:], command, width)


class CountsFillNothing(Bursts):
    def count_steps(self, text, sheet, places, entries):
        return super().count_steps(text, sheet, places[:], entries)


class NothingFilled(Bursts):
    def list_steps(self, text, sheet, places):
        return super().list_steps(text, sheet, places[:])


class BurstsFillTheirStretch(Bursts):
    """And nothing beside it."""

    def find_burst(self, text, sheet, places, command, width):
        kept = places[:]
        said = super().find_burst(text, sheet, places, command, width)
        if said % 256 == self.found:
            first = (said >> 24) - 1
            places[:first] = kept[:first]
            places[first + width:] = kept[first + width:]
        return said


# Spare places.

class SparePlaceCleared(Bursts):
    """An end is put behind the last step."""

    behind = 0, 0, 0

    def fill(self, sheet, places):
        super().fill(sheet, places)
        last = self.last(sheet)
        places[last:last + 1] = [self.behind] * len(places[last:last + 1])


class SparePlaceMarked(SparePlaceCleared):
    behind = 255, 255, 65535


class SparePlaceByteCleared(Bursts):
    """The command of the place behind the last step."""

    def fill(self, sheet, places):
        super().fill(sheet, places)
        last = self.last(sheet)
        places[last:last + 1] = [(0, word, after) for _, word, after
                                 in places[last:last + 1]]


class SparePlacesCleared(Bursts):
    def fill(self, sheet, places):
        super().fill(sheet, places)
        last = self.last(sheet)
        places[last:] = [(0, 0, 0)] * len(places[last:])


class LastPlaceCleared(Bursts):
    def fill(self, sheet, places):
        super().fill(sheet, places)
        if len(places) > self.last(sheet):
            places[-1] = 0, 0, 0


class StartInTheSparePlace(Bursts):
    """Has one more thing to say, if there is room."""

    def fill(self, sheet, places):
        super().fill(sheet, places)
        if len(places) > self.last(sheet):
            places[self.last(sheet)] = 0, 0, int.from_bytes(sheet[15:17],
                                                            "little")


class SparePlacesClearedByABurst(Bursts):
    def find_burst(self, text, sheet, places, command, width):
        said = super().find_burst(text, sheet, places, command, width)
        if said % 256 == self.found:
            last = self.last(sheet)
            places[last:] = [(0, 0, 0)] * len(places[last:])
        return said


class SparePlacesClearedByCounts(Bursts):
    def count_steps(self, text, sheet, places, entries):
        said = super().count_steps(text, sheet, places, entries)
        if said % 256 == self.listed:
            last = self.last(sheet)
            places[last:] = [(0, 0, 0)] * len(places[last:])
        return said


# What is left in the list where a call is refused.

class FilledThough(Bursts):
    """Fills the list as far as it goes, and then refuses."""

    refused = ()

    def filled_by(self, sheet, places, said):
        if said in self.refused:
            for number in range(min(len(places), self.last(sheet))):
                places[number] = self.step_at(sheet, number)
        return said

    def list_steps(self, text, sheet, places):
        return self.filled_by(sheet, places, super().list_steps(
            text, sheet, places))

    def find_burst(self, text, sheet, places, command, width):
        said = super().find_burst(text, sheet, places, command, width)
        # The same numbers may be what the test says.
        passes = not self.outcome(text, sheet)
        return self.filled_by(sheet, places, said) if passes else said

    def count_steps(self, text, sheet, places, entries):
        return self.filled_by(sheet, places, super().count_steps(
            text, sheet, places, entries))


class FilledThoughEight(FilledThough):
    refused = (8,)


class FilledThoughTen(FilledThough):
    refused = (10,)


class FilledThoughSixteen(FilledThough):
    refused = (16,)


class FilledThoughItFails(FilledThough):
    """Puts steps while it tests them."""

    def list_steps(self, text, sheet, places):
        table = table_of(text)
        if not isinstance(table, Refusal) and isinstance(
                contents(sheet, table), Trace):
            for number in range(min(len(places), self.last(sheet))):
                places[number] = self.step_at(sheet, number)
        return super().list_steps(text, sheet, places)


class FilledThoughEntriesAreFew(Bursts):
    def count_steps(self, text, sheet, places, entries):
        said = super().count_steps(text, sheet, places, entries)
        if said == 8 and len(places) >= self.last(sheet):
            self.fill(sheet, places)
        return said


class ClearedByEight(Bursts):
    def too_few(self, sheet, places):
        said = super().too_few(sheet, places)
        places[:] = [(0, 0, 0)] * len(places) if said else places
        return said


class ClearedByAnOutcome(Bursts):
    def refusal(self, text, sheet, places):
        said = super().refusal(text, sheet, places)
        if self.outcome(text, sheet):
            places[:] = [(0, 0, 0)] * len(places)
        return said


# How many places are needed.

class OnePlaceMoreNeeded(Bursts):
    def too_few(self, sheet, places):
        return self.eight if len(places) <= self.last(sheet) else 0


class OnePlaceFewerIsEnough(Bursts):
    """The last step is not put then."""

    def too_few(self, sheet, places):
        return self.eight if len(places) + 1 < self.last(sheet) else 0

    def fill(self, sheet, places):
        for number in range(min(self.last(sheet), len(places))):
            places[number] = self.step_at(sheet, number)


class AsManyAsThereIsRoomFor(OnePlaceFewerIsEnough):
    def too_few(self, sheet, places):
        return 0


class AtLeastOnePlace(Bursts):
    """A list without places is none."""

    def too_few(self, sheet, places):
        return super().too_few(sheet, places) if places else self.eight


class PlacesForMostStates(Bursts):
    """As many as the shortest trace may have steps."""

    def too_few(self, sheet, places):
        return self.eight if len(places) < 4095 else 0


class PlacesForTheWidth(Bursts):
    """A burst needs no more than its stretch."""

    def burst_refusal(self, text, sheet, places, command, width):
        said = super().burst_refusal(text, sheet, places, command, width)
        return 8 if not said and len(places) < width else said


class PlacesIn8Bits(Bursts):
    def too_few(self, sheet, places):
        return self.eight if len(places) % 256 < self.last(sheet) else 0


class PlacesIn16Bits(Bursts):
    def too_few(self, sheet, places):
        return self.eight if len(places) % 65536 < self.last(sheet) else 0


class StepsIn8Bits(Bursts):
    """Looks for too few places by the low byte of what is needed."""

    def too_few(self, sheet, places):
        return self.eight if len(places) < self.last(sheet) % 256 else 0

    def fill(self, sheet, places):
        for number in range(min(self.last(sheet), len(places))):
            places[number] = self.step_at(sheet, number)


class BytesForPlaces(Bursts):
    """Takes the length for one in bytes."""

    def too_few(self, sheet, places):
        return self.eight if len(places) < 4 * self.last(sheet) else 0


class NumberNeededWithEight(Bursts):
    def too_few(self, sheet, places):
        said = super().too_few(sheet, places)
        return said and said + 256 * self.last(sheet)


class NineForEight(Bursts):
    eight = 9


class TooManyPlaces(Bursts):
    """A list longer than any trace is refused."""

    def too_few(self, sheet, places):
        said = super().too_few(sheet, places)
        return self.eight if len(places) > 6551 else said


# What is told.

class PlacesTold(Bursts):
    """Where all is put, it tells how long the list is."""

    def list_steps(self, text, sheet, places):
        said = super().list_steps(text, sheet, places)
        return (self.listed + 256 * len(places) if said % 256 == self.listed
                else said)


class StatesTold(Bursts):
    """One more than the steps."""

    def number_of_steps(self, sheet):
        return super().number_of_steps(sheet) + 256


class NothingTold(Bursts):
    def number_of_steps(self, sheet):
        return self.listed


class StepsToldIn8Bits(Bursts):
    def number_of_steps(self, sheet):
        return self.listed + 256 * (self.last(sheet) % 256)


class StepsToldIn12Bits(Bursts):
    def number_of_steps(self, sheet):
        return self.listed + 256 * (self.last(sheet) % 4096)


class StepsToldByAnotherLetter(Bursts):
    listed = ord("s")


class TraceToldForSteps(Bursts):
    listed = ord("t")
