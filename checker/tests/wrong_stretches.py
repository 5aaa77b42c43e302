"""Programs that look at the wrong stretches, or tell the wrong place or
number of them, in one way each."""

from itertools import groupby

from tests.burst_program import Bursts
from tests.wrong_entries import by_name


# Which of the stretches is told.

class LastOfTheMost(Bursts):
    def is_better(self, times, most):
        return times >= most


class FewestTimes(Bursts):
    def is_better(self, times, most):
        return times < most


class FirstThatHasAny(Bursts):
    """Does not look for a better one."""

    def is_better(self, times, most):
        return most == 0 < times


class FirstStretchAlone(Bursts):
    def is_better(self, times, most):
        return False


class TwoMoreAreBetter(Bursts):
    def is_better(self, times, most):
        return times > most + 1


class MostIn8Bits(Bursts):
    """Compares what it counted in a byte."""

    def times(self, commands, command, width):
        for times, first in super().times(commands, command, width):
            yield times % 256, first


class MostIn11Bits(Bursts):
    def times(self, commands, command, width):
        for times, first in super().times(commands, command, width):
            yield times % 2048, first


class MostAtMost255(Bursts):
    def times(self, commands, command, width):
        for times, first in super().times(commands, command, width):
            yield min(times, 255), first


# Which stretches there are.

class OneTooWide(Bursts):
    def stretches(self, count, width):
        return super().stretches(count, width + 1)


class OneTooNarrow(Bursts):
    def stretches(self, count, width):
        return super().stretches(count, width - 1)


class LastStretchLeftOut(Bursts):
    def stretches(self, count, width):
        found = list(super().stretches(count, width))
        return found[:-1] or found


class FirstStretchLeftOut(Bursts):
    def stretches(self, count, width):
        found = list(super().stretches(count, width))
        return found[1:] or found


class SideBySide(Bursts):
    """A stretch begins where the one before ends."""

    def stretches(self, count, width):
        return [*super().stretches(count, width)][::width]


class SideBySideToTheEnd(Bursts):
    """The same, and the last may be shorter."""

    def stretches(self, count, width):
        for first in range(0, max(count, 1), width):
            yield first, min(first + width, count)


class EverySecond(Bursts):
    def stretches(self, count, width):
        return [*super().stretches(count, width)][::2]


class Backwards(Bursts):
    """From the last stretch to the first."""

    def stretches(self, count, width):
        return [*super().stretches(count, width)][::-1]


class GrowingInFront(Bursts):
    """Stretches by where they end, which are shorter at the beginning: the
    place is where the most is first reached."""

    def densest(self, commands, command, width):
        best = 0, 1
        for end in range(1, len(commands) + 1):
            times = commands[max(0, end - width):end].count(command)
            if times > best[0]:
                best = times, end
        return best


class CutAtTheEnd(Bursts):
    """Also shorter ones at the end: the last of all that have as many as the
    last whole one, where that has the most."""

    def densest(self, commands, command, width):
        most, place = super().densest(commands, command, width)
        if place == max(len(commands) - width, 0) + 1:
            while commands[place:].count(command) == most > 0:
                place += 1
        return most, place


class AroundTheEnd(Bursts):
    """Goes on at the beginning."""

    def times(self, commands, command, width):
        if not commands or width >= len(commands):
            yield from super().times(commands, command, width)
            return
        for first in range(len(commands)):
            taken = (commands + commands)[first:first + width]
            yield taken.count(command), first


class FromACallOn(Bursts):
    """Stretches that begin with the command, cut at the end."""

    def densest(self, commands, command, width):
        found = [(commands[first:first + width].count(command), -first)
                 for first, one in enumerate(commands) if one == command]
        if not found:
            return 0, 1
        most, first = max(found)
        return most, 1 - first


class FromTheFirstCall(Bursts):
    """Only the stretch that begins there."""

    def densest(self, commands, command, width):
        if command not in commands:
            return 0, 1
        first = commands.index(command)
        return commands[first:first + width].count(command), first + 1


class WithoutPause(Bursts):
    """Calls in a row, up to the width."""

    def densest(self, commands, command, width):
        best, place = (0, 1), 1
        for one, row in groupby(commands):
            length = len(list(row))
            if one == command and min(length, width) > best[0]:
                best = min(length, width), place
            place += length
        return best


class NeverForgets(Bursts):
    """What leaves a stretch is counted on."""

    def times(self, commands, command, width):
        for first, end in self.stretches(len(commands), width):
            yield commands[:end].count(command), first


class FirstStepStays(Bursts):
    """As a stretch moves on, a call at its beginning is not taken off."""

    def times(self, commands, command, width):
        for times, first in super().times(commands, command, width):
            yield times + (first > 0 and commands[first - 1] == command), first


class WholeTrace(Bursts):
    """The most is how often it occurs at all."""

    def densest(self, commands, command, width):
        _, place = super().densest(commands, command, width)
        return commands.count(command), place


class AtMost4095Steps(Bursts):
    """What comes behind is not looked at."""

    def commands_in(self, text, sheet, places):
        return super().commands_in(text, sheet, places)[:4095]


class AtMost255Steps(Bursts):
    def commands_in(self, text, sheet, places):
        return super().commands_in(text, sheet, places)[:255]


class ToTheEndOfTheList(Bursts):
    """Counts in the spare places too, where they have a command."""

    def commands_in(self, text, sheet, places):
        return [place[0] for place in places if place[0] < 16]


class OneSparePlaceToo(ToTheEndOfTheList):
    def commands_in(self, text, sheet, places):
        return super().commands_in(text, sheet,
                                   places[:self.last(sheet) + 1])


class LastStepForgotten(Bursts):
    def commands_in(self, text, sheet, places):
        return super().commands_in(text, sheet, places)[:-1]


class FirstStepForgotten(Bursts):
    def commands_in(self, text, sheet, places):
        return super().commands_in(text, sheet, places)[1:]


# What is counted there.

class AnyCommand(Bursts):
    def is_called(self, one, command):
        return True


class OtherCommands(Bursts):
    def is_called(self, one, command):
        return one != command


class CommandZero(Bursts):
    def is_called(self, one, command):
        return one == 0


class CommandsFromOne(Bursts):
    def is_called(self, one, command):
        return one + 1 == command


class CommandsUpTo(Bursts):
    def is_called(self, one, command):
        return one <= command


class CommandIn3Bits(Bursts):
    def is_called(self, one, command):
        return one % 8 == command % 8


class WordsForCommands(Bursts):
    """As far as there are commands."""

    def commands_in(self, text, sheet, places):
        return [word % 16 for _, word, _ in places[:self.last(sheet)]]


class StatesForCommands(Bursts):
    def commands_in(self, text, sheet, places):
        return [after % 16 for _, _, after in places[:self.last(sheet)]]


class CommandsInOrderOfNames(Bursts):
    def commands_in(self, text, sheet, places):
        order = by_name(text)
        return [order[one]
                for one in super().commands_in(text, sheet, places)]


# Which place is told.

class PlacesFromZero(Bursts):
    def place(self, first, commands, command, width):
        return first


class PlacesFromTwo(Bursts):
    def place(self, first, commands, command, width):
        return first + 2


class PlaceOfTheLastStep(Bursts):
    """Where the stretch ends."""

    def place(self, first, commands, command, width):
        return max(min(first + width, len(commands)), 1)


class PlaceBehindTheStretch(Bursts):
    def place(self, first, commands, command, width):
        return min(first + width, len(commands)) + 1


class PlaceOfTheFirstCall(Bursts):
    """Where it first occurs in the stretch."""

    def place(self, first, commands, command, width):
        within = commands[first:first + width]
        return first + 1 + (within.index(command) if command in within else 0)


class PlaceFromTheEnd(Bursts):
    def place(self, first, commands, command, width):
        return max(len(commands) - first, 1)


class PlaceInTheSheet(Bursts):
    """Counts bytes."""

    def place(self, first, commands, command, width):
        return 17 + 10 * first


class PlaceIn8Bits(Bursts):
    def place(self, first, commands, command, width):
        return (first + 1) % 256


class PlaceIn12Bits(Bursts):
    def place(self, first, commands, command, width):
        return (first + 1) % 4096


class NoneAtZero(Bursts):
    """Where it does not occur there is no place."""

    def densest(self, commands, command, width):
        most, place = super().densest(commands, command, width)
        return most, place if most else 0


class NoneAtTheLast(Bursts):
    def densest(self, commands, command, width):
        most, place = super().densest(commands, command, width)
        return most, place if most else max(len(commands) - width + 1, 1)


class NoneBehindTheLast(Bursts):
    def densest(self, commands, command, width):
        most, place = super().densest(commands, command, width)
        return most, place if most else len(commands) + 1


class NoStepsAtZero(Bursts):
    def place(self, first, commands, command, width):
        return first + 1 if commands else 0


# Traces that are no longer than the width.

class ShorterIsNothing(Bursts):
    def densest(self, commands, command, width):
        if len(commands) < width:
            return 0, 1
        return super().densest(commands, command, width)


class AsLongIsNothing(Bursts):
    def densest(self, commands, command, width):
        if len(commands) == width:
            return 0, 1
        return super().densest(commands, command, width)


class ShorterAtZero(Bursts):
    def place(self, first, commands, command, width):
        return 0 if len(commands) < width else first + 1


class AsLongAtZero(Bursts):
    def place(self, first, commands, command, width):
        return 0 if len(commands) == width else first + 1


class ShorterAtItsFirstCall(Bursts):
    def place(self, first, commands, command, width):
        if len(commands) < width and command in commands:
            return commands.index(command) + 1
        return first + 1


class ShorterAtTheLastStretch(Bursts):
    """The place comes out below 1, in 16 bits."""

    def place(self, first, commands, command, width):
        if len(commands) < width:
            return (len(commands) - width + 1) % 65536
        return first + 1


class ShorterIsSixteen(Bursts):
    """No stretch is as long."""

    def no_width(self, sheet, width):
        said = super().no_width(sheet, width)
        return self.sixteen if width > self.last(sheet) else said


class NoStepsAreSixteen(Bursts):
    def no_width(self, sheet, width):
        return (super().no_width(sheet, width) if self.last(sheet)
                else self.sixteen)


# How it is told.

class PlaceBelowTheMost(Bursts):
    """The other way round."""

    def told(self, most, place):
        return super().told(place, most)


class MostInAByte(Bursts):
    """The place stands right behind a byte."""

    def told(self, most, place):
        return self.found + 256 * (most + 256 * place)


class MostAlone(Bursts):
    def told(self, most, place):
        return self.found + 256 * most


class MostIn12BitsOfTheAnswer(Bursts):
    """4,095 has room there."""

    def told(self, most, place):
        return self.found + 256 * (most + 4096 * place)


class BurstsToldAsSteps(Bursts):
    found = Bursts.listed
