"""Programs that misjudge commands and widths, refuse them by another number
or place, or in another order, in one way each."""

from tests.burst_program import Bursts
from tests.portion_program import table_of


class Lossy(Bursts):
    """Keeps only so many bits of a command and of a width."""

    command_bits = width_bits = 64

    def find_burst(self, text, sheet, places, command, width):
        return super().find_burst(text, sheet, places,
                                  command % (1 << self.command_bits),
                                  width % (1 << self.width_bits))


# Commands.

class CommandIn4Bits(Lossy):
    command_bits = 4


class CommandIn8Bits(Lossy):
    command_bits = 8


class CommandIn16Bits(Lossy):
    command_bits = 16


class CommandIn32Bits(Lossy):
    command_bits = 32


class CommandIn63Bits(Lossy):
    command_bits = 63


class SignedCommands(Bursts):
    """The upper half is below 0, and so below the number of commands."""

    def unknown(self, text, sheet, command):
        return 0 if command >> 63 else super().unknown(text, sheet, command)


class AnyCommandIsKnown(Bursts):
    """An unknown one does not occur."""

    def unknown(self, text, sheet, command):
        return 0


class SixteenAreKnown(Bursts):
    """In every model."""

    def unknown(self, text, sheet, command):
        return 10 if command >= 16 else 0


class OneMoreIsKnown(Bursts):
    def unknown(self, text, sheet, command):
        return 10 if command > table_of(text).commands else 0


class LastIsUnknown(Bursts):
    def unknown(self, text, sheet, command):
        return 10 if command + 1 >= table_of(text).commands else 0


class ZeroIsUnknown(Bursts):
    """Commands from 1 on."""

    def unknown(self, text, sheet, command):
        return 0 if 1 <= command <= table_of(text).commands else 10


class CalledOrUnknown(Bursts):
    """A command that does not occur is unknown."""

    def unknown(self, text, sheet, command):
        said = super().unknown(text, sheet, command)
        called = {self.step_at(sheet, number)[0]
                  for number in range(self.last(sheet))}
        return said or (0 if command in called else 10)


class NothingCalledIsUnknown(Bursts):
    """Where there are no steps, any command is."""

    def unknown(self, text, sheet, command):
        return super().unknown(text, sheet, command) if self.last(
            sheet) else 10


class PlaceOfTheCommand(Bursts):
    def unknown(self, text, sheet, command):
        said = super().unknown(text, sheet, command)
        return said and (said + 256 * command) % (1 << 64)


class CommandsToldWithTen(Bursts):
    """How many there are."""

    def unknown(self, text, sheet, command):
        said = super().unknown(text, sheet, command)
        return said and said + 256 * table_of(text).commands


class FiveForTen(Bursts):
    """As for a name that is not declared."""

    ten = 5


class SixteenForTen(Bursts):
    ten = 16


# Widths.

class WidthIn8Bits(Lossy):
    width_bits = 8


class WidthIn12Bits(Lossy):
    width_bits = 12


class WidthIn16Bits(Lossy):
    width_bits = 16


class WidthIn32Bits(Lossy):
    width_bits = 32


class WidthIn63Bits(Lossy):
    width_bits = 63


class SignedWidths(Bursts):
    """The upper half is below 4,096."""

    def no_width(self, sheet, width):
        return 0 if width >> 63 else super().no_width(sheet, width)


class ZeroIsAWidth(Bursts):
    """In which a command occurs 0 times."""

    def no_width(self, sheet, width):
        return 16 if width > 4095 else 0


class ZeroIsOneStep(ZeroIsAWidth):
    def densest(self, commands, command, width):
        return super().densest(commands, command, max(width, 1))


class ZeroIsTheWholeTrace(ZeroIsAWidth):
    def densest(self, commands, command, width):
        return super().densest(commands, command, width or 4095)


class OneIsNoWidth(Bursts):
    def no_width(self, sheet, width):
        return 16 if width == 1 else super().no_width(sheet, width)


class Width4095Refused(Bursts):
    widest = 4094


class Width4096Taken(Bursts):
    widest = 4096


class WidthsToTheMostSteps(Bursts):
    widest = 6551


class WidthsOf16Bits(Bursts):
    widest = 65535


class AnyLargeWidth(Bursts):
    widest = (1 << 64) - 1


class LargeWidthsCut(Bursts):
    """The largest is taken instead."""

    widest = (1 << 64) - 1

    def densest(self, commands, command, width):
        return super().densest(commands, command, min(width, 4095))


class PlaceOfTheWidth(Bursts):
    def no_width(self, sheet, width):
        said = super().no_width(sheet, width)
        return said and (said + 256 * width) % (1 << 64)


class LimitToldWithSixteen(Bursts):
    def no_width(self, sheet, width):
        said = super().no_width(sheet, width)
        return said and said + 256 * 4095


class TenForSixteen(Bursts):
    sixteen = 10


class FifteenForSixteen(Bursts):
    sixteen = 15


class SevenForSixteen(Bursts):
    """As for a limit."""

    sixteen = 7


# Which comes first.

class WidthBeforeCommand(Bursts):
    def burst_refusal(self, text, sheet, places, command, width):
        return (self.refusal(text, sheet, places)
                or self.no_width(sheet, width)
                or self.unknown(text, sheet, command))


class ZeroBeforeCommand(Bursts):
    """A width of 0 only."""

    def burst_refusal(self, text, sheet, places, command, width):
        said = super().burst_refusal(text, sheet, places, command, width)
        wanted = not self.refusal(text, sheet, places) and width == 0
        return 16 if wanted else said


class LargeWidthBeforeCommand(Bursts):
    def burst_refusal(self, text, sheet, places, command, width):
        said = super().burst_refusal(text, sheet, places, command, width)
        wanted = not self.refusal(text, sheet, places) and width > 4095
        return 16 if wanted else said


class CommandBeforePlaces(Bursts):
    def burst_refusal(self, text, sheet, places, command, width):
        return (self.outcome(text, sheet)
                or self.unknown(text, sheet, command)
                or self.too_few(sheet, places)
                or self.no_width(sheet, width))


class WidthBeforePlaces(Bursts):
    def burst_refusal(self, text, sheet, places, command, width):
        said = super().burst_refusal(text, sheet, places, command, width)
        too_few = said == 8 and self.too_few(sheet, places)
        return too_few and self.no_width(sheet, width) or said


class PlacesLast(Bursts):
    def burst_refusal(self, text, sheet, places, command, width):
        return (self.outcome(text, sheet)
                or self.unknown(text, sheet, command)
                or self.no_width(sheet, width)
                or self.too_few(sheet, places))


class NumbersJudgedByNoTrace(Bursts):
    """With nothing to count, neither command nor width is judged."""

    def burst_refusal(self, text, sheet, places, command, width):
        said = super().burst_refusal(text, sheet, places, command, width)
        return said if self.outcome(text, sheet) or self.last(sheet) else 0
