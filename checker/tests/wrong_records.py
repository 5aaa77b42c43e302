"""Players that write their record wrongly, or misjudge which records are
foreign, in one way each."""

from tests.player_program import Player


# What is written at a move.

class StateUnmoved(Player):
    def put(self, sheet, record, place):
        if self.is_foreign(sheet, record):
            super().put(sheet, record, place)
        record[0] = place


class PlaceUnmoved(Player):
    def put(self, sheet, record, place):
        if self.is_foreign(sheet, record):
            super().put(sheet, record, place)
        record[1] = self.state_at(sheet, place)


class StateOfTheNextPlace(Player):
    def put(self, sheet, record, place):
        super().put(sheet, record, place)
        record[1] = self.state_at(sheet, min(place + 1, self.last(sheet)))


class StateOfThePlaceBefore(Player):
    def put(self, sheet, record, place):
        super().put(sheet, record, place)
        record[1] = self.state_at(sheet, max(place - 1, 0))


class LowByteWritten(Player):
    def put(self, sheet, record, place):
        super().put(sheet, record, place)
        record[1] %= 256


class HighByteFirst(Player):
    def state_at(self, sheet, place):
        end = 17 + 10 * place
        return int.from_bytes(sheet[end - 2:end], "big")


class CommandForState(Player):
    """Takes a step's first two bytes for the state after it."""

    def put(self, sheet, record, place):
        super().put(sheet, record, place)
        if place:
            end = 15 + 10 * place
            record[1] = int.from_bytes(sheet[end - 2:end], "little")


class StateBeforePlace(Player):
    """Writes the two the other way round."""

    def put(self, sheet, record, place):
        record[:2] = [self.state_at(sheet, place), place]


class PlacesFromOne(Player):
    def put(self, sheet, record, place):
        super().put(sheet, record, place)
        record[0] += 1


class BytesForPlaces(Player):
    """The place is that of the record in the sheet."""

    def put(self, sheet, record, place):
        super().put(sheet, record, place)
        record[0] = 7 + 10 * place


class StepBehindTheRecord(Player):
    """Has a third number to say, if there is room."""

    def put(self, sheet, record, place):
        super().put(sheet, record, place)
        record[2:3] = [sheet[11 + 10 * place]] * len(record[2:3])


class BehindTheRecordCleared(Player):
    def put(self, sheet, record, place):
        super().put(sheet, record, place)
        record[2:] = [0] * len(record[2:])


class LastEntryCounts(Player):
    """Counts its calls in the last entry, if there is one to spare."""

    def move(self, text, sheet, record, target):
        said = super().move(text, sheet, record, target)
        if len(record) > 2:
            record[-1] = (record[-1] + 1) % (1 << 64)
        return said


# What is written where nothing moves.

class EndWritten(Player):
    """A place further, though it says that there is none."""

    def at_end(self, sheet, record):
        record[0] = (record[0] + 1) % (1 << 64)
        return super().at_end(sheet, record)


class EndBegins(Player):
    """Goes to the beginning at an end."""

    def at_end(self, sheet, record):
        self.put(sheet, record, 0)
        return super().at_end(sheet, record)


class EndTurnsRound(Player):
    """Goes to the other end."""

    def at_end(self, sheet, record):
        self.put(sheet, record, 0 if record[0] else self.last(sheet))
        return super().at_end(sheet, record)


class EndClosed(Player):
    def at_end(self, sheet, record):
        record[:2] = [(1 << 64) - 1] * 2
        return super().at_end(sheet, record)


class PlaceToldAtAnEnd(Player):
    def at_end(self, sheet, record):
        return super().at_end(sheet, record) + 256 * record[0]


class ForeignMended(Player):
    """Takes a foreign record to the beginning, and says that it was
    foreign."""

    def at_foreign(self, sheet, record):
        self.put(sheet, record, 0)
        return super().at_foreign(sheet, record)


class ForeignStateMended(Player):
    def at_foreign(self, sheet, record):
        if not self.is_past(sheet, record[0]):
            self.put(sheet, record, record[0])
        return super().at_foreign(sheet, record)


class ForeignCleared(Player):
    def at_foreign(self, sheet, record):
        record[:2] = [0, 0]
        return super().at_foreign(sheet, record)


class ForeignCutToTheLast(Player):
    """A place past the last becomes the last."""

    def at_foreign(self, sheet, record):
        record[0] = min(record[0], self.last(sheet))
        return super().at_foreign(sheet, record)


# What is said of foreign records.

class ForeignIsAnEnd(Player):
    foreign = Player.ended


class ForeignIsTen(Player):
    foreign = 10


class PlaceToldOfForeign(Player):
    def at_foreign(self, sheet, record):
        return self.foreign + 256 * (record[0] % 65536)


# Which records are foreign.

class NothingIsForeign(Player):
    """A place past the last is taken for the last."""

    def is_foreign(self, sheet, record):
        record[0] = min(record[0], self.last(sheet))
        return False


class AnyState(Player):
    def is_other(self, sheet, place, state):
        return False


class AnyStateOfTheTrace(Player):
    def is_other(self, sheet, place, state):
        return all(self.state_at(sheet, other) != state
                   for other in range(self.last(sheet) + 1))


class AnyStateAtZero(Player):
    def is_other(self, sheet, place, state):
        return place > 0 and super().is_other(sheet, place, state)


class AnyStateAtTheLast(Player):
    def is_other(self, sheet, place, state):
        return (place < self.last(sheet)
                and super().is_other(sheet, place, state))


class AnyStateBetween(Player):
    def is_other(self, sheet, place, state):
        return (place in (0, self.last(sheet))
                and super().is_other(sheet, place, state))


class AnyStateForward(Player):
    """Judges the state at the other moves only."""

    def forward(self, text, sheet, record):
        return AnyState().forward(text, sheet, record)


class AnyStateBack(Player):
    def back(self, text, sheet, record):
        return AnyState().back(text, sheet, record)


class AnyStateToTheBeginning(Player):
    def beginning(self, text, sheet, record):
        return AnyState().beginning(text, sheet, record)


class SmallerStates(Player):
    """Only a state that is larger than the sheet's is another."""

    def is_other(self, sheet, place, state):
        return state > self.state_at(sheet, place)


class StateOneOff(Player):
    """Overlooks the lowest bit."""

    def is_other(self, sheet, place, state):
        return state // 2 != self.state_at(sheet, place) // 2


class StateInAByte(Player):
    bits = 8

    def is_other(self, sheet, place, state):
        return (state - self.state_at(sheet, place)) % (1 << self.bits) != 0


class StateIn12Bits(StateInAByte):
    bits = 12


class StateIn16Bits(StateInAByte):
    bits = 16


class StateIn32Bits(StateInAByte):
    bits = 32


class StateIn63Bits(StateInAByte):
    bits = 63


class PlaceInAByte(Player):
    """Goes on from the place that is left of it."""

    bits = 8

    def is_foreign(self, sheet, record):
        cut = record[0] % (1 << self.bits)
        return super().is_foreign(sheet, [cut, *record[1:]])

    def put(self, sheet, record, place):
        super().put(sheet, record, place % (1 << self.bits))


class PlaceIn12Bits(PlaceInAByte):
    bits = 12


class PlaceIn16Bits(PlaceInAByte):
    bits = 16


class PlaceIn32Bits(PlaceInAByte):
    bits = 32


class PlaceIn63Bits(PlaceInAByte):
    bits = 63


class OnePastIsThere(Player):
    """A place past the last by one, with the last state."""

    def is_past(self, sheet, place):
        return place > self.last(sheet) + 1

    def state_at(self, sheet, place):
        return super().state_at(sheet, min(place, self.last(sheet)))


class LastIsPast(Player):
    """Counts the places without the start."""

    def is_past(self, sheet, place):
        return place > max(self.last(sheet) - 1, 0)


class PlacesOfSignedNumbers(Player):
    """A place from 2^63 up is below 0."""

    def is_past(self, sheet, place):
        return place < 1 << 63 and super().is_past(sheet, place)

    def state_at(self, sheet, place):
        return super().state_at(sheet, 0 if place >> 63 else place)


class StateOfTheStepBefore(Player):
    """Judges by the place before."""

    def is_other(self, sheet, place, state):
        return super().is_other(sheet, max(place - 1, 0), state)


class StateOfTheStepBehind(Player):
    """Judges by the place behind."""

    def is_other(self, sheet, place, state):
        return super().is_other(sheet, min(place + 1, self.last(sheet)),
                                state)
