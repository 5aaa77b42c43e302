"""Players that open or move wrongly, in one way each."""

from tests.player_program import Player


# Opening.

class OpensAtTheLast(Player):
    def open(self, sheet, record):
        self.put(sheet, record, self.last(sheet))


class OpensAtTheFirstStep(Player):
    """A place further, if there is one."""

    def open(self, sheet, record):
        self.put(sheet, record, min(1, self.last(sheet)))


class OpensInStateZero(Player):
    def open(self, sheet, record):
        record[:2] = [0, 0]


class OpensAfterTheFirstStep(Player):
    """At place 0, but in the state that the first step leads to."""

    def open(self, sheet, record):
        super().open(sheet, record)
        record[1] = self.state_at(sheet, min(1, self.last(sheet)))


class OpensInTheLastState(Player):
    def open(self, sheet, record):
        record[:2] = [0, self.state_at(sheet, self.last(sheet))]


class OpensWhereTheRecordIs(Player):
    """Stays where it stands already."""

    def open(self, sheet, record):
        if self.is_foreign(sheet, record):
            super().open(sheet, record)


class OpensForeignRecordsNever(Player):
    """Judges what the record held before there was a player."""

    def player(self, text, sheet, record):
        said = self.refusal(text, sheet, record)
        if not said and self.is_foreign(sheet, record):
            return self.foreign
        return super().player(text, sheet, record)


class OpensUnwritten(Player):
    def open(self, sheet, record):
        pass


class OpensWithoutAPlace(Player):
    def open(self, sheet, record):
        record[1] = self.state_at(sheet, 0)


class OpensWithoutAState(Player):
    def open(self, sheet, record):
        record[0] = 0


class MovedForOpened(Player):
    opened = Player.moved


class TraceToldForOpened(Player):
    opened = ord("t")


class StepsToldWithOpened(Player):
    """The rest of the answer is the number of steps."""

    def player(self, text, sheet, record):
        said = super().player(text, sheet, record)
        return said + 256 * self.last(sheet) if said == self.opened else said


# Forward.

class ForwardPastTheEnd(Player):
    """A place further, in the last state."""

    def after_forward(self, sheet, record):
        return record[0] + 1

    def state_at(self, sheet, place):
        return super().state_at(sheet, min(place, self.last(sheet)))


class ForwardAroundTheEnd(Player):
    def after_forward(self, sheet, record):
        return (record[0] + 1) % (self.last(sheet) + 1)


class ForwardStaysAtTheEnd(Player):
    """Says that it moved there."""

    def after_forward(self, sheet, record):
        return min(record[0] + 1, self.last(sheet))


class ForwardEndsTooEarly(Player):
    """The last place is never come to."""

    def after_forward(self, sheet, record):
        return record[0] + 1 if record[0] + 1 < self.last(sheet) else None


class ForwardByTwo(Player):
    def after_forward(self, sheet, record):
        if record[0] == self.last(sheet):
            return None
        return min(record[0] + 2, self.last(sheet))


class ForwardToTheEnd(Player):
    def after_forward(self, sheet, record):
        place = super().after_forward(sheet, record)
        return None if place is None else self.last(sheet)


class ForwardEndsAtABreak(Player):
    """Takes the first place in the last state for the last place."""

    def after_forward(self, sheet, record):
        if record[1] == self.state_at(sheet, self.last(sheet)):
            return None
        return super().after_forward(sheet, record)


class ForwardFromTheFirstSuchState(Player):
    """Looks for the state, and not for the place."""

    def after_forward(self, sheet, record):
        if super().after_forward(sheet, record) is None:
            return None
        return 1 + next(place for place in range(self.last(sheet))
                        if self.state_at(sheet, place) == record[1])


class ForwardOverEqualStates(Player):
    """Passes over steps that change nothing."""

    def after_forward(self, sheet, record):
        place = super().after_forward(sheet, record)
        while (place is not None and place < self.last(sheet)
               and self.state_at(sheet, place) == record[1]):
            place += 1
        return place


class ForwardInAByte(Player):
    def after_forward(self, sheet, record):
        place = super().after_forward(sheet, record)
        return place and place % 256


class ForwardIn12Bits(Player):
    def after_forward(self, sheet, record):
        place = super().after_forward(sheet, record)
        return place and place % 4096


class ForwardEndsAt4095(Player):
    """Takes the longest of the shortest traces for the longest."""

    def after_forward(self, sheet, record):
        return (None if record[0] == 4095
                else super().after_forward(sheet, record))


# Back.

class BackBelowZero(Player):
    """To the largest number, in the start state."""

    def after_back(self, sheet, record):
        return (record[0] - 1) % (1 << 64)

    def state_at(self, sheet, place):
        return super().state_at(sheet, 0 if place >> 63 else place)


class BackAroundZero(Player):
    def after_back(self, sheet, record):
        return (record[0] - 1) % (self.last(sheet) + 1)


class BackStaysAtZero(Player):
    """Says that it moved there."""

    def after_back(self, sheet, record):
        return max(record[0] - 1, 0)


class BackEndsAtOne(Player):
    def after_back(self, sheet, record):
        return record[0] - 1 if record[0] > 1 else None


class BackByTwo(Player):
    def after_back(self, sheet, record):
        return max(record[0] - 2, 0) if record[0] else None


class BackToTheBeginning(Player):
    def after_back(self, sheet, record):
        return 0 if record[0] else None


class BackBeforeTheFirstSuchState(Player):
    """Looks for the state, and not for the place."""

    def after_back(self, sheet, record):
        if not record[0]:
            return None
        return max(0, next(place for place in range(record[0] + 1)
                           if self.state_at(sheet, place) == record[1]) - 1)


class BackToAnotherState(Player):
    """Passes over steps that changed nothing."""

    def after_back(self, sheet, record):
        place = super().after_back(sheet, record)
        while place and self.state_at(sheet, place) == record[1]:
            place -= 1
        return place


class ForwardForBack(Player):
    def after_back(self, sheet, record):
        return super().after_forward(sheet, record)


# To the beginning.

class EndAtTheBeginning(Player):
    """Nothing is left to move at place 0."""

    def after_beginning(self, sheet, record):
        return 0 if record[0] else None


class BeginningIsOneBack(Player):
    def after_beginning(self, sheet, record):
        return max(record[0] - 1, 0)


class BeginningIsTheEnd(Player):
    def after_beginning(self, sheet, record):
        return self.last(sheet)


class BeginningOpens(Player):
    """Says that it opened."""

    def beginning(self, text, sheet, record):
        said = super().beginning(text, sheet, record)
        return self.opened if said == self.moved else said


class BeginningOfAnything(Player):
    """Opens again, and so moves foreign records too."""

    def beginning(self, text, sheet, record):
        return MovedForOpened().player(text, sheet, record)


class BeginningPastTheLast(Player):
    """The same where the place is past the last, and nowhere else."""

    def beginning(self, text, sheet, record):
        if record and self.is_past(sheet, record[0]):
            return MovedForOpened().player(text, sheet, record)
        return super().beginning(text, sheet, record)


class BeginningKeepsTheState(Player):
    def beginning(self, text, sheet, record):
        state = record[1:2]
        said = super().beginning(text, sheet, record)
        record[1:2] = state
        return said


class BeginningInStateZero(Player):
    def beginning(self, text, sheet, record):
        said = super().beginning(text, sheet, record)
        if said == self.moved:
            record[1] = 0
        return said
