"""Players that keep something between calls, in one way each. They are right
as long as a walk keeps to one text and one sheet."""

from tests.player_program import Player


class KeepsTheSheet(Player):
    """Moves along the sheet that it opened on, if the next is as long."""

    kept = b""

    def open(self, sheet, record):
        super().open(sheet, record)
        self.kept = sheet

    def state_at(self, sheet, place):
        if len(self.kept) == len(sheet):
            sheet = self.kept
        return super().state_at(sheet, place)


class KeepsTheOutcome(Player):
    """A sheet that passed is not tested again, whatever the text is."""

    def __init__(self):
        self.passed = set()

    def known_by(self, text, sheet):
        return sheet

    def outcome(self, text, sheet):
        if self.known_by(text, sheet) in self.passed:
            return 0
        said = super().outcome(text, sheet)
        if not said:
            self.passed.add(self.known_by(text, sheet))
        return said


class KeepsTheText(KeepsTheOutcome):
    """Nor are a text and a sheet of that length."""

    def known_by(self, text, sheet):
        return text, len(sheet)


class Leaving(Player):
    """Knows the record that it left last."""

    left = None

    def put(self, sheet, record, place):
        super().put(sheet, record, place)
        self.left = record[:2]


class TrustsItsRecord(Leaving):
    """A record that it left is not judged again."""

    def is_other(self, sheet, place, state):
        return [place, state] != self.left and super().is_other(sheet, place,
                                                                state)


class StaysPastTheLast(Leaving):
    """With a record that it left past the last place it is at an end."""

    def at_foreign(self, sheet, record):
        if self.is_past(sheet, record[0]) and record[:2] == self.left:
            return self.ended
        return super().at_foreign(sheet, record)
