"""A player as a program has to do it, which knows at a call only what it is
handed: a text, a sheet and a list. It is called as a library is. Any part of
it may be exchanged for a wrong part."""

from comparing.told import player_told
from tests.portion_program import number_of, tested


class Player:
    """The right one."""

    opened, moved, ended, foreign = b"omef"

    def play(self, call, text, sheet, memory, count):
        record = memory[:count]
        said = getattr(self, call)(text, sheet, record)
        memory[:count] = record
        return player_told(said)

    # The functions for C.

    def player(self, text, sheet, record):
        said = self.refusal(text, sheet, record)
        if said:
            return said
        self.open(sheet, record)
        return self.opened

    def forward(self, text, sheet, record):
        return self.move(text, sheet, record, self.after_forward)

    def back(self, text, sheet, record):
        return self.move(text, sheet, record, self.after_back)

    def beginning(self, text, sheet, record):
        return self.move(text, sheet, record, self.after_beginning)

    # Opening and moving.

    def open(self, sheet, record):
        self.put(sheet, record, 0)

    def move(self, text, sheet, record, target):
        said = self.refusal(text, sheet, record)
        if said:
            return said
        if self.is_foreign(sheet, record):
            return self.at_foreign(sheet, record)
        place = target(sheet, record)
        if place is None:
            return self.at_end(sheet, record)
        self.put(sheet, record, place)
        return self.moved

    def after_forward(self, sheet, record):
        """The place, or None at the end."""
        return record[0] + 1 if record[0] < self.last(sheet) else None

    def after_back(self, sheet, record):
        return record[0] - 1 if record[0] else None

    def after_beginning(self, sheet, record):
        return 0

    def put(self, sheet, record, place):
        record[0] = place
        record[1] = self.state_at(sheet, place)

    def at_end(self, sheet, record):
        return self.ended

    # The sheet.

    def last(self, sheet):
        """The place of its last step."""
        return (len(sheet) - 17) // 10

    def state_at(self, sheet, place):
        """Both bytes stand at the end of the start's record or a step's."""
        end = 17 + 10 * place
        return int.from_bytes(sheet[end - 2:end], "little")

    # Foreign records.

    def is_foreign(self, sheet, record):
        return self.is_past(sheet, record[0]) or self.is_other(sheet, *record[
            :2])

    def is_past(self, sheet, place):
        return place > self.last(sheet)

    def is_other(self, sheet, place, state):
        return state != self.state_at(sheet, place)

    def at_foreign(self, sheet, record):
        return self.foreign

    # Refusals, as a number or 0.

    def refusal(self, text, sheet, record):
        return self.outcome(text, sheet) or self.too_short(record)

    def outcome(self, text, sheet):
        said = tested(text, sheet)
        return 0 if said == "trace holds" else number_of(said)

    def too_short(self, record):
        return 8 if len(record) < 2 else 0
