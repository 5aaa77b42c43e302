"""Programs that hand back a wrong position at a pause, or leave the tables
wrongly, in one way each: a corpus that does not tell them from the right one
is too weak."""

from tests.portion_program import Program, table_of


# Numbers.

class WaitingForMet(Program):
    """A position has the states that wait instead of those met."""

    def position(self, here):
        here.met -= here.expanded
        try:
            letter = "e" if here.broken or not here.met else "p"
            said = super().position(here)
            return said - said % 256 + ord(letter)
        finally:
            here.met += here.expanded

    def taken_up(self, position, text, first, second):
        expanded = position >> 9 & 8191
        return super().taken_up(position + (expanded << 22), text, first,
                                second)


class MetBeforeExpanded(Program):
    """The two numbers of states stand in the other order."""

    def position(self, here):
        return exchanged(super().position(here))

    def taken_up(self, position, text, first, second):
        return super().taken_up(exchanged(position), text, first, second)


def exchanged(position):
    expanded, met = position >> 9 & 8191, position >> 22 & 8191
    return position & ~(((1 << 26) - 1) << 9) | met << 9 | expanded << 22


class In12Bits(Program):
    """As many states as there can be are none."""

    def position(self, here):
        said = super().position(here)
        return said & ~(1 << 21) & ~(1 << 34)


class TrialsIn16Bits(Program):
    def position(self, here):
        return super().position(here) % (1 << 51)


# Tables.

class SparePlacesCleared(Program):
    def position(self, here):
        states = here.table.states
        here.first[here.met:states] = [0] * (states - here.met)
        return super().position(here)


class QueueClosed(Program):
    """Writes a mark behind the queue, where there is a place."""

    def position(self, here):
        if here.met < here.table.states:
            here.first[here.met] = 65535
        return super().position(here)


class ExpandedTakenOut(Program):
    """Clears the places of the states that are expanded."""

    def portion(self, position, states, text, first, second):
        said = super().portion(position, states, text, first, second)
        if said % 256 > 16:
            done = said >> 9 & 8191
            first[:done] = [0] * done
        return said


class ClearedAtTheEnd(Program):
    """Clears the tables when nothing is left to expand, before the search is
    finished."""

    def portion(self, position, states, text, first, second):
        said = super().portion(position, states, text, first, second)
        if said % 256 == ord("e"):
            self.clear(self.taken_up(said, text, first, second))
        return said


class BeyondClearedByPortions(Program):
    def portion(self, position, states, text, first, second):
        said = super().portion(position, states, text, first, second)
        if said % 256 > 16:
            least = table_of(text).states
            second[least:] = [0] * (len(second) - least)
        return said


class KeepsItsOwnQueue(Program):
    """Goes on with the queue of the call before, not with the one that it is
    handed."""

    def __init__(self):
        self.kept = {}

    def position(self, here):
        said = super().position(here)
        self.kept[said] = here.first[:]
        return said

    def taken_up(self, position, text, first, second):
        if len(self.kept.get(position, ())) == len(first):
            first[:] = self.kept[position]
        return super().taken_up(position, text, first, second)
