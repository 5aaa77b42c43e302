"""Programs that open a search in portions wrongly, or refuse wrongly to open
it or to go on with it, in one way each: a corpus that does not tell them from
the right one is too weak."""

from evidence.portions import opened
from tests.portion_program import Program, table_of


# The start states.

class AllStartsTakenIn(Program):
    """Sees a break, but only when all start states are in."""

    def take_in_starts(self, here):
        super().take_in_starts(here)
        if here.broken:
            for state in range(here.first[here.met - 1] + 1,
                               here.table.states):
                if here.table.starts(state):
                    self.meet(here, state, state)
            here.broken = True


class BreakUnseenAtOpening(AllStartsTakenIn):
    """Would go on with the start states, though one breaks."""

    def take_in_starts(self, here):
        super().take_in_starts(here)
        here.broken = False


class BreakingStartNotMet(Program):
    """Ends before the start state that breaks."""

    def take_in_starts(self, here):
        before = here.first[:]
        super().take_in_starts(here)
        if here.broken:
            here.met -= 1
            state = here.first[here.met]
            here.second[state] = 0
            here.first[here.met] = before[here.met]


class StartsFromTheHighest(Program):
    def take_in_starts(self, here):
        states = here.table.states
        here.second[:states] = [0] * states
        for state in filter(here.table.starts, reversed(range(states))):
            self.meet(here, state, state)
            if here.broken:
                return


class OneStartAlone(Program):
    def take_in_starts(self, here):
        states = here.table.states
        here.second[:states] = [0] * states
        for state in filter(here.table.starts, range(states)):
            self.meet(here, state, state)
            return


class LastStateForgotten(Program):
    """Looks for start states among all but the last."""

    def take_in_starts(self, here):
        last = here.table.states - 1
        before = here.first[:]
        super().take_in_starts(here)
        if here.second[last] == last + 1:
            here.met -= 1
            here.first[here.met] = before[here.met]
            here.second[last] = 0
            here.broken = False


class NoiseLeftAtOpening(Program):
    """Does not clear the second table first."""

    def take_in_starts(self, here):
        before = here.second[:]
        super().take_in_starts(here)
        here.second[:] = [there or old for there, old in
                          zip(here.second, before)]


class FirstClearedAtOpening(Program):
    """Writes to places of the queue that are not taken yet."""

    def take_in_starts(self, here):
        states = here.table.states
        here.first[:states] = [0] * states
        super().take_in_starts(here)


class ClearedBeyondAtOpening(Program):
    def take_in_starts(self, here):
        here.second[:] = [0] * len(here.second)
        super().take_in_starts(here)


class StartsMarked(Program):
    """Has a mark for start states instead of their own numbers."""

    def meet(self, here, state, by):
        super().meet(here, state, by)
        if state == by:
            here.second[state] = 65535


class NotOneMore(Program):
    """Writes down the state that led there, not one more."""

    def meet(self, here, state, by):
        super().meet(here, state, by)
        here.second[state] = by

    def is_met(self, here, state):
        return state in here.first[:here.met]


class ExpandsAtOpening(Program):
    def take_in_starts(self, here):
        super().take_in_starts(here)
        self.go_on(here, 1)


class VoidIsPaused(Program):
    def has_ended(self, here):
        return super().has_ended(here) and here.met > 0

    def go_on(self, here, states):
        if here.met:
            super().go_on(here, states)


class StartsUntoldAtABreak(Program):
    """Where a start state breaks, no state counts as met."""

    def open(self, text, first, second):
        said = super().open(text, first, second)
        if said % 256 == ord("e") and said >> 8 & 1:
            said &= ~(8191 << 22)
        return said


# Refusals.

class ZeroBeforeRefusals(Program):
    """A portion of 0 is given its position back unread."""

    def portion(self, position, states, text, first, second):
        return super().portion(position, states, text, first,
                               second) if states else position


class EndBeforeRefusals(Program):
    """So is a portion after the end."""

    def portion(self, position, states, text, first, second):
        if position % 256 == ord("e"):
            return position
        return super().portion(position, states, text, first, second)


class Asking(Program):
    """Asks for so many entries more than there are states; not wrong where
    that is none."""

    more = 0, 0

    def refusal(self, text, first, second):
        said = super().refusal(text, first, second)
        if said not in (0, 8):
            return said
        states = table_of(text).states
        return 8 * (len(first) < states + self.more[0]
                    or len(second) < states + self.more[1])


class AnEntryMoreFirst(Asking):
    more = 1, 0


class AnEntryMoreSecond(Asking):
    more = 0, 1


class PlaceOfEight(Program):
    def refusal(self, text, first, second):
        said = super().refusal(text, first, second)
        return 8 + 256 * min(len(first), len(second)) if said == 8 else said


class EightBeforeTheText(Program):
    def refusal(self, text, first, second):
        return super().refusal(text, first, second) if first and second else 8


class ClearedByEight(Program):
    """Clears the second table before it looks at the lengths."""

    def refusal(self, text, first, second):
        said = super().refusal(text, first, second)
        if said == 8:
            second[:] = [0] * len(second)
        return said


class OpensThoughShort(Program):
    """Is content at the opening where the start states find room."""

    def open(self, text, first, second):
        said = super().open(text, first, second)
        if said != 8:
            return said
        table = table_of(text)
        room = first + [0] * table.states, second + [0] * table.states
        if len(opened(table).met) > len(first):
            return said
        said = super().open(text, *room)
        first[:], second[:] = room[0][:len(first)], room[1][:len(second)]
        return said
