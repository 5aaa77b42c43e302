"""Programs that go on with a search in portions wrongly, in one way each: a
corpus that does not tell them from the right one is too weak."""

from tests.portion_program import MANY, Program


# How many states a portion has.

class OneStateMore(Program):
    def go_on(self, here, states):
        super().go_on(here, states + 1)


class OneStateFewer(Program):
    def go_on(self, here, states):
        super().go_on(here, states if states == MANY else max(0, states - 1))


class ZeroExpandsOne(Program):
    def go_on(self, here, states):
        super().go_on(here, max(1, states))


class ZeroIsNoLimit(Program):
    def go_on(self, here, states):
        super().go_on(here, states or MANY)


class AtMost255(Program):
    """In a portion; what is left is run whole."""

    def portion(self, position, states, text, first, second):
        return super().portion(position, min(states, 255), text, first,
                               second)


class InAByte(Program):
    """Of the number of states the lowest bits alone count."""

    bits = 8

    def portion(self, position, states, text, first, second):
        return super().portion(position, states % (1 << self.bits), text,
                               first, second)


class In16Bits(InAByte):
    bits = 16


class In32Bits(InAByte):
    bits = 32


class BelowZero(Program):
    """Takes the highest bit for a sign."""

    def portion(self, position, states, text, first, second):
        return super().portion(position, 0 if states >> 63 else states, text,
                               first, second)


class TrialsForStates(Program):
    """Stops when so many trials are made, if a state is expanded then."""

    def portion(self, position, states, text, first, second):
        said = self.refusal(text, first, second)
        if said:
            return said
        here = self.taken_up(position, text, first, second)
        most = here.trials + states
        while here.trials < most and not self.has_ended(here):
            self.go_on(here, 1)
        return self.position(here)


class LayersForStates(Program):
    """Expands all that were met when a round began."""

    def portion(self, position, states, text, first, second):
        said = self.refusal(text, first, second)
        if said:
            return said
        here = self.taken_up(position, text, first, second)
        while states and not self.has_ended(here):
            self.go_on(here, here.met - here.expanded)
            states -= 1
        return self.position(here)


class MetForExpanded(Program):
    """Goes on until so many states more are met."""

    def portion(self, position, states, text, first, second):
        said = self.refusal(text, first, second)
        if said:
            return said
        here = self.taken_up(position, text, first, second)
        most = here.met + states
        while here.met < most and not self.has_ended(here):
            self.go_on(here, 1)
        return self.position(here)


class BeginsAnew(Program):
    """Opens the search again at each portion."""

    def portion(self, position, states, text, first, second):
        said = self.refusal(text, first, second)
        if said:
            return said
        here = self.taken_up(self.open(text, first, second), text, first,
                             second)
        self.go_on(here, states)
        return self.position(here)


# The order, and what led to a state.

class LastInFirstOut(Program):
    def next_state(self, here):
        state = here.first.pop(here.met - 1)
        here.first.insert(here.expanded, state)
        return super().next_state(here)


class LowestFirst(Program):
    def next_state(self, here):
        here.first[here.expanded:here.met] = sorted(
            here.first[here.expanded:here.met])
        return super().next_state(here)


class LastWordFirst(Program):
    def results(self, here, state):
        return [after for _, _, after in sorted(
            here.table.steps_from(state), key=lambda step: (step[0],
                                                            -step[1]))]


class LastCommandFirst(Program):
    def results(self, here, state):
        return [after for _, _, after in sorted(
            here.table.steps_from(state), key=lambda step: (-step[0],
                                                            step[1]))]


class WordBeforeCommand(Program):
    def results(self, here, state):
        return [after for _, _, after in sorted(
            here.table.steps_from(state), key=lambda step: (step[1],
                                                            step[0]))]


class EachResultOnce(Program):
    """Does not try what leads to the same state again."""

    def results(self, here, state):
        return list(dict.fromkeys(super().results(here, state)))


class Led(Program):
    """Another of the states that lead to one may be written down; here none
    is, which is not wrong."""

    def expand(self, here, state):
        before = here.expanded
        super().expand(here, state)
        if here.expanded > before:
            for _, _, after in here.table.steps_from(state):
                if self.leads(here, state, after):
                    here.second[after] = state + 1

    def leads(self, here, state, after):
        return False


class LedByTheLast(Led):
    """Start states are left as they are."""

    def leads(self, here, state, after):
        return here.second[after] != after + 1


class LedByTheLowest(Led):
    def leads(self, here, state, after):
        return here.second[after] != after + 1 and (
            state + 1 < here.second[after])


class StartsLedByOthers(Led):
    """A start state that a step leads to is no longer marked as one."""

    def leads(self, here, state, after):
        return here.second[after] == after + 1 and after != state


# The end.

class BreakSeenAfterTheState(Program):
    """Tries the rest of a state's moves first."""

    def expand(self, here, state):
        broken = False
        for _, _, after in here.table.steps_from(state):
            here.trials += 1
            if not here.second[after] and here.met < here.table.states:
                self.meet(here, after, state)
                broken = broken or here.broken
        here.broken = broken
        here.expanded += 1


class UnfinishedStateCounts(Program):
    def expand(self, here, state):
        super().expand(here, state)
        here.expanded += here.broken


class BreakingTrialForgotten(Program):
    def expand(self, here, state):
        super().expand(here, state)
        here.trials -= here.broken


class BreakNotMet(Program):
    """Ends before the state that breaks."""

    def expand(self, here, state):
        before = here.first[:]
        super().expand(here, state)
        if here.broken:
            here.met -= 1
            here.second[here.first[here.met]] = 0
            here.first[here.met] = before[here.met]


class BreakUnseen(Program):
    """Looks for breaks among the start states alone."""

    def expand(self, here, state):
        for _, _, after in here.table.steps_from(state):
            here.trials += 1
            if not here.second[after] and here.met < here.table.states:
                self.meet(here, after, state)
        here.broken = False
        here.expanded += 1


class GoesOnAfterABreak(Program):
    def portion(self, position, states, text, first, second):
        return super().portion(position & ~(1 << 8) if states else position,
                               states, text, first, second)


class TriesAgainAfterTheEnd(Program):
    """A portion after the end expands the last state once more."""

    def go_on(self, here, states):
        if states and states != MANY and here.met and self.has_ended(here):
            here.expanded -= here.expanded == here.met
            here.broken = False
        super().go_on(here, states)


class NeverEnds(Program):
    """Says that something is left where the last state is just expanded."""

    def position(self, here):
        said = super().position(here)
        if here.met and not here.broken:
            said = said - said % 256 + ord("p")
        return said


class PausedAtABreak(Program):
    def position(self, here):
        said = super().position(here)
        if here.broken:
            said = said - said % 256 + ord("p")
        return said


class EndedTooEarly(Program):
    """Says that nothing is left when the last state is yet to be expanded."""

    def position(self, here):
        said = super().position(here)
        if here.expanded + 1 >= here.met:
            said = said - said % 256 + ord("e")
        return said


class EndedWhenNothingIsNew(Program):
    def portion(self, position, states, text, first, second):
        said = super().portion(position, states, text, first, second)
        if said % 256 == ord("p") and said >> 22 & 8191 == (
                position >> 22 & 8191):
            said = said - said % 256 + ord("e")
        return said


class BreakNotTold(Program):
    """The bit for a break is always 0 in a position."""

    def position(self, here):
        return super().position(here) & ~(1 << 8)


class BreakAlwaysTold(Program):
    """That bit is set at every end."""

    def position(self, here):
        said = super().position(here)
        return said | 1 << 8 if said % 256 == ord("e") else said


# Trials.

class TrialsOfThisPortion(Program):
    def portion(self, position, states, text, first, second):
        return super().portion(position % (1 << 35), states, text, first,
                               second)


class TrialsOfWholeStates(Program):
    """Those of a state that is left unfinished are forgotten."""

    def expand(self, here, state):
        before = here.trials
        super().expand(here, state)
        if here.broken:
            here.trials = before


class TrialsThatMeet(Program):
    def expand(self, here, state):
        met, trials = here.met, here.trials
        super().expand(here, state)
        here.trials = trials + here.met - met


class OneTrialForACommand(Program):
    def expand(self, here, state):
        trials = here.trials
        super().expand(here, state)
        here.trials = trials + min(here.table.commands, here.trials - trials)


class TrialsOfZero(Program):
    """A portion of 0 counts as a trial."""

    def portion(self, position, states, text, first, second):
        said = super().portion(position, states, text, first, second)
        return said if states or said % 256 < 16 else said + (1 << 35)
