"""Programs that are wrong in one way each, compared with the corpora of
portions and of maps asked: each is shown up by the groups named with it."""

import unittest

from tests.portion_cases import PROGRAMS, RIGHT, groups, is_shown
from tests.portion_program import Program
from tests.showing import Told

# Wrong programs, and groups each of which shows up each of them.
SHOWN_BY = (
    # Opening.
    ("AllStartsTakenIn BreakUnseenAtOpening BreakingStartNotMet "
     "StartsUntoldAtABreak",
     "worked_breaks breaks_at_start"),
    ("StartsFromTheHighest OneStartAlone",
     "worked order_met breaks_at_start"),
    ("LastStateForgotten",
     "names all_states breaks_at_start"),
    ("NoiseLeftAtOpening FirstClearedAtOpening ClearedBeyondAtOpening "
     "StartsMarked NotOneMore",
     "worked worked_breaks names"),
    ("ExpandsAtOpening",
     "worked worked_breaks breaks_far_on"),
    ("VoidIsPaused",
     "worked names wide_tables"),
    # How many states a portion has.
    ("OneStateMore OneStateFewer ZeroExpandsOne ZeroIsNoLimit",
     "worked worked_breaks order_met"),
    ("AtMost255",
     "wide_tables breaks_far_on"),
    ("InAByte In16Bits",
     "sizes_of_portions wide_tables"),
    ("In32Bits",
     "sizes_of_portions"),
    ("BelowZero",
     "sizes_of_portions worked wide_tables"),
    ("TrialsForStates LayersForStates MetForExpanded",
     "worked order_met words_of_commands"),
    ("BeginsAnew",
     "worked order_met breaks_far_on"),
    # Order.
    ("LastInFirstOut",
     "worked order_met led_to"),
    ("LowestFirst",
     "order_met led_to breaks_among_moves"),
    ("LastWordFirst LastCommandFirst WordBeforeCommand",
     "order_met breaks_among_moves"),
    ("LedByTheLast LedByTheLowest",
     "led_to order_met breaks_among_moves"),
    ("StartsLedByOthers",
     "worked led_to order_met"),
    # The end.
    ("BreakSeenAfterTheState UnfinishedStateCounts BreakingTrialForgotten "
     "BreakNotMet BreakUnseen TrialsOfWholeStates",
     "worked_breaks breaks_among_moves breaks_far_on breaks_under_one_word"),
    ("GoesOnAfterABreak PausedAtABreak BreakNotTold",
     "worked_breaks breaks_at_start breaks_among_moves breaks_far_on"),
    ("TriesAgainAfterTheEnd",
     "worked worked_breaks breaks_among_moves"),
    ("NeverEnds BreakAlwaysTold",
     "worked order_met names wide_tables"),
    ("EndedTooEarly EndedWhenNothingIsNew",
     "worked order_met breaks_among_moves"),
    # Trials.
    ("TrialsOfThisPortion",
     "worked order_met breaks_far_on"),
    ("TrialsThatMeet OneTrialForACommand",
     "worked words_of_commands many_words"),
    ("EachResultOnce",
     "led_to words_of_commands"),
    ("TrialsOfZero",
     "worked breaks_at_start"),
    ("TrialsIn16Bits",
     "many_words"),
    # Positions.
    ("WaitingForMet MetBeforeExpanded",
     "worked order_met"),
    ("In12Bits",
     "wide_tables breaks_at_start breaks_far_on"),
    # Tables at a pause.
    ("SparePlacesCleared QueueClosed ClearedAtTheEnd "
     "BeyondClearedByPortions KeepsItsOwnQueue",
     "worked worked_breaks order_met"),
    ("ExpandedTakenOut",
     "worked order_met breaks_far_on"),
    # Refusals.
    ("AnEntryMoreFirst AnEntryMoreSecond PlaceOfEight ClearedByEight "
     "OpensThoughShort",
     "worked worked_breaks names"),
    ("EightBeforeTheText",
     "refused"),
    ("ZeroBeforeRefusals EndBeforeRefusals",
     "worked worked_breaks refused"),
    # Questions at a pause.
    ("YesToAll YesAndNoExchanged",
     "worked worked_breaks names"),
    ("YesToWhatIsReached",
     "worked order_met wide_tables"),
    ("YesToResults",
     "worked worked_breaks order_met"),
    ("YesToEveryStart",
     "worked_breaks breaks_at_start"),
    ("NoToTheBreak NoAtABreak",
     "worked_breaks breaks_at_start breaks_among_moves breaks_far_on"),
    ("NoToWhatWaits NoToTheExpanded NoToTheLastMet NoToStarts "
     "NoAfterTheEnd TakenOutByAsking",
     "worked order_met"),
    ("NoToWhatZeroLedTo",
     "order_met breaks_far_on wide_tables"),
    ("SparePlacesLookedAt",
     "order_met worked_breaks"),
    # Numbers of states.
    ("NoBeyondTheStates CutToNames StateIn16Bits StateIn32Bits "
     "LastStateRefused PlaceOfTen TenFrom4096",
     "worked worked_breaks names maps void_maps sizes"),
    ("TenBeforeEight NoBeforeEight",
     "worked worked_breaks names"),
    ("TenBeforeTheText",
     "refused worked"),
    # Questions to maps.
    ("TenBeforeTheTest",
     "maps void_maps traces refused_sheets"),
    ("TenBeforeAnyText",
     "maps traces refused_sheets texts_refused"),
    ("AnyMapAsked",
     "maps void_maps sizes"),
    ("VoidIsTold NoWhereNothingStarts YesWhereNothingStarts",
     "void_maps sizes"),
    ("SafeIsTold",
     "maps sizes"),
    ("MapOfTheSearch MapOfTheKept",
     "maps void_maps sizes"),
    ("StatesOfATrace",
     "traces"),
    ("HighestBitFirst HeaderForTheMap",
     "maps void_maps sizes"),
    ("LastByteFirst",
     "sizes"),
    ("SheetBeforeText",
     "texts_refused"),
    ("PlaceForgotten",
     "refused_sheets"),
    # Finishing.
    ("StopsHere OneMoreIsTheEnd",
     "worked order_met breaks_far_on"),
    ("BeginsAnewAtTheEnd TrialsOfTheRest TrialsOfThePause TrialsNeverTold "
     "ExpandedForTrials VoidWhereNothingIsExpanded",
     "worked order_met words_of_commands"),
    ("TrialsToldAtABreak",
     "worked_breaks breaks_among_moves"),
    ("BreakForgotten StepBehindTheBreak",
     "worked_breaks breaks_at_start"),
    ("VoidIsSafe",
     "worked names"),
    ("ExpandedAlone",
     "worked order_met"),
    ("LastMoveThatFits",
     "breaks_among_moves"),
    ("TraceFromTheBreak",
     "breaks_among_moves breaks_far_on"),
    # Buffers at the end.
    ("TablesLeft FirstLeft SecondLeft QueueAloneCleared BeyondCleared "
     "LastEntryLeft RoomCleared ByteBehindTheSheet SheetUnwritten "
     "SheetAtTheEnd",
     "worked worked_breaks order_met"),
    # Refused at the end.
    ("RoomForThisSheet AByteMore AByteFewer TablesClearedByEight "
     "SecondClearedByEight RunThoughRefused HeaderThoughRefused",
     "worked worked_breaks order_met"),
    ("SheetClearedByRefusals",
     "worked refused"),
    ("EightForASheetFirst",
     "refused"),
)


class Wrong(Told, unittest.TestCase):
    right_one, right, least = Program, RIGHT, 120
    programs, groups, shown_by = PROGRAMS, staticmethod(groups), SHOWN_BY

    def test_right_ones_pass(self):
        for name in RIGHT:
            for group in ("worked", "worked_breaks", "led_to", "maps"):
                self.assertFalse(is_shown(PROGRAMS[name](), group), name)


if __name__ == "__main__":
    unittest.main()
