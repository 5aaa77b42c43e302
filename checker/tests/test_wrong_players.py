"""Players that are wrong in one way each, compared with the corpus: each is
shown up by the groups named with it."""

import unittest

from tests.player_cases import KEEPING, PLAYERS, RIGHT, groups, is_shown
from tests.player_program import Player
from tests.showing import Told

# Wrong players, and groups each of which shows up each of them.
SHOWN_BY = (
    # Opening.
    ("OpensAtTheLast OpensAtTheFirstStep OpensAfterTheFirstStep "
     "OpensInTheLastState StepsToldWithOpened",
     "one_step two_steps several_steps counters opened_anew"),
    ("OpensInStateZero",
     "one_step no_steps several_steps opened_anew"),
    ("OpensWhereTheRecordIs",
     "one_step opened_anew"),
    ("OpensForeignRecordsNever OpensUnwritten OpensWithoutAPlace "
     "OpensWithoutAState MovedForOpened TraceToldForOpened",
     "one_step no_steps two_steps opened_anew"),
    # Forward.
    ("ForwardPastTheEnd ForwardAroundTheEnd ForwardStaysAtTheEnd",
     "one_step no_steps two_steps states_met_again many_steps most_steps"),
    ("ForwardEndsTooEarly",
     "one_step two_steps counters many_steps"),
    ("ForwardByTwo ForwardToTheEnd",
     "two_steps several_steps states_met_again counters"),
    ("ForwardEndsAtABreak",
     "breaks_on_the_way"),
    ("ForwardFromTheFirstSuchState",
     "states_met_again breaks_on_the_way most_steps"),
    ("ForwardOverEqualStates",
     "states_met_again"),
    ("ForwardInAByte",
     "many_steps most_steps"),
    ("ForwardIn12Bits ForwardEndsAt4095 AtMost4095Steps",
     "most_steps"),
    # Back.
    ("BackBelowZero BackAroundZero BackStaysAtZero",
     "one_step no_steps two_steps states_met_again counters"),
    ("BackEndsAtOne",
     "one_step two_steps counters"),
    ("BackByTwo BackToTheBeginning",
     "two_steps several_steps states_met_again many_steps"),
    ("BackBeforeTheFirstSuchState",
     "states_met_again breaks_on_the_way most_steps"),
    ("BackToAnotherState",
     "states_met_again breaks_on_the_way"),
    ("ForwardForBack",
     "one_step two_steps counters"),
    # To the beginning.
    ("EndAtTheBeginning",
     "one_step no_steps opened_anew"),
    ("BeginningIsOneBack",
     "two_steps several_steps counters many_steps"),
    ("BeginningIsTheEnd BeginningOpens",
     "one_step two_steps several_steps opened_anew"),
    ("BeginningKeepsTheState",
     "one_step two_steps several_steps counters"),
    ("BeginningInStateZero",
     "one_step no_steps two_steps several_steps"),
    ("BeginningOfAnything",
     "other_states places_past_the_last far_on carried"),
    ("BeginningPastTheLast",
     "places_past_the_last far_on carried"),
    # What is written at a move.
    ("StateUnmoved PlaceUnmoved StateOfTheNextPlace StateOfThePlaceBefore "
     "CommandForState",
     "one_step two_steps several_steps counters carried"),
    ("LowByteWritten",
     "no_steps states_apart_from_places many_steps"),
    ("HighByteFirst StateBeforePlace",
     "one_step two_steps states_apart_from_places most_steps"),
    ("PlacesFromOne BytesForPlaces StepBehindTheRecord "
     "BehindTheRecordCleared",
     "one_step no_steps two_steps more_entries"),
    ("LastEntryCounts",
     "one_step other_states outcomes more_entries"),
    # What is written where nothing moves.
    ("EndWritten EndClosed",
     "one_step no_steps two_steps more_entries"),
    ("EndBegins EndTurnsRound PlaceToldAtAnEnd",
     "one_step two_steps counters most_steps"),
    ("ForeignMended ForeignCleared",
     "other_states places_past_the_last far_on more_entries"),
    ("ForeignStateMended",
     "other_states far_on carried"),
    ("ForeignCutToTheLast",
     "places_past_the_last far_on carried"),
    # What is said of foreign records.
    ("ForeignIsAnEnd ForeignIsTen PlaceToldOfForeign NothingIsForeign",
     "other_states places_past_the_last far_on carried"),
    # Which records are foreign.
    ("AnyState AnyStateAtZero AnyStateAtTheLast AnyStateForward AnyStateBack "
     "AnyStateToTheBeginning SmallerStates",
     "other_states far_on carried foreign_before_an_end"),
    ("AnyStateOfTheTrace StateOneOff StateInAByte StateIn12Bits "
     "StateIn16Bits",
     "other_states far_on foreign_before_an_end"),
    ("AnyStateBetween",
     "other_states far_on"),
    ("StateIn32Bits StateIn63Bits",
     "other_states"),
    ("PlaceInAByte PlaceIn12Bits",
     "most_steps places_past_the_last far_on"),
    ("PlaceIn16Bits PlaceIn32Bits",
     "places_past_the_last far_on foreign_before_an_end"),
    ("PlaceIn63Bits",
     "places_past_the_last"),
    ("OnePastIsThere PlacesOfSignedNumbers",
     "places_past_the_last far_on"),
    ("LastIsPast",
     "one_step two_steps counters most_steps"),
    ("StateOfTheStepBefore StateOfTheStepBehind",
     "one_step two_steps other_states far_on"),
    # What is said of a sheet.
    ("MapsOpened VoidMapsOpened MapsMoved VoidIsSafe MapsAreTen NoOutcome "
     "FirstStepTested LastStepUntested StepsUntested StartUntested "
     "EndUntested AnyTraceOpened TestedAtOpeningAlone TestedToThePlace "
     "PlaceForgotten SheetRefusedAsText",
     "outcomes outcome_first"),
    ("SheetBeforeText",
     "outcomes"),
    ("ShortestAlone",
     "states_met_again breaks_on_the_way most_steps"),
    ("NamesInOneCase",
     "one_step two_steps opened_anew too_short"),
    # What is left where the sheet does not pass.
    ("ClearedByAnOutcome ClearedByALetter OpenedThoughItFails "
     "MovedThoughItFails PlaceWrittenThoughRefused",
     "outcomes outcome_first"),
    # Records that are too short.
    ("ThreeEntriesNeeded",
     "one_step no_steps other_states far_on"),
    ("OneEntryIsEnough OneEntryWritten ClearedByEight PlaceOfEight "
     "NineForEight",
     "one_step no_steps too_short more_entries"),
    # Which answer comes first.
    ("EightBeforeTheOutcome EightBeforeALetter EightBeforeTheSheet "
     "EightFirstAtMoves ForeignBeforeTheOutcome ForeignBeforeALetter "
     "EndBeforeTheOutcome LastBeforeTheOutcome",
     "outcomes outcome_first"),
    ("ForeignBeforeEight",
     "places_past_the_last too_short foreign_before_an_end"),
    ("NoRecordIsForeign EndBeforeEight LastBeforeEight",
     "one_step no_steps too_short"),
    ("EndBeforeForeign LastBeforeForeign",
     "other_states carried foreign_before_an_end"),
    ("PastTheLastIsAnEnd",
     "places_past_the_last carried foreign_before_an_end"),
)


class Wrong(Told, unittest.TestCase):
    right_one, right, least = Player, RIGHT, 130
    programs, groups, shown_by = PLAYERS, staticmethod(groups), SHOWN_BY

    def test_within_one_sheet(self):
        """There nothing that was kept does harm."""
        for name, player in KEEPING.items():
            for group in ("one_step", "two_steps", "several_steps",
                          "states_met_again", "breaks_on_the_way",
                          "other_states", "opened_anew", "too_short"):
                self.assertFalse(is_shown(player(), group), name)


if __name__ == "__main__":
    unittest.main()
