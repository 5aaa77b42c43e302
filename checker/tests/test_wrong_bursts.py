"""Programs for steps, bursts and counts that are wrong in one way each,
compared with the corpus: each is shown up by the groups named with it."""

import unittest

from tests.burst_cases import PROGRAMS, RIGHT, groups
from tests.burst_program import Bursts
from tests.showing import Told

# Wrong programs, and groups each of which shows up each of them.
SHOWN_BY = (
    # Which of the stretches is told.
    ("LastOfTheMost Backwards FirstStretchLeftOut",
     "worked every_short_trace one_burst ties never_called "
     "one_command_alone"),
    ("FewestTimes FirstStretchAlone TwoMoreAreBetter EverySecond",
     "worked every_short_trace one_burst ties sixteen_commands rising "
     "found_traces widest_stretches most_steps"),
    ("FirstThatHasAny",
     "worked every_short_trace one_burst ties rising"),
    ("MostIn8Bits MostAtMost255",
     "one_command_alone long_bursts"),
    ("MostIn11Bits",
     "long_bursts most_steps"),
    # Which stretches there are.
    ("OneTooWide OneTooNarrow",
     "worked every_short_trace one_burst ties one_command_alone rising "
     "found_traces widest_stretches most_steps every_command_of_fewer"),
    ("LastStretchLeftOut SideBySide SideBySideToTheEnd",
     "worked every_short_trace one_burst ties sixteen_commands rising "
     "widest_stretches"),
    ("GrowingInFront CutAtTheEnd FromACallOn FromTheFirstCall WithoutPause",
     "worked every_short_trace one_burst ties sixteen_commands rising "
     "shorter_traces found_traces"),
    ("AroundTheEnd",
     "worked every_short_trace"),
    ("WholeTrace NeverForgets FirstStepStays",
     "worked every_short_trace ties one_command_alone most_steps"),
    ("AtMost255Steps",
     "one_command_alone widest_stretches long_lists counts_of_two_bytes"),
    ("AtMost4095Steps",
     "widest_stretches most_steps long_lists counts_of_two_bytes"),
    ("ToTheEndOfTheList OneSparePlaceToo",
     "worked every_short_trace one_burst ties shorter_traces no_steps "
     "counted nothing_to_list filled_by_a_burst"),
    ("LastStepForgotten FirstStepForgotten",
     "worked every_short_trace one_burst ties found_traces counted "
     "filled_by_a_burst"),
    # What is counted there.
    ("AnyCommand OtherCommands CommandsFromOne",
     "worked one_burst ties never_called sixteen_commands shorter_traces"),
    ("CommandZero CommandsUpTo",
     "worked ties never_called sixteen_commands rising most_steps"),
    ("CommandIn3Bits",
     "never_called sixteen_commands rising every_command_of_fewer"),
    ("WordsForCommands StatesForCommands CommandsInOrderOfNames",
     "worked one_burst ties sixteen_commands counted filled_by_a_burst"),
    # Which place is told.
    ("PlacesFromZero PlacesFromTwo PlaceInTheSheet",
     "worked one_burst ties never_called no_steps filled_by_a_burst"),
    ("PlaceOfTheLastStep PlaceBehindTheStretch PlaceFromTheEnd",
     "worked one_burst ties never_called one_command_alone shorter_traces"),
    ("PlaceOfTheFirstCall",
     "worked one_burst ties sixteen_commands shorter_traces found_traces"),
    ("PlaceIn8Bits PlaceIn12Bits",
     "long_bursts most_steps"),
    ("NoneAtZero NoneBehindTheLast",
     "every_short_trace never_called shorter_traces in_turns"),
    ("NoneAtTheLast",
     "every_short_trace never_called every_command_of_fewer"),
    ("NoStepsAtZero NoStepsAreSixteen",
     "no_steps longer_than_any_trace"),
    # Traces that are no longer than the width.
    ("ShorterIsNothing AsLongIsNothing ShorterAtZero AsLongAtZero "
     "ShorterAtTheLastStretch ShorterIsSixteen",
     "worked every_short_trace one_burst one_command_alone shorter_traces "
     "found_traces widest_stretches"),
    ("ShorterAtItsFirstCall",
     "worked one_burst sixteen_commands shorter_traces widest_stretches"),
    # How it is told.
    ("PlaceBelowTheMost MostInAByte MostAlone MostIn12BitsOfTheAnswer "
     "BurstsToldAsSteps",
     "worked one_burst ties never_called no_steps most_steps"),
    # What a step is.
    ("StateBefore StateAtTheEnd WordThenCommand HighByteFirst StateInFront "
     "WordForgotten StateForgotten CommandsListedFromOne",
     "worked ties found_traces filled counted filled_by_a_burst in_turns"),
    ("LowByteOfTheState WordIn7Bits",
     "worked ties filled counted filled_by_a_burst"),
    ("CommandIn2Bits",
     "sixteen_commands rising filled counted filled_by_a_burst"),
    ("RecordOneTooEarly LastRecordTwice",
     "worked ties found_traces filled counted filled_by_a_burst"),
    # Which places they are put in.
    ("FromTheSecondPlace AtTheListsEnd",
     "worked ties filled counted filled_by_a_burst"),
    ("LastStepFirst InOrderOfCommands",
     "worked ties filled counted filled_by_a_burst"),
    ("LastStepNotPut FirstStepNotPut",
     "worked ties found_traces filled counted filled_by_a_burst"),
    ("AtMost4095Put",
     "widest_stretches most_steps long_lists"),
    ("EqualStepsOnce",
     "filled counted filled_by_a_burst"),
    ("OnlyTheCommandsOfABurst BurstsFillNothing",
     "worked ties never_called found_traces filled_by_a_burst"),
    ("BurstsFillTheirStretch",
     "worked one_burst ties rising most_steps"),
    ("CountsFillNothing",
     "counted counts_of_two_bytes many_entries"),
    ("NothingFilled",
     "filled long_lists in_turns"),
    # Spare places.
    ("SparePlaceCleared SparePlaceMarked SparePlacesCleared LastPlaceCleared "
     "StartInTheSparePlace SparePlaceByteCleared",
     "worked ties rising no_steps filled counted nothing_to_list "
     "filled_by_a_burst"),
    ("SparePlacesClearedByABurst",
     "worked ties no_steps filled_by_a_burst"),
    ("SparePlacesClearedByCounts",
     "counted nothing_to_list"),
    # What is left in the list where a call is refused.
    ("FilledThoughEight ClearedByEight",
     "long_lists too_few_places too_few_entries places_before_numbers"),
    ("FilledThoughTen",
     "unknown_commands every_command_of_fewer command_before_width "
     "longer_lists"),
    ("FilledThoughSixteen",
     "widths_out_of_range longer_lists"),
    ("FilledThoughItFails ClearedByAnOutcome",
     "in_turns outcomes outcome_first"),
    ("FilledThoughEntriesAreFew",
     "too_few_entries"),
    # How many places are needed.
    ("OnePlaceMoreNeeded",
     "worked no_steps filled counted nothing_to_list longer_lists"),
    ("OnePlaceFewerIsEnough AsManyAsThereIsRoomFor",
     "long_lists too_few_places places_before_numbers"),
    ("AtLeastOnePlace",
     "no_steps nothing_to_list command_before_width longer_lists"),
    ("PlacesForMostStates BytesForPlaces",
     "worked ties found_traces filled counted"),
    ("PlacesForTheWidth",
     "worked one_burst never_called shorter_traces no_steps"),
    ("PlacesIn8Bits",
     "one_command_alone most_steps long_lists"),
    ("PlacesIn16Bits TooManyPlaces",
     "longer_than_any_trace"),
    ("StepsIn8Bits",
     "long_lists"),
    ("NumberNeededWithEight NineForEight",
     "too_few_places too_few_entries places_before_numbers"),
    # What is told of the steps.
    ("PlacesTold",
     "filled nothing_to_list in_turns"),
    ("StatesTold StepsToldByAnotherLetter TraceToldForSteps",
     "filled counted nothing_to_list in_turns"),
    ("NothingTold",
     "filled counted in_turns"),
    ("StepsToldIn8Bits",
     "long_lists counts_of_two_bytes"),
    ("StepsToldIn12Bits",
     "long_lists counts_of_two_bytes"),
    # Which entries are written.
    ("EntriesOfTheModelAlone EntriesThatOccurAlone "
     "EntriesUpToTheLastThatOccurs AddedToWhatIsThere FifteenEntries "
     "NoEntries",
     "counted many_entries nothing_to_list counts_of_two_bytes"),
    ("AddedToTheLastCounts",
     "counted counts_of_two_bytes"),
    ("SeventeenthCleared EntriesBehindCleared SumBehindTheCounts "
     "LastEntryCleared",
     "counted many_entries nothing_to_list"),
    # What is counted.
    ("CountedIn8Bits CountedUpTo255",
     "long_lists counts_of_two_bytes"),
    ("CountedIn12Bits",
     "counts_of_two_bytes"),
    ("LowByteWritten HighByteOfCountsFirst",
     "counted many_entries counts_of_two_bytes"),
    ("EachCountedOnce BurstsCounted FirstStepUncounted LastStepUncounted "
     "WordsCounted EntriesFromOne SoFar LastCommandFirst InOrderOfNames "
     "InOrderOfTheirFirstCalls LargestFirst",
     "counted counts_of_two_bytes"),
    ("SparePlacesCounted",
     "counted nothing_to_list"),
    ("CountedBy3Bits",
     "counted long_lists"),
    # How many entries are needed.
    ("EntriesForTheCommands FifteenAreEnough NoneAreEnough "
     "NumberOfEntriesWithEight TenForFewEntries",
     "too_few_entries nothing_to_list"),
    ("SeventeenNeeded",
     "counted nothing_to_list"),
    ("SixteenExactly",
     "counted many_entries nothing_to_list"),
    ("EntriesIn8Bits EntriesIn16Bits",
     "many_entries"),
    # What is left in the entries where a call is refused.
    ("CountedThoughPlacesAreFew",
     "long_lists too_few_places too_few_entries"),
    ("EntriesClearedFirst",
     "too_few_places too_few_entries outcomes outcome_first"),
    ("EntriesClearedByALetter",
     "outcomes outcome_first"),
    ("FewEntriesWritten",
     "too_few_entries nothing_to_list"),
    # What is told of the counts.
    ("CommandsTold CountsToldByAnotherLetter",
     "counted nothing_to_list"),
    # Commands.
    ("CommandIn4Bits AnyCommandIsKnown SixteenAreKnown OneMoreIsKnown "
     "PlaceOfTheCommand CommandsToldWithTen FiveForTen SixteenForTen",
     "unknown_commands command_before_width longer_lists in_turns"),
    ("CommandIn8Bits CommandIn16Bits CommandIn32Bits SignedCommands",
     "unknown_commands command_before_width"),
    ("CommandIn63Bits",
     "unknown_commands"),
    ("LastIsUnknown",
     "ties one_command_alone sixteen_commands rising no_steps"),
    ("ZeroIsUnknown",
     "worked ties no_steps found_traces unknown_commands"),
    ("CalledOrUnknown",
     "every_short_trace never_called shorter_traces no_steps"),
    ("NothingCalledIsUnknown",
     "no_steps widths_out_of_range longer_lists"),
    # Widths.
    ("WidthIn8Bits",
     "one_command_alone shorter_traces widest_stretches "
     "widths_out_of_range"),
    ("WidthIn12Bits WidthIn16Bits WidthIn32Bits WidthIn63Bits SignedWidths",
     "widths_out_of_range"),
    ("ZeroIsAWidth ZeroIsOneStep ZeroIsTheWholeTrace Width4096Taken "
     "WidthsToTheMostSteps WidthsOf16Bits AnyLargeWidth LargeWidthsCut "
     "PlaceOfTheWidth LimitToldWithSixteen TenForSixteen FifteenForSixteen "
     "SevenForSixteen",
     "widths_out_of_range longer_lists"),
    ("OneIsNoWidth",
     "worked one_burst ties never_called no_steps"),
    ("Width4095Refused",
     "one_burst never_called shorter_traces no_steps widest_stretches"),
    # Which of the numbers comes first.
    ("WidthBeforeCommand ZeroBeforeCommand LargeWidthBeforeCommand",
     "command_before_width"),
    ("CommandBeforePlaces WidthBeforePlaces PlacesLast",
     "places_before_numbers"),
    ("NumbersJudgedByNoTrace",
     "unknown_commands widths_out_of_range command_before_width"),
    # What is said of a sheet.
    ("MapsListed VoidMapsListed PlacesFirst PlacesBeforeALetter "
     "PlacesBeforeTheSheet BurstsOfAnyTrace CountsOfAnyTrace ListsOfAnyTrace "
     "OfAnything BurstsVoidIsSafe BurstsMapsAreTen BurstsFirstStepTested "
     "BurstsLastStepUntested BurstsStepsUntested BurstsStartUntested "
     "BurstsEndUntested BurstsPlaceForgotten BurstsSheetRefusedAsText",
     "outcomes outcome_first"),
    ("BurstsSheetBeforeText",
     "outcomes"),
    ("NoPlacesFirst EntriesFirst EntriesBeforeALetter EntriesBeforeTheSheet "
     "WidthFirst WidthBeforeALetter WidthBeforeTheSheet CommandFirst "
     "CommandBeforeALetter CommandBeforeTheSheet",
     "outcome_first"),
    ("BurstsShortestAlone",
     "one_command_alone found_traces filled counted"),
    ("BurstsAtMost4095Steps",
     "widest_stretches most_steps long_lists counts_of_two_bytes"),
    ("BurstsNamesInOneCase",
     "found_traces filled counted unknown_commands"),
    # What is kept from one call to the next.
    ("KeepsTheOutcome KeepsTheText",
     "in_turns"),
    ("KeepsTheSteps",
     "worked ties filled counted in_turns"),
)


class Wrong(Told, unittest.TestCase):
    right_one, right, least = Bursts, RIGHT, 240
    programs, groups, shown_by = PROGRAMS, staticmethod(groups), SHOWN_BY


if __name__ == "__main__":
    unittest.main()
