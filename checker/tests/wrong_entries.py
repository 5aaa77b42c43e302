"""Programs that count commands wrongly, or write their counts wrongly, in one
way each."""

from collections import Counter

from tests.burst_program import Bursts
from tests.portion_program import table_of


def by_name(text):
    """Numbers of commands as they would be in the order of their names."""
    names = [word for before, word in zip(text.split(), text.split()[1:])
             if before == b"command"]
    return [sorted(names).index(name) for name in names]


# Which entries are written.

class EntriesOfTheModelAlone(Bursts):
    """The others stay."""

    def count(self, commands, entries, known):
        kept = entries[known:]
        super().count(commands, entries, known)
        entries[known:] = kept


class EntriesThatOccurAlone(Bursts):
    """Where a command does not occur, nothing is written."""

    def count(self, commands, entries, known):
        for command, times in Counter(commands).items():
            entries[command] = times


class EntriesUpToTheLastThatOccurs(Bursts):
    def count(self, commands, entries, known):
        kept = entries[:]
        super().count(commands, entries, known)
        behind = max(commands, default=-1) + 1
        entries[behind:] = kept[behind:]


class AddedToWhatIsThere(Bursts):
    def count(self, commands, entries, known):
        for command in commands:
            entries[command] = (entries[command] + 1) % 65536


class AddedToTheLastCounts(Bursts):
    """Goes on from the call before."""

    def __init__(self):
        self.kept = Counter()

    def count(self, commands, entries, known):
        self.kept.update(commands)
        entries[:16] = [self.kept[number] % 65536 for number in range(16)]


class SeventeenthCleared(Bursts):
    def count(self, commands, entries, known):
        super().count(commands, entries, known)
        entries[16:17] = [0] * len(entries[16:17])


class EntriesBehindCleared(Bursts):
    def count(self, commands, entries, known):
        super().count(commands, entries, known)
        entries[16:] = [0] * len(entries[16:])


class SumBehindTheCounts(Bursts):
    """Has one more thing to say, if there is room."""

    def count(self, commands, entries, known):
        super().count(commands, entries, known)
        entries[16:17] = [len(commands)] * len(entries[16:17])


class LastEntryCleared(Bursts):
    def count(self, commands, entries, known):
        super().count(commands, entries, known)
        if len(entries) > 16:
            entries[-1] = 0


class FifteenEntries(Bursts):
    """The last command has no entry."""

    def count(self, commands, entries, known):
        kept = entries[15]
        super().count(commands, entries, known)
        entries[15] = kept


class NoEntries(Bursts):
    def count(self, commands, entries, known):
        pass


# What is counted.

class CountedIn8Bits(Bursts):
    def count(self, commands, entries, known):
        super().count(commands, entries, known)
        entries[:16] = [times % 256 for times in entries[:16]]


class CountedUpTo255(Bursts):
    def count(self, commands, entries, known):
        super().count(commands, entries, known)
        entries[:16] = [min(times, 255) for times in entries[:16]]


class CountedIn12Bits(Bursts):
    def count(self, commands, entries, known):
        super().count(commands, entries, known)
        entries[:16] = [times % 4096 for times in entries[:16]]


class LowByteWritten(Bursts):
    """The high byte of an entry stays."""

    def count(self, commands, entries, known):
        kept = entries[:16]
        super().count(commands, entries, known)
        entries[:16] = [before // 256 * 256 + times % 256
                        for before, times in zip(kept, entries)]


class HighByteOfCountsFirst(Bursts):
    def count(self, commands, entries, known):
        super().count(commands, entries, known)
        entries[:16] = [times // 256 + times % 256 * 256
                        for times in entries[:16]]


class EachCountedOnce(Bursts):
    """Whether it occurs."""

    def count(self, commands, entries, known):
        super().count(set(commands), entries, known)


class BurstsCounted(Bursts):
    """Calls in a row are one."""

    def count(self, commands, entries, known):
        super().count([one for one, before in zip(commands, [None, *commands])
                       if one != before], entries, known)


class FirstStepUncounted(Bursts):
    def count(self, commands, entries, known):
        super().count(commands[1:], entries, known)


class LastStepUncounted(Bursts):
    def count(self, commands, entries, known):
        super().count(commands[:-1], entries, known)


class SparePlacesCounted(Bursts):
    def count_steps(self, text, sheet, places, entries):
        said = super().count_steps(text, sheet, places, entries)
        if said % 256 == self.listed:
            self.count([place[0] for place in places if place[0] < 16],
                       entries, 16)
        return said


class WordsCounted(Bursts):
    def count_steps(self, text, sheet, places, entries):
        said = super().count_steps(text, sheet, places, entries)
        if said % 256 == self.listed:
            self.count([word % 16 for _, word, _
                        in places[:self.last(sheet)]], entries, 16)
        return said


class CountedBy3Bits(Bursts):
    """Of a command's number the three lowest bits count."""

    def count(self, commands, entries, known):
        super().count([command % 8 for command in commands], entries, known)


class EntriesFromOne(Bursts):
    """Entry 0 is for what no command is."""

    def count(self, commands, entries, known):
        super().count([(command + 1) % 16 for command in commands], entries,
                      known)


class LastCommandFirst(Bursts):
    def count(self, commands, entries, known):
        super().count([known - 1 - command for command in commands], entries,
                      known)


class InOrderOfNames(Bursts):
    def count_steps(self, text, sheet, places, entries):
        said = super().count_steps(text, sheet, places, entries)
        if said % 256 == self.listed:
            order = by_name(text)
            entries[:len(order)] = [entries[order.index(number)]
                                    for number in range(len(order))]
        return said


class InOrderOfTheirFirstCalls(Bursts):
    def count(self, commands, entries, known):
        order = list(dict.fromkeys(commands))
        super().count([order.index(one) for one in commands], entries, known)


class LargestFirst(Bursts):
    def count(self, commands, entries, known):
        super().count(commands, entries, known)
        entries[:16] = sorted(entries[:16], reverse=True)


class SoFar(Bursts):
    """Each entry has the commands before too."""

    def count(self, commands, entries, known):
        super().count(commands, entries, known)
        for number in range(1, 16):
            entries[number] += entries[number - 1]


# How many entries are needed.

class EntriesForTheCommands(Bursts):
    """As many as the model has commands."""

    def too_few_entries(self, text, entries):
        return 8 if len(entries) < table_of(text).commands else 0

    def count(self, commands, entries, known):
        kept = len(entries)
        entries += [0] * 16
        super().count(commands, entries, known)
        del entries[kept:]


class FifteenAreEnough(EntriesForTheCommands):
    def too_few_entries(self, text, entries):
        return 8 if len(entries) < 15 else 0


class NoneAreEnough(EntriesForTheCommands):
    """Counts into what there is."""

    def too_few_entries(self, text, entries):
        return 0


class SeventeenNeeded(Bursts):
    def too_few_entries(self, text, entries):
        return 8 if len(entries) < 17 else 0


class SixteenExactly(Bursts):
    def too_few_entries(self, text, entries):
        return 8 if len(entries) != 16 else 0


class EntriesIn8Bits(Bursts):
    def too_few_entries(self, text, entries):
        return 8 if len(entries) % 256 < 16 else 0


class EntriesIn16Bits(Bursts):
    def too_few_entries(self, text, entries):
        return 8 if len(entries) % 65536 < 16 else 0


class NumberOfEntriesWithEight(Bursts):
    def too_few_entries(self, text, entries):
        said = super().too_few_entries(text, entries)
        return said and said + 256 * len(entries)


class TenForFewEntries(Bursts):
    def too_few_entries(self, text, entries):
        return 10 if super().too_few_entries(text, entries) else 0


# What is left in the entries where a call is refused.

class CountedThoughPlacesAreFew(Bursts):
    """Counts while there is room, and then refuses."""

    def count_steps(self, text, sheet, places, entries):
        said = super().count_steps(text, sheet, places, entries)
        if said == 8 and len(entries) >= 16:
            self.count([self.step_at(sheet, number)[0]
                        for number in range(self.last(sheet))], entries, 16)
        return said


class EntriesClearedFirst(Bursts):
    """Before anything is judged."""

    def count_steps(self, text, sheet, places, entries):
        entries[:16] = [0] * len(entries[:16])
        return super().count_steps(text, sheet, places, entries)


class EntriesClearedByALetter(Bursts):
    def count_steps(self, text, sheet, places, entries):
        said = super().count_steps(text, sheet, places, entries)
        if said % 256 in b"ABCDEFsv":
            entries[:16] = [0] * len(entries[:16])
        return said


class FewEntriesWritten(Bursts):
    """Writes as many as there are, and then refuses."""

    def too_few_entries(self, text, entries):
        said = super().too_few_entries(text, entries)
        if said:
            entries[:] = [0] * len(entries)
        return said


# What is told.

class CommandsTold(Bursts):
    """The number of commands for the number of steps."""

    def count_steps(self, text, sheet, places, entries):
        said = super().count_steps(text, sheet, places, entries)
        return (self.listed + 256 * table_of(text).commands
                if said % 256 == self.listed else said)


class CountsToldByAnotherLetter(Bursts):
    def count_steps(self, text, sheet, places, entries):
        said = super().count_steps(text, sheet, places, entries)
        return said - self.listed + ord("c") if (said % 256
                                                 == self.listed) else said
