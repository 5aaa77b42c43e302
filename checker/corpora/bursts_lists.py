"""Lists that the steps of a trace are put in: just long enough, longer, too
short; and counts of the commands, with as few and as many entries."""

from corpora.bursts_labels import burst, counting, listing, too_few
from corpora.bursts_traces import LETTERS, trace
from corpora.bursts_widths import NAMELESS, NO_STEPS
from corpora.pairs_models import sixteen, under
from corpora.pairs_texts import padded
from corpora.pairs_traces import BREAK
from corpora.player_walks import (BREAKS_TWICE, STAY, THREE_STEPS,
                                  THREE_STEPS_SHEET, TWICE_AROUND, TWO_STEPS)
from corpora.reports_runs import counter
from inputs.cases import G, G_CASES, G_SHEET, G_VOID, H, trace_for
from inputs.phrases import command, loop

# Choice words of all sizes, and states of two bytes.
LAST_WORD = sixteen(command("z", under(255), loop(yes="x := 1")),
                    keep=("1", "not x"))
UPWARDS = counter(8, 4, 250, 261)

# What is shown, text and sheet, how often each command occurs.
TRACES = (
    ("one step", (G, G_SHEET), (1,)),
    ("one step, names in other cases", (G_CASES, G_SHEET), (1,)),
    ("one step of a text of 16,384 bytes", (padded(16384), G_SHEET), (1,)),
    ("two steps", (G, TWO_STEPS), (2,)),
    ("around twice", (G, TWICE_AROUND), (5,)),
    ("two breaks", (G, BREAKS_TWICE), (3,)),
    ("equal steps", (G, trace_for(G, 1, STAY, STAY, BREAK, BREAK)), (4,)),
    ("one state alone", (NAMELESS, trace_for(NAMELESS, 0,
                                             *[(0, 0, 0)] * 3)), (3,)),
    ("two commands", (THREE_STEPS, THREE_STEPS_SHEET), (2, 1)),
    ("the last word of the last command",
     (LAST_WORD, trace_for(LAST_WORD, 0, (3, 0, 0), (14, 255, 0),
                           (15, 255, 8))),
     (0, 0, 0, 1, 0, 0, 0, 0, 0, 0, 0, 0, 0, 0, 1, 1)),
    ("states over a byte",
     (UPWARDS, trace_for(UPWARDS, 250, *[(0, 0, state)
                                         for state in range(251, 262)])),
     (11,)),
    ("abaab", trace("abaab"), (3, 2)),
    ("abaab of 16", trace("abaab", 16), (3, 2)),
    ("ccccc", trace("ccccc"), (0, 0, 5)),
    ("ccccc of 15", trace("ccccc", 15), (0, 0, 5)),
    ("cab", trace("cab"), (1, 1, 1)),
    ("a p", trace("ap"), (1,) + (0,) * 14 + (1,)),
    ("p alone", trace("ppp"), (0,) * 15 + (3,)),
    ("all sixteen", trace(LETTERS), (1,) * 16),
    ("all sixteen, a twice", trace(LETTERS + "a"), (2,) + (1,) * 15),
    ("all fifteen", trace(LETTERS[:15]), (1,) * 15),
)


def numbers(counts):
    return " ".join(map(str, counts))


def filled():
    """What stands in the places behind the steps stays."""
    for detail, pair, counts in TRACES:
        count = sum(counts)
        for places in (count, count + 1, count + 2, count + 50):
            yield listing(detail, pair, places, f"steps {count}")


def counted():
    for detail, pair, counts in TRACES:
        count = sum(counts)
        for places in (count, count + 1, count + 50):
            for entries in (16, 17, 20):
                yield counting(detail, pair, places, entries,
                               f"steps {count}, counts {numbers(counts)}")


def many_entries():
    """Numbers of entries that would be fewer than 16 if bits were lost."""
    for detail, pair, counts in TRACES[:4] + TRACES[-2:]:
        count = sum(counts)
        for entries in (256, 257, 271, 4096, 65536, 65551):
            yield counting(detail, pair, count, entries,
                           f"steps {count}, counts {numbers(counts)}")


def too_few_places():
    for detail, pair, counts in TRACES:
        count = sum(counts)
        for places in sorted({0, 1, count // 2, count - 1} - {count}):
            yield from too_few(detail, pair, places)


def too_few_entries():
    """Whether or not the list has places enough, and though the model has no
    more commands than there are entries."""
    for detail, pair, counts in TRACES:
        count = sum(counts)
        for entries in (0, 1, 2, 8, 14, 15):
            for places in sorted({0, count - 1, count, count + 3}):
                yield counting(detail, pair, places, entries, "refused 8 0")
        for places in range(count):
            yield counting(detail, pair, places, 16, "refused 8 0")


def nothing_to_list():
    """No place is needed."""
    for detail, pair, _ in NO_STEPS:
        for places in (0, 1, 7):
            yield listing(detail, pair, places, "steps 0")
            for entries in (16, 17, 20):
                yield counting(detail, pair, places, entries,
                               "steps 0, counts 0")
            for entries in (0, 1, 15):
                yield counting(detail, pair, places, entries, "refused 8 0")


def filled_by_a_burst():
    """No trace here is longer than the widest stretch, so that its commands
    occur there as often as they are counted."""
    for detail, pair, counts in TRACES:
        count = sum(counts)
        for places in (count, count + 1, count + 9):
            for number in sorted({0, len(counts) - 1}):
                yield burst(detail, pair, places, number, 4095,
                            f"burst {counts[number]} 1")


def in_turns():
    """One sheet with several texts, and texts and sheets of one length: a
    call has nothing to do with the one before."""
    for places in (21, 22, 23):
        for detail, text, said in (("G", G, "steps 1"), ("H", H, "E"),
                                   ("G in other cases", G_CASES, "steps 1"),
                                   ("G without a start", G_VOID, "D")):
            yield listing(detail, (text, G_SHEET), places, said)
    length = len(trace("", 16)[0])
    for spare in (0, 1, 2):
        for commands, letters, times in ((16, "aab", 0), (2, "bbb", 3),
                                         (3, "cba", 1), (2, "bab", 2),
                                         (15, "abc", 0)):
            text, sheet = trace(letters, commands)
            asked = (f"{letters} of {commands}", (text.ljust(length), sheet),
                     3 + spare)
            yield listing(*asked, "steps 3")
            yield burst(*asked, commands - 1, 3, f"burst {times} 1")
            yield burst(*asked, commands, 3, "refused 10 0")


GROUPS = (filled, counted, many_entries, too_few_places, too_few_entries,
          nothing_to_list, filled_by_a_burst, in_turns)
