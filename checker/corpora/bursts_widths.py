"""Bursts of traces that are short enough to be counted by hand: one burst or
several, at the beginning, at the end and between, and widths below, at and
above the number of steps."""

from itertools import product

from corpora.bursts_labels import burst
from corpora.bursts_traces import LETTERS, trace
from corpora.player_walks import (BREAKS_TWICE, BROKEN, THREE_STEPS,
                                  THREE_STEPS_SHEET, TWICE_AROUND, TWO_STEPS)
from inputs.cases import G, G_CASES, G_SHEET, trace_for
from inputs.phrases import model

NAMELESS = model("", "", keep=("0", "1"))

# Steps, the command, and for the widths from 1 up how often it occurs at most
# and where.
WORKED = (
    ("a", "a", "1@1 1@1 1@1"),
    ("ab", "a", "1@1 1@1 1@1"),
    ("ab", "b", "1@2 1@1 1@1"),
    ("ba", "a", "1@2 1@1 1@1"),
    ("aa", "a", "1@1 2@1 2@1"),
    ("baa", "a", "1@2 2@2 2@1 2@1"),
    ("aab", "b", "1@3 1@2 1@1 1@1"),
    ("bba", "a", "1@3 1@2 1@1 1@1"),
    ("abaab", "a", "1@1 2@3 2@1 3@1 3@1 3@1"),
    ("abaab", "b", "1@2 1@1 1@1 2@2 2@1 2@1"),
    ("baabab", "a", "1@2 2@2 2@1 3@2 3@1 3@1 3@1"),
    ("baabab", "b", "1@1 1@1 2@4 2@1 2@1 3@1 3@1"),
    ("aabbaaab", "a", "1@1 2@1 3@5 3@4 3@1 4@1 5@1 5@1 5@1"),
    ("aabbaaab", "b", "1@3 2@3 2@2 2@1 2@1 3@3 3@2 3@1 3@1"),
    ("abcabcabc", "a", "1@1 1@1 1@1 2@1 2@1 2@1 3@1 3@1 3@1 3@1"),
    ("abcabcabc", "c", "1@3 1@2 1@1 2@3 2@2 2@1 3@3 3@2 3@1 3@1"),
    ("cbabcacb", "c", "1@1 1@1 2@5 2@4 2@1 2@1 3@1 3@1 3@1"),
    ("bbaabbbaaabb", "a",
     "1@3 2@3 3@8 3@7 3@6 3@3 4@3 5@3 5@2 5@1 5@1 5@1 5@1"),
)


def worked():
    """In lists that just suffice, and in longer ones."""
    for letters, letter, said in WORKED:
        for width, times in enumerate(said.split(), 1):
            meant = "burst " + times.replace("@", " ")
            for spare in (0, 4):
                yield burst(letters, trace(letters, 4), len(letters) + spare,
                            LETTERS.index(letter), width, meant)


def every_short_trace():
    """Of one command and another."""
    for count in range(1, 7):
        for letters in map("".join, product("ab", repeat=count)):
            for width in range(1, count + 2):
                yield burst(letters, trace(letters, 2), count + 2, 0, width)


def one_block(before, block, behind, width):
    """What is due where a command occurs so many times in a row, so many
    steps behind the beginning and before the end."""
    count = before + block + behind
    if width <= block:
        return f"burst {width} {before + 1}"
    return f"burst {block} {max(before + block - min(width, count), 0) + 1}"


def one_burst():
    """At the beginning, between, at the end, and alone."""
    for before, block, behind in (
            (0, 1, 9), (9, 1, 0), (5, 1, 4), (0, 4, 6), (6, 4, 0), (3, 4, 3),
            (1, 8, 1), (0, 9, 1), (1, 9, 0), (0, 10, 0), (2, 2, 16),
            (16, 2, 2), (40, 20, 40), (0, 100, 0), (99, 1, 0), (0, 1, 99)):
        letters = "b" * before + "a" * block + "b" * behind
        for width in sorted({1, 2, 3, block - 1, block, block + 1,
                             before + block - 1, before + block,
                             before + block + 1, len(letters) - 1,
                             len(letters), len(letters) + 1, 4094,
                             4095} - {0}):
            yield burst(f"{before}, {block} and {behind} steps",
                        trace(letters, 2), len(letters) + 3, 0, width,
                        one_block(before, block, behind, width))


def ties():
    """The first place counts."""
    for detail, letters, letter, width, said in (
            ("every step", "aaaaaaaa", "a", 1, "1 1"),
            ("every step", "aaaaaaaa", "a", 3, "3 1"),
            ("every second", "abababab", "a", 1, "1 1"),
            ("every second", "abababab", "a", 2, "1 1"),
            ("every second", "abababab", "b", 1, "1 2"),
            ("every second", "abababab", "b", 2, "1 1"),
            ("every second", "abababab", "b", 3, "2 2"),
            ("every second", "abababab", "a", 3, "2 1"),
            ("every second", "abababab", "b", 4, "2 1"),
            ("every second", "abababab", "b", 5, "3 2"),
            ("two equal bursts", "aabbaa", "a", 2, "2 1"),
            ("two equal bursts", "baabbaab", "a", 2, "2 2"),
            ("two equal bursts", "baabbaab", "a", 3, "2 1"),
            ("two equal bursts", "bbaabbaa", "a", 3, "2 2"),
            ("two equal bursts", "bbaabbaa", "a", 4, "2 1"),
            ("three equal bursts", "baaabaaabaaa", "a", 3, "3 2"),
            ("three equal bursts", "baaabaaabaaa", "a", 4, "3 1"),
            ("three equal bursts", "baaabaaabaaa", "a", 5, "4 2"),
            ("a scattered one first", "bababbaaa", "a", 4, "3 6"),
            ("as many, scattered first", "babababbaaabb", "a", 5, "3 2"),
            ("as many, scattered last", "bbaaabbababab", "a", 5, "3 1"),
            ("a longer one last", "baabaaabaaaab", "a", 4, "4 9"),
            ("a longer one between", "baabaaaabaab", "a", 4, "4 5"),
            ("a longer one first", "baaaabaaabaab", "a", 4, "4 2"),
            ("gained and lost at once", "babbaabbab", "a", 3, "2 4"),
            ("at the last place alone", "bbbbabbbaa", "a", 2, "2 9"),
            ("at the last place alone", "bbbbabbbaa", "a", 6, "3 5")):
        yield burst(f"{detail}, {letters}", trace(letters, 2),
                    len(letters) + 5, LETTERS.index(letter), width,
                    f"burst {said}")


def never_called():
    """The most is 0, and the first stretch has it."""
    for letters, count in (("a", 2), ("b", 2), ("abab", 3), ("bbbbbb", 16),
                           ("ac" * 20, 16)):
        for number in range(count):
            if LETTERS[number] in letters:
                continue
            for width in (1, 2, len(letters), len(letters) + 1, 4095):
                yield burst(f"{letters} of {count}", trace(letters, count),
                            len(letters), number, width, "burst 0 1")


def one_command_alone():
    """There is no other step, so that a stretch has as many as it is long."""
    for count in (1, 2, 3, 8, 255, 256, 257, 300):
        for width in sorted({1, 2, count - 1, count, count + 1, 255, 256,
                             257, 4095} - {0}):
            yield burst(f"{count} steps", trace("a" * count), count + 1, 0,
                        width, f"burst {min(count, width)} 1")


def sixteen_commands():
    """Each once, in order and backwards."""
    for detail, letters in (("in order", LETTERS),
                            ("backwards", LETTERS[::-1])):
        for number in range(16):
            before = letters.index(LETTERS[number])
            for width in (1, 2, 3, 8, 15, 16, 17, 4095):
                yield burst(detail, trace(letters), 16, number, width,
                            one_block(before, 1, 15 - before, width))


def rising():
    """One a, two b, three c and so on: the last is the longest burst."""
    letters = "".join(letter * times for times, letter
                      in enumerate(LETTERS, 1))
    for number in range(16):
        before, times = number * (number + 1) // 2, number + 1
        behind = len(letters) - before - times
        for width in (1, times, times + 1, 16, 17, before + times, 135, 136,
                      137):
            yield burst("to sixteen", trace(letters), 150, number, width,
                        one_block(before, times, behind, width))


def shorter_traces():
    """From the width down the trace is one stretch. Its first steps need not
    be of that command."""
    for letters, letter, times in (
            ("b", "a", 0), ("ba", "a", 1), ("bba", "a", 1), ("bbab", "a", 1),
            ("bbaba", "a", 2), ("bbbaaab", "a", 3), ("abababa", "b", 3)):
        count = len(letters)
        for width in (count, count + 1, count + 2, 2 * count, 255, 256, 4094,
                      4095):
            yield burst(letters, trace(letters, 2), count + 6,
                        LETTERS.index(letter), width, f"burst {times} 1")


# What is shown, text and sheet, number of commands.
NO_STEPS = (
    ("G where all break", (BROKEN, trace_for(BROKEN, 1)), 1),
    ("no names", (NAMELESS, trace_for(NAMELESS, 0)), 1),
    ("two commands", trace("", 2), 2),
    ("sixteen commands", trace("", 16), 16),
)


def no_steps():
    for detail, pair, commands in NO_STEPS:
        for places in (0, 1, 5):
            for command in {0, commands - 1}:
                for width in (1, 2, 4095):
                    yield burst(detail, pair, places, command, width,
                                "burst 0 1")


def found_traces():
    """Traces of other models, one of them in other cases of its names."""
    for detail, pair, worked_out in (
            ("G's own", (G, G_SHEET), ((0, 1, "1 1"), (0, 2, "1 1"))),
            ("names in other cases", (G_CASES, G_SHEET),
             ((0, 1, "1 1"), (0, 2, "1 1"))),
            ("two steps", (G, TWO_STEPS),
             ((0, 1, "1 1"), (0, 2, "2 1"), (0, 3, "2 1"))),
            ("two steps, names in other cases", (G_CASES, TWO_STEPS),
             ((0, 1, "1 1"), (0, 2, "2 1"), (0, 3, "2 1"))),
            ("around twice", (G, TWICE_AROUND),
             ((0, 4, "4 1"), (0, 5, "5 1"), (0, 6, "5 1"))),
            ("two breaks", (G, BREAKS_TWICE), ((0, 2, "2 1"), (0, 3, "3 1"))),
            ("two commands", (THREE_STEPS, THREE_STEPS_SHEET),
             ((0, 1, "1 1"), (0, 2, "2 1"), (0, 3, "2 1"), (1, 1, "1 3"),
              (1, 2, "1 2"), (1, 3, "1 1")))):
        for command, width, said in worked_out:
            for places in (5, 6, 40):
                yield burst(detail, pair, places, command, width,
                            f"burst {said}")


GROUPS = (worked, every_short_trace, one_burst, ties, never_called,
          one_command_alone, sixteen_commands, rising, shorter_traces,
          no_steps, found_traces)
