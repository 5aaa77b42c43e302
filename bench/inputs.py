"""What is measured: texts with the sheets that the search writes for them, and
other sheets and texts that are refused, to be sure that those who are measured
test them."""

from collections import namedtuple

import models

# The answer is the letter by which the test tells of the sheet, or the number
# and place of the text's refusal.
Input = namedtuple("Input", "title text sheet answer")

G_SHEET = bytes.fromhex(
    "030000000100010201 0200000003000100 04000000040000030700")
H_SHEET = bytes.fromhex("030000000100010201 0100000002002a")
VOID_SHEET = bytes.fromhex("030000000100010201 01000000020000")


def record(kind, payload):
    return (len(payload).to_bytes(4, "little") + kind.to_bytes(2, "little")
            + payload)


def header(commands):
    return record(1, bytes([len(models.SHARED), len(models.ROW), commands]))


def map_sheet(commands, first, others):
    """The map's first byte, and what its others are."""
    return (header(commands)
            + record(2, bytes([first] + [others] * (models.STATES // 8 - 1))))


def trace(commands, steps):
    """From state 0, each step of a command and a word to the next state."""
    return (header(commands) + record(3, bytes(2))
            + b"".join(record(4, bytes(move) + after.to_bytes(2, "little"))
                       for after, move in enumerate(steps, 1)))


def wide(code):
    """Every state with every command and choice word."""
    text, words = models.wide("1 each 1", *code)
    return Input(f"{models.BITS} bits, {models.COMMANDS} commands of"
                 f" {models.STARS} stars and {words} code words", text,
                 map_sheet(models.COMMANDS, 0xff, 0xff), "s")


def longest_command():
    """Every state with one command, whose code is the longest."""
    text, words = models.longest_command()
    return Input(f"{models.BITS} bits, 1 command of {models.FILLING_STARS}"
                 f" stars and {words} code words", text,
                 map_sheet(1, 0xff, 0xff), "s")


def count(bits):
    steps = (1 << bits) - 1
    return Input(f"trace of {steps:,} steps, 1 command",
                 models.short_count(bits), trace(1, [(0, 0)] * steps), "t")


def longest_count():
    """Every state is met, and once more on the way back."""
    steps = models.STATES - 1
    last = 0, (1 << models.FILLING_STARS) - 1
    return Input(f"trace of {steps:,} steps, 1 command as long as can be",
                 models.longest_count(), trace(1, [last] * steps), "t")


def starry_count(bits):
    steps = (1 << bits) - 1
    last = models.COMMANDS - 1, (1 << models.STARS) - 1
    return Input(f"trace of {steps:,} steps, {models.COMMANDS} commands of"
                 f" {models.STARS} stars", models.starry_count(bits),
                 trace(models.COMMANDS, [last] * steps), "t")


def long_text():
    return Input(f"text of {models.LONGEST_TEXT:,} bytes, trace of no steps",
                 models.long_text(), trace(models.COMMANDS, []), "t")


G = Input("G, trace of 1 step", models.G, G_SHEET, "t")
H = Input("H, map of 3 states", models.H, H_SHEET, "s")
VOID = Input("G without a start state, map of none", models.VOID, VOID_SHEET,
             "v")
DEEPEST = H._replace(title="H in parentheses", text=models.DEEPEST_H)
CASES = H._replace(title="H, names in other cases", text=models.H_CASES)
WIDE = wide(models.SHORT)
LONGEST_COMMAND = longest_command()
COUNT = count(models.BITS)
LONGEST_COUNT = longest_count()
STARRY = starry_count(4)
LONG_TEXT = long_text()

TO_READ = [G, LONG_TEXT]
TO_SEARCH = [G, H, WIDE, wide(models.LONG), LONGEST_COMMAND, COUNT,
             LONGEST_COUNT, starry_count(models.BITS), LONG_TEXT]

# Those that C, one word at a time, is through with in two seconds.
QUICK = [G, H, VOID, DEEPEST, CASES, WIDE, LONGEST_COMMAND, COUNT,
         LONGEST_COUNT, STARRY, LONG_TEXT]


def changed(given, place, byte, answer):
    """With another byte at a place of the sheet, counted from its end."""
    sheet = bytearray(given.sheet)
    sheet[-place] = byte
    return given._replace(title=f"{given.title}, changed",
                          sheet=bytes(sheet), answer=answer)


# Sheets that the search does not write, most of which fail.
OTHERS = [changed(H, 1, 0x22, "A"), changed(H, 1, 0xff, "B"),
          changed(H, 1, 0x0a, "C"), changed(WIDE, 1, 0x7f, "C"),
          changed(G, 12, 0, "D"), changed(COUNT, 2, 0xfe, "E"),
          changed(H, 1, 0, "A"), changed(VOID, 1, 0x15, "v"),
          changed(VOID, 1, 0x40, "B"), changed(VOID, 1, 0x02, "C"),
          G._replace(title="a trace where nothing starts", text=models.VOID,
                     answer="D"),
          COUNT._replace(title="trace cut short", sheet=COUNT.sheet[:-10],
                         answer="F"),
          # Only the last word of the last command leaves it.
          STARRY._replace(title="map of the start state",
                          sheet=map_sheet(models.COMMANDS, 1, 0),
                          answer="C")]


def refused(number, marked):
    """A text that is refused where it is marked."""
    place = marked.index("^")
    return Input(f"refused {number} {place}", marked.replace("^", "", 1), b"",
                 (number, place))


def one_over(separator, part, limit):
    """The part, with a mark before the first that is over the limit."""
    return separator.join([part] * limit + ["^" + part])


CLAUSES = "shared a. row w. start 1 each 1. keep 1 each 1. "
COMMAND = CLAUSES + "command c if 1 do "
MANY = "".join(f"command c{j} if 1 do skip else skip. " for j in range(16))

REFUSED = [refused(number, marked) for number, marked in [
    (1, " " * models.LONGEST_TEXT + "^ "),
    (2, "shared a^, b."), (2, "shared ^abcdefghijklmnopq."),
    (2, "shared ^Rowaaaaaaaaaaaaaa."), (2, "shared a_ a^\x7f."),
    (3, "shared a^; b."), (3, "shared a ^"), (3, "shared a. row ^end."),
    (3, COMMAND + "a ^: = 1"), (3, COMMAND + "for 1 do ^for"),
    (3, COMMAND + "skip else skip. ^skip"),
    (3, "^Shared a."), (3, "shared a ^Row."), (3, "shared a. ^ROW."),
    (3, CLAUSES + "command ^eNd"), (3, COMMAND + "^SKIP else skip."),
    (3, COMMAND + "a := 1 ^AND 1"), (3, COMMAND + "a := ^Not 1"),
    (3, COMMAND + "^Or := 1"), (3, CLAUSES + MANY + "^Command"),
    (4, "shared a. row b ^a."), (4, CLAUSES + "command ^w"),
    (4, "shared page ^Page."), (4, "shared A. row b ^a."),
    (4, "shared LONG_NAMES_ALIKE ^long_names_alike."),
    (4, CLAUSES + "command ^W"),
    (4, COMMAND + "skip else skip. command ^C"),
    (5, "shared a. row. start ^b"), (5, "shared. row w. start ^w"),
    (5, COMMAND + "for 1 do ^a := 1"), (5, COMMAND + "^w := 1"),
    (5, COMMAND + "^W := 1"), (5, COMMAND + "A := ^C"),
    (5, "shared long_names_alike. row. start ^Long_names_aliki"),
    (6, "shared. row. start ^*"),
    (7, "shared a b c d e f g h ^i."),
    (7, "shared. row a b c d e f g h i j ^k."),
    (7, "shared a b c. row d e f g h i j k l ^m."),
    (7, "shared. row. start " + one_over("", "(", models.DEPTH)),
    (7, "shared a. row. start " + one_over(" ", "not", models.DEPTH)),
    (7, COMMAND + "a := " + one_over(" or ", "*", models.STARS)),
    (7, COMMAND + one_over("; ", "skip", 256)),
    # Clauses and condition have five nodes; 509 zeros, an `or` for each and a
    # name make 1,024.
    (7, COMMAND + "a := " + "0 or " * 509 + "a ^or a"),
    (7, CLAUSES + MANY + "^command"),
]]
