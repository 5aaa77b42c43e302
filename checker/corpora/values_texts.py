"""Worked examples, texts with little to value, and texts that are refused."""

from corpora.texts import corpus as reader_texts
from inputs.cases import G, G_CASES, H, H_CASES
from inputs.phrases import command, list_of, loop, model

REFUSED = 6
LONGEST_SHOWN = 1200

# State and word where nothing is valued.
ANYWHERE = (0, 0), (1, 3), (4095, 255)


def worked():
    """In every state and under every word."""
    for name, text, passes in (("G", G, 12), ("H", H, 15)):
        for state in range(8):
            for word in range(4):
                yield (f"{name} in {state} under {word} -> passes {passes}",
                       text, state, word)


def names_in_cases():
    """The same values, whatever the case; a name is read in both."""
    for name, text, passes in (("G", G_CASES, 12), ("H", H_CASES, 15)):
        for state in range(8):
            yield (f"{name} in {state} -> passes {passes}",
                   text, state, state % 4)
    text = model("aB b", "X xY", ("AB and not B", "x or XY"),
                 ("ab or AB", "not xy and Ab"),
                 [command("Xx", "B or *", "AB := b",
                          loop("x and Xy", "XY := X", "x := aB"))])
    for state in range(16):
        yield (f"four names in {state} -> passes 23", text, state, state % 2)


def no_names():
    """Constants alone: one of the five is false, or one is true."""
    for place in range(5):
        for value, other in ("01", "10"):
            said = [other] * 5
            said[place] = value
            text = model("", "", said[:2], said[2:4], [command("c", said[4])])
            for word in (0, 255):
                yield (f"{value} in place {place} under {word} -> passes 5",
                       text, 0, word)
    yield ("no blank to spare -> passes 5",
           "shared.row.start 0 each 1.keep 1 each 0."
           "command c if 0 do skip else skip.", 0, 0)


def skipping():
    """Items that have no expression, and loops that have but one."""
    for detail, passes, *commands in (
            ("two", 5, command()),
            ("many", 5, command(yes=list_of("skip", 9),
                                no=list_of("skip", 4))),
            ("three commands", 7, *map(command, "cde")),
            ("a loop", 6, command(yes=loop("a"))),
            ("a loop after else", 6, command(no=loop("x"))),
            ("loops of many", 7, command(
                yes=loop("y", list_of("skip", 5), list_of("skip", 3)),
                no=f"skip; {loop('b')}; skip")),
            ("around an assignment", 6, command(yes="skip; a := b; skip")),
            ("around a row's assignment", 7, command(
                yes=f"skip; {loop('0', 'skip; x := y; skip')}; skip"))):
        for state in (0, 6, 9, 15):
            yield (f"{detail}, state {state} -> passes {passes}",
                   model(commands=commands), state, state)


def refused():
    """Some texts of each number, most from the corpus of the reader."""
    for number in "234567":
        fitting = [(label, text) for label, text in reader_texts()
                   if label.endswith(f" -> {number}")
                   and len(text) <= LONGEST_SHOWN]
        for j, (label, text) in enumerate(fitting[::len(fitting) // REFUSED]):
            yield (label.replace(f" -> {number}", f" -> refused {number}"),
                   text.decode("latin-1"), *ANYWHERE[j % 3])
    for state, word in ANYWHERE:
        yield f"no text, {state}, {word} -> refused 3 0", "", state, word
    yield "too long -> refused 1 16384", G.ljust(16385), 5, 2
    yield "a bad byte after G -> refused 2", G + "\t", 5, 2
    yield "a full stop after G -> refused 3", G + ".", 5, 2
    yield "G without its end -> refused 3", G[:-1], 5, 2


GROUPS = (worked, names_in_cases, no_names, skipping, refused)
