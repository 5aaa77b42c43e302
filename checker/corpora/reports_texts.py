"""Texts that are refused, texts at the limits, and worked examples."""

from corpora.pairs_models import exactly
from corpora.pairs_readings import READINGS
from corpora.texts import corpus as reader_texts
from inputs.cases import G, G_VOID, H
from inputs.phrases import LONG, command, loop, model, nested, numbered, stars
from reader.reading import read

REFUSED = 12
LONGEST_SHOWN = 1500


def padded(text, length):
    return text + " " * (length - len(text))


def worked():
    yield "G -> unsafe 1", G
    yield "H -> safe", H
    yield ("G breaks at the start -> unsafe 0",
           G.replace("keep 1 each not (w and x)", "keep 0 each 1"))
    yield "G has no start state -> void", G_VOID
    yield "no text -> refused 3 0", ""
    yield "a newline after G -> unsafe 1", G + "\n"


def lengths():
    yield "at the limit -> unsafe 1", padded(G, 16384)
    for length in (16385, 16400, 32768, 32769, 70000):
        yield f"{length} bytes -> refused 1 16384", padded(G, length)
    yield "bad bytes, too many -> refused 1 16384", "\t" * 16385


def refused():
    """Some texts of each number, from the corpus of the reader."""
    for number in "234567":
        fitting = [(label, text) for label, text in reader_texts()
                   if label.endswith(f" -> {number}")
                   and len(text) <= LONGEST_SHOWN]
        for label, text in fitting[::len(fitting) // REFUSED]:
            yield (label.replace(f" -> {number}", f" -> refused {number}"),
                   text.decode("latin-1"))


def limits():
    for shared, row in ((8, 4), (2, 10), (7, 5), (3, 9), (8, 0), (0, 10)):
        names = numbered("s", shared), numbered("r", row)
        yield f"{shared} and {row} names -> safe", model(
            *names, start=("not s0" if shared else "1", "1"),
            commands=[command()])
    yield "13 names -> refused 7 54", model(numbered("s", 8),
                                            numbered("r", 5))
    for opening, closing in (("(", ")"), ("not ", "")):
        for depth in (16, 17):
            meant = "unsafe 1" if depth == 16 else "refused 7"
            yield f"{depth} of {opening} -> {meant}", model(
                "a", "", ("not a", "1"), ("not a", "1"),
                [command("c", nested(opening, closing, depth), "a := 1")])
    for count in (8, 9):
        meant = "unsafe 1" if count == 8 else "refused 7"
        yield f"{count} stars -> {meant}", model(
            "a", "", ("not a", "1"), ("not a", "1"),
            [command("c", stars(count), "a := 1")])
    yield "256 items -> unsafe 1", model(
        "a", "x", ("not a", "1"), ("not a", "1"),
        [command("c", "1", ";".join(["skip"] * 254 + ["a := 1"]))])
    yield "257 items -> refused 7", model(
        "a", "x", ("not a", "1"), ("not a", "1"),
        [command("c", "1", ";".join(["skip"] * 255 + ["a := 1"]))])
    sixteen = [command(LONG[:15] + chr(65 + j), "*", "a := b", "b := 1")
               for j in range(16)]
    yield "16 commands with long names -> unsafe 2", model(
        "a b", "", ("not a and not b", "1"), ("not a", "1"), sixteen)
    yield "17 commands -> refused 7", model(
        "a b", "", ("not a and not b", "1"), ("not a", "1"),
        sixteen + [command("z")])


def no_names():
    for start, keep, meant in (("1", "1", "safe"), ("1", "0", "unsafe 0"),
                               ("0", "0", "void"), ("0", "1", "void")):
        for place in (0, 1):
            pair = [("1", "1"), ("1", "1")]
            pair[0] = (start, "1") if place else ("1", start)
            pair[1] = (keep, "1") if place else ("1", keep)
            yield f"{start} and {keep} in part {place} -> {meant}", model(
                "", "", *pair, [command("c", "*", loop("*"))])
    for names in (("a", ""), ("", "a")):
        one = ("a := *" if names[0] else loop(yes="a := *"))
        flat = ("not a", "1") if names[0] else ("1", "not a")
        for keep, meant in ((flat, "unsafe 1"), (("1", "1"), "safe"),
                            (("1", "0"), "unsafe 0")):
            yield f"one name, {names[0] or 'row'}, {keep} -> {meant}", model(
                *names, flat, keep, [command(yes=one)])


def spelling():
    """Names in a report are spelled as the text spells them."""
    for name in (LONG, "c", "C_", "commando", "a1", "Grant", "i_f", "x" * 16):
        yield f"{name} -> unsafe 1", model(
            "a", "", ("not a", "1"), ("not a", "1"),
            [command("other"), command(name, "1", "a := 1")])
    yield "names far down -> unsafe 1", G.replace(
        "command grant", "\n" * 8000 + " command" + " " * 5000 + "grant")


def readings():
    """Models in which one reading of a text breaks after one step: the state
    after is the one that must not be met."""
    for detail, text, state, (_, _, after), _ in READINGS:
        said = read(text.encode())
        shared = [name.word for name in said.shared]
        row = [name.word for name in said.row]
        start = (exactly(shared, state) or "1",
                 exactly(row, state >> len(shared)) or "1")
        broken = exactly(shared + row, after)
        yield detail, (
            text.replace("start 1 each 1", f"start {start[0]} each {start[1]}")
            .replace("keep 0 each 1", f"keep 1 each not ({broken})"))


GROUPS = (worked, lengths, refused, limits, no_names, spelling, readings)
