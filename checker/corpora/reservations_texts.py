"""Worked examples, models by their number of names, and texts that are
refused."""

from corpora.pairs_models import starred
from corpora.reports_settings import these
from corpora.reports_texts import padded
from inputs.cases import G, G_CASES, G_VOID, H, H_CASES
from inputs.phrases import (command, list_of, model, nested, numbered,
                            refused_at, stars)


def worked():
    """G and H have 2 stars, so that 4 words are tried at each of 8 states;
    3 states of H are reached."""
    yield "G -> 8 87 32, unsafe", G
    yield "H -> 8 87 32, safe 12", H
    yield "G without a start state -> 8 87 32, void", G_VOID
    yield ("G breaks at the start -> 8 87 32, unsafe",
           G.replace("keep 1 each not (w and x)", "keep 0 each 1"))
    yield "a newline after H -> 8 87 32, safe 12", H + "\n"
    yield "G, names in other cases -> 8 87 32, unsafe", G_CASES
    yield "H, names in other cases -> 8 87 32, safe 12", H_CASES
    yield ("a command more, 4 + 1 words -> 8 87 40, safe 15",
           H + " " + command("rest"))
    yield ("a command before, 8 + 4 words -> 8 87 96, safe 36",
           H.replace("command grant", command("rest", stars(3))
                     + " command grant"))
    more = H.replace("shared m", "shared m k")
    yield "a name more, 6 states -> 16 167 64, safe 24", more
    yield ("a name more, 3 states -> 16 167 64, safe 12",
           more.replace("start m", "start m and k"))


# Shared names, row names, what is reserved for a command of one star.
NAMES = (
    (0, 0, "1 17 2"),
    (1, 0, "2 27 4"), (0, 1, "2 27 4"),
    (2, 0, "4 47 8"), (1, 1, "4 47 8"), (0, 2, "4 47 8"),
    (3, 0, "8 87 16"), (1, 2, "8 87 16"), (0, 3, "8 87 16"),
    (4, 0, "16 167 32"), (2, 2, "16 167 32"), (1, 3, "16 167 32"),
    (5, 0, "32 327 64"), (2, 3, "32 327 64"),
    (6, 0, "64 647 128"), (3, 3, "64 647 128"),
    (7, 0, "128 1287 256"), (1, 6, "128 1287 256"),
    (8, 0, "256 2567 512"), (0, 8, "256 2567 512"),
    (8, 1, "512 5127 1024"), (0, 9, "512 5127 1024"),
    (5, 5, "1024 10247 2048"), (0, 10, "1024 10247 2048"),
    (8, 3, "2048 20487 4096"), (1, 10, "2048 20487 4096"),
    (8, 4, "4096 40967 8192"), (7, 5, "4096 40967 8192"),
    (6, 6, "4096 40967 8192"), (2, 10, "4096 40967 8192"),
)


def names():
    """One state is reached, the first."""
    for shared, row, reserved in NAMES:
        yield (f"{shared} and {row} -> {reserved}, safe 2",
               these(shared, row, (0,), starred((1,))))


SAID = "shared a. row w. start 1 each 1. keep 1 each 1. "


def refused():
    """Most have whole commands before the place."""
    for number, text in (
            (2, "shared a^, b."), (2, "shared ^abcdefghijklmnopq."),
            (2, SAID + command("c", "*") + " ^\t"),
            (3, "^"), (3, "shared a^"), (3, "shared a^; b."),
            (3, SAID + command("c", "*") + "^."),
            (3, SAID + command("c", "*") + " ^skip"),
            (3, SAID + command("c", "*") + " ^Command"),
            (4, "shared a. row b ^a."),
            (4, SAID + command("c", "*") + " command ^c"),
            (4, SAID + command("c", "*") + " command ^C"),
            (5, "shared a. row. start ^b"),
            (5, SAID + command("c", "*") + " command d if ^w"),
            (5, SAID + command("c", "*") + " command d if ^W"),
            (6, "shared. row. start ^*"),
            (6, SAID[:-3] + "^*. " + command("c", "*")),
            (7, "shared a b c d e f g h ^i."),
            (7, "shared. row a b c d e f g h i j ^k."),
            (7, f"shared {numbered('s', 8)}. row a b c d ^e."),
            (7, SAID + command("c", stars(8) + " or ^*")),
            (7, SAID + command("c", "*") + " "
             + command("d", stars(8), "a := ^*")),
            (7, SAID + command("c", nested("(", ")", 16, "^(1)"))),
            (7, SAID + command("c", yes=list_of("skip", 256) + ";^skip")),
            (7, SAID + " ".join(command(f"c{j}", "*") for j in range(16))
             + " ^command c if 1 do skip else skip.")):
        before, after = text.split("^")
        yield refused_at(f"{before[-16:]!r}, then {after[:8]!r}",
                         number, text)


def lengths():
    yield "H with blanks to 16,384 bytes -> 8 87 32, safe 12", padded(
        H, 16384)
    for length in (16385, 16386, 32768, 65536, 70000):
        yield f"H with blanks to {length} -> refused 1 16384", padded(
            H, length)
    yield "bad bytes -> refused 1 16384", "\t" * 16385
    yield ("twelve names and 16 commands behind blanks -> refused 1 16384",
           model(numbered("s", 8), numbered("r", 4),
                 commands=starred([8] * 16)).rjust(16385))


GROUPS = (worked, names, refused, lengths)
