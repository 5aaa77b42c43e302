"""Texts with reserved words in other cases, which can stand nowhere."""

from itertools import product

from corpora.texts_notation import SAMPLE
from inputs.phrases import (TOO_LONG, command, expression, list_of, loop,
                            model, nested, numbered, refused_at)
from reader.tokens import RESERVED


def casings(word):
    """The first letter, the last, all, and all but the first in capitals."""
    found = (word[0].upper() + word[1:], word[:-1] + word[-1].upper(),
             word.upper(), word[0] + word[1:].upper())
    return sorted(set(found))


def every_casing():
    for word in RESERVED:
        for letters in product(*((letter, letter.upper()) for letter in word)):
            spelled = "".join(letters)
            if spelled != word:
                yield refused_at(spelled, 3, f"shared a ^{spelled} b.")


def in_its_own_place():
    """Where the word itself would be right."""
    for j, word in enumerate(SAMPLE):
        for spelled in casings(word) if word in RESERVED else ():
            yield refused_at(f"{spelled} for token {j}", 3, " ".join(
                SAMPLE[:j] + [f"^{spelled}"] + SAMPLE[j + 1:]))


def between_tokens():
    """At each position; what follows no longer matters."""
    for j in range(len(SAMPLE) + 1):
        for spelled in ("Row", "AND", "sKip"):
            yield refused_at(f"{spelled} after {j}", 3,
                             " ".join(SAMPLE[:j] + [f"^{spelled}"]))


def for_names():
    """Where a name may stand, and between operands; all else is in order."""
    for word in RESERVED:
        for spelled in casings(word):
            for detail, text in (
                    ("a shared name", model(f"s ^{spelled} t", "r")),
                    ("a row name", model("s", f"r ^{spelled} t")),
                    ("a command", model(commands=[command(f"^{spelled}")])),
                    ("an operand", model(start=(f"a and ^{spelled}", "1"))),
                    ("an operator", model(keep=("1", f"a ^{spelled} x"))),
                    ("a target", model(
                        commands=[command(yes=f"^{spelled} := 1")])),
                    ("a row target", model(commands=[
                        command(yes=loop(yes=f"^{spelled} := 1"))]))):
                yield refused_at(f"{spelled} as {detail}", 3, text)
    for first, second in (("If", "iF"), ("ROW", "row"), ("Or", "oR")):
        yield refused_at(f"{first}, then {second}", 3,
                         model(f"a ^{first} {second}"))
    yield refused_at("the only name", 3, model("", "^Each"))
    yield refused_at("declared and read", 3,
                     model("^End", start=("End", "1")))
    yield refused_at("declared by a command and read", 3,
                     model(commands=[command("^Skip", "Skip")]))
    for text in ("a ^AND b", "a ^Or b", "^NOT a", "^Not (a)", "not ^nOt a",
                 "a and ^noT b", "(^OR)", "a ^aND b",
                 "(a ^OR b) AND a", "a and b ^oR a", "not a ^And b",
                 "^Not", "^AND", "a and ^IF", "1 ^Each 1"):
        yield refused_at(f"in {text}", 3, model(start=(text, "1")))


def in_longer_words():
    """A reserved word and something more is a name, or too long."""
    for word in RESERVED:
        first = word.capitalize()
        for spelled in (f"{first}_", f"{first}1", f"a{first}", f"{first}s",
                        f"{first}{word}", word.upper() + "_1", f"a_{first}",
                        first[:-1]):
            yield f"{spelled} -> model", model(
                f"s {spelled}", start=(spelled.lower(), spelled.upper()),
                commands=[command("cc", spelled, f"{spelled}:=1")])
        for spelled in (first.ljust(16, "a"), first.rjust(16, "a"),
                        word.upper().ljust(16, "_")):
            yield f"{spelled} of 16 -> model", model(
                spelled, start=(spelled.swapcase(), "1"))
        for spelled in (first.ljust(17, "a"), first.rjust(17, "a"),
                        word.upper().ljust(17, "_")):
            yield refused_at(f"{spelled} of 17", 2, model(f"^{spelled}"))
            yield refused_at(f"{spelled} of 17 for {word}", 2,
                             f"^{spelled} a. row.")
        yield refused_at(f"_{first}", 3, model(f"a ^_{first}"))
        yield refused_at(f"0{first}", 3, model(start=(f"^0{first}", "1")))
    for name, others in (("o", "O"), ("r", "R"), ("no", "NO nO"),
                         ("i", "I"), ("orand", "OrAnd ORAND")):
        for other in others.split():
            yield f"{name}, read {other} -> model", model(
                f"a {name}", start=(other, "1"))
    yield "joined by underscores -> model", model(
        "If_Do", "FOR_END", start=("IF_DO", "for_end or if_do"))


def before_and_after():
    """Beside a limit, another fault, or the text's end."""
    eight = numbered("s", 8)
    sixteen = [command(f"c{j}") for j in range(16)]
    skips = list_of("skip", 256)
    for detail, number, text in (
            ("ninth shared name", 3, model(f"{eight} ^Row", "")),
            ("after nine shared names", 7, f"shared {eight} ^s8 Row"),
            ("thirteenth name", 3, model(eight, "a b c d ^IF")),
            ("seventeenth command", 3, model(
                commands=sixteen + ["^" + command("z").capitalize()])),
            ("name of the seventeenth command", 7, model(
                commands=sixteen + ["^" + command("End")])),
            ("257th item, skip", 3, model(
                commands=[command(yes=f"{skips};^Skip")])),
            ("257th item, for", 3, model(
                commands=[command(yes=f"{skips};^FOR 1 do")])),
            ("257th item, target", 3, model(
                commands=[command(yes=f"{skips};^Do := 1")])),
            ("1,025th node, and", 3, model(
                start=(f"not {expression(1023)} ^AND 1", "1"))),
            ("1,025th node, or", 3, model(
                start=(f"not {expression(1023)} ^Or 1", "1"))),
            ("1,025th node, not", 3, model(
                start=(expression(1023) + " or ^Not 1", "1"))),
            ("depth 17", 3, model(
                start=(nested("(", ")", 16, "^NOT 1"), "1"))),
            ("depth 17 after it", 3, model(
                start=("^NOT " + nested("(", ")", 17), "1"))),
            ("before a bad byte", 3, "shared ^Row\t."),
            ("after a bad byte", 2, "shared ^\tRow."),
            ("before a long word", 3, f"^Shared {TOO_LONG}"),
            ("after a long word", 2, f"shared ^{TOO_LONG} Row"),
            ("before a wrong token", 3, "shared ^End ; ;"),
            ("after a wrong token", 3, "shared ^; End"),
            ("after a repeated name", 4, "shared a ^A End"),
            ("before a repeated name", 3, "shared a ^End A"),
            ("after an undeclared name", 5, model(start=("^q AND a", "1"))),
            ("before an undeclared name", 3, model(start=("a ^AND q", "1"))),
            ("after a star", 6, model(start=("^* AND a", "1"))),
            ("before a star", 3, model(start=("^NOT *", "1"))),
            ("for the text's first word", 3, "^Shared"),
            ("after the text", 3, model() + " ^End"),
            ("for a next command", 3, model() + "\n^COMMAND d if 1"),
            ("two of them", 3, "shared. ^Row. START"),
            ("all of them", 3, "^" + model().upper())):
        yield refused_at(detail, number, text)


GROUPS = (every_casing, in_its_own_place, between_tokens, for_names,
          in_longer_words, before_and_after)
