"""Texts about names in other cases: capitals and small letters are alike in
names, and nothing else is."""

import string
from itertools import combinations_with_replacement

from corpora.texts_names import uses
from inputs.cases import G_CASES, H_CASES
from inputs.phrases import (LONG, SKIPPING, TOO_LONG, command, expression,
                            list_of, loop, model, numbered, refused_at)

KINDS = ("shared", "row", "command")

# A name and the same name once more.
SPELLED = (("page", "Page"), ("Page", "page"), ("page", "PAGE"),
           ("PAGE", "page"), ("page", "pagE"), ("pAge", "PaGE"))


def declaring(first, second, between=""):
    """A text that declares two names, each given with its kind, and others
    between them."""
    names = {kind: [] for kind in KINDS}
    for kind, word in (first, *((second[0], word) for word in between.split()),
                       second):
        names[kind].append(word)
    return model(" ".join(names["shared"]), " ".join(names["row"]),
                 commands=map(command, names["command"] or ["c"]))


def repeated_cases():
    for one, two in combinations_with_replacement(KINDS, 2):
        for first, second in SPELLED:
            yield refused_at(f"{one} {first}, {two} {second}", 4, declaring(
                (one, first), (two, f"^{second}")))
        yield refused_at(f"{one}, others, {two}", 4, declaring(
            (one, "Page"), (two, "^pAGe"), "pag Pages paga"))
    yield refused_at("again as it was, after another case", 4,
                     model("page ^PAGE page", ""))
    yield refused_at("in a third case", 4, model("pagE", "x ^Page PAGE"))
    yield refused_at("sixteenth command like the first", 4, model(
        commands=[command(f"c{j}") for j in range(15)] + [command("^C0")]))
    yield refused_at("then cut", 4, "shared a ^A")
    yield refused_at("command, then cut", 4,
                     model(commands=[SKIPPING, "command ^C"]))


def used_cases():
    """Names of each kind at each place where one is read or assigned."""
    lists = {"shared": "a page", "row": "x dirty"}
    capitals = {kind: names.upper() for kind, names in lists.items()}
    for detail, declared, words in (
            ("", lists, (("Page", "shared"), ("paGE", "shared"),
                         ("DIRTY", "row"), ("dIrty", "row"),
                         ("C", "command"), ("Pages", "undeclared"),
                         ("DIRT", "undeclared"))),
            ("declared in capitals, ", capitals,
             (("page", "shared"), ("pAGE", "shared"), ("dirty", "row"),
              ("Dirty", "row"), ("pag", "undeclared")))):
        for word, kind in words:
            for (where, text, fitting), (_, marked, _) in zip(
                    uses(word, **declared), uses(f"^{word}", **declared)):
                if kind in fitting.split():
                    yield f"{detail}{word} as {where} -> model", text
                else:
                    yield refused_at(f"{detail}{word} as {where}", 5, marked)
    for text in ("(Page)", "not PAGE", "a and pagE", "PAGE or A",
                 "not (A or (PaGe and not page))", "page and Page or PAGE"):
        yield f"in {text} -> model", model("a page", start=(text, text))
    for text in ("(^Dirty)", "not ^DIRTY", "a and ^dirtY", "A or not ^Y"):
        yield refused_at(f"row name in {text}", 5,
                         model("a", "x y dirty", keep=(text, "1")))
    yield refused_at("a later command's name", 5, model(
        commands=[command("c", "^D"), command("d")]))
    yield refused_at("an earlier command's name", 5, model(
        commands=[command("Grant"), command("d", yes="^grant := 1")]))
    yield refused_at("undeclared with no names", 5,
                     model("", "", start=("^A", "1")))
    yield refused_at("undeclared, then cut", 5, "shared a. row x. start ^B")
    yield refused_at("right target without :=", 3,
                     model(commands=[command(yes="A ^1")]))


def every_letter():
    for small, capital in zip(string.ascii_lowercase, string.ascii_uppercase):
        for one, two in ((small, capital), (capital, small)):
            yield f"{one}, read {two} -> model", model(
                one, "", start=(two, "1"), commands=[command("cc")])
            yield f"a{one}, assigned a{two} -> model", model(
                f"a{one}", "", commands=[command("cc", yes=f"a{two} := 1")])
            yield refused_at(f"{one}, then {two}", 4,
                             model(f"b{one} ^b{two}", ""))


def turned(word, places):
    """With the case of the letters at these places changed."""
    return "".join(letter.swapcase() if j in places else letter
                   for j, letter in enumerate(word))


def lengths_and_places():
    """Letters changed at each end, in the middle, and all over."""
    for length in (1, 2, 7, 8, 9, 15, 16):
        word = LONG[:length]
        for detail, places in (
                ("first", {0}), ("last", {length - 1}),
                ("middle", {length // 2}), ("all", set(range(length))),
                ("all but the first", set(range(1, length))),
                ("all but the last", set(range(length - 1))),
                ("every other", set(range(0, length, 2)))):
            other = turned(word, places)
            for one, two in ((word, other), (other, word)):
                if one == two:
                    continue
                label = f"{detail} of {length}, {one}"
                yield f"{label}, read -> model", model(
                    one, start=(two, "1"))
                yield refused_at(f"{label}, again", 4, model(f"{one} ^{two}"))
    for place in range(16):
        other = turned(LONG, {place})
        yield f"place {place} of 16, read -> model", model(
            "s", LONG, start=("1", other))
        yield refused_at(f"place {place} of 16, again", 4, model(
            "s", LONG, commands=[command(f"^{other}")]))
    yield refused_at("17 letters in another case", 2, model(
        LONG, start=(f"^{TOO_LONG.upper()}", "1")))


def other_names():
    """Names that differ in a letter too, or in their lengths."""
    for length in (9, 12, 15, 16):
        word = LONG[:length]
        for place in sorted({0, 6, 7, 8, length - 1}):
            half = range(8, length) if place < 8 else range(8)
            for detail, places in (("other half", half),
                                   ("all", range(length))):
                other = turned(word, places)
                letter = "Z" if other[place].isupper() else "z"
                other = other[:place] + letter + other[place + 1:]
                label = f"{other} for {word}, {detail}"
                yield refused_at(f"{label}, read", 5,
                                 model(word, start=(f"^{other}", "1")))
                yield f"{label}, both -> model", model(
                    f"{word} {other}", "", start=(other.swapcase(), "1"),
                    keep=(word.upper(), other))
    yield refused_at("longer by a letter", 5,
                     model("aa", start=("^AAA", "1")))
    yield refused_at("shorter by a letter", 5, model("aa", start=("^A", "1")))
    yield refused_at("longer than eight", 5, model(
        LONG[:8], start=(f"^{LONG[:9].upper()}", "1")))
    yield refused_at("shorter, of eight", 5, model(
        LONG[:9], start=(f"^{LONG[:8].upper()}", "1")))
    yield "each longer than the last -> model", model(
        "a AA aAa", "AAAA aaaaa", start=("aa or AaA", "AaAaA or A"),
        commands=[command("AaAaAa", "A", "aA := AAA")])
    yield refused_at("two letters changed about", 5,
                     model("abcd", start=("^ABDC", "1")))


def not_letters():
    """Bytes that a loose way to compare would take for the same."""
    for digit in string.digits:
        # 32 and 64 above a digit stand letters.
        for letter in (chr(ord(digit) + 32), chr(ord(digit) + 64)):
            yield f"a{digit} and a{letter} -> model", model(
                f"a{digit} a{letter}", "",
                start=(f"A{digit}", f"A{letter.swapcase()}"))
            yield refused_at(f"a{letter} for a{digit}", 5,
                             model(f"a{digit}", start=(f"^a{letter}", "1")))
    yield "underscores -> model", model(
        "a_ aA a0", "A_A a_0",
        start=("A_ and AA and A0", "a_a or A_0"))
    yield refused_at("an underscore for a letter", 5,
                     model("aa", start=("^a_", "1")))
    yield refused_at("an underscore more", 5, model("aa", start=("^A_A", "1")))
    for word in ("_a", "_A", "0X", "0x", "1A", "_Row", "_IF", "9Z"):
        yield refused_at(f"{word} as a name", 3, model(f"a ^{word}"))
        yield refused_at(f"{word} as an operand", 3,
                         model(start=(f"^{word}", "1")))
    # Bytes 32 apart of which one is allowed at most, then letters of which
    # one is of another alphabet.
    for byte in ("@`[{\\|]}^~\x7f" + "".join(map(chr, range(16, 26)))
                 + "\xc9\xe9\xc1\xe1\xdf\xff\xb5\xe0\xfe"):
        yield (f"{byte!r} for an underscore -> refused 2 11",
               f"shared a_ a{byte}. row. start a_")
    for detail, said in (("long s", "\xc5\xbfhared"),
                         ("Kelvin sign", "\xe2\x84\xaa"),
                         ("dotless i", "\xc4\xb1f"),
                         ("wide A", "\xef\xbc\xa1")):
        yield f"{detail} -> refused 2 7", f"shared {said}."


def limits_and_cases():
    """A name in another case beside a limit or another fault."""
    eight, ten = numbered("s", 8), numbered("r", 10)
    for detail, number, text in (
            ("ninth shared name, again", 4, model(f"{eight} ^S3", "")),
            ("ninth shared name, new", 7, model(f"{eight} ^S8", "")),
            ("eleventh row name, again", 4, model("", f"{ten} ^R9")),
            ("eleventh row name, of a shared", 4, model("s", f"{ten} ^S")),
            ("thirteenth name, again", 4, model(eight, "a b c d ^S0")),
            ("thirteenth name, new", 7, model(eight, "A B C D ^E")),
            ("seventeenth command, again", 7, model(
                commands=[command(f"c{j}") for j in range(16)]
                + ["^" + command("C3")])),
            ("1,025th node", 7, model(
                start=(expression(1023) + " or ^A", "1"))),
            ("1,025th node, wrong kind", 5, model(
                start=(expression(1023) + " or ^X", "1"))),
            ("257th item", 7, model(
                commands=[command(yes=list_of("A:=1", 256) + ";^B:=1")])),
            ("257th item, wrong kind", 5, model(
                commands=[command(yes=list_of("A:=1", 256) + ";^X:=1")])),
            ("257th item, a command's name", 5, model(
                commands=[command(yes=list_of("A:=1", 256) + ";^C:=1")])),
            ("before a bad byte", 4, "shared a ^A\t"),
            ("after a bad byte", 2, "shared a^\t A"),
            ("before a long word", 4, f"shared a ^A {TOO_LONG}"),
            ("after a wrong token", 3, "shared a^; A"),
            ("before a star", 5, model(start=("^X and *", "1"))),
            ("after a star", 6, model(start=("^* and X", "1")))):
        yield refused_at(detail, number, text)
    yield "eight and four names -> model", model(
        eight.upper(), "A b E d", start=("s0 and S7", "a or B or e or D"))
    yield "1,024 nodes, 256 items -> model", model(commands=[command(
        "c", expression(764, "A"), list_of("A:=b", 255))])


def wholes_in_cases():
    yield "G -> model", G_CASES
    yield "H -> model", H_CASES
    yield "names declared in capitals -> model", model(
        "TURN", "TRY IN", ("not turn", "not try and not in"),
        ("1", "not (try and in) or turn"),
        [command("ASK", "*", loop("not in", "try := *")),
         command("LEAVE", "turn", loop("in", "in := 0") + ";turn := 0")])
    yield "names used in capitals -> model", model(
        "p q", "u v w", ("P or Q", "U and V or W"), ("not P", "Q or U"),
        [command("go", "P and Q", "P := Q;Q := not P;"
                 + loop("U", "V := U;U := W", "W := P and Q"),
                 loop("P", "skip", "U := *"))])
    yield "no letters twice in one case -> model", model(
        "aB Ab1", "bA", ("AB and aB1 or ab", "Ba or not BA"),
        commands=[command("bAb", "Ab", "ab := AB1",
                          loop("BA", "ba := Ab", "Ba := aB1"))])


GROUPS = (repeated_cases, used_cases, every_letter, lengths_and_places,
          other_names, not_letters, limits_and_cases, wholes_in_cases)
