"""Texts with two faults, of which one comes first."""

from inputs.phrases import (TOO_LONG, command, expression, list_of, model,
                            nested, numbered, stars)


def order():
    """Two faults in one text: the earlier place counts, not the number."""
    early = {2: dict(start=("1 \t", "1")), 3: dict(start=("1 1", "1")),
             4: dict(shared="a b a"), 5: dict(start=("q", "1")),
             6: dict(start=("*", "1")),
             7: dict(start=(nested("(", ")", 17), "1"))}
    late = {2: dict(commands=[command("c", "1 # 1")]),
            3: dict(commands=[command("c", "1 or")]),
            4: dict(commands=[command("a")]),
            5: dict(commands=[command("c", "x")]),
            6: dict(keep=("*", "1")),
            7: dict(commands=[command("c", stars(9))])}
    for first, ahead in early.items():
        for second, behind in late.items():
            yield f"{first} before {second} -> {first}", model(
                **ahead, **behind)
    for number, behind in late.items():
        yield f"{number} before a cut -> {number}", (
            model(**behind) + " command z if 1 do")
        yield f"{number} alone -> {number}", model(**behind)
    for number, ahead in early.items():
        yield f"{number} alone, early -> {number}", model(**ahead)
    yield "long word after a wrong token -> 3", f"shared ; {TOO_LONG}"
    yield "wrong token after a long word -> 2", f"shared {TOO_LONG} ;"
    yield "bad byte after an undeclared name -> 5", model(start=("q\t", "1"))
    yield "bad byte before an undeclared name -> 2", model(start=("\tq", "1"))
    yield "repeated name, then ninth -> 4", model("a a b c d e f g h", "")
    yield "ninth, then repeated -> 7", model("a b c d e f g h i a", "")


def one_token():
    """Two faults of one token: the lower number counts."""
    eight = numbered("s", 8)
    sixteen = "(" * 16
    for detail, text in (
            ("2 and 3, bad byte where a mark is due", "shared a\t"),
            ("2 and 3, long word where a mark is due",
             model(start=(f"1 {TOO_LONG}", "1"))),
            ("2 and 3, bad byte after the text", model() + "\x80"),
            ("2 and 5, long undeclared name", model(start=(TOO_LONG, "1"))),
            ("2 and 7, long name over a limit",
             model(f"{eight} {TOO_LONG}x", "")),
            ("3 and 6, star where each is due", model(start=("a*", "1"))),
            ("3 and 7, not where an operator is due",
             model(start=(f"{sixteen}a not a", "1"))),
            ("3 and 7, parenthesis where an operator is due",
             model(start=(f"{sixteen}a(", "1"))),
            ("3 and 7, ninth star where none may stand",
             model(commands=[command("c", stars(8) + "*")])),
            ("4 and 7, ninth shared name", model(f"{eight} s3", "")),
            ("4 and 7, thirteenth name", model(eight, "a b c d a")),
            ("4 and 7, eleventh row name",
             model("", numbered("r", 10) + " r9")),
            ("5 and 7, node", model(start=(expression(1023) + " or q", "1"))),
            ("5 and 7, item",
             model(commands=[command(yes=list_of("skip", 256) + ";q:=1")])),
            ("6 and 7, node", model(start=(expression(1023) + " or *", "1")))):
        yield f"{detail} -> {detail[0]}", text


GROUPS = (order, one_token)
