"""Texts about declared names, their kinds, and stars out of place."""

from inputs.phrases import SKIPPING, command, loop, model


def declarations():
    yield "repeated in shared -> 4", model("a b a", "x")
    yield "repeated at once -> 4", model("a a", "x")
    yield "repeated in row -> 4", model("a", "x y z y")
    yield "row repeats shared -> 4", model("a b", "x b y")
    yield "three times -> 4", model("a a a", "a")
    yield "command repeats shared -> 4", model(commands=[command("b")])
    yield "command repeats row -> 4", model(commands=[command("y")])
    yield "command repeats command -> 4", model(
        commands=[command("c"), command("d"), command("c")])
    yield "sixteenth command repeats the first -> 4", model(
        commands=[command(f"c{j % 15}") for j in range(16)])
    yield "repeated, then cut -> 4", "shared a a"
    yield "repeated command, then cut -> 4", model(
        commands=[SKIPPING, "command c"])
    yield "no names -> model", model("", "")
    yield "no shared names -> model", model("", "x", start=("1", "x"))
    yield "no row names -> model", model("a", "", start=("a", "a"))
    yield "undeclared with no names -> 5", model("", "", start=("a", "1"))


def uses(word, shared="a b", row="x y"):
    """Each place where a name is read or assigned, with a text that has the
    word there, and the kinds of name that fit."""
    def text(**parts):
        return model(shared, row, **parts)

    def items(**sides):
        return text(commands=[command(**sides)])

    for clause in ("start", "keep"):
        yield f"{clause} shared", text(**{clause: (word, "1")}), "shared"
        yield f"{clause} row", text(**{clause: ("1", word)}), "shared row"
    yield "test", text(commands=[command("c", word)]), "shared"
    yield "do value", items(yes=f"a:={word}"), "shared"
    yield "else value", items(no=f"a:={word}"), "shared"
    yield "do target", items(yes=f"{word}:=1"), "shared"
    yield "else target", items(no=f"{word}:=1"), "shared"
    for side in ("yes", "no"):
        for detail, item, fitting in (
                ("condition", loop(word), "shared row"),
                ("do target", loop(yes=f"{word}:=1"), "row"),
                ("else target", loop(no=f"{word}:=1"), "row"),
                ("do value", loop(yes=f"x:={word}"), "shared row"),
                ("else value", loop(no=f"x:={word}"), "shared row")):
            yield f"for {detail} in {side}", items(**{side: item}), fitting


def kinds():
    """Names of each kind at each place where a name is read or assigned."""
    for word, kind in (("b", "shared"), ("y", "row"), ("c", "command"),
                       ("q", "undeclared")):
        for where, text, fitting in uses(word):
            meant = "model" if kind in fitting.split() else "5"
            yield f"{word} as {where} -> {meant}", text
    for place in ("(q)", "not q", "a and q", "q and a", "a or (b and not q)"):
        yield f"undeclared in {place} -> 5", model(start=(place, "1"))
    yield "a later command's name -> 5", model(
        commands=[command("c", "d"), command("d")])
    yield "an earlier command's name -> 5", model(
        commands=[command("c"), command("d", "c")])
    yield "an earlier command's name as target -> 5", model(
        commands=[command("c"), command("d", no="c:=1")])
    yield "undeclared, then cut -> 5", "shared a. row x. start q"
    yield "wrong target, then cut -> 5", model(
        commands=["command c if 1 do x"])
    yield "wrong target without := -> 5", model(
        commands=[command(yes="x 1")])
    yield "right target without := -> 3", model(
        commands=[command(yes="a 1")])


def forbidden_stars():
    for detail, text in (("alone", "*"), ("in parentheses", "(*)"),
                         ("after not", "not *"), ("after and", "a and *"),
                         ("after or", "a or *"),
                         ("deep", "not (a or (b and *))")):
        yield f"start shared {detail} -> 6", model(start=(text, "1"))
        yield f"start row {detail} -> 6", model(start=("1", text))
        yield f"keep shared {detail} -> 6", model(keep=(text, "1"))
        yield f"keep row {detail} -> 6", model(keep=("1", text))
        yield f"test {detail} -> model", model(commands=[command("c", text)])
    for word in ("start", "keep"):
        yield f"no operand after {word} -> 3", model(**{word: ("1 *", "1")})
        yield f"no operand at a row's end in {word} -> 3", model(
            **{word: ("1", "a *")})
        yield f"star for the word each in {word} -> 3", model().replace(
            f"{word} 1 each 1", f"{word} 1 * 1")
    yield "star, then cut -> 6", "shared. row. start *"
    yield "star as a name -> 3", model("a *")
    yield "star as a target -> 3", model(commands=[command(yes="* := 1")])
    yield "star for start -> 3", "shared. row. *"
    yield "star after the text -> 3", model() + "*"
    yield "two stars in start -> 6", model(start=("* and *", "1"))


GROUPS = (declarations, kinds, forbidden_stars)
