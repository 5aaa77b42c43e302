"""Texts at each limit and one beyond it."""

from inputs.phrases import (LONG, TOO_LONG, command, expression, list_of, loop,
                            model, nested, numbered, stars)


def name_limits():
    for shared, row in (
            (0, 0), (1, 0), (0, 1), (8, 0), (0, 10), (8, 4), (2, 10), (7, 5),
            (6, 6), (5, 7), (4, 8), (3, 9), (8, 3), (1, 10), (9, 0), (9, 3),
            (10, 0), (13, 0), (0, 11), (1, 11), (2, 11), (8, 5), (7, 6),
            (6, 7), (5, 8), (4, 9), (3, 10), (9, 11), (20, 20)):
        over = shared > 8 or row > 10 or shared + row > 12
        yield f"{shared} and {row} -> {'7' if over else 'model'}", model(
            numbered("s", shared), numbered("r", row))
    eight, ten = numbered("s", 8), numbered("r", 10)
    yield "ninth shared repeated -> 4", model(eight + " s7", "")
    yield "eleventh row repeated -> 4", model("", ten + " r0")
    yield "eleventh row repeats a shared name -> 4", model("s", ten + " s")
    yield "thirteenth repeated -> 4", model(eight, "a b c d s0")
    yield "thirteenth and eleventh -> 7", model("s t", ten + " z")
    yield "ninth shared too long -> 2", model(f"{eight} {TOO_LONG}")
    yield "ninth shared reserved -> 3", model(eight + " skip")
    yield "ninth shared a constant -> 3", model(eight + " 0")
    yield "ninth shared a misfit -> 3", model(eight + " _s8")
    yield "ninth shared, then cut -> 7", f"shared {eight} s8"
    yield "eight shared, then cut -> 3", f"shared {eight}"
    yield "thirteenth, then cut -> 7", f"shared {eight}. row a b c d e"
    yield "twelve, then cut -> 3", f"shared {eight}. row a b c d"
    yield "tenth shared wrong too -> 7", f"shared {eight} s8 s8 \t"
    yield "command names do not count -> model", model(
        eight, "a b c d", commands=[command("e"), command("f")])


def command_limits():
    for count in (1, 2, 15, 16):
        yield f"{count} -> model", model(
            commands=[command(f"c{j}") for j in range(count)])
    sixteen = [command(f"c{j}") for j in range(16)]
    for detail, last in (("whole", command("z")), ("bare", "command"),
                         ("without a name", "command if"),
                         ("repeated name", command("c3")),
                         ("long name", command(TOO_LONG)),
                         ("bad byte", "command \t"),
                         ("reserved name", command("end"))):
        yield f"17, {detail} -> 7", model(commands=sixteen + [last])
    yield "18 -> 7", model(commands=[command(f"c{j}") for j in range(18)])
    yield "16 and a wrong word -> 3", model(commands=sixteen + ["commando"])
    yield "16 and a bad byte -> 2", model(commands=sixteen + ["-"])
    yield "none -> 3", model(commands=[])
    yield "none, a full stop -> 3", model(commands=["."])


def item_limits():
    one_loop = loop(yes=list_of("x:=1", 100), no=list_of("skip", 55))
    for detail, item in (("skips", "skip"), ("assignments", "a:=1")):
        for count in (128, 129):
            meant = "model" if count == 128 else "7"
            yield f"128 and {count} {detail} -> {meant}", model(
                commands=[command(yes=list_of(item, 128),
                                  no=list_of(item, count))])
        yield f"255 {detail} and one -> model", model(
            commands=[command(yes=list_of(item, 255))])
        yield f"256 {detail} and one -> 7", model(
            commands=[command(yes=list_of(item, 256))])
        yield f"255 {detail} after one -> model", model(
            commands=[command(no=list_of(item, 255))])
        yield f"256 {detail} after one -> 7", model(
            commands=[command(no=list_of(item, 256))])
        yield f"257 {detail} -> 7", model(
            commands=[command(yes=list_of(item, 257))])
    yield "one for with 155 inside, 99 more -> model", model(
        commands=[command(yes=one_loop, no=list_of("skip", 100))])
    yield "one for with 155 inside, 100 more -> 7", model(
        commands=[command(yes=one_loop, no=list_of("skip", 101))])
    for count, meant in ((85, "model"), (86, "7")):
        yield f"{count} loops of three -> {meant}", model(
            commands=[command(yes=list_of(loop(), count))])
    for inside, meant in ((253, "model"), (254, "7")):
        yield f"for else with {inside} -> {meant}", model(
            commands=[command(no=loop(no=list_of("skip", inside)))])
        yield f"for do with {inside} -> {meant}", model(
            commands=[command(no=loop(yes=list_of("y:=x", inside)))])
    sixteen = [command(f"c{j}", yes=list_of("skip", 8), no=list_of("b:=a", 8))
               for j in range(16)]
    yield "16 in each of 16 commands -> model", model(commands=sixteen)
    grown = sixteen[:15] + [command("z", yes=list_of("skip", 8),
                                    no=list_of("b:=a", 9))]
    yield "one more in the last command -> 7", model(commands=grown)
    full = list_of("skip", 255)
    for detail, last, meant in (
            ("skip", "skip", "7"), ("assignment", "a:=1", "7"),
            ("for", loop(), "7"), ("undeclared", "q:=1", "5"),
            ("row name", "x:=1", "5"), ("command name", "c:=1", "5"),
            ("constant", "1:=1", "3"), ("reserved", "end", "3"),
            ("full stop", "", "3"), ("long word", TOO_LONG, "2"),
            ("bad byte", "\x7f", "2"), ("star", "*", "3")):
        yield f"257th is a {detail} -> {meant}", model(
            commands=[command(yes=full, no=f"skip;{last}")])
    inner = list_of("skip", 254)
    for detail, last, meant in (
            ("row skip", "skip", "7"), ("row assignment", "x:=1", "7"),
            ("inner for", loop(), "3"), ("shared name", "a:=1", "5"),
            ("undeclared row target", "q:=1", "5")):
        yield f"257th is a {detail} -> {meant}", model(
            commands=[command(yes=f"{inner};{loop(yes='skip;' + last)}")])
    yield "256th, then cut -> 3", model(
        commands=[f"command c if 1 do {list_of('skip', 256)}"])
    yield "257th, then cut -> 7", model(
        commands=[f"command c if 1 do {list_of('skip', 256)};skip"])


def node_limits():
    """Four nodes stand in start and keep, unless said otherwise."""
    def tested(test):
        return model(commands=[command("c", test)])

    for operand in ("1", "0", "a"):
        yield f"1024 ending in {operand} -> model", tested(
            expression(1020, operand))
        yield f"1025 ending in {operand} -> 7", tested(
            expression(1021, operand))
    most = expression(1018)
    yield "1024 ending in * -> model", tested(f"{most} or *")
    yield "1025 ending in * -> 7", tested(f"not {most} or *")
    yield "1025 ending in not * -> 7", tested(f"{most} or not *")
    whole = expression(1020)
    yield "1025th is not -> 7", tested(expression(1019) + " or not 1")
    yield "1024th is an operator, then an operand -> 7", tested(
        expression(1019) + " or 1")
    yield "1024th is an operator, then not -> 7", tested(
        expression(1019) + " and not not 1")
    yield "1024th is an operator, then a star -> 7", tested(
        expression(1019) + " and *")
    yield "1024th is an operator, then a wrong name -> 5", tested(
        expression(1019) + " and x")
    yield "1024th is an operator, then an undeclared name -> 5", tested(
        expression(1019) + " and q")
    yield "1024th is an operator, then a full stop -> 3", tested(
        expression(1019) + " and .")
    yield "1024th is an operator, then a bad byte -> 2", tested(
        expression(1019) + " and %")
    yield "1024th is not, then an operand -> 7", tested(
        expression(1018) + " or not 1")
    yield "1025th is and -> 7", tested(whole + " and 1")
    yield "1025th is or -> 7", tested(whole + " or 1")
    yield "1025th is in an assignment -> 7", model(
        commands=[command("c", whole, "a:=1")])
    yield "1025th is a for condition -> 7", model(
        commands=[command("c", whole, loop())])
    yield "1025th is a row value -> 7", model(
        commands=[command("c", expression(1019), loop(yes="x:=1"))])
    yield "1024th is a row value -> model", model(
        commands=[command("c", expression(1018), loop(yes="x:=1"))])
    yield "1025th is a second test -> 7", model(
        commands=[command("c", whole), command("d")])
    yield "1024th is a second test -> model", model(
        commands=[command("c", expression(1019)), command("d")])
    yield "targets are no nodes -> model", model(
        commands=[command("c", expression(820), list_of("a:=1", 200))])
    yield "targets are no nodes, one over -> 7", model(
        commands=[command("c", expression(821), list_of("a:=1", 200))])
    yield "parentheses are no nodes -> model", tested(
        expression(1020, "((1))"))
    yield "parentheses are no nodes, one over -> 7", tested(
        expression(1021, "((1))"))
    yield "1024, then a parenthesis -> 3", tested(whole + " (")
    yield "1024, then cut -> 3", model(commands=[f"command c if {whole}"])
    yield "1025, then cut -> 7", model(commands=[f"command c if {whole} or"])
    for clause in ("start", "keep"):
        # Nodes before the clause's row part: one in start, three in keep.
        ahead = 1 if clause == "start" else 3
        for detail, last, meant in (
                ("a star", "*", "6"), ("a constant", "1", "7"),
                ("a row name", "x", "7"), ("undeclared", "q", "5"),
                ("a command's name", "c", "5"), ("not", "not 1", "7")):
            yield f"1025th is {detail} in {clause} -> {meant}", model(
                **{clause: ("1", expression(1023 - ahead) + " and " + last)})
    yield "1025th is a row name in a shared part -> 5", model(
        keep=(expression(1021) + " and x", "1"))


def star_limits():
    yield "8 in a test -> model", model(commands=[command("c", stars(8))])
    yield "9 in a test -> 7", model(commands=[command("c", stars(9))])
    spread = dict(
        test="*", yes=f"a:=*;{loop('*', 'x:=*', 'y:=*')}",
        no=f"{loop('*', 'x:=*', 'skip')};b:=*")
    yield "8 everywhere -> model", model(commands=[command("c", **spread)])
    for detail, old, new in (
            ("test", "if *", "if *and *"), ("do", "a:=*", "a:=not(* or *)"),
            ("do for condition", "a:=*;for *", "a:=*;for *or *"),
            ("else for do", "x:=* else skip", "x:=*;x:=* else skip"),
            ("else for else", "else skip end", "else x:=* end"),
            ("last value", "b:=*", "b:=* or *"),
            ("last item", "b:=*", "b:=*;b:=*")):
        text = model(commands=[command("c", **spread)])
        assert old in text, detail
        yield f"9 by one more in {detail} -> 7", text.replace(old, new)
    eights = [command(f"c{j}", stars(8)) for j in range(16)]
    yield "8 in each of 16 commands -> model", model(commands=eights)
    yield "9 in the last of 16 commands -> 7", model(
        commands=eights[:15] + [command("z", stars(9))])
    yield "9 in the second -> 7", model(
        commands=[command("c", stars(8)), command("d", no=f"a:={stars(9)}")])
    yield "ninth in a for -> 7", model(
        commands=[command("c", stars(8), loop("x or *"))])
    yield "ninth where no operand may stand -> 3", model(
        commands=[command("c", stars(8) + " *")])
    yield "eighth, then cut -> 3", model(commands=[f"command c if {stars(8)}"])
    yield "ninth, then cut -> 7", model(commands=[f"command c if {stars(9)}"])
    yield "numbers across items -> model", model(commands=[command(
        "c", "* and a", f"a:=*;{loop('*', 'x:=*;y:=*', 'x:=*')};b:=*",
        "a:=b or *")])
    yield "numbers begin anew in a command -> model", model(commands=[
        command("c", "*", "a:=*", "b:=*"), command("d"),
        command("e", "a", loop("*", "x:=*"), loop("x", no="y:=* or *"))])
    yield "numbers follow the text, not the grouping -> model", model(
        commands=[command("c", "* or (* and *) and not *", "a:=(*or*)and*")])


def depth_limits():
    places = {
        "start shared": lambda text: model(start=(text, "1")),
        "start row": lambda text: model(start=("1", text)),
        "keep row": lambda text: model(keep=("1", text)),
        "test": lambda text: model(commands=[command("c", text)]),
        "value": lambda text: model(commands=[command(yes=f"a:={text}")]),
        "condition": lambda text: model(commands=[command(no=loop(text))]),
        "row value": lambda text: model(
            commands=[command(no=loop(no=f"y:={text}"))]),
    }
    ways = {"parentheses": ("(", ")"), "not": ("not ", "")}
    for where, text in places.items():
        for way, (opening, closing) in ways.items():
            yield f"16 by {way} in {where} -> model", text(
                nested(opening, closing, 16))
            yield f"17 by {way} in {where} -> 7", text(
                nested(opening, closing, 17))
    start = places["start shared"]
    for opening in ("not(", "(not "):
        yield f"16 by {opening} -> model", start(nested(opening, ")", 8))
        for extra in ("(1)", "not 1"):
            yield f"17 by {opening} and {extra} -> 7", start(
                nested(opening, ")", 8, extra))
    for depth in (14, 15, 16):
        meant = "model" if depth < 16 else "7"
        for core in ("not 1 and not 1", "(1) or (1)", "not 1 or (1)",
                     "(1) and not a", "a and not b or not a"):
            yield f"{core} in {depth} parentheses -> {meant}", start(
                nested("(", ")", depth, core))
    sixteen = nested("(", ")", 16)
    nots = nested("not ", "", 16)
    for left in (sixteen, nots):
        for right in (sixteen, nots):
            for operator in ("and", "or"):
                yield f"{left} {operator} {right} -> model", start(
                    f"{left} {operator} {right}")
        yield f"{left} or 17 nots -> 7", start(f"{left} or not {nots}")
        yield f"{left} and 17 parentheses -> 7", start(
            f"{left} and ({sixteen})")
    yield "falls back inside -> model", start(
        "(" * 15 + "(1) and (1)" + ") and (1)" * 15)
    yield "falls back, then 17 -> 7", start(
        "(" * 15 + "(1) and (1)" + ") and (1)" * 14 + ") and " + "(" * 17)
    yield "not ends with its parenthesis -> model", start(
        "(" * 14 + "not (1) and not (a) or not (b)" + ")" * 14)
    yield "not of not of a parenthesis ends -> model", start(
        "(" * 13 + "not not (1) and not not (a)" + ")" * 13)
    yield "not above a parenthesis counts -> 7", start(
        "(" * 14 + "not (not 1)" + ")" * 14)
    yield "begins anew in the next expression -> model", model(
        start=(sixteen, nots), keep=(nots, sixteen))
    yield "a hundred parentheses -> 7", start(nested("(", ")", 100))
    yield "a thousand nots -> 7", start(nested("not ", "", 1000))
    yield "17th, then cut -> 7", "shared. row. start " + "(" * 17
    yield "16th, then cut -> 3", "shared. row. start " + "(" * 16
    yield "17th not, then cut -> 7", "shared. row. start " + "not " * 17
    yield "16, then a wrong token -> 3", start("(" * 16 + ")")
    yield "17th where no operand is due -> 3", start("(" * 16 + "1(")
    yield "17th not where no operand is due -> 3", start("(" * 16 + "1 not 1")
    yield "16 and a closing too many -> 3", start(sixteen + ")")
    yield "16 and a closing too few -> 3", start(sixteen[:-1])


def sizes():
    """Texts at the longest length, and beyond it."""
    short = model()
    limit = 16384
    yield "16384, blanks after -> model", short.ljust(limit)
    yield "16384, blanks before -> model", short.rjust(limit)
    yield "16384, newlines within -> model", short.replace(
        "keep", "\n" * (limit - len(short)) + "keep")
    yield "16384 cut short -> 3", "shared a.".ljust(limit)
    yield "16384, last byte bad -> 2", short.ljust(limit - 1) + "\xff"
    yield "16384, last byte too many -> 3", short.ljust(limit - 1) + "."
    yield "16384 of one word -> 2", "a" * limit
    yield "16384, full -> model", full(limit)
    yield "16383, full -> model", full(limit - 1)
    yield "16385, full -> 1", full(limit + 1)
    yield "16385, blanks after -> 1", short.ljust(limit + 1)
    yield "16385, all blank -> 1", " " * (limit + 1)
    yield "16385, bad from the start -> 1", "\0" * (limit + 1)
    yield "16386, cut short -> 1", "shared".ljust(limit + 2)
    yield "17000 with many faults -> 1", ("shared a a \t * " * 1100)[:17000]


def all_limits():
    yield "all limits -> model", everything(256, 1024, 8)
    yield "all limits but one item more -> 7", everything(257, 1024, 8)
    yield "all limits but one node more -> 7", everything(256, 1025, 8)
    yield "all limits but a star more -> 7", everything(256, 1024, 9)
    yield "all limits with blanks to the full length -> model", (
        everything(256, 1024, 8).ljust(16384))


def full(length):
    """A model of that many bytes with long names and few blanks to spare."""
    words = [f"{stem}{LONG[1:]}" for stem in "ABCDEFGHIJKL"]
    shared, row = words[:6], words[6:]
    start = " and ".join(shared[j % 6] for j in range(270))
    keep = " or ".join(words[j % 12] for j in range(120))
    items = ";".join(f"{shared[j % 6]}:={shared[(j + 1) % 6]}"
                     for j in range(220))
    ahead = f"shared {' '.join(shared)}.row {' '.join(row)}.start {start}"
    behind = (f" each 1.keep 1 each {keep}."
              f"command M{LONG[1:]} if 1 do {items} else skip.")
    spare = length - len(ahead + behind)
    assert 0 <= spare < 500, spare
    return ahead + " " * spare + behind


def everything(items_wanted, nodes_wanted, stars_last):
    """Sixteen commands that share all items and nodes, with twelve names."""
    deep = nested("not(", ")", 8, "s0")
    head = dict(shared=numbered("s", 8), row=numbered("r", 4))
    commands = []
    for j in range(16):
        last = j == 15
        one = loop(f"r{j % 4}", "r0:=*;r1:=r2 and *;skip;skip",
                   f"r3:=s{j % 8}")
        rest = 9 + (items_wanted - 256 if last else 0)
        choices = stars_last - 2 if last else 6
        commands.append(command(
            f"c{j}", stars(choices), f"s{j % 8}:={deep};{one}",
            list_of(f"s1:=s{j % 8}", rest)))
    # A command has 6 stars and 5 operators in its test, 9 nodes in its deep
    # value, 6 in its loop and 9 in the rest.
    used = 16 * 35 + (items_wanted - 256) + 2 * (stars_last - 8)
    keep = expression(nodes_wanted - used - 3, "s7")
    return model(**head, start=("s0", "1"), keep=(keep, "r0"),
                 commands=commands)


GROUPS = (name_limits, command_limits, item_limits, node_limits, star_limits,
          depth_limits, sizes, all_limits)
