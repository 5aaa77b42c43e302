"""Maps that hold or fail: each condition, their order, and their far ends."""

from corpora.pairs_models import (exactly, idle, sixteen, subsets, tossing,
                                  under)
from inputs.cases import G, H, map_for
from inputs.phrases import command, loop, model, numbered


def worked_maps():
    for byte, meant in ((0x2A, "safe holds"), (0x3F, "safe holds"),
                        (0x22, "A"), (0xFF, "B"), (0x0A, "C")):
        yield f"{byte:02X} for H -> {meant}", H, whole_byte(H, byte)
    for byte in (0x00, 0x2A, 0xFF, 0xAA):
        meant = "A" if byte == 0 else "C" if byte == 0x2A else "B"
        yield f"{byte:02X} for G -> {meant}", G, whole_byte(G, byte)


def whole_byte(text, byte):
    return map_for(text, [state for state in range(8) if byte >> state & 1])


def every_map():
    """Bits 1 and 3 are start states, 6 and 7 break, 1, 3 and 5 lead to each
    other, and the rest to themselves."""
    for byte in range(256):
        if byte & 0x0A != 0x0A:
            meant = "A"
        elif byte & 0xC0:
            meant = "B"
        else:
            meant = "safe holds" if byte & 0x20 else "C"
        yield f"{byte:02X} -> {meant}", H, whole_byte(H, byte)


def small_maps():
    """One, two and four states, by shared names, row names and both. The one
    command sets the last name freely."""
    for shared, row in (("", ""), ("a", ""), ("", "x"), ("a b", ""),
                        ("", "x y"), ("a", "x")):
        names = f"{shared} {row}".split()
        last = (1 << len(names)) - 1
        top = 1 << len(names) >> 1
        but_last = ("1", f"not ({exactly(names, last) or '1'})")
        for start, keep in ((("1", "1"), ("1", "1")), (("1", "0"), ("1", "1")),
                            (but_last, but_last), (("1", "1"), ("0", "1"))):
            text = model(shared, row, start, keep, [tossing(shared, row)])
            needed = {("1", "1"): last, ("1", "0"): -1}.get(start, last - 1)
            holds = "void" if needed < 0 else "safe holds"
            for members in subsets(last + 1):
                if not members >= set(range(needed + 1)):
                    meant = "A"
                elif keep[0] == "0" or keep == but_last and last in members:
                    meant = "B"
                else:
                    closed = {state ^ top for state in members} <= members
                    meant = holds if closed else "C"
                yield (f"{sorted(members)} of {shared!r} and {row!r}, start"
                       f" each {start[1]}, keep {keep[0]} -> {meant}",
                       text, map_for(text, members))


def letters_of_maps():
    """State 0 starts, 7 breaks, 1 leads to 2, and the others stay."""
    text = model("a b c", "", start=(exactly("abc", 0), "1"),
                 keep=(f"not ({exactly('abc', 7)})", "1"),
                 commands=[command("z", exactly("abc", 1), "a := 0; b := 1")])
    for members, meant in (
            ({1, 7}, "A"), ({7}, "A"), ({1}, "A"), (set(), "A"),
            ({0, 1, 7}, "B"), ({0, 7}, "B"), ({0, 1, 2, 7}, "B"),
            ({0, 1}, "C"), ({0, 1, 3}, "C"), ({0}, "safe holds"),
            ({0, 1, 2}, "safe holds"), ({0, 2, 3, 4, 5, 6}, "safe holds"),
            ({0, 1, 2, 3, 4, 5, 6}, "safe holds")):
        yield f"{sorted(members)} -> {meant}", text, map_for(text, members)


def members_out_of_reach():
    """No run leads from state 0 to another, yet every member is judged."""
    text = model("a", "x y", start=("not a", "not x and not y"),
                 keep=("1", "not (a and x and y)"),
                 commands=[command("c", "a", loop("x", "y := *"))])
    yield "only what runs reach -> safe holds", text, map_for(text, {0})
    yield "one more that breaks -> B", text, map_for(text, {0, 7})
    yield "one more that leaves -> C", text, map_for(text, {0, 3})
    yield "one more that stays -> safe holds", text, map_for(text, {0, 1})
    yield ("all that stay -> safe holds",
           text, map_for(text, {0, 1, 2, 4, 5, 6}))
    yield "the last breaks -> B", text, map_for(text, range(8))


def last_word_of_last_command():
    """State 7 leads to 15, by one choice word of the last command."""
    for word in (0, 1, 32, 63, 64, 65, 127, 128, 192, 254, 255):
        for where, last in (
                ("test", command("z", f"a and b and c and {under(word)}",
                                 loop(yes="x := 1"))),
                ("for", command("z", "a and b and c", loop(
                    under(word), "x := 1")))):
            text = sixteen(last)
            yield (f"word {word} in its {where} -> C",
                   text, map_for(text, {0, 7}))
    text = sixteen(command("z", f"a and b and c and {under(255)}",
                           loop(yes="x := 1")))
    yield "all eight before it -> C", text, map_for(text, range(8))
    yield "and where it leads -> safe holds", text, map_for(text, {0, 7, 15})
    yield ("and more than that -> safe holds",
           text, map_for(text, {0, 6, 7, 14, 15}))
    yield "without it -> safe holds", text, map_for(text, {0, 3, 6})
    yield "a start state is missing -> A", text, map_for(text, {7, 15})
    value = sixteen(command("z", "a and b and c", loop(
        yes=f"x := {under(200)}")))
    yield "word 200 in a value -> C", value, map_for(value, {0, 7})
    second = sixteen(command("z", "*", "skip", loop(
        f"a and b and c and {under(66, 7)}", "x := 1", "skip")))
    yield "word 132, beside a star before -> C", second, map_for(
        second, {0, 7})
    first = model("a b c", "x", (exactly("abc", 0), "not x"), commands=[
        command("z", under(64), loop(exactly("abcx", 0), "x := 1")),
        *idle(15)])
    yield ("word 64 of the first command -> C",
           first, map_for(first, {0, 7, 14}))
    yield ("word 64 of the first command, to a member -> safe holds",
           first, map_for(first, {0, 7, 8, 14}))
    names = numbered("s", 8), numbered("r", 4)
    wide = model(*names, start=("1", "0"), commands=idle(15) + [
        command("z", under(255), loop(
            exactly(" ".join(names).split(), 4095), "r0 := 0"))])
    yield "from the last of 4096 states -> C", wide, map_for(wide, {0, 4095})
    yield ("from the last of 4096 states to a member -> void",
           wide, map_for(wide, {0, 3839, 4095}))


def fewer_stars():
    """Each number of stars, by the words of no bit, the top bit, all bits."""
    for count in range(9):
        for word in sorted({0, 1 << count >> 1, (1 << count) - 1}):
            test = under(word, count) or "1"
            text = model("a", "x", start=("not a", "not x"),
                         commands=[command("c", test, "a := 1")])
            yield (f"word {word} of {count} -> C",
                   text, map_for(text, {0}))
            yield (f"word {word} of {count} and its state -> safe holds",
                   text, map_for(text, {0, 1}))


def branches():
    """One star in each branch: only words of the branch taken matter."""
    text = model("a b", "x", start=("not a and not b", "not x"), commands=[
        command("c", "*", "a := *", f"b := *; {loop('b', 'x := *')}")])
    yield "both branches -> safe holds", text, map_for(text, range(8))
    yield "else from nothing -> C", text, map_for(text, {0, 1})
    yield "do from nothing -> C", text, map_for(text, {0, 2, 6})
    yield "one state short -> C", text, map_for(text, {0, 1, 2, 3, 6, 7, 4})


def wide_maps():
    """Maps of 512 bytes: one state is missing, breaks, or is left."""
    for shared, row in ((8, 4), (2, 10), (6, 6)):
        shares, rows = numbered("s", shared), numbered("r", row)
        names = f"{shares} {rows}".split()
        every = range(4096)
        split = f"{shared} and {row}"

        def but(state):
            return [s for s in every if s != state]

        still = model(shares, rows)
        yield f"all of {split} -> safe holds", still, map_for(still, every)
        for state in (0, 7, 8, 255, 256, 2047, 2048, 4095):
            yield (f"{split} without {state} -> A",
                   still, map_for(still, but(state)))
        for state in (0, 63, 64, 2048, 4095):
            text = model(shares, rows, start=("1", "0"),
                         keep=("1", f"not ({exactly(names, state)})"))
            yield (f"{split}, {state} breaks -> B",
                   text, map_for(text, every))
            yield (f"{split}, all but {state}, which breaks -> void",
                   text, map_for(text, but(state)))
        for state in (0, 1030, 2047):
            text = model(shares, rows, start=("1", "0"), commands=[
                command("idle"),
                command("c", no=loop(), yes=loop(
                    f"{exactly(names, state)} and *",
                    f"{names[-1]} := 1"))])
            yield (f"{split}, {state} leads out -> C",
                   text, map_for(text, but(state + 2048)))
            yield (f"{split}, {state} leads to a member -> void",
                   text, map_for(text, every))


GROUPS = (worked_maps, every_map, small_maps, letters_of_maps,
          members_out_of_reach, last_word_of_last_command, fewer_stars,
          branches, wide_maps)
