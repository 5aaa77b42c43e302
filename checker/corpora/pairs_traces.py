"""Traces that hold or fail: each condition, their order, and long runs."""

from corpora.pairs_models import exactly, sixteen, under
from inputs.cases import G, G_SHEET, H, trace_for
from inputs.phrases import command, loop, model, numbered

# Words for G: 0 leads to state 1, 1 to 3, 2 to 5 and 3 to 7, which breaks.
AROUND = ((0, 1, 3), (0, 0, 1))
BREAK = (0, 3, 7)


def worked_traces():
    broken = G.replace("keep 1 each not (w and x)", "keep 0 each 1")
    yield "G's own -> trace holds", G, G_SHEET
    yield "G's against H -> E", H, G_SHEET
    yield "no steps, all break -> trace holds", broken, trace_for(broken, 1)
    yield "no steps, none breaks -> F", G, trace_for(G, 1)


def every_step():
    """All traces of one step for G, from the start state 1."""
    for word in range(4):
        for after in range(8):
            if after != 1 + 2 * word:
                meant = "E"
            else:
                meant = "trace holds" if after == 7 else "F"
            yield (f"word {word}, state {after} -> {meant}",
                   G, trace_for(G, 1, (0, word, after)))


def every_start():
    for start in range(8):
        result = 7 if start & 1 else start
        meant = "trace holds" if start in (1, 3) else "D"
        yield (f"{start}, one step -> {meant}",
               G, trace_for(G, start, (0, 3, result)))
        meant = "F" if start in (1, 3) else "D"
        yield f"{start}, no steps -> {meant}", G, trace_for(G, start)


def letters_of_traces():
    for detail, start, steps, meant in (
            ("D and E", 5, [(0, 3, 6), (0, 3, 7)], "D"),
            ("D and E and F", 0, [(0, 3, 7), (0, 0, 0)], "D"),
            ("D and F", 0, [(0, 3, 0)], "D"),
            ("D alone", 5, [BREAK], "D"),
            ("D at a state that breaks", 7, [], "D"),
            ("E and F", 1, [(0, 3, 5)], "E"),
            ("E and a break at the end", 1, [(0, 1, 5), BREAK], "E"),
            ("E twice", 1, [(0, 1, 5), (0, 1, 5)], "E"),
            ("F alone", 1, [(0, 2, 5)], "F"),
            ("F after a break on the way", 1, [BREAK, (0, 0, 1)], "F"),
            ("a break on the way and at the end", 1,
             [BREAK, (0, 0, 1), BREAK], "trace holds"),
            ("two breaks in a row", 3, [BREAK, BREAK], "trace holds")):
        yield f"{detail} -> {meant}", G, trace_for(G, start, *steps)


def longer_than_needed():
    for turns in (1, 2, 3, 10, 100):
        yield (f"{turns} times around -> trace holds",
               G, trace_for(G, 1, *AROUND * turns, BREAK))
        yield (f"{turns} times around, no break -> F",
               G, trace_for(G, 1, *AROUND * turns))
        yield (f"{turns} times around, another start -> trace holds",
               G, trace_for(G, 3, *AROUND[::-1] * turns, BREAK))


def one_wrong_step():
    """Eleven steps of which one has another state, word or command."""
    both = model("m", "w x", start=("m", "not x"),
                 keep=("1", "not (w and x)"), commands=[
                     command("c", "m", loop(yes="w := *; x := *")),
                     command("d", "m", loop(yes="x := *; w := *"))])
    steps = list(AROUND * 5 + (BREAK,))
    for place in range(len(steps)):
        name, word, after = steps[place]
        for detail, wrong, meant in (
                ("state", (name, word, after ^ 4), "E"),
                ("word", (name, word ^ 1, after), "E"),
                ("command", (1, word, after), None)):
            changed = steps[:place] + [wrong] + steps[place + 1:]
            if meant is None:
                # The two commands part only where one bit of two is set.
                meant = "E" if word == 1 else "trace holds"
            yield (f"another {detail} at step {place + 1} -> {meant}",
                   both, trace_for(both, 1, *changed))


def longest():
    """65,527 bytes, the most that whole records can fill."""
    most = (AROUND * 3276)[:6550]
    yield "holds -> trace holds", G, trace_for(G, 1, *most, BREAK)
    yield "wrong at the last step -> E", G, trace_for(
        G, 1, *most, (0, 2, 7))
    yield "no break at the end -> F", G, trace_for(G, 1, *most, (0, 2, 5))
    yield "wrong in the middle -> E", G, trace_for(
        G, 1, *most[:3300], (0, 0, 3), *most[3301:], BREAK)


def many_commands():
    """Sixteen commands of eight stars, one of which is no idle one."""
    for word in (0, 63, 64, 128, 255):
        text = sixteen(command("z", under(word), loop(yes="x := 1")),
                       keep=("1", "not x"))
        for tried in (0, 63, 64, 128, 255):
            meant = "trace holds" if tried == word else "E"
            yield (f"word {tried} where {word} is due -> {meant}",
                   text, trace_for(text, 0, (15, tried, 8)))
        yield (f"word {word} of another command -> E",
               text, trace_for(text, 0, (14, word, 8)))
        yield (f"word {word} after all others -> trace holds", text,
               trace_for(text, 0, *[(j, 16 * j, 0) for j in range(15)],
                         (15, word, 8)))
        yield (f"word {word} after all others, one wrong -> E", text,
               trace_for(text, 0, *[(j, 16 * j, 0) for j in range(14)],
                         (14, 255, 8), (15, word, 8)))


def wide_traces():
    """States of two bytes: each step sets one bit more."""
    for shared, row in ((8, 4), (2, 10)):
        shares, rows = numbered("s", shared), numbered("r", row)
        names = f"{shares} {rows}".split()
        commands = [
            command(f"c{j}", yes=f"{name} := 1" if j < shared
                    else loop(yes=f"{name} := 1"))
            for j, name in enumerate(names)]
        text = model(shares, rows,
                     start=("1", exactly(names, 0)),
                     keep=("1", f"not ({exactly(names, 4095)})"),
                     commands=commands)
        steps = [(j, 0, (2 << j) - 1) for j in range(12)]
        split = f"{shared} and {row}"
        yield f"{split} upwards -> trace holds", text, trace_for(
            text, 0, *steps)
        yield f"{split}, one short -> F", text, trace_for(
            text, 0, *steps[:11])
        down = [(j, 0, 4096 - (1 << j)) for j in reversed(range(12))]
        yield f"{split} downwards -> trace holds", text, trace_for(
            text, 0, *down)
        for place in (7, 8, 11):
            wrong = list(steps)
            wrong[place] = (place, 0, steps[place][2] ^ 1 << place)
            yield (f"{split}, bit {place} not set -> E",
                   text, trace_for(text, 0, *wrong))
        yield f"{split}, high byte wrong -> E", text, trace_for(
            text, 0, (0, 0, 257), *steps[1:])
        yield f"{split} from the end -> D", text, trace_for(text, 4095)


def small_traces():
    """One state, two and four: no name, one and two."""
    for shared, row in (("", ""), ("a", ""), ("", "x"), ("a", "x")):
        states = 1 << len(f"{shared} {row}".split())
        for keep, meant in ((("1", "1"), "F"), (("0", "1"), "trace holds"),
                            (("1", "0"), "trace holds")):
            text = model(shared, row, keep=keep)
            for state in range(states):
                for count in (0, 1, 2):
                    yield (f"{shared!r} and {row!r}, keep {keep[0]} each"
                           f" {keep[1]}, {count} steps in {state} -> {meant}",
                           text,
                           trace_for(text, state, *[(0, 0, state)] * count))


GROUPS = (worked_traces, every_step, every_start, letters_of_traces,
          longer_than_needed, one_wrong_step, longest, many_commands,
          wide_traces, small_traces)
