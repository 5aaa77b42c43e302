"""Walks of a player along traces that pass: of no step, of one and two, of
thousands; traces that are not shortest, that meet a state again, and that
break on the way."""

from corpora.pairs_models import sixteen, under
from corpora.pairs_texts import padded
from corpora.pairs_traces import AROUND, BREAK
from corpora.player_labels import walk
from corpora.reports_runs import counter
from inputs.cases import G, G_CASES, G_SHEET, trace_for
from inputs.graphs import graph
from inputs.phrases import command, loop, model

# What a record may hold before the player opens: nothing of a trace, or what
# another walk left.
NOISE = 1 << 40, 12345
FULL = ((1 << 64) - 1,) * 2

# G's other traces begin in state 1 or 3; word 0 leads from there to 1.
STAY = 0, 0, 1
TWO_STEPS = trace_for(G, 1, (0, 1, 3), BREAK)
TWICE_AROUND = trace_for(G, 1, *AROUND * 2, BREAK)
BREAKS_TWICE = trace_for(G, 1, BREAK, STAY, BREAK)
BROKEN = G.replace("keep 1 each not (w and x)", "keep 0 each 1")

# Two commands, and state 0 on the way.
THREE_STEPS = graph(3, 1, (6,), (7,),
                    [{(6, 1): 0, (0, 1): 3}, {(3, 1): 7}])
THREE_STEPS_SHEET = trace_for(THREE_STEPS, 6, (0, 1, 0), (0, 1, 3), (1, 1, 7))


def one_step():
    """States 1 and 7."""
    for detail, text in (("G", G), ("G, names in other cases", G_CASES),
                         ("G with blanks to 16,384 bytes", padded(16384))):
        for given in (NOISE, FULL, (0, 0), (0, 1), (1, 7), (1, 1)):
            yield walk(f"{detail}, there and back, from {given}", text,
                       G_SHEET, given, "player opened 0 1",
                       "forward moved 1 7", "forward end", "forward end",
                       "back moved 0 1", "back end", "forward moved 1 7",
                       "beginning moved 0 1", "back end",
                       "beginning moved 0 1", "forward moved 1 7",
                       "player opened 0 1", "player opened 0 1", "back end")
        yield walk(f"{detail}, from its start", text, G_SHEET, (0, 1),
                   "back end", "beginning moved 0 1", "forward moved 1 7",
                   "back moved 0 1")
        yield walk(f"{detail}, from its end", text, G_SHEET, (1, 7),
                   "forward end", "back moved 0 1", "forward moved 1 7",
                   "beginning moved 0 1")


def no_steps():
    """The start breaks, and is the last place too."""
    for detail, text, state in (
            ("G where all break", BROKEN, 1),
            ("G where all break, the other start", BROKEN, 3),
            ("no names", model("", "", keep=("0", "1")), 0),
            ("a shared name", model("a", "", keep=("1", "0")), 1),
            ("a row name", model("", "x", ("1", "not x"), ("1", "x")), 0),
            ("12 names", counter(8, 4, 4095, 4095), 4095)):
        yield walk(detail, text, trace_for(text, state), NOISE,
                   f"player opened 0 {state}", "forward end", "back end",
                   f"beginning moved 0 {state}", "back end", "forward end",
                   f"player opened 0 {state}")
        yield walk(f"{detail}, not opened", text, trace_for(text, state),
                   (0, state), "forward end", "back end",
                   f"beginning moved 0 {state}")


def two_steps():
    """The first is not needed: one step leads from 1 to 7."""
    there = ("player opened 0 1", "forward moved 1 3", "forward moved 2 7",
             "forward end")
    yield walk("to the end and back", G, TWO_STEPS, NOISE, *there,
               "back moved 1 3", "back moved 0 1", "back end",
               "forward moved 1 3", "back moved 0 1", "forward moved 1 3",
               "forward moved 2 7", "back moved 1 3", "forward moved 2 7")
    yield walk("from the end to the beginning", G, TWO_STEPS, FULL, *there,
               "beginning moved 0 1", "forward moved 1 3",
               "beginning moved 0 1", "back end")
    yield walk("names in other cases", G_CASES, TWO_STEPS, NOISE, *there,
               "back moved 1 3", "player opened 0 1")
    for call, said in (("forward", "moved 2 7"), ("back", "moved 0 1"),
                       ("beginning", "moved 0 1")):
        yield walk(f"{call} from between", G, TWO_STEPS, (1, 3),
                   f"{call} {said}")


def several_steps():
    yield walk("two commands", THREE_STEPS, THREE_STEPS_SHEET, NOISE,
               "player opened 0 6", "forward moved 1 0", "back moved 0 6",
               "forward moved 1 0", "forward moved 2 3", "forward moved 3 7",
               "forward end", "back moved 2 3", "back moved 1 0",
               "forward moved 2 3", "beginning moved 0 6",
               "forward moved 1 0", "beginning moved 0 6", "back end")
    text = sixteen(command("z", under(255), loop(yes="x := 1")),
                   keep=("1", "not x"))
    yield walk("the last word of the last command", text,
               trace_for(text, 0, (14, 255, 0), (15, 255, 8)), NOISE,
               "player opened 0 0", "forward moved 1 0", "forward moved 2 8",
               "forward end", "back moved 1 0", "back moved 0 0", "back end")
    for given, forward, back in (
            ((0, 6), "moved 1 0", "end"), ((1, 0), "moved 2 3", "moved 0 6"),
            ((2, 3), "moved 3 7", "moved 1 0"), ((3, 7), "end", "moved 2 3")):
        yield walk(f"two commands, forward from {given}", THREE_STEPS,
                   THREE_STEPS_SHEET, given, f"forward {forward}")
        yield walk(f"two commands, back from {given}", THREE_STEPS,
                   THREE_STEPS_SHEET, given, f"back {back}")


def states_met_again():
    """The place tells which of them it is."""
    yield walk("around twice", G, TWICE_AROUND, NOISE, "player opened 0 1",
               "forward moved 1 3", "forward moved 2 1", "forward moved 3 3",
               "forward moved 4 1", "forward moved 5 7", "forward end",
               "back moved 4 1", "back moved 3 3", "back moved 2 1",
               "back moved 1 3", "back moved 0 1", "back end")
    for given, forward, back in (
            ((0, 1), "moved 1 3", "end"), ((1, 3), "moved 2 1", "moved 0 1"),
            ((2, 1), "moved 3 3", "moved 1 3"),
            ((3, 3), "moved 4 1", "moved 2 1"),
            ((4, 1), "moved 5 7", "moved 3 3"),
            ((5, 7), "end", "moved 4 1")):
        yield walk(f"around twice, forward from {given}", G, TWICE_AROUND,
                   given, f"forward {forward}")
        yield walk(f"around twice, back from {given}", G, TWICE_AROUND,
                   given, f"back {back}")
        yield walk(f"around twice, beginning from {given}", G, TWICE_AROUND,
                   given, "beginning moved 0 1", "forward moved 1 3")
    staying = trace_for(G, 1, STAY, STAY, BREAK)
    yield walk("steps that change nothing", G, staying, NOISE,
               "player opened 0 1", "forward moved 1 1", "forward moved 2 1",
               "back moved 1 1", "back moved 0 1", "back end",
               "forward moved 1 1", "forward moved 2 1", "forward moved 3 7",
               "forward end", "back moved 2 1", "beginning moved 0 1")
    nameless = model("", "", keep=("0", "1"))
    yield walk("one state alone", nameless,
               trace_for(nameless, 0, *[(0, 0, 0)] * 2), NOISE,
               "player opened 0 0", "forward moved 1 0", "forward moved 2 0",
               "forward end", "back moved 1 0", "back moved 0 0", "back end")


def breaks_on_the_way():
    """A break is no end as long as there is a step."""
    yield walk("in the midst", G, BREAKS_TWICE, NOISE, "player opened 0 1",
               "forward moved 1 7", "forward moved 2 1", "forward moved 3 7",
               "forward end", "back moved 2 1", "back moved 1 7",
               "forward moved 2 1", "back moved 1 7", "back moved 0 1",
               "back end")
    yield walk("two in a row", G, trace_for(G, 3, BREAK, BREAK), NOISE,
               "player opened 0 3", "forward moved 1 7", "forward moved 2 7",
               "forward end", "back moved 1 7", "back moved 0 3", "back end")
    every = trace_for(BROKEN, 3, (0, 3, 7), (0, 0, 1))
    yield walk("at every place", BROKEN, every, NOISE, "player opened 0 3",
               "forward moved 1 7", "forward moved 2 1", "forward end",
               "back moved 1 7", "back moved 0 3", "back end")


def counters():
    """All the way and back, with the state as the place."""
    for shared, row in ((1, 0), (0, 1), (2, 0), (0, 3), (2, 3), (4, 4)):
        text = counter(shared, row, 0, (1 << shared + row) - 1)
        last = (1 << shared + row) - 1
        steps = [(0, 0, state) for state in range(1, last + 1)]
        yield walk(f"{shared} and {row} bits, {last} steps", text,
                   trace_for(text, 0, *steps), NOISE, "player opened 0 0",
                   f"forward moved 1-{last} 1-{last}", "forward end",
                   f"back moved {last - 1}-0 {last - 1}-0", "back end",
                   f"forward moved 1-{last} 1-{last}", "beginning moved 0 0")


def states_apart_from_places():
    """Twelve bits, from state 4000 by 0 to 95."""
    text = counter(6, 6, 4000, 95)
    sheet = trace_for(text, 4000, *[(0, 0, state % 4096)
                                    for state in range(4001, 4096 + 96)])
    yield walk("all the way and back", text, sheet, NOISE,
               "player opened 0 4000", "forward moved 1-95 4001-4095",
               "forward moved 96-191 0-95", "forward end",
               "back moved 190-96 94-0", "back moved 95-0 4095-4000",
               "back end")
    for given, *said in (
            ((95, 4095), "forward moved 96 0", "back moved 95 4095"),
            ((96, 0), "back moved 95 4095", "forward moved 96 0"),
            ((191, 95), "forward end", "back moved 190 94"),
            ((190, 94), "forward moved 191 95", "beginning moved 0 4000"),
            ((0, 4000), "back end", "forward moved 1 4001")):
        yield walk(f"from {given}", text, sheet, given, *said)


def many_steps():
    """4,095 is the most that a shortest trace has."""
    for shared, row in ((8, 4), (2, 10)):
        text = counter(shared, row, 0, 4095)
        sheet = trace_for(text, 0, *[(0, 0, state)
                                     for state in range(1, 4096)])
        detail = f"{shared} and {row} bits"
        yield walk(f"{detail}, opened", text, sheet, NOISE,
                   "player opened 0 0", "forward moved 1-3 1-3",
                   "back moved 2-0 2-0", "back end", "beginning moved 0 0")
        for given, *said in (
                ((255, 255), "forward moved 256-257 256-257",
                 "back moved 256-254 256-254"),
                ((2047, 2047), "forward moved 2048 2048",
                 "back moved 2047 2047"),
                ((4093, 4093), "forward moved 4094-4095 4094-4095",
                 "forward end", "back moved 4094 4094",
                 "beginning moved 0 0"),
                ((4095, 4095), "forward end", "back moved 4094-4092 4094-4092",
                 "player opened 0 0")):
            yield walk(f"{detail}, from {given}", text, sheet, given, *said)
    for place in range(91, 4095, 91):
        yield walk(f"{detail}, from {place}", text, sheet, (place, place),
                   f"forward moved {place + 1} {place + 1}",
                   f"back moved {place} {place}")


def most_steps():
    """6,551, the most that a sheet has room for: around 3,275 times, then the
    break."""
    sheet = trace_for(G, 1, *AROUND * 3275, BREAK)
    yield walk("opened", G, sheet, NOISE, "player opened 0 1",
               "forward moved 1 3", "forward moved 2 1", "back moved 1 3")
    for given, *said in (
            ((255, 3), "forward moved 256 1", "back moved 255 3"),
            ((4095, 3), "forward moved 4096 1", "forward moved 4097 3",
             "back moved 4096 1", "back moved 4095 3"),
            ((6549, 3), "forward moved 6550 1", "forward moved 6551 7",
             "forward end", "back moved 6550 1", "beginning moved 0 1"),
            ((6551, 7), "forward end", "back moved 6550 1",
             "back moved 6549 3")):
        yield walk(f"from {given}", G, sheet, given, *said)


GROUPS = (one_step, no_steps, two_steps, several_steps, states_met_again,
          breaks_on_the_way, counters, states_apart_from_places, many_steps,
          most_steps)
