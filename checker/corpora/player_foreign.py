"""Records that are foreign to a trace, and records that were carried from one
sheet to another."""

from corpora.player_labels import walk
from corpora.player_walks import (BREAKS_TWICE, BROKEN, THREE_STEPS,
                                  THREE_STEPS_SHEET, TWICE_AROUND, TWO_STEPS)
from corpora.reports_runs import counter
from inputs.cases import G, G_CASES, G_SHEET, trace_for

LARGEST = (1 << 64) - 1
WIDE = counter(8, 4, 4093, 1)

# What is shown, the text, the sheet, and its states place by place.
TRACES = (
    ("no step", BROKEN, trace_for(BROKEN, 1), (1,)),
    ("one step", G, G_SHEET, (1, 7)),
    ("one step, names in other cases", G_CASES, G_SHEET, (1, 7)),
    ("two steps", G, TWO_STEPS, (1, 3, 7)),
    ("two commands", THREE_STEPS, THREE_STEPS_SHEET, (6, 0, 3, 7)),
    ("around twice", G, TWICE_AROUND, (1, 3, 1, 3, 1, 7)),
    ("two breaks", G, BREAKS_TWICE, (1, 7, 1, 7)),
    ("12 bits", WIDE, trace_for(WIDE, 4093, *[
        (0, 0, state) for state in (4094, 4095, 0, 1)]),
     (4093, 4094, 4095, 0, 1)),
)


def other_states():
    """A state that is another one, or would be the same if bits were
    lost."""
    for detail, text, sheet, states in TRACES:
        for place, state in enumerate(states):
            like = {state ^ 1, state + 1, state + 8, state ^ 255, LARGEST,
                    *(state + (1 << width) for width in (8, 12, 16, 32, 48,
                                                         63)),
                    *states, place} - {state}
            for other in sorted(like):
                yield walk(f"{detail}, {other} for {state} at {place}", text,
                           sheet, (place, other), "moves foreign")


def places_past_the_last():
    """With the last state, and with that of the place it would be if bits
    were lost."""
    for detail, text, sheet, states in TRACES:
        count = len(states)
        for place in (count, count + 1, 2 * count, 4096, 6552, LARGEST):
            for state in sorted({states[0], states[-1], 0}):
                yield walk(f"{detail}, state {state} at {place}", text, sheet,
                           (place, state), "moves foreign")
        for place, state in enumerate(states):
            for width in (8, 12, 16, 32, 48, 63):
                far = place + (1 << width)
                yield walk(f"{detail}, state {state} at {far}", text, sheet,
                           (far, state), "moves foreign")


def far_on():
    """Records that fit but for one of their numbers."""
    text = counter(8, 4, 0, 4095)
    sheet = trace_for(text, 0, *[(0, 0, state) for state in range(1, 4096)])
    for given in ((4096, 4095), (4096, 0), (4095, 4094), (4094, 4095),
                  (4095, 8191), (4095, 4095 + 65536), (2048, 2047),
                  (2047, 2048), (256, 0), (0, 256), (1, 257), (257, 1),
                  (4095 + (1 << 32), 4095), (LARGEST, 4095), (LARGEST, 0)):
        yield walk(f"{given}", text, sheet, given, "moves foreign")


def opened_anew():
    """Whatever a record holds, the player opens at the beginning."""
    for detail, text, sheet, states in TRACES:
        for given in ((len(states), states[-1]), (0, states[0] + 65536),
                      (LARGEST, LARGEST), (len(states) - 1, states[-1])):
            yield walk(f"{detail}, from {given}", text, sheet, given,
                       f"player opened 0 {states[0]}",
                       f"beginning moved 0 {states[0]}")


def carried():
    """Sheets of G, between which records are carried. They fit where place
    and state do."""
    sheets = {"1 7": G_SHEET, "1 3 7": TWO_STEPS, "1 7 1 7": BREAKS_TWICE,
              "1 3 1 3 1 7": TWICE_AROUND,
              "3 7": trace_for(G, 3, (0, 3, 7))}
    for given, on, *said in (
            ((0, 1), "1 3 7", "forward moved 1 3"),
            ((0, 1), "3 7", "moves foreign"),
            ((0, 3), "3 7", "forward moved 1 7", "back moved 0 3",
             "back end"),
            ((0, 3), "1 3 7", "moves foreign"),
            ((1, 7), "3 7", "forward end", "back moved 0 3"),
            ((1, 7), "1 7 1 7", "forward moved 2 1"),
            ((1, 7), "1 3 7", "moves foreign"),
            ((1, 3), "1 7", "moves foreign"),
            ((1, 3), "1 3 1 3 1 7", "forward moved 2 1", "back moved 1 3"),
            ((2, 7), "1 3 1 3 1 7", "moves foreign"),
            ((2, 7), "1 7 1 7", "moves foreign"),
            ((2, 7), "1 7", "moves foreign"),
            ((2, 1), "1 7 1 7", "forward moved 3 7", "forward end"),
            ((2, 1), "1 3 7", "moves foreign"),
            ((3, 7), "1 3 1 3 1 7", "moves foreign"),
            ((5, 7), "1 7", "moves foreign"),
            ((5, 7), "1 7 1 7", "moves foreign")):
        yield walk(f"{given} to {on}", G, sheets[on], given, *said)


GROUPS = (other_states, places_past_the_last, far_on, opened_anew,
          carried)
