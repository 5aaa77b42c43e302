"""From a text and a sheet to the steps of a person through it."""

import terminal
from keys import LETTERS, QUIT, keys_in
from player import BACK, FORWARD, playing
from refusals import LONGEST_TEXT
from screen import window
from sheets import LONGEST_SHEET
from streams import NO_ANSWER, read, show, shown, status_of, tell, typed
from traces import Unreadable
from views import Trace

FAULTS = {
    Unreadable: "the step program gave no answer for this text and sheet"}
STOPPED = {FORWARD: "The trace ends here: no step forward.",
           BACK: "The trace begins here: no step back."}


def main(program, path, sheet):
    return status_of("step", FAULTS, step, program, path, sheet)


def step(program, path, sheet):
    said = read(path, LONGEST_TEXT), read(sheet, LONGEST_SHEET)
    with playing(program, *said) as player:
        if not player.opened:
            return no_trace(player.outcome, shown(sheet))
        trace = Trace(shown(path), *said)
        walk = on_screen if terminal.is_there() else in_lines
        walk(player, trace)
    return 0


def no_trace(outcome, sheet):
    show([outcome])
    if outcome.startswith("refused"):
        return NO_ANSWER
    if outcome in ("safe holds", "void"):
        tell(f"{sheet} is a map: there is nothing to step through")
    else:
        tell(f"{sheet} fails the test: there is nothing to step through")
    return 1


def on_screen(player, trace):
    position, begun = player.opened, b""
    with terminal.taken() as events:
        show_on_screen(trace, position)
        for more in events:
            keys, begun = keys_in(begun + more)
            for key in keys:
                if key == QUIT:
                    return
                position = player.move(key)
            show_on_screen(trace, position)


def show_on_screen(trace, position):
    terminal.draw(window(trace.view(position), message(position),
                         *terminal.size()))


def in_lines(player, trace):
    """The opening, and a blank line and a place for each letter."""
    show(listed(trace, player.opened))
    for key in letters():
        if key == QUIT:
            return
        show(["", *listed(trace, player.move(key))])


def letters():
    """What standard input has of them, as they come."""
    while said := typed():
        yield from (letter for letter in map(bytes, zip(said))
                    if letter in LETTERS)


def listed(trace, position):
    view = trace.view(position)
    said = message(position)
    return [f"{view.file}: {view.place}", view.step,
            *(f"{kind:8}{'  '.join(cells)}" for kind, cells in view.values),
            view.judged, *view.parts, *view.stars, *([said] if said else [])]


def message(position):
    return STOPPED.get(position.stopped, "")
