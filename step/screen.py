"""A view as the lines of a window. Where it is small, what matters least is
left out first: the ends of long lines, blank lines, where stars stand, the
parts of `keep`, the keys."""

import re
from textwrap import wrap

from plain import CHANGE
from sentences import counted

KEYS = ("right, f: forward", "left, b: back", "Home, 0: beginning", "q: quit")
# A value takes the room that it needs where it changes, so that none moves.
CHANGED = len(f"=0{CHANGE}1")
BOLD = "\x1b[1m\\g<0>\x1b[m"


def window(view, message, columns, rows):
    """As many lines as there are rows, none of them too long."""
    said = wrap(message, columns) or [""]
    above, below = fitting(view, said, columns, rows)
    free = [""] * (rows - len(above) - len(below))
    return [marked(cut(line, columns))
            for line in (above + free + below)[:rows]]


def fitting(view, said, columns, rows):
    """The first form that fits: what stands above, and what below."""
    def form(parts, stars, gap=()):
        # No colon before what is left out.
        judged = view.judged if parts else view.judged.replace(":", ".")
        return [head(view, columns), *gap, *step(view, columns), *gap,
                *values(view, columns), *gap, judged, *parts, *gap, *stars]

    keys = said + flowing("", KEYS, columns)
    parts, stars = folded(view.parts, columns), folded(view.stars, columns)
    forms = [(form(parts, stars, [""]), keys),
             (form(view.parts, view.stars, [""]), keys),
             (form(view.parts, view.stars), keys),
             (form(view.parts, ()), keys), (form((), ()), keys),
             (form((), ()), said)]
    for above, below in forms:
        if len(above) + len(below) <= rows:
            return above, below
    shown = max(1, rows - len(said) - 1)
    return above[:shown] + [counted(len(above) - shown, "more line")], said


def folded(lines, columns):
    return [part for line in lines
            for part in wrap(line, columns, subsequent_indent=" " * 6)]


def head(view, columns):
    """The file's name is cut at its beginning. A character outside ASCII may
    be two columns wide."""
    room = columns - len(f": {view.place}")
    file = view.file
    while file and sum(2 - c.isascii() for c in file) > room:
        file = "..." + file.removeprefix("...")[1:] if file != "..." else ""
    return f"{file}: {view.place}" if file else view.place


def step(view, columns):
    return wrap(view.step, columns, subsequent_indent="  ")


def values(view, columns):
    return [line for kind, cells in view.values
            for line in flowing(f"{kind:8}", map(steady, cells), columns)]


def steady(item):
    name = item.partition("=")[0]
    return item.ljust(len(name) + CHANGED)


def flowing(label, items, columns):
    """A label, and behind it items, in as many lines as they need."""
    lines, first = [label], True
    for item in items:
        if not first and len(f"{lines[-1]}  {item}".rstrip()) > columns:
            lines.append(" " * len(label))
            first = True
        lines[-1] += item if first else f"  {item}"
        first = False
    return [line.rstrip() for line in lines]


def cut(line, columns):
    if len(line) <= columns:
        return line
    return f"{line[:max(0, columns - 3)]}..."[:columns]


def marked(line):
    return re.sub(rf"\w+=[01]{CHANGE}[01]", BOLD, line)
