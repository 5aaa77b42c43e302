"""Keys of a terminal, from the bytes that it sends for them."""

import re

from player import BACK, BEGINNING, FORWARD

QUIT = b"q"
LETTERS = (FORWARD, BACK, BEGINNING, QUIT)
CONTROL_C, CONTROL_D = b"\x03", b"\x04"
# Arrows and Home have several forms, by the terminal and its mode.
KEYS = {
    **{letter: letter for letter in LETTERS},
    CONTROL_C: QUIT, CONTROL_D: QUIT,
    b"\x1b[C": FORWARD, b"\x1bOC": FORWARD,
    b"\x1b[D": BACK, b"\x1bOD": BACK,
    b"\x1b[H": BEGINNING, b"\x1bOH": BEGINNING,
    b"\x1b[1~": BEGINNING, b"\x1b[7~": BEGINNING,
}
WHOLE = re.compile(rb"\x1b(?:\[[ -?]*[@-~]|O[@-~])|[^\x1b]")
BEGUN = re.compile(rb"\x1b(?:\[[ -?]*|O)?")


def keys_in(typed):
    """The keys that mean something, and what may be the beginning of one.
    An Escape that begins nothing is passed over by itself, so that no key
    behind it is lost."""
    keys = []
    while typed and not BEGUN.fullmatch(typed):
        found = WHOLE.match(typed)
        end = found.end() if found else 1
        keys += [KEYS[typed[:end]]] if typed[:end] in KEYS else []
        typed = typed[end:]
    return keys, typed
