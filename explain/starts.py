"""Why nothing satisfies `start`: which of its parts can be true at all."""

from dataclasses import dataclass

from tokens import quoted
from traces import Unreadable
from values import in_all_states, value


@dataclass(frozen=True)
class Tried:
    """One part of `start`, and whether it is true in some state."""

    part: str
    quote: str
    can_hold: bool


def tried(model):
    """Both parts, in all states of one row: no row looks at another, so more
    rows add nothing."""
    values, every = in_all_states(model.names)
    parts = (("shared part", model.start.shared),
             ("each part", model.start.row))
    shared, row = (value(tokens, values, every) for _, tokens in parts)
    if shared & row:
        raise Unreadable
    return [Tried(part, quoted(tokens), held != 0)
            for (part, tokens), held in zip(parts, (shared, row))]
