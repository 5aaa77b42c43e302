"""Values and passes found in two other ways: by Python's own `not`, `and` and
`or` from the tokens of a text, and by a list of waiting values from the flat
form of its model."""

from functools import cache

from evidence.values import told
from reader.layout import ASSIGN, NAMES, NOT, OPERATORS, STARS, segments
from reader.reading import read
from reader.tokens import NAME, cut

# What an expression stands behind, and what it stands before.
AHEAD = ("start", "keep", "each", "if", "for", ":=")
BEHIND = ("each", "do", "else", "end", ".", ";")

# As many as there can be stars in a text.
MOST_BITS = 128

# Texts are valued many times over, and reading them takes longest.
read_once = cache(read)


def pieces(text, anew=("command",)):
    """The tokens of each expression, as Python would have them: `n` has the
    bits of the state and `c` those of the word. Stars are numbered anew at
    each token of the kinds named.

    Names outside of expressions are taken down as they come: the first one
    that is the same as a name in an expression is its declaration.
    """
    found, names, stars, inside = [], [], 0, False
    for token in cut(text):
        kind = token.kind
        if kind in anew:
            stars = 0
        if kind in BEHIND:
            inside = False
        if inside and kind == NAME:
            found[-1].append(f"n[{names.index(token.word.lower())}]")
        elif inside and kind == "*":
            found[-1].append(f"c[{stars}]")
            stars += 1
        elif inside:
            found[-1].append(kind)
        elif kind == NAME:
            names.append(token.word.lower())
        if kind in AHEAD:
            inside = True
            found.append([])
    return found


def python_value(source, state, word):
    bits = {name: [number >> j & 1 for j in range(MOST_BITS)]
            for name, number in (("n", state), ("c", word))}
    return bool(eval(source, bits))


def count(said):
    """The nodes: all pieces but parentheses."""
    return len([piece for piece in said if piece not in ("(", ")")])


def by_tokens(text, state, word):
    """The whole line, of a text that says a model."""
    return told([(python_value(" ".join(said), state, word), count(said))
                 for said in pieces(text)])


def flat_expressions(model):
    """The codes of each expression: what stands before a code that is not of
    an expression, or before a segment's end."""
    for segment in segments(model):
        codes = []
        for code in segment + [ASSIGN]:
            if code < ASSIGN:
                codes.append(code)
            elif codes:
                yield codes
                codes = []


def run(codes, state, word, room=MOST_BITS):
    """The values that are left at the end, and the most that waited. Beyond
    the room for them the oldest are lost, and one that is not there is 0."""
    waiting, most = [], 0

    def taken():
        return waiting.pop() if waiting else 0

    for code in codes:
        if code < NAMES:
            value = code
        elif code < STARS:
            value = state >> code - NAMES & 1
        elif code < NOT:
            value = word >> code - STARS & 1
        elif code == NOT:
            value = 1 - taken()
        elif code == OPERATORS["and"]:
            value = taken() & taken()
        else:
            value = taken() | taken()
        waiting = waiting[max(0, len(waiting) + 1 - room):] + [value]
        most = max(most, len(waiting))
    return waiting, most


def by_flat_form(text, state, word):
    """The whole line, of a text that says a model."""
    pairs = []
    for codes in flat_expressions(read_once(text)):
        left, _ = run(codes, state, word)
        assert len(left) == 1, text
        pairs.append((left[0], len(codes)))
    return told(pairs)
