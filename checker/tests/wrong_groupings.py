"""Programs that take the nodes of an expression together in a wrong way, run
others than they should, or number the stars in a wrong way: a corpus that does
not tell them from the right one is too weak. Each takes a text that says a
model, a state and a choice word, and gives the line."""

from evidence.values import told
from reader.layout import NOT
from tests.other_values import (AHEAD, count, flat_expressions, pieces,
                                python_value, read_once, run)


def by_source(written, anew=("command",)):
    """Tokens are grouped in another way, or stars numbered in another."""
    def part(text, state, word):
        return told([(python_value(written(said), state, word), count(said))
                     for said in pieces(text, anew)])
    return part


def ending_early(ends):
    """Takes all up to one of these, or to the closing parenthesis, for what
    `not` is before."""
    def written(said):
        text, opened = "", [0]
        for piece in said + [")"]:
            if piece in ends or piece == ")":
                text += ")" * opened[-1]
                opened[-1] = 0
            if piece == ")":
                opened.pop()
            elif piece == "(":
                opened.append(0)
            if piece == "not":
                opened[-1] += 1
                piece = "not ("
            text += f" {piece}"
        return text[:-1]
    return written


def or_first(said):
    """Closes and opens parentheses around each `and`."""
    around = {"(": "((", ")": "))", "and": ") and ("}
    return "(" + " ".join(around.get(piece, piece) for piece in said) + ")"


def in_turn(said):
    """Joins to the left whatever the operators are."""
    said = list(said)

    def operand():
        piece = said.pop(0)
        if piece == "not":
            return f"not ({operand()})"
        return joined() if piece == "(" else piece

    def joined():
        text = operand()
        while said and said[0] != ")":
            text = f"({text}) {said.pop(0)} ({operand()})"
        if said:
            said.pop(0)
        return f"({text})"

    return joined()


not_binds_loosest = by_source(ending_early(()))
not_binds_between = by_source(ending_early(("or",)))
or_binds_tighter = by_source(or_first)
equally_tight = by_source(in_turn)
parentheses_unread = by_source(lambda said: " ".join(
    piece for piece in said if piece not in ("(", ")")))
stars_through_the_model = by_source(" ".join, ())
stars_anew_in_each_expression = by_source(" ".join, ("command", *AHEAD))
stars_anew_after_else = by_source(" ".join, ("command", "else"))
stars_anew_in_each_loop = by_source(" ".join, ("command", "for"))


def by_codes(kept, room=35):
    """Other nodes of the flat form are run, or with less room."""
    def part(text, state, word):
        said = []
        for codes in flat_expressions(read_once(text)):
            left, _ = run(kept(codes), state, word, room)
            said.append((left[-1] if left else 0, len(codes)))
        return told(said)
    return part


def without_first_not(codes):
    place = codes.index(NOT) if NOT in codes else len(codes)
    return codes[:place] + codes[place + 1:]


# Not wrong: no more than 35 values ever wait.
room_for_35 = by_codes(lambda codes: codes)

room_for_34 = by_codes(lambda codes: codes, 34)
room_for_32 = by_codes(lambda codes: codes, 32)
room_for_16 = by_codes(lambda codes: codes, 16)
room_for_two = by_codes(lambda codes: codes, 2)
first_node_skipped = by_codes(lambda codes: codes[1:] or codes)
last_node_skipped = by_codes(lambda codes: codes[:-1] or codes)
a_not_skipped = by_codes(without_first_not)
first_node_alone = by_codes(lambda codes: codes[:1])
nodes_to_255 = by_codes(lambda codes: codes[:255])
nodes_to_1000 = by_codes(lambda codes: codes[:1000])
