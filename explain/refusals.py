"""What a refusal means: its number in words, the token at its place, and the
rule that the token goes against."""

from dataclasses import dataclass

from limits import MOST, all_limits, gone_over
from notation import DECLARING, TEXT_END, declarations, in_roles, walk
from places import Excerpt, excerpt, line_and_column, position, visible
from tokens import LONGEST_WORD, NAME, cut

LONGEST_TEXT = 16384
MEANINGS = {
    1: f"the text is over {LONGEST_TEXT:,} bytes",
    2: "a byte that no text may have, or a word longer than "
       f"{LONGEST_WORD} bytes",
    3: "a token that cannot stand here, or an end too early",
    4: "a name that is taken already",
    5: "a name that is not declared, or of the wrong kind",
    6: "a star in `start` or `keep`",
    7: "over a limit",
}
BYTES = {9: "tab", 13: "carriage return"}


@dataclass(frozen=True)
class Explained:
    """A refusal for a person. A text that is too long has no line."""

    meaning: str
    rule: str
    place: int
    length: int
    line: int
    column: int
    excerpt: Excerpt


def explained(text, refused):
    meaning = MEANINGS[refused.number]
    if refused.number == 1:
        rule = f"A text has at most {LONGEST_TEXT:,} bytes, blanks included."
        return Explained(meaning, rule, refused.place, 0, 0, 0, None)
    tokens = cut(text)
    before = [token for token in tokens if token.place < refused.place]
    here = [token for token in tokens if token.place == refused.place]
    length = len(here[0].word) if here else 0
    rule = TELLING[refused.number](text, before, here[0] if here else None)
    line, column = line_and_column(text, refused.place)
    return Explained(meaning, rule, refused.place, length, line, column,
                     excerpt(text, refused.place, length))


def bad_bytes(text, before, token):
    if token.is_word:
        return (f"This word has {len(token.word)} bytes; "
                f"a word has at most {LONGEST_WORD}.")
    byte = text[token.place]
    called = BYTES.get(byte, visible(bytes([byte])))
    return (f"This is the byte {byte} ({called}); a text has only letters, "
            "digits, underscores, spaces, newlines and . ; : = ( ) *")


def not_allowed(text, before, token):
    parts, kinds = walk(before)
    if not in_roles(parts, "commands"):
        # Before the first command a star would be refused at once.
        kinds = [kind for kind in kinds if kind != "*"]
    said = [kind if kind in (NAME, TEXT_END) else f"`{kind}`"
            for kind in kinds]
    due = " or ".join(filter(None, [", ".join(said[:-1]), said[-1]]))
    return f"{found_instead(token)}What may stand here: {due}."


def found_instead(token):
    """What is to be said of the token itself, where something is."""
    if token is None:
        return "The text ends too early. "
    if token.is_reserved_in_another_case:
        return (f"`{token.word}` can stand nowhere: the reserved word "
                f"`{token.folded}` is written in small letters, and is no "
                "name however it is spelt. ")
    return ""


def declared_before(text, before, token):
    first = declarations(walk(before)[0])[token.folded]
    return (f"{same_name(token, first.token)}`{first.token.word}` is declared "
            f"at {position(text, first.token.place)} as "
            f"{DECLARING[first.role]}; no name is declared twice, commands "
            "included.")


def misused(text, before, token):
    declared = declarations(walk(before)[0])
    if token.folded not in declared:
        return (f"`{token.word}` is not declared; a name in an expression or "
                "before `:=` is declared after `shared` or `row`.")
    first = declared[token.folded]
    return (f"{same_name(token, first.token)}`{first.token.word}` is "
            f"{DECLARING[first.role]}; {USES[first.role]}")


def same_name(token, declared):
    """That a name is the one declared, where it is spelt otherwise."""
    if token.word == declared.word:
        return ""
    return (f"`{token.word}` and `{declared.word}` are the same name, since "
            "case makes no difference. ")


USES = {
    "shared name": "inside a `for` only row names are assigned.",
    "row name": "outside a `for` and an `each` part only shared names stand.",
    "title": "only shared names and row names have a value.",
}


def forbidden_star(text, before, token):
    clause = "keep" if any(seen.word == "keep" for seen in before) else "start"
    return (f"This star stands in `{clause}`; a star is a choice of a step, "
            "and `start` and `keep` speak of a state alone.")


def over_limit(text, before, token):
    over = gone_over(walk(before + [token])[0])
    said = " and ".join(f"{MOST[what]:,} {what}" for what in over)
    one = f"With this token there are more than {said}. " if over else ""
    return f"{one}The limits of a text: {all_limits()}."


TELLING = {2: bad_bytes, 3: not_allowed, 4: declared_before, 5: misused,
           6: forbidden_star, 7: over_limit}
