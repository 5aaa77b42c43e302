"""Random texts from a seed: whole models, models at a limit, damaged ones;
of each some with names or reserved words in other cases."""

import random

from inputs.random_cases import names_recased, reserved_recased
from inputs.random_models import LIMITS, WORD_BYTES, Writer
from reader.tokens import RESERVED

MARKS = (".", ";", ":=", ":", "=", "(", ")", "*")
LONGEST_TEXT = 16384


def spelled(rng, tokens, style):
    """The tokens as a text in which neighbouring words stay apart."""
    text = ""
    for token in tokens:
        needed = (text and token and text[-1] in WORD_BYTES
                  and token[0] in WORD_BYTES)
        if style == "tight":
            blank = rng.choice(" \n") if needed else ""
        elif style == "plain":
            blank = " " if text else ""
        else:
            blank = rng.choice(["", "", " ", "\n", "  ", " \n", "\n\n "])
            blank = blank or (" " if needed else "")
        text += blank + token
    return text + rng.choice(["", "", "\n", " "])


def any_token(rng, tokens):
    return rng.choice([
        rng.choice(RESERVED), rng.choice(MARKS), rng.choice(tokens or ["a"]),
        rng.choice(["0", "1", "2", "01", "_a", "1x", "q", "undeclared"]),
        rng.choice("abcXYZ") * rng.choice([15, 16, 17, 40]),
        rng.choice("\t\r\0#,-/@[`{\x7f\x80\xff")])


def harm_tokens(rng, tokens):
    """One change to the list of tokens."""
    tokens = list(tokens)
    if not tokens:
        return [any_token(rng, tokens)]
    j = rng.randrange(len(tokens))
    k = rng.randrange(len(tokens))
    words = [i for i, token in enumerate(tokens)
             if token[0].isalpha() and token.lower() not in RESERVED]
    constants = [i for i, token in enumerate(tokens) if token in ("0", "1")]
    way = rng.randrange(12)
    if way == 0:
        del tokens[j]
    elif way == 1:
        tokens.insert(j, tokens[j])
    elif way == 2:
        tokens[j:j + 2] = reversed(tokens[j:j + 2])
    elif way == 3:
        tokens[j], tokens[k] = tokens[k], tokens[j]
    elif way == 4:
        tokens[j] = any_token(rng, tokens)
    elif way == 5:
        tokens.insert(j, any_token(rng, tokens))
    elif way == 6:
        del tokens[j:]
    elif way == 7 and words:
        tokens[rng.choice(words)] = rng.choice(
            [tokens[rng.choice(words)], "undeclared"])
    elif way == 8 and words:
        # A first occurrence is a declaration, if the text was whole.
        first = rng.choice(sorted({tokens.index(tokens[i]) for i in words}))
        tokens[first] = tokens[rng.choice(words)]
    elif way == 9 and constants:
        tokens[rng.choice(constants)] = "*"
    elif way == 10 and constants:
        i = rng.choice(constants)
        depth = rng.choice([1, 15, 16, 17, 18])
        tokens[i:i + 1] = ["("] * depth + [tokens[i]] + [")"] * depth
    else:
        length = rng.randint(1, 12)
        tokens[k:k] = tokens[j:j + length]
    return tokens


def harm_bytes(rng, data):
    """One change to the bytes."""
    j = rng.randrange(len(data) + 1)
    byte = bytes([rng.choice([rng.randrange(256),
                              ord(rng.choice(" \n.;:=()*01aZ_"))])])
    way = rng.randrange(4)
    if way == 0:
        return data[:j] + byte + data[j + 1:]
    if way == 1:
        return data[:j] + byte + data[j:]
    if way == 2:
        return data[:j] + data[j + 1:]
    return data[:j]


def whole(rng, aim=None, over=0):
    """A model's tokens and its text, at the limit aimed at if there is one."""
    tokens = Writer(rng, aim if aim != "length" else None, over).tokens()
    data = spelled(rng, tokens, rng.choice(["tight", "plain", "loose"]))
    if len(data) > LONGEST_TEXT:
        data = spelled(rng, tokens, "tight")
    data = data.encode("latin-1")
    if aim == "length":
        blanks = rng.choice([b" ", b"\n"]) * (LONGEST_TEXT + over - len(data))
        data = rng.choice([data + blanks, blanks + data])
    return tokens, data


def as_first_written(rng):
    """A label and a text."""
    way = rng.random()
    if way < 0.25:
        return "whole", whole(rng)[1]
    # A text at full length is slow to read and teaches little: keep it rare.
    aim = rng.choice(list(LIMITS)) if rng.random() < 0.97 else "length"
    if way < 0.35:
        return f"at the limit of {aim}", whole(rng, aim)[1]
    if way < 0.45:
        over = rng.choice([1, 1, 2])
        return f"{over} over the limit of {aim}", whole(rng, aim, over)[1]
    if way < 0.48:
        length = rng.choice([0, 1, 2, 5, 20, 100])
        tokens = [any_token(rng, []) for _ in range(length)]
        return "loose tokens", spelled(rng, tokens, "loose").encode("latin-1")
    aim = aim if aim != "length" and rng.random() < 0.15 else None
    tokens, data = whole(rng, aim, rng.choice([0, 0, 1]))
    harms = rng.choice([1, 1, 1, 2, 3])
    if rng.random() < 0.75:
        for _ in range(harms):
            tokens = harm_tokens(rng, tokens)
        style = rng.choice(["tight", "plain", "loose"])
        return "tokens harmed", spelled(rng, tokens, style).encode("latin-1")
    for _ in range(harms):
        data = harm_bytes(rng, data)
    return "bytes harmed", data


def one(rng):
    """The label holds for names in other cases too."""
    label, text = as_first_written(rng)
    way = rng.random()
    if way < 0.1:
        text, place = reserved_recased(rng, text)
        if place is not None:
            label = "reserved words in other cases"
    elif way < 0.4:
        text = names_recased(rng, text)
    return label, text


def random_texts(count, seed):
    """Pairs of label and bytes, the same for the same count and seed."""
    rng = random.Random(seed)
    return [one(rng) for _ in range(count)]
