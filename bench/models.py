"""Texts of models to measure on, the same ones each time."""

import random
import re

SHARED = "abcd"
ROW = "pqrstuvw"
COMMANDS = 16
STARS = 8
BITS = len(SHARED + ROW)
STATES = 1 << BITS
LONGEST_TEXT = 16384
SEED = 12

# A command's items and its count of expression nodes. In the items an
# upper-case letter stands for a name, `@` for an expression; S is a shared
# name, R a row name.
SHORT = ("S := @; for @ do R := @; R := @ else R := @ end", "S := @"), 29

# The most code: 16 commands can't have more items each, nor more nodes beside
# `start` and `keep`, and no other items of that count have more code words.
LOOP = "for @ do R := @ else R := @ end"
LONG = (f"S := @; {LOOP}; {LOOP}; {LOOP}", f"{LOOP}; {LOOP}"), 62

# The most code of one command: 256 items, and all nodes but the four that
# `start` and `keep` have at the least. With so many stars its choice words are
# as many as the product runs at once.
LONGEST = ("; ".join([LOOP] * 85), "S := @"), 1020
FILLING_STARS = 6

# As many items and nodes as fit beside a counter. They change nothing.
IDLE_LOOP = "for @ do R := R and (R or @) else skip end"
IDLE_LOOPS, IDLE_NODES = 80, 322

G = ("shared m. row w x.\nstart m each not x.\nkeep 1 each not (w and x).\n"
     "command grant if m do\n"
     "for 1 do w := *; x := * else skip end else skip.")
H = G.replace("x := *", "x := not w and *")
H_CASES = H.replace("shared m", "shared M").replace("w :=", "W :=")
VOID = G.replace("start m each not x", "start 1 each 0")
DEPTH = 16
DEEPEST_H = H.replace("and *", f"and {'(' * DEPTH}*{')' * DEPTH}")

AT_ZERO = f"not ({' or '.join(SHARED)}) each not ({' or '.join(ROW)})"


def shares(rng, total, count):
    """Splits the total into that many parts of at least one."""
    parts = [1] * count
    for _ in range(total - count):
        parts[rng.randrange(count)] += 1
    return parts


def expression(rng, names, nodes):
    """As many nodes as asked for."""
    if nodes == 1:
        return rng.choice(names)
    if nodes == 2:
        return "not " + rng.choice(names)
    left = rng.randint(1, nodes - 2)
    parts = [expression(rng, names, left),
             expression(rng, names, nodes - 1 - left)]
    joint = rng.choice([" and ", " or "])
    return joint.join(f"({part})" if len(part) > 5 else part
                      for part in parts)


def with_stars(rng, expressions, stars):
    """The expressions with so many operands of them turned into stars."""
    places = [(i, j) for i, text in enumerate(expressions)
              for j, byte in enumerate(text)
              if byte in SHARED + ROW and not in_word(text, j)]
    starred = [list(text) for text in expressions]
    for i, j in rng.sample(places, stars):
        starred[i][j] = "*"
    return ["".join(text) for text in starred]


def in_word(text, j):
    return text[j - 1:j].isalpha() or text[j + 1:j + 2].isalpha()


def command(rng, name, items, nodes, stars=STARS):
    """A command of so many expression nodes, and its count of code words."""
    whole = f"command {name} if @ do {items[0]} else {items[1]}."
    kinds = scopes(whole)
    sizes = shares(rng, nodes, len(kinds))
    made = with_stars(rng, [expression(rng, names, size)
                            for names, size in zip(kinds, sizes)], stars)
    words = (nodes + 3 + whole.count(":=") + whole.count("skip")
             + 3 * whole.count("for"))
    pieces = whole.split("@")
    text = "".join(piece + filled for piece, filled
                   in zip(pieces, made + [""]))
    chosen = "".join({"S": rng.choice(SHARED), "R": rng.choice(ROW)}
                     .get(byte, byte) for byte in text)
    return chosen, words


def scopes(whole):
    """The names that each expression may read: a row's too inside `for`."""
    kinds = []
    inside = False
    for word in whole.replace("@", " @ ").split():
        if word == "for":
            inside = True
        elif word.rstrip(";.") == "end":
            inside = False
        elif word == "@":
            kinds.append(SHARED + ROW if inside else SHARED)
    return kinds


def model(start, keep, commands):
    return (f"shared {' '.join(SHARED)}. row {' '.join(ROW)}.\n"
            f"start {start}.\nkeep {keep}.\n" + "\n".join(commands))


def wide(keep, items, nodes):
    """12 names and 16 commands of 8 stars, with the code words of each. The
    one start state is 0, and runs reach all states."""
    rng = random.Random(SEED)
    made = [command(rng, f"k{j}", items, nodes) for j in range(COMMANDS)]
    text = model(AT_ZERO, keep, [spelled for spelled, _ in made])
    words = {count for _, count in made}
    assert len(words) == 1 and len(text) <= LONGEST_TEXT
    return text, words.pop()


def longest_command():
    """12 names and one command, with its code words. All states start, and so
    runs reach all of them."""
    made, words = command(random.Random(SEED), "k", *LONGEST, FILLING_STARS)
    text = model("1 each 1", "1 each 1", [made])
    assert len(text) <= LONGEST_TEXT
    return text, words


def long_text():
    """As many bytes as a text may have: the longest names, alike up to their
    last letter, and blanks. The one start state breaks the property."""
    text, _ = wide("0 each 1", *LONG)
    text = re.sub(rf"\b([{SHARED + ROW}])\b", r"a_name_so_long_\1", text)
    while len(text) < LONGEST_TEXT:
        text = text.replace(" ", "  ", LONGEST_TEXT - len(text))
    return text


def raised(j):
    """Bit j of the state's number plus 1, from the bits before."""
    names = SHARED + ROW
    if j == 0:
        return f"{names[0]} := not {names[0]}"
    bit, lower = names[j], " and ".join(names[:j])
    return f"{bit} := {bit} and not ({lower}) or not {bit} and {lower}"


def counter(test, before=""):
    """A command that adds 1 to the state's number where the test holds."""
    downwards = [raised(j) for j in reversed(range(BITS))]
    row, shared = downwards[:len(ROW)], downwards[len(ROW):]
    return (f"command tick if {test} do {before}for 1 do {'; '.join(row)}"
            f" else skip end; {'; '.join(shared)} else skip.")


def idle_loops():
    """What fills up a command and changes nothing."""
    rng = random.Random(SEED)
    sizes = iter(shares(rng, IDLE_NODES, 2 * IDLE_LOOPS))
    loops = [IDLE_LOOP.replace("R", ROW[j % len(ROW)])
             for j in range(IDLE_LOOPS)]
    return re.sub("@", lambda _: expression(rng, SHARED + ROW, next(sizes)),
                  "; ".join(loops) + "; ")


def idle(j):
    """A command of 8 stars that changes nothing."""
    s, r = SHARED[j % len(SHARED)], ROW[j % len(ROW)]
    return (f"command k{j} if * do for * do {r} := {r} and ({r} or *)"
            f" else {r} := {r} or {r} and * end"
            f" else {s} := {s} and ({s} or * and * and * and *).")


def count_up(commands, bits):
    """From 0 each step leads on to the next number, and the first with so many
    bits, all set, breaks."""
    last = " and ".join((SHARED + ROW)[:bits])
    return model(AT_ZERO, f"1 each not ({last})", commands)


def short_count(bits):
    return count_up([counter("1")], bits)


def longest_count():
    """The counter needs the last choice word, and its code is as long as the
    limits allow."""
    text = count_up([counter(" and ".join("*" * FILLING_STARS),
                             idle_loops())], BITS)
    assert len(text) <= LONGEST_TEXT
    return text


def starry_count(bits):
    """The counter is the last command and needs its last choice word, so all
    the others are tried in vain from each state."""
    return count_up([idle(j) for j in range(COMMANDS - 1)]
                    + [counter(" and ".join("*" * STARS))], bits)
