"""The numbers that the functions for C answer with, in the words of the
checker. The low byte says which answer it is."""

TEST = {"s": "safe holds", "v": "void", "t": "trace holds"}
VERDICTS = {"s": "safe", "v": "void", "u": "unsafe"}
POSITIONS = {"p": "paused", "e": "ended"}
QUESTIONS = {"y": "yes", "n": "no"}
PLAYER = {"o": "opened", "m": "moved", "e": "end", "f": "foreign"}


def refusal(said):
    return f"refused {said & 255} {said >> 8}"


def read_told(said):
    """The rest of the answer is three counts, a byte each."""
    if said & 255 != ord("m"):
        return refusal(said)
    shared, row, commands = (said >> shift & 255 for shift in (8, 16, 24))
    return f"model {shared} {row} {commands}" + beyond(said >> 32)


def test_told(said):
    low = chr(said & 255)
    if not low.isalpha():
        return refusal(said)
    return TEST.get(low, low) + beyond(said >> 8)


def told_by(letters, said):
    """An answer by one of these letters, or the test's."""
    low = chr(said & 255)
    if low not in letters:
        return test_told(said)
    return letters[low] + beyond(said >> 8)


def question_told(said):
    return told_by(QUESTIONS, said)


def player_told(said):
    return told_by(PLAYER, said)


def steps_told(said):
    """The rest of the answer is the number of steps, or the most times that a
    command occurs, and 65,536 times the place."""
    low = chr(said & 255)
    if low == "n":
        return f"steps {said >> 8}"
    if low == "b":
        return f"burst {said >> 8 & 65535} {said >> 24}"
    return test_told(said)


def search_told(said):
    """The rest of the answer is the length, and 65,536 times the trials."""
    low = chr(said & 255)
    if low not in VERDICTS:
        return refusal(said)
    return f"{VERDICTS[low]} {said >> 8 & 65535} {said >> 24}"


def reserve_told(said):
    return (f"reserved {said >> 8}" if said & 255 == ord("r")
            else refusal(said))


def position_told(said):
    """The rest of the answer is a bit for a break, then the states expanded
    and met, of 13 bits each, then the trials."""
    low = chr(said & 255)
    if low not in POSITIONS:
        return refusal(said)
    expanded, met = said >> 9 & 8191, said >> 22 & 8191
    broken = said >> 8 & 1
    return (f"{POSITIONS[low]} {expanded} {met} {said >> 35}"
            + " broken" * broken)


def beyond(rest):
    """Where nothing more is to be said, there should be nothing."""
    return f", then {rest}" if rest else ""
