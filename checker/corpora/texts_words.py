"""Texts about bytes, words and reserved words."""

import string

from inputs.phrases import LONG, SKIPPING, TOO_LONG, command, loop, model
from reader.tokens import RESERVED


def every_byte():
    for byte in range(256):
        yield f"{byte} in a name", (
            f"shared a{chr(byte)}b.row."
            f"start 1 each 1.keep 1 each 1.{SKIPPING}")


def bytes_elsewhere():
    """Bytes at and just beyond the edges of what is allowed."""
    chosen = (0, 8, 9, 10, 11, 13, 31, 32, 33, 39, 40, 41, 42, 43, 45, 46, 47,
              48, 57, 58, 59, 60, 61, 62, 64, 65, 90, 91, 94, 95, 96, 97, 122,
              123, 126, 127, 128, 160, 192, 223, 255)
    for byte in chosen:
        char = chr(byte)
        yield f"{byte} alone", char
        yield f"{byte} first", char + model()
        yield f"{byte} last", model() + char
        yield f"{byte} as an operand", model(start=(char, "1"))
        yield f"{byte} between items", model(
            commands=[command(yes=f"skip{char}skip")])
    for char in "\t\r,#-/{}<>+&|!\"'[]@$%^~?\\`":
        yield f"{char!r} after a word -> 2", f"shared{char}"
    yield "comment mark -> 2", "# a comment\n" + model()
    yield "slashes -> 2", model() + " // more"
    yield "comment in parentheses and stars -> 3", "(* a *) " + model()
    yield "byte order mark -> 2", "\xef\xbb\xbf" + model()
    yield "carriage returns -> 2", model().replace(" ", "\r\n")
    yield "bad byte within a long run -> 2", "shared abcdefgh\tijklmnopq"
    yield "bad byte between words of 16 -> 2", f"shared {LONG}\x00{LONG}."
    yield "long word parted by a bad byte -> 2", f"shared {TOO_LONG}\x00a."
    yield "bad byte then long word -> 2", f"shared a\x00{TOO_LONG}."


def words():
    for length in (1, 2, 15, 16, 17, 18, 32, 300):
        word = "".join(string.ascii_letters[j % 52] for j in range(length))
        meant = "model" if length <= 16 else "2"
        yield f"shared name of {length} -> {meant}", model(word)
        yield f"row name of {length} -> {meant}", model("S", word)
        yield f"command name of {length} -> {meant}", model(
            commands=[command("C" + word[1:])])
        yield f"read name of {length} -> {meant}", model(
            word, start=(word, word))
        yield f"target of {length} -> {meant}", model(
            word, commands=[command(yes=f"{word}:=1")])
        misfit = "3" if length <= 16 else "2"
        constant = "model" if length == 1 else misfit
        yield f"{length} ones -> {constant}", model(start=("1" * length, "1"))
        yield f"{length} zeros -> {constant}", model(start=("1", "0" * length))
        yield f"{length} underscores -> {misfit}", model("_" * length)
        yield f"reserved word grown to {length}", model(
            "shared"[:length] + "d" * (length - 6))
    for word in ("2", "9", "00", "01", "10", "11", "0a", "1a", "1_", "_", "_a",
                 "_0", "0_", "__1", "9z", "1each", "0and1"):
        yield f"{word} as a name -> 3", model(word)
        yield f"{word} as an operand -> 3", model(start=("1", word))
        yield f"{word} as a target -> 3", model(
            commands=[command(yes=f"{word}:=1")])
    for char in string.ascii_letters:
        yield f"name {char} -> model", model(
            char, f"{char}0 {char}_", start=(char, char + "_"),
            commands=[command(char + char)])
    for char in string.digits + "_":
        yield f"names that use {char} -> model", model(
            f"a{char} a{char}{char}", f"Z{char}z", start=("a" + char, "1"))
    yield "all digits and underscores -> model", model(
        "a0123456789_____ Z_z_0_9", "z9_Z A_________0", start=("Z_z_0_9", "1"))
    yield "a name that begins another -> model", model(
        "a aa aaa", "aaaa", start=("aa or aaa", "aaaa or a"))
    yield "an undeclared beginning -> 5", model("aa", "x", start=("a", "1"))
    yield "an undeclared growth -> 5", model("aa", "x", start=("aaa", "1"))
    yield "last byte differs at 16 -> 5", model(
        LONG, start=(LONG[:15] + "q", "1"))
    yield "long word at the text's start -> 2", TOO_LONG + " " + model()
    yield "long word at the text's end -> 2", model() + TOO_LONG
    yield "long word of digits at the text's end -> 2", model() + "1" * 17
    yield "long word after a mark -> 2", f"shared.{TOO_LONG}"
    yield "two long words -> 2", f"{TOO_LONG} {TOO_LONG}"


def reserved():
    for word in RESERVED:
        yield f"{word} as a shared name -> 3", model(f"s {word} t", "r")
        yield f"{word} as a row name -> 3", model("s", f"r {word} t")
        yield f"{word} as a command -> 3", model(commands=[command(word)])
        yield f"{word} as an operand", model(start=(f"a and {word}", "1"))
        yield f"{word} as a target", model(
            commands=[command(yes=f"{word} := 1")])
        yield f"{word} as a row target -> 3", model(
            commands=[command(yes=loop(yes=f"{word} := 1"))])
        like = (word + "_", word + "0", word + "s", word[:-1], "a" + word)
        yield f"words like {word} -> model", model(
            " ".join(like),
            commands=[command(word + word, like[0], f"{like[1]}:=1")])


GROUPS = (every_byte, bytes_elsewhere, words, reserved)
