"""Readers that are wrong in one way each about the case of letters, each as
what takes the place of a part of the right one."""

import string
from dataclasses import replace

from reader import faults, reading, tokens
from reader.faults import DECLARING, named
from reader.model import Refusal
from reader.notation import FOLLOWING, walk
from reader.tokens import BAD, LONGEST_WORD, MISFIT, NAME, RESERVED

right_cut = reading.cut
right_kind = tokens.word_kind
right_read = reading.read
right_names = reading.names_of
right_repeated = faults.repeated
right_misused = faults.misused


# How names are compared, in place of `reader.reading.cut`.

def compared(same):
    """A name is that of the first name before it which is the same by this
    rule, handed the earlier name and the later one."""
    def cut(text):
        known, found = [], []
        for token in right_cut(text):
            if token.kind == NAME:
                first = next((word for word in known
                              if same(word, token.word)), token.word)
                known.append(token.word)
                token = replace(token, small=first)
            found.append(token)
        return found
    return cut


def by_bytes(change):
    """Each byte is compared as what this makes of it."""
    return compared(lambda one, two: len(one) == len(two)
                    and all(change(ord(first)) == change(ord(second))
                            for first, second in zip(one, two)))


def small_in(part):
    """Only this part of a word, a slice, is compared without case."""
    def small(word):
        letters = list(word)
        letters[part] = word[part].lower()
        return "".join(letters)
    return compared(lambda one, two: small(one) == small(two))


# Not wrong: bytes of words that differ in 0x20 alone are a letter's two cases.
all_small = compared(lambda one, two: one.lower() == two.lower())
bit_set = by_bytes(lambda byte: byte | 0x20)
bit_cleared = by_bytes(lambda byte: byte & 0xDF)

as_written = compared(lambda one, two: one == two)
first_letter = small_in(slice(0, 1))
all_but_first = small_in(slice(1, None))
all_but_last = small_in(slice(0, -1))
last_letter = small_in(slice(-1, None))
first_eight = small_in(slice(0, 8))
from_the_ninth = small_in(slice(8, None))
first_fifteen = small_in(slice(0, 15))
small_finds_capitals = compared(lambda one, two: one in (two, two.upper()))
capitals_find_small = compared(lambda one, two: one in (two, two.lower()))
capitals_found = compared(lambda one, two: two in (one, one.upper()))
small_found = compared(lambda one, two: two in (one, one.lower()))
whole_words_alone = compared(lambda one, two: two in (one, one.swapcase()))
five_bits = by_bytes(lambda byte: byte & 0x1F)
six_bits_of_small = by_bytes(lambda byte: ord(chr(byte).lower()) & 0x3F)
first_half_alone = compared(
    lambda one, two: one[:8].lower() == two[:8].lower()
    and len(one) == len(two))
second_half_alone = compared(
    lambda one, two: one[-8:].lower() == two[-8:].lower()
    and len(one) == len(two))
lengths_unlooked = compared(
    lambda one, two: one.lower().startswith(two.lower())
    or two.lower().startswith(one.lower()))
letters_in_any_order = compared(
    lambda one, two: sorted(one.lower()) == sorted(two.lower()))


def but_for(letter):
    """One letter is told from its capital."""
    return by_bytes(lambda byte: byte if chr(byte).lower() == letter
                    else ord(chr(byte).lower()))


# What a text is before it is cut, in place of `reader.reading.cut`.

def cut_after(change):
    return lambda text: right_cut(bytes(map(change, text)))


def text_in_small(text):
    return right_cut(text.lower())


text_bit_set = cut_after(lambda byte: byte | 0x20)
text_bit_set_from_64 = cut_after(lambda byte: byte | 0x20 * (byte >= 64))
text_bit_cleared = cut_after(lambda byte: byte & 0xDF if byte >= 64 else byte)
text_of_seven_bits = cut_after(lambda byte: byte & 0x7F)


# Which kind a word has, in place of `reader.tokens.word_kind`.

def is_reserved_otherwise(word):
    return word not in RESERVED and word.lower() in RESERVED


def reserved_as(kind, where=is_reserved_otherwise):
    """Of the words picked this is the kind; the right one of all others."""
    return lambda word: (kind(word) if where(word) else right_kind(word))


# Not wrong.
reserved_nowhere = reserved_as(lambda word: MISFIT)

reserved_as_themselves = reserved_as(str.lower)
reserved_as_names = reserved_as(lambda word: NAME)
reserved_as_bad = reserved_as(lambda word: BAD)


def names_unless(spelled):
    """Only so spelled a reserved word is no name."""
    return reserved_as(lambda word: NAME, lambda word: (
        is_reserved_otherwise(word) and word != spelled(word.lower())))


names_unless_capitalised = names_unless(str.capitalize)
names_unless_in_capitals = names_unless(str.upper)
names_unless_last = names_unless(lambda word: word[:-1] + word[-1].upper())


def forgotten(word, kind):
    """One reserved word is of this kind in other cases."""
    return reserved_as(lambda _: kind, lambda other: (
        is_reserved_otherwise(other) and other.lower() == word))


def begins_reserved(word):
    return any(word.lower().startswith(other) for other in RESERVED)


def is_long(word):
    return len(word) > LONGEST_WORD


long_ones_by_their_beginning = reserved_as(
    lambda word: MISFIT, lambda word: is_long(word) and begins_reserved(word))
long_ones_by_their_end = reserved_as(
    lambda word: MISFIT, lambda word: is_long(word) and any(
        word.lower().endswith(other) for other in RESERVED))
long_ones_in_capitals = reserved_as(
    lambda word: MISFIT, lambda word: is_long(word) and word != word.lower())
names_by_their_beginning = reserved_as(
    lambda word: MISFIT, lambda word: right_kind(word) == NAME
    and begins_reserved(word) and word != word.lower())
names_by_a_part = reserved_as(
    lambda word: MISFIT, lambda word: right_kind(word) == NAME and any(
        other.capitalize() in word for other in RESERVED))
names_without_underscores = reserved_as(
    lambda word: MISFIT, lambda word: right_kind(word) == NAME
    and word.lower().rstrip(string.digits + "_") in RESERVED)


# Which refusal, in place of `reader.layout.read`.

def word_at(text, place):
    return next(token.word for token in right_cut(text)
                if token.place == place)


def told(change):
    """This is what becomes of the refusal of a reserved word."""
    def read(text):
        said = right_read(text)
        if isinstance(said, Refusal) and said.number == 3:
            word = word_at(text, said.place)
            if is_reserved_otherwise(word):
                return change(said, word, text)
        return said
    return read


# Not wrong.
refused_with_3 = told(lambda said, word, text: said)

refused_with_2, refused_with_4, refused_with_5, refused_with_7 = (
    told(lambda said, word, text, number=number: Refusal(number, said.place))
    for number in (2, 4, 5, 7))
at_its_end = told(lambda said, word, text: Refusal(3, said.place + len(word)))
at_the_first_capital = told(lambda said, word, text: Refusal(
    3, said.place + next(j for j, letter in enumerate(word)
                         if letter.isupper())))
at_the_texts_end = told(lambda said, word, text: Refusal(3, len(text)))


# Where a reserved word may not be in another case, in place of
# `reader.reading.cut`.

def kind_by_place(pick):
    """Handed whether a name may stand there, and whether the word may."""
    def allowed(before, token, kind):
        tried = replace(token, kind=kind)
        return walk(before + [tried])[1] is not tried

    def cut(text):
        found = []
        for token in right_cut(text):
            if token.kind == MISFIT and is_reserved_otherwise(token.word):
                word = token.word.lower()
                token = replace(token, kind=pick(
                    allowed(found, token, NAME), allowed(found, token, word),
                    word))
            found.append(token)
        return found
    return cut


only_where_a_name_may_stand = kind_by_place(
    lambda name, itself, word: MISFIT if name else word)
only_where_no_name_may_stand = kind_by_place(
    lambda name, itself, word: NAME if name else MISFIT)
only_in_its_own_place = kind_by_place(
    lambda name, itself, word: MISFIT if itself or not name else NAME)
only_out_of_its_place = kind_by_place(
    lambda name, itself, word: word if itself else MISFIT)
operators_alone = kind_by_place(
    lambda name, itself, word: MISFIT if word in ("and", "or", "not")
    else NAME if name else word)


# Repeated names, in place of `reader.faults.repeated`.

def repeating(same):
    """Two declarations, handed with their slots, are of one name."""
    def repeated(parts):
        before = []
        for part in named(parts, *DECLARING):
            if any(same(other, part) for other in before):
                yield Refusal(4, part.token.place)
            before.append(part)
    return repeated


def alike(one, two):
    return one.token.word.lower() == two.token.word.lower()


def as_spelled(one, two):
    return one.token.word == two.token.word


# Not wrong.
repeated_in_any_kind = repeating(alike)

repeated_in_one_kind = repeating(
    lambda one, two: (alike if one.slot == two.slot else as_spelled)(one, two))
repeated_in_other_kinds = repeating(
    lambda one, two: (as_spelled if one.slot == two.slot else alike)(one, two))
commands_as_written = repeating(
    lambda one, two: (as_spelled if two.slot == "command name"
                      else alike)(one, two))


def pair_as_written(first, second):
    """Names of these two slots are compared as they are written."""
    return repeating(lambda one, two: (
        as_spelled if (one.slot, two.slot) == (first, second)
        else alike)(one, two))


def repeated_at_the_first(parts):
    """The place is that of the name which was declared before."""
    places = {}
    for part in named(parts, *DECLARING):
        first = places.setdefault(part.token.small, part.token.place)
        if first != part.token.place:
            yield Refusal(4, first)


def repeated_with_5(parts):
    for fault in right_repeated(parts):
        yield Refusal(5, fault.place)


# Names that are read or assigned, in place of `reader.faults.misused`.

USING = sorted(slot for slot in FOLLOWING
               if slot.endswith((" item", " value", " shared", " row",
                                 " condition", "test")) and slot != "row")


def as_written_in(slot):
    """What stands in this slot is compared as it is written."""
    def misused(parts):
        declared = {part.token.word
                    for part in named(parts, "shared names", "row names")}
        yield from right_misused(parts)
        for part in parts:
            if (part.kind == NAME and part.slot == slot
                    and part.token.word not in declared):
                yield Refusal(5, part.token.place)
    return misused


def kinds_unlooked(parts):
    """A name in another case may be of any kind, a command's too."""
    declared = {part.token.word for part in named(parts, *DECLARING)}
    every = {word.lower() for word in declared}
    places = {part.token.place for part in parts if part.kind == NAME
              and part.token.word not in declared
              and part.token.small in every}
    for fault in right_misused(parts):
        if fault.place not in places:
            yield fault


def wrong_kinds_with_3(parts):
    """A name in another case that does not fit is taken for none."""
    declared = {part.token.word for part in named(parts, *DECLARING)}
    words = {part.token.place: part.token.word for part in parts}
    for fault in right_misused(parts):
        yield (fault if words[fault.place] in declared
               else Refusal(3, fault.place))


# Where a name is told to stand, in place of `reader.reading.names_of`.

def names_at_their_last_use(parts, slot):
    last = {part.token.small: part.token for part in parts
            if part.kind == NAME}
    return tuple(replace(name, word=last[name.word.lower()].word,
                         place=last[name.word.lower()].place)
                 for name in right_names(parts, slot))


# How a command is called, in place of `evidence.report.read`.

def called(change):
    def read(text):
        model = right_read(text)
        if isinstance(model, Refusal):
            return model
        return replace(model, commands=tuple(
            replace(command, name=replace(
                command.name, word=change(command.name.word, text.decode())))
            for command in model.commands))
    return read


def where_first_met(word, text):
    """As the text first spells these letters, in a longer word or not."""
    place = text.lower().index(word.lower())
    return text[place:place + len(word)]


def where_last_met(word, text):
    place = text.lower().rindex(word.lower())
    return text[place:place + len(word)]


# Not wrong.
as_declared = called(lambda word, text: word)

in_small_letters = called(lambda word, text: word.lower())
in_capitals = called(lambda word, text: word.upper())
capitalised = called(lambda word, text: word.capitalize())
first_letter_small = called(lambda word, text: word[0].lower() + word[1:])
as_first_met = called(where_first_met)
as_last_met = called(where_last_met)
