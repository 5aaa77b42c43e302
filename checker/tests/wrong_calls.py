"""Calls that are wrong in one way each: in what they ask to be lent, in the
order of refusals, in what they leave. They take what is due and what is
lent, and give the answer with what is left."""

from evidence.calls import reserve_leaves, search_leaves
from reader.model import Refusal


def asking(least):
    """So many entries are asked for; three are written."""
    def call(due, memory, count):
        if isinstance(due, Refusal) or count >= least:
            return reserve_leaves(due, memory, 3)
        return reserve_leaves(due, memory, 0)
    return call


# Not wrong.
three_asked_for = asking(3)

two_asked_for = asking(2)
one_asked_for = asking(1)
none_asked_for = asking(0)
four_asked_for = asking(4)
five_asked_for = asking(5)


def eight_before_the_text(due, memory, count):
    return (("refused 8 0", memory[:]) if count < 3
            else reserve_leaves(due, memory, count))


def eight_before_a_long_text(due, memory, count):
    """Only the length of a text comes before 8."""
    if due == Refusal(1, 16384):
        return reserve_leaves(due, memory, count)
    return eight_before_the_text(due, memory, count)


def as_many_as_are_lent(due, memory, count):
    """Where few are lent, few are written."""
    if isinstance(due, Refusal):
        return reserve_leaves(due, memory, count)
    few = min(count, 3)
    return "reserved 0", [*due[:few], *memory[few:]]


def told_elsewhere(change):
    """Right but for the answer."""
    def call(due, memory, count):
        said, left = reserve_leaves(due, memory, count)
        return change(said, due, count), left
    return call


trials_in_the_answer = told_elsewhere(
    lambda said, due, count: (f"reserved {due.trials}"
                              if said == "reserved 0" else said))
entries_in_the_answer = told_elsewhere(
    lambda said, due, count: (f"reserved {due.entries}"
                              if said == "reserved 0" else said))
place_of_eight = told_elsewhere(
    lambda said, due, count: (f"refused 8 {count}"
                              if said == "refused 8 0" else said))
place_forgotten = told_elsewhere(
    lambda said, due, count: (f"refused {due.number} 0"
                              if isinstance(due, Refusal) else said))
eight_for_the_text = told_elsewhere(
    lambda said, due, count: ("refused 8 0" if isinstance(due, Refusal)
                              else said))


def left_elsewhere(change):
    """Right but for what is left."""
    def call(due, memory, count):
        said, left = reserve_leaves(due, memory, count)
        return said, change(said, due, left, count)
    return call


def cleared(entries, first, last):
    return entries[:first] + [0] * (last - first) + entries[last:]


fourth_cleared = left_elsewhere(
    lambda said, due, left, count: (cleared(left, 3, 4)
                                    if said == "reserved 0" and count > 3
                                    else left))
rest_cleared = left_elsewhere(
    lambda said, due, left, count: (cleared(left, 3, max(3, count))
                                    if said == "reserved 0" else left))
behind_cleared = left_elsewhere(
    lambda said, due, left, count: (cleared(left, 3, 4)
                                    if said == "reserved 0" and count == 3
                                    else left))
cleared_by_refusals = left_elsewhere(
    lambda said, due, left, count: (cleared(left, 0, count)
                                    if isinstance(due, Refusal) else left))
cleared_by_eight = left_elsewhere(
    lambda said, due, left, count: (cleared(left, 0, count)
                                    if said == "refused 8 0" else left))
filled_by_eight = left_elsewhere(
    lambda said, due, left, count: ([*due[:count], *left[count:]]
                                    if said == "refused 8 0" else left))
trials_unwritten = left_elsewhere(
    lambda said, due, left, count: (cleared(left, 2, 3)
                                    if said == "reserved 0" else left))


def lent_otherwise(entries=(0, 0), size=0):
    """Asks for so many more of each."""
    def call(due, first, second, buffer):
        if isinstance(due, Refusal):
            return search_leaves(due, first, second, buffer)
        needed = due.reservation.entries
        enough = (len(first) >= needed + entries[0]
                  and len(second) >= needed + entries[1]
                  and len(buffer) >= due.reservation.bytes + size)
        if not enough:
            return "refused 8 0", first[:], second[:], buffer[:]
        return (f"{due.verdict} {len(due.sheet)}",
                [0] * needed + first[needed:], [0] * needed + second[needed:],
                bytearray(due.sheet) + buffer[len(due.sheet):])
    return call


# Not wrong.
lent_as_reserved = lent_otherwise()

an_entry_more_first = lent_otherwise((1, 0))
an_entry_more_second = lent_otherwise((0, 1))
a_byte_more = lent_otherwise(size=1)
an_entry_fewer_first = lent_otherwise((-1, 0))
an_entry_fewer_second = lent_otherwise((0, -1))
a_byte_fewer = lent_otherwise(size=-1)


def room_for_this_sheet(due, first, second, buffer):
    """Looks whether the sheet fits that is written, not the longest."""
    if isinstance(due, Refusal):
        return search_leaves(due, first, second, buffer)
    return lent_otherwise(size=len(due.sheet) - due.reservation.bytes)(
        due, first, second, buffer)


def eight_before_the_text_of_a_search(due, first, second, buffer):
    if isinstance(due, Refusal) and not (first and second and buffer):
        return "refused 8 0", first, second, buffer
    return search_leaves(due, first, second, buffer)


def tables_cleared_by_eight(due, first, second, buffer):
    said, *left = search_leaves(due, first, second, buffer)
    if said == "refused 8 0":
        left[:2] = [0] * len(first), [0] * len(second)
    return said, *left
