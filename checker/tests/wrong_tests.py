"""Parts of the acceptance test, each wrong in one way: a corpus that does not
tell them from the right ones is too weak."""

from evidence.acceptance import (map_answer, map_fault, trace_answer,
                                 trace_fault)
from evidence.one_row import OneRow
from evidence.searching import search
from evidence.sheets import contents, header, map_length
from tests.wrong_tables import (AllButLastState, FifteenCommands,
                                FirstStateAlone, PartsOfStartApart,
                                WordsBelow64)

MAP_KIND = b"\2\0"


class WordsBelow255(OneRow):
    def steps_from(self, state):
        return (step for step in super().steps_from(state) if step[1] < 255)


class OldValues(OneRow):
    """Takes every value of a list from the state before the list."""

    def after(self, items, state, word):
        result = state
        for item in items:
            changed = super().after([item], state, word)
            bits = changed ^ state
            result = result & ~bits | changed & bits
        return result


class SharedPartOfStart(OneRow):
    def starts(self, state):
        return self.value(self.model.start.shared, state, 0)


class RowPartOfKeep(OneRow):
    def breaks(self, state):
        return not self.value(self.model.keep.row, state, 0)


def reached_members(table, members):
    """Judges only the members that runs lead to."""
    found = search(table)
    return map_fault(table, members if isinstance(found, tuple)
                     else members & found)


def all_but_last_member(table, members):
    """Takes no step from the last member."""
    fault = map_fault(table, members)
    if fault != "C":
        return fault
    left = any(after not in members for state in members - {max(members)}
               for _, _, after in table.steps_from(state))
    return "C" if left else None


def breaks_before_starts(table, members):
    if any(map(table.breaks, members)):
        return "B"
    return map_fault(table, members)


def never_void(table, members):
    """Takes a model in which nothing starts for a safe one."""
    return map_fault(table, members) or "safe holds"


def void_of_empty_map_alone(table, members):
    said = map_answer(table, members)
    return "safe holds" if said == "void" and members else said


def void_of_any_empty_map(table, members):
    """Does not ask which start states the empty map lacks."""
    return map_answer(table, members) if members else "void"


def void_before_faults(table, members):
    """Looks at no member where nothing starts."""
    return map_answer(table, members) if table.can_start() else "void"


def void_of_traces(table, start, steps):
    return (trace_answer(table, start, steps) if table.can_start()
            else "void")


def without_end(table, start, steps):
    """D or E, or None whatever the last state is."""
    fault = trace_fault(table, start, steps)
    return None if fault == "F" else fault


def end_fault(table, start, steps):
    last = steps[-1][2] if steps else start
    return None if table.breaks(last) else "F"


def first_step(table, start, steps):
    return (without_end(table, start, steps[:1])
            or end_fault(table, start, steps))


def all_but_last_step(table, start, steps):
    return (without_end(table, start, steps[:-1])
            or end_fault(table, start, steps))


def any_word(table, start, steps):
    """Lets a step pass if some choice word leads to its state."""
    if not table.starts(start):
        return "D"
    state = start
    for command, _, after in steps:
        if all(table.step(state, command, word) != after
               for word in range(table.words(command))):
            return "E"
        state = after
    return end_fault(table, start, steps)


def steps_before_start(table, start, steps):
    state = start
    for command, word, after in steps:
        if table.step(state, command, word) != after:
            return "E"
        state = after
    return trace_fault(table, start, steps)


def break_anywhere(table, start, steps):
    """Is content with a break on the way."""
    states = [start] + [after for _, _, after in steps]
    return (without_end(table, start, steps)
            or (None if any(map(table.breaks, states)) else "F"))


def header_unread(sheet, table):
    return contents(header(table) + sheet[9:], table)


def unused_bits_allowed(sheet, table):
    if sheet[13:15] == MAP_KIND and len(sheet) > 15:
        used = sheet[15] % (1 << min(8, table.states))
        sheet = sheet[:15] + bytes([used]) + sheet[16:]
    return contents(sheet, table)


def more_after_map(sheet, table):
    if sheet[13:15] == MAP_KIND:
        sheet = sheet[:15 + map_length(table.states)]
    return contents(sheet, table)


def start_cut_to_names(sheet, table):
    if sheet[13:15] != MAP_KIND and len(sheet) >= 17:
        start = int.from_bytes(sheet[15:17], "little") % table.states
        sheet = sheet[:15] + start.to_bytes(2, "little") + sheet[17:]
    return contents(sheet, table)


def words_cut_to_stars(sheet, table):
    if sheet[13:15] != MAP_KIND:
        changed = bytearray(sheet)
        for place in range(23, len(sheet) - 1, 10):
            if sheet[place] < table.commands:
                changed[place + 1] %= table.words(sheet[place])
        sheet = bytes(changed)
    return contents(sheet, table)


def cut_step_dropped(sheet, table):
    if sheet[13:15] != MAP_KIND and len(sheet) > 17:
        sheet = sheet[:len(sheet) - (len(sheet) - 17) % 10]
    return contents(sheet, table)
