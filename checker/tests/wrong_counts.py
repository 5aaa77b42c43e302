"""Counts of states that are wrong in one way each: a corpus that does not
tell them from the right ones is too weak. Each takes a table and the members
of its map and gives the lines behind `safe`."""

from collections import Counter

from evidence.report import count_lines, report_lines
from evidence.sheets import map_length


def told(total, counts):
    return [f"states {total}"] + [f"at {number} {count}"
                                  for number, count in counts]


def low(table, state):
    return state % (1 << table.shared)


def row_names(table):
    return table.names - table.shared


def counted(table, members, number=low):
    """Pairs of a setting, by some number of a state, and its count."""
    return sorted(Counter(number(table, state) for state in members).items())


def by(number):
    """Counts by another number of a state than its setting."""
    def lines(table, members):
        return told(len(members), counted(table, members, number))
    return lines


def reversed_bits(table, state):
    bits = f"{low(table, state):0{table.shared}b}" if table.shared else "0"
    return int(bits[::-1], 2)


# Not wrong: the remainder is the setting.
by_remainder = by(low)

by_row_names = by(lambda table, state: state >> table.shared)
past_as_many_as_row_names = by(
    lambda table, state: state >> row_names(table))
of_as_many_as_row_names = by(
    lambda table, state: state % (1 << row_names(table)))
of_reversed_bits = by(reversed_bits)
of_one_name_fewer = by(
    lambda table, state: state % (1 << max(0, table.shared - 1)))
of_one_name_more = by(
    lambda table, state: state % (1 << min(table.names, table.shared + 1)))
of_the_place_in_a_byte = by(lambda table, state: low(table, state % 8))
of_the_byte = by(lambda table, state: low(table, state // 8))
from_one = by(lambda table, state: low(table, state) + 1)


def of_other_states(holds):
    """Counts other states of the table than the members."""
    def lines(table, members):
        return count_lines(table, [state for state in range(table.states)
                                   if holds(table, state, members)])
    return lines


all_states = of_other_states(lambda table, state, members: True)
kept_states = of_other_states(
    lambda table, state, members: not table.breaks(state))
start_states = of_other_states(
    lambda table, state, members: table.starts(state))
without_last_byte = of_other_states(
    lambda table, state, members: state in members
    and state < max(8, table.states - 8))
first_byte_alone = of_other_states(
    lambda table, state, members: state in members and state < 8)
without_lowest_bits = of_other_states(
    lambda table, state, members: state in members and state % 8)


def of_other_total(total):
    """Right but for the total."""
    def lines(table, members):
        return told(total(table, members), counted(table, members))
    return lines


bytes_in_use = of_other_total(
    lambda table, members: len({state // 8 for state in members}))
eight_to_a_byte = of_other_total(
    lambda table, members: 8 * map_length(table.states))
settings_for_states = of_other_total(
    lambda table, members: len(counted(table, members)))
total_in_a_byte = of_other_total(lambda table, members: len(members) % 256)


def of_other_lines(change):
    """Right but for the pairs of setting and count."""
    def lines(table, members):
        return told(len(members), change(table, counted(table, members)))
    return lines


def running(table, counts):
    total = 0
    for number, count in counts:
        total += count
        yield number, total


def empty_too(table, counts):
    return [(number, dict(counts).get(number, 0))
            for number in range(1 << table.shared)]


empty_settings_too = of_other_lines(empty_too)
running_totals = of_other_lines(running)
descending = of_other_lines(lambda table, counts: counts[::-1])
in_the_order_of_words = of_other_lines(
    lambda table, counts: sorted(counts, key=lambda pair: str(pair[0])))
largest_first = of_other_lines(
    lambda table, counts: sorted(counts, key=lambda pair: -pair[1]))
without_a_single_setting = of_other_lines(
    lambda table, counts: counts if len(counts) > 1 else [])
without_last_setting = of_other_lines(
    lambda table, counts: [pair for pair in counts
                           if pair[0] < max(1, (1 << table.shared) - 1)])
counts_in_a_byte = of_other_lines(
    lambda table, counts: [(number, count % 256) for number, count in counts])
count_before_setting = of_other_lines(
    lambda table, counts: [pair[::-1] for pair in counts])
three_digits_at_most = of_other_lines(
    lambda table, counts: [(number, count % 1000) for number, count in counts])


def without_total(table, members):
    return count_lines(table, members)[1:]


def total_last(table, members):
    total, *lines = count_lines(table, members)
    return lines + [total]


def after_void(text):
    """The lines of a whole report, with a total also where nothing starts."""
    lines = report_lines(text)
    return lines + ["states 0"] if lines[1:] == ["void"] else lines
