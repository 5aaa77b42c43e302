"""Reservations that are wrong in one way each: a corpus that does not tell
them from the right ones is too weak. Each takes a table."""

from evidence.reservations import Reservation, reservation
from evidence.sheets import map_length
from evidence.values import in_items
from reader.model import Assignment, For
from rows.tables import outer_stars, stars_in


def stars_of(table):
    return [command.stars for command in table.model.commands]


def by_trials(trials):
    """Right but for the trials."""
    def reserve(table):
        return reservation(table)._replace(trials=trials(table))
    return reserve


def by_sum(words):
    """Other words at a state, by the stars of the commands."""
    return by_trials(lambda table: table.states * words(stars_of(table)))


def by_counts(change):
    """Right for commands that have other numbers of stars."""
    return by_sum(lambda counts: sum(2 ** count for count in change(counts)))


def by_words(words):
    """Another number of words for so many stars."""
    return by_sum(lambda counts: sum(map(words, counts)))


# Not wrong: one after another each command has its words.
added_up = by_sum(lambda counts: sum(1 << count for count in counts[::-1]))

states_alone = by_trials(lambda table: table.states)
words_alone = by_trials(lambda table: reservation(table).trials
                        // table.states)
states_and_words = by_trials(
    lambda table: table.states + reservation(table).trials // table.states)
one_state_fewer = by_trials(
    lambda table: (table.states - 1) * reservation(table).trials
    // table.states)
one_state_more = by_trials(
    lambda table: (table.states + 1) * reservation(table).trials
    // table.states)
names_for_states = by_trials(
    lambda table: table.names * reservation(table).trials // table.states)
one_trial_more = by_trials(lambda table: reservation(table).trials + 1)
one_trial_fewer = by_trials(lambda table: reservation(table).trials - 1)
in_16_bits = by_trials(lambda table: reservation(table).trials % (1 << 16))
in_24_bits = by_trials(lambda table: reservation(table).trials % (1 << 24))
at_most_65535 = by_trials(lambda table: min(65535,
                                            reservation(table).trials))

commands_alone = by_sum(len)
# The product of the words is 2 to the number of all stars.
product = by_sum(lambda counts: 2 ** sum(counts))
most_words_alone = by_sum(lambda counts: 2 ** max(counts))
most_words_for_all = by_sum(lambda counts: len(counts) * 2 ** max(counts))
first_words_for_all = by_sum(lambda counts: len(counts) * 2 ** counts[0])
one_word_more = by_sum(
    lambda counts: sum(2 ** count for count in counts) + 1)

stars_for_words = by_words(lambda count: count)
twice_the_stars = by_words(lambda count: 2 * count)
square_of_stars = by_words(lambda count: count ** 2)
one_more_than_stars = by_words(lambda count: count + 1)
last_word_left_out = by_words(lambda count: 2 ** count - 1)
one_bit_more = by_words(lambda count: 2 ** (count + 1))
no_words_without_stars = by_words(
    lambda count: 2 ** count if count else 0)
words_to_63 = by_words(lambda count: 2 ** min(count, 6))
words_to_127 = by_words(lambda count: 2 ** min(count, 7))
words_in_a_byte = by_words(lambda count: 2 ** count % 256)
in_batches = by_words(lambda count: -(-2 ** count // 64))

without_first_command = by_counts(lambda counts: counts[1:])
without_last_command = by_counts(lambda counts: counts[:-1])
fifteen_commands = by_counts(lambda counts: counts[:15])
a_command_more = by_counts(lambda counts: counts + [0])
first_command_twice = by_counts(lambda counts: counts[:1] + counts)
equal_ones_once = by_counts(set)
last_bits_forgotten = by_counts(lambda counts: counts[:-1] + [0])


def bits_forgotten(place):
    """One command counts as one without stars."""
    return by_counts(lambda counts: [0 if at == place else count
                                     for at, count in enumerate(counts)])


def stars_among(trees):
    return sum(len(stars_in(tree)) for tree in trees)


def without(place):
    """Stars that stand in one place of a command are not counted."""
    return by_trials(lambda table: table.states * sum(
        2 ** (command.stars - stars_among(place(command)))
        for command in table.model.commands))


def of_kind(command, kind):
    return [item for item in command.yes + command.no
            if isinstance(item, kind)]


without_inside = by_trials(lambda table: table.states * sum(
    2 ** len(outer_stars(command)) for command in table.model.commands))
without_outside = by_trials(lambda table: table.states * sum(
    2 ** (command.stars - len(outer_stars(command)))
    for command in table.model.commands))
without_tests = without(lambda command: [command.test])
without_do = without(lambda command: in_items(command.yes))
without_else = without(lambda command: in_items(command.no))
without_values = without(
    lambda command: [item.value for item in of_kind(command, Assignment)])
without_conditions = without(
    lambda command: [loop.condition for loop in of_kind(command, For)])
without_row_do = without(
    lambda command: [tree for loop in of_kind(command, For)
                     for tree in in_items(loop.yes)])
without_row_else = without(
    lambda command: [tree for loop in of_kind(command, For)
                     for tree in in_items(loop.no)])


def by_entries(entries):
    """Right but for the entries."""
    def reserve(table):
        return reservation(table)._replace(entries=entries(table))
    return reserve


one_entry_more = by_entries(lambda table: table.states + 1)
one_entry_fewer = by_entries(lambda table: table.states - 1)
both_tables = by_entries(lambda table: 2 * table.states)
shared_alone = by_entries(lambda table: 1 << table.shared)
row_alone = by_entries(lambda table: 1 << table.names - table.shared)
bits_of_states = by_entries(lambda table: table.names)
twice_the_names = by_entries(lambda table: 2 * table.names)
at_least_8 = by_entries(lambda table: max(8, table.states))
always_4096 = by_entries(lambda table: 4096)
below_4096 = by_entries(lambda table: table.states % 4096)


def by_bytes(size):
    """Right but for the bytes."""
    def reserve(table):
        return reservation(table)._replace(bytes=size(table))
    return reserve


without_7 = by_bytes(lambda table: 10 * table.states)
one_byte_below_10_each = by_bytes(lambda table: 10 * table.states - 1)
one_byte_more = by_bytes(lambda table: 8 + 10 * table.states)
one_byte_fewer = by_bytes(lambda table: 6 + 10 * table.states)
a_step_more = by_bytes(lambda table: 17 + 10 * table.states)
a_step_fewer = by_bytes(lambda table: 10 * table.states - 3)
four_to_a_step = by_bytes(lambda table: 7 + 4 * table.states)
of_the_map = by_bytes(lambda table: 15 + map_length(table.states))
below_32768 = by_bytes(lambda table: (7 + 10 * table.states) % 32768)
always_40967 = by_bytes(lambda table: 40967)


def in_order(*names):
    """The right numbers, one for another."""
    def reserve(table):
        right = reservation(table)._asdict()
        return Reservation(*(right[name] for name in names))
    return reserve


bytes_first = in_order("bytes", "entries", "trials")
trials_first = in_order("trials", "entries", "bytes")
bytes_last = in_order("entries", "trials", "bytes")
entries_last = in_order("bytes", "trials", "entries")
