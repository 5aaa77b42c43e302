"""Trials that a wrong search returns with its verdict, wrong in one way each.
Each takes a table and what is due. Then wrong ways to put length and trials
in one number."""

from evidence.reservations import trials_at_a_state
from evidence.trials import made
from tests.stand_ins import members
from tests.wrong_tables import FifteenCommands, WordsBelow64


def where(*verdicts):
    """Right but after some verdicts."""
    def chosen(trials):
        return lambda table, due: (trials(table, due)
                                   if due.verdict in verdicts else due.trials)
    return chosen


def at_states(holds):
    """Of other states than the members of the map."""
    return where("safe")(lambda table, due: trials_at_a_state(table) * sum(
        holds(table, state) for state in range(table.states)))


def of_words(words):
    """Other words at each member."""
    return where("safe")(lambda table, due: members(due) * words(table))


def of_other_steps(kind):
    """Those of a table in which some words or commands are left out."""
    return where("safe")(lambda table, due: made(kind(table.model))[0])


safe = where("safe")
void = where("void")
unsafe = where("unsafe")

# Not wrong: each member has its trials.
each_member = of_words(trials_at_a_state)

never = safe(lambda table, due: 0)
of_all_states = at_states(lambda table, state: True)
of_kept_states = at_states(lambda table, state: not table.breaks(state))
of_start_states = at_states(lambda table, state: table.starts(state))
members_alone = of_words(lambda table: 1)
commands_alone = of_words(lambda table: table.commands)
without_first_command = of_words(
    lambda table: trials_at_a_state(table) - table.words(0))
without_last_command = of_words(
    lambda table: trials_at_a_state(table) - table.words(table.commands - 1))
in_batches = of_words(
    lambda table: sum(-(-table.words(command) // 64)
                      for command in range(table.commands)))
words_at_a_state = safe(lambda table, due: trials_at_a_state(table))
words_below_64 = of_other_steps(WordsBelow64)
fifteen_commands = of_other_steps(FifteenCommands)
one_more = safe(lambda table, due: due.trials + 1)
one_fewer = safe(lambda table, due: due.trials - 1)
a_state_more = safe(lambda table, due: due.trials + trials_at_a_state(table))
a_state_fewer = safe(lambda table, due: due.trials - trials_at_a_state(table))
into_the_map = safe(lambda table, due: members(due) - sum(
    map(table.starts, range(table.states))))
states_added = safe(lambda table, due: due.trials + table.states)
in_a_byte = safe(lambda table, due: due.trials % 256)
in_16_bits = safe(lambda table, due: due.trials % 65536)
at_most_65535 = safe(lambda table, due: min(65535, due.trials))
in_24_bits = safe(lambda table, due: due.trials % (1 << 24))

until_the_break = unsafe(lambda table, due: made(table)[0])
before_the_break = unsafe(lambda table, due: max(0, made(table)[0] - 1))
most_though_unsafe = unsafe(lambda table, due: due.reservation.trials)
words_though_unsafe = unsafe(lambda table, due: trials_at_a_state(table))
steps_though_unsafe = unsafe(lambda table, due: (len(due.sheet) - 17) // 10)

most_though_void = void(lambda table, due: due.reservation.trials)
words_though_void = void(lambda table, due: trials_at_a_state(table))
states_though_void = void(lambda table, due: table.states)
one_though_void = void(lambda table, due: 1)


def trials_first(length, trials):
    return trials + 65536 * length


def length_alone(length, trials):
    return length


def trials_alone(length, trials):
    return trials


def sum_of_both(length, trials):
    return length + trials


def trials_from_byte_2(length, trials):
    return length + 256 * trials


def trials_from_byte_4(length, trials):
    return length + (1 << 24) * trials


def by_65535(length, trials):
    return length + 65535 * trials


def in_40_bits(length, trials):
    """The rest of an answer of 48 bits."""
    return (length + 65536 * trials) % (1 << 40)


def in_24_bits_of_rest(length, trials):
    """The rest of an answer of 32 bits."""
    return (length + 65536 * trials) % (1 << 24)
