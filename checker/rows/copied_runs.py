"""A run of one row, copied to every row of a larger table."""

from rows.tables import is_broken, is_start, outer_stars, run


def spread(table, state, rows):
    """The state of so many rows, each a copy of the one-row state's row."""
    bits = tuple(state >> j & 1 == 1 for j in range(table.names))
    return bits[:table.shared], (bits[table.shared:],) * rows


def copied_run_holds(table, start, steps, rows):
    state = spread(table, start, rows)
    if not is_start(table.model, state):
        return False
    for number, word, after in steps:
        command = table.model.commands[number]
        chosen = {j: word >> j & 1 == 1 for j in range(command.stars)}
        outside = set(outer_stars(command))
        outer = {j: bit for j, bit in chosen.items() if j in outside}
        inner = {j: bit for j, bit in chosen.items() if j not in outside}
        state = run(command, outer, [inner] * rows, state)
        if state != spread(table, after, rows):
            return False
    return is_broken(table.model, state)
