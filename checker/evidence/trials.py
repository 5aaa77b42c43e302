"""The trials of a search, counted one by one as they are made.

This is a second way to search, which goes forward from state to state: first
come first served, at each state the commands in order, and of each command
the choice words in order.
"""


def made(table):
    """How many trials are made, and whether the last of them, or a start,
    led to a break."""
    count = 0
    waiting = [state for state in range(table.states) if table.starts(state)]
    if any(map(table.breaks, waiting)):
        return count, True
    met = set(waiting)
    # What is met on the way is appended, so the loop comes to it in its turn.
    for state in waiting:
        for _, _, after in table.steps_from(state):
            count += 1
            if after in met:
                continue
            if table.breaks(after):
                return count, True
            met.add(after)
            waiting.append(after)
    return count, False


def returned(table):
    """The trials that a search returns: none where it meets a break."""
    count, broken = made(table)
    return 0 if broken else count
