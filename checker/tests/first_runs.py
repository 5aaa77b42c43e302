"""The pauses of a search in portions, from the first runs of all states."""

from evidence.portions import Pause
from evidence.reservations import trials_at_a_state


def first_runs(table):
    """Of each state the first run that leads to it: a start state, then the
    command and word of each step. All runs of one length are compared."""
    found = {}
    longest = {state: (state,) for state in range(table.states)
               if table.starts(state)}
    while longest:
        found |= longest
        longer = {}
        for state, run in longest.items():
            for command, word, after in table.steps_from(state):
                if after not in found:
                    new = (*run, (command, word))
                    longer[after] = min(longer.get(after, new), new)
        longest = longer
    return found


def before_last(table, run):
    """The state that a run's last step leaves; of no steps the first."""
    state = run[0]
    for command, word in run[1:-1]:
        state = table.step(state, command, word)
    return state


def pause_by_runs(table, runs, count):
    """The pause at which so many states are expanded, from all first runs in
    their order: a state is met if it starts, or if the state before it is
    among those; nothing is met behind a break."""
    order = sorted(runs, key=lambda state: (len(runs[state]), runs[state]))
    led = {state: before_last(table, runs[state]) for state in order}
    met = [state for state in order if len(runs[state]) == 1
           or order.index(led[state]) < count]
    breaks = [place for place, state in enumerate(met)
              if table.breaks(state)]
    words = trials_at_a_state(table)
    if not breaks:
        done = min(count, len(met))
        return Pause({state: led[state] for state in met}, done,
                     done * words, False)
    last = met[breaks[0]]
    met = {state: led[state] for state in met[:breaks[0] + 1]}
    if len(runs[last]) == 1:
        return Pause(met, 0, 0, True)
    tried = [step[:2] for step in table.steps_from(led[last])]
    done = order.index(led[last])
    return Pause(met, done, done * words + tried.index(runs[last][-1]) + 1,
                 True)
