"""Entries of the corpora, each compared with what its label says."""

from comparing import bursts, player, walks
from comparing.portions import Case
from comparing.reached import compare_reached
from corpora import (bursts_labels, player_labels, portions, portions_labels,
                     reached)
from corpora.bursts import due as steps_due
from reader.model import Refusal


def compare_portions(rng, library, label, text, sizes, differences):
    """A search by portions of these sizes."""
    case = Case(label, text, *portions.due(label, text))
    meant = portions_labels.meant_by(label)
    if isinstance(meant, Refusal):
        walks.compare_refused_text(rng, library, case, differences)
    else:
        walks.compare_walk(rng, library, case, sizes, meant.pauses,
                           differences)


def compare_map(rng, library, label, text, sheet, differences):
    compare_reached(rng, library, label, text, sheet,
                    reached.due(label, text), differences)


def compare_player(rng, library, label, text, sheet, given, calls,
                   differences):
    steps = player_labels.meant_by(label)
    assert calls == tuple(step.call for step in steps), label
    player.compare_walk(rng, library, label, text, sheet, given, steps,
                        differences)


def compare_bursts(rng, library, label, text, sheet, call, numbers,
                   differences):
    said, _, *counted = bursts.compare_call(
        rng, library, label, text, sheet, steps_due(text, sheet), call,
        numbers, differences)
    assert bursts_labels.is_meant(label, said, *counted), label
