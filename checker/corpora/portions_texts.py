"""Texts that are refused, whatever else a call is handed."""

from corpora import reservations_texts

# What each of these texts is refused for stands in its label.
REFUSING = reservations_texts.refused, reservations_texts.lengths


def refused():
    for group in REFUSING:
        for label, text in group():
            if " -> refused " in label:
                yield label, text, ()


GROUPS = (refused,)
