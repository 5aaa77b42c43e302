"""What tests of searches in portions are made on: programs, right and wrong,
the corpora, and random models."""

from functools import cache

from comparing.entries import compare_map, compare_portions
from comparing.portions import Case
from corpora import portions, reached
from corpora.portions_labels import meant_by
from evidence.calls import found_in
from inputs.random_searches import random_models
from reader.model import Refusal
from tests import (wrong_finishes, wrong_openings, wrong_pauses,
                   wrong_portions, wrong_questions)
from tests.portion_program import Program, table_of
from tests.showing import by_group, programs_in, shows

MODULES = (wrong_openings, wrong_portions, wrong_pauses, wrong_questions,
           wrong_finishes)
PROGRAMS = programs_in(MODULES, Program)

# These have parts to be exchanged, and are right.
RIGHT = {"Program", "Asking", "Led"}

# Not walked in tests: this alone would take minutes.
LONGEST = "most_trials"


@cache
def entries():
    return portions.corpus()


@cache
def maps():
    return reached.corpus()


@cache
def found(text):
    return found_in(text)


def walked():
    """Entries of the corpus that say a model, with what is meant."""
    for label, text, sizes in entries():
        meant = meant_by(label)
        if not isinstance(meant, Refusal) and not label.startswith(LONGEST):
            yield label, text, sizes, meant


def random_cases(count, seed):
    """Of some the text is refused."""
    return [Case(repr(text), text, table_of(text), found(text))
            for text in random_models(count, seed)]


def random_tables(count, seed):
    """Title and table of random models."""
    return [(case.title, case.table) for case in random_cases(count, seed)
            if not isinstance(case.table, Refusal)]


@cache
def groups():
    """Entries of both corpora by their groups, with how they are
    compared."""
    return {name: compared for name, compared in
            by_group((compare_portions, entries()),
                     (compare_map, maps())).items() if name != LONGEST}


def is_shown(program, group):
    return shows(groups()[group], program)
