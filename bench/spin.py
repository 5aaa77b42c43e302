"""Checks models with spin and with the product.

Spin writes a program in C, which is compiled for two searches. Depth first it
keeps no states inside a command; breadth first it keeps them all, and the run
that it finds has the fewest of them.
"""

import os
import re
import shutil
import sys
import tempfile
from collections import namedtuple

from processes import timed
from promela import promela
from rows import heading, row, shown

SEARCHES = ["-DSAFETY", "-DBFS"]

# A run on the stack passes each of 4,096 states once, in 10 steps at most.
DEPTH = 50000

# What a search may take, in processor seconds and in megabytes.
LIMIT = 120
MEMORY = 4096

PRODUCT_TURNS = 50

ERRORS = re.compile(rb"errors: (\d+)")
UNFINISHED = re.compile(rb"Search not completed|max search depth too small")

# Times are in seconds of processor time.
Search = namedtuple("Search", "verdict compiling searching")


def verdict_of(said):
    if said is None:
        return "stopped"
    if int(ERRORS.search(said)[1]) > 0:
        return "unsafe"
    return "stopped" if UNFINISHED.search(said) else "safe"


def searched(folder, kind):
    _, compiling = timed(["gcc", "-O2", kind, f"-DMEMLIM={MEMORY}", "-o",
                          "pan", "pan.c"], folder)
    said, searching = timed(["./pan", f"-m{DEPTH}"], folder, limit=LIMIT)
    return Search(verdict_of(said), compiling, searching)


def by_spin(folder, text):
    """The time of spin -a, and both searches."""
    with open(os.path.join(folder, "model.pml"), "w") as file:
        file.write(promela(text))
    _, translating = timed(["spin", "-a", "model.pml"], folder)
    return translating, [searched(folder, kind) for kind in SEARCHES]


def by_product(program, folder, text):
    """The verdict, and the least time of the whole program."""
    path = os.path.join(folder, "text")
    with open(path, "wb") as file:
        file.write(text)
    runs = [timed([program], given=path) for _ in range(PRODUCT_TURNS)]
    sheet, _ = runs[0]
    return verdict_by(sheet), min(seconds for _, seconds in runs)


def verdict_by(sheet):
    """Of the search's own sheet, whose map is empty where nothing starts."""
    if sheet[13] != 2:
        return "unsafe"
    return "safe" if any(sheet[15:]) else "void"


def compare(program, title, text):
    with tempfile.TemporaryDirectory() as folder:
        translating, searches = by_spin(folder, text)
        verdict, product = by_product(program, folder, text)
    cells = [(shown(search.searching)
              + " (stopped)" * (search.verdict == "stopped"),
              f"{product / search.searching:.2g}") for search in searches]
    depth_first, _ = searches
    whole = translating + depth_first.compiling + depth_first.searching
    row(f"{title}: {verdict}", shown(product), shown(translating),
        shown(depth_first.compiling), *cells[0], f"{product / whole:.2g}",
        *cells[1])
    # Where nothing starts, spin has nothing to search and finds no error.
    due = "safe" if verdict == "void" else verdict
    for search in searches:
        if search.verdict not in (due, "stopped"):
            sys.exit(f"{title}: spin finds it {search.verdict}")


def measure(program, models):
    """A row for each model, of a title and a text. The program is that of the
    product which writes a sheet."""
    if not shutil.which("spin"):
        print("spin is not installed, so it is not measured")
        return
    if not os.path.exists(program):
        sys.exit("the program sheet is not built; `./build sheet` builds it")
    heading("model", "product", "spin -a", "gcc", "depth first", "ratio",
            "ratio to all three", "breadth first", "ratio")
    for title, text in models:
        compare(program, title, text)
