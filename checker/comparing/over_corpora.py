"""Programs that take corpora to a library."""

import faulthandler
import os
import random
import sys

from comparing.differences import Differences
from comparing.library import Library

SEED = 1
# An entry that takes so many seconds has a call that does not end.
LONGEST = 120


def compare_corpora(usage, arguments, *corpora):
    """The status of a program whose one argument is a library. Each corpus
    comes with the name of its entries and how one of them is compared."""
    if len(arguments) != 1:
        print(usage, file=sys.stderr)
        return 2
    faulthandler.enable()
    library = Library(os.path.abspath(arguments[0]))
    rng = random.Random(SEED)
    differences = Differences()
    looked_at = []
    for name, entries, compare in corpora:
        for entry in entries:
            faulthandler.dump_traceback_later(LONGEST, exit=True)
            compare(rng, library, *entry, differences)
        looked_at.append(f"{len(entries)} {name}")
    faulthandler.cancel_dump_traceback_later()
    looked_at.append(f"{differences.met.total()} calls")
    return differences.close(", ".join(looked_at))
