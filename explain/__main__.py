"""Explains the report of a model's text to a person.

python3 -B explain REPORT RESERVE FILE [--html OUT]

REPORT and RESERVE are the built programs, and what they say of the text in
FILE is all that is known of the verdict and of the trials of a search. The
explanation is printed; with --html its first line alone, and the whole is
written to OUT as one page. The status is 0 for a safe model, 1 for an unsafe
or void one, 2 for anything else.
"""

import sys

from explaining import main

if len(sys.argv) == 4 or len(sys.argv) == 6 and sys.argv[4] == "--html":
    sys.exit(main(*sys.argv[1:4], *sys.argv[5:]))
print(__doc__, file=sys.stderr)
sys.exit(2)
