"""Steps through a trace with a person, forward and back.

python3 -B step PROGRAM FILE SHEET

PROGRAM is the built program step, and what it says of the text in FILE and the
trace in SHEET is all that is known of place and state. On a terminal one screen
follows the keys; elsewhere the letters f, b, 0 and q are read from standard
input, and each place is printed. The status is 0 where a trace was stepped
through, 1 where the sheet is no trace that holds, 2 for anything else.
"""

import sys
from pathlib import Path

# Texts, runs and values are told by the modules of `explain`.
sys.path.append(str(Path(__file__).resolve().parent.parent / "explain"))
from stepping import main

if len(sys.argv) == 4:
    sys.exit(main(*sys.argv[1:]))
print(__doc__, file=sys.stderr)
sys.exit(2)
