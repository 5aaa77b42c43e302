"""The second checker's reader, so that there is no third one."""

import os
import sys

sys.path.append(os.path.join(os.path.dirname(__file__), os.pardir, "checker"))

from reader.model import (Assignment, Chain, Constant, For, Not, Refusal,
                          Row, Star)
from reader.reading import read
