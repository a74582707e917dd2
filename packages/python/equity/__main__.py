"""`python -m equity MODE [FILE ..]`: the program's command line, with files as words."""

import os
import sys

from ._program import script
from ._types import ProgramMissing

try:
    path = script()
    os.execv(path, [path, *sys.argv[1:]])
except (ProgramMissing, OSError) as error:
    print(f"equity: {error}", file=sys.stderr)
    sys.exit(8)
