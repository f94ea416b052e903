#!/usr/bin/env python3
"""Builds the programs without their proofs, to try a test before the proofs are done.

    python3 -m tests.unproved FOLDER [PROGRAM..]

`rt try` builds each of them in some minutes, and FOLDER gets a copy. Then

    PROGRAMS=FOLDER UNPROVED=1 python3 -m unittest tests.test_add

runs tests with them. UNPROVED leaves out the tests that refuse requests for memory, since such
programs check their calls, and take memory in another way. They are slower than proved ones.
"""

import pathlib
import shutil
import sys

from tests.mutants import built
from tests.programs import NAMES, TOP


def main(words):
    folder, *names = words or [""]
    if not folder or folder.startswith("-") or not set(names) <= set(NAMES):
        sys.exit(__doc__)
    pathlib.Path(folder).mkdir(parents=True, exist_ok=True)
    for name in names or NAMES:
        made = pathlib.Path(folder, name)
        made.unlink(missing_ok=True)
        shutil.copy(built(TOP, name), made)
        print(made, flush=True)


if __name__ == "__main__":
    main(sys.argv[1:])
