#!/usr/bin/env python3
"""Proves the twin of each must-fail edit that has one.

    python3 -m tests.twins [--planted] [CRATE..]

Run by hand, and `rt` is needed. A twin is crates/CRATE/twins/NAME.edit. It has the shape of
crates/CRATE/must-fail/NAME.edit (or must-fail-by-hand/) and the meaning of the code as it stands,
so the crate must be proved with it. This shows that the edit is refused for its meaning and not
for its shape. A twin is applied to a copy of the repository in a temporary folder.

With --planted each of some twins is wrong in one way, and this program must refuse it.
"""

import pathlib
import subprocess
import sys
import tempfile

from tests.edits import Wrong, copy_crates, edited, find_edit
from tests.programs import TOP

class Copy:
    """A copy of the repository, without what checks have made."""

    def __init__(self, room):
        self.top = pathlib.Path(room)
        copy_crates(self.top)

    def prove(self, crate, name, edit):
        """Proves the crate with the twin of this name and text, or raises why it isn't proved."""
        folder = self.top / "crates" / crate
        if find_edit(crate, name) is None:
            raise Wrong("no must-fail edit has its name")
        texts = edited(edit, folder)
        was = {path: (folder / path).read_text(encoding="utf-8") for path in texts}
        try:
            for path, text in texts.items():
                (folder / path).write_text(text, encoding="utf-8")
            ran = subprocess.run(
                ["rt", "check"], cwd=folder, stdin=subprocess.DEVNULL, stdout=subprocess.PIPE,
                stderr=subprocess.STDOUT, encoding="utf-8", errors="replace",
            )
            lines = ran.stdout.rstrip().splitlines()
            if any(line.startswith("logic=not-proved") for line in lines):
                told = [line for line in lines if ": error: " in line or ": no proof: " in line]
                first = "".join(told[:1])
                raise Wrong(f"it is not proved: {first[:300]}")
            if ran.returncode or not any(line.startswith("logic=proved") for line in lines):
                raise Wrong(f"its check has no verdict: {''.join(lines[-1:])}")
        finally:
            for path, text in was.items():
                (folder / path).write_text(text, encoding="utf-8")


KNOWN = ("flash_format", "takes_half_of_the_magic")

# For each way in which a twin can be wrong: its crate and name, its text (that of its must-fail
# edit if there is none), and how the reason begins.
PLANTED = [
    (("flash_format", "takes_no_magic"), "", "no must-fail edit has its name"),
    (KNOWN, "file: src/head.rt\nold: no text\nnew: text\n", "an old text stands in src/head.rt 0"),
    (KNOWN, "file: src/head.rt\nold: self\nnew: self\n", "an old text stands in src/head.rt"),
    (KNOWN, "file: src/heads.rt\nold: self\nnew: self\n", "there is no file src/heads.rt"),
    (KNOWN, "file: src/head.rt\nold: with(&MAGIC)\nnew: with(&MAGIC)\n", "it changes nothing"),
    (KNOWN, "file: src/head.rt\nold: with(&MAGIC)\n", "it changes nothing"),
    (KNOWN, "file: src/head.rt\nnew: with(&MAGIC)\n", "a new text has no file or no old text"),
    (KNOWN, "file: src/head.rt\nolder: with(&MAGIC)\n", "a line begins with no file, old or new"),
    (KNOWN, None, "it is not proved: "),
]


def find_twins(crates):
    """Returns the crate, the name and the text of each twin in these crates, or in all."""
    found = sorted((TOP / "crates").glob("*/twins/*"))
    return [
        (it.parts[-3], it.name.removesuffix(".edit"), it.read_text(encoding="utf-8"))
        for it in found
        if not crates or it.parts[-3] in crates
    ]


def refuse_planted(copy):
    """Shows that each planted twin is refused for its reason."""
    for (crate, name), text, reason in PLANTED:
        if text is None:
            text = find_edit(crate, name).read_text(encoding="utf-8")
        try:
            copy.prove(crate, name, text)
        except Wrong as wrong:
            if not str(wrong).startswith(reason):
                sys.exit(f"twins: a planted twin is refused for another reason: {wrong}")
        else:
            sys.exit(f"twins: a planted twin is taken that must be refused: {reason}")
    print(f"twins: {len(PLANTED)} planted twins are refused")


def prove_all(copy, twins):
    """Proves these twins, and returns how many are refused."""
    failed = 0
    for crate, name, text in twins:
        try:
            copy.prove(crate, name, text)
            print(f"{crate}/{name}: proved", flush=True)
        except Wrong as wrong:
            failed += 1
            print(f"{crate}/{name}: {wrong}", flush=True)
    return failed


def main(words):
    is_planted = words[:1] == ["--planted"]
    crates = words[is_planted:]
    if any(word.startswith("-") for word in crates) or is_planted and crates:
        sys.exit(__doc__)
    for crate in crates:
        if not (TOP / "crates" / crate).is_dir():
            sys.exit(f"twins: there is no crate {crate}")
    with tempfile.TemporaryDirectory(prefix="twins-") as room:
        copy = Copy(room)
        if is_planted:
            refuse_planted(copy)
            return
        twins = find_twins(crates)
        if not twins:
            sys.exit("twins: there is none")
        failed = prove_all(copy, twins)
    print(f"twins: {len(twins) - failed} proved, {failed} refused")
    sys.exit(1 if failed else 0)


if __name__ == "__main__":
    main(sys.argv[1:])
