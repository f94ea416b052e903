#!/usr/bin/env python3
"""Tries the must-fail edits that the gate does not try.

    python3 -m tests.edits [CRATE..]

Run by hand, and `rt` is needed. The gate tries the edits of crates/CRATE/must-fail/. The edits of
crates/CRATE/must-fail-by-hand/ are wrong bodies for clauses that state a result by an equation.
Such a clause excludes each other value, so one edit of must-fail/ shows the same for a group of
clauses. This program tries the edits in a copy of the repository: the prover has to refuse each.
Without a CRATE it tries the edits of all crates.

An edit is a text of lines. `file: PATH` names a file of the crate. `old: TEXT` and `new: TEXT`
replace a text that stands once in that file, after the pairs before it.
"""

import pathlib
import shutil
import subprocess
import sys
import tempfile

TOP = pathlib.Path(__file__).resolve().parent.parent
CRATES = TOP / "crates"
GATE, BY_HAND = "must-fail", "must-fail-by-hand"
PARTS = ("src/", "specs/", "proofs/")


class Wrong(Exception):
    """Why an edit cannot be applied, or was not tried."""


def edits_of(crate):
    """Returns the files of all edits of a crate, those of the gate first."""
    return [it for part in (GATE, BY_HAND) for it in sorted((CRATES / crate / part).glob("*.edit"))]


def find_edit(crate, name):
    """Returns the file of the edit with this name, or None."""
    return next((it for it in edits_of(crate) if it.stem == name), None)


def edited(edit, folder):
    """Returns the texts of the files that an edit changes, by their paths in the crate."""
    texts, path, old = {}, None, None
    for line in edit.splitlines():
        if line.startswith("file: "):
            path = line[6:].strip()
            if not path.startswith(PARTS) or not (folder / path).is_file():
                raise Wrong(f"there is no file {path}")
            texts.setdefault(path, (folder / path).read_text(encoding="utf-8"))
        elif line.startswith("old: "):
            old = line[5:]
        elif line.startswith("new:"):
            if path is None or old is None:
                raise Wrong("a new text has no file or no old text")
            if texts[path].count(old) != 1:
                raise Wrong(f"an old text stands in {path} {texts[path].count(old)} times: {old}")
            texts[path], old = texts[path].replace(old, line[4:].removeprefix(" ")), None
        elif line:
            raise Wrong(f"a line begins with no file, old or new: {line}")
    if all((folder / path).read_text(encoding="utf-8") == text for path, text in texts.items()):
        raise Wrong("it changes nothing")
    return texts


def copy_crates(room):
    """Copies the crates into a folder, without what checks have made."""
    shutil.copytree(CRATES, room / "crates", ignore=shutil.ignore_patterns("out"))
    for name in ("crates.txt", "HANDLES"):
        shutil.copy(TOP / name, room / name)


def prepare(room, crates):
    """Makes the copy in which must-fail/ of these crates has their edits for by hand alone."""
    copy_crates(room)
    for crate in crates:
        folder = room / "crates" / crate
        shutil.rmtree(folder / GATE, ignore_errors=True)
        (folder / BY_HAND).rename(folder / GATE)


def main(words):
    crates = words or sorted(it.parent.name for it in CRATES.glob(f"*/{BY_HAND}"))
    for crate in crates:
        if not (CRATES / crate / BY_HAND).is_dir():
            sys.exit(f"edits: crates/{crate}/{BY_HAND} does not exist\n\n{__doc__}")
    with tempfile.TemporaryDirectory(prefix="edits-") as name:
        room = pathlib.Path(name)
        prepare(room, crates)
        # A line of `rt` says what became of each edit.
        sys.exit(subprocess.run(["rt", "must-fail", *crates], cwd=room, check=False).returncode)


if __name__ == "__main__":
    main(sys.argv[1:])
