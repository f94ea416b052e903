"""Reads manual pages: their sections, examples and recipes, as a reader sees them.

    for example in examples(section(page_text("cbfstool.1"), "EXAMPLES")):
        run_example(test, folder, example, environment)
"""

import re
from typing import NamedTuple

from tests.programs import TOP, difference

PAGES = ("cbfstool.1", "fmaptool.1", "cbfscheck.1", "cbfsseal.1", "fmd.5")
ESCAPES = {
    "\\(aq": "'", "\\(dq": '"', "\\(ha": "^", "\\(ti": "~", "\\&": "", "\\-": "-", "\\e": "\\",
}
# A script that stands in for flashrom: it reads the file $CHIP, and writes the file $WRITTEN, which
# is the same if it is not given.
FLASHROM = """#!/bin/sh
[ "$1 $2" = "-p internal" ] || exit 9
case $3 in
    -r) cp "$CHIP" "$4" ;;
    -w) cp "$4" "${WRITTEN:-$CHIP}" ;;
    *) exit 9 ;;
esac
"""


class Example(NamedTuple):
    """A command with its output, or a descriptor, and the line of the page where it begins."""

    command: str
    output: str
    line: int
    is_descriptor: bool = False


def page_text(name, folder=TOP / "man"):
    """Returns the source of a manual page."""
    return (folder / name).read_text(encoding="utf-8")


def plain(text):
    """Returns a text of a page without the escapes of roff."""
    return re.sub(r"\\(\([a-z]{2}|[&e-])", lambda found: ESCAPES[found[0]], text)


def section(text, name):
    """Returns a page with only this section, whose lines keep their numbers."""
    inside, lines = False, []
    for line in text.splitlines():
        if line.startswith(".Sh "):
            inside = line == f".Sh {name}"
        lines.append(line if inside else "")
    return "\n".join(lines) + "\n"


def literal_blocks(text):
    """Returns the literal blocks of a text, each with the number of its first line."""
    blocks, block = [], None
    for number, line in enumerate(text.splitlines(), 1):
        if line.startswith(".Bd -literal"):
            block = []
            blocks.append((number + 1, block))
        elif line == ".Ed":
            block = None
        elif block is not None:
            block.append(plain(line))
    return blocks


def examples(text):
    """Returns the examples of a text.

    In a literal block, a line that begins with `$ ` is a command, and the lines below it are all
    that it prints. A block without such a line is a descriptor.
    """
    found = []
    for first, lines in literal_blocks(text):
        if not any(line.startswith("$ ") for line in lines):
            found.append(Example("".join(f"{line}\n" for line in lines), "", first, True))
            continue
        for number, line in enumerate(lines, first):
            if line.startswith("$ "):
                found.append(Example(line[2:], "", number))
            else:
                found[-1] = found[-1]._replace(output=found[-1].output + line + "\n")
    return found


def recipes(text):
    """Returns the recipes of a page: the literal blocks of RECIPES by the titles above them."""
    found = {}
    for part in section(text, "RECIPES").split("\n.Ss ")[1:]:
        title = plain(part.split("\n", 1)[0])
        for _, lines in literal_blocks(part):
            found[title] = found.get(title, "") + "".join(f"{line}\n" for line in lines)
    return found


def run_example(test, folder, example, environment=None, compiler="fmaptool"):
    """Runs an example in a folder, and compares its status and all that it prints.

    A descriptor is written to example.fmd, and has to compile.
    """
    script = f"exec 2>&1\n{example.command}"
    if example.is_descriptor:
        folder.put("example.fmd", example.command)
        script = f"exec 2>&1\n{compiler} example.fmd compiled.fmap"
    run = folder.run(["sh", "-c", script], environment=environment)
    seen = run.output.decode(errors="replace")
    if run.status != 0 or seen != example.output:
        folder.kept = True
        test.fail(
            f"line {example.line} of the page\ncommand: {example.command}\nstatus: {run.status}\n"
            f"{difference(example.output, seen)}\nfolder: {folder.path}"
        )
