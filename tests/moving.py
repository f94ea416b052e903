#!/usr/bin/env python3
"""Runs each example of docs/MOVING.md with coreboot's tools and with ours, and compares them.

    python3 -m tests.moving [--seed NUMBER] [--descriptors N] [--additions N] [-k WORD]

Run by hand: coreboot's cbfstool and fmaptool are needed (4.15 was tried). The programs under test
are those of tests/programs.py. Each example runs on copies of the same files of two boards, which
tests/moving_files.py makes, or on two descriptors. Then both compile N descriptors (2000), and add
N components (400), at random from the seed (1). All examples are tried, each difference is printed,
and the status is 1 then. With -k only examples run whose text has the word, and nothing at random.

- A use is a heading of the third level, a block after "coreboot's:", one after "Here:", and a line
  "Compared: ..". A block of the language make is a makefile, of which coreboot.rom is made;
  COREBOOT_CBFSTOOL is coreboot's cbfstool.
- A line of "Unchanged commands" has commands of both, without `cbfstool coreboot.rom`, and is
  compared as the last line "Compared: .." before it says.
- A line of "Not supported", "Different results" and "Descriptors" has its commands in
  tests/moving.rows, by its text before the first colon. Each entry there has one line.
"""

import argparse
import os
import pathlib
import re
import shutil
import subprocess
import sys
import tempfile

from tests import moving_random
from tests.boards import tool
from tests.moving_files import ON_SECOND, REGIONS, Files
from tests.programs import TOP, difference, program
from tests.reading import Reading

PAGE = TOP / "docs" / "MOVING.md"
ROWS = TOP / "tests" / "moving.rows"
LEAST_ROWS, LEAST_USES = 100, 23
KINDS = {"## Unchanged commands": "unchanged", "## Not supported": "absent",
         "## Different results": "otherwise", "## Descriptors": "descriptor"}
# A row of coreboot's `print`; a type may have a blank.
ROW = re.compile(r"(.*\S) +(0x[0-9a-f]+) +(.*\S) +([0-9]+) (\S+) *")
THEIR_AREA = re.compile(r"'(.*)' \((?:.*, )?size ([0-9]+), offset ([0-9]+)\)")
MAKE = """cat > build.mk <<"MAKEFILE"
{}MAKEFILE
make -s -B -f build.mk CBFSTOOL=cbfstool FMAPTOOL=fmaptool CBFSSEAL=cbfsseal \
CBFSCHECK=cbfscheck coreboot.rom
"""


def spans(text):
    """Returns the code spans of a text."""
    return re.findall("`([^`]*)`", text)


# ---- What is compared


def without_lengths(data, only=None):
    """Returns an image with 0 as the length of each free cell that is the last of its region."""
    image, made = Reading(data), bytearray(data)
    for area in image.areas:
        cells = image.cut(area).cells if only in (None, area.name) else []
        if cells and cells[-1].is_free():
            at = area.offset + cells[-1].position + 8
            made[at : at + 4] = bytes(4)
    return bytes(made)


def their_rows(text):
    """Returns the rows of coreboot's `print` as ours prints them."""
    lines = []
    for line in text.splitlines():
        found = ROW.fullmatch(line)
        if found and not line.startswith(("FMAP REGION: ", "Name ")):
            lines.append("\t".join([found[1].replace(" ", "\\x20"), *found.groups()[1:]]))
    return lines


def their_areas(text):
    """Returns name, offset and size of each area of coreboot's `layout`."""
    found = filter(None, (THEIR_AREA.fullmatch(line) for line in text.splitlines()))
    return [(one[1], int(one[3]), int(one[2])) for one in found]


def our_areas(text):
    """Returns name, offset and size of each area of our `layout`."""
    rows = [line.split("\t") for line in text.splitlines()[1:]]
    return [(row[0], int(row[1], 16), int(row[2])) for row in rows]


def unescaped(name):
    """Returns a name as it is given to a command."""
    return re.sub(r"\\x([0-9a-f]{2})", lambda found: chr(int(found[1], 16)), name)


class Side:
    """What a side has done: its folder, its status, and what it has printed."""

    def __init__(self, folder, status, output, errors):
        self.folder, self.status = folder, status
        self.output, self.errors = output, errors

    def image(self):
        return self.get("coreboot.rom")

    def get(self, name):
        """Returns the content of a file, or None."""
        path = self.folder / name
        return path.read_bytes() if path.is_file() else None

    def files(self):
        return {path.name: path.read_bytes() for path in self.folder.iterdir() if path.is_file()}


class Runner:
    """Runs examples on the files of both boards, and notes what differs."""

    def __init__(self, room):
        self.room = room
        self.failed = 0
        self.place = ""
        peers = room / "peers"
        peers.mkdir()
        for name in "cbfstool", "fmaptool":
            (peers / name).symlink_to(tool(name))
        ours = os.pathsep.join([os.path.dirname(program("cbfstool")), os.environ["PATH"],
                                str(TOP / "dist" / "examples")])
        self.paths = {"ours": ours, "theirs": f"{peers}{os.pathsep}{ours}"}
        for number in 1, 2:
            files = room / f"files.{number}"
            files.mkdir()
            Files(files, number, lambda *words, files=files: self.call(files, words)).make()
        room.chmod(0o755)

    def call(self, folder, words):
        """Runs one command of coreboot's, which has to succeed."""
        done = subprocess.run([tool(words[0]), *words[1:]], cwd=folder, stdin=subprocess.DEVNULL,
                              stdout=subprocess.PIPE, stderr=subprocess.PIPE)
        if done.returncode:
            sys.exit(f"moving: the files can't be made: {words}: {done.stderr.decode()}")

    def wrong(self, text):
        """Notes that the example does otherwise."""
        print(f"{self.place}, board {self.number}: {text}", flush=True)
        self.failed += 1

    def use_board(self, number):
        """Goes on with the files of a board."""
        self.number, self.files = number, self.room / f"files.{number}"

    def run(self, side, block):
        """Runs a block in one shell and a new folder with all files."""
        folder = self.room / side
        shutil.rmtree(folder, ignore_errors=True)
        shutil.copytree(self.files, folder)
        folder.chmod(0o755)
        nobody = "setpriv --reuid=65534 --regid=65534 --clear-groups" if os.getuid() == 0 else ""
        environment = {**os.environ, "PATH": self.paths[side], "nobody": nobody,
                       "COREBOOT_CBFSTOOL": tool("cbfstool")}
        done = subprocess.run(["bash", "-o", "pipefail", "-c", f"ulimit -c 0\n{block}"],
                              cwd=folder, env=environment, stdin=subprocess.DEVNULL,
                              stdout=subprocess.PIPE, stderr=subprocess.PIPE)
        texts = (text.decode(errors="replace") for text in (done.stdout, done.stderr))
        return Side(folder, done.returncode, *texts)

    def run_joined(self, side, commands):
        """Runs commands, up to the first that fails."""
        return self.run(side, "".join(f"{line} || exit\n" for line in commands))

    # ---- Uses, and lines of both

    def use(self, theirs, ours, compared):
        """Runs the blocks of both sides, and compares them, as with "cells and rows"."""
        sides = []
        for side, block in ("theirs", theirs), ("ours", ours):
            done = self.run(side, f"set -e\n{block}")
            if done.status:
                self.wrong(f"{side} ends with status {done.status}: {done.errors[:300]}")
                return
            sides.append(done)
        for comparison in compared.split(" and "):
            self.compare(comparison, *sides)

    def compare(self, comparison, theirs, ours):
        """Compares what both sides have left and printed."""
        what = comparison.split()[0]
        check = getattr(self, f"compare_{what}", None)
        if check is None:
            self.wrong(f"{comparison} isn't a comparison")
            return
        unchanged = (self.files / "coreboot.rom").read_bytes()
        if what in ("bytes", "image", "cells", "anchor") and theirs.image() == unchanged:
            self.wrong("coreboot's leaves the image as it was")
        if what in ("printed", "rows", "areas") and not theirs.output:
            self.wrong("coreboot's prints nothing")
        check(theirs, ours, comparison)

    def equal(self, what, one, other):
        """Notes if two values differ."""
        if one != other:
            self.wrong(f"{what} differ\n{difference(one, other)[:1000]}")

    def compare_bytes(self, theirs, ours, _):
        self.equal("the images", theirs.image(), ours.image())

    def compare_image(self, theirs, ours, _):
        one, other = theirs.image(), ours.image()
        if one != other:
            self.equal("the images", without_lengths(one), without_lengths(other))

    def compare_printed(self, theirs, ours, _):
        self.equal("the outputs", theirs.output, ours.output)

    def compare_rows(self, theirs, ours, _):
        self.equal("the lists", their_rows(theirs.output), ours.output.splitlines())

    def compare_areas(self, theirs, ours, _):
        self.equal("the areas", their_areas(theirs.output), our_areas(ours.output))

    def compare_files(self, theirs, ours, _):
        names = [name for name in theirs.files() if not (self.files / name).exists()]
        self.compare_named(theirs, ours, names)

    def compare_file(self, theirs, ours, comparison):
        self.compare_named(theirs, ours, spans(comparison))

    def compare_named(self, theirs, ours, names):
        """Compares files that coreboot's makes."""
        if not names:
            self.wrong("coreboot's makes no file")
        for name in names:
            if theirs.get(name) is None or (self.files / name).exists():
                self.wrong(f"coreboot's doesn't make {name}")
            self.equal("the files", theirs.get(name), ours.get(name))

    def compare_anchor(self, theirs, ours, _):
        """Coreboot's and cbfscheck find valid digests in both images, and nothing bad."""
        for side in theirs, ours:
            self.use_image(side.image())
            last = self.shell("theirs", "cbfstool one.rom print -v 2> /dev/null | tail -n 1")
            if not re.fullmatch(r"\[METADATA HASH\].*:valid\n", last.output):
                self.wrong("coreboot's finds no valid metadata hash")
            found = self.shell("ours", "cbfscheck -r COREBOOT one.rom")
            if found.status:
                self.wrong(f"cbfscheck: {found.output}")
            valid = re.findall(r"\t(?:metadata|map) hash sha256 valid$", found.output, re.MULTILINE)
            if len(valid) != 2:
                self.wrong("cbfscheck finds no valid anchor")

    def use_image(self, data):
        """Makes a folder with an image alone."""
        folder = self.room / "alone"
        shutil.rmtree(folder, ignore_errors=True)
        folder.mkdir()
        (folder / "one.rom").write_bytes(data)

    def shell(self, side, block):
        """Runs a block in the folder with an image alone."""
        folder = self.room / "alone"
        done = subprocess.run(["bash", "-c", block], cwd=folder, stdin=subprocess.DEVNULL,
                              env={**os.environ, "PATH": self.paths[side]},
                              stdout=subprocess.PIPE, stderr=subprocess.PIPE)
        texts = (text.decode(errors="replace") for text in (done.stdout, done.stderr))
        return Side(folder, done.returncode, *texts)

    def compare_cells(self, theirs, ours, _):
        """In each region both list the same cells of both images, and extract the same."""
        listed, count = [], 0
        for side in theirs, ours:
            self.use_image(without_lengths(side.image()))
            lists = [self.lists(region) for region in REGIONS]
            for one, other in lists:
                self.equal("the lists of both programs", one, other)
            listed.append([one for one, _ in lists])
        self.equal("the cells", *listed)
        for region, rows in zip(REGIONS, listed[0]):
            names = [row.split("\t")[0] for row in rows]
            names = [unescaped(name) for name in names if name != "(empty)"]
            count += len(names)
            for name in names:
                self.compare_contents(theirs, ours, region, name)
        if count <= 6:
            self.wrong(f"only {count} components")

    def lists(self, region):
        """Returns the rows of a region, by ours and by coreboot's."""
        words = f"cbfstool one.rom print -r {region}"
        return (self.shell("ours", words).output.splitlines(),
                their_rows(self.shell("theirs", words).output))

    def compare_contents(self, theirs, ours, region, name):
        """Compares what both programs extract from both images."""
        found = []
        for done in theirs, ours:
            for side in "ours", "theirs":
                # (coreboot's would make an ELF of a payload)
                more = ["-U"] if side == "theirs" else []
                out = self.room / "content"
                out.unlink(missing_ok=True)
                path = tool("cbfstool") if side == "theirs" else program("cbfstool")
                subprocess.run([path, done.folder / "coreboot.rom", "extract", "-r", region,
                                "-n", name, "-f", out, *more], stdin=subprocess.DEVNULL,
                               stdout=subprocess.DEVNULL, stderr=subprocess.DEVNULL)
                found.append(out.read_bytes() if out.exists() else None)
        if found[0] is None or found.count(found[0]) != len(found):
            self.wrong(f"another content of {name} is extracted")

    # ---- Lines of lists

    def unchanged(self, line, compared):
        """Both take the same commands, whose first words are left out."""
        lines = [text if text.startswith("fmaptool ") else f"cbfstool coreboot.rom {text}"
                 for text in spans(line)]
        block = "".join(f"{text}\n" for text in lines)
        self.use(block, block, compared)

    def absent(self, commands, _):
        """Coreboot's does it; ours refuses the last of the commands and changes nothing."""
        theirs = self.run_joined("theirs", commands)
        if theirs.status:
            self.wrong(f"theirs ends with status {theirs.status}: {theirs.errors[:300]}")
        ours = self.run_joined("ours", commands)
        if ours.status not in (1, 2):
            self.wrong(f"ours ends with status {ours.status}")
        before = {path.name: path.read_bytes() for path in self.files.iterdir()}
        after = {name: data for name, data in ours.files().items() if name != "region"}
        if before != after:
            self.wrong("something has changed")

    def otherwise(self, commands, results):
        """Each side ends with its status, and prints its texts."""
        for side, result in zip(("theirs", "ours"), results):
            self.ends(side, self.run_joined(side, commands), result)

    def ends(self, side, done, result):
        """Checks a status and the texts of a result, as "1 `no space`" or "0 silent"."""
        if self.number == 2:
            for old, new in ON_SECOND.items():
                result = result.replace(old, new)
        printed = done.output + done.errors
        # (a shell states a signal as a status of 128 and more)
        if done.status % 256 != int(result.split()[0]):
            self.wrong(f"{side} ends with status {done.status}: {printed[:300]}")
        if "silent" in result and printed:
            self.wrong(f"{side} is not silent: {printed}")
        for text in spans(result):
            if text not in printed:
                self.wrong(f"{side} doesn't print {text}: {printed}")

    def descriptor(self, commands, results):
        """Compiles a descriptor; that of the second board has another section at its start."""
        text, (theirs, ours) = "\n".join(commands), results
        if self.number == 2:
            text, ours = moved_descriptor(text, ours)
        path = self.files / "row.fmd"
        path.write_bytes(text.encode())
        for side, result in ("theirs", theirs), ("ours", ours):
            done = self.run(side, "fmaptool row.fmd row.fmap")
            self.ends(side, done, result)
            left = done.get("row.fmap")
            is_right = left is None if side == "theirs" else not left
            if done.status and not is_right:
                self.wrong(f"{side} leaves an output")
        path.unlink()


def moved_descriptor(text, ours):
    """Returns a descriptor with another section before all others, and its result of ours.

    This moves each place and each number but the root's.
    """
    # (before a first section that has an offset no other one stands)
    more = " # {}\n\t" if "{ FMAP@" in text else " # {}\n\tGAP.2(PRESERVE) 0x340"
    text = text.replace("{", "{" + more + " ", 1) if "{" in text else " # {}\n\t"
    found = re.search(r"(at|section) ([1-9][0-9]*)|at 0", ours)
    if not found:
        return text, ours
    if found[0] == "at 0":
        place = f"at {len(text.encode())}"
    elif found[1] == "section":
        place = f"section {int(found[2]) + 1}"
    else:
        place = f"at {int(found[2]) + len(more) + 1}"
    return text, ours.replace(found[0], place, 1)


# ---- The document


def entries():
    """Returns the commands of each line, by its kind and its text, from tests/moving.rows."""
    found, key = {}, ""
    for line in ROWS.read_text(encoding="utf-8").splitlines():
        if line.startswith("\t"):
            found[key].append(line[1:])
        elif line and not line.startswith("#"):
            key = tuple(line.split(" ", 1))
            if key in found:
                sys.exit(f"moving: moving.rows has twice: {line}")
            found[key] = []
    return found


class Document:
    """The document, line by line: its uses and the lines of its lists."""

    def __init__(self, runner, word=None):
        self.runner, self.word = runner, word
        self.commands = entries()
        self.rows = self.uses = 0
        self.kind = self.section = self.compared = ""
        self.close()

    def close(self):
        """Begins a use."""
        self.heading, self.blocks, self.side = "", {}, ""

    def is_chosen(self, text):
        return self.word is None or self.word in text

    def each_board(self, function, *arguments):
        for number in 1, 2:
            self.runner.use_board(number)
            function(*arguments)

    def wrong(self, text):
        """Notes a mistake of the document."""
        self.runner.use_board(1)
        self.runner.wrong(text)

    def try_all(self):
        """Tries each example."""
        lines = PAGE.read_text(encoding="utf-8").splitlines()
        at = 0
        while at < len(lines):
            self.runner.place = f"docs/MOVING.md, line {at + 1}"
            if lines[at].startswith("```"):
                end = lines.index("```", at + 1)
                self.block(lines[at][3:], lines[at + 1 : end])
                at = end
            else:
                self.line(lines[at])
            at += 1
        self.end_use()
        for key in self.commands if self.word is None else ():
            self.wrong(f"no line of: {' '.join(key)}")
        if self.word is None and (self.rows < LEAST_ROWS or self.uses < LEAST_USES):
            self.wrong(f"only {self.rows} rows and {self.uses} uses")

    def block(self, language, lines):
        """Takes a block of a use."""
        text = "".join(f"{line}\n" for line in lines)
        if not self.side:
            self.wrong("a block that isn't run")
        self.blocks[self.side] = MAKE.format(text) if language == "make" else text

    def end_use(self):
        """Notes a use that has no comparison, and begins another."""
        if self.heading:
            self.wrong(f"a use that isn't compared: {self.heading}")
        self.close()

    def line(self, line):
        """Takes a line that is in no block."""
        if line.startswith("## "):
            self.end_use()
            self.section, self.compared = line, ""
            self.kind = KINDS.get(line, "")
        elif line.startswith("### "):
            self.end_use()
            self.heading = line[4:]
        elif line == "Also different:":
            self.kind = ""
        elif line in ("coreboot's:", "Here:"):
            self.side = "ours" if line == "Here:" else "theirs"
        elif line.startswith("Compared: "):
            self.take_comparison(line.removeprefix("Compared: "))
        elif line.startswith("|") and self.section:
            # (the table before the first section leads to the uses)
            self.wrong("a table that isn't run")
        elif line.startswith("- ") and self.kind:
            self.listed(line[2:])

    def take_comparison(self, compared):
        """Takes a line "Compared: .."."""
        self.compared = compared
        if self.kind == "unchanged":
            return
        self.uses += 1
        if not self.heading or set(self.blocks) != {"theirs", "ours"}:
            self.wrong(f"a use without two blocks: {self.heading}")
        elif self.is_chosen(self.heading):
            self.each_board(self.runner.use, self.blocks["theirs"], self.blocks["ours"], compared)
        self.close()

    def listed(self, line):
        """Takes a line of a list."""
        self.rows += 1
        text, _, rest = line.partition(": ")
        if self.kind == "unchanged":
            if self.is_chosen(line):
                self.each_board(self.runner.unchanged, line, self.compared)
            return
        commands = self.commands.pop((self.kind, text), None)
        if commands is None:
            self.wrong(f"moving.rows has no commands of: {self.kind} {text}")
            return
        results = rest.split(" → ")
        if self.kind != "absent" and not re.fullmatch(r"[0-9].* → [0-9].*", rest):
            self.wrong("a line without two results")
        elif self.is_chosen(line):
            self.each_board(getattr(self.runner, self.kind), commands, results)


def read_options(words):
    """Returns the options of the command line."""
    parser = argparse.ArgumentParser(usage=__doc__)
    parser.add_argument("--seed", type=int, default=1)
    parser.add_argument("--descriptors", type=int, default=2000)
    parser.add_argument("--additions", type=int, default=400)
    parser.add_argument("-k")
    return parser.parse_args(words)


def main(words):
    options = read_options(words)
    with tempfile.TemporaryDirectory(prefix="moving-") as room:
        runner = Runner(pathlib.Path(room))
        document = Document(runner, options.k)
        document.try_all()
        print(f"rows: {document.rows} and {document.uses} uses, each on two boards or descriptors, "
              f"{runner.failed} findings", flush=True)
        if options.k is None:
            runner.use_board(1)
            runner.place = "at random"
            moving_random.run(runner, options)
    if runner.failed:
        sys.exit(f"moving: {runner.failed} findings")
    print("moving: each example does what the page says")


if __name__ == "__main__":
    main(sys.argv[1:])
