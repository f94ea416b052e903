#!/usr/bin/env python3
"""Our cbfstool and coreboot's work in turns on one image, which either of them has made.

    python3 -m tests.peers

Run by hand: coreboot's cbfstool and fmaptool are needed (4.15 was tried). The programs under test
are those of tests/programs.py.

Each tool adds components and removes what either has added. After each step both list the same
cells (name, place, type, size, compression), each extracts each component as it was added,
coreboot's finds each stored digest valid, and the content of what was added with -a or -b is at
such a place. Where a tool puts a component is not compared: each has its own rules
(docs/MOVING.md). The status is 1 after the first difference.
"""

import re
import subprocess
import sys

from tests.boards import tool
from tests.programs import TOP, Folder
from tests.reading import Reading

NUMBERS = b"".join(b"%d\n" % number for number in range(1, 20001))
# In each row: who, what, the name, and for an addition the type, the size and further options.
STEPS = """
theirs add one raw 10
ours add two raw 10
ours add none spd 0
theirs add dir/three microcode 4095
ours add dir/four bootsplash 4096 -a 4096
theirs add five mrc 50000 -a 256
ours add six mrc_cache 50000 -A sha256
theirs add seven raw 12345 -A sha256
ours add eight raw 20000 -b 0x80000
theirs add nine raw 20000 -b 0x90000
theirs remove two
ours remove one
ours add ten vsa 64
theirs add eleven mbi 65
ours add twelve cmos_default 1 -A sha512
theirs add thirteen cmos_layout 300 -A sha512
theirs remove six
ours remove five
theirs add fourteen raw 33333
ours add fifteen raw 33333 -a 64
theirs remove dir/four
ours remove dir/three
theirs add sixteen optionrom 700 -a 1024
ours add seventeen bootblock 700 -a 1024 -A sha512
theirs remove none
ours remove seven
theirs remove eight
ours remove nine
ours add eighteen raw 50000 -b 0xa0000
theirs add nineteen raw 50000
ours remove ten
theirs remove eleven
ours remove thirteen
theirs remove twelve
ours remove fourteen
theirs remove fifteen
ours add twenty raw 50000 -a 0x10000 -A sha256
ours remove sixteen
theirs remove seventeen
theirs remove eighteen
ours remove nineteen
theirs remove twenty
""".strip().splitlines()
# A row of coreboot's `print`; a type may have a blank.
ROW = re.compile(r"(.*\S) +(0x[0-9a-f]+) +(.*\S) +([0-9]+) (\S+) *")


class Difference(Exception):
    """The tools differ, or one of them refuses a command."""


def require(holds, text):
    """Raises a difference if a rule does not hold."""
    if not holds:
        raise Difference(text)


class Turns:
    """An image in a folder on which both tools work, and the contents that it should have."""

    def __init__(self, maker):
        self.folder = Folder()
        self.contents, self.hashed = {}, set()
        descriptor = (TOP / "samples" / "board.fmd").read_text(encoding="utf-8")
        larger = descriptor.replace("FLASH@0xffff0000 64K", "FLASH@0xfff00000 1M")
        self.folder.put("board.fmd", larger)
        self.call([tool("fmaptool"), "board.fmd", "board.fmap"])
        self.run(maker, "create", "-M", "board.fmap")

    def call(self, words):
        """Runs a command of coreboot's, and returns what it prints."""
        done = subprocess.run(words, cwd=self.folder.path, stdin=subprocess.DEVNULL,
                              stdout=subprocess.PIPE, stderr=subprocess.PIPE)
        require(done.returncode == 0, f"coreboot's {words[1:]}: {done.stderr.decode()}")
        return done.stdout.decode()

    def run(self, who, *words):
        """Runs a command of one of the tools on the image, and returns what it prints."""
        if who == "theirs":
            return self.call([tool("cbfstool"), "image.rom", *words])
        done = self.folder.run(["cbfstool", "image.rom", *words])
        require((done.status, done.message) == (0, b""), f"ours {words}: {done.message.decode()}")
        return done.output.decode()

    def step(self, number, row):
        """Makes a step, and compares both tools afterwards."""
        who, what, name, *more = row.split()
        if what == "remove":
            del self.contents[name]
            self.hashed.discard(name)
            self.run(who, "remove", "-n", name)
        else:
            kind, size, *options = more
            self.contents[name] = NUMBERS[37 * number :][: int(size)]
            self.hashed |= {name} if "-A" in options else set()
            self.folder.put("source", self.contents[name])
            self.run(who, "add", "-n", name, "-t", kind, "-f", "source", *options)
            self.check_place(name.encode(), options)
        self.check_lists()
        self.check_contents()
        states = self.run("theirs", "print", "-v")
        found = len(re.findall(r"^ *hash .* valid$", states, re.MULTILINE))
        require(found == len(self.hashed), f"coreboot's finds {found} valid digests: {states}")

    def check_place(self, name, options):
        """Checks that the content of a component is where it was asked for."""
        image = Reading((self.folder.path / "image.rom").read_bytes())
        start = image.cut(image.inside(b"COREBOOT")).component(name).start
        asked = {word: int(number, 0) for word, number in zip(options, options[1:])
                 if word in ("-a", "-b")}
        is_right = start % asked.get("-a", 1) == 0 and start == asked.get("-b", start)
        require(is_right, f"its content begins at {start}")

    def check_lists(self):
        """Checks that both tools list the same cells, and each component once."""
        ours = [line.split("\t") for line in self.run("ours", "print").splitlines()]
        # (two lines of headings come first)
        lines = self.run("theirs", "print").splitlines()[2:]
        theirs = [list(ROW.fullmatch(line).groups()) for line in lines]
        require(ours == theirs, f"the lists differ:\n{ours}\n{theirs}")
        names = sorted(row[0] for row in ours if row[0] != "(empty)")
        require(names == sorted(self.contents), f"there are the components {names}")

    def check_contents(self):
        """Checks that both tools extract each component as it was added."""
        for name, content in self.contents.items():
            for who in "ours", "theirs":
                (self.folder.path / "out").unlink(missing_ok=True)
                self.run(who, "extract", "-n", name, "-f", "out")
                seen = (self.folder.path / "out").read_bytes()
                require(seen == content, f"{who}: another content of {name}")


def run_turns(maker):
    """Makes all steps on an image that one of the tools has made."""
    turns = Turns(maker)
    try:
        for number, row in enumerate(STEPS, 1):
            try:
                turns.step(number, row)
            except Difference as difference:
                sys.exit(f"peers: an image of {maker}, step {number}, {row}: {difference}")
        cells = len(turns.run("ours", "print").splitlines())
        require(cells == 1, f"{cells} cells are left")
    finally:
        turns.folder.remove()
    print(f"peers: after each of {len(STEPS)} steps on an image of {maker} both agree", flush=True)


if __name__ == "__main__":
    if len(sys.argv) > 1:
        sys.exit(__doc__)
    for first in "theirs", "ours":
        run_turns(first)
