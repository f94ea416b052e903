"""Descriptors and additions at random, for both sides of tests/moving.py.

docs/MOVING.md states what is seen with the default seed. So the row of numbers depends on the seed
alone.
"""

import re
import subprocess

from tests.boards import tool
from tests.moving_files import NUMBERED
from tests.programs import TOP, program
from tests.reading import first_map


class Numbers:
    """A row of numbers that depends on the seed alone."""

    def __init__(self, seed):
        self.state = seed

    def pick(self, count):
        """Returns a number below the count."""
        self.state = (self.state * 1103515245 + 12345) & 0x7FFFFFFF
        return (self.state >> 8) % count

    def chance(self, percent):
        """Returns whether something of this probability happens."""
        return self.pick(100) < percent


class Descriptor:
    """The text of a descriptor of areas that mostly fit."""

    def __init__(self, numbers):
        self.numbers, self.names = numbers, 0
        pick, chance = numbers.pick, numbers.chance
        size = 65536 << pick(8)
        self.text = "FLASH"
        if chance(50):
            self.text += "@"
            self.put_number((1 << 32) - size)
        self.text += " "
        self.put_number(size)
        self.text += " {\n\tFMAP 8K COREBOOT(CBFS) "
        self.put_number(size // 4)
        self.put_parts(size - 8192 - size // 4, 1)
        self.text += "\n}\n"
        self.drop_words()

    def drop_words(self):
        """Drops a word, or adds one too many, in some descriptors."""
        dropped = self.text.replace(" S2", " ", 1)
        # (parts without any are told in the table of descriptors)
        if self.numbers.chance(5) and not re.search(r"\{\s*\}", dropped):
            self.text = dropped
        if self.numbers.chance(3):
            self.text = self.text.replace(" {", " 010 {", 1)

    def put_number(self, number):
        """Writes a number in one of the ways."""
        way = self.numbers.pick(4)
        if number % 1024 == 0 and number and way < 2:
            self.text += f"{number // 1024}K"
        else:
            self.text += f"0x{number:X}" if way == 2 else f"{number}"

    def put_parts(self, size, depth):
        """Writes parts for a section of this size, mostly such that they fit."""
        at, omitted = 0, False
        count = self.numbers.pick(4) + 1
        for number in range(count):
            at, omitted = self.put_part(size, depth, at, omitted, count - number)

    def put_part(self, size, depth, at, omitted, parts):
        """Writes a part, which is followed by `parts` - 1 others, and returns where it ends."""
        pick, chance = self.numbers.pick, self.numbers.chance
        left = max(size - at, 1)
        wanted = left // (parts + pick(3))
        if chance(50):
            wanted = wanted // 64 * 64
        if wanted <= 0 and chance(90):
            wanted = 1
        self.names += 1
        self.names -= chance(1)
        self.text += f" S{self.names}"
        self.text += "(PRESERVE)" if chance(15) else ""
        if chance(25):
            at += left // 8 * pick(3)
            at = max(at - left // 2 if chance(2) else at, 0)
            self.text += "@"
            self.put_number(at)
            omitted, left = False, size - at
            if wanted > left and not chance(3):
                wanted = max(left, 1)
        if not omitted and parts == 1 and chance(60):
            omitted, wanted = True, left
        elif omitted or not chance(4):
            if not chance(2):
                self.text += " "
                self.put_number(wanted)
        else:
            # (what is left of this run is shared with those behind it)
            omitted = True
        if depth < 3 and wanted > 256 and chance(30):
            self.text += " {"
            self.put_parts(wanted, depth + 1)
            self.text += " }"
        self.text += " # a comment {\n\t" if chance(3) else ""
        return at + wanted, omitted


def run(runner, options):
    """Gives descriptors and additions to both sides."""
    for count, try_all in ((options.descriptors, descriptors), (options.additions, additions)):
        text = try_all(runner, options.seed, count)
        print(f"seed {options.seed}: {text}", flush=True)
        is_default = (options.seed, options.descriptors, options.additions) == (1, 2000, 400)
        page = (TOP / "docs" / "MOVING.md").read_text(encoding="utf-8")
        if is_default and text not in page:
            runner.wrong(f"the page doesn't say: {text}")


def call(path, *words, folder):
    """Runs a command, and returns its status and its message."""
    done = subprocess.run([path, *words], cwd=folder, stdin=subprocess.DEVNULL,
                          stdout=subprocess.DEVNULL, stderr=subprocess.PIPE)
    return done.returncode, done.stderr.decode(errors="replace")


def descriptors(runner, seed, count):
    """Both compile each descriptor to the same table, or both refuse it; returns what is seen."""
    numbers, folder = Numbers(seed), runner.room
    compiled = refused = empty = 0
    for each in range(count):
        text = Descriptor(numbers).text
        (folder / "random.fmd").write_text(text)
        tables = [folder / "theirs.fmap", folder / "ours.fmap"]
        for table in tables:
            table.unlink(missing_ok=True)
        theirs, _ = call(tool("fmaptool"), "random.fmd", tables[0], folder=folder)
        ours, told = call(program("fmaptool"), "random.fmd", tables[1], folder=folder)
        if (theirs, ours) == (0, 0) and tables[0].read_bytes() == tables[1].read_bytes():
            compiled += 1
        elif theirs and ours == 1:
            refused += 1
        elif theirs == 0 and "empty section" in told and has_empty_area(tables[0].read_bytes()):
            # (the one that is told in the table of descriptors)
            empty += 1
        else:
            runner.wrong(f"seed {seed}, descriptor {each}: {theirs}, {ours}, {told}: {text}")
    return (f"of {count} descriptors, both programs compile {compiled} to equal tables, and both "
            f"refuse {refused}; coreboot's alone compiles {empty}, to a table with an empty area")


def has_empty_area(table):
    """Returns whether a table has an area without bytes."""
    return any(area.size == 0 for area in first_map(table).areas)


def additions(runner, seed, count):
    """Both leave the same image, but for the length of the last free cell; returns what is seen."""
    # (tests/moving.py imports this module)
    from tests.moving import without_lengths

    numbers, folder, differing = Numbers(seed), runner.room, 0
    for each in range(count):
        sample = ("types", "hashes", "packed")[numbers.pick(3)]
        length = numbers.pick(127) + 1
        name = f"{each:0{length}}"[:length]
        size = numbers.pick(3001)
        (folder / "content").write_bytes(NUMBERED[each * 37 : each * 37 + size])
        words = ["add", "-n", name, "-t", "raw", "-f", "content"]
        words += [[], ["-A", "sha256"], ["-A", "sha512"]][numbers.pick(3)]
        images = []
        for path in tool("cbfstool"), program("cbfstool"):
            (folder / "image.rom").write_bytes((runner.files / f"{sample}.rom").read_bytes())
            status, told = call(path, "image.rom", *words, folder=folder)
            images.append((folder / "image.rom").read_bytes() if status == 0 else told)
        if images[0] == images[1]:
            continue
        differing += 1
        is_refused = any(isinstance(image, str) for image in images)
        if is_refused or len({without_lengths(one, b"COREBOOT") for one in images}) > 1:
            runner.wrong(f"seed {seed}, addition {each}: other images: {words}")
    return (f"after {count} additions both images are the same, except for the length of the last "
            f"free cell, which differs in {differing} of them")
