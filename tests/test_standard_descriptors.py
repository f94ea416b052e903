"""Runs each command with each set of the standard descriptors closed.

A program never uses the number of a closed descriptor for one of its files: the image and all other
files become those of a run with open descriptors. Output to a closed descriptor is an output fault.
"""

import itertools
import os
import pathlib
import unittest

from tests.image import (
    SHA256, Area, Component, FreeEntry, Image, digest, flash_map, hash_attribute, join,
)
from tests.programs import TOP, ProgramTest, locked, words_of
from tests.texts import layout, rows

CONTENT = bytes(range(256)) * 5
REST = CONTENT.ljust(3072, b"r")
AREAS = [Area("FMAP", 0, 1024), Area("COREBOOT", 1024, 4096), Area("REST", 5120, 3072)]
A = Component(b"a", CONTENT, attributes=[hash_attribute(SHA256, CONTENT)])
B = Component(b"b", CONTENT, attributes=[hash_attribute(SHA256, CONTENT)])
END = b"\xff" * 4


def image(*entries, rest=b""):
    """Returns an image whose region has these entries, and whose area REST begins with `rest`."""
    return Image(8192, AREAS).put("COREBOOT", join(*entries)).put("REST", rest).data()


IMAGE = image(A, FreeEntry(2688, keeps=END))
EMPTY = image(FreeEntry(4096, keeps=END))
# (a byte in the content of the component is another one)
OTHER = IMAGE[:2000] + b"\0" + IMAGE[2001:]
FILES = {
    "image.rom": IMAGE,
    "other.rom": OTHER,
    "damaged.rom": IMAGE[:1024] + b"LARCHIVE" + b"\xff" * 16 + IMAGE[1048:],
    "map": flash_map(8192, AREAS),
    "content": CONTENT,
    "rest": REST,
    "board.fmd": b"BOARD 8K { FMAP 1K COREBOOT(CBFS) 4K REST }",
}

USAGE = "usage: cbfstool IMAGE COMMAND [OPTIONS]\n"
USAGE += "commands: print layout extract add remove read write create\n"
HELP = (TOP / "crates" / "cbfscheck" / "stdout").read_text(encoding="utf-8")
HASH_LINES = f"\tattr\t0x68736148\t44\n\thash\tsha256\t{digest(SHA256, CONTENT).hex()}\tvalid\n"
A_ROW, FREE_ROW = rows("a 0x0 raw 1280 none"), rows("(empty) 0x580 null 2656 none")


def report(state, *changes):
    """Returns the report of an image whose component has this hash state."""
    return rows(
        "remark - - 0x0 flashmap", state, "remark COREBOOT - - complete",
        "remark COREBOOT - - components 1", "remark COREBOOT - - free_bytes 2688",
        "remark COREBOOT - - largest_content_that_add_takes 2656", *changes,
    )


FINDINGS = report("remark COREBOOT a 0x0 sha256_valid", "sound:_0_bad,_6_remarks,_0_changes")
CHANGES = report(
    "bad COREBOOT a 0x0 sha256_invalid", "change - - - erase_blocks_differ 1",
    "change COREBOOT - 0x400 erase_blocks_differ 1", "change COREBOOT a 0x0 content_changed",
    "not_sound:_1_bad,_5_remarks,_3_changes",
)
DOCUMENT = (
    '{"format":1,"image":"image.rom","rows":['
    '{"verdict":"remark","code":"map","position":0,"what":"flashmap"},'
    '{"verdict":"remark","code":"hash-valid","area":"COREBOOT","component":"a","position":0,'
    '"what":"sha256 valid"},'
    '{"verdict":"remark","code":"complete","area":"COREBOOT","what":"complete"},'
    '{"verdict":"remark","code":"components","area":"COREBOOT","what":"components","value":1},'
    '{"verdict":"remark","code":"free-bytes","area":"COREBOOT","what":"free bytes","value":2688},'
    '{"verdict":"remark","code":"largest-content","area":"COREBOOT",'
    '"what":"largest content that add takes","value":2656}'
    '],"verdict":"sound","bad":0,"remarks":6,"changes":0}\n'
)

# The status of an output fault.
OUTPUT_FAULT = {"cbfstool": 1, "fmaptool": 1, "cbfscheck": 2}

# Each set of the standard descriptors, also the empty one.
SETS = [
    closed for count in range(4) for closed in itertools.combinations((0, 1, 2), count)
]


class ClosedDescriptors(ProgramTest):
    """Each command does the same as with open descriptors, but for the output that is closed."""

    printing = [
        # command, status, output
        ("cbfstool", 0, USAGE),
        ("cbfstool image.rom print", 0, A_ROW + FREE_ROW),
        ("cbfstool image.rom print -v", 0, A_ROW + HASH_LINES + FREE_ROW),
        ("cbfstool image.rom layout", 0, layout(8192, AREAS)),
        ("fmaptool", 0, "usage: fmaptool INPUT.fmd OUTPUT\n"),
        ("cbfscheck --help", 0, HELP),
        ("cbfscheck image.rom", 0, FINDINGS),
        ("cbfscheck --json image.rom", 0, DOCUMENT),
        ("cbfscheck image.rom other.rom", 1, CHANGES),
    ]

    changing = [
        # command, the files that it makes or changes
        ("cbfstool image.rom extract -n a -f made", {"made": CONTENT}),
        ("cbfstool image.rom read -f made", {"made": IMAGE[1024:5120]}),
        ("cbfstool image.rom add -n b -f content -t raw -A sha256",
         {"image.rom": image(A, B, FreeEntry(1280, keeps=END))}),
        ("cbfstool image.rom remove -n a", {"image.rom": EMPTY}),
        ("cbfstool image.rom write -r REST -f rest",
         {"image.rom": image(A, FreeEntry(2688, keeps=END), rest=REST)}),
        ("cbfstool made.rom create -M map", {"made.rom": EMPTY}),
        ("cbfstool image.rom create -M map", {"image.rom": EMPTY}),
        ("fmaptool board.fmd made", {"made": flash_map(8192, AREAS)}),
    ]

    refusals = [
        # command, status, message, the files that it makes or changes
        ("cbfstool damaged.rom print", 1, "cbfstool: damaged entry at 0x0: extent\n", {}),
        ("cbfstool image.rom extract -n z -f made", 1, "cbfstool: no such component\n",
         {"made": b""}),
        ("cbfstool image.rom add", 2, "cbfstool: bad command line\n", {}),
        ("fmaptool content made", 1, "fmaptool: bad byte at 0\n", {"made": b""}),
    ]

    def with_each_set(self, command, status=0, output="", message="", left=None):
        """Runs a command with each set of closed descriptors, also with none."""
        for closed in SETS:
            expected = status, output, message
            if 1 in closed and output:
                name = words_of(command)[0]
                expected = OUTPUT_FAULT[name], "", f"{name}: output fault\n"
            if 2 in closed:
                expected = (*expected[:2], "")
            with self.subTest(command, closed=closed):
                self.check(command, FILES, *expected, left, closed=closed)

    def test_commands_that_print(self):
        for command, status, output in self.printing:
            self.with_each_set(command, status, output)

    def test_commands_that_write_files(self):
        for command, left in self.changing:
            self.with_each_set(command, left=left)

    def test_refusals(self):
        for command, status, message, left in self.refusals:
            self.with_each_set(command, status, message=message, left=left)


def descriptors_in(folder, process):
    """Returns the numbers of the descriptors with which a process has opened files of a folder."""
    numbers = pathlib.Path(f"/proc/{process}/fd").iterdir()
    top = f"{folder.path.resolve()}/"
    return [int(one.name) for one in numbers if os.readlink(one).startswith(top)]


class WaitingCommands(ProgramTest):
    """While a command waits for the lock of its image, none of its files is a standard descriptor.

    A message that is written at this time would otherwise be written into the image.
    """

    programs = ("cbfstool", "cbfscheck", "cbfsseal")
    commands = (
        # command, the number of its open files
        ("cbfstool image.rom print", 1), ("cbfstool image.rom remove -n a", 1),
        ("cbfstool image.rom create -M map", 2), ("cbfscheck image.rom", 1),
        ("cbfsseal image.rom", 1),
    )

    def check_descriptors(self, command, count, closed):
        """Checks the numbers of the files of a command while it waits."""
        folder = self.folder(FILES)
        with locked(folder.path / "image.rom"):
            started = folder.start(command, closed=closed)
            is_waiting = started.waits_for_lock(folder.path / "image.rom")
            self.assertTrue(is_waiting, "does not wait for the lock")
            numbers = descriptors_in(folder, started.process.pid)
        started.end()
        self.assertEqual(len(numbers), count)
        self.assertGreater(min(numbers), 2)

    def test_the_descriptors_of_the_files(self):
        for (command, count), closed in itertools.product(self.commands, SETS):
            with self.subTest(command, closed=closed):
                self.check_descriptors(command, count, closed)


class NamedDescriptors(ProgramTest):
    """A path may name a standard descriptor; if this is closed, the file cannot be opened."""

    rows = [
        # arguments, the closed descriptor, refusal
        ("image.rom extract -n a -f /dev/stdout", 1, "output fault"),
        ("image.rom add -n c -t raw -f /dev/stdin", 0, "source fault"),
        ("/dev/stdin print", 0, "device fault"),
        ("/dev/stdout remove -n a", 1, "device fault"),
    ]

    def test_closed_descriptors(self):
        for words, closed, refusal in self.rows:
            with self.subTest(words):
                self.refuses(1, refusal, f"cbfstool {words}", FILES, closed=[closed])

    def test_open_output(self):
        self.check("cbfstool image.rom extract -n a -f /dev/stdout", FILES, output=CONTENT)


if __name__ == "__main__":
    unittest.main()
