"""Runs the worked example of docs/EXAMPLES.md about a board with CBFS verification.

Each command has to end with status 0, and to print the lines below it. Each change of an image
also prints the note that its digests are outdated, but one that restores the sealed metadata. The
images are compared with literal fields, and with digests of hashlib.
"""

import re
import unittest

from tests.image import (
    BOOTBLOCK, RAW, SHA256, Area, Component, FreeEntry, Image, anchor, hash_attribute, join,
    sealed_anchor,
)
from tests.programs import TOP, ProgramTest

PAGE = TOP / "docs" / "EXAMPLES.md"
HEADING = "## A board with CBFS verification"
CODE = b"code of the bootblock\n"
CONFIG, TABLE = b"serial=on\n", b"data of a table\n"
SIZE = 0x40000
# This removal restores the metadata whose digest is in the anchor.
RESTORES = "cbfstool board.rom remove -n serial"
NOTE = "cbfstool: note: the bootblock's metadata hash is outdated: run cbfsseal {}\n"
MICROCODE, SPD, BOOTSPLASH, CMOS_DEFAULT, CMOS_LAYOUT = 0x53, 0xAB, 0x40, 0xAA, 0x1AA


def blocks():
    """Returns the commands of each block of the example, with the lines below them."""
    section = PAGE.read_text(encoding="utf-8").partition(f"\n{HEADING}\n")[2]
    texts = section.partition("\n## ")[0].split("```\n")[1::2]
    return [commands_of(text) for text in texts]


def commands_of(text):
    """Returns the commands of a block, each with its output."""
    found = []
    for line in text.splitlines(keepends=True):
        if line.startswith("$ "):
            found.append([line[2:].rstrip("\n"), ""])
        else:
            found[-1][1] += line
    return found


def hashed(name, content, type=RAW):
    return Component(name, content, type, [hash_attribute(SHA256, content)])


def board_image():
    """Returns the sealed image of the first board."""
    areas = [Area("FMAP", 0, 0x1000), Area("BOOTBLOCK", 0x1000, 0x1000)]
    areas += [Area("COREBOOT", 0x2000, SIZE - 0x2000)]
    parts = [
        hashed(b"config", CONFIG), hashed(b"revision", CONFIG),
        hashed(b"cmos.default", TABLE, CMOS_DEFAULT),
        hashed(b"cmos_layout.bin", TABLE, CMOS_LAYOUT), hashed(b"spd.bin", TABLE, SPD),
        hashed(b"bootsplash.bmp", TABLE, BOOTSPLASH), hashed(b"vbt.bin", TABLE),
        hashed(b"serial", CONFIG),
    ]
    last = hashed(b"cpu_microcode_blob.bin", TABLE, MICROCODE)
    # The content of the microcode begins at 0x1000.
    start = (0x1000 - last.content_offset) // 64 * 64
    last = Component(b"cpu_microcode_blob.bin", TABLE, MICROCODE, [hash_attribute(SHA256, TABLE)],
                     gap=0x1000 - start - last.content_offset)
    used = join(*parts)
    region = join(used, FreeEntry(start - len(used)), last)
    region = join(region, FreeEntry(SIZE - 0x2000 - len(region), keeps=b"\xff" * 4))
    made = Image(SIZE, areas, name=b"FLASH", base=0xFFFC0000)
    made.put("COREBOOT", region).put("BOOTBLOCK", bytes(0x1000)).put("BOOTBLOCK", CODE)
    right = sealed_anchor(SHA256, [*parts, last], made.map)
    return made.put_at(0x1000 + len(CODE), right).data()


def small_image():
    """Returns the sealed image of the second board."""
    areas = [Area("FMAP", 0, 0x1000), Area("COREBOOT", 0x1000, SIZE - 0x1000)]
    config = hashed(b"config", CONFIG)
    made = Image(SIZE, areas, name=b"FLASH", base=0xFFFC0000)
    outdated = CODE + anchor(SHA256, bytes(32), bytes(32))
    start = (SIZE - 0x1000 - len(outdated) - 36) // 64 * 64
    gap = SIZE - 0x1000 - len(outdated) - 36 - start
    boot = Component(b"bootblock", outdated, BOOTBLOCK, gap=gap)
    right = CODE + sealed_anchor(SHA256, [config, boot], made.map)
    boot = Component(b"bootblock", right, BOOTBLOCK, gap=gap)
    used = join(config)
    return made.put("COREBOOT", join(used, FreeEntry(start - len(used)), boot)).data()


class Example(ProgramTest):
    programs = ("cbfstool", "fmaptool", "cbfscheck", "cbfsseal")

    def test_commands(self):
        self.assertEqual([len(block) for block in blocks()], [9, 11, 3, 5, 7])
        folder = self.folder()
        for command, output in [row for block in blocks() for row in block]:
            run = folder.run(["bash", "-c", f"{{ {command}; }} 2>&1"])
            self.compare(folder, run, "status", 0, run.status)
            seen = run.output.decode()
            changed = re.match(r"cbfstool (\S+) (add|remove|write) ", command)
            if changed:
                note = NOTE.format(changed[1])
                notes = 0 if command == RESTORES else 1
                self.compare(folder, run, "number of notes", notes, seen.count(note))
                seen = seen.replace(note, "")
            self.compare(folder, run, "output", output, seen)
        self.compare(folder, run, "board.rom", board_image(), run.after["board.rom"])
        self.compare(folder, run, "small.rom", small_image(), run.after["small.rom"])


if __name__ == "__main__":
    unittest.main()
