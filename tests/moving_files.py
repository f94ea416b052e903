"""Makes the files on which tests/moving.py runs its examples, with coreboot's tools.

There are two boards, whose regions have the same names, other places and other sizes.
"""

import re
import struct

from tests.image import MAGIC, Area, flash_map
from tests.programs import TOP
from tests.reading import Reading
from tests.structures import elf

BOARDS = {
    1: """FLASH@0xfff00000 1M {
	SI_DESC 4K
	SI_ME 60K
	RW_SECTION_A 256K {
		VBLOCK_A 8K
		FW_MAIN_A(CBFS)
		RW_FWID_A 64
	}
	RW_SECTION_B 256K { VBLOCK_B 8K FW_MAIN_B ( CBFS ) RW_FWID_B 64 } # the second copy
	RW_MRC_CACHE(PRESERVE) 64K
	EC 16K
	BOOTBLOCK 16K
	FMAP 4K
	GBB 8K
	RO_FRID 64              # what follows begins at no multiple of 128
	FULL_2(PRESERVE CBFS) 8K
	SMM_3(CBFS)
	COREBOOT(CBFS)@704K
}
""",
    2: """# FULL_2(CBFS) and COREBOOT(CBFS) begin at no multiple of 128. The map is between them.
FLASH@0xffe00000 2M {
	SI_DESC 8K SI_ME 60K RO_FRID 128 RW_FWID_A 192 FULL_2(CBFS
		PRESERVE) 4K
	SMM_3 (CBFS) 0x6000
	RW_SECTION_A@192K { VBLOCK_A 4K FW_MAIN_A(CBFS) 320K }
	RW_SECTION_B@0x90040 { VBLOCK_B 4K FW_MAIN_B(CBFS) 320K RW_FWID_B 64 } RW_MRC_CACHE@1M 64K
	EC 32K BOOTBLOCK 32K GBB 4K FMAP@0x140000 2K COREBOOT(CBFS)@0x1a0040
}
""",
}
# What a row of the document says of the first board, and what this is on the second one.
ON_SECOND = {
    "`0xdfc0`": "`0xefc0`", "`1048576`": "`2097152`", "`65536`": "`98304`", "`0x1234`": "`0xbeef`",
    " at 0x40: extent": " at 0x4c0: extent", " at 0x0: attribute": " at 0x80: attribute",
    "`h sha1`": "`my sha1 2`", "`h\\x20sha1`": "`my\\x20sha1\\x202`",
}
REGIONS = ("COREBOOT", "FW_MAIN_A", "FW_MAIN_B", "FULL_2", "SMM_3")
NUMBERED = b"".join(b"%d\n" % number for number in range(1, 60001))
SAMPLES = ("types", "hashes", "packed")
RULE = "%.bin:\n\tcbfstool coreboot.rom extract -n $* -f $@\n"


def part(place, size):
    """Returns bytes of the numbers."""
    return NUMBERED[place : place + size]


class Files:
    """The files of a board in a folder. `call` runs a command of coreboot's there."""

    def __init__(self, folder, number, call):
        self.folder, self.number, self.call = folder, number, call

    def put(self, name, content):
        """Writes a file."""
        data = content if isinstance(content, bytes) else content.encode()
        (self.folder / name).write_bytes(data)

    def get(self, name):
        """Returns the content of a file."""
        return (self.folder / name).read_bytes()

    def change(self, name, at, data):
        """Replaces bytes of a file."""
        old = self.get(name)
        self.put(name, old[:at] + data + old[at + len(data) :])

    def add(self, image, name, content, *options, type="raw"):
        """Adds a component with a content."""
        self.put("content", content)
        self.call("cbfstool", image, "add", "-f", "content", "-n", name, "-t", type, *options)
        (self.folder / "content").unlink()

    def sizes(self):
        """Returns the sizes of the areas of the image, by their names."""
        areas = Reading(self.get("coreboot.rom")).areas
        return {area.name.decode(): area.size for area in areas}

    def make(self):
        """Makes all files."""
        self.put("chip.fmd", BOARDS[self.number])
        self.call("fmaptool", "chip.fmd", "chip.fmap")
        self.call("cbfstool", "coreboot.rom", "create", "-M", "chip.fmap", "-r", ",".join(REGIONS))
        self.make_parts(self.sizes())
        self.fill_image(self.sizes())
        self.make_samples()
        if self.number == 2:
            self.change_second()
        self.make_images()
        for path in self.folder.iterdir():
            path.chmod(0o666 if path.suffix == ".rom" else 0o644)

    def make_parts(self, sizes):
        """Makes the files that the commands add and write."""
        self.put("numbered", NUMBERED)
        self.put("bootblock.bin", part(1000, 16384))
        self.put("short.bin", part(2000, 10000))
        self.put("logo.bmp", part(3000, 5000))
        self.put("vblock.bin", part(4000, sizes["VBLOCK_A"]))
        self.put("main.bin", part(5000, sizes["FW_MAIN_B"]))
        self.put("fwid", part(6000, 20))
        self.put("pointer", b"ptr_")
        # (a bootblock with an anchor, without a gap before it, and a board on which it is a
        # component)
        anchor = bytes.fromhex("ad4d647448736815 000000 02") + bytes(64)
        self.put("verified.bin", part(1000, 4000) + anchor + part(6000, 12272))
        self.put("verified.fmd", re.sub(r"BOOTBLOCK [0-9]*K", "", BOARDS[self.number]))
        program = elf(0x100000, 0x100000, b"\xc3".ljust(64, b"\0"))
        for name in "payload.elf", "romstage.elf":
            self.put(name, program)
        # (as the image of an embedded controller has one)
        inner = flash_map(4096, [Area("EC_RO", 0, 4096)], b"EC")
        self.put("ec.bin", part(7000, 900) + inner + part(8000, 600))
        self.put("plain.mk", RULE)
        self.put("whole.mk", ".DELETE_ON_ERROR:\n" + RULE)
        self.put("empty.rom", b"")

    def fill_image(self, sizes):
        """Adds components to the image, and writes an area."""
        self.add("coreboot.rom", "config", part(7000, 700))
        for name, more, kind in (
            ("fallback/romstage", ["-r", "COREBOOT,FW_MAIN_A"], "simple elf"),
            ("pci1234,5678.rom", ["-a", "64"], "optionrom"), ("mrc.bin", ["-b", "0x18000"], "mrc"),
        ):
            self.add("coreboot.rom", name, part(8000, 30000), *more, type=kind)
        self.add("coreboot.rom", "oemmanifest.bin", b"ptr_", "-b", "0x20000")
        self.add("coreboot.rom", "all", part(9000, sizes["FULL_2"] - 28), "-r", "FULL_2")
        self.put("content", part(9000, sizes["SI_ME"]))
        self.call("cbfstool", "coreboot.rom", "write", "-r", "SI_ME", "-f", "content")
        (self.folder / "content").unlink()

    def make_samples(self):
        """Copies samples; for the second board they are moved."""
        for name in SAMPLES:
            self.put(f"{name}.rom", (TOP / "samples" / f"{name}.rom").read_bytes())
            if self.number == 2:
                self.move_sample(name)
        if self.number == 2:
            self.change_types()
        self.put("digests.rom", self.get("hashes.rom"))
        # (the digest of another algorithm, which isn't checked here)
        self.call("cbfstool", "digests.rom", "remove", "-n", "h sha1")

    def move_sample(self, name):
        """Puts the region of a sample into an image of another size, at an odd place."""
        image = Reading(self.get(f"{name}.rom"))
        region = image.bytes_of(image.inside(b"COREBOOT"))
        self.put("region", region)
        self.put("moved.fmd", f"ODD 96K {{ GAP.1 0x1c40 COREBOOT(CBFS) {len(region)} "
                              "REST@72K 20K FMAP 1K TAIL_2 }\n")
        self.call("fmaptool", "moved.fmd", "moved.fmap")
        (self.folder / f"{name}.rom").unlink()
        self.call("cbfstool", f"{name}.rom", "create", "-M", "moved.fmap")
        self.call("cbfstool", f"{name}.rom", "write", "-F", "-r", "COREBOOT", "-f", "region")
        for file in "region", "moved.fmd", "moved.fmap":
            (self.folder / file).unlink()

    def change_types(self):
        """Puts t/spd elsewhere, and gives the type without a name another number."""
        for name in "t/raw", "t/spd":
            self.call("cbfstool", "types.rom", "remove", "-n", name)
        self.add("types.rom", "t/raw", part(9000, 60))
        self.add("types.rom", "t/spd", part(6000, 20), type="spd")
        at = self.get("types.rom").index(b"unknown")
        self.change("types.rom", at - 10, b"\xbe\xef")

    def change_second(self):
        """Adds names with a blank, and changes a content that has a digest."""
        self.add("coreboot.rom", "boot order 2", part(6000, 20))
        data = self.get("digests.rom")
        entry = data.index(MAGIC)
        start = entry + struct.unpack_from(">I", data, entry + 20)[0]
        self.change("digests.rom", start, b"\xff")
        self.call("cbfstool", "hashes.rom", "remove", "-n", "h sha1")
        self.add("hashes.rom", "my sha1 2", part(6000, 20))

    def make_images(self):
        """Makes images with other bytes in some places, and a legacy one."""
        image = self.get("coreboot.rom")
        self.put("pointer.rom", image[:-4] + b"KEEP")
        self.put("payload.rom", image)
        self.call("cbfstool", "payload.rom", "add-payload", "-f", "payload.elf",
                  "-n", "fallback/payload")
        self.call("cbfstool", "legacy.rom", "create", "-m", "x86", "-s", "64K")
        before = b"x" if self.number == 1 else b"".join(b"%d\n" % n for n in range(1, 58))
        shifted = before + self.get("chip.fmap")
        self.put("shifted.rom", shifted.ljust(1 << 20, b"\0"))
        # (the length of t/spd, and that of the first attribute of the first cell, or of the third)
        types = self.get("types.rom")
        self.put("long.rom", types)
        self.change("long.rom", types.index(b"t/spd") - 16, b"\x7f\xff\xff\xff")
        hashes = self.get("hashes.rom")
        self.put("looped.rom", hashes)
        entry = [found.start() for found in re.finditer(MAGIC, hashes)][2 * self.number - 2]
        attributes = entry + struct.unpack_from(">I", hashes, entry + 16)[0]
        self.change("looped.rom", attributes + 4, bytes(4))
