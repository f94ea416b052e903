"""Images and descriptors at the limits of the formats.

A flash map has at most 65,535 areas, since it stores their number in two bytes, and `create` makes
at most 16 regions. A region may have any number of components; here it has 50,000.
"""

import sys
import unittest

from tests.image import (
    PRESERVED, SHA256, Area, Component, Image, digest, empty_region, flash_map,
    hash_attribute, join,
)
from tests.programs import ProgramTest
from tests.texts import layout, rows

SIZE = 0x400000
MOST_AREAS = 65535


class Areas(ProgramTest):
    """An image with 65,535 areas: FMAP, 65,533 small ones, and COREBOOT as the last one."""

    FIRST = 0x2A1000
    LAST = FIRST + 16 * 65532
    REGION = SIZE - 0x10000

    @classmethod
    def areas(cls, last="A65532"):
        """Returns the areas; the last one before COREBOOT has this name."""
        small = [Area(f"A{n}", cls.FIRST + 16 * n, 16, flags=n) for n in range(65532)]
        return [Area("FMAP", 0, cls.FIRST), *small, Area(last, cls.LAST, 16, flags=65532),
                Area("COREBOOT", cls.REGION, 4096, flags=0xFFFF)]

    @classmethod
    def image(cls, last="A65532", content=b"last but one...."):
        """Returns the image, whose last small area has this name and content."""
        made = Image(SIZE, cls.areas(last), name=b"MOST")
        return made.put_at(cls.REGION, empty_region(4096)).put_at(cls.LAST, content).data()

    @classmethod
    def setUpClass(cls):
        super().setUpClass()
        cls.files = {"image.rom": cls.image()}

    FINDINGS = [
        "remark - - 0x0 flashmap", "bad - - - too_many_areas_to_look_for_overlaps",
        "remark COREBOOT - - complete", "remark COREBOOT - - no_components",
        "remark COREBOOT - - free_bytes 4096",
        "remark COREBOOT - - largest_content_that_add_takes 4064",
    ]

    def test_layout_lists_all_areas(self):
        self.assertEqual(len(self.areas()), MOST_AREAS)
        self.check("cbfstool image.rom layout", self.files,
                   output=layout(SIZE, self.areas(), "MOST"))

    def test_print_finds_the_last_area(self):
        self.check("cbfstool image.rom print", self.files,
                   output=rows("(empty) 0x0 null 4064 none"))

    def test_read_finds_the_last_area_but_one(self):
        self.check("cbfstool image.rom read -r A65532 -f out", self.files,
                   left={"out": b"last but one...."})

    def test_read_of_an_absent_area(self):
        self.refuses(1, "no such region", "cbfstool image.rom read -r A65533 -f out", self.files,
                     left={"out": b""})

    def test_add_and_remove_change_the_last_area(self):
        folder = self.folder({**self.files, "source": b"abc"})
        cell = Component(b"a", b"abc")
        changed = bytearray(self.files["image.rom"])
        changed[self.REGION : self.REGION + 4096] = join(cell, empty_region(4096 - 64))
        self.check("cbfstool image.rom add -n a -t raw -f source", folder,
                   left={"image.rom": bytes(changed)})
        self.check("cbfstool image.rom remove -n a", folder, left=self.files)

    def test_report(self):
        report = rows(*self.FINDINGS, "not_sound:_1_bad,_5_remarks,_0_changes")
        self.check("cbfscheck image.rom", self.files, status=1, output=report)

    def test_report_of_changes(self):
        new = self.image(last="OTHER", content=b"last but two....")
        # (the name is in one block of the map, and the content in a block of its own)
        report = rows(
            *self.FINDINGS, "change - - - erase_blocks_differ 2",
            "change FMAP - 0x0 erase_blocks_differ 1", "change OTHER - 0x3a0fc0 area_added",
            "change A65532 - 0x3a0fc0 area_gone",
            "not_sound:_1_bad,_5_remarks,_4_changes",
        )
        self.check("cbfscheck image.rom new.rom", {**self.files, "new.rom": new}, status=1,
                   output=report)


class Components(ProgramTest):
    """A region of 50,000 components; each thousandth has a digest."""

    COUNT = 50000
    AT = 0x1000
    REGION = 0x380000

    @staticmethod
    def content(number):
        """Returns 0 to 32 bytes that begin with the number."""
        return (b"%d." % number * 16)[: number % 33]

    @classmethod
    def component(cls, number):
        """Returns a component with a name field of eight bytes."""
        content = cls.content(number)
        hashes = [] if number % 1000 else [hash_attribute(SHA256, content)]
        name = b"c%d" % number
        return Component(name, content, name_field=name.ljust(8, b"\0"), attributes=hashes)

    @classmethod
    def image(cls, cells):
        """Returns an image whose region begins with these cells; the rest is free."""
        areas = [Area("FMAP", 0, 0x1000), Area("COREBOOT", cls.AT, cls.REGION)]
        rest = empty_region(cls.REGION - len(cells))
        return Image(SIZE, areas).put("COREBOOT", cells + rest).data()

    @classmethod
    def setUpClass(cls):
        super().setUpClass()
        cls.cells = [cls.component(number).bytes for number in range(1, cls.COUNT + 1)]
        cls.places, at = [], 0
        for cell in cls.cells:
            cls.places.append(at)
            at += len(cell)
        cls.used = at
        cls.files = {"image.rom": cls.image(b"".join(cls.cells))}
        cls.without_last = cls.image(b"".join(cls.cells[:-1]))

    def listing(self, is_verbose=False):
        """Returns the output of `print`, or of `print -v`."""
        lines = []
        for number, place in enumerate(self.places, 1):
            content = self.content(number)
            lines.append(f"c{number}\t{place:#x}\traw\t{len(content)}\tnone\n")
            if is_verbose and number % 1000 == 0:
                lines.append("\tattr\t0x68736148\t44\n")
                lines.append(f"\thash\tsha256\t{digest(SHA256, content).hex()}\tvalid\n")
        free = self.REGION - self.used - 32
        return "".join([*lines, f"(empty)\t{self.used:#x}\tnull\t{free}\tnone\n"])

    def findings(self, count, free):
        """Returns the rows of a report of this image, with so many components and free bytes.

        At most 16 of the valid digests have a row.
        """
        hashed = range(1000, count + 1, 1000)
        return [
            "remark - - 0x0 flashmap",
            *(f"remark COREBOOT c{number} {self.places[number - 1]:#x} sha256_valid"
              for number in hashed[:16]),
            "remark COREBOOT - - complete", f"remark COREBOOT - - components {count}",
            f"remark COREBOOT - - free_bytes {free}",
            f"remark COREBOOT - - largest_content_that_add_takes {free - 32}",
        ], f"remark - - - more_of_these {len(hashed) - 16}"

    def report(self):
        """Returns the report of the image, with a remark for each of the 50 digests."""
        found, more = self.findings(self.COUNT, self.REGION - self.used)
        return rows(*found, more, "sound:_0_bad,_55_remarks,_0_changes")

    def test_print_lists_all_components(self):
        self.check("cbfstool image.rom print", self.files, output=self.listing())

    def test_print_with_attributes(self):
        self.check("cbfstool image.rom print -v", self.files, output=self.listing(True))

    def test_extract_finds_the_last_component(self):
        self.check("cbfstool image.rom extract -n c50000 -f out", self.files,
                   left={"out": b"50000."[: 50000 % 33]})

    def test_extract_of_an_absent_component(self):
        self.refuses(1, "no such component", "cbfstool image.rom extract -n c50001 -f out",
                     self.files, left={"out": b""})

    def test_remove_of_the_last_component(self):
        self.check("cbfstool image.rom remove -n c50000", self.files,
                   left={"image.rom": self.without_last})

    def test_report(self):
        self.check("cbfscheck image.rom", self.files, output=self.report())

    def test_report_with_a_list(self):
        lines = ["area\tFMAP\t0x0\t4096\t0x0\n", "area\tCOREBOOT\t0x1000\t3670016\t0x0\n"]
        for number, place in enumerate(self.places, 1):
            # (a header of 24 bytes, a name field of 8, and a hash attribute of 44)
            state, metadata = ("no hash", 32) if number % 1000 else ("sha256 valid", 76)
            content = self.content(number)
            sha256 = digest(SHA256, content).hex()
            fields = ["component", "COREBOOT", f"c{number}", f"{place:#x}", "raw",
                      str(len(content)), "none", state, f"{place + metadata:#x}",
                      "-" if number % 1000 else sha256, sha256]
            lines.append("\t".join(fields) + "\n")
        self.check("cbfscheck image.rom --list", self.files, output="".join(lines) + self.report())

    def test_report_of_changes(self):
        """The last component is gone, and the last but one has another byte of content."""
        new = bytearray(self.without_last)
        new[self.AT + self.places[-2] + 32] ^= 1
        old = self.files["image.rom"]
        blocks = sum(old[at : at + 4096] != new[at : at + 4096] for at in range(0, SIZE, 4096))
        found, more = self.findings(self.COUNT - 1, self.REGION - self.places[-1])
        report = rows(
            *found, f"change - - - erase_blocks_differ {blocks}",
            f"change COREBOOT - 0x1000 erase_blocks_differ {blocks}",
            f"change COREBOOT c49999 {self.places[-2]:#x} content_changed",
            f"change COREBOOT c50000 {self.places[-1]:#x} component_removed",
            more, "sound:_0_bad,_54_remarks,_4_changes",
        )
        self.check("cbfscheck image.rom new.rom", {**self.files, "new.rom": bytes(new)},
                   output=report)

    def test_option_without_its_value(self):
        self.refuses(2, "no value for option '-r' (see cbfscheck --help)",
                     "cbfscheck image.rom -r", self.files)


class Sections(ProgramTest):
    """A descriptor of 65,535 areas, and one with one more."""

    TEXT = "MOST 4M {\nFMAP 3M\n" + "".join(f"S{n} 8\n" for n in range(65533))
    TEXT += "COREBOOT(CBFS) 4K\n"
    AREAS = [Area("FMAP", 0, 0x300000), *(Area(f"S{n}", 0x300000 + 8 * n, 8) for n in range(65533))]
    AREAS += [Area("COREBOOT", 0x300000 + 8 * 65533, 4096)]
    MAP = flash_map(SIZE, AREAS, name=b"MOST")

    def test_most_areas(self):
        self.assertEqual(len(self.AREAS), MOST_AREAS)
        self.check("fmaptool in.fmd out", {"in.fmd": self.TEXT + "}\n"}, left={"out": self.MAP})

    def test_one_area_more(self):
        text = self.TEXT + "ONE 8\n}\n"
        self.refuses(1, "too many areas", "fmaptool in.fmd out", {"in.fmd": text}, {"out": b""})

    def test_create_with_most_areas(self):
        image = Image(SIZE, self.AREAS, name=b"MOST").put("COREBOOT", empty_region(4096))
        self.check("cbfstool image.rom create -M map", {"map": self.MAP},
                   left={"image.rom": image.data()})


class Regions(ProgramTest):
    """The number of regions that `create` makes."""

    NAMES = [f"R{number}" for number in range(17)]
    AREAS = [Area("FMAP", 0, 0x1000)]
    AREAS += [Area(f"R{n}", 0x1000 * (n + 1), 0x1000 - 64 * n, PRESERVED) for n in range(17)]
    MAP = flash_map(SIZE, AREAS)

    def test_sixteen_regions(self):
        image = Image(SIZE, self.AREAS)
        for area in self.AREAS[1:17]:
            image.put_at(area.offset, empty_region(area.size))
        self.check(f"cbfstool image.rom create -M map -r {','.join(self.NAMES[:16])}",
                   {"map": self.MAP}, left={"image.rom": image.data()})

    def test_seventeen_regions(self):
        self.refuses(2, "bad command line",
                     f"cbfstool image.rom create -M map -r {','.join(self.NAMES)}",
                     {"map": self.MAP})


# Runs a command, and prints the largest amount of memory that it had, in KiB.
PEAK = """
import resource, subprocess, sys
subprocess.run(sys.argv[1:], check=True)
print(resource.getrusage(resource.RUSAGE_CHILDREN).ru_maxrss)
"""


class Memory(ProgramTest):
    """The memory of a command does not grow with the length of a region."""

    def test_read_of_a_region_of_64_MiB(self):
        areas = [Area("FMAP", 0, 1 << 20), Area("BIG", 1 << 20, 64 << 20)]
        image = Image(65 << 20, areas).put("BIG", bytes(64 << 20))
        image.put_at((65 << 20) - 8, b"the end.")
        folder = self.folder({"image.rom": image.data()})
        command = [sys.executable, "-c", PEAK, "cbfstool", "image.rom", "read", "-r", "BIG",
                   "-f", "out"]
        done = folder.run(command)
        self.compare(folder, done, "status", 0, done.status)
        self.compare(folder, done, "message", b"", done.message)
        self.assertLess(int(done.output), 32 << 10, "KiB of memory")
        self.assertTrue(done.after["out"] == bytes((64 << 20) - 8) + b"the end.", folder.path)


if __name__ == "__main__":
    unittest.main()
