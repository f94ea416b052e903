"""Compares what each script of dist/examples prints and writes with literal values.

tests/test_examples.py has the cases in which a script could lose data; here are the usual ones, on
images in which a region begins at no round place, and free space lies between components.
"""

import json
import os
import re
import shutil
import struct
import time
import unittest

from tests import image
from tests.programs import ProgramTest, locked, program, waits_for_lock
from tests.test_examples import EXAMPLES, HOSTILE, ExampleTest, board

START = 0x440
ALIGNED = "add-aligned", "image.rom", "COREBOOT"


def region_image(*parts, size=0x2000, start=START, **fields):
    """Returns an image whose region COREBOOT has these entries, and free space after them."""
    used = len(image.join(*parts))
    areas = [image.Area("FMAP", 0, 0x400), image.Area("COREBOOT", start, size)]
    areas.append(image.Area("BLOCK", start + size, 64))
    made = image.Image(start + size + 64, areas, **fields)
    made.put("COREBOOT", image.join(*parts, image.FreeEntry(size - used, keeps=b"\xff" * 4)))
    return made.put("BLOCK", b"B" * 64).data()


class Additions(ExampleTest):
    def place(self, folder, content=b"the content"):
        """Returns the offset of a content in the image."""
        data = (folder.path / "image.rom").read_bytes()
        self.assertEqual(data.count(content), 1)
        return data.index(content)

    def listing(self, folder):
        return folder.run(["cbfstool", "image.rom", "print", "-v"]).output.decode()

    def test_aligned_in_the_image(self):
        folder = self.folder({"image.rom": region_image(), "new": b"the content"})
        self.example(folder, *ALIGNED, "a", "new", "raw", "0x1000")
        self.assertEqual(self.place(folder), 0x1000)

    def test_aligned_after_a_digest(self):
        """The first place follows a header of 28 bytes and an attribute of 44 or 76."""
        for algorithm, length in [("sha256", 44), ("sha512", 76)]:
            folder = self.folder({"image.rom": region_image(), "new": b"the content"})
            self.example(folder, *ALIGNED, "a", "new", "raw", "4", "-A", algorithm)
            self.assertEqual(self.place(folder), START + 28 + length)
            self.assertIn(f"\thash\t{algorithm}\t", self.listing(folder))

    def test_aligned_in_the_second_free_space(self):
        cell = image.Component(b"x", b"data")
        folder = self.folder({
            "image.rom": region_image(image.FreeEntry(128), cell), "new": bytes(200) + b"end",
        })
        self.example(folder, *ALIGNED, "a", "new", "raw", "16")
        self.assertEqual(self.place(folder, b"end"), START + 192 + 32 + 200 - START % 16)

    def test_a_refused_addition(self):
        folder = self.folder({"image.rom": region_image(), "new": bytes(0x2000)})
        before = folder.files()
        run = self.example(folder, *ALIGNED, "a", "new", "raw", "16", status=1)
        self.assertEqual(run.message, b"no space in COREBOOT\n")
        run = self.example(folder, *ALIGNED, "", "new", "raw", "16", status=1)
        self.assertEqual(run.message, b"cbfstool: bad name\n")
        self.leaves(run, before)

    def test_at_an_address(self):
        """The last byte of the image is at 0xffffffff."""
        size = len(region_image())
        address = (1 << 32) - size + START + 0x200
        folder = self.folder({"image.rom": region_image(), "new": b"the content"})
        words = ["add-at-address", "image.rom", "COREBOOT", "a", "new", "raw"]
        self.example(folder, *words, hex(address), "-A", "sha256")
        self.assertEqual(self.place(folder), START + 0x200)
        self.assertIn("\thash\tsha256\t", self.listing(folder))

    def test_an_address_below_the_region(self):
        folder = self.folder({"image.rom": region_image(), "new": b"the content"})
        words = ["add-at-address", "image.rom", "COREBOOT", "a", "new", "raw"]
        address = hex((1 << 32) - len(region_image()) + START - 1)
        run = self.example(folder, *words, address, status=1)
        self.assertEqual(run.message.decode(), f"{address} lies below COREBOOT\n")
        self.leaves(run, run.before)

    def test_numbers(self):
        """A number is decimal, also with leading zeros, or hexadecimal after 0x."""
        at = (1 << 32) - len(region_image()) + START + 0x200
        for name, texts, place in [
            ("add-at-address", [f"{at}", f"0{at}", f"{at:#x}", f"0x00{at:X}"], START + 0x200),
            ("add-aligned", ["4096", "04096", "0x1000", "0x00001000"], 0x1000),
        ]:
            words = [name, "image.rom", "COREBOOT", "a", "new", "raw"]
            for text in texts:
                folder = self.folder({"image.rom": region_image(), "new": b"the content"})
                self.example(folder, *words, text)
                self.assertEqual(self.place(folder), place, text)
            for text in ["fff00000", "4K", "0X1000", "-4096", "", "0x", "1 2", "0x100000000"]:
                folder = self.folder({"image.rom": region_image(), "new": b"the content"})
                run = self.example(folder, *words, text, status=2)
                self.assertEqual(run.message.decode(), f"no number: {text}\n")
                self.leaves(run, run.before)
        folder = self.folder({"image.rom": region_image(), "new": b"the content"})
        run = self.example(folder, *ALIGNED, "a", "new", "raw", "0", status=1)
        self.assertEqual(run.message, b"bad alignment: 0\n")

    def test_at_the_end(self):
        folder = self.folder({"image.rom": region_image(), "new": b"the content"})
        (folder.path / "link").symlink_to("new")
        words = ["add-at-end", "image.rom", "COREBOOT", "boot"]
        self.example(folder, *words, "link", "bootblock", "-A", "sha512")
        self.assertEqual(self.place(folder), START + 0x2000 - len(b"the content"))
        self.assertIn("\thash\tsha512\t", self.listing(folder))


class Digests(ExampleTest):
    def components(self):
        digest = image.hash_attribute
        return [
            image.Component(b"good", b"data", attributes=[digest(image.SHA256, b"data")]),
            image.Component(b"none", b"data"),
            image.Component(b"wrong", b"data", attributes=[digest(image.SHA512, b"date")]),
            image.Component(b"other", b"data", attributes=[digest(9, value=bytes(20))]),
        ]

    def test_bad_digests(self):
        good, none, wrong, other = self.components()
        for cells, output in [
            ([good, none], ""), ([wrong, good], "COREBOOT: wrong: invalid\n"),
            ([other, good], "COREBOOT: other: unsupported\n"),
        ]:
            folder = self.folder({"image.rom": region_image(*cells)})
            run = self.example(folder, "bad-digests", "image.rom", "COREBOOT",
                               status=1 if output else 0)
            self.assertEqual(run.output.decode(), output)

    def test_a_refused_region_before_a_good_one(self):
        folder = self.folder({"image.rom": region_image(self.components()[0])})
        run = self.example(folder, "bad-digests", "image.rom", "BLOCK", "COREBOOT", status=1)
        self.assertEqual(run.output, b"BLOCK: refused\n")
        folder = self.folder({"image.rom": region_image(self.components()[2])})
        run = self.example(folder, "bad-digests", "image.rom", "COREBOOT", "FMAP", status=1)
        self.assertEqual(run.output, b"COREBOOT: wrong: invalid\nFMAP: refused\n")

    def test_bad_digests_of_any_name(self):
        """The names of regions and components are compared as they are printed."""
        wrong = self.components()[2]
        for name in ["RW A", "A\\B", "\u00e4", "A,B", "-r"]:
            folder = self.folder({"image.rom": board([], name=name)})
            self.example(folder, "bad-digests", "image.rom", name)
            made = image.Image(0x1000, [image.Area("FMAP", 0, 0x200), image.Area(name, 512, 256)])
            made.put(name, image.join(wrong, image.FreeEntry(256 - len(wrong.bytes))))
            folder = self.folder({"image.rom": made.data()})
            run = self.example(folder, "bad-digests", "image.rom", name, status=1)
            self.assertEqual(run.output.decode(), f"{name}: wrong: invalid\n")

    def test_bad_digests_of_many_components(self):
        """No row is left out, also of more than 16."""
        wrong = self.components()[2]
        folder = self.folder({"image.rom": region_image(*[wrong] * 20)})
        run = self.example(folder, "bad-digests", "image.rom", "COREBOOT", status=1)
        self.assertEqual(run.output.decode(), "COREBOOT: wrong: invalid\n" * 20)

    def test_bad_digests_of_a_read_only_image(self):
        folder = self.folder({"image.rom": region_image(self.components()[0])})
        (folder.path / "image.rom").chmod(0o444)
        self.stand_in("cbfstool", "exit 1")
        self.example(folder, "bad-digests", "image.rom", "COREBOOT")

    def test_bad_digests_of_no_image(self):
        run = self.example(self.folder(), "bad-digests", "absent.rom", "COREBOOT", status=2)
        self.assertEqual(run.output, b"")
        self.assertEqual(run.message, b"cbfscheck: absent.rom: No such file or directory\n")

    def test_bad_digests_of_a_damaged_region(self):
        damaged = image.Component(b"x", b"data", length=0x4000)
        folder = self.folder({"image.rom": region_image(self.components()[2], damaged)})
        run = self.example(folder, "bad-digests", "image.rom", "COREBOOT", status=1)
        self.assertEqual(run.output, b"COREBOOT: wrong: invalid\nCOREBOOT: refused\n")

    def test_component_digest(self):
        folder = self.folder({
            "image.rom": region_image(*self.components(), image.FreeEntry(64),
                                      image.Component(b"(empty)", b"data", attributes=[
                                          image.hash_attribute(image.SHA256, b"data")])),
        })
        for shown, output in [("good", "sha256\n"), ("wrong", "sha512\n"),
                              ("other", "unsupported\n"), ("none", ""), ("(empty)", "sha256\n")]:
            run = self.example(folder, "component-digest", "image.rom", "COREBOOT", shown)
            self.assertEqual(run.output.decode(), output, shown)
        run = self.example(folder, "component-digest", "image.rom", "COREBOOT", "no", status=1)
        self.assertEqual(run.message, b"no such component: no\n")


class Readings(ExampleTest):
    """Scripts that read an image."""

    def test_component_place(self):
        cells = [image.Component(b"x", b"data"), image.Component(b"y", b"content", gap=20)]
        folder = self.folder({"image.rom": region_image(*cells)})
        run = self.example(folder, "component-place", "image.rom", "COREBOOT", "y", "stored")
        self.assertEqual(run.output.decode(), f"{START + 64 + 28 + 20:#x}\n")
        self.assertEqual(run.after["stored"], b"content")

    def test_extract_all(self):
        cells = [image.Component(b"x", b"data"), image.FreeEntry(64), image.Component(b"y", b"1")]
        folder = self.folder({"image.rom": region_image(*cells)})
        run = self.example(folder, "extract-all", "image.rom")
        made = {name: content for name, content in run.after.items() if name != "image.rom"}
        self.assertEqual(sorted(made), [f"out.COREBOOT/{name}" for name in
                                        ["0x0-x", "0x80-y", "region", "rows"]])
        self.assertEqual((made["out.COREBOOT/0x0-x"], made["out.COREBOOT/0x80-y"]), (b"data", b"1"))

    def test_a_refused_extraction_leaves_no_folder(self):
        folder = self.folder({"image.rom": region_image()})
        self.example(folder, "extract-all", "image.rom", "BLOCK", status=1)
        self.has_files(folder, "image.rom")

    def test_cbfs_regions(self):
        text = "F 64K { # C(CBFS)\nFMAP 1K A(CBFS) 1K B ( PRESERVE CBFS ) 1K D(PRESERVE) 1K }"
        folder = self.folder({"board.fmd": text})
        run = self.example(folder, "cbfs-regions", "board.fmd")
        self.assertEqual(run.output, b"A\nB\n")

    def test_check_build(self):
        """Without options COREBOOT has to be there; an earlier report is replaced."""
        folder = self.folder({"image.rom": board(name="OTHER"), "report.txt": "bad\told report\n"})
        run = self.example(folder, "check-build", "image.rom", status=1)
        self.assertEqual(run.message, b"bad\tCOREBOOT\t-\t-\tno such area\n")
        self.assertNotIn(b"old report", run.after["report.txt"])
        run = self.example(folder, "check-build", "image.rom", "-r", "OTHER")
        self.assertEqual(run.message, b"")
        self.example(folder, "check-build", "absent.rom", status=2)

    def test_check_build_without_a_report(self):
        """report.txt is a folder, or the check is a program that does not exist."""
        folder = self.folder({"image.rom": board(), "report.txt/file": b""})
        run = self.example(folder, "check-build", "image.rom", status=2)
        self.assertIn(b"report.txt: Is a directory\n", run.message)
        self.leaves(run, run.before)
        folder = self.folder({"image.rom": board()})
        self.example(folder, "check-build", "image.rom", status=2, CBFSCHECK="./absent")


class SignRegion(ExampleTest):
    def test_the_signed_bytes(self):
        """Free space between components is signed, that at the end is not."""
        cells = [image.Component(b"x", b"data"), image.FreeEntry(64), image.Component(b"y", b"1")]
        data = region_image(*cells)
        folder = self.folder({"image.rom": data})
        sign = ["sh", "-c", "wc -c < $1", "sign"]
        run = self.example(folder, "sign-region", "image.rom", "COREBOOT", "BLOCK", *sign)
        self.assertEqual(run.after["to_sign"], data[START : START + 192])
        wanted = data[:-64] + b"192\n".ljust(64, b"B")
        self.leaves(run, {**run.after, "image.rom": wanted})


class FlashChecked(ExampleTest):
    # With --ifd flashrom reads zeros for the bytes of other regions.
    FLASHROM = ('echo "$*" >> calls\nread=chip; [[ "$*" != *--ifd* ]] || read=part\n'
                'case $3 in -r) cp "$read" "$4" ;; -w) cp "$4" chip ;; *) exit 9 ;; esac')

    def setUp(self):
        super().setUp()
        self.stand_in("flashrom", self.FLASHROM)

    def calls(self, folder, place=""):
        """Returns the arguments of flashrom, with the path of the private copy as COPY."""
        text = (folder.path / place / "calls").read_text()
        return [re.sub("-w [^ ]*/image.rom", "-w COPY", line) for line in text.splitlines()]

    def test_a_kept_area_that_changes(self):
        """The image is compared with the content of the chip."""
        old, new = (board(areas=[("KEPT", text, 8)]) for text in (b"1" * 64, b"2" * 64))
        folder = self.folder({"image.rom": new, "chip": old})
        run = self.example(folder, "flash-checked", "image.rom", "--keep", "KEPT", status=1)
        self.leaves(run, {**run.after, "chip": old})

    def test_the_programmer(self):
        folder = self.folder({"image.rom": board(), "chip": board()})
        self.example(folder, "flash-checked", "image.rom", "-r", "COREBOOT",
                     PROGRAMMER="ch341a_spi")
        wanted = ["-p ch341a_spi -r chip.rom", "-p ch341a_spi -w COPY"]
        self.assertEqual(self.calls(folder), wanted)
        (folder.path / "chip.rom").unlink()
        (folder.path / "calls").unlink()
        self.example(folder, "flash-checked", "image.rom", "-r", "COREBOOT")
        self.assertEqual(self.calls(folder), ["-p internal -r chip.rom", "-p internal -w COPY"])

    def test_the_chip(self):
        folder = self.folder({"image.rom": board(), "chip": board()})
        self.example(folder, "flash-checked", "image.rom", "-c", "W25Q64.V", "-r", "COREBOOT")
        wanted = ["-p internal -r chip.rom -c W25Q64.V", "-p internal -w COPY -c W25Q64.V"]
        self.assertEqual(self.calls(folder), wanted)

    def areas(self, letter):
        return [("KEPT", letter * 64, 0), ("A", letter * 128, 0), ("B", letter * 128, 0)]

    def test_areas_of_the_map(self):
        """The areas of -i are those of the image, and all other bytes those of the chip."""
        old, new = (board([("config", b"1")], self.areas(b"1")), board(areas=self.areas(b"2")))
        folder = self.folder({"image.rom": new, "chip": old})
        words = ["-i", "A", "--keep", "KEPT,COREBOOT", "--fmap", "-i", "B", "-N"]
        run = self.example(folder, "flash-checked", "image.rom", *words)
        areas = [self.areas(b"1")[0], *self.areas(b"2")[1:]]
        self.leaves(run, {**run.after, "chip": board([("config", b"1")], areas)})
        wanted = ["-p internal -r chip.rom", "-p internal -w COPY --fmap -i A -i B -N"]
        self.assertEqual(self.calls(folder), wanted)
        self.assertIn(b"change\tA\t", run.output)
        self.assertNotIn(b"change\tCOREBOOT\t", run.output)

    def test_an_area_that_is_elsewhere_on_the_chip(self):
        old = board(areas=[("A", b"1" * 64, 0), ("B", b"1" * 128, 0)])
        for area in ["A", "B", "NONE"]:
            folder = self.folder({"image.rom": board(areas=self.areas(b"2")), "chip": old})
            words = ["-r", "COREBOOT", "--fmap", "-i", area]
            run = self.example(folder, "flash-checked", "image.rom", *words, status=1)
            cause = "it has no area NONE" if area == "NONE" else f"{area} is elsewhere on the chip"
            self.assertEqual(run.message.decode(), f"image.rom is not written: {cause}\n")
            self.leaves(run, {**run.after, "chip": old})

    def verified(self, content):
        """Returns an image with CBFS verification, whose digests are right."""
        areas = [image.Area("FMAP", 0, 0x400), image.Area("COREBOOT", 0x400, 0x400)]
        made = image.Image(0xA00, [*areas, image.Area("BOOTBLOCK", 0x800, 0x200)])
        cell = image.Component(b"a", content, attributes=[image.hash_attribute(2, content)])
        made.put("COREBOOT", image.join(cell, image.FreeEntry(0x400 - len(cell.bytes))))
        return made.put("BOOTBLOCK", image.sealed_anchor(2, [cell], made.map)).data()

    def test_a_region_without_its_anchor(self):
        """What the chip will have is checked: COREBOOT of the image with the chip's anchor."""
        old, new = self.verified(b"old"), self.verified(b"new")
        folder = self.folder({"image.rom": new, "chip": old})
        words = ["-r", "COREBOOT", "--fmap", "-i", "COREBOOT"]
        run = self.example(folder, "flash-checked", "image.rom", *words, status=1)
        self.assertIn(b"metadata hash sha256 invalid", run.output)
        self.leaves(run, {**run.after, "chip": old})
        (folder.path / "chip.rom").unlink()
        run = self.example(folder, "flash-checked", "image.rom", *words, "-i", "BOOTBLOCK")
        self.leaves(run, {**run.after, "chip": new})

    # An Intel flash descriptor: the signature, the offset 0x40 of its regions in the third byte of
    # the map, and the first and last block of 4096 bytes of the regions fd, bios and me. The
    # regions gbe and pd are unused: their last block precedes the first one.
    DESCRIPTOR = (
        b"\xff" * 16 + b"\x5a\xa5\xf0\x0f" + b"\x03\x00\x04\x00" + b"\xff" * 40
        + b"\0\0\0\0" + b"\2\0\3\0" + b"\1\0\1\0" + b"\xff\x7f\0\0" * 2
    ).ljust(0x1000, b"\xff")
    # The same of an old board, whose descriptor begins with the signature.
    OLD_DESCRIPTOR = (DESCRIPTOR[16:24] + DESCRIPTOR[24:64].rjust(56, b"\xff")
                      + DESCRIPTOR[64:])

    def intel(self, name, descriptor, engine=b"M", content=b"data", named=True):
        """Returns an image for a chip with an Intel descriptor, whose areas may have no names."""
        areas = [image.Area(name, 0x2000, 0x2000), image.Area("FMAP", 0x2000, 0x400)]
        areas.append(image.Area("COREBOOT", 0x2400, 0x1C00))
        if named:
            areas += [image.Area("SI_ALL", 0, 0x2000), image.Area("SI_DESC", 0, 0x1000)]
            areas.append(image.Area("SI_ME", 0x1000, 0x1000))
        made = image.Image(0x4000, areas)
        # (an engine that is not blank begins with its partition table)
        start = b"" if engine in (b"\xff", b"\0") else b"\xff" * 16 + b"$FPT"
        made.put_at(0, descriptor.ljust(0x1000, descriptor[-1:]) + start.ljust(0x1000, engine))
        cell = image.Component(b"a", content)
        made.put("COREBOOT", image.join(cell, image.FreeEntry(0x1C00 - len(cell.bytes))))
        return made.data()

    def is_refused(self, chip, made, cause, *words):
        """Checks that the image is not written to the chip, for this cause."""
        folder = self.folder({"image.rom": made, "chip": chip, "part": chip})
        words = "-r", "COREBOOT", *words
        run = self.example(folder, "flash-checked", "image.rom", *words, status=1)
        self.assertEqual(run.message.decode(), f"image.rom is not written: {cause}\n")
        self.leaves(run, {**run.after, "chip": chip})

    def is_written(self, chip, made, *words, left=None):
        """Checks that the image is written to the chip, which then has these bytes."""
        folder = self.folder({"image.rom": made, "chip": chip, "part": chip})
        words = "-r", "COREBOOT", *words
        run = self.example(folder, "flash-checked", "image.rom", *words)
        self.leaves(run, {**run.after, "chip": left or made})

    def test_an_erased_descriptor(self):
        chip = self.intel("SI_BIOS", self.DESCRIPTOR)
        for descriptor, engine, area in [
            (b"\xff", b"M", "SI_DESC"), (self.DESCRIPTOR, b"\xff", "SI_ME"),
        ]:
            made = self.intel("SI_BIOS", descriptor, engine, b"new")
            self.is_refused(chip, made, f"{area} is blank, and not on the chip: "
                            "copy it from chip.rom, or add --ifd -i bios")
        # (a cleared descriptor, and a cleared engine)
        for descriptor, engine, area in [
            (b"\0", b"M", "SI_DESC"), (self.DESCRIPTOR, b"\0", "SI_ME"),
        ]:
            made = self.intel("SI_BIOS", descriptor, engine, b"new")
            self.is_refused(chip, made, f"{area} is blank, and not on the chip: "
                            "copy it from chip.rom, or add --ifd -i bios")
        # (an empty chip, and another descriptor)
        made = self.intel("SI_BIOS", b"\xff", b"\xff")
        self.is_written(made, made)
        other = self.DESCRIPTOR[:-1] + b"d"
        self.is_written(chip, self.intel("SI_BIOS", other, b"m"))

    def test_a_descriptor_without_an_area(self):
        """The map of a laptop has an area BIOS, and none for the descriptor and the engine."""
        lost = "the chip would lose its flash descriptor: write only --ifd -i bios"
        for descriptor in [self.DESCRIPTOR, self.OLD_DESCRIPTOR]:
            chip = self.intel("BIOS", descriptor, named=False)
            for other in [b"\xff", b"\0", b"other bytes", descriptor.replace(b"\xf0", b"\xf1")]:
                made = self.intel("BIOS", other, content=b"new", named=False)
                self.is_refused(chip, made, lost)
                # (only the bytes of COREBOOT are written)
                self.is_written(chip, made, "--fmap", "-i", "COREBOOT",
                                left=chip[:0x2400] + made[0x2400:])
            self.is_written(chip, self.intel("BIOS", descriptor, b"m", b"new", named=False))
        self.is_refused(self.intel("BIOS", self.DESCRIPTOR, named=False),
                        self.intel("BIOS", self.OLD_DESCRIPTOR, named=False), lost)

    def test_an_engine_without_an_area(self):
        """The descriptor of the chip says which bytes are those of the engine."""
        chip = self.intel("BIOS", self.DESCRIPTOR, named=False)
        for blank in [b"\xff", b"\0"]:
            made = self.intel("BIOS", self.DESCRIPTOR, blank, b"new", named=False)
            self.is_refused(chip, made, "the chip would lose its region me: "
                            "write only --ifd -i bios")
            # (the chip has no engine either)
            self.is_written(self.intel("BIOS", self.DESCRIPTOR, blank, named=False), made)

    def test_a_blank_area_of_the_descriptor(self):
        """An area that is named by -i may not erase the descriptor either."""
        chip = self.intel("SI_BIOS", self.DESCRIPTOR)
        made = self.intel("SI_BIOS", b"\xff", b"\xff")
        self.is_refused(chip, made, "the chip would lose its flash descriptor: "
                        "write only --ifd -i bios", "--fmap", "-i", "SI_DESC")
        self.is_refused(chip, made, "the chip would lose its region me: "
                        "write only --ifd -i bios", "--fmap", "-i", "SI_ME")

    def test_the_bios_region(self):
        """flashrom writes this region only, and the report has no other change."""
        for name in ["SI_BIOS", "BIOS"]:
            chip = self.intel(name, self.DESCRIPTOR)
            made = self.intel(name, b"\xff", b"\xff", b"new content")
            part = chip[:0x1000] + bytes(0x1000) + chip[0x2000:]
            folder = self.folder({"image.rom": made, "chip": chip, "part": part})
            words = ["--ifd", "-i", "bios", "-N", "-r", "COREBOOT"]
            run = self.example(folder, "flash-checked", "image.rom", *words)
            wanted = ["-p internal -r chip.rom --ifd -i fd -i bios",
                      "-p internal -w COPY --ifd -i bios -N"]
            self.assertEqual(self.calls(folder), wanted)
            self.leaves(run, {**run.after, "chip": part[:0x2000] + made[0x2000:]})
            self.assertIn(b"change\tCOREBOOT\ta\t", run.output)
            self.assertNotRegex(run.output, b"\tSI_(ALL|DESC|ME)\t")

    def test_another_bios_region(self):
        """flashrom writes the region of the descriptor, and the area of the map was checked."""
        for name in ["SI_BIOS", "BIOS"]:
            made = self.intel(name, b"\xff")
            for region in [b"\1\0\3\0", b"\2\0\2\0", b"\2\0\4\0", b"\xff\x7f\0\0"]:
                descriptor = self.DESCRIPTOR.replace(b"\2\0\3\0", region)
                cause = f"the BIOS region of the chip's descriptor is not its area {name}"
                self.is_refused(self.intel(name, descriptor), made, cause, "--ifd", "-i", "bios")

    def test_wrong_options(self):
        for words in [
            ["-i", "A"], ["--ifd"], ["--fmap"], ["--ifd", "-i", "me"], ["--fmap", "-i", "A:file"],
            ["--ifd", "-i", "bios", "-i", "me"], ["--ifd", "--fmap", "-i", "bios"], ["-i"], ["-c"],
            ["--fmap", "-i", ""], ["--fmap", "-i", "A", "-i", "B:file"],
        ]:
            folder = self.folder({"image.rom": board(areas=self.areas(b"2")), "chip": b""})
            run = self.example(folder, "flash-checked", "image.rom", "-r", "A", *words, status=2)
            self.has_files(folder, "chip", "image.rom")
            self.assertRegex(run.message, b"^(usage: |flash-checked: -i needs )", words)
        for words in [["-N"], ["-c", "W25Q64.V"], ["--fmap", "-i", "A"]]:
            folder = self.folder({"image.rom": board(), "chip": b""})
            self.example(folder, "flash-checked", "image.rom", *words, status=2)
            self.has_files(folder, "chip", "image.rom")

    def test_a_dry_run(self):
        """The chip is read and the report is written, but nothing is written to the chip."""
        kept = ("KEPT", b"1" * 64, 8)
        old, new = (board(areas=[kept, ("A", text * 64, 0)]) for text in (b"1", b"2"))
        folder = self.folder({"image.rom": new, "chip": old})
        words = ["flash-checked", "image.rom", "--flash", "-r", "COREBOOT"]
        run = self.example(folder, *words, "--dry-run")
        self.assertEqual(self.calls(folder), ["-p internal -r chip.rom"])
        last = "dry run: nothing was written; without --dry-run, image.rom would be written"
        rows = [row for row in run.after["report.txt"].decode().splitlines() if row[:6] == "change"]
        self.assertEqual(run.output.decode().splitlines(), [*rows, f"{last} to the chip"])
        self.assertIn("change\tA\t-\t0x2440\terase blocks differ\t1", rows)
        self.assertEqual((run.after["chip"], run.after["chip.rom"]), (old, old))
        # (the backup has to be moved before the chip is written)
        run = self.example(folder, *words, status=2)
        self.assertEqual((run.message, run.after["chip"]),
                         (b"chip.rom exists: move it away first\n", old))
        (folder.path / "chip.rom").rename(folder.path / "backup.rom")
        self.assertEqual(self.example(folder, *words).after["chip"], new)

    def test_a_dry_run_of_a_refused_image(self):
        """The status and the message are those of a run without the option."""
        old, new = (board(areas=[("KEPT", text * 64, 8)]) for text in (b"1", b"2"))
        folder = self.folder({"image.rom": new, "chip": old})
        run = self.example(folder, "flash-checked", "--dry-run", "--flash", status=2)
        run = self.example(folder, "flash-checked", "image.rom", "--flash", "--dry-run", status=1)
        self.assertEqual(run.message, b"image.rom is not written: see report.txt\n")
        self.assertNotIn(b"dry run", run.output)
        self.assertEqual(run.after["chip"], old)

    def test_a_failed_read(self):
        """flashrom refuses to read, for example a locked descriptor, or a signal ends it."""
        for failure in ["exit 1", "kill -9 $$"]:
            self.stand_in("flashrom", f'echo "$*" >> calls\n{failure}')
            for words in [[], ["--ifd", "-i", "bios"], ["--dry-run"]]:
                folder = self.folder({"image.rom": board(), "chip": board(), "report.txt": b"old"})
                run = self.example(folder, "flash-checked", "image.rom", "--flash", *words,
                                   status=2)
                self.assertIn(b"image.rom is not written: flashrom cannot read the chip",
                              run.message)
                self.assertEqual([line.split()[2] for line in self.calls(folder)], ["-r"])
                self.assertEqual(run.after["report.txt"], b"")

    def test_files_that_cannot_be_used(self):
        """report.txt is a folder, cbfscheck does not exist, or the image has no flash map."""
        good = board(areas=self.areas(b"1"))
        for files, words, variables in [
            ({"report.txt/file": b""}, [], {}), ({}, [], {"CBFSCHECK": "./absent"}),
            ({"image.rom": bytes(len(good))}, ["--fmap", "-i", "A"], {}),
        ]:
            folder = self.folder({"image.rom": good, "chip": good, **files})
            run = self.example(folder, "flash-checked", "image.rom", "-r", "COREBOOT", *words,
                               status=2, **variables)
            self.leaves(run, {**run.after, "chip": good}, words)
            self.assertNotIn(b"-w", run.after.get("calls", b""))

    def fails_to_write(self, failure):
        """Makes flashrom damage the chip, and then end in this way, if the file `broken` exists."""
        self.stand_in("flashrom", f'if [ "$3" = -w ] && [ -e broken ]; then\necho "$*" >> calls\n'
                                  f'head -c 100 "$4" > chip\n{failure}\nfi\n{self.FLASHROM}')

    def restored(self, old, new, *words, part=b"", **variables):
        """Runs the script, whose write fails, and then the command that it prints. Returns the
        message, and the contents of the chip after the failure and after the command."""
        files = {"image.rom": new, "chip": old, "part": part, "broken": b""}
        folder = self.folder({f"{HOSTILE}/{name}": data for name, data in files.items()})
        environment = self.environment(**variables)
        inside = ["sh", "-c", 'cd "./$0" && exec "$@"', HOSTILE, EXAMPLES / "flash-checked"]
        run = folder.run([*inside, "image.rom", "-r", "COREBOOT", *words], environment=environment)
        self.compare(folder, run, "status", 3, run.status)
        after = (folder.path / HOSTILE / "chip").read_bytes()
        [command] = re.findall(r"^  (flashrom .*)$", run.message.decode(), re.MULTILINE)
        # (the command has an absolute path, so it also runs in another folder)
        other = self.folder({"chip": after})
        done = other.run(["bash", "-c", command], environment=environment)
        self.compare(other, done, "status", 0, done.status)
        written = self.calls(folder, HOSTILE)[-1]
        if "--fmap" in words:
            # (chip.rom is the complete chip, whose flash map may be damaged)
            written = written.partition(" --fmap")[0]
        backup = str(folder.path / HOSTILE / "chip.rom")
        self.assertEqual(done.after["calls"].decode(), written.replace("COPY", backup) + "\n")
        return run.message.decode(), after, done.after["chip"]

    def test_an_image_with_the_name_of_the_report(self):
        """The report would replace the image, also by a link to it."""
        good = board([("config", b"new")])
        for name in ("report.txt", "image.rom"):
            for words in (["flash-checked", name, "-r", "COREBOOT"], ["check-build", name]):
                folder = self.folder({name: good, "chip": good})
                if name != "report.txt":
                    os.link(folder.path / name, folder.path / "report.txt")
                run = self.example(folder, *words, status=2)
                self.assertEqual(run.message, f"{name} is report.txt: rename the image\n".encode())
                self.leaves(run, run.before)

    def test_a_failed_write(self):
        """The script prints a command that writes the previous content of the chip back."""
        self.fails_to_write("exit 1")
        old, new = (board([("config", text)], self.areas(text)) for text in (b"1", b"2"))
        for words, programmer in [
            ([], "internal"), (["-c", "W25Q64.V (1)"], "dummy:emulate=W25Q128FV,image=a b'c\\"),
            (["--fmap", "-i", "A", "-i", "B", "-N"], "internal"),
        ]:
            message, after, restored = self.restored(old, new, *words, PROGRAMMER=programmer)
            self.assertEqual((after, restored), ((old if "-N" in words else new)[:100], old))
            self.assertIn("Do not restart the board, and do not switch it off.", message)
            self.assertNotIn("Never write chip.rom completely", message)

    def test_a_failed_write_of_the_bios_region(self):
        """chip.rom has zeros in place of the other regions, and the message says so."""
        self.fails_to_write("exit 1")
        chip = self.intel("BIOS", self.DESCRIPTOR)
        part = chip[:0x1000] + bytes(0x1000) + chip[0x2000:]
        new = self.intel("BIOS", b"\xff", b"\xff", b"new")
        message, _, restored = self.restored(chip, new, "--ifd", "-i", "bios", "-N", part=part)
        self.assertEqual(restored, part)
        self.assertIn("Never write chip.rom completely", message)

    def test_a_signal_during_the_write(self):
        """A signal ends flashrom, or it and the script, as an interruption at a terminal does."""
        old, new = board([("config", b"1")]), board([("config", b"2")])
        to_all = [f"kill -{name} 0; exit 9" for name in ("INT", "HUP", "TERM")]
        for failure in ["kill -9 $$", *to_all]:
            with self.subTest(failure):
                self.fails_to_write(failure)
                _, after, restored = self.restored(old, new)
                self.assertEqual((after, restored), (new[:100], old))


class EditVerified(ExampleTest):
    """The script needs cbfsseal too."""

    programs = (*ProgramTest.programs, "cbfsseal")

    def setUp(self):
        super().setUp()
        self.stand_in("cbfsseal", 'exec "$SEAL" "$@"')

    def verified(self):
        """Returns an image with CBFS verification, whose digests are outdated."""
        areas = [image.Area("FMAP", 0, 0x400), image.Area("COREBOOT", 0x400, 0x1000)]
        areas.append(image.Area("BOOTBLOCK", 0x1400, 0x400))
        made = image.Image(0x1800, areas)
        made.put("COREBOOT", image.empty_region(0x1000))
        return made.put("BOOTBLOCK", image.anchor(image.SHA256, bytes(32), bytes(32)))

    def edit(self, folder, **run):
        words = ["edit-verified", "image.rom", "new", "content", "raw", "sha256"]
        return self.example(folder, *words, SEAL=program("cbfsseal"), **run)

    def test_the_image_is_sealed(self):
        made = self.verified()
        folder = self.folder({"image.rom": made.data(), "content": b"content"})
        run = self.edit(folder)
        digest = image.hash_attribute(image.SHA256, b"content")
        cell = image.Component(b"new", b"content", attributes=[digest])
        made.put("COREBOOT", image.join(
            cell, image.FreeEntry(0x1000 - len(cell.bytes), keeps=b"\xff" * 4)))
        made.put("BOOTBLOCK", image.sealed_anchor(image.SHA256, [cell], made.map))
        self.leaves(run, {"image.rom": made.data(), "content": b"content"})

    def test_a_bad_image_is_not_written(self):
        """The map states another size than the image has, so that cbfscheck reports it."""
        data = bytearray(self.verified().data())
        data[18:22] = struct.pack("<I", 0x1900)
        folder = self.folder({"image.rom": bytes(data), "content": b"content"})
        run = self.edit(folder, status=1)
        self.leaves(run, run.before)


@unittest.skipUnless(shutil.which("jq"), "jq is not installed")
class Sbom(ExampleTest):
    """sbom prints a document with all components of the image, or nothing."""

    # The SHA-256 of `1`, of `2`, of nothing, and of `packed`, and the SHA-512 of `1`.
    ONE = "6b86b273ff34fce19d6b804eff5a3f5747ada4eaa22f1d49c01e52ddb7875b4b"
    TWO = "d4735e3a265e16eee03f59718b9b5d03019c07d8b6c51f90da3a666eec13ab35"
    NOTHING = "e3b0c44298fc1c149afbf4c8996fb92427ae41e4649b934ca495991b7852b855"
    PACKED = "88cb8a087b6e8cebfc9ae5602f5a2159a6bcf923e7f2c56809bcda6cad1727a7"
    ONE_512 = ("4dff4ea340f0a823f15d3f4f01ab62eae0e5da579ccb851f8db9dfe84c58b2b3"
               "7b89903a740e1ee172da793a6e79d560e5f7f9bd058a12a280433ed6fa46510a")

    def image(self, *regions, areas=()):
        """Returns an image with these regions, each a name and the components by their offsets."""
        table, at = [image.Area("FMAP", 0, 0x400)], 0x400
        for name, _ in regions:
            table.append(image.Area(name, at, 0x200, 4))
            at += 0x240
        made = image.Image(at, [*table, *areas])
        for area, (_, components) in zip(table[1:], regions):
            made.put_at(area.offset, image.region(0x200, components))
        return made.data()

    def sbom(self, data, *words, name="image.rom", status=0, message=""):
        """Runs the script on an image, and returns the document. Only the image is left."""
        folder = self.folder({name: data})
        run = self.example(folder, "sbom", name, *words, status=status, TMPDIR=".")
        self.assertEqual(run.message.decode(), message and f"{name}: {message}\n")
        self.leaves(run, run.before)
        return json.loads(run.output)

    def components(self, document):
        """Returns reference, digest and properties of the components of a document."""
        return [(one["bom-ref"], one["hashes"][0]["content"],
                 " ".join(each["value"] for each in one["properties"]))
                for one in document["components"]]

    def refused(self, data, message, *words, **variables):
        """Checks that the script prints a message and no document."""
        folder = self.folder({"image.rom": data})
        run = self.example(folder, "sbom", "image.rom", *words, status=2, TMPDIR=".", **variables)
        self.leaves(run, run.before)
        self.assertEqual(run.output, b"")
        self.assertEqual(run.message.decode().splitlines()[-1], f"image.rom: {message}")

    def test_the_document(self):
        """The digest of a compressed component is that of its stored bytes."""
        packed = image.Component(b'a"b', b"packed", gap=20, attributes=[image.compression(1, 99)])
        data = self.image(("EMPTY", {}), ("COREBOOT", {0x80: packed}),
                          areas=[image.Area("RW VPD", 0x840, 64, 8)])
        self.assertEqual(self.sbom(data), {
            "bomFormat": "CycloneDX",
            "specVersion": "1.5",
            "serialNumber": "urn:uuid:871bcd5d-ca90-896d-8c24-4eda0abb0232",
            "version": 1,
            "metadata": {"component": {
                "type": "firmware",
                "name": "image.rom",
                "hashes": [{"alg": "SHA-256", "content":
                            "871bcd5dca90896ddc244eda0abb0232777b6f7b7125fc5b085d4194f13bc33f"}],
                "properties": [
                    {"name": "coreboot:verdict", "value": "sound"},
                    {"name": "coreboot:fmap-area", "value": "FMAP 0x0 1024 0x0"},
                    {"name": "coreboot:fmap-area", "value": "EMPTY 0x400 512 0x4"},
                    {"name": "coreboot:fmap-area", "value": "COREBOOT 0x640 512 0x4"},
                    {"name": "coreboot:fmap-area", "value": "RW\\x20VPD 0x840 64 0x8"},
                ],
            }},
            "components": [{
                "type": "file",
                "bom-ref": 'COREBOOT/a"b@0x80',
                "name": 'a"b',
                "hashes": [{"alg": "SHA-256", "content": self.PACKED}],
                "properties": [
                    {"name": "coreboot:area", "value": "COREBOOT"},
                    {"name": "coreboot:type", "value": "raw"},
                    {"name": "coreboot:offset", "value": "0x80"},
                    {"name": "coreboot:content-offset", "value": "0x700"},
                    {"name": "coreboot:size", "value": "6"},
                    {"name": "coreboot:compression", "value": "LZMA"},
                    {"name": "coreboot:hash", "value": "no hash"},
                ],
            }],
        })

    def test_names(self):
        """Names are as print shows them, and a reference is unique."""
        one = image.Component(b"B/a", b"1", attributes=[image.hash_attribute(image.SHA256, b"1")])
        two = image.Component("a\u00e4\u20ac\u202e\U0001f600\x7f\n".encode(), b"", type=0x77)
        three = image.Component(b"\xff\x9b\\ ~", b"1", type=image.CBFS_HEADER)
        data = self.image(("A", {0: one, 0x80: image.Component(b"", b"1")}),
                          ("A/B", {0: image.Component(b"a", b"1")}), (b"\xfe A", {0: two}),
                          ("COREBOOT", {0x40: three}))
        document = self.sbom(data, name=HOSTILE)
        self.assertEqual(document["metadata"]["component"]["name"], HOSTILE)
        shown = r"a\xc3\xa4\xe2\x82\xac\xe2\x80\xae\xf0\x9f\x98\x80\x7f\x0a"
        self.assertEqual(self.components(document), [
            ("A/B/a@0x0", self.ONE, f"A raw 0x0 0x448 1 none sha256 valid {self.ONE}"),
            ("A/@0x80", self.ONE, "A raw 0x80 0x49c 1 none no hash"),
            (r"A\x2fB/a@0x0", self.ONE, "A/B raw 0x0 0x65c 1 none no hash"),
            (rf"\xfe\x20A/{shown}@0x0", self.NOTHING, r"\xfe\x20A 0x77 0x0 0x8a8 0 none no hash"),
            (r"COREBOOT/\xff\x9b\x5c\x20~@0x40", self.ONE,
             "COREBOOT cbfs header 0x40 0xb20 1 none no hash"),
        ])
        self.assertEqual([one["name"] for one in document["components"]],
                         ["B/a", "", "a", shown, r"\xff\x9b\x5c\x20~"])

    def test_a_stored_digest(self):
        """A component has the SHA-256 of its content also if its attribute has a SHA-512."""
        digest = image.hash_attribute(image.SHA512, value=bytes.fromhex(self.ONE_512))
        data = self.image(("COREBOOT", {0: image.Component(b"a", b"1", attributes=[digest])}))
        [component] = self.sbom(data)["components"]
        self.assertEqual(component["hashes"], [{"alg": "SHA-256", "content": self.ONE}])
        self.assertEqual(component["properties"][-2:], [
            {"name": "coreboot:hash", "value": "sha512 valid"},
            {"name": "coreboot:stored-digest", "value": self.ONE_512},
        ])

    def test_no_components(self):
        document = self.sbom(self.image(("COREBOOT", {})), "-r", "COREBOOT")
        self.assertEqual(document["components"], [])

    def test_bad_findings(self):
        """The document is printed, also if options require more than the image has."""
        wrong = image.Component(b"a", b"1", attributes=[image.hash_attribute(image.SHA256, b"2")])
        data = self.image(("COREBOOT", {0: wrong, 0x80: image.Component(b"a", b"1")}))
        for words in [], ["-v", "--all-hashed", "--need", "COREBOOT:none"]:
            document = self.sbom(data, *words, status=1, message="the document has all "
                                 "components, but cbfscheck reports something bad")
            verdict = document["metadata"]["component"]["properties"][0]["value"]
            self.assertEqual(verdict, "not sound")
            self.assertEqual(self.components(document), [
                ("COREBOOT/a@0x0", self.ONE,
                 f"COREBOOT raw 0x0 0x448 1 none sha256 invalid {self.TWO}"),
                ("COREBOOT/a@0x80", self.ONE, "COREBOOT raw 0x80 0x49c 1 none no hash"),
            ])

    def test_components_that_would_be_missing(self):
        one, two = (image.Component(name, b"1") for name in (b"a", b"b"))
        good = self.image(("COREBOOT", {0: one, 0x40: two, 0x80: one}))
        damaged = self.image(("COREBOOT", {0: image.Component(b"a", length=0x4000)}))
        same = self.image(("A", {0: one}), ("A", {0: two}))
        # (an area begins at each of the first four entries, and ends with the image)
        nested = image.Image(0x1000, [image.Area("FMAP", 0, 0x200), *[
            image.Area(f"A{each}", 0x200 + each * 64, 0xE00 - each * 64) for each in range(4)]])
        nested.put("A0", image.region(0xE00, {each * 64: one for each in range(4)}))
        # (more rows than are printed, so that the last one has no area)
        outside = self.image(areas=[image.Area(f"A{at}", 0x400, at) for at in range(1, 20)])
        for data, message, words in [
            (good, "NONE: no such area", ["-r", "NONE"]), (good, "FMAP: no CBFS", ["-r", "FMAP"]),
            (good.replace(two.bytes, b"\xff" * 64),
             "COREBOOT: unused tail has other bytes than 0xff and 0x00", []),
            (damaged, "COREBOOT: damaged entry: extent", []),
            (same, "several areas have the name A", []),
            (nested.data(), "A2: isn't checked: checked areas would exceed twice the image", []),
            (outside, "A1: ends outside the image", []),
            (bytes(len(good)), "no flashmap", []),
            (good, "one image only", ["image.rom"]), (good, "cbfscheck makes no report", ["-r"]),
            (good, "no report can be read", ["--help"]),
        ]:
            with self.subTest(message):
                self.refused(data, message, *words)

    def test_files_and_programs_that_cannot_be_used(self):
        good = self.image(("COREBOOT", {}))
        self.refused(good, "cbfscheck makes no report", CBFSCHECK="./absent")
        for words in [], ["absent.rom"], ["."]:
            run = self.example(self.folder({"image.rom": good}), "sbom", *words, status=2)
            self.assertEqual(run.output, b"")
        folder = self.folder({"image.rom": good})
        words = ["sh", "-c", '"$0" image.rom > /dev/full', EXAMPLES / "sbom"]
        self.assertEqual(folder.run(words, environment=self.environment()).status, 2)
        # (cbfscheck 3.1 lists no digests)
        self.stand_in("cbfscheck", '"$REAL" "$@" | jq "del(.components[].sha256)"')
        self.refused(self.image(("COREBOOT", {0: image.Component(b"a", b"1")})),
                     "no report can be read")

    def test_an_image_that_changes(self):
        """The script waits for a writer, and reads a copy of what the writer leaves."""
        old, new = (self.image(("COREBOOT", {0: image.Component(b"a", text)}))
                    for text in (b"0", b"1"))
        wanted = self.sbom(new)
        self.stand_in("cbfscheck", 'printf 2 > image.rom\nexec "$REAL" "$@"')
        folder = self.folder({"image.rom": old})
        path = folder.path / "image.rom"
        with locked(path):
            words = [EXAMPLES / "sbom", "image.rom"]
            started = folder.start(words, environment=self.environment())
            # (flock is a process of its own)
            while started.process.poll() is None and not waits_for_lock(r"\d+", path):
                time.sleep(0.01)
            path.write_bytes(new)
        run = started.end()
        self.compare(folder, run, "status", 0, run.status)
        self.assertEqual(run.after["image.rom"], b"2")
        self.assertEqual(json.loads(run.output), wanted)


if __name__ == "__main__":
    unittest.main()
