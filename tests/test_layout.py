"""layout: where the flash map is found, which maps are valid, and the rows of map and areas."""

import unittest

from tests.image import Area, Image, flash_map
from tests.programs import ProgramTest
from tests.samples import NAMES, Sample
from tests.texts import layout, rows

AREAS = [Area("FMAP", 0, 512), Area("COREBOOT", 512, 512), Area("REST", 1024, 3072)]
MAP = flash_map(4096, AREAS)
FULL_NAME = "01234567890123456789012345678901"


class LayoutTest(ProgramTest):
    """Compares the output of `layout`."""

    programs = ("cbfstool",)

    def lists(self, image, output):
        self.check("cbfstool image.rom layout", {"image.rom": image}, output=output)

    def has_no_map(self, image):
        self.refuses(1, "no FMAP", "cbfstool image.rom layout", {"image.rom": image})


class Positions(LayoutTest):
    """The map of an image is the valid map at the lowest position."""

    EMPTY_MAP = flash_map(0, [], name=b"F")

    def test_positions_across_two_pieces_of_an_image(self):
        for position in (*range(4083, 4104), 8136):
            with self.subTest(position):
                image = Image(8192, [], map_at=position, map_size=0, name=b"F").data()
                self.lists(image, f"fmap\t{position:#x}\tF\t0\t0\n")

    def test_a_map_that_ends_after_the_image(self):
        self.has_no_map((b"\xff" * 8137 + self.EMPTY_MAP)[:8192])

    def test_overlapping_signatures_without_a_map(self):
        self.has_no_map(b"__FMAP" * 682 + b"__FM")

    def test_a_signature_that_overlaps_that_of_the_map(self):
        self.lists((b"__FMAP" + MAP).ljust(4096, b"\xff"), layout(4096, AREAS, map_at=6))

    def test_a_map_of_version_2_before_the_map(self):
        other = flash_map(4096, AREAS, major=2)
        self.lists((other + b"12345678" + MAP).ljust(4096, b"\xff"),
                   layout(4096, AREAS, map_at=len(MAP) + 8))


class Validity(LayoutTest):
    """Signature, version, name, and the end of the image."""

    invalid = [
        ("the last byte of the signature", MAP[:7] + b"-" + MAP[8:]),
        ("the major version 0", flash_map(4096, AREAS, major=0)),
        ("the major version 2", flash_map(4096, AREAS, major=2)),
        ("a name with a blank", flash_map(4096, AREAS, name=b" LASH")),
        ("a name with the byte 0x7f", flash_map(4096, AREAS, name=b"\x7fLASH")),
        ("a name without NUL", flash_map(4096, AREAS, name=FULL_NAME.encode())),
        ("an image of 55 bytes", flash_map(4096, [])[:55]),
        ("65,535 areas that end after the image",
         flash_map(4096, [], count=65535).ljust(2752525, b"\xff")),
    ]

    def test_invalid_maps(self):
        for title, image in self.invalid:
            with self.subTest(title):
                self.has_no_map(image)

    names = [(b"!LASH", "!LASH"), (b"~LASH", "~LASH"), (b"", ""), (b"FLASH\0 ", "FLASH"),
             (FULL_NAME[:31].encode(), FULL_NAME[:31])]

    def test_names(self):
        for name, shown in self.names:
            with self.subTest(shown):
                self.lists(flash_map(4096, AREAS, name=name), layout(4096, AREAS, shown))

    def test_any_minor_version(self):
        self.lists(flash_map(4096, AREAS, minor=255), layout(4096, AREAS))

    def test_no_area(self):
        self.lists(flash_map(4096, []), "fmap\t0x0\tBOARD\t4096\t0\n")

    def test_65535_areas(self):
        image = flash_map(4096, [], count=65535).ljust(2752526, b"\xff")
        row = "\\xff" * 32 + "\t0xffffffff\t4294967295\t0xffff\n"
        self.lists(image, "fmap\t0x0\tBOARD\t4096\t65535\n" + row * 65535)


class Areas(LayoutTest):
    """The rows of areas, and which area a region is."""

    def test_samples(self):
        for name in NAMES:
            with self.subTest(name):
                self.lists(Sample(name).image, Sample(name).layout())

    def test_the_greatest_numbers(self):
        areas = [Area("LAST", 0xFFFFFFFF, 0xFFFFFFFF, 0xFFFF),
                 Area("HALF", 1 << 31, 1 << 31, 0x8000), Area("BYTE", 256, 256, 256)]
        image = flash_map(0xFFFFFFFF, areas, name=b"F", base=0xFFFFFFFFFFFFFFFF)
        self.lists(image.ljust(256, b"\xff"), rows(
            "fmap 0x0 F 4294967295 3", "LAST 0xffffffff 4294967295 0xffff",
            "HALF 0x80000000 2147483648 0x8000", "BYTE 0x100 256 0x100"))

    def test_a_name_of_32_bytes(self):
        areas = [Area(FULL_NAME, 0, 512), *AREAS[1:]]
        image = flash_map(4096, areas).ljust(4096, b"\xff")
        self.lists(image, layout(4096, areas))
        self.check(f"cbfstool image.rom read -r {FULL_NAME} -f out", {"image.rom": image},
                   left={"out": image[:512]})
        self.refuses(1, "no such region", f"cbfstool image.rom print -r {FULL_NAME[:31]}",
                     {"image.rom": image})

    ODD = [Area("COREBOOT", 1024, 1024), Area("COREBOOT", 2048, 2048),
           Area(FULL_NAME, 0xFFFFFE00, 0x300)]

    def odd(self, length):
        """Returns an image with these areas, which ends at this length."""
        made = Image(4096, self.ODD, map_at=0)
        return made.put_at(1024, bytes(range(256)) * 4).data()[:length]

    def test_the_first_of_two_areas_with_a_name(self):
        for length in (4096, 2048):
            with self.subTest(length):
                self.check("cbfstool image.rom read -f out", {"image.rom": self.odd(length)},
                           left={"out": bytes(range(256)) * 4})

    def test_areas_outside_the_image(self):
        for length, words, refusal in [
            (2047, "", "region outside the image"),
            # (an area that begins below 4 GiB and ends above)
            (4096, f"-r {FULL_NAME}", "region outside the image"),
            (4096, f"-r {FULL_NAME[:31]}", "no such region"),
        ]:
            with self.subTest(words, length=length):
                self.refuses(1, refusal, f"cbfstool image.rom read {words} -f out",
                             {"image.rom": self.odd(length)}, {"out": b""})


if __name__ == "__main__":
    unittest.main()
