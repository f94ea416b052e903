"""cbfscheck: the rows of the flash map, and of its areas.

If a row is bad, a command of cbfstool fails for its cause, or a comment says who else does.
"""

import unittest

from tests.findings import (
    FMAP, NULL_64, NULL_256, NULL_LONG, CheckTest, board, free, patched,
)
from tests.image import Area, flash_map
from tests.samples import Sample

# In hashes.rom the map is at 0x1000. The areas are BOOTBLOCK, FMAP, COREBOOT (at 0x1400, 0x4000
# bytes), SMMSTORE (at 0x6000) and TAIL (at 0x7000), both with 0x1000 bytes.
HASHES = Sample("hashes").image
MAP = HASHES[0x1000:0x110A]


def area(number, field=0):
    """Returns the position of a field of an area of hashes.rom: 0 offset, 4 size, 8 name."""
    return 0x1000 + 56 + 42 * number + field


class Sampled(CheckTest):
    """The map of a sample, with one mistake."""

    programs = ("cbfscheck", "cbfstool")

    def trips(self, message, command, image, left=None):
        """Checks that a command of cbfstool is refused, and leaves these files."""
        files = {"image.rom": image, "table": image[0x1000:0x110A]}
        self.refuses(1, message, f"cbfstool {command}", files, left)

    def test_no_map(self):
        image = patched(HASHES, (0x1000, b"X"))
        self.reports(1, image, """
            bad|-|-|-|no flashmap
            not sound: 1 bad, 0 remarks, 0 changes
        """)
        self.trips("no FMAP", "image.rom layout", image)

    def test_another_map(self):
        """flashrom searches from the other end, so no command here finds this one."""
        self.reports(0, patched(HASHES, (0x7000, MAP)), r"""
            remark|-|-|0x1000|flashmap
            remark|-|-|0x7000|another flashmap
            remark|COREBOOT|h\x20sha1|0x0|hash unsupported
            remark|COREBOOT|h\x20sha256|0x80|sha256 valid
            remark|COREBOOT|h\x20sha512|0x100|sha512 valid
            remark|COREBOOT|gap|0x380|sha256 valid
            remark|COREBOOT|-|-|complete
            remark|COREBOOT|-|-|components|5
            remark|COREBOOT|-|-|free bytes|15744
            remark|COREBOOT|-|-|largest content that add takes|15264
            sound: 0 bad, 10 remarks, 0 changes
        """)

    def test_a_longer_image(self):
        """flashrom refuses an image that hasn't the size of the chip."""
        self.reports(1, HASHES + bytes(0x1000), r"""
            remark|-|-|0x1000|flashmap
            bad|-|-|-|the flashmap states another size than the image has
            remark|COREBOOT|h\x20sha1|0x0|hash unsupported
            remark|COREBOOT|h\x20sha256|0x80|sha256 valid
            remark|COREBOOT|h\x20sha512|0x100|sha512 valid
            remark|COREBOOT|gap|0x380|sha256 valid
            remark|COREBOOT|-|-|complete
            remark|COREBOOT|-|-|components|5
            remark|COREBOOT|-|-|free bytes|15744
            remark|COREBOOT|-|-|largest content that add takes|15264
            not sound: 1 bad, 9 remarks, 0 changes
        """)

    def test_a_shorter_image(self):
        image = HASHES[:0x7800]
        self.reports(1, image, r"""
            remark|-|-|0x1000|flashmap
            bad|-|-|-|the flashmap states another size than the image has
            bad|TAIL|-|0x7000|ends outside the image
            remark|COREBOOT|h\x20sha1|0x0|hash unsupported
            remark|COREBOOT|h\x20sha256|0x80|sha256 valid
            remark|COREBOOT|h\x20sha512|0x100|sha512 valid
            remark|COREBOOT|gap|0x380|sha256 valid
            remark|COREBOOT|-|-|complete
            remark|COREBOOT|-|-|components|5
            remark|COREBOOT|-|-|free bytes|15744
            remark|COREBOOT|-|-|largest content that add takes|15264
            not sound: 2 bad, 9 remarks, 0 changes
        """)
        self.trips("region outside the image", "image.rom read -r TAIL -f out", image, {"out": b""})

    def test_an_area_without_bytes(self):
        self.reports(0, patched(HASHES, (area(3, 4), bytes(4))), r"""
            remark|-|-|0x1000|flashmap
            remark|SMMSTORE|-|0x6000|has no bytes
            remark|COREBOOT|h\x20sha1|0x0|hash unsupported
            remark|COREBOOT|h\x20sha256|0x80|sha256 valid
            remark|COREBOOT|h\x20sha512|0x100|sha512 valid
            remark|COREBOOT|gap|0x380|sha256 valid
            remark|COREBOOT|-|-|complete
            remark|COREBOOT|-|-|components|5
            remark|COREBOOT|-|-|free bytes|15744
            remark|COREBOOT|-|-|largest content that add takes|15264
            sound: 0 bad, 10 remarks, 0 changes
        """)

    def test_the_name_of_an_earlier_area(self):
        """The name reaches only the first area."""
        image = patched(HASHES, (area(4, 8), b"SMMSTORE\0"), (0x6000, bytes(4096)))
        self.reports(1, image, r"""
            remark|-|-|0x1000|flashmap
            bad|SMMSTORE|-|0x7000|has the name of an earlier area|SMMSTORE
            remark|COREBOOT|h\x20sha1|0x0|hash unsupported
            remark|COREBOOT|h\x20sha256|0x80|sha256 valid
            remark|COREBOOT|h\x20sha512|0x100|sha512 valid
            remark|COREBOOT|gap|0x380|sha256 valid
            remark|COREBOOT|-|-|complete
            remark|COREBOOT|-|-|components|5
            remark|COREBOOT|-|-|free bytes|15744
            remark|COREBOOT|-|-|largest content that add takes|15264
            not sound: 1 bad, 9 remarks, 0 changes
        """)
        self.trips("no such region", "image.rom read -r TAIL -f out", image, {"out": b""})
        self.check("cbfstool image.rom read -r SMMSTORE -f out", {"image.rom": image},
                   left={"out": bytes(4096)})

    def test_areas_that_overlap(self):
        """A write to one of them changes the other."""
        image = patched(HASHES, (area(4), b"\0\x68\0\0"))
        self.reports(1, image, r"""
            remark|-|-|0x1000|flashmap
            bad|SMMSTORE|-|0x6000|overlaps|TAIL
            bad|TAIL|-|0x6800|overlaps|SMMSTORE
            remark|COREBOOT|h\x20sha1|0x0|hash unsupported
            remark|COREBOOT|h\x20sha256|0x80|sha256 valid
            remark|COREBOOT|h\x20sha512|0x100|sha512 valid
            remark|COREBOOT|gap|0x380|sha256 valid
            remark|COREBOOT|-|-|complete
            remark|COREBOOT|-|-|components|5
            remark|COREBOOT|-|-|free bytes|15744
            remark|COREBOOT|-|-|largest content that add takes|15264
            not sound: 2 bad, 9 remarks, 0 changes
        """)
        self.check("cbfstool image.rom write -r TAIL -f zeros",
                   {"image.rom": image, "zeros": bytes(4096)},
                   left={"image.rom": patched(image, (0x6800, bytes(4096)))})

    def test_no_area_FMAP(self):
        image = patched(HASHES, (area(1, 8), b"X"))
        self.reports(1, image, r"""
            remark|-|-|0x1000|flashmap
            bad|-|-|-|no area FMAP
            remark|COREBOOT|h\x20sha1|0x0|hash unsupported
            remark|COREBOOT|h\x20sha256|0x80|sha256 valid
            remark|COREBOOT|h\x20sha512|0x100|sha512 valid
            remark|COREBOOT|gap|0x380|sha256 valid
            remark|COREBOOT|-|-|complete
            remark|COREBOOT|-|-|components|5
            remark|COREBOOT|-|-|free bytes|15744
            remark|COREBOOT|-|-|largest content that add takes|15264
            not sound: 1 bad, 9 remarks, 0 changes
        """)
        self.trips("bad FMAP area", "made.rom create -M table", image,
                   {"made.rom": b"\xff" * 0x8000})

    def test_an_area_FMAP_after_the_map(self):
        """`create` puts the map to another place, so a write to another area would hit the map."""
        image = patched(HASHES, (area(1), b"\0\x11"))
        self.reports(1, image, r"""
            remark|-|-|0x1000|flashmap
            bad|FMAP|-|0x1100|doesn't begin with the flashmap
            remark|COREBOOT|h\x20sha1|0x0|hash unsupported
            remark|COREBOOT|h\x20sha256|0x80|sha256 valid
            remark|COREBOOT|h\x20sha512|0x100|sha512 valid
            remark|COREBOOT|gap|0x380|sha256 valid
            remark|COREBOOT|-|-|complete
            remark|COREBOOT|-|-|components|5
            remark|COREBOOT|-|-|free bytes|15744
            remark|COREBOOT|-|-|largest content that add takes|15264
            not sound: 1 bad, 9 remarks, 0 changes
        """)
        folder = self.folder({"table": image[0x1000:0x110A]})
        folder.run("cbfstool made.rom create -M table")
        made = folder.run("cbfstool made.rom layout").output.decode()
        self.assertEqual(made.splitlines()[0], "fmap\t0x1100\tFLASH\t32768\t5")

    def test_a_region_in_a_larger_area(self):
        """SMMSTORE has the bytes of COREBOOT and more, so it is checked only on request."""
        image = patched(HASHES, (area(3), b"\0\x14\0\0\0\x50\0\0"))
        self.reports(0, image, r"""
            remark|-|-|0x1000|flashmap
            remark|COREBOOT|h\x20sha1|0x0|hash unsupported
            remark|COREBOOT|h\x20sha256|0x80|sha256 valid
            remark|COREBOOT|h\x20sha512|0x100|sha512 valid
            remark|COREBOOT|gap|0x380|sha256 valid
            remark|COREBOOT|-|-|complete
            remark|COREBOOT|-|-|components|5
            remark|COREBOOT|-|-|free bytes|15744
            remark|COREBOOT|-|-|largest content that add takes|15264
            sound: 0 bad, 9 remarks, 0 changes
        """)
        self.reports(0, image, r"""
            remark|-|-|0x1000|flashmap
            remark|COREBOOT|h\x20sha1|0x0|hash unsupported
            remark|COREBOOT|h\x20sha256|0x80|sha256 valid
            remark|COREBOOT|h\x20sha512|0x100|sha512 valid
            remark|COREBOOT|gap|0x380|sha256 valid
            remark|COREBOOT|-|-|complete
            remark|COREBOOT|-|-|components|5
            remark|COREBOOT|-|-|free bytes|15744
            remark|COREBOOT|-|-|largest content that add takes|15264
            sound: 0 bad, 9 remarks, 0 changes
        """, "-r COREBOOT")
        self.reports(0, image, r"""
            remark|-|-|0x1000|flashmap
            remark|COREBOOT|h\x20sha1|0x0|hash unsupported
            remark|COREBOOT|h\x20sha256|0x80|sha256 valid
            remark|COREBOOT|h\x20sha512|0x100|sha512 valid
            remark|COREBOOT|gap|0x380|sha256 valid
            remark|COREBOOT|-|-|complete
            remark|COREBOOT|-|-|components|5
            remark|COREBOOT|-|-|free bytes|15744
            remark|COREBOOT|-|-|largest content that add takes|15264
            remark|SMMSTORE|h\x20sha1|0x0|hash unsupported
            remark|SMMSTORE|h\x20sha256|0x80|sha256 valid
            remark|SMMSTORE|h\x20sha512|0x100|sha512 valid
            remark|SMMSTORE|gap|0x380|sha256 valid
            remark|SMMSTORE|-|0x4000|unused tail
            remark|SMMSTORE|-|-|components|5
            remark|SMMSTORE|-|-|free bytes|15744
            remark|SMMSTORE|-|-|largest content that add takes|15268
            sound: 0 bad, 17 remarks, 0 changes
        """, "-r SMMSTORE,COREBOOT")
        self.reports(0, image, r"""
            remark|-|-|0x1000|flashmap
            remark|COREBOOT|h\x20sha1|0x0|hash unsupported
            remark|COREBOOT|h\x20sha256|0x80|sha256 valid
            remark|COREBOOT|h\x20sha512|0x100|sha512 valid
            remark|COREBOOT|gap|0x380|sha256 valid
            remark|COREBOOT|-|-|complete
            remark|COREBOOT|-|-|components|5
            remark|COREBOOT|-|-|free bytes|15744
            remark|COREBOOT|-|-|largest content that add takes|15264
            remark|SMMSTORE|h\x20sha1|0x0|hash unsupported
            remark|SMMSTORE|h\x20sha256|0x80|sha256 valid
            remark|SMMSTORE|h\x20sha512|0x100|sha512 valid
            remark|SMMSTORE|gap|0x380|sha256 valid
            remark|SMMSTORE|-|0x4000|unused tail
            remark|SMMSTORE|-|-|components|5
            remark|SMMSTORE|-|-|free bytes|15744
            remark|SMMSTORE|-|-|largest content that add takes|15268
            sound: 0 bad, 17 remarks, 0 changes
        """, "-r SMMSTORE")

    def test_a_region_after_one_that_the_map_has_later(self):
        """Regions are in the order of the map."""
        image = patched(HASHES, (area(2), b"\0\x60\0\0\0\x10\0\0"),
                        (area(3), b"\0\x14\0\0\0\x40\0\0"), (0x6000, HASHES[0x1400:0x1440]),
                        (0x6008, b"\x7f"))
        self.reports(1, image, r"""
            remark|-|-|0x1000|flashmap
            bad|COREBOOT|-|0x0|damaged entry: extent
            remark|COREBOOT|-|-|no components
            remark|COREBOOT|-|-|free bytes|0
            remark|COREBOOT|-|-|no room for a component
            remark|SMMSTORE|h\x20sha1|0x0|hash unsupported
            remark|SMMSTORE|h\x20sha256|0x80|sha256 valid
            remark|SMMSTORE|h\x20sha512|0x100|sha512 valid
            remark|SMMSTORE|gap|0x380|sha256 valid
            remark|SMMSTORE|-|-|complete
            remark|SMMSTORE|-|-|components|5
            remark|SMMSTORE|-|-|free bytes|15744
            remark|SMMSTORE|-|-|largest content that add takes|15264
            not sound: 1 bad, 12 remarks, 0 changes
        """)
        self.trips("damaged entry at 0x0: extent", "image.rom print", image)

    def test_a_requested_area_that_is_absent(self):
        self.reports(1, HASHES, r"""
            remark|-|-|0x1000|flashmap
            remark|COREBOOT|h\x20sha1|0x0|hash unsupported
            remark|COREBOOT|h\x20sha256|0x80|sha256 valid
            remark|COREBOOT|h\x20sha512|0x100|sha512 valid
            remark|COREBOOT|gap|0x380|sha256 valid
            remark|COREBOOT|-|-|complete
            remark|COREBOOT|-|-|components|5
            remark|COREBOOT|-|-|free bytes|15744
            remark|COREBOOT|-|-|largest content that add takes|15264
            bad|ABSENT|-|-|no such area
            not sound: 1 bad, 9 remarks, 0 changes
        """, "-r COREBOOT,ABSENT")
        self.trips("no such region", "image.rom print -r ABSENT", HASHES)


class ManyAreas(CheckTest):
    """Overlaps are looked for in a map of up to 4096 areas. The first area has the map, and each
    other one 16 bytes."""

    AREAS = [Area("FMAP", 0, 0x30000)]
    AREAS += [Area(f"A{number}", 0x2FFF0 + 16 * number, 16) for number in range(1, 4097)]

    def image(self, second, count):
        """Returns the image with another offset of A1, and with this number of areas."""
        areas = [self.AREAS[0], Area("A1", second, 16), *self.AREAS[2:]]
        table = flash_map(0x40000, areas, name=b"F", count=count)
        return table.ljust(0x40000, b"\0")

    def test_4097_areas_without_an_overlap(self):
        self.reports(1, self.image(0x30000, 4097), """
            remark|-|-|0x0|flashmap
            bad|-|-|-|too many areas to look for overlaps
            not sound: 1 bad, 1 remarks, 0 changes
        """)

    def test_4097_areas_with_an_overlap(self):
        self.reports(1, self.image(0x30008, 4097), """
            remark|-|-|0x0|flashmap
            bad|-|-|-|too many areas to look for overlaps
            not sound: 1 bad, 1 remarks, 0 changes
        """)

    def test_4096_areas_with_an_overlap(self):
        self.reports(1, self.image(0x30008, 4096), """
            remark|-|-|0x0|flashmap
            bad|A1|-|0x30008|overlaps|A2
            bad|A2|-|0x30010|overlaps|A1
            not sound: 2 bad, 1 remarks, 0 changes
        """)


class Small(CheckTest):
    """The map of a small image, whose area FMAP has the first 256 bytes."""

    def test_an_area_in_another_one_and_one_up_to_the_end(self):
        image = board(0x400, [FMAP, ("A", 0x100, 0x80), ("C", 0x100, 0x40), ("D", 0x180, 0x280)])
        self.reports(0, image, """
            remark|-|-|0x0|flashmap
            sound: 0 bad, 1 remarks, 0 changes
        """)

    def test_a_map_without_the_last_byte_of_its_head(self):
        image = board(0x400, [FMAP, ("A", 0x100, 0x80), ("C", 0x100, 0x40), ("D", 0x180, 0x280)])
        self.reports(1, image[:55], """
            bad|-|-|-|no flashmap
            not sound: 1 bad, 0 remarks, 0 changes
        """)

    def test_two_further_maps(self):
        """Only the next one has a row."""
        table = flash_map(0x400, [Area(*FMAP)], name=b"F")
        third = flash_map(0x400, [], name=b"F")
        image = board(0x800, [FMAP], (0, table), (0x2BC, table), (0x384, third))
        self.reports(1, image, """
            remark|-|-|0x0|flashmap
            remark|-|-|0x2bc|another flashmap
            bad|-|-|-|the flashmap states another size than the image has
            not sound: 1 bad, 2 remarks, 0 changes
        """)

    def test_an_area_that_ends_one_byte_after_the_image(self):
        self.reports(1, board(0x400, [FMAP, ("D", 0x180, 641)]), """
            remark|-|-|0x0|flashmap
            bad|D|-|0x180|ends outside the image
            not sound: 1 bad, 1 remarks, 0 changes
        """)

    def test_an_area_without_bytes(self):
        image = board(0x400, [FMAP, ("A", 0x100, 0x80), ("E", 0x12C, 0)])
        self.reports(0, image, """
            remark|-|-|0x0|flashmap
            remark|E|-|0x12c|has no bytes
            sound: 0 bad, 2 remarks, 0 changes
        """)

    def test_the_name_of_an_earlier_area(self):
        image = board(0x400, [("A", 0x100, 0x80), FMAP, ("A", 0x180, 0x80)])
        self.reports(1, image, """
            remark|-|-|0x0|flashmap
            bad|A|-|0x180|has the name of an earlier area|A
            not sound: 1 bad, 1 remarks, 0 changes
        """)

    def test_three_areas_of_a_name(self):
        image = board(0x400, [FMAP, ("A", 0x100, 0x80), ("A", 0x180, 0x80), ("A", 0x180, 0x80)])
        self.reports(1, image, """
            remark|-|-|0x0|flashmap
            bad|A|-|0x180|has the name of an earlier area|A
            bad|A|-|0x180|has the name of an earlier area|A
            not sound: 2 bad, 1 remarks, 0 changes
        """)

    def test_an_overlap_at_the_start(self):
        """C is a part of A, and so does not overlap."""
        image = board(0x400, [FMAP, ("B", 0x140, 0x80), ("C", 0x100, 0x40), ("A", 0x100, 0x80)])
        self.reports(1, image, """
            remark|-|-|0x0|flashmap
            bad|B|-|0x140|overlaps|A
            bad|A|-|0x100|overlaps|B
            not sound: 2 bad, 1 remarks, 0 changes
        """)

    def test_an_overlap_at_the_end(self):
        image = board(0x400, [FMAP, ("D", 0x180, 0x280), ("B", 0x140, 0x80)])
        self.reports(1, image, """
            remark|-|-|0x0|flashmap
            bad|D|-|0x180|overlaps|B
            bad|B|-|0x140|overlaps|D
            not sound: 2 bad, 1 remarks, 0 changes
        """)

    def test_no_area_FMAP(self):
        self.reports(1, board(0x400, [("A", 0x100, 0x80)]), """
            remark|-|-|0x0|flashmap
            bad|-|-|-|no area FMAP
            not sound: 1 bad, 1 remarks, 0 changes
        """)

    def test_an_area_FMAP_that_begins_after_the_map(self):
        self.reports(1, board(0x400, [("A", 0x100, 0x80), ("FMAP", 1, 255)]), """
            remark|-|-|0x0|flashmap
            bad|FMAP|-|0x1|doesn't begin with the flashmap
            not sound: 1 bad, 1 remarks, 0 changes
        """)

    def test_an_area_FMAP_that_lacks_the_last_byte_of_the_map(self):
        """The map has 140 bytes."""
        self.reports(1, board(0x400, [("A", 0x100, 0x80), ("FMAP", 0, 139)]), """
            remark|-|-|0x0|flashmap
            bad|FMAP|-|0x0|doesn't begin with the flashmap
            not sound: 1 bad, 1 remarks, 0 changes
        """)

    def test_an_area_FMAP_of_the_map_alone(self):
        self.reports(0, board(0x400, [("A", 0x100, 0x80), ("FMAP", 0, 140)]), """
            remark|-|-|0x0|flashmap
            sound: 0 bad, 1 remarks, 0 changes
        """)

    def test_names_that_are_not_utf_8(self):
        """Their rows precede those of overlaps."""
        image = board(0x400, [(b"\xff1", 0x100, 0x80), FMAP, (b"B\xc3", 0x140, 0x80),
                              (b"\xc3\xa9", 0x200, 0x80)])
        self.reports(1, image, r"""
            remark|-|-|0x0|flashmap
            remark|\xff1|-|0x100|name isn't UTF-8
            remark|B\xc3|-|0x140|name isn't UTF-8
            bad|\xff1|-|0x100|overlaps|B\xc3
            bad|B\xc3|-|0x140|overlaps|\xff1
            not sound: 2 bad, 3 remarks, 0 changes
        """)


class CheckedAreas(CheckTest):
    """The areas that are checked: those that begin with an entry, COREBOOT, and requested ones."""

    def test_an_area_that_begins_with_an_entry(self):
        image = board(0x400, [FMAP, ("A", 0x100, 0x100), ("B", 0x200, 0x200)], (0x100, NULL_256))
        self.reports(0, image, """
            remark|-|-|0x0|flashmap
            remark|A|-|-|complete
            remark|A|-|-|no components
            remark|A|-|-|free bytes|256
            remark|A|-|-|largest content that add takes|224
            sound: 0 bad, 5 remarks, 0 changes
        """)

    def test_the_order_of_the_map(self):
        image = board(0x400, [FMAP, ("B", 0x200, 0x200), ("A", 0x100, 0x100)],
                      (0x100, NULL_256), (0x200, NULL_LONG))
        self.reports(1, image, """
            remark|-|-|0x0|flashmap
            bad|B|-|0x0|damaged entry: extent
            remark|B|-|-|no components
            remark|B|-|-|free bytes|0
            remark|B|-|-|no room for a component
            remark|A|-|-|complete
            remark|A|-|-|no components
            remark|A|-|-|free bytes|256
            remark|A|-|-|largest content that add takes|224
            not sound: 1 bad, 8 remarks, 0 changes
        """)

    def test_an_area_before_a_larger_one_at_the_same_place(self):
        """The smaller one is checked, and the larger one only on request."""
        image = board(0x400, [FMAP, ("A", 0x100, 0x100), ("OUTER", 0x100, 0x300)],
                      (0x100, NULL_256))
        self.reports(0, image, """
            remark|-|-|0x0|flashmap
            remark|A|-|-|complete
            remark|A|-|-|no components
            remark|A|-|-|free bytes|256
            remark|A|-|-|largest content that add takes|224
            sound: 0 bad, 5 remarks, 0 changes
        """)
        self.reports(0, image, """
            remark|-|-|0x0|flashmap
            remark|A|-|-|complete
            remark|A|-|-|no components
            remark|A|-|-|free bytes|256
            remark|A|-|-|largest content that add takes|224
            sound: 0 bad, 5 remarks, 0 changes
        """, "-r A")
        self.reports(0, image, """
            remark|-|-|0x0|flashmap
            remark|A|-|-|complete
            remark|A|-|-|no components
            remark|A|-|-|free bytes|256
            remark|A|-|-|largest content that add takes|224
            remark|OUTER|-|0x100|unused tail
            remark|OUTER|-|-|no components
            remark|OUTER|-|-|free bytes|256
            remark|OUTER|-|-|largest content that add takes|228
            sound: 0 bad, 9 remarks, 0 changes
        """, "-r OUTER")
        self.reports(0, image, """
            remark|-|-|0x0|flashmap
            remark|A|-|-|complete
            remark|A|-|-|no components
            remark|A|-|-|free bytes|256
            remark|A|-|-|largest content that add takes|224
            remark|OUTER|-|0x100|unused tail
            remark|OUTER|-|-|no components
            remark|OUTER|-|-|free bytes|256
            remark|OUTER|-|-|largest content that add takes|228
            sound: 0 bad, 9 remarks, 0 changes
        """, "-r OUTER,A")

    def test_an_area_after_a_larger_one_at_the_same_place(self):
        image = board(0x400, [FMAP, ("OUTER", 0x100, 0x300), ("A", 0x100, 0x100)],
                      (0x100, NULL_256))
        self.reports(0, image, """
            remark|-|-|0x0|flashmap
            remark|A|-|-|complete
            remark|A|-|-|no components
            remark|A|-|-|free bytes|256
            remark|A|-|-|largest content that add takes|224
            sound: 0 bad, 5 remarks, 0 changes
        """)
        self.reports(0, image, """
            remark|-|-|0x0|flashmap
            remark|A|-|-|complete
            remark|A|-|-|no components
            remark|A|-|-|free bytes|256
            remark|A|-|-|largest content that add takes|224
            sound: 0 bad, 5 remarks, 0 changes
        """, "-r A")
        self.reports(0, image, """
            remark|-|-|0x0|flashmap
            remark|OUTER|-|0x100|unused tail
            remark|OUTER|-|-|no components
            remark|OUTER|-|-|free bytes|256
            remark|OUTER|-|-|largest content that add takes|228
            remark|A|-|-|complete
            remark|A|-|-|no components
            remark|A|-|-|free bytes|256
            remark|A|-|-|largest content that add takes|224
            sound: 0 bad, 9 remarks, 0 changes
        """, "-r OUTER")
        self.reports(0, image, """
            remark|-|-|0x0|flashmap
            remark|OUTER|-|0x100|unused tail
            remark|OUTER|-|-|no components
            remark|OUTER|-|-|free bytes|256
            remark|OUTER|-|-|largest content that add takes|228
            remark|A|-|-|complete
            remark|A|-|-|no components
            remark|A|-|-|free bytes|256
            remark|A|-|-|largest content that add takes|224
            sound: 0 bad, 9 remarks, 0 changes
        """, "-r OUTER,A")

    def test_two_areas_of_the_same_bytes(self):
        image = board(0x400, [FMAP, ("A2", 0x100, 0x100), ("A", 0x100, 0x100)], (0x100, NULL_256))
        self.reports(0, image, """
            remark|-|-|0x0|flashmap
            remark|A2|-|-|complete
            remark|A2|-|-|no components
            remark|A2|-|-|free bytes|256
            remark|A2|-|-|largest content that add takes|224
            remark|A|-|-|complete
            remark|A|-|-|no components
            remark|A|-|-|free bytes|256
            remark|A|-|-|largest content that add takes|224
            sound: 0 bad, 9 remarks, 0 changes
        """)

    def test_a_larger_area_whose_parts_begin_elsewhere(self):
        image = board(0x400, [FMAP, ("OUTER", 0x100, 0x300), ("A", 0x200, 0x100),
                              ("B", 0x300, 0x100)],
                      (0x100, free(768)), (0x200, NULL_256), (0x300, NULL_LONG))
        self.reports(1, image, """
            remark|-|-|0x0|flashmap
            remark|OUTER|-|-|complete
            remark|OUTER|-|-|no components
            remark|OUTER|-|-|free bytes|768
            remark|OUTER|-|-|largest content that add takes|736
            remark|A|-|-|complete
            remark|A|-|-|no components
            remark|A|-|-|free bytes|256
            remark|A|-|-|largest content that add takes|224
            bad|B|-|0x0|damaged entry: extent
            remark|B|-|-|no components
            remark|B|-|-|free bytes|0
            remark|B|-|-|no room for a component
            not sound: 1 bad, 12 remarks, 0 changes
        """)

    def test_a_smaller_area_of_23_bytes(self):
        """It has no room for the head of an entry, so the larger area is checked."""
        image = board(0x400, [FMAP, ("A", 0x100, 0x100), ("S", 0x100, 23)], (0x100, NULL_256))
        self.reports(0, image, """
            remark|-|-|0x0|flashmap
            remark|A|-|-|complete
            remark|A|-|-|no components
            remark|A|-|-|free bytes|256
            remark|A|-|-|largest content that add takes|224
            sound: 0 bad, 5 remarks, 0 changes
        """)

    def test_a_smaller_area_of_24_bytes(self):
        image = board(0x400, [FMAP, ("A", 0x100, 0x100), ("S", 0x100, 24)], (0x100, NULL_256))
        self.reports(1, image, """
            remark|-|-|0x0|flashmap
            bad|S|-|-|size is less than 64
            not sound: 1 bad, 1 remarks, 0 changes
        """)

    def test_an_area_outside_the_image(self):
        """It is not checked, even on request."""
        image = board(0x400, [FMAP, ("A", 0x300, 0x101)], (0x300, NULL_256))
        self.reports(1, image, """
            remark|-|-|0x0|flashmap
            bad|A|-|0x300|ends outside the image
            not sound: 1 bad, 1 remarks, 0 changes
        """)
        self.reports(1, image, """
            remark|-|-|0x0|flashmap
            bad|A|-|0x300|ends outside the image
            not sound: 1 bad, 1 remarks, 0 changes
        """, "-r A")

    def test_COREBOOT_and_the_area_of_a_need(self):
        image = board(0x400, [FMAP, ("COREBOOT", 0x100, 0x100), ("A", 0x200, 0x100)])
        self.reports(1, image, """
            remark|-|-|0x0|flashmap
            bad|COREBOOT|-|-|no CBFS
            not sound: 1 bad, 1 remarks, 0 changes
        """)
        self.reports(1, image, """
            remark|-|-|0x0|flashmap
            bad|COREBOOT|-|-|no CBFS
            bad|A|-|-|no CBFS
            bad|A|a|-|needed component isn't there
            not sound: 3 bad, 1 remarks, 0 changes
        """, "--need A:a")

    def test_names_that_resemble_COREBOOT(self):
        image = board(0x400, [FMAP, ("COREBOO", 0x100, 0x100), ("COREBOOTS", 0x200, 0x100)])
        self.reports(0, image, """
            remark|-|-|0x0|flashmap
            sound: 0 bad, 1 remarks, 0 changes
        """)

    def test_requested_areas(self):
        image = board(0x400, [FMAP, ("A", 0x100, 0x100), ("B", 0x200, 0x200)], (0x100, NULL_256))
        self.reports(1, image, """
            remark|-|-|0x0|flashmap
            remark|A|-|-|complete
            remark|A|-|-|no components
            remark|A|-|-|free bytes|256
            remark|A|-|-|largest content that add takes|224
            bad|B|-|-|no CBFS
            bad|X|-|-|no such area
            not sound: 2 bad, 5 remarks, 0 changes
        """, "-r B,X")
        self.reports(1, image, """
            remark|-|-|0x0|flashmap
            remark|A|-|-|complete
            remark|A|-|-|no components
            remark|A|-|-|free bytes|256
            remark|A|-|-|largest content that add takes|224
            bad|X|-|-|no such area
            bad|Y|-|-|no such area
            bad|X|-|-|no such area
            not sound: 3 bad, 5 remarks, 0 changes
        """, "-r X,Y,A,X")


class CheckedBytes(CheckTest):
    """Areas of twice the image's length are checked: 1024 bytes of P, and as many of others."""

    def image(self, *areas):
        """Returns an image of 1024 bytes, whose last 64 are a free entry."""
        return board(0x400, [("FMAP", 0, 0x300), ("P", 0, 0x400), *areas], (0x3C0, NULL_64))

    def test_no_byte_is_left(self):
        """An area without bytes is still checked."""
        image = self.image(("Q", 0, 0x3C0), ("A", 0x3C0, 0x40), ("B", 0x3C0, 0x40),
                           ("E", 0x3C0, 0))
        self.reports(1, image, """
            remark|-|-|0x0|flashmap
            remark|E|-|0x3c0|has no bytes
            bad|P|-|-|no CBFS
            bad|Q|-|-|no CBFS
            remark|A|-|-|complete
            remark|A|-|-|no components
            remark|A|-|-|free bytes|64
            remark|A|-|-|largest content that add takes|32
            remark|B|-|0x3c0|isn't checked: checked areas would exceed twice the image
            not sound: 2 bad, 7 remarks, 0 changes
        """, "-r P,Q")
        self.reports(1, image, """
            remark|-|-|0x0|flashmap
            remark|E|-|0x3c0|has no bytes
            bad|P|-|-|no CBFS
            bad|Q|-|-|no CBFS
            remark|A|-|-|complete
            remark|A|-|-|no components
            remark|A|-|-|free bytes|64
            remark|A|-|-|largest content that add takes|32
            bad|B|-|0x3c0|isn't checked: checked areas would exceed twice the image
            bad|E|-|-|size is less than 64
            not sound: 4 bad, 6 remarks, 0 changes
        """, "-r P,Q,B,E")
        self.reports(1, image, """
            remark|-|-|0x0|flashmap
            remark|E|-|0x3c0|has no bytes
            bad|P|-|-|no CBFS
            bad|Q|-|-|no CBFS
            remark|A|-|-|complete
            remark|A|-|-|no components
            remark|A|-|-|free bytes|64
            remark|A|-|-|largest content that add takes|32
            bad|B|-|0x3c0|isn't checked: checked areas would exceed twice the image
            bad|B|x|-|needed component isn't there
            not sound: 4 bad, 6 remarks, 0 changes
        """, "-r P,Q --need B:x")

    def test_an_area_of_one_byte_too_many(self):
        image = self.image(("Q", 0, 0x3C0), ("A", 0x3C0, 0x40), ("O", 0x3FF, 1))
        self.reports(1, image, """
            remark|-|-|0x0|flashmap
            bad|P|-|-|no CBFS
            bad|Q|-|-|no CBFS
            remark|A|-|-|complete
            remark|A|-|-|no components
            remark|A|-|-|free bytes|64
            remark|A|-|-|largest content that add takes|32
            bad|O|-|0x3ff|isn't checked: checked areas would exceed twice the image
            not sound: 3 bad, 5 remarks, 0 changes
        """, "-r P,Q,O")

    def test_an_area_of_the_last_byte(self):
        image = self.image(("Q", 0, 0x3BF), ("A", 0x3C0, 0x40), ("O", 0x3FF, 1))
        self.reports(1, image, """
            remark|-|-|0x0|flashmap
            bad|P|-|-|no CBFS
            bad|Q|-|-|no CBFS
            remark|Q|-|-|size is no multiple of 64
            remark|A|-|-|complete
            remark|A|-|-|no components
            remark|A|-|-|free bytes|64
            remark|A|-|-|largest content that add takes|32
            bad|O|-|-|size is less than 64
            not sound: 3 bad, 6 remarks, 0 changes
        """, "-r P,Q,O")

    def test_an_area_that_is_left_out_takes_nothing(self):
        image = self.image(("A", 0x3C0, 0x40), ("P8", 0, 0x400), ("Q", 0, 0x380),
                           ("B", 0x3C0, 0x40), ("C", 0x3C0, 0x40))
        self.reports(1, image, """
            remark|-|-|0x0|flashmap
            bad|P|-|-|no CBFS
            remark|A|-|-|complete
            remark|A|-|-|no components
            remark|A|-|-|free bytes|64
            remark|A|-|-|largest content that add takes|32
            bad|P8|-|0x0|isn't checked: checked areas would exceed twice the image
            bad|Q|-|-|no CBFS
            remark|B|-|-|complete
            remark|B|-|-|no components
            remark|B|-|-|free bytes|64
            remark|B|-|-|largest content that add takes|32
            remark|C|-|0x3c0|isn't checked: checked areas would exceed twice the image
            not sound: 3 bad, 10 remarks, 0 changes
        """, "-r P,P8,Q")

    def test_the_order_of_the_map(self):
        """Requested areas are not checked before others."""
        image = self.image(("A", 0x3C0, 0x40), ("P8", 0, 0x3C0), ("B", 0x3C0, 0x40))
        self.reports(1, image, """
            remark|-|-|0x0|flashmap
            bad|P|-|-|no CBFS
            remark|A|-|-|complete
            remark|A|-|-|no components
            remark|A|-|-|free bytes|64
            remark|A|-|-|largest content that add takes|32
            bad|P8|-|-|no CBFS
            remark|B|-|0x3c0|isn't checked: checked areas would exceed twice the image
            not sound: 2 bad, 6 remarks, 0 changes
        """, "-r P,P8")


if __name__ == "__main__":
    unittest.main()
