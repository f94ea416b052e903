"""cbfscheck OLD NEW: changes between the sample hashes.rom and edited copies of it."""

import unittest

from tests.findings import CheckTest, patched
from tests.image import Component
from tests.regions import with_component
from tests.samples import Sample

# The region COREBOOT is at 0x1400. The entry of `h none` is at 0x180 of it, its content 0x20 later.
# Area 3 of the map is SMMSTORE, and area 4 is TAIL.
SAMPLE = Sample("hashes")
HASHES = SAMPLE.image
NONE_CHANGED = patched(HASHES, (0x15A0, b"X"))


def area(number, field=0):
    """Returns the position of a field of an area: 0 offset, 4 size, 8 name."""
    return 0x1000 + 56 + 42 * number + field


def with_entry(position, name):
    """Returns the sample with a component `abc` whose entry is at a position of the region."""
    component = Component(name, b"abc")
    return SAMPLE.with_region(with_component(SAMPLE.region_bytes(), position, component))


class Components(CheckTest):
    def test_fields_of_a_component(self):
        for title, status, at, data, text in [
            ("type", 0, 0x158C, b"\0\0\0\x53", r"""
                change|-|-|-|erase blocks differ|1
                change|COREBOOT|-|0x1400|erase blocks differ|1
                change|COREBOOT|h\x20none|0x180|type changed
                sound: 0 bad, 9 remarks, 3 changes
            """),
            ("length", 0, 0x1588, b"\0\0\0\x09", r"""
                change|-|-|-|erase blocks differ|1
                change|COREBOOT|-|0x1400|erase blocks differ|1
                change|COREBOOT|h\x20none|0x180|length changed
                sound: 0 bad, 9 remarks, 3 changes
            """),
            ("content", 0, 0x15A0, b"X", r"""
                change|-|-|-|erase blocks differ|1
                change|COREBOOT|-|0x1400|erase blocks differ|1
                change|COREBOOT|h\x20none|0x180|content changed
                sound: 0 bad, 9 remarks, 3 changes
            """),
            ("attributes", 1, 0x142B, b"\x09", r"""
                bad|COREBOOT|h\x20sha1|0x0|digest has an unknown algorithm
                change|-|-|-|erase blocks differ|1
                change|COREBOOT|-|0x1400|erase blocks differ|1
                change|COREBOOT|h\x20sha1|0x0|attributes changed
                not sound: 1 bad, 9 remarks, 3 changes
            """),
            ("a byte after the content", 0, 0x15B0, b"X", """
                change|-|-|-|erase blocks differ|1
                change|COREBOOT|-|0x1400|erase blocks differ|1
                sound: 0 bad, 9 remarks, 2 changes
            """),
        ]:
            with self.subTest(title):
                self.changes(status, HASHES, patched(HASHES, (at, data)), text)

    def test_the_same_sample(self):
        self.changes(0, HASHES, HASHES, "sound: 0 bad, 9 remarks, 0 changes")

    def test_a_component_that_moved_or_that_one_image_lacks(self):
        old, new = with_entry(0x5C0, b"note"), with_entry(0x7C0, b"note")
        self.changes(0, old, new, """
            change|-|-|-|erase blocks differ|1
            change|COREBOOT|-|0x1400|erase blocks differ|1
            change|COREBOOT|note|0x7c0|component moved from|0x5c0
            sound: 0 bad, 9 remarks, 3 changes
        """)
        self.changes(0, HASHES, new, """
            change|-|-|-|erase blocks differ|1
            change|COREBOOT|-|0x1400|erase blocks differ|1
            change|COREBOOT|note|0x7c0|component added
            sound: 0 bad, 9 remarks, 3 changes
        """)
        self.changes(0, old, HASHES, """
            change|-|-|-|erase blocks differ|1
            change|COREBOOT|-|0x1400|erase blocks differ|1
            change|COREBOOT|note|0x5c0|component removed
            sound: 0 bad, 9 remarks, 3 changes
        """)

    def test_two_blocks_of_the_image_and_one_of_the_region(self):
        """The region's bytes 0xe00 to 0x1000 are in its first block, and in the image's third."""
        self.changes(0, HASHES, with_entry(0xDC0, b"far"), """
            change|-|-|-|erase blocks differ|2
            change|COREBOOT|-|0x1400|erase blocks differ|1
            change|COREBOOT|far|0xdc0|component added
            sound: 0 bad, 9 remarks, 3 changes
        """)


class Areas(CheckTest):
    def test_areas_that_changed_places(self):
        new = patched(HASHES, (area(3), b"\0\x70"), (area(4), b"\0\x60"))
        self.changes(0, HASHES, new, """
            change|-|-|-|erase blocks differ|1
            change|FMAP|-|0x1000|erase blocks differ|1
            change|SMMSTORE|-|0x7000|area moved from|0x6000
            change|TAIL|-|0x6000|area moved from|0x7000
            sound: 0 bad, 9 remarks, 4 changes
        """)

    def test_a_shorter_area(self):
        self.changes(0, HASHES, patched(HASHES, (area(4, 4), b"\0\x08")), """
            change|-|-|-|erase blocks differ|1
            change|FMAP|-|0x1000|erase blocks differ|1
            change|TAIL|-|0x7000|area resized from|0x1000
            sound: 0 bad, 9 remarks, 3 changes
        """)

    def test_another_name(self):
        self.changes(0, HASHES, patched(HASHES, (area(4, 8), b"LAST")), """
            change|-|-|-|erase blocks differ|1
            change|FMAP|-|0x1000|erase blocks differ|1
            change|LAST|-|0x7000|area added
            change|TAIL|-|0x7000|area gone
            sound: 0 bad, 9 remarks, 4 changes
        """)

    def test_an_old_image_that_was_cut(self):
        """An area ends outside it, and then the region too."""
        self.changes(1, HASHES[:0x7800], HASHES, """
            bad|-|-|-|image size changed from|0x7800
            change|-|-|-|erase blocks differ|1
            change|TAIL|-|0x7000|not compared
            not sound: 1 bad, 9 remarks, 2 changes
        """)
        self.changes(1, HASHES[:0x5000], HASHES, """
            bad|-|-|-|image size changed from|0x5000
            change|-|-|-|erase blocks differ|3
            change|COREBOOT|-|0x1400|not compared
            change|SMMSTORE|-|0x6000|not compared
            change|TAIL|-|0x7000|not compared
            change|COREBOOT|-|0x1400|components not compared
            not sound: 1 bad, 9 remarks, 5 changes
        """)

    def test_kept_areas(self):
        self.changes(1, HASHES, NONE_CHANGED, r"""
            change|-|-|-|erase blocks differ|1
            bad|COREBOOT|-|0x1400|erase blocks differ|1
            bad|COREBOOT|h\x20none|0x180|content changed
            not sound: 2 bad, 9 remarks, 1 changes
        """, "--keep TAIL,COREBOOT")
        self.changes(1, HASHES, NONE_CHANGED, r"""
            change|-|-|-|erase blocks differ|1
            bad|COREBOOT|-|0x1400|erase blocks differ|1
            bad|COREBOOT|h\x20none|0x180|content changed
            not sound: 2 bad, 9 remarks, 1 changes
        """, "--keep=COREBOOT")
        self.changes(0, HASHES, NONE_CHANGED, r"""
            change|-|-|-|erase blocks differ|1
            change|COREBOOT|-|0x1400|erase blocks differ|1
            change|COREBOOT|h\x20none|0x180|content changed
            sound: 0 bad, 9 remarks, 3 changes
        """, "--keep TAIL")
        self.changes(1, HASHES, NONE_CHANGED, r"""
            change|-|-|-|erase blocks differ|1
            change|COREBOOT|-|0x1400|erase blocks differ|1
            change|COREBOOT|h\x20none|0x180|content changed
            bad|RW_VPD|-|-|no such area
            not sound: 1 bad, 9 remarks, 3 changes
        """, "--keep TAIL,RW_VPD")

    def test_a_new_image_without_a_map(self):
        """The finding of the new image is bad, and so is the region that is gone."""
        self.changes(1, HASHES, patched(HASHES, (0x1000, b"X")), """
            bad|-|-|-|no flashmap
            change|-|-|-|erase blocks differ|1
            change|BOOTBLOCK|-|0x0|area gone
            change|FMAP|-|0x1000|area gone
            bad|COREBOOT|-|0x1400|area gone
            change|SMMSTORE|-|0x6000|area gone
            change|TAIL|-|0x7000|area gone
            not sound: 2 bad, 0 remarks, 5 changes
        """)


if __name__ == "__main__":
    unittest.main()
