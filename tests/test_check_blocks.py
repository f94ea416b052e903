"""cbfscheck OLD NEW: erase blocks of 4096 bytes that differ, in the images and in their areas."""

import unittest

from tests.findings import CheckTest, blocks_of, board, patched


def zeros(size, *places):
    """Returns bytes 0xff with 0 at these offsets."""
    return patched(b"\xff" * size, *((place, b"\0") for place in places))


class Images(CheckTest):
    """Images without a map: the number of blocks that differ, and the size."""

    def test_images_of_one_size(self):
        for title, old, new, text in [
            ("the same bytes", zeros(0x2000), zeros(0x2000), """
                bad|-|-|-|no flashmap
                not sound: 1 bad, 0 remarks, 0 changes
            """),
            ("the first byte", zeros(0x2000), zeros(0x2000, 0), """
                bad|-|-|-|no flashmap
                change|-|-|-|erase blocks differ|1
                not sound: 1 bad, 0 remarks, 1 changes
            """),
            ("two bytes of a block", zeros(0x2000), zeros(0x2000, 0, 0xFFF), """
                bad|-|-|-|no flashmap
                change|-|-|-|erase blocks differ|1
                not sound: 1 bad, 0 remarks, 1 changes
            """),
            ("the second block", zeros(0x2000), zeros(0x2000, 0x1000), """
                bad|-|-|-|no flashmap
                change|-|-|-|erase blocks differ|1
                not sound: 1 bad, 0 remarks, 1 changes
            """),
            ("the last byte", zeros(0x2000, 0x1FFF), zeros(0x2000), """
                bad|-|-|-|no flashmap
                change|-|-|-|erase blocks differ|1
                not sound: 1 bad, 0 remarks, 1 changes
            """),
            ("two blocks", zeros(0x2000, 0x1000), zeros(0x2000, 0xFFF), """
                bad|-|-|-|no flashmap
                change|-|-|-|erase blocks differ|2
                not sound: 1 bad, 0 remarks, 1 changes
            """),
            ("no bytes", b"", b"", """
                bad|-|-|-|no flashmap
                not sound: 1 bad, 0 remarks, 0 changes
            """),
        ]:
            with self.subTest(title):
                self.changes(1, old, new, text)

    def test_images_of_two_sizes(self):
        for title, old, new, text in [
            ("one byte more than a block", zeros(0x1000), zeros(0x1001), """
                bad|-|-|-|no flashmap
                bad|-|-|-|image size changed from|0x1000
                change|-|-|-|erase blocks differ|1
                not sound: 2 bad, 0 remarks, 1 changes
            """),
            ("a block", zeros(0x1001), zeros(0x1000), """
                bad|-|-|-|no flashmap
                bad|-|-|-|image size changed from|0x1001
                change|-|-|-|erase blocks differ|1
                not sound: 2 bad, 0 remarks, 1 changes
            """),
            ("one byte less than a block", zeros(0xFFF), zeros(0x1000), """
                bad|-|-|-|no flashmap
                bad|-|-|-|image size changed from|0xfff
                change|-|-|-|erase blocks differ|1
                not sound: 2 bad, 0 remarks, 1 changes
            """),
            ("no bytes in the old image", b"", zeros(0x2001), """
                bad|-|-|-|no flashmap
                bad|-|-|-|image size changed from|0x0
                change|-|-|-|erase blocks differ|3
                not sound: 2 bad, 0 remarks, 1 changes
            """),
            ("a part of a block", zeros(0x64), zeros(0x2000), """
                bad|-|-|-|no flashmap
                bad|-|-|-|image size changed from|0x64
                change|-|-|-|erase blocks differ|2
                not sound: 2 bad, 0 remarks, 1 changes
            """),
        ]:
            with self.subTest(title):
                self.changes(1, old, new, text)


class Areas(CheckTest):
    """Areas of equal maps."""

    def test_blocks_from_the_start_of_an_area(self):
        """The last block of an area may be short."""
        for title, area, places, text in [
            ("a byte before the area", ("M", 0x1064, 0x1F40), [0x1063], """
                change|-|-|-|erase blocks differ|1
                sound: 0 bad, 1 remarks, 1 changes
            """),
            ("its first byte", ("M", 0x1064, 0x1F40), [0x1064], """
                change|-|-|-|erase blocks differ|1
                change|M|-|0x1064|erase blocks differ|1
                sound: 0 bad, 1 remarks, 2 changes
            """),
            ("two blocks of the area", ("M", 0x1064, 0x1F40), [0x2063, 0x2064], """
                change|-|-|-|erase blocks differ|1
                change|M|-|0x1064|erase blocks differ|2
                sound: 0 bad, 1 remarks, 2 changes
            """),
            ("its last byte", ("M", 0x1064, 0x1F40), [0x2FA3], """
                change|-|-|-|erase blocks differ|1
                change|M|-|0x1064|erase blocks differ|1
                sound: 0 bad, 1 remarks, 2 changes
            """),
            ("a byte after the area", ("M", 0x1064, 0x1F40), [0x2FA4], """
                change|-|-|-|erase blocks differ|1
                sound: 0 bad, 1 remarks, 1 changes
            """),
            ("the last byte of a small area", ("A", 0x1000, 0x800), [0x17FF], """
                change|-|-|-|erase blocks differ|1
                change|A|-|0x1000|erase blocks differ|1
                sound: 0 bad, 1 remarks, 2 changes
            """),
            ("a byte after a small area", ("A", 0x1000, 0x800), [0x1800], """
                change|-|-|-|erase blocks differ|1
                sound: 0 bad, 1 remarks, 1 changes
            """),
            ("an area without bytes", ("E", 0x1064, 0), [0x1064], """
                change|-|-|-|erase blocks differ|1
                sound: 0 bad, 2 remarks, 1 changes
            """),
        ]:
            with self.subTest(title):
                self.changes(0, blocks_of([area]), blocks_of([area], *places), text)

    def test_a_block_of_an_inner_area(self):
        """A block has a row of the smallest area that has it whole, or else of each area."""
        outer, middle, inner = ("O", 0x1000, 0x2000), ("M", 0x1000, 0x1800), ("I", 0x1000, 0x1000)
        for title, areas, places, text in [
            ("an inner area", [outer, inner], [0x1800], """
                change|-|-|-|erase blocks differ|1
                change|I|-|0x1000|erase blocks differ|1
                sound: 0 bad, 1 remarks, 2 changes
            """),
            ("an inner area before the outer one", [inner, outer], [0x1800], """
                change|-|-|-|erase blocks differ|1
                change|I|-|0x1000|erase blocks differ|1
                sound: 0 bad, 1 remarks, 2 changes
            """),
            ("the rest of the outer area", [outer, inner], [0x2800], """
                change|-|-|-|erase blocks differ|1
                change|O|-|0x1000|erase blocks differ|1
                sound: 0 bad, 1 remarks, 2 changes
            """),
            ("both blocks", [outer, inner], [0x1000, 0x1FFF, 0x2000], """
                change|-|-|-|erase blocks differ|2
                change|O|-|0x1000|erase blocks differ|1
                change|I|-|0x1000|erase blocks differ|1
                sound: 0 bad, 1 remarks, 3 changes
            """),
            ("an inner area between two blocks", [outer, ("I", 0x1800, 0x1000)], [0x1900],
             """
                 change|-|-|-|erase blocks differ|1
                 change|O|-|0x1000|erase blocks differ|1
                 change|I|-|0x1800|erase blocks differ|1
                 sound: 0 bad, 1 remarks, 3 changes
             """),
            ("two blocks of the outer area", [outer, ("I", 0x1800, 0x1000)], [0x1900, 0x2700],
             """
                 change|-|-|-|erase blocks differ|2
                 change|O|-|0x1000|erase blocks differ|2
                 change|I|-|0x1800|erase blocks differ|1
                 sound: 0 bad, 1 remarks, 3 changes
             """),
            ("all but the last byte of a block", [outer, ("I", 0x1000, 0xFFF)], [0x1800],
             """
                 change|-|-|-|erase blocks differ|1
                 change|O|-|0x1000|erase blocks differ|1
                 change|I|-|0x1000|erase blocks differ|1
                 sound: 0 bad, 1 remarks, 3 changes
             """),
            ("all but the first byte of a block", [outer, ("I", 0x1001, 0xFFF)], [0x1800],
             """
                 change|-|-|-|erase blocks differ|1
                 change|O|-|0x1000|erase blocks differ|1
                 change|I|-|0x1001|erase blocks differ|1
                 sound: 0 bad, 1 remarks, 3 changes
             """),
            ("one byte more than a block", [outer, ("I", 0x1000, 0x1001)], [0x1800], """
                change|-|-|-|erase blocks differ|1
                change|I|-|0x1000|erase blocks differ|1
                sound: 0 bad, 1 remarks, 2 changes
            """),
            ("an outer area of one byte more", [("O", 0x1000, 0x1001), inner], [0x1800], """
                change|-|-|-|erase blocks differ|1
                change|I|-|0x1000|erase blocks differ|1
                sound: 0 bad, 1 remarks, 2 changes
            """),
            ("two areas of the same bytes", [("O", 0x1000, 0x1000), inner], [0x1800], """
                change|-|-|-|erase blocks differ|1
                change|O|-|0x1000|erase blocks differ|1
                change|I|-|0x1000|erase blocks differ|1
                sound: 0 bad, 1 remarks, 3 changes
            """),
            ("three areas", [outer, middle, inner], [0x1800], """
                change|-|-|-|erase blocks differ|1
                change|I|-|0x1000|erase blocks differ|1
                sound: 0 bad, 1 remarks, 2 changes
            """),
            ("the short last block of an area", [outer, middle, inner], [0x2100], """
                change|-|-|-|erase blocks differ|1
                change|O|-|0x1000|erase blocks differ|1
                change|M|-|0x1000|erase blocks differ|1
                sound: 0 bad, 1 remarks, 3 changes
            """),
            ("an inner area of a short last block",
             [("O", 0x1000, 0x1800), ("I", 0x2000, 0x800)], [0x2100], """
                 change|-|-|-|erase blocks differ|1
                 change|I|-|0x2000|erase blocks differ|1
                 sound: 0 bad, 1 remarks, 2 changes
             """),
            ("two inner areas", [outer, inner, ("J", 0x2000, 0x1000)], [0x1800, 0x2800], """
                change|-|-|-|erase blocks differ|2
                change|I|-|0x1000|erase blocks differ|1
                change|J|-|0x2000|erase blocks differ|1
                sound: 0 bad, 1 remarks, 3 changes
            """),
        ]:
            with self.subTest(title):
                self.changes(0, blocks_of(areas), blocks_of(areas, *places), text)

    def test_more_than_eight_areas_of_the_image(self):
        areas = [(name, 0, 0x2000) for name in "PQRSTUVWXYZ"]
        old = board(0x2000, areas)
        self.changes(1, old, patched(old, (0xFA0, b"\0")), """
            bad|-|-|-|no area FMAP
            change|-|-|-|erase blocks differ|1
            change|P|-|0x0|erase blocks differ|1
            change|Q|-|0x0|erase blocks differ|1
            change|R|-|0x0|erase blocks differ|1
            change|S|-|0x0|erase blocks differ|1
            change|T|-|0x0|erase blocks differ|1
            change|U|-|0x0|erase blocks differ|1
            change|V|-|0x0|erase blocks differ|1
            change|W|-|0x0|erase blocks differ|1
            change|X|-|0x0|not compared
            change|Y|-|0x0|not compared
            change|Z|-|0x0|not compared
            not sound: 1 bad, 1 remarks, 12 changes
        """)


class InnerAreas(CheckTest):
    """An inner area has a block of the outer one only if it is compared, and did not move in it."""

    OUTER = ("O", 0x1000, 0x2000)

    def test_an_inner_area_that_moved(self):
        old = blocks_of([self.OUTER, ("I", 0x2000, 0x1000)])
        new = blocks_of([self.OUTER, ("I", 0x1000, 0x1000)], 0x1800)
        self.changes(0, old, new, """
            change|-|-|-|erase blocks differ|2
            change|FMAP|-|0x0|erase blocks differ|1
            change|O|-|0x1000|erase blocks differ|1
            change|I|-|0x1000|area moved from|0x2000
            change|I|-|0x1000|erase blocks differ|1
            sound: 0 bad, 1 remarks, 5 changes
        """)

    def test_an_inner_area_that_moved_with_its_bytes(self):
        old = blocks_of([self.OUTER, ("I", 0x2000, 0x1000)], 0x2800)
        new = blocks_of([self.OUTER, ("I", 0x1000, 0x1000)], 0x1800, 0x2800)
        self.changes(0, old, new, """
            change|-|-|-|erase blocks differ|2
            change|FMAP|-|0x0|erase blocks differ|1
            change|O|-|0x1000|erase blocks differ|1
            change|I|-|0x1000|area moved from|0x2000
            sound: 0 bad, 1 remarks, 4 changes
        """)

    def test_an_inner_area_that_moved_with_the_outer_one(self):
        old = blocks_of([("O", 0x1000, 0x2000), ("I", 0x1000, 0x1000)], size=0x5000)
        new = blocks_of([("O", 0x3000, 0x2000), ("I", 0x3000, 0x1000)], 0x3800, size=0x5000)
        self.changes(0, old, new, """
            change|-|-|-|erase blocks differ|2
            change|FMAP|-|0x0|erase blocks differ|1
            change|O|-|0x3000|area moved from|0x1000
            change|I|-|0x3000|area moved from|0x1000
            change|I|-|0x3000|erase blocks differ|1
            sound: 0 bad, 1 remarks, 5 changes
        """)

    def test_an_inner_area_that_was_resized_or_added(self):
        old = blocks_of([self.OUTER, ("I", 0x1000, 0x800)])
        new = blocks_of([self.OUTER, ("I", 0x1000, 0x1000), ("J", 0x1000, 0x1000)], 0x1800)
        self.changes(0, old, new, """
            change|-|-|-|erase blocks differ|2
            change|FMAP|-|0x0|erase blocks differ|1
            change|O|-|0x1000|erase blocks differ|1
            change|I|-|0x1000|area resized from|0x800
            change|J|-|0x1000|area added
            sound: 0 bad, 1 remarks, 5 changes
        """)

    def test_an_inner_area_that_ends_outside_the_image(self):
        areas = [self.OUTER, ("I", 0x2000, 0x1001)]
        self.changes(1, blocks_of(areas), blocks_of(areas, 0x2800), """
            bad|I|-|0x2000|ends outside the image
            bad|O|-|0x1000|overlaps|I
            bad|I|-|0x2000|overlaps|O
            change|-|-|-|erase blocks differ|1
            change|O|-|0x1000|erase blocks differ|1
            change|I|-|0x2000|not compared
            not sound: 3 bad, 1 remarks, 3 changes
        """)

    def test_an_outer_area_that_is_kept(self):
        """Each of its blocks is bad."""
        areas = [self.OUTER, ("I", 0x1000, 0x1000)]
        old, new = blocks_of(areas), blocks_of(areas, 0x1800)
        self.changes(1, old, new, """
            change|-|-|-|erase blocks differ|1
            bad|O|-|0x1000|erase blocks differ|1
            change|I|-|0x1000|erase blocks differ|1
            not sound: 1 bad, 1 remarks, 2 changes
        """, "--keep O")
        self.changes(1, old, new, """
            change|-|-|-|erase blocks differ|1
            bad|I|-|0x1000|erase blocks differ|1
            not sound: 1 bad, 1 remarks, 1 changes
        """, "--keep I")

    def test_an_outer_area_that_is_preserved(self):
        areas = [(*self.OUTER, 8), ("I", 0x1000, 0x1000)]
        self.changes(1, blocks_of(areas), blocks_of(areas, 0x1800), """
            change|-|-|-|erase blocks differ|1
            bad|O|-|0x1000|erase blocks differ|1
            change|I|-|0x1000|erase blocks differ|1
            not sound: 1 bad, 1 remarks, 2 changes
        """,
                     "--keep-preserved")


class Outside(CheckTest):
    """An area that ends outside one of the images is not compared."""

    def test_an_empty_area_after_the_end_of_the_old_image(self):
        new = blocks_of([("E", 0x3001, 0)], size=0x3001)
        self.changes(1, new[:0x3000], new, """
            bad|-|-|-|image size changed from|0x3000
            change|-|-|-|erase blocks differ|1
            change|E|-|0x3001|not compared
            not sound: 1 bad, 2 remarks, 2 changes
        """)

    def test_an_area_outside_both_images(self):
        image = blocks_of([("C", 0x1000, 0x2001)])
        self.changes(1, image, image, """
            bad|C|-|0x1000|ends outside the image
            change|C|-|0x1000|not compared
            not sound: 1 bad, 1 remarks, 1 changes
        """)

    def test_an_area_outside_the_old_image(self):
        new = blocks_of([("C", 0x1000, 0x2001)], size=0x3001)
        self.changes(1, new[:0x3000], new, """
            bad|-|-|-|image size changed from|0x3000
            change|-|-|-|erase blocks differ|1
            change|C|-|0x1000|not compared
            not sound: 1 bad, 1 remarks, 2 changes
        """)

    def test_an_area_outside_the_new_image(self):
        new = blocks_of([("B", 0x2000, 0x1000)], size=0x2FFF)
        self.changes(1, new + b"\xff", new, """
            bad|B|-|0x2000|ends outside the image
            bad|-|-|-|image size changed from|0x3000
            change|-|-|-|erase blocks differ|1
            change|B|-|0x2000|not compared
            not sound: 2 bad, 1 remarks, 2 changes
        """)


if __name__ == "__main__":
    unittest.main()
