"""cbfscheck OLD NEW: areas that changed, the flash map itself, and areas that have to stay."""

import unittest

from tests.findings import A, B, FMAP, CheckTest, blocks_of, board, patched, small


class Areas(CheckTest):
    """Areas are compared by their names, of which the first one counts."""

    def test_rows_of_areas(self):
        first, second = ("A", 0x1000, 0x1000), ("B", 0x2000, 0x1000)
        for title, old, new, places, text in [
            ("another order", [second, first], [first, second], [], """
                change|-|-|-|erase blocks differ|1
                change|FMAP|-|0x0|erase blocks differ|1
                sound: 0 bad, 1 remarks, 2 changes
            """),
            ("an added area", [first], [first, second], [], """
                change|-|-|-|erase blocks differ|1
                change|FMAP|-|0x0|erase blocks differ|1
                change|B|-|0x2000|area added
                sound: 0 bad, 1 remarks, 3 changes
            """),
            ("an area that is gone", [second, first], [first], [], """
                change|-|-|-|erase blocks differ|1
                change|FMAP|-|0x0|erase blocks differ|1
                change|B|-|0x2000|area gone
                sound: 0 bad, 1 remarks, 3 changes
            """),
            ("another name", [second], [first], [], """
                change|-|-|-|erase blocks differ|1
                change|FMAP|-|0x0|erase blocks differ|1
                change|A|-|0x1000|area added
                change|B|-|0x2000|area gone
                sound: 0 bad, 1 remarks, 4 changes
            """),
            ("a moved area", [second, first], [("A", 0x2000, 0x1000), second], [], """
                change|-|-|-|erase blocks differ|1
                change|FMAP|-|0x0|erase blocks differ|1
                change|A|-|0x2000|area moved from|0x1000
                sound: 0 bad, 1 remarks, 3 changes
            """),
            ("a moved area with another byte", [first], [("A", 0x2000, 0x1000)], [0x2388],
             """
                 change|-|-|-|erase blocks differ|2
                 change|FMAP|-|0x0|erase blocks differ|1
                 change|A|-|0x2000|area moved from|0x1000
                 change|A|-|0x2000|erase blocks differ|1
                 sound: 0 bad, 1 remarks, 4 changes
             """),
            ("an added and a resized area", [first], [second, ("A", 0x1000, 0x800)], [0x1000],
             """
                 change|-|-|-|erase blocks differ|2
                 change|FMAP|-|0x0|erase blocks differ|1
                 change|B|-|0x2000|area added
                 change|A|-|0x1000|area resized from|0x1000
                 sound: 0 bad, 1 remarks, 4 changes
             """),
            ("a moved and resized area", [first], [("A", 0x2000, 0x800)], [0x2000], """
                change|-|-|-|erase blocks differ|2
                change|FMAP|-|0x0|erase blocks differ|1
                change|A|-|0x2000|area moved from|0x1000
                change|A|-|0x2000|area resized from|0x1000
                sound: 0 bad, 1 remarks, 4 changes
            """),
            ("two areas of a name are gone", [first, ("A", 0x1000, 0x800)], [], [], """
                change|-|-|-|erase blocks differ|1
                change|FMAP|-|0x0|erase blocks differ|1
                change|A|-|0x1000|area gone
                sound: 0 bad, 1 remarks, 3 changes
            """),
        ]:
            with self.subTest(title):
                self.changes(0, blocks_of(old), blocks_of(new, *places), text)

    def test_a_second_area_of_a_name_that_moved(self):
        old = blocks_of([("A", 0x1000, 0x1000), ("A", 0x1000, 0x800)])
        new = blocks_of([("A", 0x1000, 0x1000), ("A", 0x2000, 0x1000)])
        self.changes(1, old, new, """
            bad|A|-|0x2000|has the name of an earlier area|A
            change|-|-|-|erase blocks differ|1
            change|FMAP|-|0x0|erase blocks differ|1
            not sound: 1 bad, 1 remarks, 2 changes
        """)

    def test_areas_of_a_name_in_another_order(self):
        old = blocks_of([("A", 0x1000, 0x800), ("A", 0x1000, 0x1000)])
        new = blocks_of([("B", 0x2000, 0x1000), ("A", 0x1000, 0x1000), ("A", 0x1000, 0x800)])
        self.changes(1, old, new, """
            bad|A|-|0x1000|has the name of an earlier area|A
            change|-|-|-|erase blocks differ|1
            change|FMAP|-|0x0|erase blocks differ|1
            change|B|-|0x2000|area added
            change|A|-|0x1000|area resized from|0x800
            not sound: 1 bad, 1 remarks, 4 changes
        """)

    def test_16_added_areas_of_17(self):
        """A kept area has a bad row, which is of another kind."""
        old = blocks_of([], size=0x2000)
        new = blocks_of([(f"N{n}", 0x1000, 0x10) for n in range(1, 18)], size=0x2000)
        self.changes(0, old, new, """
            change|-|-|-|erase blocks differ|1
            change|FMAP|-|0x0|erase blocks differ|1
            change|N1|-|0x1000|area added
            change|N2|-|0x1000|area added
            change|N3|-|0x1000|area added
            change|N4|-|0x1000|area added
            change|N5|-|0x1000|area added
            change|N6|-|0x1000|area added
            change|N7|-|0x1000|area added
            change|N8|-|0x1000|area added
            change|N9|-|0x1000|area added
            change|N10|-|0x1000|area added
            change|N11|-|0x1000|area added
            change|N12|-|0x1000|area added
            change|N13|-|0x1000|area added
            change|N14|-|0x1000|area added
            change|N15|-|0x1000|area added
            change|N16|-|0x1000|area added
            change|N17|-|0x1000|area added
            sound: 0 bad, 1 remarks, 19 changes
        """, "-v")
        self.changes(0, old, new, """
            change|-|-|-|erase blocks differ|1
            change|FMAP|-|0x0|erase blocks differ|1
            change|N1|-|0x1000|area added
            change|N2|-|0x1000|area added
            change|N3|-|0x1000|area added
            change|N4|-|0x1000|area added
            change|N5|-|0x1000|area added
            change|N6|-|0x1000|area added
            change|N7|-|0x1000|area added
            change|N8|-|0x1000|area added
            change|N9|-|0x1000|area added
            change|N10|-|0x1000|area added
            change|N11|-|0x1000|area added
            change|N12|-|0x1000|area added
            change|N13|-|0x1000|area added
            change|N14|-|0x1000|area added
            change|N15|-|0x1000|area added
            change|N16|-|0x1000|area added
            change|-|-|-|more of these|1
            sound: 0 bad, 1 remarks, 19 changes
        """)
        self.changes(1, old, new, """
            change|-|-|-|erase blocks differ|1
            change|FMAP|-|0x0|erase blocks differ|1
            change|N1|-|0x1000|area added
            change|N2|-|0x1000|area added
            change|N3|-|0x1000|area added
            change|N4|-|0x1000|area added
            change|N5|-|0x1000|area added
            change|N6|-|0x1000|area added
            change|N7|-|0x1000|area added
            change|N8|-|0x1000|area added
            change|N9|-|0x1000|area added
            change|N10|-|0x1000|area added
            change|N11|-|0x1000|area added
            change|N12|-|0x1000|area added
            change|N13|-|0x1000|area added
            change|N14|-|0x1000|area added
            change|N15|-|0x1000|area added
            change|N16|-|0x1000|area added
            bad|N17|-|0x1000|area added
            not sound: 1 bad, 1 remarks, 18 changes
        """, "--keep N17")


class Maps(CheckTest):
    """Changes of the flash map itself."""

    AREAS = [("A", 0x100, 0x100), ("B", 0x200, 0x100)]
    OLD = small(AREAS, (0x100, A))

    def test_other_flags(self):
        new = small([("A", 0x100, 0x100, 1), ("B", 0x200, 0x100)], (0x100, A))
        self.changes(0, self.OLD, new, """
            change|-|-|-|erase blocks differ|1
            change|FMAP|-|0x0|erase blocks differ|1
            change|A|-|0x100|flags changed from|0x0
            sound: 0 bad, 5 remarks, 3 changes
        """)

    def test_another_base_address(self):
        self.changes(0, self.OLD, patched(self.OLD, (11, b"\x10")), """
            change|-|-|-|erase blocks differ|1
            change|-|-|-|base address changed from|0x0
            change|FMAP|-|0x0|erase blocks differ|1
            sound: 0 bad, 5 remarks, 3 changes
        """)

    def test_another_name(self):
        self.changes(0, self.OLD, small(self.AREAS, (0x100, A), name=b"G"), """
            change|-|-|-|erase blocks differ|1
            change|-|-|-|name of the flashmap changed
            change|FMAP|-|0x0|erase blocks differ|1
            sound: 0 bad, 5 remarks, 3 changes
        """)

    def test_another_byte_after_the_nul_of_the_name(self):
        self.changes(0, self.OLD, patched(self.OLD, (23, b"\0G")), """
            change|-|-|-|erase blocks differ|1
            change|FMAP|-|0x0|erase blocks differ|1
            sound: 0 bad, 5 remarks, 2 changes
        """)

    def test_a_base_address_of_64_bits(self):
        old = small(self.AREAS, (0x100, A), base=0x8000000000000001)
        self.changes(0, old, self.OLD, """
            change|-|-|-|erase blocks differ|1
            change|-|-|-|base address changed from|0x8000000000000001
            change|FMAP|-|0x0|erase blocks differ|1
            sound: 0 bad, 5 remarks, 3 changes
        """)

    def test_another_place(self):
        old, new = small([]), small([], map_at=16)
        self.changes(1, old, new, """
            bad|FMAP|-|0x0|doesn't begin with the flashmap
            change|-|-|-|erase blocks differ|1
            change|-|-|-|flashmap moved from|0x0
            change|FMAP|-|0x0|erase blocks differ|1
            not sound: 1 bad, 1 remarks, 3 changes
        """)
        self.changes(0, new, old, """
            change|-|-|-|erase blocks differ|1
            change|-|-|-|flashmap moved from|0x10
            change|FMAP|-|0x0|erase blocks differ|1
            sound: 0 bad, 1 remarks, 3 changes
        """)

    def test_no_map_in_the_old_image(self):
        """The areas of the new image are compared with the same places of the old one."""
        areas = [("A", 0x100, 0x100), ("B", 0x200, 0x100), ("C", 0x300, 0x100)]
        old = small(areas, (0x100, A), (0x131, b"x"), (0x200, B), (0, b"X"))
        new = small(areas, (0x100, A), (0x200, B))
        self.changes(0, old, new, """
            change|-|-|-|erase blocks differ|1
            change|-|-|-|the old image has no flashmap
            change|FMAP|-|0x0|erase blocks differ|1
            change|A|-|0x100|erase blocks differ|1
            change|A|a|0x0|content changed
            sound: 0 bad, 9 remarks, 5 changes
        """)
        self.changes(1, old, new, """
            change|-|-|-|erase blocks differ|1
            change|-|-|-|the old image has no flashmap
            change|FMAP|-|0x0|erase blocks differ|1
            bad|A|-|0x100|erase blocks differ|1
            bad|A|a|0x0|content changed
            not sound: 2 bad, 9 remarks, 3 changes
        """, "--keep B,C,A")
        self.changes(1, old, new, """
            change|-|-|-|erase blocks differ|1
            change|-|-|-|the old image has no flashmap
            change|FMAP|-|0x0|erase blocks differ|1
            change|A|-|0x100|erase blocks differ|1
            change|A|a|0x0|content changed
            bad|D|-|-|no such area
            not sound: 1 bad, 9 remarks, 5 changes
        """, "--keep D")
        preserved = small([("A", 0x100, 0x100, 8), *areas[1:]], (0x100, A), (0x200, B))
        self.changes(1, old, preserved, """
            change|-|-|-|erase blocks differ|1
            change|-|-|-|the old image has no flashmap
            change|FMAP|-|0x0|erase blocks differ|1
            bad|A|-|0x100|erase blocks differ|1
            bad|A|a|0x0|content changed
            not sound: 2 bad, 9 remarks, 3 changes
        """, "--keep-preserved")
        self.changes(1, old[:0x2FF], preserved, """
            bad|-|-|-|image size changed from|0x2ff
            change|-|-|-|erase blocks differ|1
            change|-|-|-|the old image has no flashmap
            change|FMAP|-|0x0|erase blocks differ|1
            change|A|-|0x100|erase blocks differ|1
            change|B|-|0x200|not compared
            change|C|-|0x300|not compared
            change|A|a|0x0|content changed
            change|B|-|0x200|components not compared
            not sound: 1 bad, 9 remarks, 8 changes
        """)

    def test_no_map_in_the_new_image(self):
        """Its areas are gone."""
        old = small([("A", 0x100, 0x100)], (0x100, A))
        self.changes(1, old, patched(old, (0, b"X")), """
            bad|-|-|-|no flashmap
            change|-|-|-|erase blocks differ|1
            change|FMAP|-|0x0|area gone
            bad|A|-|0x100|area gone
            not sound: 2 bad, 0 remarks, 2 changes
        """)


class Preserved(CheckTest):
    """With --keep-preserved, an area with the flag 8 in one of the images has to stay."""

    def images(self, before, after):
        """Returns two images, in which the area A has these flags, and A and B another byte."""
        old = small([("A", 0x100, 0x100, before), ("B", 0x200, 0x100)], (0x100, A), (0x200, A))
        new = small([("A", 0x100, 0x100, after), ("B", 0x200, 0x100)], (0x100, A), (0x131, b"x"),
                    (0x200, A), (0x231, b"x"))
        return old, new

    def keeps(self, before, after, text, preserved, preserved_and_b):
        """Checks three reports: without an option, with --keep-preserved, and with --keep B too."""
        old, new = self.images(before, after)
        status = int("bad|" in preserved)
        self.changes(0, old, new, text)
        self.changes(status, old, new, preserved, "--keep-preserved")
        self.changes(1, old, new, preserved_and_b, "--keep-preserved --keep B")

    def test_no_flags(self):
        self.keeps(0, 0, """
            change|-|-|-|erase blocks differ|1
            change|A|-|0x100|erase blocks differ|1
            change|B|-|0x200|erase blocks differ|1
            change|A|a|0x0|content changed
            change|B|a|0x0|content changed
            sound: 0 bad, 9 remarks, 5 changes
        """, """
            change|-|-|-|erase blocks differ|1
            change|A|-|0x100|erase blocks differ|1
            change|B|-|0x200|erase blocks differ|1
            change|A|a|0x0|content changed
            change|B|a|0x0|content changed
            sound: 0 bad, 10 remarks, 5 changes
        """, """
            change|-|-|-|erase blocks differ|1
            change|A|-|0x100|erase blocks differ|1
            bad|B|-|0x200|erase blocks differ|1
            change|A|a|0x0|content changed
            bad|B|a|0x0|content changed
            not sound: 2 bad, 10 remarks, 3 changes
        """)

    def test_preserved_in_both_images(self):
        self.keeps(8, 8, """
            change|-|-|-|erase blocks differ|1
            change|A|-|0x100|erase blocks differ|1
            change|B|-|0x200|erase blocks differ|1
            change|A|a|0x0|content changed
            change|B|a|0x0|content changed
            sound: 0 bad, 9 remarks, 5 changes
        """, """
            change|-|-|-|erase blocks differ|1
            bad|A|-|0x100|erase blocks differ|1
            change|B|-|0x200|erase blocks differ|1
            bad|A|a|0x0|content changed
            change|B|a|0x0|content changed
            not sound: 2 bad, 9 remarks, 3 changes
        """, """
            change|-|-|-|erase blocks differ|1
            bad|A|-|0x100|erase blocks differ|1
            bad|B|-|0x200|erase blocks differ|1
            bad|A|a|0x0|content changed
            bad|B|a|0x0|content changed
            not sound: 4 bad, 9 remarks, 1 changes
        """)

    def test_preserved_in_the_old_image(self):
        self.keeps(8, 0, """
            change|-|-|-|erase blocks differ|1
            change|FMAP|-|0x0|erase blocks differ|1
            change|A|-|0x100|flags changed from|0x8
            change|A|-|0x100|erase blocks differ|1
            change|B|-|0x200|erase blocks differ|1
            change|A|a|0x0|content changed
            change|B|a|0x0|content changed
            sound: 0 bad, 9 remarks, 7 changes
        """, """
            change|-|-|-|erase blocks differ|1
            change|FMAP|-|0x0|erase blocks differ|1
            bad|A|-|0x100|flags changed from|0x8
            bad|A|-|0x100|erase blocks differ|1
            change|B|-|0x200|erase blocks differ|1
            bad|A|a|0x0|content changed
            change|B|a|0x0|content changed
            not sound: 3 bad, 9 remarks, 4 changes
        """, """
            change|-|-|-|erase blocks differ|1
            change|FMAP|-|0x0|erase blocks differ|1
            bad|A|-|0x100|flags changed from|0x8
            bad|A|-|0x100|erase blocks differ|1
            bad|B|-|0x200|erase blocks differ|1
            bad|A|a|0x0|content changed
            bad|B|a|0x0|content changed
            not sound: 5 bad, 9 remarks, 2 changes
        """)

    def test_preserved_in_the_new_image(self):
        self.keeps(0, 8, """
            change|-|-|-|erase blocks differ|1
            change|FMAP|-|0x0|erase blocks differ|1
            change|A|-|0x100|flags changed from|0x0
            change|A|-|0x100|erase blocks differ|1
            change|B|-|0x200|erase blocks differ|1
            change|A|a|0x0|content changed
            change|B|a|0x0|content changed
            sound: 0 bad, 9 remarks, 7 changes
        """, """
            change|-|-|-|erase blocks differ|1
            change|FMAP|-|0x0|erase blocks differ|1
            bad|A|-|0x100|flags changed from|0x0
            bad|A|-|0x100|erase blocks differ|1
            change|B|-|0x200|erase blocks differ|1
            bad|A|a|0x0|content changed
            change|B|a|0x0|content changed
            not sound: 3 bad, 9 remarks, 4 changes
        """, """
            change|-|-|-|erase blocks differ|1
            change|FMAP|-|0x0|erase blocks differ|1
            bad|A|-|0x100|flags changed from|0x0
            bad|A|-|0x100|erase blocks differ|1
            bad|B|-|0x200|erase blocks differ|1
            bad|A|a|0x0|content changed
            bad|B|a|0x0|content changed
            not sound: 5 bad, 9 remarks, 2 changes
        """)

    def test_the_other_flags(self):
        self.keeps(7, 7, """
            change|-|-|-|erase blocks differ|1
            change|A|-|0x100|erase blocks differ|1
            change|B|-|0x200|erase blocks differ|1
            change|A|a|0x0|content changed
            change|B|a|0x0|content changed
            sound: 0 bad, 9 remarks, 5 changes
        """, """
            change|-|-|-|erase blocks differ|1
            change|A|-|0x100|erase blocks differ|1
            change|B|-|0x200|erase blocks differ|1
            change|A|a|0x0|content changed
            change|B|a|0x0|content changed
            sound: 0 bad, 10 remarks, 5 changes
        """, """
            change|-|-|-|erase blocks differ|1
            change|A|-|0x100|erase blocks differ|1
            bad|B|-|0x200|erase blocks differ|1
            change|A|a|0x0|content changed
            bad|B|a|0x0|content changed
            not sound: 2 bad, 10 remarks, 3 changes
        """)

    def test_all_flags_in_the_old_image(self):
        self.keeps(0xff, 0xf7, """
            change|-|-|-|erase blocks differ|1
            change|FMAP|-|0x0|erase blocks differ|1
            change|A|-|0x100|flags changed from|0xff
            change|A|-|0x100|erase blocks differ|1
            change|B|-|0x200|erase blocks differ|1
            change|A|a|0x0|content changed
            change|B|a|0x0|content changed
            sound: 0 bad, 9 remarks, 7 changes
        """, """
            change|-|-|-|erase blocks differ|1
            change|FMAP|-|0x0|erase blocks differ|1
            bad|A|-|0x100|flags changed from|0xff
            bad|A|-|0x100|erase blocks differ|1
            change|B|-|0x200|erase blocks differ|1
            bad|A|a|0x0|content changed
            change|B|a|0x0|content changed
            not sound: 3 bad, 9 remarks, 4 changes
        """, """
            change|-|-|-|erase blocks differ|1
            change|FMAP|-|0x0|erase blocks differ|1
            bad|A|-|0x100|flags changed from|0xff
            bad|A|-|0x100|erase blocks differ|1
            bad|B|-|0x200|erase blocks differ|1
            bad|A|a|0x0|content changed
            bad|B|a|0x0|content changed
            not sound: 5 bad, 9 remarks, 2 changes
        """)

    def test_all_flags_but_preserved(self):
        self.keeps(0xf7, 0xf0, """
            change|-|-|-|erase blocks differ|1
            change|FMAP|-|0x0|erase blocks differ|1
            change|A|-|0x100|flags changed from|0xf7
            change|A|-|0x100|erase blocks differ|1
            change|B|-|0x200|erase blocks differ|1
            change|A|a|0x0|content changed
            change|B|a|0x0|content changed
            sound: 0 bad, 9 remarks, 7 changes
        """, """
            change|-|-|-|erase blocks differ|1
            change|FMAP|-|0x0|erase blocks differ|1
            change|A|-|0x100|flags changed from|0xf7
            change|A|-|0x100|erase blocks differ|1
            change|B|-|0x200|erase blocks differ|1
            change|A|a|0x0|content changed
            change|B|a|0x0|content changed
            sound: 0 bad, 10 remarks, 7 changes
        """, """
            change|-|-|-|erase blocks differ|1
            change|FMAP|-|0x0|erase blocks differ|1
            change|A|-|0x100|flags changed from|0xf7
            change|A|-|0x100|erase blocks differ|1
            bad|B|-|0x200|erase blocks differ|1
            change|A|a|0x0|content changed
            bad|B|a|0x0|content changed
            not sound: 2 bad, 10 remarks, 5 changes
        """)


class Gone(CheckTest):
    """A preserved area that is gone, or is added."""

    def test_a_preserved_area_that_one_image_lacks(self):
        area, kept = small([("A", 0x100, 0x100)]), small([("A", 0x100, 0x100, 8)])
        none = small([])
        self.changes(1, kept, none, """
            change|-|-|-|erase blocks differ|1
            change|FMAP|-|0x0|erase blocks differ|1
            bad|A|-|0x100|area gone
            not sound: 1 bad, 1 remarks, 2 changes
        """, "--keep-preserved")
        self.changes(1, none, kept, """
            change|-|-|-|erase blocks differ|1
            change|FMAP|-|0x0|erase blocks differ|1
            bad|A|-|0x100|area added
            not sound: 1 bad, 1 remarks, 2 changes
        """, "--keep-preserved")
        self.changes(0, none, area, """
            change|-|-|-|erase blocks differ|1
            change|FMAP|-|0x0|erase blocks differ|1
            change|A|-|0x100|area added
            sound: 0 bad, 2 remarks, 3 changes
        """, "--keep-preserved")


if __name__ == "__main__":
    unittest.main()
