"""cbfscheck OLD NEW: components that changed, and the regions whose components are compared."""

import unittest

from tests.findings import (
    A, A_9, A_51, B, FMAP, H, L_5000, NULL_64, NULL_128, SHORT, U, U_PLAIN, CheckTest, board,
    region,
)


class Components(CheckTest):
    """Components of the region A. The images differ in one block, which lies in A."""

    def becomes(self, old, new, text, kept, status=0):
        """Checks the changes, and that those of A are bad with --keep A, with this last line."""
        self.changes(status, old, new, text)
        rows = text.strip().splitlines()[:-1]
        bad = "\n".join([*rows, kept]).replace("change|A|", "bad|A|")
        self.changes(1, old, new, bad, "--keep A")

    def test_the_same_image(self):
        for image in region(192, [A, NULL_64, B]), region(5056, [L_5000]):
            self.changes(0, image, image, "sound: 0 bad, 5 remarks, 0 changes")

    def test_another_component(self):
        old, new = region(64, [A]), region(64, [B])
        self.becomes(old, new, """
            change|-|-|-|erase blocks differ|1
            change|A|-|0x100|erase blocks differ|1
            change|A|b|0x0|component added
            change|A|a|0x0|component removed
            sound: 0 bad, 5 remarks, 4 changes
        """, "    not sound: 3 bad, 5 remarks, 1 changes")
        self.changes(1, old, new, """
            change|-|-|-|erase blocks differ|1
            bad|A|-|0x100|erase blocks differ|1
            bad|A|b|0x0|component added
            bad|A|a|0x0|component removed
            bad|NONE|-|-|no such area
            not sound: 4 bad, 5 remarks, 1 changes
        """, "--keep A,NONE")

    def test_a_component_that_is_removed(self):
        self.becomes(region(64, [A]), region(64, [NULL_64]), """
            change|-|-|-|erase blocks differ|1
            change|A|-|0x100|erase blocks differ|1
            change|A|a|0x0|component removed
            sound: 0 bad, 5 remarks, 3 changes
        """, "    not sound: 2 bad, 5 remarks, 1 changes")

    def test_a_component_that_is_added(self):
        self.becomes(region(64, [NULL_64]), region(64, [A]), """
            change|-|-|-|erase blocks differ|1
            change|A|-|0x100|erase blocks differ|1
            change|A|a|0x0|component added
            sound: 0 bad, 5 remarks, 3 changes
        """, "    not sound: 2 bad, 5 remarks, 1 changes")

    def test_another_type(self):
        """Of several fields that differ, the first one has a row."""
        old = region(64, [A])
        self.becomes(old, region(64, [A_51], (0x28, b"x")), """
            change|-|-|-|erase blocks differ|1
            change|A|-|0x100|erase blocks differ|1
            change|A|a|0x0|type changed
            sound: 0 bad, 5 remarks, 3 changes
        """, "    not sound: 2 bad, 5 remarks, 1 changes")
        self.becomes(old, region(64, [A_51], (8, b"\0\0\0\x09")), """
            change|-|-|-|erase blocks differ|1
            change|A|-|0x100|erase blocks differ|1
            change|A|a|0x0|type changed
            sound: 0 bad, 5 remarks, 3 changes
        """, "    not sound: 2 bad, 5 remarks, 1 changes")

    def test_another_length(self):
        self.becomes(region(64, [A]), region(64, [A_9], (0x28, b"x")), """
            change|-|-|-|erase blocks differ|1
            change|A|-|0x100|erase blocks differ|1
            change|A|a|0x0|length changed
            sound: 0 bad, 5 remarks, 3 changes
        """, "    not sound: 2 bad, 5 remarks, 1 changes")

    def test_another_content(self):
        self.becomes(region(64, [A]), region(64, [A], (0x31, b"x")), """
            change|-|-|-|erase blocks differ|1
            change|A|-|0x100|erase blocks differ|1
            change|A|a|0x0|content changed
            sound: 0 bad, 5 remarks, 3 changes
        """, "    not sound: 2 bad, 5 remarks, 1 changes")

    def test_another_content_and_other_attributes(self):
        new = region(128, [H], (0x33, b"\x09"), (0x56, b"d"))
        self.becomes(region(128, [H]), new, """
            bad|A|h|0x0|digest has an unknown algorithm
            change|-|-|-|erase blocks differ|1
            change|A|-|0x100|erase blocks differ|1
            change|A|h|0x0|content changed
            not sound: 1 bad, 6 remarks, 3 changes
        """, "    not sound: 3 bad, 6 remarks, 1 changes", status=1)

    def test_other_attributes(self):
        self.becomes(region(128, [H]), region(128, [H], (0x33, b"\x09")), """
            bad|A|h|0x0|digest has an unknown algorithm
            change|-|-|-|erase blocks differ|1
            change|A|-|0x100|erase blocks differ|1
            change|A|h|0x0|attributes changed
            not sound: 1 bad, 6 remarks, 3 changes
        """, "    not sound: 3 bad, 6 remarks, 1 changes", status=1)
        self.becomes(region(64, [U]), region(64, [U], (0x33, b"x")), """
            bad|A|u|0x0|digest has an unknown algorithm
            change|-|-|-|erase blocks differ|1
            change|A|-|0x100|erase blocks differ|1
            change|A|u|0x0|attributes changed
            not sound: 1 bad, 6 remarks, 3 changes
        """, "    not sound: 3 bad, 6 remarks, 1 changes", status=1)

    def test_attributes_that_are_none_any_more(self):
        self.becomes(region(64, [U]), region(64, [U_PLAIN]), """
            change|-|-|-|erase blocks differ|1
            change|A|-|0x100|erase blocks differ|1
            change|A|u|0x0|attributes changed
            sound: 0 bad, 5 remarks, 3 changes
        """, "    not sound: 2 bad, 5 remarks, 1 changes")

    def test_the_last_byte_of_a_content_of_two_pieces(self):
        old, new = region(5056, [L_5000]), region(5056, [L_5000], (0x13AF, b"x"))
        self.becomes(old, new, """
            change|-|-|-|erase blocks differ|1
            change|A|-|0x100|erase blocks differ|1
            change|A|l|0x0|content changed
            sound: 0 bad, 5 remarks, 3 changes
        """, "    not sound: 2 bad, 5 remarks, 1 changes")

    def test_the_byte_after_a_content(self):
        old, new = region(5056, [L_5000]), region(5056, [L_5000], (0x13B0, b"x"))
        self.becomes(old, new, """
            change|-|-|-|erase blocks differ|1
            change|A|-|0x100|erase blocks differ|1
            sound: 0 bad, 5 remarks, 2 changes
        """, "    not sound: 1 bad, 5 remarks, 1 changes")

    def test_two_components_that_moved(self):
        self.becomes(region(128, [A, B]), region(128, [B, A]), """
            change|-|-|-|erase blocks differ|1
            change|A|-|0x100|erase blocks differ|1
            change|A|b|0x0|component moved from|0x40
            change|A|a|0x40|component moved from|0x0
            sound: 0 bad, 5 remarks, 4 changes
        """, "    not sound: 3 bad, 5 remarks, 1 changes")

    def test_a_component_that_moved_with_another_content(self):
        old, new = region(192, [A, NULL_128]), region(192, [NULL_128, A], (0xB1, b"x"))
        self.becomes(old, new, """
            change|-|-|-|erase blocks differ|1
            change|A|-|0x100|erase blocks differ|1
            change|A|a|0x80|content changed
            change|A|a|0x80|component moved from|0x0
            sound: 0 bad, 5 remarks, 4 changes
        """, "    not sound: 3 bad, 5 remarks, 1 changes")

    def test_a_second_component_of_a_name(self):
        """Only the first one counts."""
        old = region(128, [A, A_51])
        self.becomes(old, region(128, [A, NULL_64]), """
            change|-|-|-|erase blocks differ|1
            change|A|-|0x100|erase blocks differ|1
            sound: 0 bad, 5 remarks, 2 changes
        """, "    not sound: 1 bad, 5 remarks, 1 changes")
        self.becomes(old, region(128, [A_51, A]), """
            bad|A|a|0x40|has the name of an earlier component
            change|-|-|-|erase blocks differ|1
            change|A|-|0x100|erase blocks differ|1
            change|A|a|0x0|type changed
            not sound: 1 bad, 5 remarks, 3 changes
        """, "    not sound: 3 bad, 5 remarks, 1 changes", status=1)
        self.becomes(old, region(128, [NULL_128]), """
            change|-|-|-|erase blocks differ|1
            change|A|-|0x100|erase blocks differ|1
            change|A|a|0x0|component removed
            sound: 0 bad, 5 remarks, 3 changes
        """, "    not sound: 2 bad, 5 remarks, 1 changes")
        self.becomes(region(128, [A, NULL_64]), old, """
            bad|A|a|0x40|has the name of an earlier component
            change|-|-|-|erase blocks differ|1
            change|A|-|0x100|erase blocks differ|1
            not sound: 1 bad, 5 remarks, 2 changes
        """, "    not sound: 2 bad, 5 remarks, 1 changes", status=1)

    def test_a_component_after_damage(self):
        """It does not count."""
        damaged = region(192, [A, SHORT], (0x80, B))
        sound = region(192, [A, NULL_64, B])
        self.becomes(damaged, sound, """
            change|-|-|-|erase blocks differ|1
            change|A|-|0x100|erase blocks differ|1
            change|A|b|0x80|component added
            sound: 0 bad, 5 remarks, 3 changes
        """, "    not sound: 2 bad, 5 remarks, 1 changes")
        self.becomes(sound, damaged, """
            bad|A|-|0x40|damaged entry: attribute length
            change|-|-|-|erase blocks differ|1
            change|A|-|0x100|erase blocks differ|1
            change|A|b|0x80|component removed
            not sound: 1 bad, 4 remarks, 3 changes
        """, "    not sound: 3 bad, 4 remarks, 1 changes", status=1)

    def test_a_region_without_an_entry_at_its_start(self):
        """Its components do not count."""
        old, new = region(192, [], (0x40, A)), region(192, [A, SHORT], (0x80, B))
        self.becomes(old, new, """
            bad|A|-|0x40|damaged entry: attribute length
            change|-|-|-|erase blocks differ|1
            change|A|-|0x100|erase blocks differ|1
            change|A|a|0x0|component added
            not sound: 1 bad, 4 remarks, 3 changes
        """, "    not sound: 3 bad, 4 remarks, 1 changes", status=1)


def small(areas, *pieces):
    """Returns an image of 1024 bytes with the area FMAP and these areas, and bytes at offsets."""
    return board(0x400, [FMAP, *areas], *pieces)


AREA_A, AREA_B, AREA_C = ("A", 0x100, 0x100), ("B", 0x200, 0x100), ("C", 0x300, 0x100)


class Regions(CheckTest):
    """The components of areas with the same name are compared."""

    def test_three_regions(self):
        areas = [AREA_A, AREA_B, AREA_C]
        old = small(areas, (0x100, A), (0x200, A), (0x300, A))
        new = small(areas, (0x100, A), (0x200, A), (0x231, b"x"), (0x300, B))
        self.changes(0, old, new, """
            change|-|-|-|erase blocks differ|1
            change|B|-|0x200|erase blocks differ|1
            change|C|-|0x300|erase blocks differ|1
            change|B|a|0x0|content changed
            change|C|b|0x0|component added
            change|C|a|0x0|component removed
            sound: 0 bad, 13 remarks, 6 changes
        """)

    def test_regions_that_changed_places(self):
        old = small([AREA_A, AREA_B], (0x100, A), (0x200, B))
        new = small([("B", 0x100, 0x100), ("A", 0x200, 0x100)], (0x100, B), (0x200, A))
        self.changes(0, old, new, """
            change|-|-|-|erase blocks differ|1
            change|FMAP|-|0x0|erase blocks differ|1
            change|B|-|0x100|area moved from|0x200
            change|A|-|0x200|area moved from|0x100
            sound: 0 bad, 9 remarks, 4 changes
        """)

    def test_the_first_area_of_a_name(self):
        old = small([AREA_A, ("A", 0x200, 0x100)], (0x100, A), (0x200, B))
        self.changes(0, old, small([AREA_A], (0x100, B)), """
            change|-|-|-|erase blocks differ|1
            change|FMAP|-|0x0|erase blocks differ|1
            change|A|-|0x100|erase blocks differ|1
            change|A|b|0x0|component added
            change|A|a|0x0|component removed
            sound: 0 bad, 5 remarks, 5 changes
        """)

    def test_a_region_that_one_image_lacks(self):
        """No component of it has a row. A name of --keep is looked for in both images."""
        one = small([AREA_A], (0x100, A), (0x200, A))
        two = small([AREA_A, AREA_B], (0x100, A), (0x200, A))
        other = small([AREA_B], (0x100, A), (0x200, A))
        self.changes(0, one, two, """
            change|-|-|-|erase blocks differ|1
            change|FMAP|-|0x0|erase blocks differ|1
            change|B|-|0x200|area added
            sound: 0 bad, 9 remarks, 3 changes
        """)
        self.changes(1, two, other, """
            change|-|-|-|erase blocks differ|1
            change|FMAP|-|0x0|erase blocks differ|1
            bad|A|-|0x100|area gone
            not sound: 1 bad, 5 remarks, 2 changes
        """)
        self.changes(1, two, other, """
            change|-|-|-|erase blocks differ|1
            bad|FMAP|-|0x0|erase blocks differ|1
            bad|A|-|0x100|area gone
            bad|R|-|-|no such area
            not sound: 3 bad, 5 remarks, 1 changes
        """, "--keep FMAP,A,R,B")
        self.changes(1, other, two, """
            change|-|-|-|erase blocks differ|1
            bad|FMAP|-|0x0|erase blocks differ|1
            bad|A|-|0x100|area added
            not sound: 2 bad, 9 remarks, 1 changes
        """, "--keep A,FMAP")
        self.changes(1, other, two, """
            change|-|-|-|erase blocks differ|1
            change|FMAP|-|0x0|erase blocks differ|1
            change|A|-|0x100|area added
            bad|F|-|-|no such area
            not sound: 1 bad, 9 remarks, 3 changes
        """, "--keep F")

    def test_old_regions_of_more_bytes_than_the_image(self):
        new = small([AREA_A, AREA_B, AREA_C], (0x100, A), (0x200, A), (0x300, A))
        old = [("A", 0x100, 0x300), ("B", 0x200, 0x200), AREA_C]
        self.changes(0, small(old, (0x100, A), (0x200, A), (0x300, A)), new, """
            change|-|-|-|erase blocks differ|1
            change|FMAP|-|0x0|erase blocks differ|1
            change|A|-|0x100|area resized from|0x300
            change|B|-|0x200|area resized from|0x200
            change|B|-|0x200|components not compared
            sound: 0 bad, 13 remarks, 5 changes
        """)
        old = [("A", 0x100, 0x300), AREA_B, AREA_C]
        self.changes(0, small(old, (0x100, A), (0x200, A), (0x300, A)), new, """
            change|-|-|-|erase blocks differ|1
            change|FMAP|-|0x0|erase blocks differ|1
            change|A|-|0x100|area resized from|0x300
            change|C|-|0x300|components not compared
            sound: 0 bad, 13 remarks, 4 changes
        """)

    def test_a_region_with_one_byte_in_the_old_image(self):
        old = small([AREA_A, ("B", 0x3FF, 0x100)], (0x100, A), (0x200, A))
        new = small([AREA_A, AREA_B], (0x100, A), (0x200, A))
        self.changes(0, old, new, """
            change|-|-|-|erase blocks differ|1
            change|FMAP|-|0x0|erase blocks differ|1
            change|B|-|0x200|area moved from|0x3ff
            change|B|-|0x200|not compared
            change|B|-|0x200|components not compared
            sound: 0 bad, 9 remarks, 5 changes
        """)
        self.changes(1, old, new, """
            change|-|-|-|erase blocks differ|1
            change|FMAP|-|0x0|erase blocks differ|1
            bad|B|-|0x200|area moved from|0x3ff
            bad|B|-|0x200|not compared
            bad|B|-|0x200|components not compared
            not sound: 3 bad, 9 remarks, 2 changes
        """, "--keep B")


class Erased(CheckTest):
    """An area that began with an entry in the old image has to begin with one in the new image."""

    OLD = small([AREA_A], (0x100, A), (0x140, B))

    def test_an_erased_region(self):
        self.changes(1, self.OLD, small([AREA_A]), """
            bad|A|-|-|no CBFS
            change|-|-|-|erase blocks differ|1
            change|A|-|0x100|erase blocks differ|1
            change|A|a|0x0|component removed
            change|A|b|0x40|component removed
            not sound: 1 bad, 1 remarks, 4 changes
        """)

    def test_an_erased_region_at_another_place(self):
        self.changes(1, self.OLD, small([("A", 0x200, 0x100)]), """
            bad|A|-|-|no CBFS
            change|-|-|-|erase blocks differ|1
            change|FMAP|-|0x0|erase blocks differ|1
            change|A|-|0x200|area moved from|0x100
            change|A|-|0x200|erase blocks differ|1
            change|A|a|0x0|component removed
            change|A|b|0x40|component removed
            not sound: 1 bad, 1 remarks, 6 changes
        """)

    def test_another_name(self):
        self.changes(1, self.OLD, small([("B", 0x100, 0x100)]), """
            change|-|-|-|erase blocks differ|1
            change|FMAP|-|0x0|erase blocks differ|1
            change|B|-|0x100|area added
            bad|A|-|0x100|area gone
            not sound: 1 bad, 1 remarks, 3 changes
        """)

    def test_an_area_that_did_not_begin_with_an_entry(self):
        self.changes(0, small([AREA_A], (0x108, A)), small([AREA_A]), """
            change|-|-|-|erase blocks differ|1
            change|A|-|0x100|erase blocks differ|1
            sound: 0 bad, 1 remarks, 2 changes
        """)

    def test_a_larger_area_that_was_not_checked(self):
        areas = [("OUTER", 0x100, 0x200), AREA_A]
        self.changes(1, small(areas, (0x100, A)), small(areas), """
            bad|A|-|-|no CBFS
            change|-|-|-|erase blocks differ|1
            change|OUTER|-|0x100|erase blocks differ|1
            change|A|-|0x100|erase blocks differ|1
            change|A|a|0x0|component removed
            not sound: 1 bad, 1 remarks, 4 changes
        """)


if __name__ == "__main__":
    unittest.main()
