"""Compares the reports before flashing, which --flash and --keep-preserved ask for.

Only with --flash the conclusion says whether the new image may be flashed over the old one.
"""

import unittest

from tests.findings import A, CheckTest, patched, report, small

KEPT = [("A", 0x100, 0x100, 8), ("B", 0x200, 0x100)]
NOT_KEPT = [("A", 0x100, 0x100), ("B", 0x200, 0x100)]


class BoardOfTheChip(CheckTest):
    """With --flash, the new image has to be one of the board of the old one, which is the chip."""

    OLD = small(KEPT, (0x100, A))

    def test_a_change_outside_the_kept_area(self):
        self.changes(0, self.OLD, patched(self.OLD, (0x210, b"x")), """
            change|-|-|-|erase blocks differ|1
            change|B|-|0x200|erase blocks differ|1
            may be flashed: 0 bad, 5 remarks, 2 changes
        """, "--flash")

    def test_a_change_of_the_kept_area(self):
        self.changes(1, self.OLD, patched(self.OLD, (0x131, b"x")), """
            change|-|-|-|erase blocks differ|1
            bad|A|-|0x100|erase blocks differ|1
            bad|A|a|0x0|content changed
            must not be flashed: 2 bad, 5 remarks, 1 changes
        """, "--flash")

    def test_another_base_address(self):
        new = patched(self.OLD, (11, b"\x10"))
        self.changes(1, self.OLD, new, """
            change|-|-|-|erase blocks differ|1
            bad|-|-|-|base address changed from|0x0
            change|FMAP|-|0x0|erase blocks differ|1
            must not be flashed: 1 bad, 5 remarks, 2 changes
        """, "--flash")
        self.changes(0, self.OLD, new, """
            change|-|-|-|erase blocks differ|1
            change|-|-|-|base address changed from|0x0
            change|FMAP|-|0x0|erase blocks differ|1
            sound: 0 bad, 5 remarks, 3 changes
        """, "--keep-preserved")

    def test_another_name(self):
        new = small(KEPT, (0x100, A), name=b"G")
        self.changes(1, self.OLD, new, """
            change|-|-|-|erase blocks differ|1
            bad|-|-|-|name of the flashmap changed
            change|FMAP|-|0x0|erase blocks differ|1
            must not be flashed: 1 bad, 5 remarks, 2 changes
        """, "--flash")

    def test_another_size(self):
        """No option is needed: flashrom writes no image of another size than the chip."""
        self.changes(1, self.OLD + b"\xff", self.OLD, """
            bad|-|-|-|image size changed from|0x401
            change|-|-|-|erase blocks differ|1
            not sound: 1 bad, 5 remarks, 1 changes
        """)


class NothingIsPreserved(CheckTest):
    """No area has the flag PRESERVE: --keep-preserved keeps nothing, and --flash alone neither."""

    OLD = small(NOT_KEPT, (0x100, A))
    ROWS = """
        remark|-|-|0x0|flashmap
        remark|A|-|0x40|unused tail
        remark|A|-|-|components|1
        remark|A|-|-|free bytes|0
        remark|A|-|-|no room for a component
    """

    def test_keep_preserved(self):
        self.reports_two(0, "--keep-preserved", """
            remark|-|-|-|no area has the flag PRESERVE
            sound: 0 bad, 6 remarks, 0 changes
        """)

    def test_flash(self):
        self.reports_two(1, "--flash", """
            bad|-|-|-|no area has the flag PRESERVE
            must not be flashed: 1 bad, 5 remarks, 0 changes
        """)

    def test_flash_with_a_name(self):
        self.reports_two(0, "--flash --keep=FMAP", """
            remark|-|-|-|no area has the flag PRESERVE
            may be flashed: 0 bad, 6 remarks, 0 changes
        """)

    def test_no_option(self):
        self.reports_two(0, "", """
            sound: 0 bad, 5 remarks, 0 changes
        """)

    def reports_two(self, status, options, text):
        """Checks the complete report of two equal images."""
        files = {"old.rom": self.OLD, "new.rom": self.OLD}
        expected = report(self.ROWS.strip("\n ") + "\n" + text.strip("\n "))
        self.check(f"cbfscheck old.rom new.rom {options}", files, status, expected)

    def test_a_flag_in_one_image(self):
        """An area that is preserved in one image only is kept."""
        kept = small(KEPT, (0x100, A))
        for old, new, flags in (kept, self.OLD, "0x8"), (self.OLD, kept, "0x0"):
            self.changes(1, old, new, f"""
                change|-|-|-|erase blocks differ|1
                change|FMAP|-|0x0|erase blocks differ|1
                bad|A|-|0x100|flags changed from|{flags}
                must not be flashed: 1 bad, 5 remarks, 2 changes
            """, "--flash")


if __name__ == "__main__":
    unittest.main()
