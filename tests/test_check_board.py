"""cbfscheck on a board that is broken, and which the tools of its maker would not notice.

COREBOOT has three components with a digest from its start on, and a bootblock that ends with it.
FW_MAIN_A has one component.
"""

import itertools
import unittest

from tests.findings import CheckTest, board, patched
from tests.image import (
    BOOTBLOCK, SHA256, Component, empty_region, hash_attribute, region,
)

AREAS = [("FMAP", 0, 0x4000), ("COREBOOT", 0x4000, 0x20000), ("FW_MAIN_A", 0x24000, 0x10000),
         ("X", 0x34000, 0xC000)]
CONTENT = b"".join(b"%d\n" % number for number in range(1, 2001))[:5000]
DIGEST = [hash_attribute(SHA256, CONTENT)]
# The entry of the bootblock is at 0x1ec40. Its content begins 56 bytes later, after a longer name
# field, and ends with the area.
NAME = b"bootblock".ljust(32, b"\0")
COREBOOT = {
    0: Component(b"a", CONTENT, attributes=DIGEST),
    0x1400: Component(b"b", CONTENT, attributes=DIGEST),
    0x2800: Component(b"c", CONTENT, attributes=DIGEST),
    0x1EC40: Component(b"bootblock", CONTENT, type=BOOTBLOCK, name_field=NAME),
}
BOARD = board(0x40000, AREAS, (0x4000, region(0x20000, COREBOOT)),
              (0x24000, region(0x10000, {0: Component(b"main", CONTENT)})))
BOOT = 0x4000 + 0x1EC40
NEED = "--need COREBOOT:bootblock@end"
BITS = [1, 2, 4, 8, 16, 32, 64, 128]


def flipped(at, mask):
    """Returns the board with these bits of a byte flipped."""
    return patched(BOARD, (at, bytes((BOARD[at] ^ mask,))))


class Board(CheckTest):
    def test_the_board_itself(self):
        for need in NEED, "--need COREBOOT:a,COREBOOT:bootblock":
            self.reports(0, BOARD, """
                remark|-|-|0x0|flashmap
                remark|COREBOOT|a|0x0|sha256 valid
                remark|COREBOOT|b|0x1400|sha256 valid
                remark|COREBOOT|c|0x2800|sha256 valid
                remark|COREBOOT|-|-|complete
                remark|COREBOOT|-|-|components|4
                remark|COREBOOT|-|-|free bytes|110656
                remark|COREBOOT|-|-|largest content that add takes|110628
                remark|FW_MAIN_A|-|-|complete
                remark|FW_MAIN_A|-|-|components|1
                remark|FW_MAIN_A|-|-|free bytes|60480
                remark|FW_MAIN_A|-|-|largest content that add takes|60448
                sound: 0 bad, 12 remarks, 0 changes
            """, need)

    def test_a_bit_of_the_first_magic(self):
        self.reports(1, flipped(0x4000, 1), """
            remark|-|-|0x0|flashmap
            bad|COREBOOT|-|-|no CBFS
            remark|FW_MAIN_A|-|-|complete
            remark|FW_MAIN_A|-|-|components|1
            remark|FW_MAIN_A|-|-|free bytes|60480
            remark|FW_MAIN_A|-|-|largest content that add takes|60448
            not sound: 1 bad, 5 remarks, 0 changes
        """)
        self.reports(1, flipped(0x4000, 1), """
            remark|-|-|0x0|flashmap
            bad|COREBOOT|-|-|no CBFS
            remark|FW_MAIN_A|-|-|complete
            remark|FW_MAIN_A|-|-|components|1
            remark|FW_MAIN_A|-|-|free bytes|60480
            remark|FW_MAIN_A|-|-|largest content that add takes|60448
            bad|COREBOOT|bootblock|-|needed component isn't there
            not sound: 2 bad, 5 remarks, 0 changes
        """, NEED)

    def test_each_bit_of_a_magic_in_the_middle(self):
        """The entries after it are in the unused tail."""
        for at, bit in itertools.product(range(8), BITS):
            with self.subTest(at, bit=bit):
                self.reports(1, flipped(0x5400 + at, bit), """
                    remark|-|-|0x0|flashmap
                    remark|COREBOOT|a|0x0|sha256 valid
                    remark|COREBOOT|-|0x1400|unused tail
                    bad|COREBOOT|-|0x1400|unused tail has other bytes than 0xff and 0x00
                    bad|COREBOOT|-|0x2800|entry in the unused tail
                    bad|COREBOOT|-|0x3c00|entry in the unused tail
                    bad|COREBOOT|-|0x1ec40|entry in the unused tail
                    remark|COREBOOT|-|-|components|1
                    remark|COREBOOT|-|-|free bytes|0
                    remark|COREBOOT|-|-|no room for a component
                    remark|FW_MAIN_A|-|-|complete
                    remark|FW_MAIN_A|-|-|components|1
                    remark|FW_MAIN_A|-|-|free bytes|60480
                    remark|FW_MAIN_A|-|-|largest content that add takes|60448
                    not sound: 4 bad, 10 remarks, 0 changes
                """)

    def test_a_bit_of_the_last_magic(self):
        self.reports(1, flipped(BOOT + 7, 128), """
            remark|-|-|0x0|flashmap
            remark|COREBOOT|a|0x0|sha256 valid
            remark|COREBOOT|b|0x1400|sha256 valid
            remark|COREBOOT|c|0x2800|sha256 valid
            remark|COREBOOT|-|0x1ec40|unused tail
            bad|COREBOOT|-|0x1ec40|unused tail has other bytes than 0xff and 0x00
            remark|COREBOOT|-|-|components|3
            remark|COREBOOT|-|-|free bytes|110656
            remark|COREBOOT|-|-|largest content that add takes|110628
            remark|FW_MAIN_A|-|-|complete
            remark|FW_MAIN_A|-|-|components|1
            remark|FW_MAIN_A|-|-|free bytes|60480
            remark|FW_MAIN_A|-|-|largest content that add takes|60448
            not sound: 1 bad, 12 remarks, 0 changes
        """)

    def test_an_erased_bootblock(self):
        """Only a need shows it."""
        image = patched(BOARD, (BOOT, b"\xff" * 0x13C0))
        self.reports(0, image, """
            remark|-|-|0x0|flashmap
            remark|COREBOOT|a|0x0|sha256 valid
            remark|COREBOOT|b|0x1400|sha256 valid
            remark|COREBOOT|c|0x2800|sha256 valid
            remark|COREBOOT|-|0x1ec40|unused tail
            remark|COREBOOT|-|-|components|3
            remark|COREBOOT|-|-|free bytes|110656
            remark|COREBOOT|-|-|largest content that add takes|110628
            remark|FW_MAIN_A|-|-|complete
            remark|FW_MAIN_A|-|-|components|1
            remark|FW_MAIN_A|-|-|free bytes|60480
            remark|FW_MAIN_A|-|-|largest content that add takes|60448
            sound: 0 bad, 12 remarks, 0 changes
        """)
        self.reports(1, image, """
            remark|-|-|0x0|flashmap
            remark|COREBOOT|a|0x0|sha256 valid
            remark|COREBOOT|b|0x1400|sha256 valid
            remark|COREBOOT|c|0x2800|sha256 valid
            remark|COREBOOT|-|0x1ec40|unused tail
            remark|COREBOOT|-|-|components|3
            remark|COREBOOT|-|-|free bytes|110656
            remark|COREBOOT|-|-|largest content that add takes|110628
            remark|FW_MAIN_A|-|-|complete
            remark|FW_MAIN_A|-|-|components|1
            remark|FW_MAIN_A|-|-|free bytes|60480
            remark|FW_MAIN_A|-|-|largest content that add takes|60448
            bad|COREBOOT|bootblock|-|needed component isn't there
            not sound: 1 bad, 12 remarks, 0 changes
        """, NEED)

    def test_COREBOOT_erased_or_shifted(self):
        """Blocks 0 to 3 of COREBOOT and the last two differ; the others are 0xff."""
        erased = patched(BOARD, (0x4000, b"\xff" * 0x20000))
        shifted = patched(BOARD, (0x4000, b"\xff" * 64 + BOARD[0x4000:0x23FC0]))
        for image in erased, shifted:
            self.reports(1, image, """
                remark|-|-|0x0|flashmap
                bad|COREBOOT|-|-|no CBFS
                remark|FW_MAIN_A|-|-|complete
                remark|FW_MAIN_A|-|-|components|1
                remark|FW_MAIN_A|-|-|free bytes|60480
                remark|FW_MAIN_A|-|-|largest content that add takes|60448
                not sound: 1 bad, 5 remarks, 0 changes
            """)
            self.changes(1, BOARD, image, """
                bad|COREBOOT|-|-|no CBFS
                change|-|-|-|erase blocks differ|6
                change|COREBOOT|-|0x4000|erase blocks differ|6
                change|COREBOOT|a|0x0|component removed
                change|COREBOOT|b|0x1400|component removed
                change|COREBOOT|c|0x2800|component removed
                change|COREBOOT|bootblock|0x1ec40|component removed
                not sound: 1 bad, 5 remarks, 6 changes
            """)

    def test_FW_MAIN_A_erased(self):
        """Only the old image shows that it was a CBFS."""
        image = patched(BOARD, (0x24000, b"\xff" * 0x10000))
        self.reports(0, image, """
            remark|-|-|0x0|flashmap
            remark|COREBOOT|a|0x0|sha256 valid
            remark|COREBOOT|b|0x1400|sha256 valid
            remark|COREBOOT|c|0x2800|sha256 valid
            remark|COREBOOT|-|-|complete
            remark|COREBOOT|-|-|components|4
            remark|COREBOOT|-|-|free bytes|110656
            remark|COREBOOT|-|-|largest content that add takes|110628
            sound: 0 bad, 8 remarks, 0 changes
        """)
        self.changes(1, BOARD, image, """
            bad|FW_MAIN_A|-|-|no CBFS
            change|-|-|-|erase blocks differ|2
            change|FW_MAIN_A|-|0x24000|erase blocks differ|2
            change|FW_MAIN_A|main|0x0|component removed
            not sound: 1 bad, 8 remarks, 3 changes
        """)

    def test_no_component(self):
        image = board(0x40000, AREAS, (0x4000, empty_region(0x20000)))
        self.reports(0, image, """
            remark|-|-|0x0|flashmap
            remark|COREBOOT|-|-|complete
            remark|COREBOOT|-|-|no components
            remark|COREBOOT|-|-|free bytes|131072
            remark|COREBOOT|-|-|largest content that add takes|131040
            sound: 0 bad, 5 remarks, 0 changes
        """)
        self.reports(1, image, """
            remark|-|-|0x0|flashmap
            remark|COREBOOT|-|-|complete
            remark|COREBOOT|-|-|no components
            remark|COREBOOT|-|-|free bytes|131072
            remark|COREBOOT|-|-|largest content that add takes|131040
            bad|COREBOOT|bootblock|-|needed component isn't there
            not sound: 1 bad, 5 remarks, 0 changes
        """, NEED)

    def test_a_bit_of_the_name_of_the_bootblock(self):
        self.reports(1, flipped(BOOT + 24, 1), """
            remark|-|-|0x0|flashmap
            remark|COREBOOT|a|0x0|sha256 valid
            remark|COREBOOT|b|0x1400|sha256 valid
            remark|COREBOOT|c|0x2800|sha256 valid
            remark|COREBOOT|-|-|complete
            remark|COREBOOT|-|-|components|4
            remark|COREBOOT|-|-|free bytes|110656
            remark|COREBOOT|-|-|largest content that add takes|110628
            remark|FW_MAIN_A|-|-|complete
            remark|FW_MAIN_A|-|-|components|1
            remark|FW_MAIN_A|-|-|free bytes|60480
            remark|FW_MAIN_A|-|-|largest content that add takes|60448
            bad|COREBOOT|bootblock|-|needed component isn't there
            not sound: 1 bad, 12 remarks, 0 changes
        """, NEED)

    def test_a_bit_of_the_type_so_that_it_has_no_name(self):
        self.reports(0, flipped(BOOT + 15, 128), """
            remark|-|-|0x0|flashmap
            remark|COREBOOT|a|0x0|sha256 valid
            remark|COREBOOT|b|0x1400|sha256 valid
            remark|COREBOOT|c|0x2800|sha256 valid
            remark|COREBOOT|bootblock|0x1ec40|type without a name|0x81
            remark|COREBOOT|-|-|complete
            remark|COREBOOT|-|-|components|4
            remark|COREBOOT|-|-|free bytes|110656
            remark|COREBOOT|-|-|largest content that add takes|110628
            remark|FW_MAIN_A|-|-|complete
            remark|FW_MAIN_A|-|-|components|1
            remark|FW_MAIN_A|-|-|free bytes|60480
            remark|FW_MAIN_A|-|-|largest content that add takes|60448
            sound: 0 bad, 13 remarks, 0 changes
        """, NEED)

    def test_a_bit_of_the_type_so_that_the_bootblock_is_deleted(self):
        self.reports(1, flipped(BOOT + 15, 1), """
            remark|-|-|0x0|flashmap
            remark|COREBOOT|a|0x0|sha256 valid
            remark|COREBOOT|b|0x1400|sha256 valid
            remark|COREBOOT|c|0x2800|sha256 valid
            remark|COREBOOT|-|0x1ec40|deleted component
            remark|COREBOOT|-|-|complete
            remark|COREBOOT|-|-|components|3
            remark|COREBOOT|-|-|free bytes|115712
            remark|COREBOOT|-|-|largest content that add takes|115680
            remark|FW_MAIN_A|-|-|complete
            remark|FW_MAIN_A|-|-|components|1
            remark|FW_MAIN_A|-|-|free bytes|60480
            remark|FW_MAIN_A|-|-|largest content that add takes|60448
            bad|COREBOOT|bootblock|-|needed component isn't there
            not sound: 1 bad, 13 remarks, 0 changes
        """, NEED)

    def test_a_bootblock_at_another_place(self):
        moved = {**COREBOOT, 0x3C00: Component(b"bootblock", CONTENT, type=BOOTBLOCK)}
        del moved[0x1EC40]
        self.reports(1, patched(BOARD, (0x4000, region(0x20000, moved))), """
            remark|-|-|0x0|flashmap
            remark|COREBOOT|a|0x0|sha256 valid
            remark|COREBOOT|b|0x1400|sha256 valid
            remark|COREBOOT|c|0x2800|sha256 valid
            remark|COREBOOT|-|-|complete
            remark|COREBOOT|-|-|components|4
            remark|COREBOOT|-|-|free bytes|110656
            remark|COREBOOT|-|-|largest content that add takes|110624
            remark|FW_MAIN_A|-|-|complete
            remark|FW_MAIN_A|-|-|components|1
            remark|FW_MAIN_A|-|-|free bytes|60480
            remark|FW_MAIN_A|-|-|largest content that add takes|60448
            bad|COREBOOT|bootblock|0x3c24|needed component is elsewhere
            not sound: 1 bad, 12 remarks, 0 changes
        """, NEED)

    def test_a_byte_of_a_stored_digest(self):
        """The attribute of `b` is 28 bytes after its entry, and the digest 12 bytes after that."""
        self.reports(1, flipped(0x5400 + 28 + 12, 255), """
            remark|-|-|0x0|flashmap
            remark|COREBOOT|a|0x0|sha256 valid
            bad|COREBOOT|b|0x1400|sha256 invalid
            remark|COREBOOT|c|0x2800|sha256 valid
            remark|COREBOOT|-|-|complete
            remark|COREBOOT|-|-|components|4
            remark|COREBOOT|-|-|free bytes|110656
            remark|COREBOOT|-|-|largest content that add takes|110628
            remark|FW_MAIN_A|-|-|complete
            remark|FW_MAIN_A|-|-|components|1
            remark|FW_MAIN_A|-|-|free bytes|60480
            remark|FW_MAIN_A|-|-|largest content that add takes|60448
            not sound: 1 bad, 11 remarks, 0 changes
        """, NEED)

    def test_a_bit_of_the_number_of_areas(self):
        """The map then has 256 further areas, all of whose bytes are 0xff."""
        name = r"\xff" * 32
        rows = [f"bad|{name}|-|0xffffffff|ends outside the image",
                f"remark|{name}|-|0xffffffff|name isn't UTF-8"] * 16
        rows += [f"bad|{name}|-|0xffffffff|has the name of an earlier area|{name}"] * 16
        self.reports(1, flipped(55, 1), "\n".join(["remark|-|-|0x0|flashmap", *rows, """
            remark|COREBOOT|a|0x0|sha256 valid
            remark|COREBOOT|b|0x1400|sha256 valid
            remark|COREBOOT|c|0x2800|sha256 valid
            remark|COREBOOT|-|-|complete
            remark|COREBOOT|-|-|components|4
            remark|COREBOOT|-|-|free bytes|110656
            remark|COREBOOT|-|-|largest content that add takes|110628
            remark|FW_MAIN_A|-|-|complete
            remark|FW_MAIN_A|-|-|components|1
            remark|FW_MAIN_A|-|-|free bytes|60480
            remark|FW_MAIN_A|-|-|largest content that add takes|60448
            bad|-|-|-|more of these|240
            remark|-|-|-|more of these|240
            bad|-|-|-|more of these|239
            not sound: 511 bad, 268 remarks, 0 changes
        """.strip()]))


if __name__ == "__main__":
    unittest.main()
