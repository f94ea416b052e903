"""Compares reports of two images, of which the new one lacks a structure of the board."""

import unittest

from tests.findings import CheckTest, patched
from tests.image import Component, region
from tests.structured_board import (
    BOARD, BODY, BOOTBLOCK_SIZE, HEADER_AT, PLACES, REGIONS, board, signed_block, with_table,
    without,
)
from tests.structures import (
    UNUSED_REGION, bootblock, bootblock_component, descriptor, header_component, header_pointer,
    master_header, microcode,
)

OFFSET, SIZE = PLACES["COREBOOT"]
# The components of COREBOOT: a master header at its start, and a bootblock at its end.
HEADER = header_component(master_header(OFFSET + SIZE, OFFSET))
BOOT_AT = SIZE - BOOTBLOCK_SIZE - 64
BOOT = Component(b"bootblock", bootblock(BOOTBLOCK_SIZE,
                                         header_pointer=header_pointer(HEADER_AT, SIZE)),
                 type=bootblock_component(b"").type, gap=28)


def erased(name):
    """Returns the board with an area of 0xff."""
    return board(**{name: b"\xff" * PLACES[name][1]})


class Lost(CheckTest):
    """A structure that OLD has and NEW has not is bad, whether its area is blank or gone."""

    def test_the_flash_descriptor(self):
        self.changes(1, BOARD, erased("SI_DESC"), """
            change|-|-|-|erase blocks differ|1
            bad|SI_DESC|-|-|flash descriptor is gone
            change|SI_DESC|-|0x0|erase blocks differ|1
            not sound: 1 bad, 20 remarks, 2 changes
        """)

    def test_a_region_of_the_flash_descriptor(self):
        used = descriptor([REGIONS[0], REGIONS[1], *7 * [UNUSED_REGION]])
        self.changes(1, BOARD, board(SI_DESC=used), """
            change|-|-|-|erase blocks differ|1
            bad|SI_ME|-|-|region of the flash descriptor is unused now
            change|SI_DESC|-|0x0|erase blocks differ|1
            not sound: 1 bad, 20 remarks, 2 changes
        """)

    def test_the_partition_table(self):
        self.changes(1, BOARD, erased("SI_ME"), """
            change|-|-|-|erase blocks differ|1
            bad|SI_ME|-|-|partition table of the ME is gone
            change|SI_ME|-|0x1000|erase blocks differ|1
            not sound: 1 bad, 20 remarks, 2 changes
        """)

    def test_the_bootblock(self):
        self.changes(1, BOARD, board(COREBOOT=region(SIZE, {0: HEADER})), """
            change|-|-|-|erase blocks differ|2
            bad|COREBOOT|-|-|no bootblock ends the image any more
            change|COREBOOT|-|0xd000|erase blocks differ|2
            change|COREBOOT|bootblock|0x6bc0|component removed
            not sound: 1 bad, 19 remarks, 3 changes
        """)

    def test_the_firmware_interface_table(self):
        old, new = with_table(microcode(96)), with_table(microcode(96), pointer=0)
        self.changes(1, old, new, """
            change|-|-|-|erase blocks differ|1
            bad|COREBOOT|-|-|firmware interface table is gone
            change|COREBOOT|-|0xd000|erase blocks differ|1
            change|COREBOOT|bootblock|0x6bc0|content changed
            not sound: 1 bad, 20 remarks, 3 changes
        """)

    def test_the_master_header(self):
        parts = {0: Component(b"a", b"a"), BOOT_AT: BOOT}
        self.changes(1, BOARD, board(COREBOOT=region(SIZE, parts)), r"""
            change|-|-|-|erase blocks differ|1
            bad|COREBOOT|-|-|master header is gone
            change|COREBOOT|-|0xd000|erase blocks differ|1
            change|COREBOOT|a|0x0|component added
            change|COREBOOT|cbfs\x20master\x20header|0x0|component removed
            not sound: 1 bad, 19 remarks, 4 changes
        """)

    def test_the_gbb(self):
        self.changes(1, BOARD, erased("GBB"), """
            change|-|-|-|erase blocks differ|3
            bad|GBB|-|-|GBB is gone
            change|GBB|-|0x3000|erase blocks differ|3
            not sound: 1 bad, 20 remarks, 2 changes
        """)

    def test_an_area_that_is_gone(self):
        self.changes(1, BOARD, board(without("GBB")), """
            change|-|-|-|erase blocks differ|4
            bad|GBB|-|-|GBB is gone
            change|SI_BIOS|-|0x3000|erase blocks differ|3
            change|FMAP|-|0xc000|erase blocks differ|1
            change|GBB|-|0x3000|area gone
            not sound: 1 bad, 19 remarks, 4 changes
        """)

    def test_the_signatures_of_each_slot(self):
        for name, start, old in [("VBLOCK_A", "0x6000", BOARD),
                                 ("VBLOCK_B", "0x9000", board(VBLOCK_B=signed_block()))]:
            new = erased("VBLOCK_A") if name == "VBLOCK_A" else BOARD
            self.changes(1, old, new, f"""
                change|-|-|-|erase blocks differ|1
                bad|{name}|-|-|signatures of the slot are gone
                change|{name}|-|{start}|erase blocks differ|1
                not sound: 1 bad, 20 remarks, 2 changes
            """)


class NotLost(CheckTest):
    """What NEW has is not lost, and neither is what OLD lacks."""

    def test_the_same_board(self):
        self.changes(0, BOARD, BOARD, "sound: 0 bad, 20 remarks, 0 changes")

    def test_a_structure_that_only_the_new_image_has(self):
        self.changes(0, erased("GBB"), BOARD, """
            change|-|-|-|erase blocks differ|3
            change|GBB|-|0x3000|erase blocks differ|3
            sound: 0 bad, 20 remarks, 2 changes
        """)

    def test_a_structure_that_is_broken_now(self):
        """It has a row of its own, and is not reported as lost too."""
        self.changes(1, BOARD, board(GBB=b"x"), """
            bad|GBB|-|-|no GBB
            change|-|-|-|erase blocks differ|3
            change|GBB|-|0x3000|erase blocks differ|3
            not sound: 1 bad, 19 remarks, 2 changes
        """)


# A byte of a body's free space, and how many bytes of the body are signed up to it.
BYTE_AT = 0x300
SIGNED_WITH_IT, SIGNED_WITHOUT_IT = BYTE_AT + 1, BYTE_AT


def with_byte(slot, signed, **parts):
    """Returns the board with another byte in a slot, and with signatures of so many bytes."""
    body = patched(BODY, (BYTE_AT, b"\0"))
    return board(**{f"FW_MAIN_{slot}": body, f"VBLOCK_{slot}": signed_block(signed), **parts})


class Outdated(CheckTest):
    """A slot is bad if its signed bytes change, and its signatures stay."""

    def test_a_signed_byte_of_each_slot(self):
        for slot, start in ("A", "0x8000"), ("B", "0xb000"):
            old = board(**{f"VBLOCK_{slot}": signed_block(SIGNED_WITH_IT)})
            with self.subTest(slot):
                self.changes(1, old, with_byte(slot, SIGNED_WITH_IT), f"""
                    change|-|-|-|erase blocks differ|1
                    bad|VBLOCK_{slot}|-|-|signed bytes changed, but not the signatures
                    change|FW_MAIN_{slot}|-|{start}|erase blocks differ|1
                    not sound: 1 bad, 20 remarks, 2 changes
                """)

    def test_the_first_byte_that_is_not_signed(self):
        old = board(VBLOCK_A=signed_block(SIGNED_WITHOUT_IT))
        self.changes(0, old, with_byte("A", SIGNED_WITHOUT_IT), """
            change|-|-|-|erase blocks differ|1
            change|FW_MAIN_A|-|0x8000|erase blocks differ|1
            sound: 0 bad, 20 remarks, 2 changes
        """)

    def test_other_signatures(self):
        """They may be right: signatures of RSA are not computed."""
        old = board(VBLOCK_A=signed_block(SIGNED_WITH_IT + 1))
        self.changes(0, old, with_byte("A", SIGNED_WITH_IT), """
            change|-|-|-|erase blocks differ|2
            change|VBLOCK_A|-|0x6000|erase blocks differ|1
            change|FW_MAIN_A|-|0x8000|erase blocks differ|1
            sound: 0 bad, 20 remarks, 3 changes
        """)

    def test_a_body_without_a_signed_length(self):
        old = board(VBLOCK_A=signed_block(0))
        self.changes(0, old, with_byte("A", 0), """
            change|-|-|-|erase blocks differ|1
            change|FW_MAIN_A|-|0x8000|erase blocks differ|1
            sound: 0 bad, 20 remarks, 2 changes
        """)

    def test_an_old_image_without_a_map(self):
        """Its bytes are compared at the places of the new map."""
        old = patched(board(VBLOCK_A=signed_block(SIGNED_WITH_IT)), (PLACES["FMAP"][0], b"X"))
        self.changes(1, old, with_byte("A", SIGNED_WITH_IT), """
            change|-|-|-|erase blocks differ|2
            change|-|-|-|the old image has no flashmap
            bad|VBLOCK_A|-|-|signed bytes changed, but not the signatures
            change|FW_MAIN_A|-|0x8000|erase blocks differ|1
            change|FMAP|-|0xc000|erase blocks differ|1
            not sound: 1 bad, 20 remarks, 4 changes
        """)

    def test_an_old_image_without_the_area(self):
        old = board(without("FW_MAIN_A"), VBLOCK_A=signed_block(SIGNED_WITH_IT))
        self.changes(0, old, with_byte("A", SIGNED_WITH_IT), """
            change|-|-|-|erase blocks differ|2
            change|SI_BIOS|-|0x3000|erase blocks differ|1
            change|FW_MAIN_A|-|0x8000|area added
            change|FMAP|-|0xc000|erase blocks differ|1
            sound: 0 bad, 20 remarks, 4 changes
        """)


if __name__ == "__main__":
    unittest.main()
