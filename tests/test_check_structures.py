"""cbfscheck: rows of the structures that a board boots from beside CBFS.

Each test changes one structure of the board of tests/structured_board.py, and compares the complete
report.
"""

import hashlib
import struct
import unittest

from tests.findings import CheckTest, conclusion, patched, report
from tests.image import Component, region
from tests.structured_board import (
    BODY_END, BOARD, BOOTBLOCK_SIZE, DESCRIPTOR, HARDWARE_ID, HEADER_AT, KEY, PLACES, REGIONS,
    SIGNATURE, SIZE, TABLE_PLACE, UPDATE_PLACE, board, coreboot, signed_block, sound_gbb,
    with_table, without,
)
from tests.structures import (
    UNUSED_REGION, address, bootblock, descriptor, descriptor_region, fit_entry, fit_table,
    header_component, header_pointer, keyblock, master_header, microcode, partition_table,
)

# The rows of the flash map and of the regions.
FILES = """
    remark|-|-|0xc000|flashmap
    remark|FW_MAIN_A|-|-|complete
    remark|FW_MAIN_A|-|-|components|1
    remark|FW_MAIN_A|-|-|free bytes|3904
    remark|FW_MAIN_A|-|-|largest content that add takes|3872
    remark|FW_MAIN_B|-|-|complete
    remark|FW_MAIN_B|-|-|components|1
    remark|FW_MAIN_B|-|-|free bytes|3904
    remark|FW_MAIN_B|-|-|largest content that add takes|3872
    remark|COREBOOT|-|-|complete
    remark|COREBOOT|-|-|components|2
    remark|COREBOOT|-|-|free bytes|27456
    remark|COREBOOT|-|-|largest content that add takes|27428
"""

# The rows of the structures of the board, by their names in the tests.
SOUND = {
    "descriptor": "remark|SI_DESC|-|-|flash descriptor",
    "regions": "",
    "table": "remark|SI_ME|-|-|partition table of the ME",
    "vector": "remark|COREBOOT|-|-|reset vector",
    "firmware": "",
    "header": "remark|COREBOOT|-|-|master header",
    "gbb": "remark|GBB|-|-|GBB",
    "slot_a": "remark|VBLOCK_A|-|-|signed slot",
    "slot_b": "remark|VBLOCK_B|-|-|blank: no signatures",
}


def lines_of(text):
    """Returns the lines of a text that are not blank, without blanks at their starts."""
    return [line.strip() for line in text.splitlines() if line.strip()]


class StructureTest(CheckTest):
    """A test that compares the report of a board, in which one structure has another row."""

    def finds(self, image, files=FILES, **rows):
        """Checks the complete report: the rows of all structures, some of which are others."""
        lines = lines_of(files)
        for row in {**SOUND, **rows}.values():
            lines += lines_of(row)
        bad = sum(line.startswith("bad|") for line in lines)
        lines.append(conclusion(bad, len(lines) - bad, 0))
        self.reports(1 if bad else 0, image, "\n".join(lines))


class Boards(CheckTest):
    """Complete reports, written out."""

    def test_a_sound_board(self):
        self.reports(0, BOARD, """
            remark|-|-|0xc000|flashmap
            remark|FW_MAIN_A|-|-|complete
            remark|FW_MAIN_A|-|-|components|1
            remark|FW_MAIN_A|-|-|free bytes|3904
            remark|FW_MAIN_A|-|-|largest content that add takes|3872
            remark|FW_MAIN_B|-|-|complete
            remark|FW_MAIN_B|-|-|components|1
            remark|FW_MAIN_B|-|-|free bytes|3904
            remark|FW_MAIN_B|-|-|largest content that add takes|3872
            remark|COREBOOT|-|-|complete
            remark|COREBOOT|-|-|components|2
            remark|COREBOOT|-|-|free bytes|27456
            remark|COREBOOT|-|-|largest content that add takes|27428
            remark|SI_DESC|-|-|flash descriptor
            remark|SI_ME|-|-|partition table of the ME
            remark|COREBOOT|-|-|reset vector
            remark|COREBOOT|-|-|master header
            remark|GBB|-|-|GBB
            remark|VBLOCK_A|-|-|signed slot
            remark|VBLOCK_B|-|-|blank: no signatures
            sound: 0 bad, 20 remarks, 0 changes
        """)

    def test_a_needed_component_and_changes_stand_around_the_structures(self):
        """Two images that differ in the flags of the GBB only."""
        new = board(GBB=sound_gbb(flags=0x39))
        folder = self.folder({"old.rom": BOARD, "new.rom": new})
        done = folder.run("cbfscheck old.rom new.rom --need COREBOOT:x")
        lines = done.output.splitlines(keepends=True)
        done.output = b"".join(lines[13:])
        self.compare_run(folder, done, 1, report("""
            bad|COREBOOT|x|-|needed component isn't there
            remark|SI_DESC|-|-|flash descriptor
            remark|SI_ME|-|-|partition table of the ME
            remark|COREBOOT|-|-|reset vector
            remark|COREBOOT|-|-|master header
            remark|GBB|-|-|flags weaken the verification|0x39
            remark|VBLOCK_A|-|-|signed slot
            remark|VBLOCK_B|-|-|blank: no signatures
            change|-|-|-|erase blocks differ|1
            change|GBB|-|0x3000|erase blocks differ|1
            not sound: 1 bad, 20 remarks, 2 changes
        """))


class Intel(StructureTest):
    def test_a_descriptor_at_16_and_at_0(self):
        older = descriptor(REGIONS, table=0x50)[16:].ljust(0x1000, b"\xff")
        self.finds(board(SI_DESC=older))
        for shift in (1, 15, 17):
            moved = (b"\xff" * shift + older)[:0x1000]
            with self.subTest(shift):
                self.finds(board(SI_DESC=moved),
                           descriptor="bad|SI_DESC|-|-|no flash descriptor")

    def test_a_blank_descriptor(self):
        self.finds(board(SI_DESC=None),
                   descriptor="remark|SI_DESC|-|-|blank: no flash descriptor")
        for byte in (b"\0", b"\xfe"):
            self.finds(board(SI_DESC=b"\xff" * 0xFFF + byte),
                       descriptor="bad|SI_DESC|-|-|no flash descriptor")
        self.finds(board(SI_DESC=bytes(0x1000)),
                   descriptor="bad|SI_DESC|-|-|no flash descriptor")

    def test_a_descriptor_in_a_small_area(self):
        areas = [("SI_DESC", 0, 0xFFF), *without("SI_DESC")]
        self.finds(board(areas),
                   descriptor="bad|SI_DESC|-|-|flash descriptor has less than 4096 bytes")

    def test_a_table_at_the_end_of_the_descriptor(self):
        """The table has 36 bytes for the regions 0 to 8."""
        place = 0x10 + 4 + 2
        last = bytearray(DESCRIPTOR)
        last[place] = 0xFD
        last[0xFD0 : 0xFD0 + 36] = struct.pack("<9I", *REGIONS)
        self.finds(board(SI_DESC=bytes(last)))
        last[place] = 0xFE
        self.finds(board(SI_DESC=bytes(last)), descriptor="""
            bad|SI_DESC|-|-|table of regions ends outside the flash descriptor
        """)

    def test_areas_that_are_not_their_regions(self):
        """A region that begins or ends 4 KiB earlier or later than its area."""
        for index, name, offset, size in [
            (1, "SI_BIOS", 0x3000, 0x11000), (2, "SI_ME", 0x1000, 0x2000),
        ]:
            for start, length in [(offset + 0x1000, size), (offset, size - 0x1000),
                                  (offset, size + 0x1000)]:
                regions = list(REGIONS)
                regions[index] = descriptor_region(start, length)
                row = f"bad|{name}|-|{hex(offset)}|isn't the region of the flash descriptor"
                with self.subTest(name, start=start, length=length):
                    self.finds(board(SI_DESC=descriptor(regions)), regions=row)

    def test_all_differences_in_the_order_of_the_table(self):
        regions = [descriptor_region(0, 0x2000), descriptor_region(0, 0x1000),
                   descriptor_region(0x3000, 0x1000), *6 * [UNUSED_REGION]]
        self.finds(board(SI_DESC=descriptor(regions)), regions="""
            bad|SI_DESC|-|0x0|isn't the region of the flash descriptor
            bad|SI_BIOS|-|0x3000|isn't the region of the flash descriptor
            bad|SI_ME|-|0x1000|isn't the region of the flash descriptor
        """)

    def test_regions_without_an_area_and_unused_regions(self):
        regions = list(REGIONS)
        regions[3] = descriptor_region(0x2000, 0x1000)
        self.finds(board(SI_DESC=descriptor(regions)))
        regions[1] = UNUSED_REGION
        self.finds(board(SI_DESC=descriptor(regions)))

    def test_the_partition_table(self):
        self.finds(board(SI_ME=partition_table(start=b"")))
        for start in (b"\xff", b"\xff" * 15, b"\xff" * 17):
            self.finds(board(SI_ME=partition_table(start=start)),
                       table="bad|SI_ME|-|-|no partition table of the ME")
        self.finds(board(SI_ME=None), table="remark|SI_ME|-|-|blank: no partition table of the ME")
        self.finds(board(SI_ME=bytes(0x2000)), table="bad|SI_ME|-|-|no partition table of the ME")

    def test_without_the_areas(self):
        self.finds(board(without("SI_DESC", "SI_ME")), descriptor="", table="")

    def test_an_area_outside_the_image(self):
        """A structure in an area that ends one byte outside the image has no row."""
        region_row = "bad|SI_ME|-|0x14000|isn't the region of the flash descriptor"
        for size, row, table in [
            (0, "remark|SI_ME|-|0x14000|has no bytes",
             "remark|SI_ME|-|-|blank: no partition table of the ME"),
            (1, "bad|SI_ME|-|0x14000|ends outside the image", ""),
        ]:
            areas = [*without("SI_ME"), ("SI_ME", SIZE, size)]
            files = FILES.replace("|flashmap\n", f"|flashmap\n{row}\n")
            with self.subTest(size):
                self.finds(board(areas, SI_ME=None), files, table=table, regions=region_row)

# The rows of the flash map and of the regions, if COREBOOT has the component with the table too.
FILES_WITH_TABLE = FILES.replace("components|2", "components|3").replace(
    "free bytes|27456", "free bytes|23296").replace("add takes|27428", "add takes|23268")


class FirmwareTables(StructureTest):
    """Intel's firmware interface table, and the updates of the microcode."""

    SOUND = "remark|COREBOOT|-|-|firmware interface table"

    def finds_table(self, image, row):
        self.finds(image, FILES_WITH_TABLE, firmware=row)

    def entries(self, *entries, **fields):
        """Returns the board with these entries, and a sound update at the usual place."""
        return with_table(microcode(96), fit_table(list(entries), **fields))

    def update(self, at=UPDATE_PLACE, **fields):
        """Returns the entry of an update at this place of the image."""
        return fit_entry(address(at, SIZE), **fields)

    def test_a_sound_update(self):
        self.finds_table(with_table(microcode(96)), self.SOUND)

    def test_an_update_that_states_no_length_has_2048_bytes(self):
        self.finds_table(with_table(microcode(2048, stated=0)), self.SOUND)
        self.finds_table(with_table(microcode(2052, stated=0)),
                         "bad|COREBOOT|-|-|microcode has another sum than 0|0x1")

    def test_an_empty_slot(self):
        self.finds_table(with_table(b"\xff" * 4), self.SOUND)
        self.finds_table(with_table(b"\xff" * 3),
                         "bad|COREBOOT|-|-|microcode has another version than 1|0x1")

    def test_an_entry_that_is_not_used(self):
        self.finds_table(self.entries(fit_entry(0xFFFFFFFF), self.update()), self.SOUND)
        self.finds_table(self.entries(fit_entry(0xFFFFFFFE)),
                         "bad|COREBOOT|-|-|microcode is at no multiple of 16|0x1")

    def test_the_sum(self):
        for wrong in 1, 0xFFFFFFFF, 1 << 16:
            self.finds_table(with_table(microcode(96, sum_is=wrong)),
                             "bad|COREBOOT|-|-|microcode has another sum than 0|0x1")

    def test_the_version(self):
        for version in 0, 2, 0x100:
            self.finds_table(with_table(microcode(96, version=version)),
                             "bad|COREBOOT|-|-|microcode has another version than 1|0x1")

    def test_the_length(self):
        self.finds_table(with_table(microcode(96, stated=94)),
                         "bad|COREBOOT|-|-|microcode has another sum than 0|0x1")
        left = SIZE - UPDATE_PLACE
        self.finds_table(with_table(microcode(96, stated=left + 4)),
                         "bad|COREBOOT|-|-|microcode has a wrong length|0x1")

    def test_the_place_of_an_update(self):
        self.finds_table(self.entries(self.update(UPDATE_PLACE + 8)),
                         "bad|COREBOOT|-|-|microcode is at no multiple of 16|0x1")
        for place in -16, SIZE:
            self.finds_table(self.entries(self.update(place)),
                             "bad|COREBOOT|-|-|microcode lies outside the image|0x1")
        self.finds_table(self.entries(self.update(SIZE - 32)),
                         "bad|COREBOOT|-|-|microcode ends outside the image|0x1")

    def test_the_first_broken_entry_has_its_number(self):
        sound, moved = self.update(), self.update(UPDATE_PLACE + 8)
        self.finds_table(self.entries(sound, sound, moved, moved),
                         "bad|COREBOOT|-|-|microcode is at no multiple of 16|0x3")

    def test_entries_of_other_types(self):
        moved = self.update(UPDATE_PLACE + 8, type=2)
        self.finds_table(self.entries(moved), self.SOUND)
        # (the highest bit of the type's byte is no part of it)
        self.finds_table(self.entries(self.update(UPDATE_PLACE + 8, type=0x81)),
                         "bad|COREBOOT|-|-|microcode is at no multiple of 16|0x1")

    def test_the_number_of_entries(self):
        self.finds_table(self.entries(count=0),
                         "bad|COREBOOT|-|-|firmware interface table has no entries")
        self.finds_table(self.entries(count=1), self.SOUND)
        most = (SIZE - TABLE_PLACE) // 16
        self.finds_table(self.entries(count=most), self.SOUND)
        self.finds_table(self.entries(count=most + 1),
                         "bad|COREBOOT|-|-|firmware interface table ends outside the image")

    def test_an_image_without_a_table(self):
        for place in -16, TABLE_PLACE + 16, SIZE - 8, SIZE:
            pointer = address(place, SIZE)
            self.finds_table(with_table(microcode(96, sum_is=1), pointer=pointer), "")
        # (the pointer has 8 bytes)
        pointer = address(TABLE_PLACE, SIZE) + (1 << 32)
        self.finds_table(with_table(microcode(96, sum_is=1), pointer=pointer), "")


class Coreboot(StructureTest):
    def test_the_reset_vector(self):
        for code, row in [
            (b"\xff" * 12, "bad|COREBOOT|-|-|reset vector is erased"),
            (bytes(12), "bad|COREBOOT|-|-|reset vector is cleared"),
            (b"\xff" * 11 + b"\xfe", SOUND["vector"]), (bytes(11) + b"\1", SOUND["vector"]),
        ]:
            pointer = header_pointer(HEADER_AT, PLACES["COREBOOT"][1])
            boot = bootblock(BOOTBLOCK_SIZE, reset=code, header_pointer=pointer)
            with self.subTest(code.hex()):
                self.finds(board(COREBOOT=coreboot(boot=boot)), vector=row)

    def test_fields_of_the_master_header(self):
        end, start = SIZE, PLACES["COREBOOT"][0]
        for header, row in [
            (master_header(end, start, magic=b"ORBD"), "bad|COREBOOT|-|-|no master header"),
            (master_header(end, start, version=0x31313131),
             "bad|COREBOOT|-|-|master header has another version than 1112"),
            (master_header(end, start + 64),
             "bad|COREBOOT|-|-|master header states another start of COREBOOT"),
            (master_header(end - 64, start),
             "bad|COREBOOT|-|-|master header states another end of COREBOOT"),
            (master_header(end, start, alignment=32),
             "bad|COREBOOT|-|-|master header has another alignment than 64"),
        ]:
            with self.subTest(row):
                self.finds(board(COREBOOT=coreboot(header)), header=row)

    def test_a_master_header_that_ends_after_the_area(self):
        """The last entry of an area without a bootblock begins 64 bytes before its end."""
        size = PLACES["COREBOOT"][1]
        files = FILES.replace("components|2", "components|1")
        files = files.replace("27456", "28608").replace("27428", "28580")
        for length, row in [
            (20, "remark|COREBOOT|-|-|master header ends outside COREBOOT"),
        ]:
            last = Component(b"cbfs master header", bytes(length), type=2)
            self.finds(board(COREBOOT=region(size, {size - 64: last})), files, vector="",
                       header=row)

    def test_the_pointer_to_the_master_header(self):
        row = "bad|COREBOOT|-|-|last four bytes of COREBOOT don't point to the master header"
        for place in (HEADER_AT - 1, HEADER_AT + 1):
            pointer = header_pointer(place, PLACES["COREBOOT"][1])
            self.finds(board(COREBOOT=coreboot(pointer=pointer)),
                       header=row)

    def test_without_a_bootblock_at_the_end(self):
        """A broken master header is a remark, and the reset vector isn't looked at."""
        size = PLACES["COREBOOT"][1]
        files = FILES.replace("components|2", "components|1")
        files = files.replace("27456", "28544").replace("27428", "28512")
        made = region(size, {0: header_component(master_header(0, 0))})
        self.finds(board(COREBOOT=made), files, vector="", header="""
            remark|COREBOOT|-|-|master header states another start of COREBOOT
        """)

    def test_a_bootblock_that_ends_before_the_end(self):
        """Four bytes behind its content, the area ends."""
        size = PLACES["COREBOOT"][1]
        content = bootblock(BOOTBLOCK_SIZE)[:-4]
        boot = Component(b"bootblock", content, type=1, gap=28)
        made = region(size, {0: header_component(master_header(0, 0)),
                             size - BOOTBLOCK_SIZE - 64: boot})
        self.finds(board(COREBOOT=made), vector="", header="""
            remark|COREBOOT|-|-|master header states another start of COREBOOT
        """)


class Vboot(StructureTest):
    def test_the_digest_of_the_hardware_id(self):
        wrong = bytearray(sound_gbb())
        wrong[48] ^= 1
        row = "bad|GBB|-|-|hardware id has another digest"
        self.finds(board(GBB=bytes(wrong)), gbb=row)
        wrong = bytearray(sound_gbb())
        wrong[128] ^= 1
        self.finds(board(GBB=bytes(wrong)), gbb=row)
        behind = bytearray(sound_gbb())
        behind[128 + len(HARDWARE_ID)] ^= 1
        self.finds(board(GBB=bytes(behind)))

    def test_an_older_gbb_has_no_digest(self):
        self.finds(board(GBB=sound_gbb(minor=1)))
        self.finds(board(GBB=sound_gbb(minor=2, digest=bytes(32))),
                   gbb="bad|GBB|-|-|hardware id has another digest")

    def test_flags(self):
        for flags in (1, 0x39, 0xFFFFFFFF):
            row = f"remark|GBB|-|-|flags weaken the verification|{hex(flags)}"
            self.finds(board(GBB=sound_gbb(flags=flags)), gbb=row)

    def test_broken_blocks(self):
        other = patched(sound_gbb(), (4, b"\2"))
        no_end = patched(sound_gbb(), (128, b"x" * 0x100))
        outside = [patched(sound_gbb(), (at, struct.pack("<I", 0x3000))) for at in (16, 24, 32, 40)]
        small = [patched(sound_gbb(), (at, struct.pack("<I", 127))) for at in (16, 24, 32, 40)]
        rows = ["bad|GBB|-|-|hardware id lies outside the GBB",
                "bad|GBB|-|-|root key lies outside the GBB",
                "bad|GBB|-|-|bitmaps lie outside the GBB",
                "bad|GBB|-|-|recovery key lies outside the GBB"]
        for block, row in [
            (sound_gbb(magic=b"$GBC"), "bad|GBB|-|-|no GBB"), (bytes(0x3000), "bad|GBB|-|-|no GBB"),
            (other, "bad|GBB|-|-|GBB has another major version than 1"),
            (sound_gbb(head_size=127), "bad|GBB|-|-|GBB has another header length than 128"),
            (sound_gbb(head_size=129), "bad|GBB|-|-|GBB has another header length than 128"),
            (outside[0], rows[0]), (outside[1], rows[1]), (outside[3], rows[3]),
            *zip(small, rows),
            (no_end, "bad|GBB|-|-|hardware id has no end"),
            (patched(sound_gbb(), (128 + 0x100 + 16, b"\x12")),
             "bad|GBB|-|-|no usable root key"),
            (patched(sound_gbb(), (128 + 0x1100 + 8, b"\x09")),
             "bad|GBB|-|-|no usable recovery key"),
        ]:
            with self.subTest(row):
                self.finds(board(GBB=block), gbb=row)

    def test_a_gbb_in_a_small_area(self):
        """The bitmaps of no byte may begin at the end of the area."""
        areas = [*without("GBB"), ("GBB", 0x3000, 127)]
        self.finds(board(areas), gbb="bad|GBB|-|-|GBB has less than 128 bytes")
        areas = [*without("GBB"), ("GBB", 0x3000, len(sound_gbb()))]
        self.finds(board(areas))
        areas = [*without("GBB"), ("GBB", 0x3000, len(sound_gbb()) - 1)]
        self.finds(board(areas), gbb="bad|GBB|-|-|recovery key lies outside the GBB")

    def test_blank_areas(self):
        self.finds(board(GBB=None), gbb="remark|GBB|-|-|blank: no GBB")
        for byte in (b"\xff", b"\0"):
            self.finds(board(VBLOCK_A=byte * 0x2000),
                       slot_a="remark|VBLOCK_A|-|-|blank: no signatures")
        self.finds(board(VBLOCK_A=b"\0" * 0x1FFF + b"\1"),
                   slot_a="bad|VBLOCK_A|-|-|no keyblock")

    def test_without_the_areas(self):
        self.finds(board(without("GBB", "VBLOCK_A", "VBLOCK_B")), gbb="", slot_a="", slot_b="")

    def test_the_digest_of_the_keyblock(self):
        """The checksum covers the head and the data key, and no byte behind them."""
        row = "bad|VBLOCK_A|-|-|keyblock has another checksum"
        covered = 112 + len(KEY)
        for at in (72, covered - 1, covered, covered + 63):
            wrong = bytearray(signed_block())
            wrong[at] ^= 1
            with self.subTest(at):
                self.finds(board(VBLOCK_A=bytes(wrong)), slot_a=row)
        behind = bytearray(signed_block())
        behind[covered + 64] ^= 1
        self.finds(board(VBLOCK_A=bytes(behind)))

    def test_the_signed_length_of_the_body(self):
        short = "bad|VBLOCK_A|-|-|components aren't signed: sign the slot again"
        long = "bad|VBLOCK_A|-|-|signed bytes end outside the slot: sign the slot again"
        for length, row in [
            (BODY_END - 1, short), (BODY_END, SOUND["slot_a"]), (0x1000, SOUND["slot_a"]),
            (0x1001, long), (1, short),
            (0, "remark|VBLOCK_A|-|-|body isn't checked: no length is signed"),
        ]:
            with self.subTest(length):
                self.finds(board(VBLOCK_A=signed_block(length)), slot_a=row)

    def test_each_slot_has_its_own_body(self):
        """The second slot has a longer component than the first one."""
        body = region(0x1000, {0: Component(b"main", b"x" * 200)})
        files = FILES.replace("""FW_MAIN_B|-|-|free bytes|3904
    remark|FW_MAIN_B|-|-|largest content that add takes|3872""", """FW_MAIN_B|-|-|free bytes|3840
    remark|FW_MAIN_B|-|-|largest content that add takes|3808""")
        for length, row in [
            (BODY_END, "bad|VBLOCK_B|-|-|components aren't signed: sign the slot again"),
            (256, "remark|VBLOCK_B|-|-|signed slot"),
        ]:
            image = board(FW_MAIN_B=body, VBLOCK_B=signed_block(length))
            self.finds(image, files, slot_b=row)

    def test_broken_slots(self):
        def changed(at, value):
            """Returns the keyblock with another number, and with its checksum."""
            made = bytearray(keyblock(KEY, SIGNATURE))
            struct.pack_into("<I", made, at, value)
            digest = hashlib.sha512(made[: 112 + len(KEY)]).digest()
            made[112 + len(KEY) : 112 + len(KEY) + 64] = digest
            return bytes(made)

        def with_preamble(at, value):
            """Returns a block whose preamble has another number."""
            return patched(signed_block(), (len(keyblock(KEY, SIGNATURE)) + at,
                                            struct.pack("<I", value)))

        for block, row in [
            (signed_block(block=changed(8, 3)),
             "bad|VBLOCK_A|-|-|keyblock has another major version than 2"),
            (signed_block(block=changed(16, 111)), "bad|VBLOCK_A|-|-|keyblock has a wrong length"),
            (signed_block(block=changed(16, 0x2001)),
             "bad|VBLOCK_A|-|-|keyblock has a wrong length"),
            (signed_block(block=changed(16, 0x2000)), "bad|VBLOCK_A|-|-|no preamble"),
            (signed_block(block=changed(24, 0x2000)),
             "bad|VBLOCK_A|-|-|signature of the keyblock lies outside it"),
            (signed_block(block=changed(40, 0x2000)),
             "bad|VBLOCK_A|-|-|signed bytes of the keyblock end outside it"),
            (signed_block(block=changed(48, 0x2000)),
             "bad|VBLOCK_A|-|-|checksum of the keyblock lies outside it"),
            (signed_block(block=changed(56, 63)),
             "bad|VBLOCK_A|-|-|checksum of the keyblock hasn't 64 bytes"),
            (signed_block(block=changed(64, 0x2000)),
             "bad|VBLOCK_A|-|-|bytes under the checksum end outside the keyblock"),
            (signed_block(block=changed(88, 1031)), "bad|VBLOCK_A|-|-|no usable data key"),
            (with_preamble(8, 0x1000),
             "bad|VBLOCK_A|-|-|signature of the preamble lies outside it"),
            (with_preamble(24, 0x1000),
             "bad|VBLOCK_A|-|-|signed bytes of the preamble end outside it"),
            (with_preamble(32, 3), "bad|VBLOCK_A|-|-|preamble has another major version than 2"),
            (with_preamble(80, 0x1000),
             "bad|VBLOCK_A|-|-|signature of the body lies outside the preamble"),
            (signed_block(size=103), "bad|VBLOCK_A|-|-|preamble has a wrong length"),
            (signed_block(size=0x2000), "bad|VBLOCK_A|-|-|preamble has a wrong length"),
        ]:
            with self.subTest(row):
                self.finds(board(VBLOCK_A=block), slot_a=row)

    def test_a_keyblock_in_a_small_area(self):
        """Without room for a preamble, or for the head of the keyblock."""
        for size, row in [
            (111, "bad|VBLOCK_A|-|-|keyblock has less than 112 bytes"),
            (112, "bad|VBLOCK_A|-|-|keyblock has a wrong length"),
            (len(keyblock(KEY, SIGNATURE)) + 103, "bad|VBLOCK_A|-|-|no preamble"),
        ]:
            areas = [*without("VBLOCK_A"), ("VBLOCK_A", 0x6000, size)]
            with self.subTest(size):
                self.finds(board(areas), slot_a=row)

    def test_a_checksum_of_more_than_4096_bytes(self):
        """The key is longer, and the keyblock has room for one byte more than a page."""
        first = keyblock(KEY, b"\xa5" * 0x1000, data_size=4097)
        self.finds(board(VBLOCK_A=first), slot_a="""
            bad|VBLOCK_A|-|-|checksum covers more than 4096 bytes
        """)


if __name__ == "__main__":
    unittest.main()
