"""Builds images of one board with each structure that a board boots from.

The board has a flash descriptor, a management engine, a GBB, the slots of vboot and a master
header. Each structure is sound, if nothing else is given; the slot B is blank.

    data = board(GBB=sound_gbb(flags=1), VBLOCK_A=None)
"""

import hashlib

from tests.image import Area, Component, Image, region
from tests.structures import (
    UNUSED_REGION, address, bootblock, bootblock_component, descriptor, descriptor_region,
    fit_entry, fit_table, gbb, header_component, header_pointer, key_fields, keyblock,
    master_header, partition_table, preamble,
)

SIZE = 0x14000
AREAS = [
    ("SI_DESC", 0, 0x1000), ("SI_ME", 0x1000, 0x2000), ("SI_BIOS", 0x3000, 0x11000),
    ("GBB", 0x3000, 0x3000), ("VBLOCK_A", 0x6000, 0x2000), ("FW_MAIN_A", 0x8000, 0x1000),
    ("VBLOCK_B", 0x9000, 0x2000), ("FW_MAIN_B", 0xB000, 0x1000), ("FMAP", 0xC000, 0x1000),
    ("COREBOOT", 0xD000, 0x7000),
]
PLACES = {name: (offset, size) for name, offset, size in AREAS}

# Descriptor, BIOS and management engine; the other regions are unused.
REGIONS = [descriptor_region(0, 0x1000), descriptor_region(0x3000, 0x11000),
           descriptor_region(0x1000, 0x2000), *6 * [UNUSED_REGION]]
DESCRIPTOR = descriptor(REGIONS)

# A key of RSA with 4096 bits, which algorithm 7 has, with SHA-256.
KEY = bytes(range(256)) * 4 + b"\x5a" * 8
PACKED_KEY = key_fields(32, len(KEY), 7, 1) + KEY
ROOT_KEY, RECOVERY_KEY = PACKED_KEY, PACKED_KEY
HARDWARE_ID = b"BOARD TEST 1234\0"
SIGNATURE = b"\xa5" * 512

# The only component of a slot ends at 132 in its area, and its entry at 192.
BODY = region(0x1000, {0: Component(b"main", b"x" * 100)})
BODY_END = 192

# The content of the master header begins behind a head of 24 bytes and a name field of 20. The
# entry of the bootblock begins 64 bytes before its content, which ends with COREBOOT.
HEADER_AT = 44
BOOTBLOCK_SIZE = 0x400


def sound_gbb(**fields):
    """Returns a GBB; the digest covers the hardware id without its NUL."""
    made = dict(digest=hashlib.sha256(HARDWARE_ID[:-1]).digest())
    made.update(fields)
    return gbb(HARDWARE_ID, ROOT_KEY, RECOVERY_KEY, **made)


def signed_block(body_size=BODY_END, block=None, **fields):
    """Returns a keyblock and a preamble that signs so many bytes of the body."""
    first = keyblock(KEY, SIGNATURE) if block is None else block
    return first + preamble(KEY, SIGNATURE, SIGNATURE, body_size, **fields)


def coreboot(header=None, boot=None, pointer=None):
    """Returns the region COREBOOT with its master header and its bootblock."""
    offset, size = PLACES["COREBOOT"]
    made = master_header(offset + size, offset) if header is None else header
    last = header_pointer(HEADER_AT, size) if pointer is None else pointer
    content = bootblock(BOOTBLOCK_SIZE, header_pointer=last) if boot is None else boot
    end = bootblock_component(content)
    end = Component(b"bootblock", content, type=end.type, gap=28)
    return region(size, {0: header_component(made), size - BOOTBLOCK_SIZE - 64: end})


# Where a firmware interface table and the update of its entry are in COREBOOT, and in the image.
# They are in the content of a component, which begins behind a head of 24 bytes and a name field
# of 40.
FILES_AT = 0x80
FILES_CONTENT = FILES_AT + 64
TABLE_AT, UPDATE_AT = 0x400, 0x800
TABLE_PLACE, UPDATE_PLACE = (PLACES["COREBOOT"][0] + at for at in (TABLE_AT, UPDATE_AT))

PARTS = {
    "SI_DESC": DESCRIPTOR, "SI_ME": partition_table(), "GBB": sound_gbb(),
    "VBLOCK_A": signed_block(), "FW_MAIN_A": BODY, "FW_MAIN_B": BODY, "COREBOOT": coreboot(),
}


def board(areas=None, **parts):
    """Returns the board with other areas, and with other contents of areas."""
    made = Image(SIZE, [Area(*area) for area in areas or AREAS])
    there = {area[0] for area in areas or AREAS}
    for name, content in {**PARTS, **parts}.items():
        if name in there and content is not None:
            made.put_at(PLACES[name][0], content)
    return made.data()


def without(*names):
    """Returns the areas of the board without some."""
    return [area for area in AREAS if area[0] not in names]


BOARD = board()


def with_table(update, table=None, pointer=None):
    """Returns the board with the content of an update, a firmware interface table and a pointer.

    Both lie in a component of COREBOOT. The table has one entry, for the update, and the pointer
    leads to the table, if nothing else is given.
    """
    offset, size = PLACES["COREBOOT"]
    entry = fit_entry(address(UPDATE_PLACE, SIZE))
    place = address(TABLE_PLACE, SIZE) if pointer is None else pointer
    last = header_pointer(HEADER_AT, size)
    boot = bootblock(BOOTBLOCK_SIZE, fit_pointer=place, header_pointer=last)
    content = bytearray(0x1000)
    made = fit_table([entry]) if table is None else table
    for at, part in (TABLE_AT, made), (UPDATE_AT, update):
        content[at - FILES_CONTENT : at - FILES_CONTENT + len(part)] = part
    end = Component(b"bootblock", boot, type=bootblock_component(boot).type, gap=28)
    header = header_component(master_header(offset + size, offset))
    name_field = b"fit".ljust(40, b"\0")
    files = Component(b"fit", bytes(content), name_field=name_field)
    cells = {0: header, FILES_AT: files, size - BOOTBLOCK_SIZE - 64: end}
    return board(COREBOOT=region(size, cells))
