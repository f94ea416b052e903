"""The ways to break the boards of tests/boards.py, and good changes that must raise no alarm.

A `Change` has a board, the structure that it changes, a phrase, a function from bytes to bytes, and
the harm that it does, or "" for a good change. Changes of the flash map or of metadata are sealed,
if the phrase says nothing of the anchor: both digests of the anchor are computed again, so that a
rule about another structure has to notice the change.
"""

import os
import struct
import subprocess
import tempfile
from collections import namedtuple

from tests import board_rules as rules
from tests import image, structures
from tests.boards import EMPTY_ANCHOR, KEYS, Bench, fill_slot, sign, text, tool

Change = namedtuple("Change", "board structure phrase apply harm")

MIB = 1 << 20

# ---- Places and edits


def area_at(data, name):
    """Returns the offset of an area."""
    return rules.Board(data).area(name).offset


def entry_of(data, name, region="COREBOOT"):
    """Returns a component and the offset of its entry in the image."""
    board = rules.Board(data)
    entry = next(one for one in board.components(region) if one.label() == name)
    return entry, board.area(region).offset + entry.at


def put(data, at, new):
    """Returns the bytes with others at an offset; a negative offset counts from the end."""
    at = at + len(data) if at < 0 else at
    return data[:at] + new + data[at + len(new) :]


def flipped(data, at, mask=1):
    """Returns the bytes with some bits of one byte changed."""
    at = at + len(data) if at < 0 else at
    return put(data, at, bytes((data[at] ^ mask,)))


def sealed(data):
    """Returns the image with both digests of its anchor computed again."""
    board = rules.Board(data)
    place, anchor = rules.find_anchor(board)
    number = anchor[11]
    counted = [one for one in board.components() if len(one.metadata) <= 256]
    digests = b"".join((
        image.digest(number, b"".join(map(rules.terminated, counted))),
        image.digest(number, board.map.bytes),
    ))
    range_bytes = rules.anchor_range(board)[1]
    inside = range_bytes.index(image.ANCHOR_MAGIC)
    if place == "BOOTBLOCK":
        at = board.area(place).offset + inside
    else:
        entry, at = entry_of(data, place)
        at += entry.offset + inside
    return put(data, at + 12, digests)


# ---- Kinds of changes; each returns a function from bytes to bytes


def at_area(name, offset, new):
    """Puts bytes into an area."""
    return lambda data: put(data, area_at(data, name) + offset, new)


def bit(name, offset, mask=1):
    """Changes some bits of a byte of an area."""
    return lambda data: flipped(data, area_at(data, name) + offset, mask)


def fill(name, value, start=0, size=None):
    """Fills an area, or a part of it, with one byte."""
    def apply(data):
        area = rules.Board(data).area(name)
        count = area.size - start if size is None else size
        return put(data, area.offset + start, bytes((value,)) * count)
    return apply


def add_number(name, offset, form, delta):
    """Adds to a number of an area."""
    def apply(data):
        at = area_at(data, name) + offset
        value = struct.unpack_from(form, data, at)[0] + delta
        return put(data, at, struct.pack(form, value))
    return apply


def at_end(from_end, new):
    """Puts bytes before the end of the image."""
    return lambda data: put(data, -from_end, new)


def in_head(name, offset, new, region="COREBOOT", seal=True):
    """Puts bytes into the metadata of a component; sealed by default."""
    def apply(data):
        _, at = entry_of(data, name, region)
        made = put(data, at + offset, new)
        return sealed(made) if seal else made
    return apply


def in_content(name, offset, mask=1, region="COREBOOT"):
    """Changes some bits of a byte of a component's content."""
    def apply(data):
        entry, at = entry_of(data, name, region)
        return flipped(data, at + entry.offset + offset % entry.length, mask)
    return apply


def content_bytes(name, offset, new, region="COREBOOT"):
    """Puts bytes into the content of a component."""
    def apply(data):
        entry, at = entry_of(data, name, region)
        return put(data, at + entry.offset + offset, new)
    return apply


def in_map(offset, new, seal=True):
    """Puts bytes into the flash map; sealed by default, which a map that is gone does not allow."""
    def apply(data):
        made = put(data, rules.Board(data).map.offset + offset, new)
        return sealed(made) if seal else made
    return apply


def area_field(name, offset, form, value, seal=True):
    """Replaces a number or name of an area's row in the map. `value` may be a function."""
    def apply(data):
        found = rules.Board(data).map
        row = next(n for n, one in enumerate(found.areas) if one.name == name.encode())
        at = found.offset + 56 + 42 * row + offset
        new = value(struct.unpack_from(form, data, at)[0]) if callable(value) else value
        made = put(data, at, struct.pack(form, new))
        return sealed(made) if seal else made
    return apply


def second_map(at):
    """Puts a copy of the map at another offset, in which COREBOOT begins 64 bytes later."""
    def apply(data):
        found = rules.Board(data).map
        row = next(n for n, one in enumerate(found.areas) if one.name == b"COREBOOT")
        copy = bytearray(found.bytes)
        offset = struct.unpack_from("<I", copy, 56 + 42 * row)[0]
        struct.pack_into("<I", copy, 56 + 42 * row, offset + 64)
        own = next(n for n, one in enumerate(found.areas) if one.name == b"FMAP")
        struct.pack_into("<I", copy, 56 + 42 * own, at)
        return put(data, at, bytes(copy))
    return apply


def tools(*steps):
    """Runs steps on a bench with the image."""
    def apply(data):
        with tempfile.TemporaryDirectory() as folder:
            bench = Bench(folder)
            bench.put("rom", data)
            for step in steps:
                step(bench)
            return bench.data()
    return apply


def chain(*changes):
    """Makes several changes, one after the other."""
    def apply(data):
        for change in changes:
            data = change(data)
        return data
    return apply


def swapped(one, other, size):
    """Exchanges the first bytes of two areas."""
    def apply(data):
        places = [area_at(data, name) for name in (one, other)]
        parts = [data[at : at + size] for at in places]
        return put(put(data, places[0], parts[1]), places[1], parts[0])
    return apply


def shifted(name, by):
    """Moves the bytes of an area up."""
    def apply(data):
        area = rules.Board(data).area(name)
        old = data[area.offset : area.offset + area.size]
        return put(data, area.offset, b"\xff" * by + old[:-by])
    return apply


def rebuilt(name, attributes, content=None, gap=0, region="COREBOOT", type=None):
    """Replaces a component by one of the same cell, with other attributes, and seals the image.

    `attributes` is a function from the content to the list of attributes.
    """
    def apply(data):
        entry, at = entry_of(data, name, region)
        cell = -(-(entry.offset + entry.length) // 64) * 64
        new = entry.content if content is None else content
        made = image.Component(entry.name, new, type=entry.type if type is None else type,
                               attributes=attributes(new), gap=gap)
        if len(made.bytes) > cell:
            raise ValueError(f"{name}: no room in its cell")
        rest = b""
        if len(made.bytes) < cell:
            rest = image.FreeEntry(cell - len(made.bytes)).bytes
        return sealed(put(data, at, made.bytes + rest))
    return apply


DIGEST = image.hash_attribute


def digested(content):
    """Returns the attributes of a component with a SHA-256 digest."""
    return [DIGEST(image.SHA256, content)]


# ---- Flash map

DEAD_TOOLS = "no tool can edit or read the image by areas"
WRONG_MAP = "tools and firmware use different maps"
COUNT = 27
TABLE = 56 + 42 * COUNT


def map_changes(board="intel"):
    """Returns changes of the flash map."""
    rows = [
        ("a byte of the signature", in_map(3, b"X", seal=False), DEAD_TOOLS),
        ("major version 2", in_map(8, b"\2", seal=False), DEAD_TOOLS),
        ("major version 0", in_map(8, b"\0", seal=False), DEAD_TOOLS),
        ("minor version 9", in_map(9, b"\x09"), ""),
        ("minor version 0", in_map(9, b"\0"), ""),
        ("minor version 9, and not sealed", in_map(9, b"\x09", seal=False),
         "the bootblock refuses the map"),
        ("the size of the image is one below its table's", in_map(18, struct.pack("<I", TABLE - 1)),
         DEAD_TOOLS),
        ("the size of the image is 0", in_map(18, bytes(4)), DEAD_TOOLS),
        ("the size of the image is that of the table", in_map(18, struct.pack("<I", TABLE)),
         "the map states another size than the image has"),
        ("the size of the image is one too large", in_map(18, struct.pack("<I", 16 * MIB + 1)),
         DEAD_TOOLS),
        ("the size of the image is one too small", in_map(18, struct.pack("<I", 16 * MIB - 1)),
         "the map states another size than the image has"),
        ("a blank in the name", in_map(22, b"FLA H\0", seal=False), DEAD_TOOLS),
        ("a name of 32 bytes", in_map(22, b"N" * 32, seal=False), DEAD_TOOLS),
        ("a name of 31 bytes", in_map(22, b"N" * 31 + b"\0"), "the map of another board"),
        ("an empty name", in_map(22, bytes(32)), "the map of another board"),
        ("another base", in_map(10, struct.pack("<Q", 0xFE000000)), "the map of another board"),
        ("one area less, which is COREBOOT", in_map(54, struct.pack("<H", COUNT - 1), seal=False),
         "COREBOOT is gone"),
        ("one area more, of bytes 0xff", in_map(54, struct.pack("<H", COUNT + 1), seal=False),
         "an area outside the image, and the bootblock refuses the map"),
        ("no areas", in_map(54, bytes(2), seal=False), "all areas are gone"),
        ("the area FMAP begins 16 bytes after the map",
         area_field("FMAP", 0, "<I", lambda at: at + 16), DEAD_TOOLS),
        ("the area FMAP begins 1 byte before the map",
         area_field("FMAP", 0, "<I", lambda at: at - 1), DEAD_TOOLS),
        ("the area FMAP ends one byte before the end of the table",
         area_field("FMAP", 4, "<I", TABLE - 1), "a write to the next area may damage the map"),
        ("the area FMAP has exactly the size of the table",
         area_field("FMAP", 4, "<I", TABLE), ""),
        ("the area FMAP is renamed", area_field("FMAP", 8, "32s", b"FMAX"), DEAD_TOOLS),
        ("COREBOOT is renamed", area_field("COREBOOT", 8, "32s", b"COREBOOX", seal=False),
         "the firmware does not find COREBOOT"),
        ("COREBOOT ends outside the image",
         area_field("COREBOOT", 4, "<I", lambda size: size + 64, seal=False),
         "the firmware reads beyond the chip"),
        ("COREBOOT begins 64 bytes later",
         area_field("COREBOOT", 0, "<I", lambda at: at + 64, seal=False),
         "the firmware does not find the file system"),
        ("COREBOOT ends 64 bytes earlier",
         area_field("COREBOOT", 4, "<I", lambda size: size - 64, seal=False),
         "the bootblock is outside COREBOOT"),
        ("VBLOCK_A overlaps FW_MAIN_A", area_field("VBLOCK_A", 4, "<I", 0x11000),
         "signing one area damages the other"),
        ("RW_VPD has lost its flag PRESERVE", area_field("RW_VPD", 40, "<H", 0),
         "an update erases the data of the device"),
        ("RO_VPD has lost its flag PRESERVE", area_field("RO_VPD", 40, "<H", 0),
         "an update erases the data of the device"),
        ("FW_MAIN_A has another flag", area_field("FW_MAIN_A", 40, "<H", 3), ""),
        ("GBB is renamed", area_field("GBB", 8, "32s", b"GBX"), "the firmware finds no keys"),
        ("VBLOCK_A is renamed", area_field("VBLOCK_A", 8, "32s", b"VBLOCK_X"),
         "slot A does not boot"),
        ("FW_MAIN_B is renamed", area_field("FW_MAIN_B", 8, "32s", b"FW_MAIN_X"),
         "slot B does not boot"),
        ("VBLOCK_A begins 16 bytes later",
         area_field("VBLOCK_A", 0, "<I", lambda at: at + 16), "slot A does not boot"),
        ("FW_MAIN_A begins 64 bytes later",
         area_field("FW_MAIN_A", 0, "<I", lambda at: at + 64), "slot A does not boot"),
        ("GBB begins 16 bytes later", area_field("GBB", 0, "<I", lambda at: at + 16),
         "the firmware finds no keys"),
        ("SI_BIOS begins one page later", area_field("SI_BIOS", 0, "<I", lambda at: at + 4096),
         "the descriptor is of another layout"),
        ("SI_ME is one page larger", area_field("SI_ME", 4, "<I", lambda size: size + 4096),
         "an update of the region for the firmware damages the other"),
        ("SI_ME is one page smaller", area_field("SI_ME", 4, "<I", lambda size: size - 4096),
         "a part of the engine is not in its area"),
        ("another map at the start of ME's third quarter, the most aligned place",
         second_map(0x100000), WRONG_MAP),
        ("another map at a lower and less aligned place", second_map(0x9010), WRONG_MAP),
        ("another map at a lower place that is a multiple of 8 only", second_map(0x9008),
         WRONG_MAP),
        ("another map at a lower odd place", second_map(0x9001), WRONG_MAP),
        ("another map at a higher and less aligned place", second_map(0xFE0010), ""),
        ("another map at a higher and more aligned place", second_map(0xC00000), WRONG_MAP),
        ("another map at a higher odd place", second_map(0xFE0001), ""),
        ("the map is erased", fill("FMAP", 0xFF), DEAD_TOOLS),
        ("the map is filled with 0", fill("FMAP", 0), DEAD_TOOLS),
    ]
    return [Change(board, "flash map", *row) for row in rows]


# ---- Flash descriptor

REGION_TABLE = 0x40
NO_BOOT = "the chipset does not start the board"


def region_number(index, base=0, limit=0):
    """Adds to the base and the limit of a region."""
    return add_number("SI_DESC", REGION_TABLE + 4 * index, "<I", base + (limit << 16))


def descriptor_changes():
    """Returns changes of the flash descriptor and of the management engine."""
    rows = []
    names = ("SI_DESC", "SI_BIOS", "SI_ME", "SI_GBE")
    for index, name in enumerate(names):
        for what, base, limit in (("begins one page later", 1, 0), ("begins one page earlier", -1,
                                  0), ("ends one page later", 0, 1), ("ends one page earlier", 0,
                                  -1)):
            if index == 0 and (base or limit < 0):
                continue
            rows.append((f"the region of {name} {what}", region_number(index, base, limit),
                         "the chipset uses another region than the firmware"))
    table = REGION_TABLE
    rows += [
        (f"byte {n} of the descriptor's magic", bit("SI_DESC", 0x10 + n), NO_BOOT)
        for n in range(4)
    ]
    rows += [
        ("the magic and maps are at offset 0, as in older chipsets",
         lambda data: put(put(data, 0, data[0x10:0x20]), 0x10, b"\xff" * 16), ""),
        ("the magic and maps are at offset 0x20",
         lambda data: put(put(data, 0x20, data[0x10:0x20]), 0x10, b"\xff" * 16), NO_BOOT),
        ("the descriptor is erased", fill("SI_DESC", 0xFF), NO_BOOT),
        ("the descriptor is filled with 0", fill("SI_DESC", 0), NO_BOOT),
        ("the second half of the descriptor's head is erased",
         fill("SI_DESC", 0xFF, 0x18, 0x1000 - 0x18), NO_BOOT),
        ("the 16 bytes before the magic are 0", fill("SI_DESC", 0, 0, 16), ""),
        ("the 256 bytes for the manufacturer are changed",
         at_area("SI_DESC", 0xF00, b"vendor data"), ""),
        ("the table of regions is said to be 16 bytes later", bit("SI_DESC", 0x16, 1), NO_BOOT),
        ("the table of regions is said to be at 0xff0", at_area("SI_DESC", 0x16, b"\xff"), NO_BOOT),
        ("the table of regions is erased", at_area("SI_DESC", table, b"\xff" * 20), NO_BOOT),
        ("ME and GBE are exchanged",
         lambda data: put(data, table + 8, data[table + 12 : table + 16] + data[table + 8 :
                                                                               table + 12]),
         NO_BOOT),
        ("the region of ME is unused", at_area("SI_DESC", table + 8, b"\xff\x7f\0\0"),
         "the engine does not start"),
        ("the region of GBE is unused", at_area("SI_DESC", table + 12, b"\xff\x7f\0\0"),
         "the network has no address"),
        ("the region of BIOS is unused", at_area("SI_DESC", table + 4, b"\xff\x7f\0\0"), NO_BOOT),
        ("the base of ME is one above its limit",
         lambda data: put(data, table + 8, struct.pack("<HH", 0x200, 0x1FF)),
         "the engine does not start"),
        ("the base of ME is its limit",
         lambda data: put(data, table + 8, struct.pack("<HH", 0x1FF, 0x1FF)),
         "the engine does not start"),
        ("bit 15 of ME's number is set", bit("SI_DESC", table + 9, 0x80), ""),
        ("bit 31 of ME's number is set", bit("SI_DESC", table + 11, 0x80), ""),
        ("bit 12 of ME's base is set", bit("SI_DESC", table + 9, 0x10),
         "the base is above the limit in newer chipsets"),
        ("bit 14 of BIOS's limit is set", bit("SI_DESC", table + 7, 0x40),
         "the region ends outside the chip in newer chipsets"),
        ("the fifth region begins where the image ends, without an area",
         at_area("SI_DESC", table + 16, struct.pack("<HH", 0x1000, 0x1000)), ""),
        ("the flash descriptor is one page later", shifted("SI_ALL", 4096), NO_BOOT),
        ("byte 0 of the engine's magic", bit("SI_ME", 16), "the engine does not start"),
        ("byte 3 of the engine's magic", bit("SI_ME", 19), "the engine does not start"),
        ("the engine is erased", fill("SI_ME", 0xFF), "the engine does not start"),
        ("the engine is filled with 0", fill("SI_ME", 0), "the engine does not start"),
        ("the engine begins 16 bytes earlier", lambda data: put(
            data, area_at(data, "SI_ME"), data[area_at(data, "SI_ME") + 16 : 0x200000]
            + b"\xff" * 16), ""),
        ("the engine begins 8 bytes later", shifted("SI_ME", 8), "the engine does not start"),
        ("a byte of the engine's body", bit("SI_ME", 0x8000), "the engine may not start"),
        ("the data of the network are erased", fill("SI_GBE", 0xFF), "the network has no address"),
    ]
    return [Change("intel", "descriptor", *row) for row in rows]


# ---- Signed slots

UNSIGNED = "the slot does not boot"
KEYBLOCK = 2232


def slot_changes(board="intel"):
    """Returns changes of the signed slots."""
    block, pre = "VBLOCK_A", KEYBLOCK
    rows = [(f"byte {n} of the keyblock's magic", bit(block, n), UNSIGNED) for n in (0, 7)]
    rows += [
        ("the keyblock has the major version 3", at_area(block, 8, b"\3"), UNSIGNED),
        ("the keyblock has the major version 1", at_area(block, 8, b"\1"), UNSIGNED),
        ("the size of the keyblock is 111", at_area(block, 16, struct.pack("<Q", 111)), UNSIGNED),
        ("the size of the keyblock is one less", add_number(block, 16, "<Q", -1), UNSIGNED),
        ("the size of the keyblock is one more", add_number(block, 16, "<Q", 1), UNSIGNED),
        ("the size of the keyblock is that of the area",
         at_area(block, 16, struct.pack("<Q", 0x10000)), UNSIGNED),
        ("the size of the keyblock is 2^40", at_area(block, 16, struct.pack("<Q", 1 << 40)),
         UNSIGNED),
        ("the root signature begins 1 byte later", add_number(block, 24, "<Q", 1), UNSIGNED),
        ("the root signature begins at 2^63", at_area(block, 24, struct.pack("<Q", 1 << 63)),
         UNSIGNED),
        ("the root signature is 1 byte longer", add_number(block, 32, "<Q", 1), UNSIGNED),
        ("the root signature is 1 byte shorter", add_number(block, 32, "<Q", -1), UNSIGNED),
        ("the data of the root signature are 1 byte less", add_number(block, 40, "<Q", -1),
         UNSIGNED),
        ("the data of the root signature end outside the keyblock",
         at_area(block, 40, struct.pack("<Q", KEYBLOCK + 1)), UNSIGNED),
        ("the SHA-512 begins 1 byte later", add_number(block, 48, "<Q", 1), UNSIGNED),
        ("the SHA-512 has 63 bytes", at_area(block, 56, struct.pack("<Q", 63)), UNSIGNED),
        ("the SHA-512 has 65 bytes", at_area(block, 56, struct.pack("<Q", 65)), UNSIGNED),
        ("the data of the SHA-512 are 1 byte less", add_number(block, 64, "<Q", -1), UNSIGNED),
        ("the data of the SHA-512 are 1 byte more", add_number(block, 64, "<Q", 1), UNSIGNED),
        ("a bit of the keyblock's flags", bit(block, 72), UNSIGNED),
        ("the data key begins 1 byte later", add_number(block, 80, "<Q", 1), UNSIGNED),
        ("the data key is 1 byte longer", add_number(block, 88, "<Q", 1), UNSIGNED),
        ("the data key ends outside the signed data", at_area(block, 88, struct.pack("<Q", 2000)),
         UNSIGNED),
        ("the data key has another algorithm", at_area(block, 96, b"\4"), UNSIGNED),
        ("the data key has another version", at_area(block, 104, b"\2"), UNSIGNED),
        ("the first bit of the data key", bit(block, 112), UNSIGNED),
        ("the last bit of the data key", bit(block, 112 + 1031, 0x80), UNSIGNED),
        ("the first bit of the SHA-512", bit(block, 1144), UNSIGNED),
        ("the last bit of the SHA-512", bit(block, 1144 + 63, 0x80), UNSIGNED),
        ("the first bit of the root signature (RSA)", bit(block, 1208), UNSIGNED),
        ("the last bit of the root signature (RSA)", bit(block, KEYBLOCK - 1, 0x80), UNSIGNED),
        ("the size of the preamble is 107", at_area(block, pre, struct.pack("<I", 107)), UNSIGNED),
        ("the size of the preamble is one less", add_number(block, pre, "<I", -1), UNSIGNED),
        ("the size of the preamble is one more (RSA)", add_number(block, pre, "<I", 1), UNSIGNED),
        ("the preamble ends one byte outside the area",
         at_area(block, pre, struct.pack("<I", 0x10000 - KEYBLOCK + 1)), UNSIGNED),
        ("the signature of the preamble begins 1 byte later", add_number(block, pre + 8, "<Q", 1),
         UNSIGNED),
        ("the signature of the preamble is 1 byte longer", add_number(block, pre + 16, "<Q", 1),
         UNSIGNED),
        ("the data of the preamble end outside it",
         at_area(block, pre + 24, struct.pack("<Q", 2165)), UNSIGNED),
        ("the preamble has the major version 3", at_area(block, pre + 32, b"\3"), UNSIGNED),
        ("the version of the firmware (RSA)", at_area(block, pre + 40, b"\2"), UNSIGNED),
        ("a bit of the kernel key (RSA)", bit(block, pre + 200), UNSIGNED),
        ("the kernel key ends outside the preamble (RSA)",
         at_area(block, pre + 56, struct.pack("<Q", 3000)), UNSIGNED),
        ("the signature of the body begins 1 byte later (RSA)",
         add_number(block, pre + 80, "<Q", 1), UNSIGNED),
        ("the signature of the body ends outside the preamble",
         at_area(block, pre + 88, struct.pack("<Q", 2000)), UNSIGNED),
        ("a bit of the signature of the body (RSA)", bit(block, pre + 1200), UNSIGNED),
        ("the signed length of the body is 64 less", add_number(block, pre + 96, "<Q", -64),
         UNSIGNED),
        ("the signed length of the body is 1 less", add_number(block, pre + 96, "<Q", -1),
         UNSIGNED),
        ("the signed length of the body is 1 more (RSA)", add_number(block, pre + 96, "<Q", 1),
         UNSIGNED),
        ("the signed length of the body is that of the area (RSA)",
         at_area(block, pre + 96, struct.pack("<Q", 3080128)), UNSIGNED),
        ("the signed length of the body is above that of the area",
         at_area(block, pre + 96, struct.pack("<Q", 3080129)), UNSIGNED),
        ("the signed length of the body is 0 (RSA)",
         at_area(block, pre + 96, struct.pack("<Q", 0)), UNSIGNED),
        ("the flags of the preamble (RSA)", bit(block, pre + 104), UNSIGNED),
        ("a bit of the signature of the preamble (RSA)", bit(block, pre + 2000), UNSIGNED),
        ("VBLOCK_A is erased", fill(block, 0xFF), UNSIGNED),
        ("VBLOCK_A is filled with 0", fill(block, 0), UNSIGNED),
        ("VBLOCK_B is erased", fill("VBLOCK_B", 0xFF), UNSIGNED),
        ("the preamble is erased", fill(block, 0xFF, pre), UNSIGNED),
        ("VBLOCK_A begins 64 bytes later", shifted(block, 64), UNSIGNED),
        ("the slots' VBLOCKs are exchanged (RSA)", swapped("VBLOCK_A", "VBLOCK_B", 0x10000),
         "no slot boots"),
        ("the slots are exchanged completely",
         chain(swapped("VBLOCK_A", "VBLOCK_B", 0x10000),
               swapped("FW_MAIN_A", "FW_MAIN_B", 3080128)), ""),
        ("VBLOCK_B is that of slot A (RSA)",
         lambda data: put(data, area_at(data, "VBLOCK_B"),
                          data[area_at(data, "VBLOCK_A") :][:0x10000]), UNSIGNED),
        ("a bit of FW_MAIN_A's first entry", bit("FW_MAIN_A", 0x40, 4), UNSIGNED),
        ("a bit of the last signed byte", bit("FW_MAIN_A", 43711), UNSIGNED),
        ("a bit of the first byte after the signed ones", bit("FW_MAIN_A", 43712), ""),
        ("a bit of FW_MAIN_A's last byte", bit("FW_MAIN_A", 3080127), ""),
        ("a bit of FW_MAIN_B's payload", in_content("fallback/payload", 100, region="FW_MAIN_B"),
         UNSIGNED),
        ("a bit of FW_MAIN_B's ecrw", in_content("ecrw", 100, region="FW_MAIN_B"), UNSIGNED),
        ("FW_MAIN_A is erased", fill("FW_MAIN_A", 0xFF), UNSIGNED),
        ("FW_MAIN_B is filled with 0", fill("FW_MAIN_B", 0), UNSIGNED),
        ("slot A is erased completely", chain(fill("VBLOCK_A", 0xFF), fill("FW_MAIN_A", 0xFF)),
         UNSIGNED),
        ("a component is added to FW_MAIN_A, and not signed",
         tools(lambda b: b.cbfstool("expand", "-r", "FW_MAIN_A"),
               lambda b: b.add("late", text(5, 500), region="FW_MAIN_A")), UNSIGNED),
        ("a component of FW_MAIN_A is removed, and not signed",
         tools(lambda b: b.cbfstool("remove", "-r", "FW_MAIN_A", "-n", "ecrw")), UNSIGNED),
        ("FW_MAIN_A is expanded, and not signed",
         tools(lambda b: b.cbfstool("expand", "-r", "FW_MAIN_A")), ""),
        ("the keyblock of another root key (RSA)", tools(other_keyblock), UNSIGNED),
        ("slot B is created in an image without an anchor, and signed",
         tools(lambda b: new_slot(b, has_anchor=False), sign),
         "the firmware finds no digest of the payload"),
    ]
    return [Change(board, "slot", *row) for row in rows]


def other_keyblock(bench):
    """Signs with a keyblock that the recovery key signed, and not the root key."""
    bench.run("futility", "vbutil_keyblock", "--pack", "other.keyblock", "--datapubkey",
              KEYS / "firmware_data_key.vbpubk", "--signprivate", KEYS / "recovery_key.vbprivk",
              "--flags", "7")
    bench.run("futility", "sign", "--type", "bios", "-s", KEYS / "firmware_data_key.vbprivk", "-b",
              "other.keyblock", "-k", KEYS / "kernel_subkey.vbpubk", bench.rom)


# ---- GBB

NO_KEYS = "the firmware finds no keys"


def gbb_changes(board="intel"):
    """Returns changes of the GBB."""
    rows = [(f"byte {n} of the GBB's magic", bit("GBB", n), NO_KEYS) for n in range(4)]
    rows += [
        ("the GBB has the major version 2", at_area("GBB", 4, b"\2"), NO_KEYS),
        ("the GBB has the major version 0", at_area("GBB", 4, b"\0"), NO_KEYS),
        ("the GBB has the minor version 1", at_area("GBB", 6, b"\1"), ""),
        ("the GBB has the minor version 3", at_area("GBB", 6, b"\3"), ""),
        ("the GBB's head has 127 bytes", at_area("GBB", 8, b"\x7f"), NO_KEYS),
        ("the GBB's head has 129 bytes", at_area("GBB", 8, b"\x81"), NO_KEYS),
        ("flags of the GBB are set", at_area("GBB", 12, b"\x39"), ""),
        ("a bit of the hardware id", bit("GBB", 128), "updates refuse the board"),
        ("a byte after the hardware id's NUL", at_area("GBB", 128 + 20, b"x"), ""),
        ("the hardware id ends at its area's end, without a NUL",
         at_area("GBB", 128, b"H" * 256), "updates refuse the board"),
        ("the hardware id has no NUL, and a right digest",
         chain(at_area("GBB", 128, b"H" * 256),
               at_area("GBB", 48, image.digest(image.SHA256, b"H" * 256))),
         NO_KEYS),
        ("a bit of the hardware id's digest", bit("GBB", 48), "the hardware id is not measured"),
        ("the last bit of the hardware id's digest", bit("GBB", 79, 0x80),
         "the hardware id is not measured"),
        ("the hardware id begins 1 byte later", add_number("GBB", 16, "<I", 1),
         "updates refuse the board"),
        ("the hardware id ends outside the GBB", at_area("GBB", 16, struct.pack("<I", 12288)),
         NO_KEYS),
        ("the hardware id has the size of 2^32 - 1", at_area("GBB", 20, b"\xff" * 4), NO_KEYS),
        ("the hardware id has the size 0", at_area("GBB", 20, bytes(4)),
         "updates refuse the board"),
        ("the root key begins 1 byte later", add_number("GBB", 24, "<I", 1), NO_KEYS),
        ("the root key ends at the end of the area",
         at_area("GBB", 28, struct.pack("<I", 12288 - 0x180)), ""),
        ("the root key ends one byte outside the area",
         at_area("GBB", 28, struct.pack("<I", 12288 - 0x180 + 1)), NO_KEYS),
        ("the root key has the size 0", at_area("GBB", 28, bytes(4)), NO_KEYS),
        ("the root key has exactly its size", at_area("GBB", 28, struct.pack("<I", 2088)), ""),
        ("the root key has one byte less than its size",
         at_area("GBB", 28, struct.pack("<I", 2087)), NO_KEYS),
        ("the root key begins in the head", at_area("GBB", 24, struct.pack("<I", 127)), NO_KEYS),
        ("the bitmaps are outside the area", at_area("GBB", 32, struct.pack("<I", 12289)), NO_KEYS),
        ("the root key's number begins 1 byte later", add_number("GBB", 0x180, "<Q", 1), NO_KEYS),
        ("the root key's number begins in its fields", at_area("GBB", 0x180, b"\x1f"), NO_KEYS),
        ("the root key's number is 1 byte longer", add_number("GBB", 0x188, "<Q", 1), NO_KEYS),
        ("the root key has the algorithm 8", at_area("GBB", 0x190, b"\x08"), NO_KEYS),
        ("the root key has the algorithm 10, of another digest (RSA)",
         at_area("GBB", 0x190, b"\x0a"), "no slot boots"),
        ("the recovery key is erased", fill("GBB", 0xFF, 0x1180, 0x1000), "recovery does not boot"),
        ("the recovery key has the size 0", at_area("GBB", 44, bytes(4)), "recovery does not boot"),
        ("the root key has the size 8", at_area("GBB", 28, b"\x08\0\0\0"), NO_KEYS),
        ("a bit of the root key (RSA)", bit("GBB", 0x180 + 100), "no slot boots"),
        ("the root key is erased", fill("GBB", 0xFF, 0x180, 0x1000), "no slot boots"),
        ("the recovery key begins outside the area", at_area("GBB", 40, struct.pack("<I", 12288)),
         "recovery does not boot"),
        ("a bit of the recovery key (RSA)", bit("GBB", 0x1180 + 100), "recovery does not boot"),
        ("the GBB is erased", fill("GBB", 0xFF), NO_KEYS),
        ("the GBB is filled with 0", fill("GBB", 0), NO_KEYS),
        ("the GBB begins 4 bytes later", shifted("GBB", 4), NO_KEYS),
    ]
    return [Change(board, "GBB", *row) for row in rows]


# ---- FIT and microcode

NO_MICROCODE = "the processor starts without microcode, or not at all"


def entry_bytes(index, offset, new):
    """Puts bytes into an entry of the FIT; entry 0 is its head."""
    return content_bytes("intel_fit", 16 * index + offset, new)


def entry_number(index, delta):
    """Adds to the address of an entry of the FIT."""
    def apply(data):
        entry, at = entry_of(data, "intel_fit")
        at += entry.offset + 16 * index
        return put(data, at, struct.pack("<Q", rules.u64(data, at) + delta))
    return apply


def pointer(delta):
    """Adds to the pointer to the FIT."""
    return lambda data: put(data, -0x40, struct.pack("<I", rules.u32(data, len(data) - 0x40)
                                                     + delta))


def fit_changes():
    """Returns changes of the FIT, the pointer to it, and the microcode."""
    code = "cpu_microcode_blob.bin"
    rows = [
        ("the pointer to the FIT is 16 too large", pointer(16), NO_MICROCODE),
        ("the pointer to the FIT is 16 too small", pointer(-16), NO_MICROCODE),
        ("the pointer to the FIT is 1 too large", pointer(1), NO_MICROCODE),
        ("the pointer to the FIT is 0", at_end(0x40, bytes(4)), NO_MICROCODE),
        ("the pointer to the FIT is erased", at_end(0x40, b"\xff" * 4), NO_MICROCODE),
        ("the pointer to the FIT is below the image", at_end(0x40, b"\0\0\0\xfe"), NO_MICROCODE),
        ("the upper half of the FIT's pointer is 1", at_end(0x3C, b"\1\0\0\0"), NO_MICROCODE),
        ("a byte of the FIT's magic", entry_bytes(0, 2, b"X"), NO_MICROCODE),
        ("the FIT has no entries", entry_bytes(0, 8, bytes(3)), NO_MICROCODE),
        ("the FIT has only its head", entry_bytes(0, 8, b"\1"), NO_MICROCODE),
        ("the FIT has one microcode less", entry_bytes(0, 8, b"\2"), NO_MICROCODE),
        ("the FIT has one unused slot more", entry_bytes(0, 8, b"\4"), ""),
        ("the FIT fills intel_fit", entry_bytes(0, 8, b"\x09"), ""),
        ("the FIT ends outside intel_fit", entry_bytes(0, 8, b"\x0a"), NO_MICROCODE),
        ("the FIT ends outside the image", entry_bytes(0, 8, b"\xff\xff\xff"), NO_MICROCODE),
        ("the checksum of the FIT, which is not used", entry_bytes(0, 15, b"\x01"), ""),
        ("microcode 1 is 16 bytes later", entry_number(1, 16), NO_MICROCODE),
        ("microcode 1 is 8 bytes later", entry_number(1, 8), NO_MICROCODE),
        ("microcode 1 is the second one", entry_number(1, 2048), ""),
        ("microcode 1 is at 2^32", entry_number(1, 1 << 32), NO_MICROCODE),
        ("microcode 1 is below the image", entry_bytes(1, 0, struct.pack("<Q", 0xFE000000)),
         NO_MICROCODE),
        ("microcode 1 is at the image's last 16 bytes",
         entry_bytes(1, 0, struct.pack("<Q", 0xFFFFFFF0)), NO_MICROCODE),
        ("the entry of microcode 1 is an empty slot, as some tables have",
         entry_bytes(1, 0, struct.pack("<Q", 0xFFFFFFFF)), ""),
        ("the checked bit of microcode 1 is set", entry_bytes(1, 14, b"\x81"), ""),
        ("the type of microcode 1 is 0x7f, a skipped entry", entry_bytes(1, 14, b"\x7f"),
         NO_MICROCODE),
        ("the version of microcode 1", content_bytes(code, 0, b"\2"), NO_MICROCODE),
        ("the version of microcode 1, with a right digest",
         redigested(code, 0, b"\2"), NO_MICROCODE),
        ("a bit of microcode 1", in_content(code, 1000), NO_MICROCODE),
        ("a bit of microcode 1, with a right digest", redigested(code, 1000, b"\0"), NO_MICROCODE),
        ("the last byte of microcode 1, with a right digest", redigested(code, 2047, b"\0"),
         NO_MICROCODE),
        ("the total size of microcode 1 is 0, with a right sum",
         redigested(code, 0, structures.microcode(2048, stated=0)), ""),
        ("the total size of microcode 1 is 4096", redigested(code, 32, struct.pack("<I", 4096)),
         NO_MICROCODE),
        ("the total size of microcode 1 is 2047", redigested(code, 32, struct.pack("<I", 2047)),
         NO_MICROCODE),
        ("the total size of microcode 1 is 2^32 - 4",
         redigested(code, 32, struct.pack("<I", 0xFFFFFFFC)), NO_MICROCODE),
        ("the sum of microcode 2 is 1, with a right digest",
         redigested(code, 2048, structures.microcode(4096, revision=2, sum_is=1)), NO_MICROCODE),
        ("a revision of microcode 2 with a right sum",
         redigested(code, 2048, structures.microcode(4096, revision=3)), ""),
        ("the microcode is erased", lambda data: put(
            data, sum(place(data, code)), b"\xff" * 6144), NO_MICROCODE),
    ]
    rows += [
        ("intel_fit is removed", tools(lambda b: b.cbfstool("remove", "-n", "intel_fit")),
         NO_MICROCODE),
        ("the microcode is removed", tools(lambda b: b.cbfstool("remove", "-n", code)),
         NO_MICROCODE),
        ("the FIT is erased", lambda data: put(data, sum(place(data, "intel_fit")), b"\xff" * 144),
         NO_MICROCODE),
    ]
    return [Change("intel", "FIT", *row) for row in rows]


def place(data, name, region="COREBOOT"):
    """Returns the offset of a component's entry in the image, and that of its content in it."""
    entry, at = entry_of(data, name, region)
    return at, entry.offset


def redigested(name, offset, new, region="COREBOOT"):
    """Puts bytes into the content of a component, and computes digest and anchor again."""
    def apply(data):
        made = content_bytes(name, offset, new, region)(data)
        entry, at = entry_of(made, name, region)
        stored = entry.metadata.index(struct.pack(">I", image.HASH_TAG)) + 12
        value = image.digest(image.SHA256, entry.content)
        return sealed(put(made, at + stored, value))
    return apply


# ---- Master header, bootblock, reset vector

NO_HEADER = "older payloads find no file system"
NO_START = "the processor finds no code"


def header_changes():
    """Returns changes of the master header and of the bootblock."""
    name = "cbfs master header"
    rows = [
        ("a byte of the header's magic", content_bytes(name, 0, b"X"), NO_HEADER),
        ("the header's version is 1", content_bytes(name, 4, b"1111"), ""),
        ("the header's end is 64 less", content_bytes(name, 8, struct.pack(">I", 16 * MIB - 64)),
         NO_HEADER),
        ("the header's end is 64 more", content_bytes(name, 8, struct.pack(">I", 16 * MIB + 64)),
         NO_HEADER),
        ("the size of the bootblock in the header", content_bytes(name, 12, b"\0\1\0\0"), ""),
        ("the alignment in the header", content_bytes(name, 16, b"\0\0\0\x10"), ""),
        ("the header's start of the region is 64 more",
         content_bytes(name, 20, struct.pack(">I", 10518528 + 64)), NO_HEADER),
        ("the header's start of the region is 0", content_bytes(name, 20, bytes(4)), NO_HEADER),
        ("the architecture in the header", content_bytes(name, 24, struct.pack(">I", 1)), ""),
        ("the header is erased", content_bytes(name, 0, b"\xff" * 32), NO_HEADER),
        ("the pointer to the header is 1 more", lambda data: flipped(data, -4), NO_HEADER),
        ("the pointer to the header is 64 more", lambda data: flipped(data, -4, 0x40), NO_HEADER),
        ("the pointer to the header is erased", at_end(4, b"\xff" * 4), NO_HEADER),
        ("the pointer to the header is 0", at_end(4, bytes(4)), NO_HEADER),
        ("the master header is removed", tools(lambda b: b.cbfstool("remove", "-n", name)),
         NO_HEADER),
        ("the reset vector is erased", at_end(16, b"\xff" * 12), NO_START),
        ("the reset vector is filled with 0", at_end(16, bytes(12)), NO_START),
        ("the reset vector and all after it is erased", at_end(16, b"\xff" * 16), NO_START),
        ("the jump of the reset vector is 0", at_end(16, bytes(3) + b"\x90"), NO_START),
        ("the reset vector has no bytes after its jump", at_end(13, b"\xff" * 9), ""),
        ("a bit of the bootblock's code", lambda data: flipped(data, -0x8000), NO_START),
        ("the second half of the bootblock is erased up to the FIT's pointer",
         at_end(0x8000, b"\xff" * 0x7FC0), NO_START),
        ("the bootblock is erased, with its entry",
         lambda data: put(data, place(data, "bootblock")[0], b"\xff" * (65536 + 0x40)), NO_START),
        ("the bootblock's content is erased", at_end(65536, b"\xff" * 65536), NO_START),
        ("the bootblock has the type raw", in_head("bootblock", 12, struct.pack(">I", 0x50),
                                                   seal=False),
         "the anchor is not found"),
        ("the bootblock has another name", in_head("bootblock", 24, b"bootblocX", seal=False),
         "the anchor is not found"),
        ("the bootblock is 64 bytes earlier", lambda data: earlier(data), NO_START),
    ]
    return [Change("intel", "bootblock", *row) for row in rows]


def earlier(data):
    """Returns the image with the bootblock 64 bytes earlier, and sealed."""
    at, _ = place(data, "bootblock")
    board = rules.Board(data)
    free = [one for one in all_free(board.bytes_of("COREBOOT"))][-1]
    start = board.area("COREBOOT").offset
    made = put(data, start + free[0], image.FreeEntry(free[1] - 64).bytes)
    return sealed(put(made, at - 64, data[at:] + b"\xff" * 64))


def all_free(region):
    """Yields the position and size of each free cell of a region."""
    at = 0
    while region[at : at + 8] == image.MAGIC:
        length, kind, _, offset = struct.unpack_from(">IIII", region, at + 8)
        size = -(-(offset + length) // 64) * 64
        if kind in (image.NULL, image.DELETED):
            yield at, size
        at += size


# ---- Anchor, digests and attributes

REFUSED = "the bootblock stops: CBFS verification fails"
UNLOADED = "the firmware refuses to load the component"


def anchor_place(data):
    """Returns the offset of the anchor in the image."""
    return data.index(image.ANCHOR_MAGIC)


def in_anchor(offset, new):
    """Puts bytes into the anchor."""
    return lambda data: put(data, anchor_place(data) + offset, new)


def anchor_bit(offset, mask=1):
    """Changes a bit of the anchor."""
    return lambda data: flipped(data, anchor_place(data) + offset, mask)


def moved_anchor(data):
    """Returns the image with the anchor so late that the bootblock ends in its map digest."""
    at = anchor_place(data)
    anchor = data[at : at + 76]
    return put(put(data, at, bytes(76)), len(data) - 75, anchor[:75])


def anchor_changes(board="intel"):
    """Returns changes of the anchor, and of metadata without sealing."""
    rows = [(f"byte {n} of the anchor's magic", anchor_bit(n), REFUSED) for n in (0, 7)]
    rows += [(f"the anchor's algorithm is {n}", in_anchor(11, bytes((n,))), REFUSED)
             for n in (0, 1, 3, 4, 5, 6, 255)]
    rows += [
        ("the ignored bytes of the anchor", in_anchor(8, b"abc"), ""),
        ("the first bit of the metadata digest", anchor_bit(12), REFUSED),
        ("the last bit of the metadata digest", anchor_bit(43, 0x80), REFUSED),
        ("the first bit of the map digest", anchor_bit(44), REFUSED),
        ("the last bit of the map digest", anchor_bit(75, 0x80), REFUSED),
        ("a bit of the byte after the anchor", anchor_bit(76), ""),
        ("both digests are 0", in_anchor(12, bytes(64)), REFUSED),
        ("the digests are exchanged", lambda data: put(
            data, anchor_place(data) + 12, data[anchor_place(data) + 44 :][:32]
            + data[anchor_place(data) + 12 :][:32]), REFUSED),
        ("another anchor before the anchor", lambda data: put(
            data, anchor_place(data) - 0x80, data[anchor_place(data) :][:12] + bytes(64)), REFUSED),
        ("another anchor after the anchor", lambda data: put(
            data, anchor_place(data) + 0x80, data[anchor_place(data) :][:12] + bytes(64)), ""),
        ("the name of config changes, and nothing is sealed",
         in_head("config", 24, b"konfig", seal=False), REFUSED),
        ("the name of config changes", in_head("config", 24, b"konfig"),
         "the firmware does not find config"),
        ("the type of config changes, and nothing is sealed",
         in_head("config", 12, struct.pack(">I", 0xAA), seal=False), REFUSED),
        ("the type of config changes", in_head("config", 12, struct.pack(">I", 0xAA)), ""),
        ("the length of config is one less, and nothing is sealed",
         in_head("config", 8, struct.pack(">I", 899), seal=False), REFUSED),
        ("a padding byte of config's name changes, and nothing is sealed",
         in_head("config", 31, b"x", seal=False), ""),
        ("revision becomes a free entry, and nothing is sealed",
         in_head("revision", 12, struct.pack(">I", 0xFFFFFFFF), seal=False), REFUSED),
        ("revision becomes a deleted entry", in_head("revision", 12, bytes(4)),
         "revision is gone"),
        ("logo.bmp is a copy of itself with a right digest and another stored one",
         in_head("logo.bmp", 100, b"\0\0", seal=False), REFUSED),
    ]
    if board == "intel":
        rows.append(("the anchor is cut off by the bootblock's end", moved_anchor, REFUSED))
    return [Change(board, "anchor", *row) for row in rows]


def content_changes(board="intel"):
    """Returns changes of the contents of components."""
    names = ("fallback/romstage", "fallback/ramstage", "fallback/verstage", "fallback/payload",
             "config", "revision", "logo.bmp", "etc/boot-delay")
    rows = [(f"the first bit of {name}", in_content(name, 0), UNLOADED) for name in names]
    rows += [(f"the last bit of {name}", in_content(name, -1, 0x80), UNLOADED) for name in names]
    return [Change(board, "content", *row) for row in rows]


def attribute_changes():
    """Returns changes of the attributes of components."""
    def after(tag, first=(), wrong=b""):
        unused = image.attribute(tag)
        return lambda content: [*first, unused, DIGEST(image.SHA256, content + wrong)]

    def reserved(content):
        value = image.digest(image.SHA256, content)
        return [image.attribute(image.HASH_TAG, b"\1\0\0\2" + value)]

    def long_digest(content):
        return [image.attribute(image.HASH_TAG, struct.pack(">I", 2) + image.digest(2, content)
                                + bytes(4))]

    def other_number(content):
        return [image.attribute(image.HASH_TAG, struct.pack(">I", 9) + bytes(32))]

    def packed(content, size):
        return [*digested(content), image.attribute(image.COMPRESSION_TAG, bytes(size))]

    def stage(load, first, memory, length=None):
        return lambda content: [*digested(content),
                                image.stage_attribute(first, memory, load, length)]

    gone = "coreboot's tools and the firmware read other attributes than ours"
    bad_stage = "the firmware jumps outside the stage"
    rom = "fallback/romstage"
    rows = [
        ("revision's digest is after a first tag 0",
         rebuilt("revision", after(0), text(15, 200)), gone),
        ("revision's wrong digest is after a first tag 0",
         rebuilt("revision", after(0, wrong=b"x"), text(15, 200)), UNLOADED),
        ("revision's wrong digest is after a first tag 0xffffffff",
         rebuilt("revision", after(0xFFFFFFFF, wrong=b"x"), text(15, 200)), UNLOADED),
        ("revision's wrong digest is after a second tag 0",
         rebuilt("revision", after(0, [image.attribute(7)], b"x"), text(15, 200)), UNLOADED),
        ("the reserved bytes of revision's digest are not 0",
         rebuilt("revision", reserved, text(15, 200)), ""),
        ("revision's digest has 4 bytes more", rebuilt("revision", long_digest, text(15, 200)),
         UNLOADED),
        ("revision's digest has an unknown algorithm",
         rebuilt("revision", other_number, text(15, 200)), UNLOADED),
        ("revision has no digest", rebuilt("revision", lambda content: [], text(15, 200)),
         UNLOADED),
        ("revision has a digest of another algorithm", rebuilt(
            "revision", lambda content: [DIGEST(image.SHA512, content)], text(15, 150)), UNLOADED),
        ("revision has two digests, and the second is wrong", rebuilt(
            "revision", lambda content: [*digested(content), DIGEST(image.SHA256, b"x")],
            text(15, 150)),
            "coreboot's cbfstool calls the component invalid"),
        ("revision has two digests, and the first is wrong", rebuilt(
            "revision", lambda content: [DIGEST(image.SHA256, b"x"), *digested(content)],
            text(15, 150)), UNLOADED),
        ("revision's compression attribute has 16 bytes",
         rebuilt("revision", lambda content: packed(content, 8), text(15, 200)), ""),
        ("revision's compression attribute has 20 bytes",
         rebuilt("revision", lambda content: packed(content, 12), text(15, 150)),
         "the size after decompression is misread"),
        ("the fields before revision's content have 256 bytes",
         rebuilt("revision", digested, text(15, 64), gap=256 - 36 - 44), ""),
        ("the fields before revision's content have 257 bytes",
         rebuilt("revision", digested, text(15, 64), gap=257 - 36 - 44),
         "the firmware does not find the component"),
        ("romstage has no attribute of a stage", rebuilt(rom, digested, text(10, 29900)),
         bad_stage),
        ("romstage's attribute has 20 bytes", rebuilt(rom, lambda content: [
            *digested(content), image.attribute(image.STAGE_TAG, bytes(12))],
            text(10, 29900)), bad_stage),
        ("romstage's attribute has 28 bytes", rebuilt(rom, lambda content: [
            *digested(content), image.attribute(image.STAGE_TAG, struct.pack(
                ">QIII", 0x2000000, 16, 30000, 0))], text(10, 29900)),
            "the firmware refuses the stage"),
        ("romstage's entry is its memory size", rebuilt(rom, stage(0x2000000, 30000, 30000),
                                                        text(10, 29900)), bad_stage),
        ("romstage's entry is one below its memory size",
         rebuilt(rom, stage(0x2000000, 29999, 30000), text(10, 29900)), ""),
        ("romstage's entry is 2^32 - 1", rebuilt(rom, stage(0x2000000, 0xFFFFFFFF, 30000),
                                                 text(10, 29900)), bad_stage),
        ("romstage has another load address", rebuilt(rom, stage(0x3000000, 16, 30000),
                                                      text(10, 29900)), ""),
        ("romstage's memory is smaller than its content",
         rebuilt(rom, stage(0x2000000, 16, 100), text(10, 29900)), "romstage is cut off"),
        ("romstage has no digest", rebuilt(rom, lambda content: [
            image.stage_attribute(16, 30000, 0x2000000)], text(10, 29900)), UNLOADED),
    ]
    return [Change("intel", "attributes", *row) for row in rows]


# ---- Two images

def image_changes():
    """Returns changes of the image as a whole."""
    rows = [
        ("the image has only its first half", lambda data: data[: 8 * MIB], "most areas are gone"),
        ("the image is cut off by one byte", lambda data: data[:-1], "the last byte is gone"),
        ("the image has one byte more", lambda data: data + b"\xff", "flashrom refuses it"),
        ("the image is doubled", lambda data: data + data, "flashrom refuses it"),
        ("the image is extended by 0xff", lambda data: data + b"\xff" * len(data),
         "flashrom refuses it"),
        ("the image is erased", lambda data: b"\xff" * len(data), "nothing is left"),
        ("the image is filled with 0", lambda data: bytes(len(data)), "nothing is left"),
        ("the second half is erased, as after an interrupted write",
         lambda data: data[: 8 * MIB] + b"\xff" * 8 * MIB, "nothing boots"),
        ("the last 64 KiB are erased, as after an interrupted write",
         lambda data: data[:-65536] + b"\xff" * 65536, NO_START),
        ("COREBOOT is erased", fill("COREBOOT", 0xFF), NO_START),
        ("COREBOOT is filled with 0", fill("COREBOOT", 0), NO_START),
        ("the image is one byte later", lambda data: b"\xff" + data[:-1], "nothing boots"),
        ("the bytes of each 16 bit are exchanged, as by a wrong programmer", exchanged,
         "nothing boots"),
    ]
    return [Change("intel", "image", *row) for row in rows]


def exchanged(data):
    """Returns the bytes with each pair exchanged."""
    made = bytearray(len(data))
    made[0::2], made[1::2] = data[1::2], data[0::2]
    return bytes(made)


# ---- Good changes


def good_changes():
    """Returns good changes that the real tools make."""
    types = ("raw", "bootsplash", "spd", "microcode", "optionrom", "cmos_default", "mrc", "vsa",
             "mbi", "fsp", "cmos_layout", "mrc_cache")
    rows = [
        (f"coreboot's cbfstool adds a component of type {kind}",
         tools(lambda b, kind=kind: b.add("new", text(90, 700), type=kind))) for kind in types
    ]
    rows += [
        (f"coreboot's cbfstool adds a component at {where}",
         tools(lambda b, words=words: b.add("new", text(90, 700), *words)))
        for where, words in (("an aligned place", ("-a", "4096")),
                             ("an offset", ("-b", "0x200000")),
                             ("an address", ("-b", "0xffe80000")))
    ]
    rows += [
        ("coreboot's cbfstool removes logo.bmp",
         tools(lambda b: b.cbfstool("remove", "-n", "logo.bmp"))),
        ("coreboot's cbfstool replaces the payload",
         tools(lambda b: b.cbfstool("remove", "-n", "fallback/payload"),
               lambda b: b.payload("fallback/payload", text(91, 50000), 0x6000000, "-c", "lzma"))),
        ("coreboot's cbfstool replaces ramstage",
         tools(lambda b: b.cbfstool("remove", "-n", "fallback/ramstage"),
               lambda b: b.stage("fallback/ramstage", text(92, 90000), 0x4000000, "-c", "lzma",
                                 memory=120000))),
        ("coreboot's cbfstool adds a number",
         tools(lambda b: b.cbfstool("add-int", "-i", "7", "-n", "etc/number"))),
        ("coreboot's cbfstool adds a flat binary",
         tools(lambda b: b.put("flat", text(93, 4000)),
               lambda b: b.cbfstool("add-flat-binary", "-n", "flat", "-f", "flat", "-l",
                                    "0x100000", "-e", "0x100000", "-c", "none"))),
        ("coreboot's cbfstool compacts COREBOOT after a removal",
         tools(lambda b: b.cbfstool("remove", "-n", "revision"),
               lambda b: b.cbfstool("compact", "-r", "RW_LEGACY"))),
        ("coreboot's cbfstool writes the master header again",
         tools(lambda b: b.cbfstool("remove", "-n", "cbfs master header"),
               lambda b: b.cbfstool("add-master-header"))),
        ("ifittool writes the table again",
         tools(lambda b: b.run("ifittool", "-f", b.rom, "-r", "COREBOOT", "-s", "8", "-c"),
               lambda b: b.run("ifittool", "-f", b.rom, "-r", "COREBOOT", "-s", "8", "-a", "-n",
                               "cpu_microcode_blob.bin", "-t", "1"))),
        ("the microcode is replaced, and entered by ifittool", tools(
            lambda b: b.cbfstool("remove", "-n", "cpu_microcode_blob.bin"),
            lambda b: b.add("cpu_microcode_blob.bin", structures.microcode(4096, revision=9)
                            + structures.microcode(2048, revision=10), "-a", "16",
                            type="microcode"),
            lambda b: b.run("ifittool", "-f", b.rom, "-r", "COREBOOT", "-s", "8", "-c"),
            lambda b: b.run("ifittool", "-f", b.rom, "-r", "COREBOOT", "-s", "8", "-a", "-n",
                            "cpu_microcode_blob.bin", "-t", "1"))),
        ("both slots are signed again", tools(sign)),
        ("both slots are signed with version 2", tools(
            lambda b: b.run("futility", "sign", "--type", "bios", "-v", "2", b.rom))),
        ("slot A is filled again, and signed", tools(
            lambda b: b.cbfstool("expand", "-r", "FW_MAIN_A"),
            lambda b: b.cbfstool("remove", "-r", "FW_MAIN_A", "-n", "ecrw"),
            lambda b: b.add("ecrw", text(94, 9000), region="FW_MAIN_A"), sign)),
        ("slot B is created again, and signed", tools(new_slot, sign)),
        ("slot A is signed by a futility without cbfstool, so that all its bytes are signed",
         chain(fill("VBLOCK_A", 0xFF), tools(sign_without_cbfstool))),
        ("RW_LEGACY gets another payload", tools(
            lambda b: b.payload("altfw/edk2", text(95, 50000), 0x6000000, region="RW_LEGACY"))),
        ("RW_LEGACY is erased", fill("RW_LEGACY", 0xFF)),
        ("the hardware id is set by futility", tools(
            lambda b: b.run("futility", "gbb", "-s", "--hwid=OTHER BOARD", b.rom))),
        ("the flags of the GBB are set by futility", tools(
            lambda b: b.run("futility", "gbb", "-s", "--flags=0x39", b.rom))),
        ("the version of the read-only firmware changes", at_area("RO_FRID", 0, b"Board.9\0")),
        ("the version of slot A changes", at_area("RW_FWID_A", 0, b"Board.9\0")),
        ("RW_VPD changes", at_area("RW_VPD", 0, b"gVpdInfo data")),
        ("RW_NVRAM is erased", fill("RW_NVRAM", 0xFF)),
        ("RW_MRC_CACHE is written", at_area("RW_MRC_CACHE", 0, text(96, 4096))),
        ("RW_ELOG is written", at_area("RW_ELOG", 0, b"ELOG")),
        ("the descriptor is locked by ifdtool", tools(
            lambda b: b.run("ifdtool", "-l", "-O", "rom", "rom"))),
        ("the descriptor is unlocked by ifdtool", tools(
            lambda b: b.run("ifdtool", "-u", "-O", "rom", "rom"))),
        ("the frequency of the chip is set by ifdtool", tools(
            lambda b: b.run("ifdtool", "-s", "33", "-O", "rom", "rom"))),
        ("another engine is injected by ifdtool", tools(
            lambda b: b.put("me", structures.partition_table(start=b"") + text(97, 100000)),
            lambda b: b.run("ifdtool", "-i", "me:me", "-O", "rom", "rom"))),
        ("the bytes in RO_FRID_PAD change", at_area("RO_FRID_PAD", 0, b"x" * 100)),
        ("nothing changes", lambda data: data),
    ]
    return [Change("intel", "good", phrase, apply, "") for phrase, apply in rows]


def new_slot(bench, has_anchor=True):
    """Creates the CBFS of slot B again in another image, with other contents.

    Coreboot's tool stores a digest in each component if the other image has an anchor.
    """
    other = Bench(tempfile.mkdtemp(dir=bench.folder))
    other.create("FLASH 4M { FMAP 4K FW_MAIN_B(CBFS) 3080128 COREBOOT(CBFS) }",
                 ["COREBOOT", "FW_MAIN_B"])
    if has_anchor:
        other.add("bootblock", structures.bootblock(65536, anchor=EMPTY_ANCHOR), "-b", "-65536",
                  type="bootblock")
    fill_slot(other, "FW_MAIN_B", 200)
    other.cbfstool("read", "-r", "FW_MAIN_B", "-f", "slot")
    bench.cbfstool("write", "-F", "-r", "FW_MAIN_B", "-f", other.folder / "slot")


def sign_without_cbfstool(bench):
    """Signs with a PATH that has no cbfstool, so that the complete area is signed."""
    subprocess.run([tool("futility"), "sign", "--type", "bios", bench.rom], check=True,
                   env={**os.environ, "PATH": "/nowhere"}, stdout=subprocess.DEVNULL,
                   stderr=subprocess.DEVNULL)


# ---- The other boards


def arm_changes():
    """Returns changes of the board `arm`."""
    rows = [
        ("the first byte of the bootblock's area", bit("BOOTBLOCK", 0), NO_START),
        ("the area BOOTBLOCK is erased", fill("BOOTBLOCK", 0xFF), NO_START),
        ("the area BOOTBLOCK is filled with 0", fill("BOOTBLOCK", 0), NO_START),
        ("the area BOOTBLOCK is renamed", area_field("BOOTBLOCK", 8, "32s", b"BOOTBLOX",
                                                     seal=False), NO_START),
        ("the area BOOTBLOCK ends in the map digest",
         area_field("BOOTBLOCK", 4, "<I", 8000 + 75, seal=False), REFUSED),
        ("the area BOOTBLOCK ends at the end of the map digest",
         area_field("BOOTBLOCK", 4, "<I", 8000 + 76), ""),
        ("the pointer to the header is 64 more", in_content("header pointer", 0, 0x40), NO_HEADER),
        ("the pointer to the header is erased",
         content_bytes("header pointer", 0, b"\xff" * 4), NO_HEADER),
        ("the header pointer's component is removed",
         tools(lambda b: b.cbfstool("remove", "-n", "header pointer")), NO_HEADER),
        ("a byte of the header's magic", content_bytes("cbfs master header", 0, b"X"), NO_HEADER),
        ("the header's end is 64 less", content_bytes("cbfs master header", 8,
                                                      struct.pack(">I", 4165376 - 64)), NO_HEADER),
        ("VBLOCK_A is erased", fill("VBLOCK_A", 0xFF), UNSIGNED),
        ("a bit of the keyblock's key", bit("VBLOCK_A", 300), UNSIGNED),
        ("the signed length of the body is 64 less", add_number("VBLOCK_A", KEYBLOCK + 96, "<Q",
                                                                -64), UNSIGNED),
        ("a bit of FW_MAIN_B's payload", in_content("fallback/payload", 9, region="FW_MAIN_B"),
         UNSIGNED),
        ("byte 0 of the GBB's magic", bit("GBB", 0), NO_KEYS),
        ("a bit of the hardware id", bit("GBB", 128), "updates refuse the board"),
        ("the GBB is erased", fill("GBB", 0xFF), NO_KEYS),
        ("RW_UNUSED is written", at_area("RW_UNUSED", 0, text(1, 5000)), ""),
        ("RW_VPD changes", at_area("RW_VPD", 0, b"gVpdInfo data"), ""),
        ("coreboot's cbfstool adds a component", tools(lambda b: b.add("new", text(90, 700))), ""),
        ("coreboot's cbfstool removes config",
         tools(lambda b: b.cbfstool("remove", "-n", "config")), ""),
        ("both slots are signed again", tools(sign), ""),
        ("the last 16 bytes of the image are 0xff and 0", at_end(32, b"\xff" * 16 + bytes(16)), ""),
        ("a FIT pointer of 0 at the image's end", at_end(0x40, bytes(4)), ""),
        ("the image is cut off by one area", lambda data: data[: 6 * MIB], "most areas are gone"),
    ]
    made = [Change("arm", "arm", *row) for row in rows]
    return made + anchor_changes("arm") + content_changes("arm")


def plain_changes():
    """Returns changes of the board `plain`."""
    rows = [
        ("the reset vector is erased", at_end(16, b"\xff" * 12), NO_START),
        ("the reset vector is filled with 0", at_end(16, bytes(12)), NO_START),
        ("the bootblock's content is erased", at_end(32768, b"\xff" * 32768), NO_START),
        ("the bootblock is erased, with its entry",
         lambda data: put(data, place(data, "bootblock")[0], b"\xff" * (32768 + 0x40)), NO_START),
        ("a pointer to the FIT of 0xffffffff", at_end(0x40, b"\xff" * 4), ""),
        ("a pointer to the FIT below the image", at_end(0x40, bytes(4) + b"\1"), ""),
        ("a bit of config", in_content("config", 5), UNLOADED),
        ("a bit of romstage, which has no digest", in_content("fallback/romstage", 5), UNLOADED),
        ("a bit of data, which has no digest", in_content("data", 5), "other data are read"),
        ("the pointer to the header is 64 more", lambda data: flipped(data, -4, 0x40), NO_HEADER),
        ("the header is erased", content_bytes("cbfs master header", 0, b"\xff" * 32), NO_HEADER),
        ("romstage's entry is 2^32 - 1", in_head("fallback/romstage", 24 + 20 + 16,
                                                 b"\xff" * 4, seal=False),
         "the firmware jumps outside the stage"),
        ("CONFIG changes", at_area("CONFIG", 0, b"setting=1"), ""),
        ("CONFIG is erased", fill("CONFIG", 0xFF), ""),
        ("coreboot's cbfstool adds a component without a digest",
         tools(lambda b: b.add("new", text(90, 700))), ""),
        ("coreboot's cbfstool removes data", tools(lambda b: b.cbfstool("remove", "-n", "data")),
         ""),
        ("COREBOOT is erased", fill("COREBOOT", 0xFF), NO_START),
        ("the map is erased", fill("FMAP", 0xFF), DEAD_TOOLS),
        ("the image has only its first half", lambda data: data[: 4 * MIB], "most areas are gone"),
    ]
    return [Change("plain", "plain", *row) for row in rows]


def all_changes():
    """Returns all changes of the three boards."""
    parts = (map_changes(), descriptor_changes(), slot_changes(), gbb_changes(), fit_changes(),
             header_changes(), anchor_changes(), content_changes(), attribute_changes(),
             image_changes(), good_changes(), arm_changes(), plain_changes())
    return [change for part in parts for change in part]
