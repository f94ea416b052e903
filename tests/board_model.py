"""The rows of cbfscheck for the structures that a board boots from: a part of tests/model.py.

Each function is written from the sections "Board structures" and "Rows of the board" of
docs/FORMAT.md. It gets the bytes of a structure, and returns its row as a code and a text, or the
code alone for the text of tests/model.py. `CODES` has the verdict and the text of each code.
"""

import hashlib
import struct

from tests.image import BOOTBLOCK, CBFS_HEADER, CELL_SIZE, round_up
from tests.structures import (
    DESCRIPTOR_MAGIC, FIT_MAGIC, FIT_MICROCODE, FIT_POINTER_FROM_END, FOUR_GIB, GBB_HEAD_SIZE,
    HEADER_MAGIC, HEADER_VERSION_2, KEYBLOCK_SIZE, PAGE, RESET_VECTOR_FROM_END, SHA512_SIZE,
)

CODES = {
    "descriptor": ("remark", "flash descriptor"),
    "descriptor-blank": ("remark", "blank: no flash descriptor"),
    "descriptor-invalid": ("bad", "no flash descriptor"),
    "area-not-region": ("bad", "isn't the region of the flash descriptor"),
    "me-table": ("remark", "partition table of the ME"),
    "me-table-blank": ("remark", "blank: no partition table of the ME"),
    "me-table-invalid": ("bad", "no partition table of the ME"),
    "reset-vector": ("remark", "reset vector"),
    "reset-vector-invalid": ("bad", "reset vector is erased"),
    "firmware-table": ("remark", "firmware interface table"),
    "firmware-table-invalid": ("bad", "firmware interface table has no entries"),
    "master-header": ("remark", "master header"),
    "master-header-invalid": ("bad", "no master header"),
    "gbb": ("remark", "GBB"),
    "gbb-flags": ("remark", "flags weaken the verification"),
    "gbb-blank": ("remark", "blank: no GBB"),
    "gbb-invalid": ("bad", "no GBB"),
    "slot": ("remark", "signed slot"),
    "slot-blank": ("remark", "blank: no signatures"),
    "slot-not-checked": ("remark", "body isn't checked: no length is signed"),
    "slot-invalid": ("bad", "no keyblock"),
}


class Broken(Exception):
    """A structure is broken: the text of its row, and the number in its detail or None."""

    def __init__(self, text, value=None):
        super().__init__(text)
        self.text = text
        self.value = value


def require(holds, text):
    """Raises `Broken` if a rule does not hold."""
    if not holds:
        raise Broken(text)


def little(data, at, size=4):
    """Returns a little-endian number."""
    return int.from_bytes(data[at : at + size], "little")


def is_filled_with(data, byte):
    """Returns whether each byte is this one."""
    return data.count(byte) == len(data)


# ---- The files of Intel

# The areas of the regions, by their numbers in the descriptor's table.
REGION_AREAS = {0: b"SI_DESC", 1: b"SI_BIOS", 2: b"SI_ME", 3: b"SI_GBE", 4: b"SI_PDR", 8: b"SI_EC"}
REGIONS_SIZE = 4 * 9


def marker_place(data, marker):
    """Returns where a marker is, at 0x10 or at 0, or None."""
    return next((at for at in (0x10, 0) if data[at : at + 4] == marker), None)


def region_table(area):
    """Returns the table of regions of a flash descriptor."""
    require(len(area) >= PAGE, "flash descriptor has less than 4096 bytes")
    at = marker_place(area, struct.pack("<I", DESCRIPTOR_MAGIC))
    require(at is not None, "no flash descriptor")
    table = 16 * area[at + 6]
    text = "table of regions ends outside the flash descriptor"
    require(table + REGIONS_SIZE <= PAGE, text)
    return area[table : table + REGIONS_SIZE]


def described_places(table):
    """Returns the name, the start and the size of the area of each used region."""
    places = []
    for number, name in REGION_AREAS.items():
        first, last = (little(table, 4 * number + at, 2) & 0x7FFF for at in (0, 2))
        if first <= last:
            places.append((name, first * PAGE, (last + 1 - first) * PAGE))
    return places


def is_blank(area):
    """Returns whether each byte of an area is 0xff."""
    return is_filled_with(area, 0xFF)


def has_partition_table(area):
    """Returns whether the marker of a partition table begins the area."""
    return marker_place(area, b"$FPT") is not None


# ---- The end of the image


def vector_fault(image):
    """Returns the text of a broken reset vector, or None."""
    code = image[-RESET_VECTOR_FROM_END:-4]
    texts = {0xFF: "reset vector is erased", 0: "reset vector is cleared"}
    return next((text for byte, text in texts.items() if is_filled_with(code, byte)), None)


MAPPED = 1 << 24
UNUSED_ADDRESS, EMPTY_SLOT = 0xFFFFFFFF, b"\xff" * 4
UPDATE_HEAD, DEFAULT_LENGTH = 48, 2048


def offset_of(image, address):
    """Returns the offset of an address in the image, or None if it is not mapped."""
    offset = address - FOUR_GIB + len(image)
    is_mapped = address < FOUR_GIB and FOUR_GIB - address <= MAPPED
    return offset if is_mapped and offset >= 0 else None


def check_firmware_table(image):
    """Returns whether the image points to a firmware interface table, which is not broken."""
    at = offset_of(image, little(image, len(image) - FIT_POINTER_FROM_END, 8))
    if at is None or at + 16 > len(image) or image[at : at + 8] != FIT_MAGIC:
        return False
    count = little(image, at + 8, 3)
    require(count, "firmware interface table has no entries")
    require(at + 16 * count <= len(image), "firmware interface table ends outside the image")
    left = len(image)
    for number in range(1, count):
        entry = image[at + 16 * number : at + 16 * (number + 1)]
        try:
            left -= update_length(image, entry, left)
        except Broken as broken:
            raise Broken(broken.text, number) from None
    return True


def update_length(image, entry, left):
    """Returns the length of the update of an entry, or 0 without one; at most `left` bytes."""
    address = little(entry, 0, 8)
    if entry[14] & 0x7F != FIT_MICROCODE or address == UNUSED_ADDRESS:
        return 0
    require(address % 16 == 0, "microcode is at no multiple of 16")
    at = offset_of(image, address)
    require(at is not None, "microcode lies outside the image")
    require(at + UPDATE_HEAD <= len(image), "microcode ends outside the image")
    if image[at : at + 4] == EMPTY_SLOT:
        return 0
    require(little(image, at) == 1, "microcode has another version than 1")
    length = little(image, at + 32) or DEFAULT_LENGTH
    require(at + length <= len(image) and length <= left, "microcode has a wrong length")
    words = image[at : at + length - length % 4]
    total = sum(number for number, in struct.iter_unpack("<I", words))
    require(length % 4 == 0 and total % FOUR_GIB == 0, "microcode has another sum than 0")
    return length


# ---- The master header


def check_header(image, area, start):
    """Checks the master header whose content begins at an offset of its area, COREBOOT."""
    require(start + 32 <= area.size, "master header ends outside COREBOOT")
    at, end = area.offset + start, area.offset + area.size
    magic, version, stated_end, _, alignment, stated_start = struct.unpack_from(">4s5I", image, at)
    require(magic == HEADER_MAGIC, "no master header")
    require(version == HEADER_VERSION_2, "master header has another version than 1112")
    require(stated_start == area.offset, "master header states another start of COREBOOT")
    require(stated_end == end, "master header states another end of COREBOOT")
    require(alignment == CELL_SIZE, "master header has another alignment than 64")
    pointer = struct.unpack_from("<i", image, end - 4)[0]
    text = "last four bytes of COREBOOT don't point to the master header"
    require(pointer == start - area.size, text)


# ---- vboot

KEY_HEAD = 32
KEY_SIZES = (264, 520, 1032, 2056, 520, 776)


def is_key(data, room):
    """Returns whether a key is usable in a structure that ends `room` bytes after its start."""
    offset, size, algorithm = (little(data, at) for at in (0, 8, 16))
    return (algorithm < 3 * len(KEY_SIZES) and size == KEY_SIZES[algorithm // 3]
            and offset + size <= room)


MOST_TEXT = 4096
GBB_FIELDS = (
    (16, "hardware id lies outside the GBB"), (24, "root key lies outside the GBB"),
    (32, "bitmaps lie outside the GBB"), (40, "recovery key lies outside the GBB"),
)


def gbb_flags(area):
    """Returns the flags of a GBB that is not broken."""
    require(len(area) >= GBB_HEAD_SIZE, "GBB has less than 128 bytes")
    require(area[:4] == b"$GBB", "no GBB")
    major, minor, head, flags = struct.unpack_from("<HHII", area, 4)
    require(major == 1, "GBB has another major version than 1")
    require(head == GBB_HEAD_SIZE, "GBB has another header length than 128")
    places = {}
    for at, text in GBB_FIELDS:
        offset, size = struct.unpack_from("<II", area, at)
        require(offset >= GBB_HEAD_SIZE and offset + size <= len(area), text)
        places[at] = area[offset : offset + size]
    check_hardware_id(places[16], area[48:80] if minor >= 2 else None)
    for at, name in (24, "root key"), (40, "recovery key"):
        key = places[at]
        require(len(key) >= KEY_HEAD and is_key(key, len(key)), f"no usable {name}")
    return flags


def check_hardware_id(field, stored):
    """Checks the hardware id, which may be empty, and its digest, if it is set."""
    if field:
        text, end, _ = field[:MOST_TEXT].partition(b"\0")
        require(end, "hardware id has no end")
        is_right = stored is None or hashlib.sha256(text).digest() == stored
        require(is_right, "hardware id has another digest")


MOST_UNDER_CHECKSUM = 4096
PREAMBLE_HEAD = 104


def signature(data, at):
    """Returns the offset, the length and the length of what is signed, of a signature."""
    return tuple(little(data, at + part) for part in (0, 8, 16))


def check_signature(data, at, room, outside, signed_outside):
    """Checks that a signature and what it signs end in a structure of `room` bytes."""
    offset, size, signed = signature(data, at)
    require(at + offset + size <= room, outside)
    require(signed_outside is None or signed <= room, signed_outside)


def keyblock_length(area):
    """Returns the length of the keyblock at the start of a slot."""
    require(len(area) >= KEYBLOCK_SIZE, "keyblock has less than 112 bytes")
    require(area[:8] == b"CHROMEOS", "no keyblock")
    length = little(area, 16)
    require(little(area, 8) == 2, "keyblock has another major version than 2")
    require(KEYBLOCK_SIZE <= length <= len(area), "keyblock has a wrong length")
    check_signature(area, 24, length, "signature of the keyblock lies outside it",
                    "signed bytes of the keyblock end outside it")
    check_signature(area, 48, length, "checksum of the keyblock lies outside it",
                    "bytes under the checksum end outside the keyblock")
    offset, size, signed = signature(area, 48)
    require(size == SHA512_SIZE, "checksum of the keyblock hasn't 64 bytes")
    require(signed <= MOST_UNDER_CHECKSUM, "checksum covers more than 4096 bytes")
    require(is_key(area[80:KEYBLOCK_SIZE], length - 80), "no usable data key")
    stored = area[48 + offset : 48 + offset + SHA512_SIZE]
    is_right = hashlib.sha512(area[:signed]).digest() == stored
    require(is_right, "keyblock has another checksum")
    return length


def signed_length(preamble):
    """Returns how many bytes of the body the preamble signs, which begins behind the keyblock."""
    require(len(preamble) >= PREAMBLE_HEAD, "no preamble")
    require(little(preamble, 32) == 2, "preamble has another major version than 2")
    length = little(preamble, 0)
    require(PREAMBLE_HEAD <= length <= len(preamble), "preamble has a wrong length")
    check_signature(preamble, 8, length, "signature of the preamble lies outside it",
                    "signed bytes of the preamble end outside it")
    check_signature(preamble, 80, length, "signature of the body lies outside the preamble", None)
    return signature(preamble, 80)[2]


def is_signed(area, body_end, body_size):
    """Returns whether a slot signs its body, whose entries end at `body_end`."""
    signed = signed_length(area[keyblock_length(area) :])
    if signed:
        require(body_end <= signed, "components aren't signed: sign the slot again")
        text = "signed bytes end outside the slot: sign the slot again"
        require(signed <= body_size, text)
    return signed > 0


# ---- The rows


class BoardRows:
    """The rows of the board of an image; `finding` makes a row, as in tests/model.py."""

    def __init__(self, image, finding):
        self.image = image
        self.finding = finding

    def rows(self):
        """Returns the rows of all structures, in order."""
        coreboot = self.image.inside(b"COREBOOT")
        rows = [*self.descriptor(), *self.partition_table()]
        if coreboot:
            rows += self.vector(coreboot) + self.firmware_table(coreboot) + self.header(coreboot)
        return [*rows, *self.gbb(), *self.slot(b"A"), *self.slot(b"B")]

    def bytes_in(self, name):
        """Returns the bytes of the first area with a name, or None if it is not inside."""
        area = self.image.inside(name)
        return self.image.bytes_of(area) if area else None

    def broken(self, code, area, broken, **fields):
        """Returns the row of a structure that is broken."""
        return [self.finding(code, area, what=broken.text, value=broken.value, **fields)]

    def descriptor(self):
        data = self.bytes_in(b"SI_DESC")
        if data is None:
            return []
        if is_blank(data):
            return [self.finding("descriptor-blank", b"SI_DESC")]
        try:
            table = region_table(data)
        except Broken as broken:
            return self.broken("descriptor-invalid", b"SI_DESC", broken)
        rows = [self.finding("descriptor", b"SI_DESC")]
        for name, start, size in described_places(table):
            area = self.image.first(name)
            if area and (area.offset, area.size) != (start, size):
                rows.append(self.finding("area-not-region", name, position=area.offset))
        return rows

    def partition_table(self):
        data = self.bytes_in(b"SI_ME")
        if data is None:
            return []
        found = "me-table" if has_partition_table(data) else "me-table-invalid"
        return [self.finding("me-table-blank" if is_blank(data) else found, b"SI_ME")]

    def placed(self, area):
        """Returns the components of an area, up to its last multiple of 64 bytes."""
        return self.image.entries(area).components

    def ends_with_bootblock(self, area):
        return any(one.type == BOOTBLOCK and one.start + len(one.content) == area.size
                   for one in self.placed(area))

    def is_x86(self, area):
        """Returns whether a bootblock ends with COREBOOT, and COREBOOT with the image."""
        is_last = area.offset + area.size == len(self.image.data)
        return is_last and self.ends_with_bootblock(area)

    def vector(self, area):
        if not self.is_x86(area):
            return []
        text = vector_fault(self.image.data)
        if text:
            return [self.finding("reset-vector-invalid", area.name, what=text)]
        return [self.finding("reset-vector", area.name)]

    def firmware_table(self, area):
        try:
            has_table = self.is_x86(area) and check_firmware_table(self.image.data)
        except Broken as broken:
            return self.broken("firmware-table-invalid", area.name, broken)
        return [self.finding("firmware-table", area.name)] if has_table else []

    def header(self, area):
        header = next((one for one in self.placed(area) if one.type == CBFS_HEADER), None)
        if header is None:
            return []
        try:
            check_header(self.image.data, area, header.start)
        except Broken as broken:
            verdict = "bad" if self.ends_with_bootblock(area) else "remark"
            return self.broken("master-header-invalid", area.name, broken, verdict=verdict)
        return [self.finding("master-header", area.name)]

    def gbb(self):
        data = self.bytes_in(b"GBB")
        if data is None:
            return []
        if is_blank(data):
            return [self.finding("gbb-blank", b"GBB")]
        try:
            flags = gbb_flags(data)
        except Broken as broken:
            return self.broken("gbb-invalid", b"GBB", broken)
        return [self.finding("gbb-flags", b"GBB", value=flags) if flags
                else self.finding("gbb", b"GBB")]

    def slot(self, letter):
        name, body = b"VBLOCK_" + letter, self.image.inside(b"FW_MAIN_" + letter)
        data = self.bytes_in(name)
        if data is None:
            return []
        if is_blank(data) or is_filled_with(data, 0):
            return [self.finding("slot-blank", name)]
        ends = [one.start + len(one.content) for one in self.placed(body)] if body else []
        end = round_up(ends[-1], CELL_SIZE) if ends else 0
        try:
            signed = is_signed(data, end, body.size if body else 0)
        except Broken as broken:
            return self.broken("slot-invalid", name, broken)
        return [self.finding("slot" if signed else "slot-not-checked", name)]

    def used_regions(self):
        """Returns the areas of the regions that the flash descriptor uses, or None without one."""
        data = self.bytes_in(b"SI_DESC")
        try:
            return None if data is None else [one[0] for one in
                                              described_places(region_table(data))]
        except Broken:
            return None


# ---- Two images

# A structure that an image has: the codes of its rows, its area, and the text of its loss.
STRUCTURES = [
    ({"descriptor", "descriptor-invalid"}, b"SI_DESC", "flash descriptor is gone"),
    ({"me-table", "me-table-invalid"}, b"SI_ME", "partition table of the ME is gone"),
    ({"reset-vector", "reset-vector-invalid"}, b"COREBOOT",
     "no bootblock ends the image any more"),
    ({"firmware-table", "firmware-table-invalid"}, b"COREBOOT", "firmware interface table is gone"),
    ({"master-header", "master-header-invalid"}, b"COREBOOT", "master header is gone"),
    ({"gbb", "gbb-flags", "gbb-invalid"}, b"GBB", "GBB is gone"),
    ({"slot", "slot-not-checked", "slot-invalid"}, b"VBLOCK_A", "signatures of the slot are gone"),
    ({"slot", "slot-not-checked", "slot-invalid"}, b"VBLOCK_B", "signatures of the slot are gone"),
]
UNUSED = "region of the flash descriptor is unused now"


SLOTS = [(b"VBLOCK_A", b"FW_MAIN_A"), (b"VBLOCK_B", b"FW_MAIN_B")]


def outdated_slots(old, new):
    """Returns the areas of the signatures that both boards have, and that sign other bytes now.
    Both are `BoardRows`."""
    sound = {row.area for row in new.rows() if row.code == "slot"}
    return [block for block, body in SLOTS if block in sound and is_outdated(old, new, block, body)]


def is_outdated(old, new, block, body):
    """Returns whether the signatures of a slot stay, and not all bytes that they sign."""
    signatures = new.bytes_in(block)
    if old.bytes_in(block) != signatures or old.bytes_in(body) is None:
        return False
    signed = signed_length(signatures[keyblock_length(signatures) :])
    before, after = old.bytes_in(body)[:signed], new.bytes_in(body)[:signed]
    return len(before) == signed and before != after


def lost_structures(old, new):
    """Returns the area and the text of each structure that the old board has and the new one has
    not, in order. Both are `BoardRows`."""
    before, after = ([(row.code, row.area) for row in board.rows()] for board in (old, new))
    lost = []
    for codes, area, text in STRUCTURES:
        was, still = (any(row[0] in codes and row[1] == area for row in rows)
                      for rows in (before, after))
        lost += [(area, text)] * (was and not still)
        if area == b"SI_DESC" and None not in (old.used_regions(), new.used_regions()):
            lost += [(name, UNUSED) for name in old.used_regions()
                     if name not in new.used_regions()]
    return lost
