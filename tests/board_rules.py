"""Checks the structures that a board boots from: a second implementation, for comparison only.

`check(data)` returns the findings about one image, `compare(old, new)` those about a change. The
text before each rule says how the rule was verified. *Measured* rules were compared with the real
tools by tests/board_breakages.py, on both sides of each limit: coreboot-utils 4.15 (cbfstool,
ifdtool, ifittool) and futility of vboot-utils R106. *Not measured* rules rest on the published
formats, and no tool of these packages judges them.

Findings that cbfscheck already has (damaged entries, overlapping areas, unused tails, components
with the same name) are not repeated here.
"""

import hashlib
import re
import struct
from collections import namedtuple

from tests.image import (ANCHOR_MAGIC, BOOTBLOCK, CBFS_HEADER, COMPRESSION_TAG, DELETED, HASH_TAG,
                         HASHES, MAGIC, NULL, PRESERVED, SIMPLE_ELF, STAGE, STAGE_TAG)
from tests.structures import DESCRIPTOR_AREAS, DESCRIPTOR_MAGIC, PAGE

BAD, REMARK = "bad", "remark"
FSP = 0x60
# The areas from which a firmware with CBFS verification loads components.
LOADED_FROM = ("COREBOOT", "FW_MAIN_A", "FW_MAIN_B")
METADATA_LIMIT = 256
FIRMWARE_TYPES = (STAGE, SIMPLE_ELF, FSP)
EXEMPT_TYPES = (BOOTBLOCK, CBFS_HEADER)

Finding = namedtuple("Finding", "verdict rule place text")
Area = namedtuple("Area", "name offset size flags")
Map = namedtuple("Map", "offset name base size areas bytes")


def u32(data, at):
    """Returns a little-endian number of 32 bits."""
    return struct.unpack_from("<I", data, at)[0]


def u64(data, at):
    """Returns a little-endian number of 64 bits."""
    return struct.unpack_from("<Q", data, at)[0]


def blank(data):
    """Returns whether the bytes are all 0xff or all 0."""
    return data.count(0xFF) == len(data) or data.count(0) == len(data)


# ---- Flash maps


def read_map(data, at):
    """Returns the flash map at an offset, or None if none is valid there."""
    if data[at : at + 8] != b"__FMAP__" or at + 56 > len(data) or data[at + 8] != 1:
        return None
    base, size, field, count = struct.unpack_from("<QI32sH", data, at + 10)
    name, end, _ = field.partition(b"\0")
    if not end or not all(0x21 <= byte <= 0x7E for byte in name):
        return None
    whole = data[at : at + 56 + 42 * count]
    if len(whole) < 56 + 42 * count:
        return None
    areas = []
    for n in range(count):
        offset, length, field, flags = struct.unpack_from("<II32sH", whole, 56 + 42 * n)
        areas.append(Area(field.partition(b"\0")[0], offset, length, flags))
    return Map(at, name, base, size, areas, whole)


def all_maps(data):
    """Returns the valid maps, by their offsets."""
    found = (read_map(data, match.start()) for match in re.finditer(b"__FMAP__", data))
    return [one for one in found if one]


def alignment(offset):
    """Returns the highest power of two that divides the offset; 0 is the most aligned."""
    return offset & -offset or 1 << 40


def coreboot_map(data, maps):
    """Returns the map that coreboot's tools use, or None.

    The size in a map must not be below the size of its table. In an image of 2^k bytes only
    multiples of 16 count, and the most aligned map is used. Otherwise the lowest is used.
    """
    seen = [one for one in maps if one.size >= len(one.bytes)]
    if len(data) & (len(data) - 1) == 0:
        seen = [one for one in seen if one.offset % 16 == 0]
        return min(seen, key=lambda one: (-alignment(one.offset), one.offset), default=None)
    return seen[0] if seen else None


class Board:
    """An image with its map; the bytes of areas and the cells of regions, by names."""

    def __init__(self, data):
        self.data = data
        self.maps = all_maps(data)
        self.map = self.maps[0] if self.maps else None
        self.regions = {}

    def area(self, name):
        """Returns the first area with this name, or None; also None if it is not inside."""
        wanted = name.encode() if isinstance(name, str) else name
        for area in self.map.areas if self.map else ():
            if area.name == wanted:
                return area if area.offset + area.size <= len(self.data) else None
        return None

    def bytes_of(self, name):
        """Returns the bytes of an area, or None without it."""
        area = self.area(name)
        return self.data[area.offset : area.offset + area.size] if area else None

    def components(self, name="COREBOOT"):
        """Returns the components of a region, in order."""
        if name not in self.regions:
            data = self.bytes_of(name)
            self.regions[name] = [] if data is None else list(read_components(data))
        return self.regions[name]

    def bootblock(self):
        """Returns the component that ends at the end of the image, if its type is bootblock."""
        area = self.area("COREBOOT")
        if area and area.offset + area.size == len(self.data):
            for one in self.components():
                if one.type == BOOTBLOCK and one.end == area.size:
                    return one
        return None


# ---- Entries


class Entry:
    """A component of a region: its fields, its name, its metadata and its content."""

    def __init__(self, region, at):
        self.at = at
        fields = struct.unpack_from(">IIII", region, at + 8)
        self.length, self.type, self.attributes_offset, self.offset = fields
        self.start = at + self.offset
        self.end = self.start + self.length
        self.metadata = region[at : self.start]
        self.content = region[self.start : self.end]
        self.field_end = self.attributes_offset or self.offset
        self.name = self.metadata[24 : min(self.field_end, 24 + 256)].partition(b"\0")[0]

    def attributes(self):
        """Returns (tag, data) of each attribute up to the first unused tag, and what follows."""
        at, found = self.attributes_offset, []
        while at and at + 8 <= self.offset:
            tag, length = struct.unpack_from(">II", self.metadata, at)
            if tag in (0, 0xFFFFFFFF) or length < 8 or at + length > self.offset:
                break
            found.append((tag, self.metadata[at + 8 : at + length]))
            at += length
        return found, self.metadata[at:] if at else b""

    def attribute(self, tag):
        """Returns the data of the first attribute with this tag, or None."""
        return next((data for seen, data in self.attributes()[0] if seen == tag), None)

    def label(self):
        """Returns the name as a text."""
        return self.name.decode("latin-1")


def read_components(region):
    """Yields the components of a region, up to the first position without a sound entry."""
    at = 0
    while at + 24 <= len(region) and region[at : at + 8] == MAGIC:
        entry = Entry(region, at)
        free = entry.type in (DELETED, NULL)
        if entry.end > len(region) or entry.offset < (24 if free else 25):
            return
        if not free:
            if entry.attributes_offset and not 25 <= entry.attributes_offset <= entry.offset:
                return
            yield entry
        at = -(-entry.end // 64) * 64


def last_end(region):
    """Returns the end of the last component's cell, which is what a slot's signature covers."""
    ends = [-(-one.end // 64) * 64 for one in read_components(region)]
    return min(max(ends, default=0), len(region))


# ---- Rules about one image

# Measured with `cbfstool print`: an area FMAP at another place, maps at multiples of 8 and 16 in
# images of 2^k and of other sizes, two and three maps, sizes of a map around that of its table.


def check_map(board):
    """Checks that coreboot's tools find the same flash map."""
    if not board.map:
        yield Finding(BAD, "map", "", "no flash map")
        return
    theirs = coreboot_map(board.data, board.maps)
    area = next((one for one in board.map.areas if one.name == b"FMAP"), None)
    if theirs is None:
        yield Finding(BAD, "map", "FMAP", "not found by coreboot's tools")
    elif theirs.offset != board.map.offset:
        yield Finding(BAD, "map", "FMAP", "coreboot's tools use another map")
    elif board.map.size > len(board.data):
        yield Finding(BAD, "map", "FMAP", "the map states a larger image")
    elif area is None or area.offset != board.map.offset:
        yield Finding(BAD, "map", "FMAP", "the area FMAP does not start at the map")


# Measured with `cbfstool print -v`, which prints `valid` or `invalid` for the metadata digest, and
# with the 71 kinds of anchors of tests/test_seal.py. The map digest was measured by recomputing
# what `cbfstool add` wrote; `print -v` does not check it.


def anchor_range(board):
    """Returns (place, bytes) in which an anchor may lie, or None."""
    data = board.bytes_of("BOOTBLOCK")
    if any(area.name == b"BOOTBLOCK" for area in board.map.areas):
        return None if data is None else ("BOOTBLOCK", data)
    first = next((one for one in board.components() if one.name == b"bootblock"), None)
    if first is None or first.type != BOOTBLOCK:
        return None
    return "bootblock", first.content


def find_anchor(board):
    """Returns (place, bytes from the anchor on), or None without an anchor."""
    place, data = anchor_range(board) or ("", b"")
    at = data.find(ANCHOR_MAGIC)
    return (place, data[at:]) if at >= 0 else None


def terminated(entry):
    """Returns the metadata of a component as it is hashed: the name field ends with a NUL."""
    end = entry.field_end
    return entry.metadata[: end - 1] + b"\0" + entry.metadata[end:]


def check_anchor(board):
    """Checks both digests of the anchor, and the digests that the firmware then requires."""
    place, anchor = find_anchor(board) or ("", b"")
    if not anchor:
        return
    number = anchor[11] if len(anchor) > 11 else 0
    if number not in HASHES:
        yield Finding(BAD, "anchor", place, f"unknown algorithm {number}")
        return
    size = hashlib.new(HASHES[number]).digest_size
    if len(anchor) < 12 + 2 * size:
        yield Finding(BAD, "anchor", place, "cut off")
        return
    counted = [one for one in board.components() if len(one.metadata) <= METADATA_LIMIT]
    metadata = b"".join(terminated(one) for one in counted)
    for what, at, data in (("metadata", 12, metadata), ("map", 12 + size, board.map.bytes)):
        if hashlib.new(HASHES[number], data).digest() != anchor[at : at + size]:
            yield Finding(BAD, "anchor", place, f"{what} digest differs")
    yield from check_required_digests(board, number)


# Not measured: that the firmware refuses a component without a digest is known from coreboot's
# source only. The tool's `add` gives each component a digest on a board with an anchor, also one of
# a slot (measured).


def check_required_digests(board, number):
    """Checks that components which only the firmware loads have a digest, with an anchor."""
    for one in (one for name in LOADED_FROM for one in board.components(name)):
        stored = one.attribute(HASH_TAG)
        if one.type in EXEMPT_TYPES:
            continue
        if stored is not None and (len(stored) < 4 or stored[3] not in HASHES):
            yield Finding(BAD, "required digest", one.label(), "of an unknown algorithm")
        elif stored is None:
            verdict = BAD if one.type in FIRMWARE_TYPES else REMARK
            yield Finding(verdict, "required digest", one.label(), "no digest, but an anchor")
        elif stored[3] != number:
            yield Finding(REMARK, "required digest", one.label(), "not the anchor's algorithm")


# Measured with `cbfstool print -v`: 256 bytes of metadata count in the digest and 257 do not
# ("too large"). An unused tag ends the list of attributes, but not if it is the first one: a digest
# after a first attribute with tag 0 or 0xffffffff is checked. Reserved bytes of the algorithm's
# number are not looked at. A stage without its attribute is an error of `print -v` and `extract`.
# Not measured: other lengths of the three attributes. The tool reads a digest with 4 bytes more or
# less, and a stage's attribute of 20 or 28 bytes; the firmware is known to compare the lengths.


def check_entries(board, name):
    """Checks the metadata of each component of a region."""
    for one in board.components(name):
        place = f"{name}:{one.label()}"
        if len(one.metadata) > METADATA_LIMIT:
            yield Finding(BAD, "metadata size", place, "more than 256 bytes before the content")
        known, rest = one.attributes()
        yield from check_rest(one, place, rest)
        for tag, data in known:
            if tag == COMPRESSION_TAG and len(data) != 8:
                yield Finding(BAD, "attributes", place, "compression attribute of another size")
            if tag == HASH_TAG:
                yield from check_digest(one, place, data, name)
        if one.type == STAGE:
            yield from check_stage(one, place)


def check_rest(entry, place, rest):
    """Checks that no attribute follows after an unused one, which has a tag of 0 or 0xffffffff."""
    at = 0
    while at + 8 <= len(rest):
        tag, length = struct.unpack_from(">II", rest, at)
        if length < 8 or at + length > len(rest):
            return
        if tag not in (0, 0xFFFFFFFF):
            yield Finding(BAD, "attributes", place, "an attribute follows after an unused tag")
            return
        at += length


def check_digest(entry, place, data, region):
    """Checks a stored digest: its algorithm, its size and its value."""
    number = struct.unpack_from(">I", data)[0] & 0xFF if len(data) >= 4 else 0
    if number not in HASHES:
        return
    value = hashlib.new(HASHES[number], entry.content).digest()
    if struct.unpack_from(">I", data)[0] != number:
        yield Finding(REMARK, "attributes", place, "the reserved bytes of the digest are not 0")
    if len(data) != 4 + len(value):
        yield Finding(BAD, "attributes", place, "hash attribute of another size")
    elif data[4:] != value and entry.name != b"intel_fit":
        yield Finding(BAD, "digest", place, "the content differs from its digest")


def check_stage(entry, place):
    """Checks the attribute of a stage."""
    data = entry.attribute(STAGE_TAG)
    if data is None or len(data) != 16:
        yield Finding(BAD, "stage", place, "no stage attribute of 24 bytes")
        return
    _, first, memory = struct.unpack(">QII", data)
    if first >= memory:
        yield Finding(BAD, "stage", place, "the entry point is outside the memory of the stage")


# Measured with `futility verify`, which fails for each of these. A length above the end of the
# last cell is sound: futility signs the complete area if it finds no cbfstool (measured).


def check_slot(board, letter):
    """Checks a signed slot, without RSA."""
    block = board.bytes_of("VBLOCK_" + letter)
    body = board.bytes_of("FW_MAIN_" + letter)
    if block is None and body is None:
        return
    place = "VBLOCK_" + letter
    if block is None or body is None:
        yield Finding(BAD, "slot", place, "only one of VBLOCK and FW_MAIN exists")
        return
    if blank(block):
        if not blank(body) and last_end(body):
            yield Finding(REMARK, "slot", place, "not signed")
        return
    text = keyblock_fault(block)
    if not text:
        text = preamble_fault(block[u64(block, 16) :], len(body), last_end(body))
    if text:
        yield Finding(BAD, "slot", place, text)


def signature_inside(data, at, limit):
    """Returns whether a signature's fields and bytes lie below a limit."""
    return at + 24 <= limit and at + u64(data, at) + u64(data, at + 8) <= limit


def keyblock_fault(block):
    """Returns what is wrong with a keyblock, or None."""
    if len(block) < 112 or block[:8] != b"CHROMEOS":
        return "no keyblock"
    size = u64(block, 16)
    if u32(block, 8) != 2:
        return "keyblock of another version"
    if not 112 <= size <= len(block):
        return "the keyblock ends outside its area"
    data_size = u64(block, 48 + 16)
    if not (signature_inside(block, 24, size) and signature_inside(block, 48, size)):
        return "a signature of the keyblock ends outside it"
    if data_size > size or u64(block, 24 + 16) > size:
        return "the signed data of the keyblock ends outside it"
    if 80 + u64(block, 80) + u64(block, 88) > data_size:
        return "the data key ends outside the signed data"
    at = 48 + u64(block, 48)
    if u64(block, 56) != 64 or hashlib.sha512(block[:data_size]).digest() != block[at : at + 64]:
        return "the digest of the keyblock differs"
    return None


def preamble_fault(preamble, body_size, needed):
    """Returns what is wrong with a preamble, or None."""
    if len(preamble) < 108:
        return "no room for a preamble"
    size = u32(preamble, 0)
    if u32(preamble, 32) != 2:
        return "preamble of another version"
    if not 108 <= size <= len(preamble):
        return "the preamble ends outside its area"
    if not signature_inside(preamble, 8, size) or u64(preamble, 8 + 16) > size:
        return "the signature of the preamble ends outside it"
    if not signature_inside(preamble, 80, size):
        return "the signature of the body ends outside the preamble"
    signed = u64(preamble, 80 + 16)
    if signed > body_size:
        return "more is signed than the area has"
    if 0 < signed < needed:
        return "a component is outside the signed length"
    return None


# Measured with `futility verify`, on both sides of each limit: magic, version, size of the head,
# offset and size of each field; the hardware id needs a NUL; offset, size and algorithm of a key;
# the digest, which counts from minor version 2 on. Not measured: keys with an algorithm above 11.

GBB_HEAD = 128
GBB_FIELDS = ((16, "hardware id"), (24, "root key"), (32, "bitmaps"), (40, "recovery key"))
KEY_SIZES = (264, 520, 1032, 2056)


def check_gbb(board):
    """Checks the GBB."""
    data = board.bytes_of("GBB")
    if data is None:
        return
    if blank(data):
        yield Finding(REMARK, "gbb", "GBB", "empty")
        return
    text = gbb_fault(data)
    if text:
        yield Finding(BAD, "gbb", "GBB", text)
    elif u32(data, 12):
        yield Finding(REMARK, "gbb", "GBB", "flags are set")


def gbb_fault(data):
    """Returns what is wrong with a GBB, or None."""
    if len(data) < GBB_HEAD or data[:4] != b"$GBB":
        return "no GBB"
    major, minor, head = struct.unpack_from("<HHI", data, 4)
    if major != 1:
        return "another version"
    if head != GBB_HEAD:
        return "a head of another size"
    fields = {}
    for at, what in GBB_FIELDS:
        offset, size = struct.unpack_from("<II", data, at)
        if offset < GBB_HEAD or offset + size > len(data):
            return f"the {what} is outside the area"
        fields[what] = data[offset : offset + size]
    name, end, _ = fields["hardware id"].partition(b"\0")
    if fields["hardware id"] and not end:
        return "the hardware id has no NUL"
    if minor >= 2 and hashlib.sha256(name).digest() != data[48:80]:
        return "the digest of the hardware id differs"
    faults = (key_fault(fields[what], what) for what in ("root key", "recovery key"))
    return next((text for text in faults if text), None)


def key_fault(field, what):
    """Returns what is wrong with a key in its field, or None."""
    if len(field) < 32:
        return f"no {what}"
    offset, size, algorithm = (u64(field, at) for at in (0, 8, 16))
    if offset < 32 or offset + size > len(field):
        return f"the {what} ends outside its field"
    if algorithm < 12 and size != KEY_SIZES[algorithm // 3]:
        return f"the {what} has another size than its algorithm needs"
    if size < 8 or u32(field, offset) * 8 + 8 != size:
        return f"the {what} states another size of its number"
    return None


# Measured with ifittool: it made pointer, table and entries, finds the table by the pointer, takes
# the total size 0 as 2048, and fails if a total size leaves the microcode's component. It requires
# the table in the last 16 MiB, and 0 in the upper half of the pointer's 8 bytes. Not measured:
# version and sum of an update, and addresses that are multiples of 16 (ifittool enters an update at
# any address); entries with the address 0xffffffff.

FIT_RANGE = 16 << 20


def check_fit(board):
    """Checks the pointer to the FIT, the table, and the microcode that it names."""
    block = board.bootblock()
    if block is None:
        return
    table = next((one for one in board.components() if one.name == b"intel_fit"), None)
    size = len(board.data)
    at = u32(board.data, size - 0x40) - (1 << 32) + size
    area = board.area("COREBOOT")
    if table is not None and at != area.offset + table.start:
        yield Finding(BAD, "fit", "intel_fit", "the pointer is not the place of intel_fit")
        return
    if at < 0 or board.data[at : at + 8] != b"_FIT_   ":
        if table is not None:
            yield Finding(BAD, "fit", "intel_fit", "no FIT")
        return
    count = u32(board.data, at + 8) & 0xFFFFFF
    if u32(board.data, size - 0x3C):
        yield Finding(BAD, "fit", "FIT", "the upper half of the pointer is not 0")
    if at < size - FIT_RANGE:
        yield Finding(BAD, "fit", "FIT", "not in the last 16 MiB")
    if not count:
        yield Finding(BAD, "fit", "FIT", "the table has no head")
        return
    if at + 16 * count > size:
        yield Finding(BAD, "fit", "FIT", "the table ends outside the image")
        return
    if table is not None and 16 * count > table.length:
        yield Finding(BAD, "fit", "FIT", "the table ends outside intel_fit")
        return
    for n, (kind, address) in enumerate(fit_entries(board.data, at), 1):
        if kind == 1 and address != 0xFFFFFFFF:
            text = microcode_fault(board.data, address - (1 << 32) + size)
            if text:
                yield Finding(BAD, "fit", f"microcode {n}", text)


def microcode_fault(data, at):
    """Returns what is wrong with a microcode update, or None."""
    if at < 0 or at % 16 or at + 48 > len(data):
        return "at a wrong address"
    total = u32(data, at + 32) or 2048
    if u32(data, at) != 1:
        return "of another version"
    if total % 4 or total < 48 or at + total > len(data):
        return "of a wrong size"
    if sum(struct.unpack_from(f"<{total // 4}I", data, at)) & 0xFFFFFFFF:
        return "with a wrong sum"
    return None


# Measured with `ifdtool -t`, on both sides of each limit of each region, with the magic at 0x10 and
# (older chipsets) at 0. Without `-p`, ifdtool looks at 12 bits of a page only; with `-p` of a newer
# platform it looks at 15 bits, and compares region 8 with SI_EC (measured). The descriptor does not
# say which of both it is, so that this rule takes 15 bits: the others are 0 in older descriptors
# (not measured). Not measured: the partition table $FPT, which no tool of these packages reads.

REGION_NAMES = (*enumerate(DESCRIPTOR_AREAS), (8, "SI_EC"))


def descriptor_map(data):
    """Returns the offset of the number that says where the table of regions is, or None."""
    for at in (0x10, 0):
        if len(data) >= at + 8 and u32(data, at) == DESCRIPTOR_MAGIC:
            return at + 4
    return None


def descriptor_regions(data):
    """Returns (base, limit) in pages of each region with an area's name, or None outside."""
    at = (u32(data, descriptor_map(data)) >> 16 & 0xFF) << 4
    regions = {}
    for n, name in REGION_NAMES:
        place = at + 4 * n
        number = u32(data, place) if place + 4 <= len(data) else None
        regions[name] = None if number is None else (number & 0x7FFF, number >> 16 & 0x7FFF)
    return regions


def check_descriptor(board):
    """Checks the regions of the flash descriptor against the flash map."""
    data = board.bytes_of("SI_DESC")
    if data is None:
        return
    if blank(data):
        yield Finding(REMARK, "descriptor", "SI_DESC", "empty")
    elif descriptor_map(data) is None:
        yield Finding(BAD, "descriptor", "SI_DESC", "no flash descriptor")
    else:
        yield from check_descriptor_regions(board, data)
    engine = board.bytes_of("SI_ME")
    if engine is not None and blank(engine):
        yield Finding(REMARK, "descriptor", "SI_ME", "empty")
    elif engine is not None and b"$FPT" not in (engine[:4], engine[16:20]):
        yield Finding(BAD, "descriptor", "SI_ME", "no partition table")


def check_descriptor_regions(board, data):
    """Compares each used region that has an area."""
    areas = {}
    for area in reversed(board.map.areas):
        areas[area.name.decode("latin-1")] = area
    for name, region in descriptor_regions(data).items():
        if name not in areas:
            continue
        if region is None:
            yield Finding(BAD, "descriptor", name, "the table ends outside the area")
            continue
        base, limit = region
        seen = areas[name].offset, areas[name].size
        if base <= limit and seen != (base * PAGE, (limit + 1 - base) * PAGE):
            yield Finding(BAD, "descriptor", name, "the region is not the area")


# Measured by comparing with what `add-master-header` writes. The firmware's use is not measured.


def check_master_header(board):
    """Checks the master header and the pointer to it, in COREBOOT."""
    area = board.area("COREBOOT")
    headers = [one for one in board.components() if one.type == CBFS_HEADER and one.length >= 32]
    if not area or not headers:
        return
    header = headers[0]
    last = [one for one in board.components() if one.end == area.size]
    ends = bool(last) and last[0].type in EXEMPT_TYPES
    verdict = BAD if ends else REMARK
    magic, _, end, _, _, offset = struct.unpack_from(">4s5I", header.content)
    if magic != b"ORBC":
        yield Finding(verdict, "master header", header.label(), "no master header")
        return
    if (end, offset) != (area.offset + area.size, area.offset):
        yield Finding(verdict, "master header", header.label(), "of another region")
    pointer = struct.unpack("<i", board.bytes_of("COREBOOT")[-4:])[0]
    if pointer != header.start - area.size:
        yield Finding(verdict, "master header", header.label(), "the pointer is another one")


# Not measured: no tool looks at it.


def check_reset_vector(board):
    """Checks that there is code at the reset vector of an x86 board."""
    size = len(board.data)
    if board.bootblock() and blank(board.data[size - 16 : size - 4]):
        yield Finding(BAD, "reset vector", "bootblock", "no code")


def file_systems(board):
    """Returns the names of the areas that begin with an entry, without equal offsets."""
    seen, names = set(), []
    for area in sorted(board.map.areas, key=lambda one: one.size):
        data = board.data[area.offset : area.offset + 8]
        if area.size >= 24 and data == MAGIC and area.offset not in seen:
            seen.add(area.offset)
            names.append(area.name.decode("latin-1"))
    return names


def check(data):
    """Returns the findings about one image."""
    board = Board(data)
    found = list(check_map(board))
    if not board.map:
        return found
    for name in file_systems(board):
        found += check_entries(board, name)
    rules = (check_anchor, check_gbb, check_fit, check_descriptor, check_master_header,
             check_reset_vector)
    for rule in rules:
        found += rule(board)
    for letter in "AB":
        found += check_slot(board, letter)
    return found


# ---- Rules about a change from one image to another

# Not measured: the rules follow from those above. A structure that OLD has must exist in NEW.


def structures_of(board):
    """Returns the names of the structures that an image has."""
    found = set()
    if not board.map:
        return found
    area = board.bytes_of("BOOTBLOCK")
    if any(one.type == BOOTBLOCK for one in board.components()) or area and not blank(area):
        found.add("bootblock")
    if find_anchor(board):
        found.add("anchor")
    gbb = board.bytes_of("GBB")
    if gbb and gbb[:4] == b"$GBB":
        found.add("GBB")
    data = board.bytes_of("SI_DESC")
    if data and descriptor_map(data) is not None:
        found.add("flash descriptor")
        for name, region in descriptor_regions(data).items():
            if board.area(name) and region and region[0] <= region[1]:
                found.add(f"region of {name}")
    engine = board.bytes_of("SI_ME")
    if engine and b"$FPT" in (engine[:4], engine[16:20]):
        found.add("partition table")
    for letter in "AB":
        block = board.bytes_of("VBLOCK_" + letter)
        if block and block[:8] == b"CHROMEOS":
            found.add("VBLOCK_" + letter)
    size = len(board.data)
    at = u32(board.data, size - 0x40) - (1 << 32) + size
    if board.bootblock() and at >= 0 and board.data[at : at + 8] == b"_FIT_   ":
        found.add("FIT")
        if any(kind == 1 for kind, _ in fit_entries(board.data, at)):
            found.add("microcode in the FIT")
    if any(one.type == CBFS_HEADER for one in board.components()):
        found.add("master header")
        if not any(one.text == "the pointer is another one" for one in check_master_header(board)):
            found.add("pointer to the master header")
    return found


def fit_entries(data, at):
    """Returns (type, address) of each entry of the FIT at an offset that lies in the image."""
    count = u32(data, at + 8) & 0xFFFFFF
    entries = []
    for n in range(1, min(count, (len(data) - at) // 16)):
        address, _, _, kind, _ = struct.unpack_from("<QIHBB", data, at + 16 * n)
        entries.append((kind & 0x7F, address))
    return entries


def compare(old_data, new_data, flash=False):
    """Returns the findings about a change: about the new image, and about what it lost."""
    old, new = Board(old_data), Board(new_data)
    found = check(new_data)
    if len(old_data) != len(new_data):
        found.append(Finding(BAD, "two images", "", "another size"))
    if not old.map or not new.map:
        return found
    for name in sorted(structures_of(old) - structures_of(new)):
        found.append(Finding(BAD, "two images", name, "is gone"))
    if (old.map.name, old.map.base) != (new.map.name, new.map.base):
        verdict = BAD if flash else REMARK
        found.append(Finding(verdict, "two images", "FMAP", "another board"))
    for letter in "AB":
        if unsigned_change(old, new, letter):
            place = "FW_MAIN_" + letter
            found.append(Finding(BAD, "slot", place, "changed within the signed length"))
    areas = [*old.map.areas, *new.map.areas]
    if flash and not any(area.flags & PRESERVED for area in areas):
        found.append(Finding(BAD, "preserved", "", "no area is preserved"))
    return found


def unsigned_change(old, new, letter):
    """Returns whether the signed bytes of a slot changed, but not its signatures."""
    blocks = [board.bytes_of("VBLOCK_" + letter) for board in (old, new)]
    bodies = [board.bytes_of("FW_MAIN_" + letter) for board in (old, new)]
    if None in blocks + bodies or blocks[0] != blocks[1] or keyblock_fault(blocks[0]):
        return False
    preamble = blocks[0][u64(blocks[0], 16) :]
    if len(preamble) < 108:
        return False
    signed = u64(preamble, 96)
    return bodies[0][:signed] != bodies[1][:signed]
