"""Reads images as docs/FORMAT.md states: flash maps, cells, digests and anchors.

This is the only reader that takes any bytes: each rule of the format is written here once, from the
document and not from the programs, so that a test can compare the programs with it.

    image = Reading(data)
    image.map, image.areas       the flash map, or None, and its areas
    image.inside(b"COREBOOT")    the first area with the name, if it is inside the image
    image.cut(area)              the cells of an area, and how they end
    image.anchor                 the anchor of CBFS verification, or None
"""

import functools
import struct
from typing import NamedTuple, Optional

from tests.image import (
    ANCHOR_MAGIC, BOOTBLOCK, CELL_SIZE, COMPRESSION_TAG, DELETED, HASH_TAG, HASHES, HEAD_SIZE,
    MAGIC, NULL, SHA256, SHA512, Area, digest, metadata_digest, round_up,
)

# ---- Flash maps

MAP_MAGIC = b"__FMAP__"
MAP_HEAD_SIZE, AREA_SIZE = 56, 42
PRINTABLE = range(0x21, 0x7F)


class FlashMap(NamedTuple):
    """A valid flash map: its position, the fields of its head, its areas and its bytes."""

    position: int
    base: int
    size: int
    name: bytes
    areas: list
    bytes: bytes


def read_area(data):
    """Returns the area of 42 bytes."""
    offset, size, name, flags = struct.unpack("<II32sH", data)
    return Area(name.partition(b"\0")[0], offset, size, flags)


def map_at(data, at):
    """Returns the valid flash map at a position, or None."""
    if data[at : at + 8] != MAP_MAGIC or at + MAP_HEAD_SIZE > len(data) or data[at + 8] != 1:
        return None
    base, size, field, count = struct.unpack_from("<QI32sH", data, at + 10)
    name, end, _ = field.partition(b"\0")
    whole = data[at : at + MAP_HEAD_SIZE + AREA_SIZE * count]
    is_whole = len(whole) == MAP_HEAD_SIZE + AREA_SIZE * count
    if not end or not is_whole or any(byte not in PRINTABLE for byte in name):
        return None
    starts = range(MAP_HEAD_SIZE, len(whole), AREA_SIZE)
    areas = [read_area(whole[start : start + AREA_SIZE]) for start in starts]
    return FlashMap(at, base, size, name, areas, whole)


def first_map(data, start=0):
    """Returns the valid flash map at the lowest position from `start` on, or None."""
    at = data.find(MAP_MAGIC, start)
    while at >= 0:
        found = map_at(data, at)
        if found:
            return found
        at = data.find(MAP_MAGIC, at + 1)
    return None


# ---- Entries

MOST_NAME = 256
LEAST_LENGTHS = {COMPRESSION_TAG: 16, HASH_TAG: 12}
UNUSED_TAGS = (0, 0xFFFFFFFF)
OFFSET, ATTRIBUTES, EXTENT, NAME, ATTRIBUTE_LENGTH = (
    "offset", "attributes", "extent", "name", "attribute length")


class Malformed(Exception):
    """An attribute has a length that its tag or its place excludes."""


class Cell(NamedTuple):
    """The cell of a valid entry: its position in the region, and its bytes."""

    position: int
    bytes: bytes

    @property
    def end(self):
        """Returns the position after the cell."""
        return self.position + len(self.bytes)

    @property
    def head(self):
        """Returns the length of the content, the type, and the offsets of attributes and content.
        """
        return struct.unpack(">IIII", self.bytes[8:HEAD_SIZE])

    @property
    def type(self):
        return self.head[1]

    @property
    def offset(self):
        """Returns the offset of the content from the start of the entry."""
        return self.head[3]

    @property
    def start(self):
        """Returns the offset of the content in the region."""
        return self.position + self.offset

    @property
    def metadata(self):
        """Returns all bytes before the content."""
        return self.bytes[: self.offset]

    @property
    def content(self):
        return self.bytes[self.offset : self.offset + self.head[0]]

    @property
    def name(self):
        """Returns the bytes of the name field before the first NUL."""
        return name_field(self.metadata).partition(b"\0")[0]

    @property
    def stored(self):
        """Returns all bytes between the name field and the content, with the gap."""
        return self.metadata[self.head[2] or self.offset :]

    def is_free(self):
        """Returns whether the cell is free space."""
        return self.type in (DELETED, NULL)

    def attributes(self):
        """Returns the tag and the bytes of each attribute, with its head of eight bytes."""
        return list(attributes_of(self.metadata))

    def all_attributes(self):
        """Yields the tag and the bytes of each attribute, also of those behind an unused tag."""
        at, offset = struct.unpack(">II", self.bytes[16:HEAD_SIZE])
        while at and offset - at >= 8:
            tag, length = struct.unpack(">II", self.bytes[at : at + 8])
            if not 8 <= length <= offset - at:
                return
            yield tag, self.bytes[at : at + length]
            at += length

    def attribute(self, tag):
        """Returns the bytes of the first attribute with a tag, or None."""
        return next((data for seen, data in self.attributes() if seen == tag), None)

    def compression(self):
        """Returns the algorithm of the first compression attribute, or 0."""
        data = None if self.is_free() else self.attribute(COMPRESSION_TAG)
        return 0 if data is None else int.from_bytes(data[8:12], "big")

    def stored_digest(self):
        """Returns the algorithm and the stored digest of the first hash attribute, or None.

        The digest is None if the algorithm is none of vboot's, or if the attribute is too short.
        """
        data = self.attribute(HASH_TAG)
        if data is None:
            return None
        algorithm = int.from_bytes(data[8:12], "big")
        size = len(digest(algorithm, b"")) if algorithm in HASHES else None
        is_whole = size is not None and len(data) >= 12 + size
        return algorithm, data[12 : 12 + size] if is_whole else None

    def hash_state(self):
        """Returns the hash state: "absent", "unsupported", or as "sha256 valid"."""
        stored = self.stored_digest()
        if stored is None:
            return "absent"
        algorithm, value = stored
        if value is None or algorithm not in (SHA256, SHA512):
            return "unsupported"
        is_right = value == digest(algorithm, self.content)
        return f"{HASHES[algorithm]} {'valid' if is_right else 'invalid'}"


def name_field(metadata):
    """Returns the name field, up to the attributes, or without attributes up to the content."""
    attributes, offset = struct.unpack(">II", metadata[16:HEAD_SIZE])
    return metadata[HEAD_SIZE : attributes or offset]


def attributes_of(metadata):
    """Yields the tag and the bytes of each attribute, or raises `Malformed`."""
    at, offset = struct.unpack(">II", metadata[16:HEAD_SIZE])
    while at and offset - at >= 8:
        tag, length = struct.unpack(">II", metadata[at : at + 8])
        if tag in UNUSED_TAGS:
            return
        if not LEAST_LENGTHS.get(tag, 8) <= length <= offset - at:
            raise Malformed
        yield tag, metadata[at : at + length]
        at += length


def damage_of(entry):
    """Returns which check the entry at the start of these bytes fails first, or None."""
    length, kind, attributes, offset = struct.unpack(">IIII", entry[8:HEAD_SIZE])
    is_free = kind in (DELETED, NULL)
    if offset < HEAD_SIZE + (not is_free):
        return OFFSET
    if not is_free and attributes and not HEAD_SIZE < attributes <= offset:
        return ATTRIBUTES
    if offset + length > len(entry):
        return EXTENT
    if is_free:
        return None
    metadata = entry[:offset]
    if b"\0" not in name_field(metadata)[:MOST_NAME]:
        return NAME
    try:
        list(attributes_of(metadata))
    except Malformed:
        return ATTRIBUTE_LENGTH
    return None


# ---- Regions

BAD_SIZE, NO_CBFS = "bad region size", "not a CBFS region"


class Cut(NamedTuple):
    """The cells of a region, the position after them, and how they end.

    `shape` is the refusal of a region without cells, or None. `damage` names the check that the
    entry at `end` fails, or is None. Without damage the cells fill the region, or a tail follows.
    """

    region: bytes
    shape: Optional[str]
    cells: list
    end: int
    damage: Optional[str]

    @property
    def components(self):
        """Returns the cells that are no free space."""
        return [cell for cell in self.cells if not cell.is_free()]

    def component(self, name):
        """Returns the first component with a name, or None."""
        return next((one for one in self.components if one.name == name), None)

    def is_sound(self):
        """Returns whether a walk of the region meets no refusal."""
        return self.shape is None and self.damage is None

    def refusal(self):
        """Returns the refusal of a walk of the whole region, or None."""
        if self.damage:
            return f"damaged entry at {self.end:#x}: {self.damage}"
        return self.shape


def has_entry(region, at):
    """Returns whether an entry, damaged or not, begins at a position of a region."""
    return len(region) - at >= HEAD_SIZE and region[at : at + 8] == MAGIC


def cut(region):
    """Returns the cut of a region."""
    if len(region) == 0 or len(region) % CELL_SIZE:
        return Cut(region, BAD_SIZE, [], 0, None)
    if not has_entry(region, 0):
        return Cut(region, NO_CBFS, [], 0, None)
    cells, at = [], 0
    while has_entry(region, at):
        damage = damage_of(region[at:])
        if damage:
            return Cut(region, None, cells, at, damage)
        length, _, _, offset = struct.unpack(">IIII", region[at + 8 : at + HEAD_SIZE])
        cells.append(Cell(at, region[at : at + round_up(offset + length, CELL_SIZE)]))
        at = cells[-1].end
    return Cut(region, None, cells, at, None)


# ---- Anchors


class Anchor(NamedTuple):
    """An anchor: whether it is in a component, its position in the area, and its bytes.

    The bytes go on to the end of the area BOOTBLOCK, or of the component's content.
    """

    in_component: bool
    position: int
    bytes: bytes

    @property
    def algorithm(self):
        """Returns the algorithm, or None if the anchor has no whole head or another number."""
        number = self.bytes[11] if len(self.bytes) > 11 else None
        return number if number in HASHES else None

    def is_cut_off(self):
        """Returns whether its bytes end before the anchor does."""
        if len(self.bytes) < 12:
            return True
        return self.algorithm is not None and len(self.bytes) < 12 + 2 * self.digest_size()

    def digest_size(self):
        """Returns the length of each digest."""
        return len(digest(self.algorithm, b""))

    def is_usable(self):
        """Returns whether the anchor is complete, with one of the five algorithms."""
        return self.algorithm is not None and not self.is_cut_off()

    def digests(self):
        """Returns the stored digests of the metadata and of the flash map."""
        size = self.digest_size()
        return self.bytes[12 : 12 + size], self.bytes[12 + size : 12 + 2 * size]


class Reading:
    """An image, as the document reads it, with its own flash map or a given one."""

    def __init__(self, data, map=None):
        self.data = data
        self.map = map or first_map(data)
        self.areas = self.map.areas if self.map else []
        self.cuts = {}

    def is_inside(self, area):
        """Returns whether the area ends in the image."""
        return area.offset + area.size <= len(self.data)

    def first(self, name):
        """Returns the first area with a name, or None."""
        return next((area for area in self.areas if area.name == name), None)

    def bytes_of(self, area):
        """Returns the bytes of an area."""
        return self.data[area.offset : area.offset + area.size]

    def cut(self, area):
        """Returns the cut of an area, which is computed once."""
        place = area.offset, area.size
        if place not in self.cuts:
            self.cuts[place] = cut(self.bytes_of(area))
        return self.cuts[place]

    def entries(self, area):
        """Returns the cut of an area up to its last multiple of 64 bytes."""
        return self.cut(Area(area.name, area.offset, area.size - area.size % CELL_SIZE))

    def inside(self, name):
        """Returns the first area with a name if it is inside the image, or None."""
        area = self.first(name)
        return area if area and self.is_inside(area) else None

    @functools.cached_property
    def anchor(self):
        """Returns the anchor, or None. An image without COREBOOT inside it has none."""
        coreboot = self.inside(b"COREBOOT")
        if coreboot is None:
            return None
        if self.first(b"BOOTBLOCK"):
            area = self.inside(b"BOOTBLOCK")
            return area and self.anchor_in(self.bytes_of(area), 0, False)
        found = self.cut(coreboot).component(b"bootblock")
        if found is None or found.type != BOOTBLOCK:
            return None
        return self.anchor_in(found.content, found.start, True)

    def anchor_in(self, data, start, in_component):
        """Returns the anchor in these bytes, which are at a position of their area, or None."""
        at = data.find(ANCHOR_MAGIC)
        return Anchor(in_component, start + at, data[at:]) if at >= 0 else None

    def has_outdated_anchor(self):
        """Returns whether the anchor can be used and checked, and has another digest."""
        is_usable = self.anchor is not None and self.anchor.is_usable()
        right = self.right_digests() if is_usable else None
        return right is not None and right != self.anchor.digests()

    def right_digests(self):
        """Returns the digests that the anchor should have, or None if COREBOOT has damage."""
        algorithm = self.anchor.algorithm
        coreboot = self.cut(self.inside(b"COREBOOT"))
        if not coreboot.is_sound():
            return None
        metadata = metadata_digest(algorithm, coreboot.components)
        return metadata, digest(algorithm, self.map.bytes)
