"""Builds images from literal fields.

Each function and class is written from the tables of docs/FORMAT.md, and not from the programs, so
that a test can compare the programs with it. Nothing is validated: a damaged image is made by a
wrong field. Numbers of the flash map are little-endian, numbers of CBFS big-endian.

    digest = hash_attribute(SHA256, b"0123456789")
    region = join(
        Component(b"logo", b"0123456789", type=RAW, attributes=[digest]),
        FreeEntry(896, keeps=b"\\xff\\xff\\xff\\xff"),
    )
    board = Image(0x2000, [Area("FMAP", 0, 0x200), Area("COREBOOT", 0x1000, 1024)])
    board.put("COREBOOT", region)
    data = board.data()
"""

import hashlib
import struct

MAGIC = b"LARCHIVE"
HEAD_SIZE = 24
HEADER_SIZE = 28
CELL_SIZE = 64

# Types of components.
DELETED = 0
BOOTBLOCK = 1
CBFS_HEADER = 2
STAGE = 0x11
SIMPLE_ELF = 0x20
RAW = 0x50
NULL = 0xFFFFFFFF

# Tags of attributes.
COMPRESSION_TAG = 0x42435A4C
HASH_TAG = 0x68736148
STAGE_TAG = 0x53746748

# Compression algorithms.
NONE, LZMA, LZ4 = 0, 1, 2

# The numbers of vboot's `enum vb2_hash_algorithm`, with the names that hashlib has for them.
SHA1, SHA256, SHA512, SHA224, SHA384 = 1, 2, 3, 4, 5
HASHES = {SHA1: "sha1", SHA256: "sha256", SHA512: "sha512", SHA224: "sha224", SHA384: "sha384"}

# Flags of areas.
STATIC, COMPRESSED, READ_ONLY, PRESERVED = 1, 2, 4, 8


def round_up(number, multiple):
    """Returns the lowest multiple that is not below the number."""
    return -(-number // multiple) * multiple


def digest(algorithm, data):
    """Returns the digest of the data by a vboot algorithm number."""
    return hashlib.new(HASHES[algorithm], data).digest()


# ---- Entries


def attribute(tag, data=b"", length=None):
    """Returns an attribute. `length` replaces the stored length, which includes 8 bytes of head."""
    return struct.pack(">II", tag, 8 + len(data) if length is None else length) + data


def compression(algorithm, size=0):
    """Returns a compression attribute with the decompressed size."""
    return attribute(COMPRESSION_TAG, struct.pack(">II", algorithm, size))


def stage_attribute(entry=0, memory=1, load=0x1000, length=None):
    """Returns the attribute of a stage: load address, offset of the entry point, size in memory."""
    return attribute(STAGE_TAG, struct.pack(">QII", load, entry, memory), length)


def hash_attribute(algorithm, content=b"", value=None):
    """Returns a hash attribute with the digest of the content, or with any other value."""
    value = digest(algorithm, content) if value is None else value
    return attribute(HASH_TAG, struct.pack(">I", algorithm) + value)


def head(length, type, attributes_offset, offset, magic=MAGIC):
    """Returns the 24 bytes at the start of each entry."""
    return magic + struct.pack(">IIII", length, type, attributes_offset, offset)


class Component:
    """A component: head, name field, attributes, gap, content, and 0xff up to the end of the cell.

    The name field is the name and one to four NULs, so that its length is a multiple of 4, or
    `name_field`. The fields of the head are computed; `length`, `attributes_offset`, `offset` and
    `magic` replace them. `gap` is the number of bytes 0xff between the attributes and the content.
    `fill` and `keeps` are the padding after the content, and the last bytes of the cell.
    """

    def __init__(self, name, content=b"", type=RAW, attributes=(), gap=0, name_field=None,
                 length=None, attributes_offset=None, offset=None, magic=MAGIC, fill=b"\xff",
                 keeps=b""):
        self.name, self.type, self.length = name, type, len(content)
        field = name + bytes(4 - len(name) % 4) if name_field is None else name_field
        stored = b"".join(attributes)
        start = HEAD_SIZE + len(field)
        self.content_offset = start + len(stored) + gap
        self.head = head(
            len(content) if length is None else length,
            type,
            (start if stored else 0) if attributes_offset is None else attributes_offset,
            self.content_offset if offset is None else offset,
            magic,
        )
        self.metadata = self.head + field + stored + b"\xff" * gap
        used = self.metadata + content
        size = round_up(len(used), CELL_SIZE)
        self.bytes = used.ljust(size, fill)
        if keeps:
            self.bytes = self.bytes[: -len(keeps)] + keeps


class FreeEntry:
    """A free entry of a size: a header of 28 bytes, `fill`, and the last bytes `keeps`.

    `length` replaces the length in the head, which covers all bytes but the header and `keeps`.
    """

    def __init__(self, size, type=NULL, keeps=b"", fill=b"\xff", length=None, offset=HEADER_SIZE):
        covered = size - HEADER_SIZE - len(keeps)
        header = head(covered if length is None else length, type, 0, offset) + bytes(4)
        self.bytes = header.ljust(size - len(keeps), fill) + keeps


def join(*parts, size=None, fill=b"\xff"):
    """Joins entries and bytes to a region; `fill` completes it to `size`, as an unused tail."""
    joined = b"".join(part if isinstance(part, bytes) else part.bytes for part in parts)
    return joined if size is None else joined.ljust(size, fill)


def empty_region(size, keeps=b"\xff\xff\xff\xff"):
    """Returns a region of one empty entry, which does not cover the last four bytes."""
    return FreeEntry(size, keeps=keeps).bytes


def region(size, components, keeps=b"\xff\xff\xff\xff"):
    """Returns a region with these components, by their positions.

    An empty entry covers each run of free bytes. One that ends with the region keeps the last four
    bytes.
    """
    parts, end = [], 0
    for position, component in sorted(components.items()):
        if end < position:
            parts.append(FreeEntry(position - end))
        parts.append(component)
        end = position + len(component.bytes)
    if end < size:
        parts.append(FreeEntry(size - end, keeps=keeps))
    return join(*parts)


# ---- Flash maps


class Area:
    """An area of a flash map. The name is stored in 32 bytes; all 32 may be used."""

    def __init__(self, name, offset, size, flags=0):
        self.name = name if isinstance(name, bytes) else name.encode()
        self.offset = offset
        self.size = size
        self.flags = flags

    def data(self):
        """Returns the 42 bytes of the area."""
        return struct.pack("<II32sH", self.offset, self.size, self.name, self.flags)


def flash_map(size, areas, name=b"BOARD", base=0, signature=b"__FMAP__", major=1, minor=1,
              count=None):
    """Returns a flash map: a head of 56 bytes and 42 for each area. `size` is that of the image."""
    fields = (base, size, name, len(areas) if count is None else count)
    made = signature + bytes((major, minor)) + struct.pack("<QI32sH", *fields)
    return made + b"".join(area.data() for area in areas)


class Image:
    """An image of 0xff, with a flash map and the regions that are put into it.

    The map is at the area FMAP, or at `map_at`. Further arguments are those of `flash_map`; the
    argument `map_size` replaces the size of the image in the map.
    """

    def __init__(self, size, areas, map_at=None, map_size=None, **fields):
        self.areas = areas
        places = [area.offset for area in areas if area.name == b"FMAP"]
        self.map_at = (places or [0])[0] if map_at is None else map_at
        self.map = flash_map(size if map_size is None else map_size, areas, **fields)
        self.bytes = bytearray(b"\xff" * size)
        self.put_at(self.map_at, self.map)

    def put(self, name, region):
        """Puts bytes at the start of the first area with this name, which must have room."""
        area = next((area for area in self.areas if area.name == name.encode()), None)
        if area is None:
            raise ValueError(f"no area {name}")
        if len(region) > area.size:
            raise ValueError(f"{len(region)} bytes for the area {name}, which has {area.size}")
        self.put_at(area.offset, region)
        return self

    def put_at(self, at, data):
        """Puts bytes at an offset of the image, inside it."""
        if at + len(data) > len(self.bytes):
            raise ValueError("the bytes end outside the image")
        self.bytes[at : at + len(data)] = data
        return self

    def data(self):
        """Returns the bytes of the image."""
        return bytes(self.bytes)


# ---- The anchor of CBFS verification

ANCHOR_MAGIC = bytes.fromhex("ad4d647448736815")


def anchor(algorithm, metadata_digest, map_digest, ignored=bytes(3)):
    """Returns an anchor: magic, three ignored bytes, the number of the algorithm, both digests."""
    return ANCHOR_MAGIC + ignored + bytes((algorithm,)) + metadata_digest + map_digest


def terminated(component):
    """Returns the metadata of a component as it is hashed: the last byte of the name field is NUL.

    The name field ends at the attributes, or without attributes at the content.
    """
    attributes_offset, offset = struct.unpack(">II", component.metadata[16:24])
    end = attributes_offset or offset
    return component.metadata[: end - 1] + b"\0" + component.metadata[end:]


def metadata_digest(algorithm, components):
    """Returns the digest of the metadata of components, in order.

    The metadata of a component is all bytes before its content. A component with more than 256
    bytes of metadata is left out.
    """
    pieces = [terminated(one) for one in components if len(one.metadata) <= 256]
    return digest(algorithm, b"".join(pieces))


def sealed_anchor(algorithm, components, map_bytes, ignored=bytes(3)):
    """Returns an anchor with the digests of these components and of this flash map."""
    digests = metadata_digest(algorithm, components), digest(algorithm, map_bytes)
    return anchor(algorithm, *digests, ignored=ignored)
