"""Builds the structures that a board boots from, from literal fields.

These are the structures outside the flash map and CBFS, which tests/image.py builds: the flash
descriptor, the partition table of the management engine, signed slots, the GBB, the FIT with its
microcode, the master header, and the reset vector. tests/boards.py compares each function with
the bytes that the real tools make. Nothing is validated: a damaged structure is made by a wrong
field. Numbers are little-endian, if nothing else is said.
"""

import hashlib
import struct

from tests.image import BOOTBLOCK, CBFS_HEADER, Component, attribute

FOUR_GIB = 1 << 32
PAGE = 4096

# ---- Flash descriptor

DESCRIPTOR_MAGIC = 0x0FF0A55A

# The regions of the descriptor, in their order, by the names of their areas.
DESCRIPTOR_AREAS = ("SI_DESC", "SI_BIOS", "SI_ME", "SI_GBE", "SI_PDR")

# An unused region: its base is above its limit.
UNUSED_REGION = 0x00007FFF


def descriptor_region(offset, size):
    """Returns the number for a region of whole pages: base in bits 0 to 14, limit from bit 16."""
    return (offset // PAGE) | ((offset + size) // PAGE - 1) << 16


def descriptor(regions, magic=DESCRIPTOR_MAGIC, table=0x40, size=PAGE):
    """Returns a flash descriptor with these regions, which are numbers, in their order.

    `table` is the offset of the table of regions, a multiple of 16. The parts for the chips and
    for the masters have values that let every master read and write every region.
    """
    components, masters, straps = 0x30, 0x80, 0x100
    made = bytearray(b"\xff" * size)
    maps = (
        magic,
        components >> 4 | (table >> 4) << 16 | 4 << 24,
        masters >> 4 | 2 << 8 | (straps >> 4) << 16 | 18 << 24,
        straps >> 4,
    )
    struct.pack_into("<4I", made, 0x10, *maps)
    struct.pack_into("<3I", made, components, 0x00300024, 0, 0)
    struct.pack_into("<3I", made, masters, 0xFFFF0000, 0xFFFF0000, 0xFFFF0118)
    struct.pack_into(f"<{len(regions)}I", made, table, *regions)
    return bytes(made)


def partition_table(count=0, magic=b"$FPT", start=b"\xff" * 16):
    """Returns the head of the partition table at the start of the management engine's region.

    `start` has the bytes before the magic: 16 in older engines, and none in newer ones.
    """
    return start + magic + struct.pack("<IBBBB", count, 0x20, 0x10, 0x20, 0) + bytes(20)


# ---- Signed slots

KEYBLOCK_SIZE = 112
PREAMBLE_SIZE = 108
SHA512_SIZE = 64


def signature_fields(offset, size, data_size):
    """Returns the fields of a signature: the offset from these fields, its size, the data's."""
    return struct.pack("<QQQ", offset, size, data_size)


def key_fields(offset, size, algorithm, version):
    """Returns the fields of a key: the offset from these fields, its size, algorithm, version."""
    return struct.pack("<QQQQ", offset, size, algorithm, version)


def keyblock(key, root_signature, flags=0x17, algorithm=7, version=1, digest=None, size=None,
             magic=b"CHROMEOS", data_size=None):
    """Returns a keyblock: head, the data key, the SHA-512 of both, the root key's signature.

    The digest is computed, or else `digest`. `size` replaces the size of the keyblock, and
    `data_size` that of the data under the digest.
    """
    data = KEYBLOCK_SIZE + len(key)
    whole = data + SHA512_SIZE + len(root_signature)
    covered = data if data_size is None else data_size
    head = b"".join((
        magic,
        struct.pack("<IIQ", 2, 1, whole if size is None else size),
        signature_fields(data + SHA512_SIZE - 24, len(root_signature), data),
        signature_fields(data - 48, SHA512_SIZE, covered),
        struct.pack("<Q", flags),
        key_fields(KEYBLOCK_SIZE - 80, len(key), algorithm, version),
    ))
    signed = head + key
    made = hashlib.sha512(signed[:covered]).digest() if digest is None else digest
    return signed + made + root_signature


def preamble(kernel_key, body_signature, own_signature, body_size, firmware=1, flags=0,
             algorithm=7, version=1, size=None):
    """Returns a preamble: head, kernel key, signature of the body, signature of the preamble."""
    body_at = PREAMBLE_SIZE + len(kernel_key)
    data = body_at + len(body_signature)
    whole = data + len(own_signature)
    head = b"".join((
        struct.pack("<II", whole if size is None else size, 0),
        signature_fields(data - 8, len(own_signature), data),
        struct.pack("<IIII", 2, 1, firmware, 0),
        key_fields(PREAMBLE_SIZE - 48, len(kernel_key), algorithm, version),
        signature_fields(body_at - 80, len(body_signature), body_size),
        struct.pack("<I", flags),
    ))
    return head + kernel_key + body_signature + own_signature


# ---- GBB

GBB_HEAD_SIZE = 128


def gbb(hardware_id, root_key, recovery_key, sizes=(0x100, 0x1000, 0, 0x1000), flags=0, minor=2,
        magic=b"$GBB", digest=None, head_size=GBB_HEAD_SIZE):
    """Returns a GBB: head, then hardware id, root key, bitmaps and recovery key, each padded.

    `sizes` are those of the four fields. From minor version 2 on, the head has the SHA-256 of the
    hardware id, or `digest`.
    """
    places, at = [], GBB_HEAD_SIZE
    for size in (sizes[0], sizes[1], sizes[3]):
        places.append((at, size))
        at += size
    made = hashlib.sha256(hardware_id).digest() if digest is None else digest
    fields = (*places[0], *places[1], places[2][0], sizes[2], *places[2])
    head = magic + struct.pack("<HHII8I", 1, minor, head_size, flags, *fields)
    head += made if minor >= 2 else bytes(32)
    content = [hardware_id.ljust(sizes[0], b"\0"), root_key.ljust(sizes[1], b"\0"),
               bytes(sizes[2]), recovery_key.ljust(sizes[3], b"\0")]
    return head.ljust(GBB_HEAD_SIZE, b"\0") + b"".join(content)


# ---- FIT and microcode

FIT_MAGIC = b"_FIT_   "
FIT_MICROCODE = 1


def fit_entry(address, type=FIT_MICROCODE, size=0, version=0x100, checksum=0):
    """Returns an entry of 16 bytes; the size has 24 bits. Bit 7 of the type's byte stays 0."""
    return struct.pack("<QIHBB", address, size, version, type, checksum)


def fit_table(entries, slots=0, magic=FIT_MAGIC, count=None, checksum=None):
    """Returns a FIT: its head, which is the first entry, these entries, and unused slots of 0.

    The head's last byte makes the sum of all bytes of the counted entries 0, or is `checksum`.
    """
    stated = 1 + len(entries) if count is None else count
    head = magic + struct.pack("<IHB", stated, 0x100, 0)
    body = b"".join(entries)
    value = -sum(head + body) & 0xFF if checksum is None else checksum
    return head + bytes((value,)) + body + bytes(16 * slots)


def microcode(total=2048, revision=1, version=1, stated=None, sum_is=0, filler=b"\x5a"):
    """Returns a microcode update of `total` bytes with this sum of all its numbers of 32 bits.

    `stated` replaces the total size in the head; 0 means 2048 there.
    """
    size = total if stated is None else stated
    head = (version, revision, 0x01012020, 0x306C3, 0, 1, 0x32, max(total - 48, 0), size, 0, 0, 0)
    made = bytearray(struct.pack("<12I", *head).ljust(total, filler))
    numbers = struct.unpack(f"<{total // 4}I", made)
    struct.pack_into("<I", made, 16, (sum_is - sum(numbers)) & 0xFFFFFFFF)
    return bytes(made)


def address(offset, image_size):
    """Returns the address of an offset in an image whose last byte is at 4 GiB - 1."""
    return FOUR_GIB - image_size + offset


# ---- Bootblock

FIT_POINTER_FROM_END = 0x40
RESET_VECTOR_FROM_END = 16
RESET_JUMP = bytes.fromhex("e9b3ff000000000000000000")


def bootblock(size, anchor=b"", anchor_at=0x200, fit_pointer=0, reset=RESET_JUMP,
              header_pointer=bytes(4), code=None):
    """Returns a bootblock for x86, which ends at the end of the image.

    `code` is the content below the fixed places, a row of numbers of 32 bits if it is omitted. The
    pointer to the FIT has 8 bytes.
    """
    filler = b"".join(struct.pack("<I", 0x9E3779B9 * n & 0xFFFFFFFF) for n in range(size // 4))
    made = bytearray(filler if code is None else code)
    made[anchor_at : anchor_at + len(anchor)] = anchor
    struct.pack_into("<Q", made, size - FIT_POINTER_FROM_END, fit_pointer)
    made[size - RESET_VECTOR_FROM_END :] = reset + header_pointer
    return bytes(made)


# ---- Master header

HEADER_MAGIC = b"ORBC"
HEADER_VERSION_2 = 0x31313132
UNKNOWN_ARCHITECTURE = 0xFFFFFFFF


def master_header(end, offset, bootblock_size=4, alignment=64, magic=HEADER_MAGIC,
                  version=HEADER_VERSION_2, architecture=UNKNOWN_ARCHITECTURE):
    """Returns the content of a master header, in big-endian numbers.

    `end` is the offset in the image at which the region ends, `offset` that at which it begins.
    """
    numbers = (version, end, bootblock_size, alignment, offset, architecture, 0)
    return magic + struct.pack(">7I", *numbers)


def header_component(content):
    """Returns the component of a master header."""
    return Component(b"cbfs master header", content, type=CBFS_HEADER)


def header_pointer(place, region_size):
    """Returns the last four bytes of a region: the content's place, less the region's size."""
    return struct.pack("<i", place - region_size)


# ---- Stages


def elf(load, entry, content, memory_size=None, machine=3):
    """Returns an ELF file of 32 bits with one segment; machine 3 is i386, 40 is ARM.

    Its sections are an empty one, the content as `.text`, and the names of the sections.
    """
    names = b"\0.text\0.shstrtab\0"
    at = 52 + 32
    sections_at = -(-(at + len(content) + len(names)) // 4) * 4
    ident = b"\x7fELF" + bytes((1, 1, 1)) + bytes(9)
    head = ident + struct.pack("<HHIIIIIHHHHHH", 2, machine, 1, entry, 52, sections_at, 0, 52, 32,
                               1, 40, 3, 2)
    memory = len(content) if memory_size is None else memory_size
    segment = struct.pack("<8I", 1, at, load, load, len(content), memory, 7, 4)
    text = struct.pack("<10I", 1, 1, 7, load, at, len(content), 0, 0, 4, 0)
    strings = struct.pack("<10I", 7, 3, 0, 0, at + len(content), len(names), 0, 0, 1, 0)
    body = (head + segment + content + names).ljust(sections_at, b"\0")
    return body + bytes(40) + text + strings


def bootblock_component(content, attributes=()):
    """Returns the component of a bootblock."""
    return Component(b"bootblock", content, type=BOOTBLOCK, attributes=attributes)
