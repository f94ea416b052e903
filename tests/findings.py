"""What the tests of cbfscheck share: reports, and small images.

A report is written as its lines, in which `|` stands for a tab:

    self.reports(1, board(0x400, [FMAP, ("D", 0x180, 0x281)]), '''
        remark|-|-|0x0|flashmap
        bad|D|-|0x180|ends outside the image
        not sound: 1 bad, 1 remarks, 0 changes
    ''')

The cells have names of one letter, in a name field of 16 bytes, and mostly ten bytes of content.
"""

from tests.image import (
    DELETED, HASH_TAG, SHA256, Area, Component, FreeEntry, Image, attribute, hash_attribute, join,
)
from tests.programs import ProgramTest

FMAP = ("FMAP", 0, 0x100)


def report(text):
    """Returns the bytes of a report; blanks at the start of a line are left out."""
    lines = [line.lstrip(" ") for line in text.strip("\n ").split("\n")]
    return "".join(f"{line}\n" for line in lines).replace("|", "\t").encode()


def verdict(bad):
    """Returns the verdict in words of a report without --flash, by its number of bad rows."""
    return "not sound" if bad else "sound"


def conclusion(bad, remarks, changes):
    """Returns the last line of a report without --flash: the verdict in words, and the numbers of
    rows."""
    return f"{verdict(bad)}: {bad} bad, {remarks} remarks, {changes} changes"


class CheckTest(ProgramTest):
    """A test that compares reports of cbfscheck."""

    programs = ("cbfscheck",)

    def reports(self, status, image, text, options="", **run):
        """Checks the report of an image. The image stays as it is."""
        command = f"cbfscheck image.rom {options}"
        return self.check(command, {"image.rom": image}, status, report(text), **run)

    def changes(self, status, old, new, text, options=""):
        """Checks the report of two images. The remarks are left out, since they are the findings of
        the new image; the last line counts them."""
        folder = self.folder({"old.rom": old, "new.rom": new})
        done = folder.run(f"cbfscheck old.rom new.rom {options}")
        lines = done.output.splitlines(keepends=True)
        done.output = b"".join(line for line in lines if not line.startswith(b"remark"))
        return self.compare_run(folder, done, status, report(text))


# ---- Images


def board(size, areas, *pieces, **fields):
    """Returns an image of 0xff with a map `F` at its start, and bytes at offsets.

    An area is a name, an offset and a size, and maybe flags. Later pieces cover earlier ones.
    """
    made = Image(size, [Area(*area) for area in areas], **{"map_at": 0, "name": b"F", **fields})
    for at, piece in pieces:
        made.put_at(at, piece)
    return made.data()


def small(areas, *pieces, **fields):
    """Returns an image of 1024 bytes with the area FMAP and these areas, and bytes at offsets."""
    return board(0x400, [FMAP, *areas], *pieces, **fields)


def blocks_of(areas, *places, size=0x3000):
    """Returns an image whose area FMAP has the first 4096 bytes, with 0 at these offsets."""
    image = board(size, [("FMAP", 0, 0x1000), *areas])
    return patched(image, *((place, b"\0") for place in places))


def region(size, cells, *pieces):
    """Returns an image with a region A of this size after the area FMAP.

    The cells follow each other, and the offsets of the pieces count from the start of the region.
    """
    if len(join(*cells)) > size:
        raise ValueError(f"cells of {len(join(*cells))} bytes for a region of {size}")
    moved = [(0x100 + at, piece) for at, piece in pieces]
    return board(0x100 + size, [FMAP, ("A", 0x100, size)], (0x100, join(*cells)), *moved)


def patched(data, *pieces):
    """Returns the bytes with other bytes at offsets."""
    made = bytearray(data)
    for at, piece in pieces:
        made[at : at + len(piece)] = piece
    return bytes(made)


def cell(name, content=b"0123456789", **fields):
    """Returns the cell of a component whose name field has 16 bytes."""
    return Component(name, content, name_field=name.ljust(16, b"\0"), **fields).bytes


def free(size, **fields):
    """Returns a free cell of a size."""
    return FreeEntry(size, **fields).bytes


A, B, N, E = cell(b"a"), cell(b"b"), cell(b"\xff", type=0x77), cell(b"\xc3\xa9")
A_51, B_77, A_9 = cell(b"a", type=0x51), cell(b"b", type=0x77), cell(b"a", b"012345678")
# A content of 216 bytes ends with its cell of 256; one of 5000 is read in two pieces.
A_216, L_5000 = cell(b"a", b"\xff" * 216), cell(b"l", b"\xff" * 5000)
# Digests of contents, as sha256sum and sha512sum print them: of no bytes, of `abc` and `abcd`, and
# of the ten bytes `0123456789`.
EMPTY_256 = "e3b0c44298fc1c149afbf4c8996fb92427ae41e4649b934ca495991b7852b855"
ABC_256 = "ba7816bf8f01cfea414140de5dae2223b00361a396177a9cb410ff61f20015ad"
ABC_512 = ("ddaf35a193617abacc417349ae20413112e6fa4e89a97ea20a9eeee64b55d39a"
           "2192992a274fc1a836ba3c23a3feebbd454d4423643ce80e2a9ac94fa54ca49f")
ABCD_256 = "88d4266fd4e6338d13b845fcf289579d209c897823b9217da3e161936f031589"
TEN_256 = "84d89877f0d4041efb6bf91a16f0248f2fd573e6af05c19f96bedb9f882f7882"
H = cell(b"h", b"abc", attributes=[hash_attribute(SHA256, value=bytes.fromhex(ABC_256))])
# A hash of an unknown algorithm, and the same bytes that are no attribute.
UNKNOWN = attribute(HASH_TAG, b"\0\0\0\x09")
U = cell(b"u", b"", attributes=[UNKNOWN])
U_PLAIN = cell(b"u", b"", attributes=[UNKNOWN], attributes_offset=0)
# An attribute that states seven bytes, fewer than its head has.
SHORT = cell(b"a", b"\xff" * 10, attributes=[attribute(0x1234, bytes(8), length=7)])
DELETED_64, NULL_64, NULL_128, NULL_256 = free(64, type=DELETED), free(64), free(128), free(256)
# A free entry that ends outside every image.
NULL_LONG = free(256, length=0xFF0000E4)
