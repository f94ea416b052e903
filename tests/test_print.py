"""print: the rows of a region from literal heads, names and attributes, and damaged entries."""

import unittest

from tests.image import (
    COMPRESSION_TAG, DELETED, HASH_TAG, NULL, RAW, SHA1, SHA256, SHA512, Area, Image,
    attribute, compression, digest, head,
)
from tests.programs import TOP, ProgramTest
from tests.texts import rows

TEN = b"0123456789"
A_NAME = b"a".ljust(16, b"\0")
A_ROW, FREE_ROW = "a 0x0 raw 10 none", "(empty) 0x40 null 404 none"
UNKNOWN = 0x1234


def image_of(region, size=512, cut=None):
    """Returns an image whose area COREBOOT at 512 has this size and begins with the region."""
    areas = [Area("FMAP", 0, 512), Area("COREBOOT", 512, size), Area("REST", 1024, 3072)]
    return Image(max(4096, 512 + size), areas).put("COREBOOT", region[:size]).data()[:cut]


def first(length=10, type=RAW, attributes_offset=0, offset=40, name=A_NAME, content=TEN):
    """Returns the 64 bytes of the first entry. The content follows the name field."""
    return (head(length, type, attributes_offset, offset) + name + content).ljust(64, b"\xff")


def second(length=404, type=NULL, attributes_offset=0, offset=40):
    """Returns the head of the second entry, which is free, and its name field."""
    return head(length, type, attributes_offset, offset) + bytes(16)


class PrintTest(ProgramTest):
    """Compares the output of `print`."""

    programs = ("cbfstool",)

    def lists(self, image, *lines, refusal=None, options=""):
        """Checks the rows of `print`, and the refusal that ends them."""
        message = f"cbfstool: {refusal}\n" if refusal else ""
        self.check(f"cbfstool image.rom print {options}", {"image.rom": image},
                   int(refusal is not None), rows(*lines), message)


class Samples(PrintTest):
    """The images that coreboot's cbfstool has made."""

    NAMES = ["created", "hashes", "packed", "types"]

    def test_listings(self):
        self.assertEqual(sorted(path.stem for path in (TOP / "samples").glob("*.rom")), self.NAMES)
        for name in self.NAMES:
            with self.subTest(name):
                path = TOP / "samples" / name
                self.check("cbfstool image.rom print",
                           {"image.rom": path.with_suffix(".rom").read_bytes()},
                           output=path.with_suffix(".print").read_bytes())


class Heads(PrintTest):
    """The checks of an entry, on both sides of each limit."""

    free_entries = [
        # fields of the second entry, its row, or its damage
        (dict(length=0), "(empty) 0x40 null 0 none", None),
        (dict(length=408), "(empty) 0x40 null 408 none", None),
        (dict(length=409), None, "extent"),
        (dict(type=DELETED), "(empty) 0x40 deleted 404 none", None),
        (dict(attributes_offset=1), FREE_ROW, None),
        (dict(offset=23), None, "offset"),
        (dict(offset=24), FREE_ROW, None),
        (dict(offset=44), FREE_ROW, None),
        (dict(offset=45), None, "extent"),
        (dict(length=0xFFFFFFFF, offset=0xFFFFFFFF), None, "extent"),
    ]

    def test_free_entries_after_a_component(self):
        for fields, row, damage in self.free_entries:
            with self.subTest(**fields):
                lines = [A_ROW, row] if row else [A_ROW]
                refusal = f"damaged entry at 0x40: {damage}" if damage else None
                self.lists(image_of(first() + second(**fields)), *lines, refusal=refusal)

    components = [
        # fields of the first entry, the rows, or its damage
        (dict(offset=24), None, "offset"),
        (dict(offset=25), None, "name"),
        (dict(offset=26), [A_ROW, FREE_ROW], None),
        (dict(offset=502), [A_ROW], None),
        (dict(offset=503), None, "extent"),
        (dict(attributes_offset=24), None, "attributes"),
        (dict(attributes_offset=25), None, "name"),
        (dict(attributes_offset=40), [A_ROW, FREE_ROW], None),
        (dict(attributes_offset=41), None, "attributes"),
        (dict(length=0xFFFFFFE0, type=NULL), None, "extent"),
        (dict(type=UNKNOWN, name=b" !\\[]~\x7f\xff\x01".ljust(16, b"\0")),
         [r"\x20!\x5c[]~\x7f\xff\x01 0x0 0x1234 10 none", FREE_ROW], None),
        (dict(name=b"n" * 16), None, "name"),
        (dict(attributes_offset=26, name=b"nn".ljust(16, b"\0")), None, "name"),
        (dict(attributes_offset=27, name=b"nn".ljust(16, b"\0")),
         ["nn 0x0 raw 10 none", FREE_ROW], None),
    ]

    def test_components_before_a_free_entry(self):
        for fields, lines, damage in self.components:
            with self.subTest(**fields):
                refusal = f"damaged entry at 0x0: {damage}" if damage else None
                self.lists(image_of(first(**fields) + second()), *(lines or []), refusal=refusal)

    def test_no_magic_at_the_start(self):
        for region in (b"\0" + first()[1:], first()[:7] + b"F" + first()[8:]):
            with self.subTest(region[:8]):
                self.lists(image_of(region), refusal="not a CBFS region")
        self.lists(image_of(first()), refusal="not a CBFS region", options="-r REST")

    def test_the_longest_name(self):
        name = "0" * 255
        region = head(0, RAW, 0, 280) + name.encode() + b"\0"
        self.lists(image_of(region), f"{name} 0x0 raw 0 none")
        region = head(0, RAW, 0, 281) + name.encode() + b"0\0"
        self.lists(image_of(region), refusal="damaged entry at 0x0: name")

    def test_damage_far_from_the_start(self):
        free = (head(2724, NULL, 0, 28) + bytes(4)).ljust(0xAC0, b"\xff")
        image = image_of(free + head(0x700, RAW, 0, 40) + b"n\0", 3584)
        files = {"image.rom": image, "source": b"abc"}
        refusal = "damaged entry at 0xac0: extent"
        self.lists(image, "(empty) 0x0 null 2724 none", refusal=refusal)
        self.refuses(1, refusal, "cbfstool image.rom extract -n n -f out", files, {"out": b""})
        self.refuses(1, refusal, "cbfstool image.rom remove -n n", files)
        self.refuses(1, refusal, "cbfstool image.rom add -n n -t raw -f source", files)


class RegionSizes(PrintTest):
    """A region has a positive multiple of 64 bytes, and a cell too."""

    sizes = [
        # size of the region, length of the content, rows, refusal
        *((size, 24, [], "bad region size") for size in (0, 63, 65, 127, 500)),
        (192, 24, ["a 0x0 raw 24 none"], "damaged entry at 0x40: extent"),
        (192, 25, ["a 0x0 raw 25 none"], None),
        (128, 25, ["a 0x0 raw 25 none"], None),
        (64, 24, ["a 0x0 raw 24 none"], None),
        (64, 25, [], "damaged entry at 0x0: extent"),
    ]

    def test_sizes(self):
        for size, length, lines, refusal in self.sizes:
            with self.subTest(size=size, length=length):
                image = image_of(first(length) + second(), size)
                self.lists(image, *lines, refusal=refusal)

    components = [
        # fields of the only entry of a region of 64 bytes, the row, or the damage
        (dict(length=0xFFFFFFD8), None, "extent"),
        (dict(length=0xFFFFFFF7), None, "extent"),
        *((dict(length=0, type=type, offset=24), None, "offset") for type in (RAW, 1, 0xFFFFFFFE)),
        (dict(length=0, offset=25, name=bytes(16)), " 0x0 raw 0 none", None),
        (dict(attributes_offset=1), None, "attributes"),
        (dict(attributes_offset=24), None, "attributes"),
        (dict(attributes_offset=41), None, "attributes"),
        (dict(attributes_offset=25, name=bytes(16)), " 0x0 raw 10 none", None),
        (dict(attributes_offset=40), A_ROW, None),
    ]

    def test_components_of_a_region_of_64_bytes(self):
        for fields, row, damage in self.components:
            with self.subTest(**fields):
                refusal = f"damaged entry at 0x0: {damage}" if damage else None
                self.lists(image_of(first(**fields), 64), *([row] if row else []), refusal=refusal)

    def test_free_entries_of_a_region_of_64_bytes(self):
        for type, shown in [(NULL, "null"), (DELETED, "deleted")]:
            for length, attributes_offset, offset, damage in [
                (0, 0, 23, "offset"), (0, 0, 0, "offset"), (0, 0, 24, None), (0, 1, 24, None),
                (0, 25, 24, None), (40, 0, 24, None), (41, 0, 24, "extent"),
                (0xFFFFFFE8, 0, 24, "extent"),
            ]:
                with self.subTest(shown, length=length, offset=offset):
                    refusal = f"damaged entry at 0x0: {damage}" if damage else None
                    lines = [] if damage else [f"(empty) 0x0 {shown} {length} none"]
                    region = first(length, type, attributes_offset, offset)
                    self.lists(image_of(region, 64), *lines, refusal=refusal)


class CutImages(PrintTest):
    """An image that ends before the end of its map, or of its region."""

    REGION = first() + second()

    def test_each_length(self):
        for lengths, lines, refusal in [
            (range(182), [], "no FMAP"),
            ((182, 183, 512, 513, 576, 577, 1023), [], "region outside the image"),
            ((1024, 1025, 4095, 4096), [A_ROW, FREE_ROW], None),
        ]:
            for length in lengths:
                with self.subTest(length=length):
                    self.lists(image_of(self.REGION, cut=length), *lines, refusal=refusal)

    def test_the_name_before_the_end(self):
        image = image_of(self.REGION, cut=768)
        self.lists(image, refusal="no such region", options="-r NONE")
        self.lists(image, refusal="region outside the image", options="-r COREBOOT")
        self.lists(image_of(self.REGION), refusal="no such region", options="-r COREBOO")


class Attributes(PrintTest):
    """The attributes of the only component, which has no content."""

    def image(self, data, content=b""):
        """Returns an image whose component has these bytes as attributes, and this content."""
        entry = head(len(content), RAW, 40, 40 + len(data)) + b"p".ljust(16, b"\0")
        return image_of(entry + data + content, 0x1200)

    LZMA_ATTRIBUTE = compression(1)

    lists_of = [
        # attributes, compression, lines
        (b"", "none", []),
        (attribute(UNKNOWN), "none", ["0x00001234 8"]),
        (attribute(UNKNOWN, b"."), "none", ["0x00001234 9"]),
        (attribute(UNKNOWN, b"\0\0\0\1\0\0\0d"), "none", ["0x00001234 16"]),
        (compression(0, 100), "none", ["0x42435a4c 16"]),
        (compression(1, 100), "LZMA", ["0x42435a4c 16"]),
        (compression(2), "LZ4", ["0x42435a4c 16"]),
        (compression(7, 100), "0x7", ["0x42435a4c 16"]),
        # fewer than eight bytes, or a tag that is no attribute, end the list
        (attribute(COMPRESSION_TAG)[:7], "none", []),
        (attribute(0, length=1), "none", []),
        (attribute(1), "none", ["0x00000001 8"]),
        (b"\xff" * 8, "none", []),
        (attribute(NULL), "none", []),
        (attribute(0xFFFFFFFE), "none", ["0xfffffffe 8"]),
        (attribute(0) + LZMA_ATTRIBUTE, "none", []),
        (attribute(1) + LZMA_ATTRIBUTE, "LZMA", ["0x00000001 8", "0x42435a4c 16"]),
        # the first compression attribute counts
        (compression(0) + LZMA_ATTRIBUTE, "none", ["0x42435a4c 16", "0x42435a4c 16"]),
    ]

    def test_lists(self):
        for data, packing, lines in self.lists_of:
            with self.subTest(data.hex(" ", 4)):
                self.lists(self.image(data), f"p 0x0 raw 0 {packing}",
                           *(f" attr {line}" for line in lines), options="-v")

    malformed = [
        attribute(UNKNOWN, length=7), attribute(UNKNOWN, length=9),
        attribute(UNKNOWN, bytes(8), length=7), attribute(UNKNOWN, bytes(8), length=17),
        attribute(COMPRESSION_TAG, bytes(8), length=15),
        attribute(COMPRESSION_TAG, bytes(8), length=17),
        attribute(HASH_TAG, b"\0\0\0\2", length=11),
        attribute(HASH_TAG, b"\0\0\0\2", length=0xFFFFFFFF),
        attribute(COMPRESSION_TAG, length=7), attribute(1, length=1),
        attribute(0xFFFFFFFE, length=0xFFFFFFFF),
    ]

    def test_malformed_lengths(self):
        for data in self.malformed:
            with self.subTest(data.hex(" ", 4)):
                self.lists(self.image(data), refusal="damaged entry at 0x0: attribute length")

    algorithms = [(0, "none"), (1, "LZMA"), (2, "LZ4"), (3, "0x3"), (0x80000000, "0x80000000"),
                  (0xFFFFFFFF, "0xffffffff"), (0x100, "0x100")]

    def test_compressed_components(self):
        for algorithm, packing in self.algorithms:
            with self.subTest(packing):
                image = self.image(compression(algorithm, 512), TEN)
                self.lists(image, f"p 0x0 raw 10 {packing}")
                if algorithm == 0:
                    self.check("cbfstool image.rom extract -n p -f out", {"image.rom": image},
                               left={"out": TEN})
                else:
                    self.refuses(1, "component is compressed",
                                 "cbfstool image.rom extract -n p -f out", {"image.rom": image},
                                 {"out": b""})


class Hashes(PrintTest):
    """The hash state of the only component."""

    # FIPS 180-4's digests of `abc`
    SHORT = bytes.fromhex("ba7816bf8f01cfea414140de5dae2223b00361a396177a9cb410ff61f20015ad")
    LONG = bytes.fromhex(
        "ddaf35a193617abacc417349ae20413112e6fa4e89a97ea20a9eeee64b55d39a"
        "2192992a274fc1a836ba3c23a3feebbd454d4423643ce80e2a9ac94fa54ca49f")

    def lists_hash(self, data, content, *lines):
        """Checks the lines of a component with these attributes."""
        entry = head(len(content), RAW, 40, 40 + len(data)) + b"p".ljust(16, b"\0")
        self.lists(image_of(entry + data + content, 0x1400),
                   f"p 0x0 raw {len(content)} none", *(f" {line}" for line in lines), options="-v")

    @staticmethod
    def hashed(algorithm, value, tag=HASH_TAG):
        """Returns an attribute with the number of an algorithm, and these bytes as digest."""
        return attribute(tag, algorithm.to_bytes(4, "big") + value)

    def test_valid_and_invalid_digests(self):
        for content, state in [(b"abc", "valid"), (b"bbc", "invalid"), (b"abb", "invalid")]:
            with self.subTest(content):
                self.lists_hash(self.hashed(SHA256, self.SHORT), content, "attr 0x68736148 44",
                                f"hash sha256 {self.SHORT.hex()} {state}")
                self.lists_hash(self.hashed(SHA512, self.LONG), content, "attr 0x68736148 76",
                                f"hash sha512 {self.LONG.hex()} {state}")

    def test_unsupported_digests(self):
        for algorithm, value, length in [
            (SHA1, self.SHORT, 44), (9, self.SHORT, 44), (4, self.LONG, 76),
            (SHA256, self.SHORT[:31], 43), (SHA512, self.LONG[:63], 75), (SHA512, self.SHORT, 44),
            (SHA256, b"", 12),
        ]:
            with self.subTest(algorithm, length=length):
                self.lists_hash(self.hashed(algorithm, value), b"abc", f"attr 0x68736148 {length}",
                                "hash unsupported")

    def test_bytes_after_a_digest(self):
        for algorithm, value, more, name in [
            (SHA256, self.SHORT, b"h", "sha256"), (SHA256, self.SHORT, bytes(32), "sha256"),
            (SHA512, self.LONG, b"\0", "sha512"),
        ]:
            with self.subTest(name, more=more):
                data = self.hashed(algorithm, value + more)
                self.lists_hash(data, b"abc", f"attr 0x68736148 {len(data)}",
                                f"hash {name} {value.hex()} valid")

    def test_the_first_hash_attribute_counts(self):
        data = self.hashed(SHA256, self.SHORT) + self.hashed(9, b"")
        self.lists_hash(data, b"abc", "attr 0x68736148 44", "attr 0x68736148 12",
                        f"hash sha256 {self.SHORT.hex()} valid")

    def test_another_tag(self):
        self.lists_hash(self.hashed(SHA256, self.SHORT, UNKNOWN), b"abc", "attr 0x00001234 44")

    def test_lengths_at_the_borders_of_blocks(self):
        """Contents that end at a block of a digest, or at 4096 bytes."""
        counted = bytes(range(251)) * 17
        for algorithm, name, lengths in [
            (SHA256, "sha256", (0, 55, 56, 63, 64, 127, 128, 4096, 4097)),
            (SHA512, "sha512", (0, 111, 112, 127, 128, 4097)),
        ]:
            for length in lengths:
                with self.subTest(name, length=length):
                    content = counted[:length]
                    value = digest(algorithm, content)
                    data = self.hashed(algorithm, value)
                    self.lists_hash(data, content, f"attr 0x68736148 {len(data)}",
                                    f"hash {name} {value.hex()} valid")


if __name__ == "__main__":
    unittest.main()
