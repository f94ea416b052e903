"""cbfscheck: the rows of a region, of its components, and of its unused tail.

If a row is bad, a command of cbfstool fails for its cause, or a comment says what goes wrong.
"""

import unittest

from tests.findings import (
    A, A_216, B, B_77, DELETED_64, E, FMAP, H, N, NULL_64, NULL_128, NULL_256, SHORT, TEN_256, U,
    CheckTest, board, cell, patched, region,
)
from tests.image import SHA1, Component, hash_attribute
from tests.samples import Sample

# In hashes.rom the region COREBOOT is at 0x1400, and the area's size in the map at 0x1090.
HASHES = Sample("hashes").image
TYPES = Sample("types").image


class Sampled(CheckTest):
    """A region of a sample, with one mistake."""

    programs = ("cbfscheck", "cbfstool")

    def trips(self, message, command, image, **more):
        """Checks that a command of cbfstool on the image is refused."""
        self.refuses(1, message, f"cbfstool image.rom {command}", {"image.rom": image, **more})

    def test_a_size_that_is_no_multiple_of_64(self):
        """coreboot's tools use such an area. cbfstool of this project refuses it."""
        image = patched(HASHES, (0x1090, b"\x20\x40"))
        self.reports(0, image, r"""
            remark|-|-|0x1000|flashmap
            remark|COREBOOT|h\x20sha1|0x0|hash unsupported
            remark|COREBOOT|h\x20sha256|0x80|sha256 valid
            remark|COREBOOT|h\x20sha512|0x100|sha512 valid
            remark|COREBOOT|gap|0x380|sha256 valid
            remark|COREBOOT|-|-|complete
            remark|COREBOOT|-|-|components|5
            remark|COREBOOT|-|-|free bytes|15744
            remark|COREBOOT|-|-|largest content that add takes|15264
            remark|COREBOOT|-|-|size is no multiple of 64
            sound: 0 bad, 10 remarks, 0 changes
        """)
        self.trips("bad region size", "print", image)

    def test_COREBOOT_without_an_entry(self):
        """It is checked without being requested."""
        image = patched(HASHES, (0x1400, b"X"))
        self.reports(1, image, """
            remark|-|-|0x1000|flashmap
            bad|COREBOOT|-|-|no CBFS
            not sound: 1 bad, 1 remarks, 0 changes
        """)
        self.reports(1, image, """
            remark|-|-|0x1000|flashmap
            bad|COREBOOT|-|-|no CBFS
            not sound: 1 bad, 1 remarks, 0 changes
        """, "-r COREBOOT")
        self.trips("not a CBFS region", "print", image)

    def test_another_area_without_an_entry(self):
        image = patched(HASHES, (0x1400, b"X"), (0x1094, b"X"))
        self.reports(0, image, """
            remark|-|-|0x1000|flashmap
            sound: 0 bad, 1 remarks, 0 changes
        """)
        self.reports(1, image, """
            remark|-|-|0x1000|flashmap
            bad|COREBOOT|-|-|no such area
            not sound: 1 bad, 1 remarks, 0 changes
        """, "-r COREBOOT")

    def test_the_name_of_an_earlier_component(self):
        """The name reaches only the first component, which has another content."""
        image = patched(TYPES, (0x59D8, b"t/mrc\0"), (0x59E4, b"xyz"))
        self.reports(1, image, """
            remark|-|-|0x4800|flashmap
            bad|COREBOOT|t/mrc|0x1c0|has the name of an earlier component
            remark|COREBOOT|t/mma|0x300|type without a name|0x62
            remark|COREBOOT|t/efi|0x340|type without a name|0x63
            remark|COREBOOT|t/struct|0x380|type without a name|0x70
            bad|COREBOOT|t/stage|0x3c0|stage has no stage attribute of 24 bytes
            remark|COREBOOT|unknown|0x480|type without a name|0x1234
            remark|COREBOOT|-|-|complete
            remark|COREBOOT|-|-|components|20
            remark|COREBOOT|-|-|free bytes|41664
            remark|COREBOOT|-|-|largest content that add takes|40864
            remark|SI_DESC|-|-|blank: no flash descriptor
            remark|SI_ME|-|-|blank: no partition table of the ME
            remark|GBB|-|-|blank: no GBB
            remark|VBLOCK_A|-|-|blank: no signatures
            not sound: 2 bad, 13 remarks, 0 changes
        """)
        self.check("cbfstool image.rom extract -n t/mrc -f out", {"image.rom": image},
                   left={"out": b"abc"})

    def test_a_content_that_is_not_that_of_its_digest(self):
        """A boot that verifies components stops here. `print -v` shows the digest as invalid."""
        sha256, sha512 = patched(HASHES, (0x14D0, b"X")), patched(HASHES, (0x1570, b"X"))
        self.reports(1, sha256, r"""
            remark|-|-|0x1000|flashmap
            remark|COREBOOT|h\x20sha1|0x0|hash unsupported
            bad|COREBOOT|h\x20sha256|0x80|sha256 invalid
            remark|COREBOOT|h\x20sha512|0x100|sha512 valid
            remark|COREBOOT|gap|0x380|sha256 valid
            remark|COREBOOT|-|-|complete
            remark|COREBOOT|-|-|components|5
            remark|COREBOOT|-|-|free bytes|15744
            remark|COREBOOT|-|-|largest content that add takes|15264
            not sound: 1 bad, 8 remarks, 0 changes
        """)
        self.reports(1, sha512, r"""
            remark|-|-|0x1000|flashmap
            remark|COREBOOT|h\x20sha1|0x0|hash unsupported
            remark|COREBOOT|h\x20sha256|0x80|sha256 valid
            bad|COREBOOT|h\x20sha512|0x100|sha512 invalid
            remark|COREBOOT|gap|0x380|sha256 valid
            remark|COREBOOT|-|-|complete
            remark|COREBOOT|-|-|components|5
            remark|COREBOOT|-|-|free bytes|15744
            remark|COREBOOT|-|-|largest content that add takes|15264
            not sound: 1 bad, 8 remarks, 0 changes
        """)
        for image in sha256, sha512:
            shown = self.folder({"image.rom": image}).run("cbfstool image.rom print -v").output
            self.assertEqual(shown.count(b"\tinvalid\n"), 1)

    def test_a_deleted_component(self):
        self.reports(0, patched(HASHES, (0x15CC, bytes(4))), r"""
            remark|-|-|0x1000|flashmap
            remark|COREBOOT|h\x20sha1|0x0|hash unsupported
            remark|COREBOOT|h\x20sha256|0x80|sha256 valid
            remark|COREBOOT|h\x20sha512|0x100|sha512 valid
            remark|COREBOOT|-|0x1c0|deleted component
            remark|COREBOOT|gap|0x380|sha256 valid
            remark|COREBOOT|-|-|complete
            remark|COREBOOT|-|-|components|5
            remark|COREBOOT|-|-|free bytes|15744
            remark|COREBOOT|-|-|largest content that add takes|15264
            sound: 0 bad, 10 remarks, 0 changes
        """)

    def damaged(self, kind, at, data, text):
        """Checks an image whose first entry has other bytes at an offset."""
        image = patched(HASHES, (0x1400 + at, data))
        self.reports(1, image, text)
        for command in ["print", "remove -n gap", "add -n new -t raw -f fit"]:
            self.trips(f"damaged entry at 0x0: {kind}", command, image, fit=b"abc")

    def test_a_damaged_offset(self):
        self.damaged("offset", 20, b"\0\0\0\1", """
            remark|-|-|0x1000|flashmap
            bad|COREBOOT|-|0x0|damaged entry: offset
            remark|COREBOOT|-|-|no components
            remark|COREBOOT|-|-|free bytes|0
            remark|COREBOOT|-|-|no room for a component
            not sound: 1 bad, 4 remarks, 0 changes
        """)

    def test_damaged_attributes(self):
        self.damaged("attributes", 16, b"\0\0\0\1", """
            remark|-|-|0x1000|flashmap
            bad|COREBOOT|-|0x0|damaged entry: attributes
            remark|COREBOOT|-|-|no components
            remark|COREBOOT|-|-|free bytes|0
            remark|COREBOOT|-|-|no room for a component
            not sound: 1 bad, 4 remarks, 0 changes
        """)

    def test_a_damaged_extent(self):
        self.damaged("extent", 8, b"\x7f", """
            remark|-|-|0x1000|flashmap
            bad|COREBOOT|-|0x0|damaged entry: extent
            remark|COREBOOT|-|-|no components
            remark|COREBOOT|-|-|free bytes|0
            remark|COREBOOT|-|-|no room for a component
            not sound: 1 bad, 4 remarks, 0 changes
        """)

    def test_a_name_without_a_nul(self):
        """The name field of `h sha1` has 8 bytes."""
        self.damaged("name", 24, b"a" * 8, """
            remark|-|-|0x1000|flashmap
            bad|COREBOOT|-|0x0|damaged entry: name
            remark|COREBOOT|-|-|no components
            remark|COREBOOT|-|-|free bytes|0
            remark|COREBOOT|-|-|no room for a component
            not sound: 1 bad, 4 remarks, 0 changes
        """)

    def test_a_damaged_attribute(self):
        self.damaged("attribute length", 36, bytes(4), """
            remark|-|-|0x1000|flashmap
            bad|COREBOOT|-|0x0|damaged entry: attribute length
            remark|COREBOOT|-|-|no components
            remark|COREBOOT|-|-|free bytes|0
            remark|COREBOOT|-|-|no room for a component
            not sound: 1 bad, 4 remarks, 0 changes
        """)

    def test_damage_after_components(self):
        image = patched(HASHES, (0x1588, b"\x7f"))
        self.reports(1, image, r"""
            remark|-|-|0x1000|flashmap
            remark|COREBOOT|h\x20sha1|0x0|hash unsupported
            remark|COREBOOT|h\x20sha256|0x80|sha256 valid
            remark|COREBOOT|h\x20sha512|0x100|sha512 valid
            bad|COREBOOT|-|0x180|damaged entry: extent
            remark|COREBOOT|-|-|components|3
            remark|COREBOOT|-|-|free bytes|0
            remark|COREBOOT|-|-|no room for a component
            not sound: 1 bad, 7 remarks, 0 changes
        """)
        self.check("cbfstool image.rom print", {"image.rom": image}, 1, (
            "h\\x20sha1\t0x0\traw\t10\tnone\n"
            "h\\x20sha256\t0x80\traw\t10\tnone\n"
            "h\\x20sha512\t0x100\traw\t10\tnone\n"),
            "cbfstool: damaged entry at 0x180: extent\n")


class Components(CheckTest):
    """The rows of the components of a small region."""

    def test_no_bytes(self):
        self.reports(1, region(0, []), """
            remark|-|-|0x0|flashmap
            remark|A|-|0x100|has no bytes
            bad|A|-|-|size is less than 64
            not sound: 1 bad, 2 remarks, 0 changes
        """, "-r A")

    def test_a_size_that_is_no_multiple_of_64(self):
        """The area is checked up to byte 448. The bytes after it are no part of the tail, and can
        have any value."""
        for last in b"", b"x" * 52:
            with self.subTest(last):
                self.reports(0, region(500, [A], (448, last)), """
                    remark|-|-|0x0|flashmap
                    remark|A|-|0x40|unused tail
                    remark|A|-|-|components|1
                    remark|A|-|-|free bytes|0
                    remark|A|-|-|no room for a component
                    remark|A|-|-|size is no multiple of 64
                    sound: 0 bad, 6 remarks, 0 changes
                """)

    def test_sizes_around_that_of_an_entry(self):
        for size in 24, 63:
            with self.subTest(size):
                self.reports(1, region(size, [A[:size]]), """
                    remark|-|-|0x0|flashmap
                    bad|A|-|-|size is less than 64
                    not sound: 1 bad, 1 remarks, 0 changes
                """)
        for size, more in (64, []), (65, ["remark|A|-|-|size is no multiple of 64"]):
            with self.subTest(size):
                self.reports(0, region(size, [A]), "\n".join([
                    "remark|-|-|0x0|flashmap", "remark|A|-|-|complete",
                    "remark|A|-|-|components|1", "remark|A|-|-|free bytes|0",
                    "remark|A|-|-|no room for a component", *more,
                    f"sound: 0 bad, {5 + len(more)} remarks, 0 changes"]))

    def test_a_region_without_an_entry_at_its_start(self):
        self.reports(1, region(512, [], (0x40, A)), """
            remark|-|-|0x0|flashmap
            bad|A|-|-|no CBFS
            not sound: 1 bad, 1 remarks, 0 changes
        """, "-r A")

    def test_a_component_without_a_digest(self):
        """Its row is printed only on request."""
        image = board(0x200, [FMAP, ("A", 0x100, 0x100)], (0x100, A_216)) + b"\xff" * 0x200
        image = patched(image, (18, b"\0\4"))
        self.reports(0, image, """
            remark|-|-|0x0|flashmap
            remark|A|-|-|complete
            remark|A|-|-|components|1
            remark|A|-|-|free bytes|0
            remark|A|-|-|no room for a component
            sound: 0 bad, 5 remarks, 0 changes
        """)
        self.reports(0, image, """
            remark|-|-|0x0|flashmap
            remark|A|a|0x0|no hash
            remark|A|-|-|complete
            remark|A|-|-|components|1
            remark|A|-|-|free bytes|0
            remark|A|-|-|no room for a component
            sound: 0 bad, 6 remarks, 0 changes
        """, "-v")

    def test_rows_of_two_names(self):
        self.reports(1, region(256, [A, B_77, A, B_77]), """
            remark|-|-|0x0|flashmap
            remark|A|a|0x0|no hash
            remark|A|b|0x40|type without a name|0x77
            remark|A|b|0x40|no hash
            bad|A|a|0x80|has the name of an earlier component
            remark|A|a|0x80|no hash
            bad|A|b|0xc0|has the name of an earlier component
            remark|A|b|0xc0|type without a name|0x77
            remark|A|b|0xc0|no hash
            remark|A|-|-|complete
            remark|A|-|-|components|4
            remark|A|-|-|free bytes|0
            remark|A|-|-|no room for a component
            not sound: 2 bad, 11 remarks, 0 changes
        """, "-v")

    def test_a_valid_digest(self):
        self.reports(0, region(128, [H]), """
            remark|-|-|0x0|flashmap
            remark|A|h|0x0|sha256 valid
            remark|A|-|-|complete
            remark|A|-|-|components|1
            remark|A|-|-|free bytes|0
            remark|A|-|-|no room for a component
            sound: 0 bad, 6 remarks, 0 changes
        """)

    def test_an_invalid_digest(self):
        self.reports(1, region(128, [H], (0x56, b"d")), """
            remark|-|-|0x0|flashmap
            bad|A|h|0x0|sha256 invalid
            remark|A|-|-|complete
            remark|A|-|-|components|1
            remark|A|-|-|free bytes|0
            remark|A|-|-|no room for a component
            not sound: 1 bad, 5 remarks, 0 changes
        """)

    def test_a_digest_of_an_unknown_algorithm(self):
        image = region(192, [A, B_77, U])
        self.reports(1, image, """
            remark|-|-|0x0|flashmap
            remark|A|b|0x40|type without a name|0x77
            remark|A|u|0x80|hash unsupported
            bad|A|u|0x80|digest has an unknown algorithm
            remark|A|-|-|complete
            remark|A|-|-|components|3
            remark|A|-|-|free bytes|0
            remark|A|-|-|no room for a component
            not sound: 1 bad, 7 remarks, 0 changes
        """)
        self.reports(1, image, """
            remark|-|-|0x0|flashmap
            remark|A|a|0x0|no hash
            remark|A|b|0x40|type without a name|0x77
            remark|A|b|0x40|no hash
            remark|A|u|0x80|hash unsupported
            bad|A|u|0x80|digest has an unknown algorithm
            remark|A|-|-|complete
            remark|A|-|-|components|3
            remark|A|-|-|free bytes|0
            remark|A|-|-|no room for a component
            not sound: 1 bad, 9 remarks, 0 changes
        """, "-v")

    def test_deleted_components(self):
        """The largest run of free bytes has two cells, the second of which is deleted."""
        image = region(320, [DELETED_64, A, NULL_64, DELETED_64, A])
        self.reports(1, image, """
            remark|-|-|0x0|flashmap
            remark|A|-|0x0|deleted component
            remark|A|a|0x40|no hash
            remark|A|-|0xc0|deleted component
            bad|A|a|0x100|has the name of an earlier component
            remark|A|a|0x100|no hash
            remark|A|-|-|complete
            remark|A|-|-|components|2
            remark|A|-|-|free bytes|192
            remark|A|-|-|largest content that add takes|100
            not sound: 1 bad, 9 remarks, 0 changes
        """, "-v")

    def test_damage_after_free_space(self):
        self.reports(1, region(192, [NULL_64, SHORT]), """
            remark|-|-|0x0|flashmap
            bad|A|-|0x40|damaged entry: attribute length
            remark|A|-|-|no components
            remark|A|-|-|free bytes|64
            remark|A|-|-|largest content that add takes|36
            not sound: 1 bad, 4 remarks, 0 changes
        """, "-v")

    def test_names_that_are_not_utf_8(self):
        """The last name is UTF-8, but not ASCII."""
        image = region(192, [N, N, E])
        self.reports(1, image, r"""
            remark|-|-|0x0|flashmap
            remark|A|\xff|0x0|name isn't UTF-8
            remark|A|\xff|0x0|type without a name|0x77
            remark|A|\xff|0x0|no hash
            bad|A|\xff|0x40|has the name of an earlier component
            remark|A|\xff|0x40|name isn't UTF-8
            remark|A|\xff|0x40|type without a name|0x77
            remark|A|\xff|0x40|no hash
            remark|A|\xc3\xa9|0x80|no hash
            remark|A|-|-|complete
            remark|A|-|-|components|3
            remark|A|-|-|free bytes|0
            remark|A|-|-|no room for a component
            not sound: 1 bad, 12 remarks, 0 changes
        """, "-v")
        self.reports(1, image, r"""
            remark|-|-|0x0|flashmap
            remark|A|\xff|0x0|name isn't UTF-8
            remark|A|\xff|0x0|type without a name|0x77
            bad|A|\xff|0x40|has the name of an earlier component
            remark|A|\xff|0x40|name isn't UTF-8
            remark|A|\xff|0x40|type without a name|0x77
            remark|A|-|-|complete
            remark|A|-|-|components|3
            remark|A|-|-|free bytes|0
            remark|A|-|-|no room for a component
            not sound: 1 bad, 9 remarks, 0 changes
        """)
        self.reports(1, image, rf"""
            area|FMAP|0x0|256|0x0
            area|A|0x100|192|0x0
            component|A|\xff|0x0|0x77|10|none|no hash|0x28|-|{TEN_256}
            component|A|\xff|0x40|0x77|10|none|no hash|0x68|-|{TEN_256}
            component|A|\xc3\xa9|0x80|raw|10|none|no hash|0xa8|-|{TEN_256}
            remark|-|-|0x0|flashmap
            remark|A|\xff|0x0|name isn't UTF-8
            remark|A|\xff|0x0|type without a name|0x77
            remark|A|\xff|0x0|no hash
            bad|A|\xff|0x40|has the name of an earlier component
            remark|A|\xff|0x40|name isn't UTF-8
            remark|A|\xff|0x40|type without a name|0x77
            remark|A|\xff|0x40|no hash
            remark|A|\xc3\xa9|0x80|no hash
            remark|A|-|-|complete
            remark|A|-|-|components|3
            remark|A|-|-|free bytes|0
            remark|A|-|-|no room for a component
            not sound: 1 bad, 12 remarks, 0 changes
        """, "-v --list")


class AllHashed(CheckTest):
    """With --all-hashed, a component without a digest is bad, and one that cannot be computed."""

    def test_components_without_a_valid_digest(self):
        image = region(320, [A, B_77, U, H])
        self.reports(1, image, """
            remark|-|-|0x0|flashmap
            bad|A|a|0x0|no hash
            remark|A|b|0x40|type without a name|0x77
            bad|A|b|0x40|no hash
            bad|A|u|0x80|hash unsupported
            bad|A|u|0x80|digest has an unknown algorithm
            remark|A|h|0xc0|sha256 valid
            remark|A|-|-|complete
            remark|A|-|-|components|4
            remark|A|-|-|free bytes|0
            remark|A|-|-|no room for a component
            not sound: 4 bad, 7 remarks, 0 changes
        """, "--all-hashed")
        self.reports(1, image, """
            remark|-|-|0x0|flashmap
            bad|A|a|0x0|no hash
            remark|A|b|0x40|type without a name|0x77
            bad|A|b|0x40|no hash
            bad|A|u|0x80|hash unsupported
            bad|A|u|0x80|digest has an unknown algorithm
            remark|A|h|0xc0|sha256 valid
            remark|A|-|-|complete
            remark|A|-|-|components|4
            remark|A|-|-|free bytes|0
            remark|A|-|-|no room for a component
            not sound: 4 bad, 7 remarks, 0 changes
        """, "--all-hashed -v")

    def test_types_that_need_no_digest(self):
        """A bootblock and a cbfs header may lack a digest, or have one that is not computed."""
        other = [hash_attribute(SHA1, value=bytes(20))]
        for kind in (1, 2):
            cells = [cell(b"p", type=kind), cell(b"s", b"", type=kind, attributes=other)]
            image = region(192, cells)
            with self.subTest(kind):
                self.reports(0, image, """
                    remark|-|-|0x0|flashmap
                    remark|A|s|0x40|hash unsupported
                    remark|A|-|-|complete
                    remark|A|-|-|components|2
                    remark|A|-|-|free bytes|0
                    remark|A|-|-|no room for a component
                    sound: 0 bad, 6 remarks, 0 changes
                """, "--all-hashed")
                self.reports(0, image, """
                    remark|-|-|0x0|flashmap
                    remark|A|p|0x0|no hash
                    remark|A|s|0x40|hash unsupported
                    remark|A|-|-|complete
                    remark|A|-|-|components|2
                    remark|A|-|-|free bytes|0
                    remark|A|-|-|no room for a component
                    sound: 0 bad, 7 remarks, 0 changes
                """, "--all-hashed -v")

    def test_a_component_with_a_valid_digest(self):
        self.reports(0, region(128, [H]), """
            remark|-|-|0x0|flashmap
            remark|A|h|0x0|sha256 valid
            remark|A|-|-|complete
            remark|A|-|-|components|1
            remark|A|-|-|free bytes|0
            remark|A|-|-|no room for a component
            sound: 0 bad, 6 remarks, 0 changes
        """, "--all-hashed")


class Tails(CheckTest):
    """The unused tail of a region, after the component `a`."""

    def test_a_blank_tail(self):
        self.reports(0, region(192, [A]), """
            remark|-|-|0x0|flashmap
            remark|A|-|0x40|unused tail
            remark|A|-|-|components|1
            remark|A|-|-|free bytes|0
            remark|A|-|-|no room for a component
            sound: 0 bad, 5 remarks, 0 changes
        """)
        self.reports(0, region(192, [A]), """
            remark|-|-|0x0|flashmap
            remark|A|a|0x0|no hash
            remark|A|-|0x40|unused tail
            remark|A|-|-|components|1
            remark|A|-|-|free bytes|0
            remark|A|-|-|no room for a component
            sound: 0 bad, 6 remarks, 0 changes
        """, "-v")

    def test_bytes_0_and_any_last_four_bytes(self):
        image = region(192, [A], (0x40, b"\0\xff\0\0"), (0xBB, b"\0"), (0xBC, b"abcd"))
        self.reports(0, image, """
            remark|-|-|0x0|flashmap
            remark|A|-|0x40|unused tail
            remark|A|-|-|components|1
            remark|A|-|-|free bytes|0
            remark|A|-|-|no room for a component
            sound: 0 bad, 5 remarks, 0 changes
        """)

    def test_the_last_byte_before_the_last_four(self):
        self.reports(1, region(192, [A], (0xBB, b"\x01")), """
            remark|-|-|0x0|flashmap
            remark|A|-|0x40|unused tail
            bad|A|-|0xbb|unused tail has other bytes than 0xff and 0x00
            remark|A|-|-|components|1
            remark|A|-|-|free bytes|0
            remark|A|-|-|no room for a component
            not sound: 1 bad, 5 remarks, 0 changes
        """)

    def test_the_first_other_byte(self):
        self.reports(1, region(192, [A], (0x40, b"\0\0\xfe"), (0x50, b"x")), """
            remark|-|-|0x0|flashmap
            remark|A|-|0x40|unused tail
            bad|A|-|0x42|unused tail has other bytes than 0xff and 0x00
            remark|A|-|-|components|1
            remark|A|-|-|free bytes|0
            remark|A|-|-|no room for a component
            not sound: 1 bad, 5 remarks, 0 changes
        """)

    def test_a_magic_at_a_multiple_of_64(self):
        self.reports(1, region(256, [A], (0x80, b"LARCHIVE")), """
            remark|-|-|0x0|flashmap
            remark|A|-|0x40|unused tail
            bad|A|-|0x80|unused tail has other bytes than 0xff and 0x00
            bad|A|-|0x80|entry in the unused tail
            remark|A|-|-|components|1
            remark|A|-|-|free bytes|0
            remark|A|-|-|no room for a component
            not sound: 2 bad, 5 remarks, 0 changes
        """)

    def test_a_magic_at_other_offsets(self):
        self.reports(1, region(256, [A], (0x41, b"LARCHIVE")), """
            remark|-|-|0x0|flashmap
            remark|A|-|0x40|unused tail
            bad|A|-|0x41|unused tail has other bytes than 0xff and 0x00
            remark|A|-|-|components|1
            remark|A|-|-|free bytes|0
            remark|A|-|-|no room for a component
            not sound: 1 bad, 5 remarks, 0 changes
        """)
        self.reports(1, region(256, [A], (0x7F, b"LARCHIVE")), """
            remark|-|-|0x0|flashmap
            remark|A|-|0x40|unused tail
            bad|A|-|0x7f|unused tail has other bytes than 0xff and 0x00
            remark|A|-|-|components|1
            remark|A|-|-|free bytes|0
            remark|A|-|-|no room for a component
            not sound: 1 bad, 5 remarks, 0 changes
        """)
        self.reports(1, region(256, [A], (0x81, b"LARCHIVE")), """
            remark|-|-|0x0|flashmap
            remark|A|-|0x40|unused tail
            bad|A|-|0x81|unused tail has other bytes than 0xff and 0x00
            remark|A|-|-|components|1
            remark|A|-|-|free bytes|0
            remark|A|-|-|no room for a component
            not sound: 1 bad, 5 remarks, 0 changes
        """)
        self.reports(1, region(256, [A], (0x88, b"LARCHIVE")), """
            remark|-|-|0x0|flashmap
            remark|A|-|0x40|unused tail
            bad|A|-|0x88|unused tail has other bytes than 0xff and 0x00
            remark|A|-|-|components|1
            remark|A|-|-|free bytes|0
            remark|A|-|-|no room for a component
            not sound: 1 bad, 5 remarks, 0 changes
        """)

    def test_a_part_of_a_magic(self):
        self.reports(1, region(256, [A], (0x80, b"LARCHIV")), """
            remark|-|-|0x0|flashmap
            remark|A|-|0x40|unused tail
            bad|A|-|0x80|unused tail has other bytes than 0xff and 0x00
            remark|A|-|-|components|1
            remark|A|-|-|free bytes|0
            remark|A|-|-|no room for a component
            not sound: 1 bad, 5 remarks, 0 changes
        """)

    def test_two_entries(self):
        image = region(256, [A], (0x41, b"x"), (0x80, B), (0xC0, b"LARCHIVE"))
        self.reports(1, image, """
            remark|-|-|0x0|flashmap
            remark|A|-|0x40|unused tail
            bad|A|-|0x41|unused tail has other bytes than 0xff and 0x00
            bad|A|-|0x80|entry in the unused tail
            bad|A|-|0xc0|entry in the unused tail
            remark|A|-|-|components|1
            remark|A|-|-|free bytes|0
            remark|A|-|-|no room for a component
            not sound: 3 bad, 5 remarks, 0 changes
        """)

    def test_a_tail_after_free_space(self):
        self.reports(0, region(128, [NULL_64]), """
            remark|-|-|0x0|flashmap
            remark|A|-|0x40|unused tail
            remark|A|-|-|no components
            remark|A|-|-|free bytes|64
            remark|A|-|-|largest content that add takes|36
            sound: 0 bad, 5 remarks, 0 changes
        """)


class LargestContent(CheckTest):
    """`add` takes a content of the reported size under a name of three bytes, and no larger one."""

    programs = ("cbfscheck", "cbfstool")

    def takes(self, size, image, text, at):
        """Checks the report, an addition of this size at an offset, and two that are refused."""
        self.reports(0, image, text)
        for name, content in [("abc", size + 1), ("abcd", size)]:
            self.refuses(1, "no space", f"cbfstool image.rom add -r A -n {name} -t raw -f content",
                         {"image.rom": image, "content": bytes(content)})
        folder = self.folder({"image.rom": image, "content": bytes(size)})
        done = folder.run("cbfstool image.rom add -r A -n abc -t raw -f content")
        cell = Component(b"abc", bytes(size)).metadata + bytes(size)
        self.compare_run(folder, done, left={"image.rom": patched(image, (0x100 + at, cell))})

    def test_a_run_at_the_end_of_the_region(self):
        """The last four bytes are kept."""
        self.takes(96, region(192, [A, NULL_128]), """
            remark|-|-|0x0|flashmap
            remark|A|-|-|complete
            remark|A|-|-|components|1
            remark|A|-|-|free bytes|128
            remark|A|-|-|largest content that add takes|96
            sound: 0 bad, 5 remarks, 0 changes
        """, 0x40)

    def test_a_run_between_components(self):
        self.takes(100, region(256, [A, NULL_128, B]), """
            remark|-|-|0x0|flashmap
            remark|A|-|-|complete
            remark|A|-|-|components|2
            remark|A|-|-|free bytes|128
            remark|A|-|-|largest content that add takes|100
            sound: 0 bad, 5 remarks, 0 changes
        """, 0x40)

    def test_a_run_of_two_entries(self):
        self.takes(100, region(256, [A, NULL_64, NULL_64, B]), """
            remark|-|-|0x0|flashmap
            remark|A|-|-|complete
            remark|A|-|-|components|2
            remark|A|-|-|free bytes|128
            remark|A|-|-|largest content that add takes|100
            sound: 0 bad, 5 remarks, 0 changes
        """, 0x40)

    def test_a_run_before_a_tail(self):
        self.takes(100, region(192, [NULL_128]), """
            remark|-|-|0x0|flashmap
            remark|A|-|0x80|unused tail
            remark|A|-|-|no components
            remark|A|-|-|free bytes|128
            remark|A|-|-|largest content that add takes|100
            sound: 0 bad, 5 remarks, 0 changes
        """, 0)

    def test_two_runs_of_one_size(self):
        self.takes(36, region(256, [A, NULL_64, B, NULL_64]), """
            remark|-|-|0x0|flashmap
            remark|A|-|-|complete
            remark|A|-|-|components|2
            remark|A|-|-|free bytes|128
            remark|A|-|-|largest content that add takes|36
            sound: 0 bad, 5 remarks, 0 changes
        """, 0x40)

    def test_a_larger_first_run(self):
        self.takes(100, region(320, [A, NULL_128, B, NULL_64]), """
            remark|-|-|0x0|flashmap
            remark|A|-|-|complete
            remark|A|-|-|components|2
            remark|A|-|-|free bytes|192
            remark|A|-|-|largest content that add takes|100
            sound: 0 bad, 5 remarks, 0 changes
        """, 0x40)

    def test_a_larger_last_run(self):
        self.takes(96, region(320, [A, NULL_64, B, NULL_128]), """
            remark|-|-|0x0|flashmap
            remark|A|-|-|complete
            remark|A|-|-|components|2
            remark|A|-|-|free bytes|192
            remark|A|-|-|largest content that add takes|96
            sound: 0 bad, 5 remarks, 0 changes
        """, 0xC0)

    def test_an_empty_region(self):
        self.takes(224, region(256, [NULL_256]), """
            remark|-|-|0x0|flashmap
            remark|A|-|-|complete
            remark|A|-|-|no components
            remark|A|-|-|free bytes|256
            remark|A|-|-|largest content that add takes|224
            sound: 0 bad, 5 remarks, 0 changes
        """, 0)

    def test_no_free_space(self):
        image = region(128, [A, B])
        self.reports(0, image, """
            remark|-|-|0x0|flashmap
            remark|A|-|-|complete
            remark|A|-|-|components|2
            remark|A|-|-|free bytes|0
            remark|A|-|-|no room for a component
            sound: 0 bad, 5 remarks, 0 changes
        """)
        self.refuses(1, "no space", "cbfstool image.rom add -r A -n abc -t raw -f content",
                     {"image.rom": image, "content": b""})


if __name__ == "__main__":
    unittest.main()
