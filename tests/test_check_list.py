"""cbfscheck --list: the areas and the components of the checked areas, before all other rows."""

import unittest

from tests.findings import (
    A, A_9, ABC_256, ABC_512, ABCD_256, B, B_77, DELETED_64, EMPTY_256, FMAP, H, NULL_64, NULL_128,
    SHORT, TEN_256, U, UNKNOWN, CheckTest, board, cell, region, report,
)
from tests.image import SHA1, SHA256, SHA512, Component, compression, hash_attribute

# A component that is compressed by LZMA, by LZ4, and by an unknown algorithm.
PACKED = [Component(b"p", b"abcd", attributes=[compression(number, 100)]) for number in (1, 2, 9)]
# The SHA-256 of `abd` and `012345678`, and of 256, 257 and 5000 bytes `x`, as sha256sum prints it.
ABD_256 = "a52d159f262b2c6ddb724a61840befc36eb30c88877a4030b65cbe86298449c9"
NINE_256 = "36f50957f5e0b6ee3ef455674da35a86667f3314209dc1514c510fe95e840831"
X256_256 = "85e62acd750c4eb56b7b6a1d66dca5bfaac5f062608a1a893410d0288936c09a"
X257_256 = "15eb95a462ee20bd91a415ae2d4aed341288186ddaa2b37908f7d592f0c3f85f"
X5000_256 = "c59d3c0480cc2d71d8f646e735e92da65450311eec46e81a5db8c7e6e8a92054"


def stored(algorithm, digits):
    """Returns a hash attribute with these hexadecimal digits as the digest."""
    return hash_attribute(algorithm, value=bytes.fromhex(digits))


class List(CheckTest):
    def test_components_and_free_cells(self):
        """No free cell is listed. -v and --all-hashed change other rows."""
        image = region(384, [DELETED_64, A, NULL_64, U, H])
        self.reports(1, image, f"""
            area|FMAP|0x0|256|0x0
            area|A|0x100|384|0x0
            component|A|a|0x40|raw|10|none|no hash|0x68|-|{TEN_256}
            component|A|u|0xc0|raw|0|none|hash unsupported|0xf4|-|{EMPTY_256}
            component|A|h|0x100|raw|3|none|sha256 valid|0x154|{ABC_256}|{ABC_256}
            remark|-|-|0x0|flashmap
            remark|A|-|0x0|deleted component
            remark|A|u|0xc0|hash unsupported
            bad|A|u|0xc0|digest has an unknown algorithm
            remark|A|h|0x100|sha256 valid
            remark|A|-|-|complete
            remark|A|-|-|components|3
            remark|A|-|-|free bytes|128
            remark|A|-|-|largest content that add takes|36
            not sound: 1 bad, 8 remarks, 0 changes
        """, "--list")
        self.reports(1, image, """
            remark|-|-|0x0|flashmap
            remark|A|-|0x0|deleted component
            remark|A|u|0xc0|hash unsupported
            bad|A|u|0xc0|digest has an unknown algorithm
            remark|A|h|0x100|sha256 valid
            remark|A|-|-|complete
            remark|A|-|-|components|3
            remark|A|-|-|free bytes|128
            remark|A|-|-|largest content that add takes|36
            not sound: 1 bad, 8 remarks, 0 changes
        """)
        self.reports(1, image, f"""
            area|FMAP|0x0|256|0x0
            area|A|0x100|384|0x0
            component|A|a|0x40|raw|10|none|no hash|0x68|-|{TEN_256}
            component|A|u|0xc0|raw|0|none|hash unsupported|0xf4|-|{EMPTY_256}
            component|A|h|0x100|raw|3|none|sha256 valid|0x154|{ABC_256}|{ABC_256}
            remark|-|-|0x0|flashmap
            remark|A|-|0x0|deleted component
            remark|A|a|0x40|no hash
            remark|A|u|0xc0|hash unsupported
            bad|A|u|0xc0|digest has an unknown algorithm
            remark|A|h|0x100|sha256 valid
            remark|A|-|-|complete
            remark|A|-|-|components|3
            remark|A|-|-|free bytes|128
            remark|A|-|-|largest content that add takes|36
            not sound: 1 bad, 9 remarks, 0 changes
        """, "-v --list")
        self.reports(1, image, f"""
            area|FMAP|0x0|256|0x0
            area|A|0x100|384|0x0
            component|A|a|0x40|raw|10|none|no hash|0x68|-|{TEN_256}
            component|A|u|0xc0|raw|0|none|hash unsupported|0xf4|-|{EMPTY_256}
            component|A|h|0x100|raw|3|none|sha256 valid|0x154|{ABC_256}|{ABC_256}
            remark|-|-|0x0|flashmap
            remark|A|-|0x0|deleted component
            bad|A|a|0x40|no hash
            bad|A|u|0xc0|hash unsupported
            bad|A|u|0xc0|digest has an unknown algorithm
            remark|A|h|0x100|sha256 valid
            remark|A|-|-|complete
            remark|A|-|-|components|3
            remark|A|-|-|free bytes|128
            remark|A|-|-|largest content that add takes|36
            not sound: 3 bad, 7 remarks, 0 changes
        """, "--list --all-hashed")

    def test_the_option_before_the_image(self):
        image = region(384, [DELETED_64, A, NULL_64, U, H])
        self.check("cbfscheck --list image.rom -r A", {"image.rom": image}, 1, output=report(f"""
            area|FMAP|0x0|256|0x0
            area|A|0x100|384|0x0
            component|A|a|0x40|raw|10|none|no hash|0x68|-|{TEN_256}
            component|A|u|0xc0|raw|0|none|hash unsupported|0xf4|-|{EMPTY_256}
            component|A|h|0x100|raw|3|none|sha256 valid|0x154|{ABC_256}|{ABC_256}
            remark|-|-|0x0|flashmap
            remark|A|-|0x0|deleted component
            remark|A|u|0xc0|hash unsupported
            bad|A|u|0xc0|digest has an unknown algorithm
            remark|A|h|0x100|sha256 valid
            remark|A|-|-|complete
            remark|A|-|-|components|3
            remark|A|-|-|free bytes|128
            remark|A|-|-|largest content that add takes|36
            not sound: 1 bad, 8 remarks, 0 changes
        """))

    def test_an_invalid_digest_and_a_type_without_a_name(self):
        self.reports(1, region(192, [H, B_77], (0x56, b"d")), f"""
            area|FMAP|0x0|256|0x0
            area|A|0x100|192|0x0
            component|A|h|0x0|raw|3|none|sha256 invalid|0x54|{ABC_256}|{ABD_256}
            component|A|b|0x80|0x77|10|none|no hash|0xa8|-|{TEN_256}
            remark|-|-|0x0|flashmap
            bad|A|h|0x0|sha256 invalid
            remark|A|b|0x80|type without a name|0x77
            remark|A|-|-|complete
            remark|A|-|-|components|2
            remark|A|-|-|free bytes|0
            remark|A|-|-|no room for a component
            not sound: 1 bad, 6 remarks, 0 changes
        """, "--list")

    def test_compressed_components(self):
        self.reports(1, region(192, PACKED), f"""
            area|FMAP|0x0|256|0x0
            area|A|0x100|192|0x0
            component|A|p|0x0|raw|4|LZMA|no hash|0x2c|-|{ABCD_256}
            component|A|p|0x40|raw|4|LZ4|no hash|0x6c|-|{ABCD_256}
            component|A|p|0x80|raw|4|0x9|no hash|0xac|-|{ABCD_256}
            remark|-|-|0x0|flashmap
            bad|A|p|0x40|has the name of an earlier component
            bad|A|p|0x80|has the name of an earlier component
            remark|A|-|-|complete
            remark|A|-|-|components|3
            remark|A|-|-|free bytes|0
            remark|A|-|-|no room for a component
            not sound: 2 bad, 5 remarks, 0 changes
        """, "--list")

    def test_more_components_than_rows_of_a_kind(self):
        """All components are listed."""
        self.reports(1, region(1280, [A] * 20), f"""
            area|FMAP|0x0|256|0x0
            area|A|0x100|1280|0x0
            component|A|a|0x0|raw|10|none|no hash|0x28|-|{TEN_256}
            component|A|a|0x40|raw|10|none|no hash|0x68|-|{TEN_256}
            component|A|a|0x80|raw|10|none|no hash|0xa8|-|{TEN_256}
            component|A|a|0xc0|raw|10|none|no hash|0xe8|-|{TEN_256}
            component|A|a|0x100|raw|10|none|no hash|0x128|-|{TEN_256}
            component|A|a|0x140|raw|10|none|no hash|0x168|-|{TEN_256}
            component|A|a|0x180|raw|10|none|no hash|0x1a8|-|{TEN_256}
            component|A|a|0x1c0|raw|10|none|no hash|0x1e8|-|{TEN_256}
            component|A|a|0x200|raw|10|none|no hash|0x228|-|{TEN_256}
            component|A|a|0x240|raw|10|none|no hash|0x268|-|{TEN_256}
            component|A|a|0x280|raw|10|none|no hash|0x2a8|-|{TEN_256}
            component|A|a|0x2c0|raw|10|none|no hash|0x2e8|-|{TEN_256}
            component|A|a|0x300|raw|10|none|no hash|0x328|-|{TEN_256}
            component|A|a|0x340|raw|10|none|no hash|0x368|-|{TEN_256}
            component|A|a|0x380|raw|10|none|no hash|0x3a8|-|{TEN_256}
            component|A|a|0x3c0|raw|10|none|no hash|0x3e8|-|{TEN_256}
            component|A|a|0x400|raw|10|none|no hash|0x428|-|{TEN_256}
            component|A|a|0x440|raw|10|none|no hash|0x468|-|{TEN_256}
            component|A|a|0x480|raw|10|none|no hash|0x4a8|-|{TEN_256}
            component|A|a|0x4c0|raw|10|none|no hash|0x4e8|-|{TEN_256}
            remark|-|-|0x0|flashmap
            bad|A|a|0x40|has the name of an earlier component
            bad|A|a|0x80|has the name of an earlier component
            bad|A|a|0xc0|has the name of an earlier component
            bad|A|a|0x100|has the name of an earlier component
            bad|A|a|0x140|has the name of an earlier component
            bad|A|a|0x180|has the name of an earlier component
            bad|A|a|0x1c0|has the name of an earlier component
            bad|A|a|0x200|has the name of an earlier component
            bad|A|a|0x240|has the name of an earlier component
            bad|A|a|0x280|has the name of an earlier component
            bad|A|a|0x2c0|has the name of an earlier component
            bad|A|a|0x300|has the name of an earlier component
            bad|A|a|0x340|has the name of an earlier component
            bad|A|a|0x380|has the name of an earlier component
            bad|A|a|0x3c0|has the name of an earlier component
            bad|A|a|0x400|has the name of an earlier component
            remark|A|-|-|complete
            remark|A|-|-|components|20
            remark|A|-|-|free bytes|0
            remark|A|-|-|no room for a component
            bad|-|-|-|more of these|3
            not sound: 19 bad, 5 remarks, 0 changes
        """, "--list")

    def test_components_before_damage(self):
        self.reports(1, region(192, [A, SHORT], (0x80, B)), f"""
            area|FMAP|0x0|256|0x0
            area|A|0x100|192|0x0
            component|A|a|0x0|raw|10|none|no hash|0x28|-|{TEN_256}
            remark|-|-|0x0|flashmap
            bad|A|-|0x40|damaged entry: attribute length
            remark|A|-|-|components|1
            remark|A|-|-|free bytes|0
            remark|A|-|-|no room for a component
            not sound: 1 bad, 4 remarks, 0 changes
        """, "--list")

    def test_no_components(self):
        self.reports(0, region(128, [NULL_128]), """
            area|FMAP|0x0|256|0x0
            area|A|0x100|128|0x0
            remark|-|-|0x0|flashmap
            remark|A|-|-|complete
            remark|A|-|-|no components
            remark|A|-|-|free bytes|128
            remark|A|-|-|largest content that add takes|96
            sound: 0 bad, 5 remarks, 0 changes
        """, "--list")

    def test_areas_in_the_order_of_the_map(self):
        """Each area is listed. An area that is not checked has no components."""
        image = board(0x400, [FMAP, ("B", 0x200, 0x40), ("A", 0x100, 0x40), ("C", 0x308, 0x40)],
                      (0x100, A), (0x200, B), (0x308, b"X"))
        self.reports(0, image, f"""
            area|FMAP|0x0|256|0x0
            area|B|0x200|64|0x0
            area|A|0x100|64|0x0
            area|C|0x308|64|0x0
            component|B|b|0x0|raw|10|none|no hash|0x28|-|{TEN_256}
            component|A|a|0x0|raw|10|none|no hash|0x28|-|{TEN_256}
            remark|-|-|0x0|flashmap
            remark|B|-|-|complete
            remark|B|-|-|components|1
            remark|B|-|-|free bytes|0
            remark|B|-|-|no room for a component
            remark|A|-|-|complete
            remark|A|-|-|components|1
            remark|A|-|-|free bytes|0
            remark|A|-|-|no room for a component
            sound: 0 bad, 9 remarks, 0 changes
        """, "--list")


class Digests(CheckTest):
    """The last two fields of a component: the digest in its first hash attribute, if this is one of
    SHA-256 or SHA-512, and the SHA-256 of its content as it is stored."""

    def test_sha512(self):
        """The content of `v` is that of its stored digest, and the content of `w` is another."""
        attributes = [stored(SHA512, ABC_512)]
        cells = [cell(b"v", b"abc", attributes=attributes),
                 cell(b"w", b"abd", attributes=attributes)]
        self.reports(1, region(256, cells), f"""
            area|FMAP|0x0|256|0x0
            area|A|0x100|256|0x0
            component|A|v|0x0|raw|3|none|sha512 valid|0x74|{ABC_512}|{ABC_256}
            component|A|w|0x80|raw|3|none|sha512 invalid|0xf4|{ABC_512}|{ABD_256}
            remark|-|-|0x0|flashmap
            remark|A|v|0x0|sha512 valid
            bad|A|w|0x80|sha512 invalid
            remark|A|-|-|complete
            remark|A|-|-|components|2
            remark|A|-|-|free bytes|0
            remark|A|-|-|no room for a component
            not sound: 1 bad, 6 remarks, 0 changes
        """, "--list")

    def test_compressed_components(self):
        """Both digests of `v` are those of the stored bytes. The stored digest of `w` is another.
        """
        cells = [cell(name, b"abcd", attributes=[compression(1, 100), stored(SHA256, digits)])
                 for name, digits in [(b"v", ABCD_256), (b"w", ABC_256)]]
        self.reports(1, region(256, cells), f"""
            area|FMAP|0x0|256|0x0
            area|A|0x100|256|0x0
            component|A|v|0x0|raw|4|LZMA|sha256 valid|0x64|{ABCD_256}|{ABCD_256}
            component|A|w|0x80|raw|4|LZMA|sha256 invalid|0xe4|{ABC_256}|{ABCD_256}
            remark|-|-|0x0|flashmap
            remark|A|v|0x0|sha256 valid
            bad|A|w|0x80|sha256 invalid
            remark|A|-|-|complete
            remark|A|-|-|components|2
            remark|A|-|-|free bytes|0
            remark|A|-|-|no room for a component
            not sound: 1 bad, 6 remarks, 0 changes
        """, "--list")

    def test_attributes_without_a_digest(self):
        """The digest of `o` is one of SHA-1, and that of `s` lacks its last byte. The first hash
        attribute of `u` has an unknown algorithm, and the second one is not read."""
        cells = [cell(b"o", b"abc", attributes=[stored(SHA1, ABC_256[:40])]),
                 cell(b"s", b"abc", attributes=[stored(SHA256, ABC_256[:62])]),
                 cell(b"u", b"abc", attributes=[UNKNOWN, stored(SHA256, ABC_256)])]
        self.reports(1, region(384, cells), f"""
            area|FMAP|0x0|256|0x0
            area|A|0x100|384|0x0
            component|A|o|0x0|raw|3|none|hash unsupported|0x48|-|{ABC_256}
            component|A|s|0x80|raw|3|none|hash unsupported|0xd3|-|{ABC_256}
            component|A|u|0x100|raw|3|none|hash unsupported|0x160|-|{ABC_256}
            remark|-|-|0x0|flashmap
            remark|A|o|0x0|hash unsupported
            remark|A|s|0x80|hash unsupported
            bad|A|s|0x80|digest attribute has a wrong length
            remark|A|u|0x100|hash unsupported
            bad|A|u|0x100|digest has an unknown algorithm
            remark|A|-|-|complete
            remark|A|-|-|components|3
            remark|A|-|-|free bytes|0
            remark|A|-|-|no room for a component
            not sound: 2 bad, 8 remarks, 0 changes
        """, "--list")

    def test_attributes_with_further_bytes(self):
        """The attribute of `l` has a byte after its digest. `t` has a second digest."""
        cells = [cell(b"l", b"abc", attributes=[stored(SHA256, ABC_256 + "00")]),
                 cell(b"t", b"abc", attributes=[stored(SHA256, ABD_256), stored(SHA256, ABC_256)])]
        self.reports(1, region(320, cells), f"""
            area|FMAP|0x0|256|0x0
            area|A|0x100|320|0x0
            component|A|l|0x0|raw|3|none|sha256 valid|0x55|{ABC_256}|{ABC_256}
            component|A|t|0x80|raw|3|none|sha256 invalid|0x100|{ABD_256}|{ABC_256}
            remark|-|-|0x0|flashmap
            remark|A|l|0x0|sha256 valid
            bad|A|l|0x0|digest attribute has a wrong length
            bad|A|t|0x80|sha256 invalid
            bad|A|t|0x80|second digest: only the first is compared
            remark|A|-|-|complete
            remark|A|-|-|components|2
            remark|A|-|-|free bytes|0
            remark|A|-|-|no room for a component
            not sound: 3 bad, 6 remarks, 0 changes
        """, "--list")

    def test_contents_of_several_pieces(self):
        """The program reads at most 256 bytes of a content at once."""
        cells = [cell(name, b"x" * size) for name, size in [(b"a", 256), (b"b", 257), (b"c", 5000)]]
        self.reports(0, region(5696, cells), f"""
            area|FMAP|0x0|256|0x0
            area|A|0x100|5696|0x0
            component|A|a|0x0|raw|256|none|no hash|0x28|-|{X256_256}
            component|A|b|0x140|raw|257|none|no hash|0x168|-|{X257_256}
            component|A|c|0x280|raw|5000|none|no hash|0x2a8|-|{X5000_256}
            remark|-|-|0x0|flashmap
            remark|A|-|-|complete
            remark|A|-|-|components|3
            remark|A|-|-|free bytes|0
            remark|A|-|-|no room for a component
            sound: 0 bad, 5 remarks, 0 changes
        """, "--list")

    def test_two_images(self):
        """The digests are those of NEW."""
        self.changes(0, region(64, [A]), region(64, [A_9]), f"""
            area|FMAP|0x0|256|0x0
            area|A|0x100|64|0x0
            component|A|a|0x0|raw|9|none|no hash|0x28|-|{NINE_256}
            change|-|-|-|erase blocks differ|1
            change|A|-|0x100|erase blocks differ|1
            change|A|a|0x0|length changed
            sound: 0 bad, 5 remarks, 3 changes
        """, "--list")


if __name__ == "__main__":
    unittest.main()
