"""cbfscheck: complete reports of the samples, which coreboot's cbfstool has made.

The rows were counted by hand from the listings in samples/.
"""

import unittest

from tests.findings import ABC_256, TEN_256, CheckTest, report
from tests.samples import Sample

# Digests of contents of the samples, as sha256sum and sha512sum print them: the SHA-512 of the ten
# bytes `0123456789`, and the SHA-256 of the contents of packed.rom as they are stored.
TEN_512 = ("bb96c2fc40d2d54617d6f276febe571f623a8dadf0b734855299b0e107fda32c"
           "f6b69f2da32b36445d73690b93cbd0f7bfc20e0f7f28553d2a4428f23b716e90")
PLAIN_256 = "ccca685709aa9e68d44ebb8e4aa02743fbf0c32b65ab5ac93ab6b1fd3d7ec7aa"
LZMA_256 = "d421a83e0e457deb902c4baf8a896038b4c4a47ce15ac13bacfcfa011c00d562"
LZ4_256 = "c1535bbe5705a2aaf1425eccddb830b2855b094d5d1fce0f29bafcd6a7444689"


class Samples(CheckTest):
    def test_an_empty_region(self):
        self.reports(0, Sample("created").image, """
            remark|-|-|0x0|flashmap
            remark|COREBOOT|-|-|complete
            remark|COREBOOT|-|-|no components
            remark|COREBOOT|-|-|free bytes|512
            remark|COREBOOT|-|-|largest content that add takes|480
            sound: 0 bad, 5 remarks, 0 changes
        """)

    def test_digests(self):
        image = Sample("hashes").image
        self.reports(0, image, r"""
            remark|-|-|0x1000|flashmap
            remark|COREBOOT|h\x20sha1|0x0|hash unsupported
            remark|COREBOOT|h\x20sha256|0x80|sha256 valid
            remark|COREBOOT|h\x20sha512|0x100|sha512 valid
            remark|COREBOOT|gap|0x380|sha256 valid
            remark|COREBOOT|-|-|complete
            remark|COREBOOT|-|-|components|5
            remark|COREBOOT|-|-|free bytes|15744
            remark|COREBOOT|-|-|largest content that add takes|15264
            sound: 0 bad, 9 remarks, 0 changes
        """)
        self.check("cbfscheck -r COREBOOT image.rom", {"image.rom": image}, output=report(r"""
            remark|-|-|0x1000|flashmap
            remark|COREBOOT|h\x20sha1|0x0|hash unsupported
            remark|COREBOOT|h\x20sha256|0x80|sha256 valid
            remark|COREBOOT|h\x20sha512|0x100|sha512 valid
            remark|COREBOOT|gap|0x380|sha256 valid
            remark|COREBOOT|-|-|complete
            remark|COREBOOT|-|-|components|5
            remark|COREBOOT|-|-|free bytes|15744
            remark|COREBOOT|-|-|largest content that add takes|15264
            sound: 0 bad, 9 remarks, 0 changes
        """))
        self.reports(0, image, r"""
            remark|-|-|0x1000|flashmap
            remark|COREBOOT|h\x20sha1|0x0|hash unsupported
            remark|COREBOOT|h\x20sha256|0x80|sha256 valid
            remark|COREBOOT|h\x20sha512|0x100|sha512 valid
            remark|COREBOOT|h\x20none|0x180|no hash
            remark|COREBOOT|gap|0x380|sha256 valid
            remark|COREBOOT|-|-|complete
            remark|COREBOOT|-|-|components|5
            remark|COREBOOT|-|-|free bytes|15744
            remark|COREBOOT|-|-|largest content that add takes|15264
            sound: 0 bad, 10 remarks, 0 changes
        """, "-v")

    def test_compressed_components(self):
        self.reports(0, Sample("packed").image, """
            remark|-|-|0x1000|flashmap
            remark|COREBOOT|lzma-hash|0x900|sha256 valid
            remark|COREBOOT|-|-|complete
            remark|COREBOOT|-|-|components|5
            remark|COREBOOT|-|-|free bytes|13888
            remark|COREBOOT|-|-|largest content that add takes|13856
            sound: 0 bad, 6 remarks, 0 changes
        """)

    def test_types(self):
        self.reports(1, Sample("types").image, """
            remark|-|-|0x4800|flashmap
            remark|COREBOOT|t/mma|0x300|type without a name|0x62
            remark|COREBOOT|t/efi|0x340|type without a name|0x63
            remark|COREBOOT|t/struct|0x380|type without a name|0x70
            bad|COREBOOT|t/stage|0x3c0|stage has no stage attribute of 24 bytes
            remark|COREBOOT|unknown|0x480|type without a name|0x1234
            remark|COREBOOT|-|-|complete
            remark|COREBOOT|-|-|components|20
            remark|COREBOOT|-|-|free bytes|41664
            remark|COREBOOT|-|-|largest content that add takes|40864
            remark|SI_DESC|-|-|blank: no flash descriptor
            remark|SI_ME|-|-|blank: no partition table of the ME
            remark|GBB|-|-|blank: no GBB
            remark|VBLOCK_A|-|-|blank: no signatures
            not sound: 1 bad, 13 remarks, 0 changes
        """)


class Lists(CheckTest):
    """The components of each sample have the fields that coreboot's cbfstool shows, the digest in
    their hash attribute, and the SHA-256 of their stored content. The areas of the sample's flash
    map precede them."""

    def test_an_empty_region(self):
        self.reports(0, Sample("created").image, """
            area|FMAP|0x0|512|0x0
            area|COREBOOT|0x200|512|0x0
            area|REST|0x400|3072|0x0
            remark|-|-|0x0|flashmap
            remark|COREBOOT|-|-|complete
            remark|COREBOOT|-|-|no components
            remark|COREBOOT|-|-|free bytes|512
            remark|COREBOOT|-|-|largest content that add takes|480
            sound: 0 bad, 5 remarks, 0 changes
        """, "--list")

    def test_digests(self):
        self.reports(0, Sample("hashes").image, rf"""
            area|BOOTBLOCK|0x0|4096|0x0
            area|FMAP|0x1000|512|0x0
            area|COREBOOT|0x1400|16384|0x0
            area|SMMSTORE|0x6000|4096|0x8
            area|TAIL|0x7000|4096|0x0
            component|COREBOOT|h\x20sha1|0x0|raw|10|none|hash unsupported|0x40|-|{TEN_256}
            component|COREBOOT|h\x20sha256|0x80|raw|10|none|sha256 valid|0xd0|{TEN_256}|{TEN_256}
            component|COREBOOT|h\x20sha512|0x100|raw|10|none|sha512 valid|0x170|{TEN_512}|{TEN_256}
            component|COREBOOT|h\x20none|0x180|raw|10|none|no hash|0x1a0|-|{TEN_256}
            component|COREBOOT|gap|0x380|raw|10|none|sha256 valid|0x400|{TEN_256}|{TEN_256}
            remark|-|-|0x1000|flashmap
            remark|COREBOOT|h\x20sha1|0x0|hash unsupported
            remark|COREBOOT|h\x20sha256|0x80|sha256 valid
            remark|COREBOOT|h\x20sha512|0x100|sha512 valid
            remark|COREBOOT|gap|0x380|sha256 valid
            remark|COREBOOT|-|-|complete
            remark|COREBOOT|-|-|components|5
            remark|COREBOOT|-|-|free bytes|15744
            remark|COREBOOT|-|-|largest content that add takes|15264
            sound: 0 bad, 9 remarks, 0 changes
        """, "--list")

    def test_compressed_components(self):
        self.reports(0, Sample("packed").image, f"""
            area|BOOTBLOCK|0x0|4096|0x0
            area|FMAP|0x1000|512|0x0
            area|COREBOOT|0x1400|16384|0x0
            area|SMMSTORE|0x6000|4096|0x8
            area|TAIL|0x7000|4096|0x0
            component|COREBOOT|plain|0x0|raw|2000|none|no hash|0x20|-|{PLAIN_256}
            component|COREBOOT|lzma|0x800|raw|31|LZMA|no hash|0x830|-|{LZMA_256}
            component|COREBOOT|lz4|0x880|spd|33|LZ4|no hash|0x8ac|-|{LZ4_256}
            component|COREBOOT|lzma-hash|0x900|raw|31|LZMA|sha256 valid|0x960|{LZMA_256}|{LZMA_256}
            component|COREBOOT|nogain|0x980|raw|10|none|no hash|0x9a0|-|{TEN_256}
            remark|-|-|0x1000|flashmap
            remark|COREBOOT|lzma-hash|0x900|sha256 valid
            remark|COREBOOT|-|-|complete
            remark|COREBOOT|-|-|components|5
            remark|COREBOOT|-|-|free bytes|13888
            remark|COREBOOT|-|-|largest content that add takes|13856
            sound: 0 bad, 6 remarks, 0 changes
        """, "--list")

    def test_types(self):
        self.reports(1, Sample("types").image, f"""
            area|SI_ALL|0x0|8192|0x0
            area|SI_DESC|0x0|4096|0x0
            area|SI_ME|0x1000|4096|0x0
            area|SI_BIOS|0x2000|57344|0x0
            area|RW_MRC_CACHE|0x2000|2048|0x8
            area|RW_SECTION_A|0x2800|8192|0x0
            area|VBLOCK_A|0x2800|1024|0x0
            area|FW_MAIN_A|0x2c00|7104|0x0
            area|RW_FWID_A|0x47c0|64|0x0
            area|RO|0x4800|47104|0x0
            area|FMAP|0x4800|1024|0x0
            area|GBB|0x4c00|3072|0x0
            area|COREBOOT|0x5800|43008|0x0
            component|COREBOOT|t/raw|0x0|raw|3|none|no hash|0x20|-|{ABC_256}
            component|COREBOOT|t/spd|0x40|spd|3|none|no hash|0x60|-|{ABC_256}
            component|COREBOOT|t/cmos_default|0x80|cmos_default|3|none|no hash|0xa8|-|{ABC_256}
            component|COREBOOT|t/cmos_layout|0xc0|cmos_layout|3|none|no hash|0xe8|-|{ABC_256}
            component|COREBOOT|t/microcode|0x100|microcode|3|none|no hash|0x124|-|{ABC_256}
            component|COREBOOT|t/bootsplash|0x140|bootsplash|3|none|no hash|0x168|-|{ABC_256}
            component|COREBOOT|t/mrc|0x180|mrc|3|none|no hash|0x1a0|-|{ABC_256}
            component|COREBOOT|t/mrc_cache|0x1c0|mrc_cache|3|none|no hash|0x1e4|-|{ABC_256}
            component|COREBOOT|t/vsa|0x200|vsa|3|none|no hash|0x220|-|{ABC_256}
            component|COREBOOT|t/mbi|0x240|mbi|3|none|no hash|0x260|-|{ABC_256}
            component|COREBOOT|t/optionrom|0x280|optionrom|3|none|no hash|0x2a4|-|{ABC_256}
            component|COREBOOT|t/bootblock|0x2c0|bootblock|3|none|no hash|0x2e4|-|{ABC_256}
            component|COREBOOT|t/mma|0x300|0x62|3|none|no hash|0x320|-|{ABC_256}
            component|COREBOOT|t/efi|0x340|0x63|3|none|no hash|0x360|-|{ABC_256}
            component|COREBOOT|t/struct|0x380|0x70|3|none|no hash|0x3a4|-|{ABC_256}
            component|COREBOOT|t/stage|0x3c0|stage|3|none|no hash|0x3e0|-|{ABC_256}
            component|COREBOOT|t/fit|0x400|fit_payload|3|none|no hash|0x420|-|{ABC_256}
            component|COREBOOT|t/simple_elf|0x440|simple elf|3|none|no hash|0x468|-|{ABC_256}
            component|COREBOOT|unknown|0x480|0x1234|3|none|no hash|0x4a0|-|{ABC_256}
            component|COREBOOT|t/fsp|0x7c0|fsp|3|none|no hash|0x800|-|{ABC_256}
            remark|-|-|0x4800|flashmap
            remark|COREBOOT|t/mma|0x300|type without a name|0x62
            remark|COREBOOT|t/efi|0x340|type without a name|0x63
            remark|COREBOOT|t/struct|0x380|type without a name|0x70
            bad|COREBOOT|t/stage|0x3c0|stage has no stage attribute of 24 bytes
            remark|COREBOOT|unknown|0x480|type without a name|0x1234
            remark|COREBOOT|-|-|complete
            remark|COREBOOT|-|-|components|20
            remark|COREBOOT|-|-|free bytes|41664
            remark|COREBOOT|-|-|largest content that add takes|40864
            remark|SI_DESC|-|-|blank: no flash descriptor
            remark|SI_ME|-|-|blank: no partition table of the ME
            remark|GBB|-|-|blank: no GBB
            remark|VBLOCK_A|-|-|blank: no signatures
            not sound: 1 bad, 13 remarks, 0 changes
        """, "--list")


if __name__ == "__main__":
    unittest.main()
