"""Compares reports of components whose attributes coreboot reads in another way, or refuses."""

import struct
import unittest

from tests.findings import B, NULL_64, CheckTest, cell, region
from tests.image import (
    COMPRESSION_TAG, HASH_TAG, SHA256, STAGE, STAGE_TAG, attribute, compression, digest,
    hash_attribute, stage_attribute,
)

CONTENT = b"0123456789"
BEHIND = "bad|A|a|0x0|an attribute stands behind the end of the attributes"
NO_STAGE = "bad|A|a|0x0|stage has no stage attribute of 24 bytes"
OUTSIDE = "bad|A|a|0x0|entry point of the stage lies outside its memory"
WRONG_LENGTH = "bad|A|a|0x0|digest attribute has a wrong length"
UNKNOWN = "bad|A|a|0x0|digest has an unknown algorithm"
SECOND = "bad|A|a|0x0|second digest: only the first is compared"
COMPRESSION_LENGTH = "bad|A|a|0x0|compression attribute hasn't 16 bytes"
HASH = hash_attribute(SHA256, CONTENT)


def digest_of(algorithm, length):
    """Returns a hash attribute with a number and this many bytes behind it."""
    return attribute(HASH_TAG, struct.pack(">I", algorithm) + bytes(length))


class Attributes(CheckTest):
    """The report of one component, of which the row of its attributes is the last one."""

    def finds(self, attributes, rows, **fields):
        """Checks the report of a component with these attributes, without the counts of the area.
        """
        entry = cell(b"a", CONTENT, attributes=attributes, **fields)
        bad = sum(row.startswith("bad|") for row in rows)
        lines = ["remark|-|-|0x0|flashmap", *rows, "remark|A|-|-|complete",
                 "remark|A|-|-|components|1", "remark|A|-|-|free bytes|0",
                 "remark|A|-|-|no room for a component"]
        last = f"{'not sound' if bad else 'sound'}: {bad} bad, {len(lines) - bad} remarks, "
        self.reports(int(bad > 0), region(len(entry), [entry]),
                     "\n".join([*lines, last + "0 changes"]))

    def finds_fault(self, attributes, row, *others, **fields):
        """Checks that a component has the row of a fault, after other rows."""
        self.finds(attributes, [*others, row], **fields)

    VALID = "remark|A|a|0x0|sha256 valid"
    UNSUPPORTED = "remark|A|a|0x0|hash unsupported"

    def test_attributes_without_a_fault(self):
        for attributes, *rows in [
            ([],), ([compression(0)],), ([HASH], self.VALID),
            ([compression(0), HASH], self.VALID), ([attribute(0x1234, b"1234")],),
            ([attribute(0), attribute(0xFFFFFFFF)],), ([HASH, attribute(0)], self.VALID),
            ([hash_attribute(1, value=bytes(20))], self.UNSUPPORTED),
            # (coreboot reads only the last byte of the number)
            ([attribute(HASH_TAG, b"\1\1\1\2" + digest(SHA256, CONTENT))], self.UNSUPPORTED),
        ]:
            with self.subTest(attributes):
                self.finds(attributes, rows)

    def test_an_attribute_behind_the_end(self):
        self.finds_fault([attribute(0), HASH], BEHIND)
        self.finds_fault([attribute(0xFFFFFFFF), HASH], BEHIND)
        self.finds_fault([attribute(0), attribute(0), attribute(0x1234)], BEHIND)
        self.finds_fault([HASH, attribute(0), attribute(0x1234)], BEHIND, self.VALID)

    def test_the_length_of_a_compression_attribute(self):
        self.finds_fault([attribute(COMPRESSION_TAG, bytes(12))], COMPRESSION_LENGTH)

    def test_the_length_of_a_digest(self):
        for length in (0, 31, 33):
            self.finds_fault([digest_of(SHA256, length)], WRONG_LENGTH,
                             *[self.UNSUPPORTED] * (length < 32),
                             *["bad|A|a|0x0|sha256 invalid"] * (length > 32))
        self.finds_fault([digest_of(1, 21)], WRONG_LENGTH, self.UNSUPPORTED)

    def test_an_unknown_algorithm(self):
        for number in (0, 6, 0x100):
            self.finds_fault([digest_of(number, 32)], UNKNOWN, self.UNSUPPORTED)

    def test_a_second_digest(self):
        self.finds_fault([HASH, HASH], SECOND, self.VALID)
        self.finds_fault([HASH, digest_of(6, 32)], UNKNOWN, self.VALID)

    def test_the_first_fault_is_reported(self):
        long = attribute(COMPRESSION_TAG, bytes(12))
        self.finds_fault([long, digest_of(6, 32)], COMPRESSION_LENGTH, self.UNSUPPORTED)
        self.finds_fault([digest_of(6, 32), long], UNKNOWN, self.UNSUPPORTED)

    def test_a_stage(self):
        self.finds([stage_attribute(0, 1)], [], type=STAGE)
        self.finds([stage_attribute(0xFFFFFFFE, 0xFFFFFFFF)], [], type=STAGE)
        self.finds([stage_attribute(0, 1), stage_attribute(1, 1)], [], type=STAGE)
        self.finds_fault([stage_attribute(0, 0)], OUTSIDE, type=STAGE)
        self.finds_fault([stage_attribute(7, 7)], OUTSIDE, type=STAGE)

    def test_a_stage_without_its_attribute(self):
        self.finds_fault([], NO_STAGE, type=STAGE)
        self.finds_fault([HASH], NO_STAGE, self.VALID, type=STAGE)
        for length in (15, 17):
            self.finds_fault([attribute(STAGE_TAG, bytes(length))], NO_STAGE, type=STAGE)

    def test_the_first_stage_attribute_is_too_short(self):
        """The right one behind it does not count."""
        attributes = [attribute(STAGE_TAG, bytes(12)), stage_attribute(0, 1)]
        stage = cell(b"a", CONTENT, type=STAGE, attributes=attributes)
        self.reports(1, region(256, [stage, B, NULL_64]), """
            remark|-|-|0x0|flashmap
            bad|A|a|0x0|stage has no stage attribute of 24 bytes
            remark|A|-|-|complete
            remark|A|-|-|components|2
            remark|A|-|-|free bytes|64
            remark|A|-|-|largest content that add takes|32
            not sound: 1 bad, 5 remarks, 0 changes
        """)

    def test_another_type_needs_no_stage_attribute(self):
        for kind in (0x10, 0x20, 0x50):
            self.finds([], [], type=kind)
            self.finds([stage_attribute(1, 1)], [], type=kind)


if __name__ == "__main__":
    unittest.main()
