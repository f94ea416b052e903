"""cbfscheck: rows of the anchor of CBFS verification, and of the components that it covers.

Images come from the builder, and their digests from hashlib.
"""

import json
import unittest

from tests.image import (
    ANCHOR_MAGIC, BOOTBLOCK, CBFS_HEADER, HASH_TAG, HASHES, RAW, SHA1, SHA224, SHA256, SHA384,
    SHA512, SIMPLE_ELF, STAGE, Area, Component, FreeEntry, Image, anchor, attribute, digest,
    hash_attribute, join, metadata_digest, sealed_anchor, stage_attribute,
)
from tests.findings import CheckTest
from tests.programs import ProgramTest

FMAP = Area("FMAP", 0, 0x200)
COREBOOT = Area("COREBOOT", 0x1000, 0x1000)
BOOT_AREA = Area("BOOTBLOCK", 0x2000, 0x1000)
OTHER = Area("OTHER", 0x3000, 0x1000)
# The body of a slot of vboot, in place of the area OTHER.
SLOTS = {name: Area(name, 0x3000, 0x1000) for name in ("FW_MAIN_A", "FW_MAIN_B")}
SIZE = 0x4000
FSP = 0x60
FIT_PAYLOAD = 0x21
LEGACY_STAGE = 0x10
# The row of a component of the type of a master header with another content, under which no
# bootblock ends the area.
NO_HEADER = ("remark", "COREBOOT", "-", "-", "no master header")
# The area, the component and the position of an anchor at 0x40 of the area BOOTBLOCK.
PLACE = ("BOOTBLOCK", "-", "0x40")
REMEDY = "run cbfsseal IMAGE"


def hashed(name, content=b"content", algorithm=SHA256, **fields):
    """Returns a component with a digest of its content."""
    return Component(name, content, attributes=[hash_attribute(algorithm, content)], **fields)


def region(*parts):
    """Returns a region of 0x1000 bytes: the parts, and free space."""
    used = len(join(*parts))
    return join(*parts, FreeEntry(0x1000 - used, keeps=b"keep"))


def in_area(parts, anchor_bytes, at=0x40, areas=(FMAP, COREBOOT, BOOT_AREA)):
    """Returns an image whose anchor is at an offset of the area BOOTBLOCK."""
    made = Image(SIZE, list(areas))
    made.put("COREBOOT", region(*parts))
    made.put("BOOTBLOCK", bytes(0x1000))
    return made.put_at(0x2000 + at, anchor_bytes)


def sealed(parts, algorithm=SHA256, **fields):
    """Returns an image whose area BOOTBLOCK has an anchor with the right digests."""
    board = in_area(parts, b"", **fields)
    return in_area(parts, sealed_anchor(algorithm, parts, board.map), **fields)


def plain(parts):
    """Returns an image without an area BOOTBLOCK."""
    return Image(SIZE, [FMAP, COREBOOT]).put("COREBOOT", region(*parts))


def in_component(parts, content):
    """Returns an image whose last component is a bootblock with this content."""
    return plain([*parts, Component(b"bootblock", content, type=BOOTBLOCK)])


class CheckAnchor(ProgramTest):
    programs = ("cbfscheck",)

    def rows(self, command, files, status):
        """Returns the rows of a report as tuples of fields, without the counts."""
        run = self.folder(files).run(f"cbfscheck {command}")
        self.assertEqual((run.status, run.message), (status, b""), run.output.decode())
        lines = run.output.decode().splitlines()
        return [tuple(line.split("\t")) for line in lines[:-1]]

    def finds(self, image, expected, status=0, options=""):
        """Checks the rows of an image, without those that each image here has."""
        rows = self.rows(f"{options} image.rom", {"image.rom": image.data()}, status)
        usual = ("flashmap", "complete", "components", "free bytes",
                 "largest content that add takes")
        self.assertEqual([row for row in rows if row[4] not in usual], expected)

    def digests(self, place, algorithm, metadata="valid", flash_map="valid"):
        """Returns the rows of both digests."""
        rows = []
        for what, state in [("metadata", metadata), ("map", flash_map)]:
            text = f"{what} hash {HASHES[algorithm]} {state}"
            if state == "valid":
                rows.append(("remark", *place, text))
            else:
                rows.append(("bad", *place, f"{text}: {REMEDY}"))
        return rows

    def components(self, image, expected, status=0, options=""):
        """Checks the rows that follow those of a valid SHA-256 anchor."""
        self.finds(image, [*self.digests(PLACE, SHA256), *expected], status, options)


class Digests(CheckAnchor):
    def test_each_algorithm_in_the_area(self):
        for algorithm in HASHES:
            parts = [hashed(b"a", algorithm=algorithm)]
            state = f"{HASHES[algorithm]} valid"
            if algorithm not in (SHA256, SHA512):
                state = "hash unsupported"
            with self.subTest(HASHES[algorithm]):
                self.finds(sealed(parts, algorithm), [
                    *self.digests(PLACE, algorithm), ("remark", "COREBOOT", "a", "0x0", state),
                ])

    def test_each_algorithm_in_the_component(self):
        for algorithm in HASHES:
            length = len(digest(algorithm, b""))
            parts = [Component(b"header", b"h", type=CBFS_HEADER)]
            # The content of the bootblock doesn't change its metadata.
            size = 200 + 2 * length
            bootblock = Component(b"bootblock", bytes(size), type=BOOTBLOCK)
            board = plain([*parts, bootblock])
            right = sealed_anchor(algorithm, [*parts, bootblock], board.map)
            content = b"x" * 100 + right
            image = in_component(parts, content.ljust(size, b"\0"))
            # The content begins after the cell of the header, a head of 24 bytes and a name of 12.
            place = ("COREBOOT", "bootblock", hex(64 + 36 + 100))
            with self.subTest(HASHES[algorithm]):
                self.finds(image, [*self.digests(place, algorithm), NO_HEADER])

    def test_outdated_digests(self):
        parts = [hashed(b"a")]
        right = sealed([]).map, metadata_digest(SHA256, parts), digest(SHA256, sealed([]).map)
        for metadata, flash_map, states in [
            (right[1], bytes(32), ("valid", "invalid")),
            (bytes(32), right[2], ("invalid", "valid")),
            (bytes(32), bytes(32), ("invalid", "invalid")),
            (right[2], right[1], ("invalid", "invalid")),
        ]:
            with self.subTest(states):
                self.finds(in_area(parts, anchor(SHA256, metadata, flash_map)), [
                    *self.digests(PLACE, SHA256, *states),
                    ("remark", "COREBOOT", "a", "0x0", "sha256 valid"),
                ], status=1)

    def test_each_byte_of_a_digest_counts(self):
        parts = [hashed(b"a")]
        right = sealed_anchor(SHA256, parts, in_area([], b"").map)
        for at in (12, 43, 44, 75):
            changed = bytearray(right)
            changed[at] ^= 1
            states = ("invalid", "valid") if at < 44 else ("valid", "invalid")
            with self.subTest(at):
                self.finds(in_area(parts, bytes(changed)), [
                    *self.digests(PLACE, SHA256, *states),
                    ("remark", "COREBOOT", "a", "0x0", "sha256 valid"),
                ], status=1)

    def test_an_added_component(self):
        """The digest of the metadata is outdated after an addition, and right after a removal."""
        parts = [hashed(b"a")]
        right = sealed_anchor(SHA256, parts, in_area([], b"").map)
        seen = ("remark", "COREBOOT", "a", "0x0", "sha256 valid")
        self.finds(in_area([*parts, hashed(b"b")], right), [
            *self.digests(PLACE, SHA256, "invalid"), seen,
            ("remark", "COREBOOT", "b", "0x80", "sha256 valid"),
        ], status=1)
        self.finds(in_area([*parts, FreeEntry(0x80)], right), [*self.digests(PLACE, SHA256), seen])

    def test_the_area_precedes_the_component(self):
        wrong = anchor(SHA512, bytes(64), bytes(64))
        parts = [Component(b"bootblock", wrong, type=BOOTBLOCK)]
        self.finds(sealed(parts), self.digests(PLACE, SHA256))
        self.finds(in_area(parts, b""), [])

    def test_places_in_the_area(self):
        parts = [hashed(b"a")]
        length = 12 + 2 * 32
        for at in (0, 1, 0xf8, 0xff, 0x100, 0xffe - 76, 0x1000 - length):
            with self.subTest(at):
                self.finds(sealed(parts, at=at), [
                    *self.digests(("BOOTBLOCK", "-", hex(at)), SHA256),
                    ("remark", "COREBOOT", "a", "0x0", "sha256 valid"),
                ])


class Faults(CheckAnchor):
    def test_unknown_algorithm(self):
        for number in (0, 6, 255):
            with self.subTest(number):
                self.finds(in_area([], anchor(number, bytes(64), bytes(64))), [
                    ("bad", "BOOTBLOCK", "-", "-", "anchor with an unknown algorithm"),
                    ("remark", "COREBOOT", "-", "-", "no components"),
                ], status=1)

    def test_cut_off(self):
        for algorithm in HASHES:
            length = 12 + 2 * len(digest(algorithm, b""))
            right = sealed_anchor(algorithm, [], in_area([], b"").map)
            none = ("remark", "COREBOOT", "-", "-", "no components")
            with self.subTest(HASHES[algorithm]):
                self.finds(in_area([], right, at=0x1000 - length), [
                    *self.digests(("BOOTBLOCK", "-", hex(0x1000 - length)), algorithm), none,
                ])
                self.finds(in_area([], right[:-1], at=0x1001 - length), [
                    ("bad", "BOOTBLOCK", "-", "-", "anchor is cut off"), none,
                ], status=1)
        content = anchor(SHA256, bytes(32), bytes(32))[:-1]
        self.finds(in_component([], content), [
            ("bad", "COREBOOT", "bootblock", "-", "anchor is cut off"),
        ], status=1)

    def test_a_damaged_region(self):
        """The digests can't be computed, but the anchor is there."""
        damaged = Component(b"b", b"x", offset=0x10)
        parts = [hashed(b"a"), damaged]
        made = in_area(parts, sealed_anchor(SHA256, parts, in_area([], b"").map))
        rows = self.rows("image.rom", {"image.rom": made.data()}, 1)
        self.assertIn(("bad", *PLACE, "anchor isn't checked: COREBOOT is damaged"), rows)
        self.assertFalse([row for row in rows if "metadata hash" in row[4]])

    def test_no_anchor(self):
        """Without an anchor, the rows are those of each image."""
        parts = [Component(b"s", b"x", type=SIMPLE_ELF), hashed(b"a", algorithm=SHA512)]
        expected = [("remark", "COREBOOT", "a", "0x40", "sha512 valid")]
        self.finds(plain(parts), expected)
        self.finds(in_area(parts, b""), expected)
        self.finds(in_area(parts, ANCHOR_MAGIC[:-1]), expected)
        # The component has another type, or is the second one of the name.
        right = anchor(SHA256, bytes(32), bytes(32))
        self.finds(plain([Component(b"bootblock", right, type=RAW)]), [])
        self.finds(plain([
            Component(b"bootblock", b"x", type=BOOTBLOCK),
            Component(b"bootblock", right, type=BOOTBLOCK),
        ]), [
            ("bad", "COREBOOT", "bootblock", "0x40", "has the name of an earlier component"),
        ], status=1)


class Components(CheckAnchor):
    def test_components_without_a_digest(self):
        for kind, verdict in [
            (LEGACY_STAGE, "bad"), (STAGE, "bad"), (SIMPLE_ELF, "bad"), (FIT_PAYLOAD, "bad"),
            (FSP, "bad"), (RAW, "remark"), (0x53, "remark"), (BOOTBLOCK, None), (CBFS_HEADER, None),
        ]:
            parts = [Component(b"a", b"x", type=kind,
                               attributes=[stage_attribute()] * (kind == STAGE))]
            row = [(verdict, "COREBOOT", "a", "0x0", "no hash")] if verdict else []
            header = [NO_HEADER] if kind == CBFS_HEADER else []
            with self.subTest(kind):
                self.components(sealed(parts), row + header, status=int(verdict == "bad"))
                self.finds(plain(parts), header)

    def test_exempt_types_on_request(self):
        parts = [Component(b"a", b"x", type=CBFS_HEADER)]
        row = ("remark", "COREBOOT", "a", "0x0", "no hash")
        for options, rows in [("-v", [row]), ("--all-hashed", []), ("--all-hashed -v", [row])]:
            self.components(sealed(parts), rows + [NO_HEADER], 0, options)

    def test_a_digest_of_another_algorithm(self):
        other = "hash isn't of the anchor's algorithm"
        for algorithm, state in [
            (SHA1, "hash unsupported"), (SHA512, "sha512 valid"), (SHA224, "hash unsupported"),
            (SHA384, "hash unsupported"),
        ]:
            parts = [hashed(b"a", algorithm=algorithm, type=SIMPLE_ELF)]
            with self.subTest(HASHES[algorithm]):
                self.components(sealed(parts), [
                    ("remark", "COREBOOT", "a", "0x0", state),
                    ("remark", "COREBOOT", "a", "0x0", other),
                ])

    def test_an_incomplete_digest(self):
        """The firmware finds no digest in a short attribute, or in one of an unknown algorithm."""
        other = "hash isn't of the anchor's algorithm"
        short, unknown = "digest attribute has a wrong length", "digest has an unknown algorithm"
        for data, fault in [(b"\0\0\0\2" + bytes(31), short), (b"\0\0\0\1" + bytes(19), short),
                            (b"\0\0\0\x09" + bytes(64), unknown)]:
            for kind, verdict in [(SIMPLE_ELF, "bad"), (RAW, "remark")]:
                parts = [Component(b"a", b"x", type=kind, attributes=[attribute(HASH_TAG, data)])]
                with self.subTest((data[3], kind)):
                    self.components(sealed(parts), [
                        (verdict, "COREBOOT", "a", "0x0", "hash unsupported"),
                        ("remark", "COREBOOT", "a", "0x0", other),
                        ("bad", "COREBOOT", "a", "0x0", fault),
                    ], status=1)

    def test_invalid_digests(self):
        wrong = hash_attribute(SHA256, b"other")
        for name, verdict in [(b"a", "bad"), (b"intel_fit", "remark"), (b"intel_fi", "bad"),
                              (b"intel_fit2", "bad")]:
            parts = [Component(name, b"x", attributes=[wrong])]
            with self.subTest(name):
                self.components(sealed(parts), [
                    (verdict, "COREBOOT", name.decode(), "0x0", "sha256 invalid"),
                ], status=int(verdict == "bad"))
                self.finds(plain(parts), [
                    ("bad", "COREBOOT", name.decode(), "0x0", "sha256 invalid"),
                ], status=1)

    def test_slots(self):
        """The firmware checks a component of a slot too, although no anchor has its metadata."""
        for name, area in SLOTS.items():
            areas = (FMAP, COREBOOT, BOOT_AREA, area)
            for kind, verdict in [(SIMPLE_ELF, "bad"), (RAW, "remark"), (BOOTBLOCK, None)]:
                slot = region(Component(b"a", b"x", type=kind))
                row = [(verdict, name, "a", "0x0", "no hash")] if verdict else []
                with self.subTest(name, kind=kind):
                    image = sealed([hashed(b"h")], areas=areas).put(name, slot)
                    hash_row = ("remark", "COREBOOT", "h", "0x0", "sha256 valid")
                    self.components(image, [hash_row, *row], status=int(verdict == "bad"))
                    without = Image(SIZE, [FMAP, COREBOOT, area]).put("COREBOOT", region())
                    self.finds(without.put(name, slot),
                               [("remark", "COREBOOT", "-", "-", "no components")])

    def test_another_region(self):
        """The anchor has nothing to do with the components of other regions."""
        areas = (FMAP, COREBOOT, BOOT_AREA, OTHER)
        made = sealed([], areas=areas).put("OTHER", region(Component(b"s", b"x", type=SIMPLE_ELF)))
        self.components(made, [("remark", "COREBOOT", "-", "-", "no components")])

    def test_metadata_of_256_and_257_bytes(self):
        long = "metadata longer than 256 bytes: firmware can't find it"
        for gap, is_long in [(0, False), (1, True), (64, True)]:
            # A head of 24 bytes, a name of 4, and a digest of 44, up to 256 bytes.
            part = hashed(b"a", gap=256 - 24 - 4 - 44 + gap, type=SIMPLE_ELF)
            self.assertEqual(len(part.metadata), 256 + gap)
            state = ("remark", "COREBOOT", "a", "0x0", "sha256 valid")
            row = [("bad", "COREBOOT", "a", "0x0", long)] if is_long else []
            with self.subTest(gap):
                self.finds(plain([part]), [*row, state], status=int(is_long))
                self.components(sealed([part]), [*row, state], status=int(is_long))


class TwoImages(CheckAnchor):
    def changes(self, old, new, expected, status=0):
        """Checks the rows of an anchor's change."""
        files = {"old.rom": old.data(), "new.rom": new.data()}
        rows = self.rows("old.rom new.rom", files, status)
        self.assertEqual([row for row in rows if "anchor" in row[4]], expected)

    def test_an_anchor_gone_or_added(self):
        parts = [hashed(b"a")]
        with_anchor, without = sealed(parts), in_area(parts, b"")
        self.changes(with_anchor, without, [("bad", "-", "-", "-", "anchor gone")], status=1)
        self.changes(without, with_anchor, [("change", "-", "-", "-", "anchor added")])
        self.changes(with_anchor, with_anchor, [])
        self.changes(without, without, [])

    def test_another_algorithm(self):
        for old in HASHES:
            new = SHA512 if old == SHA256 else SHA256
            text = f"anchor's algorithm changed from {HASHES[old]}"
            with self.subTest(HASHES[old]):
                self.changes(sealed([], old), sealed([], new), [("change", "-", "-", "-", text)])

    def test_outdated_in_one_image(self):
        """The findings are those of the new image."""
        outdated = in_area([], anchor(SHA256, bytes(32), bytes(32)))
        for old, new, status in [(outdated, sealed([]), 0), (sealed([]), outdated, 1)]:
            files = {"old.rom": old.data(), "new.rom": new.data()}
            rows = self.rows("old.rom new.rom", files, status)
            states = ["invalid"] * 2 if status else ["valid"] * 2
            expected = self.digests(PLACE, SHA256, *states)
            self.assertEqual([row for row in rows if " hash sha256" in row[4]], expected)


class Documents(CheckAnchor):
    def document(self, command, files):
        """Returns the rows of a document: verdict, code, area, component and position."""
        run = self.folder(files).run(f"cbfscheck --json {command}")
        rows = json.loads(run.output)["rows"]
        keys = ("verdict", "code", "area", "component", "position")
        return [tuple(row.get(key) for key in keys) for row in rows]

    def test_codes(self):
        long = hashed(b"l", gap=257)
        outdated = anchor(SHA256, bytes(32), bytes(32))
        cut = in_area([], outdated[:-1], at=0x1000 - 75)
        damaged = sealed([Component(b"b", b"x", offset=0x10)])
        for image, row in [
            (sealed([]), ("remark", "metadata-hash-valid", "BOOTBLOCK", None, 0x40)),
            (sealed([]), ("remark", "map-hash-valid", "BOOTBLOCK", None, 0x40)),
            (in_area([], outdated), ("bad", "metadata-hash-invalid", "BOOTBLOCK", None, 0x40)),
            (in_area([], outdated), ("bad", "map-hash-invalid", "BOOTBLOCK", None, 0x40)),
            (in_component([], outdated), ("bad", "map-hash-invalid", "COREBOOT", "bootblock", 36)),
            (cut, ("bad", "anchor-cut-off", "BOOTBLOCK", None, None)),
            (in_area([], anchor(0, b"", b"")),
             ("bad", "anchor-unknown-algorithm", "BOOTBLOCK", None, None)),
            (damaged, ("bad", "anchor-not-checked", "BOOTBLOCK", None, 0x40)),
            (plain([long]), ("bad", "metadata-too-long", "COREBOOT", "l", 0)),
            (sealed([hashed(b"a", algorithm=SHA512)]),
             ("remark", "hash-other-algorithm", "COREBOOT", "a", 0)),
        ]:
            with self.subTest(row[1]):
                self.assertIn(row, self.document("image.rom", {"image.rom": image.data()}))

    def test_codes_of_changes(self):
        with_anchor, without = sealed([]), in_area([], b"")
        for old, new, row in [
            (with_anchor, without, ("bad", "anchor-gone", None, None, None)),
            (without, with_anchor, ("change", "anchor-added", None, None, None)),
            (with_anchor, sealed([], SHA1),
             ("change", "anchor-algorithm-changed", None, None, None)),
        ]:
            files = {"old.rom": old.data(), "new.rom": new.data()}
            with self.subTest(row[1]):
                self.assertIn(row, self.document("old.rom new.rom", files))


class Reports(CheckTest):
    """Complete reports of an image of 3072 bytes, whose area BOOTBLOCK has an anchor at 0x40."""

    AREAS = [Area("FMAP", 0, 0x200), Area("COREBOOT", 0x400, 0x400),
             Area("BOOTBLOCK", 0x800, 0x400)]
    MAP = Image(0xC00, AREAS).map

    def image(self, parts, anchor_bytes, at=0x40):
        """Returns the image with these components, and with these bytes in the area BOOTBLOCK."""
        space = FreeEntry(0x400 - len(join(*parts)), keeps=bytes(4))
        made = Image(0xC00, self.AREAS).put("COREBOOT", join(*parts, space))
        return made.put_at(0x800 + at, anchor_bytes).data()

    def sealed(self, algorithm, *parts):
        """Returns the image with the right digests."""
        return self.image(parts, sealed_anchor(algorithm, parts, self.MAP))

    def digests(self, algorithm, valid, outdated):
        """Checks the reports of an image with the right digests, and with digests of zeros."""
        zeros = bytes(len(digest(algorithm, b"")))
        self.reports(0, self.sealed(algorithm), valid)
        self.reports(1, self.image([], anchor(algorithm, zeros, zeros)), outdated)

    def test_sha1(self):
        self.digests(SHA1, """
            remark|-|-|0x0|flashmap
            remark|BOOTBLOCK|-|0x40|metadata hash sha1 valid
            remark|BOOTBLOCK|-|0x40|map hash sha1 valid
            remark|COREBOOT|-|-|complete
            remark|COREBOOT|-|-|no components
            remark|COREBOOT|-|-|free bytes|1024
            remark|COREBOOT|-|-|largest content that add takes|992
            sound: 0 bad, 7 remarks, 0 changes
        """, """
            remark|-|-|0x0|flashmap
            bad|BOOTBLOCK|-|0x40|metadata hash sha1 invalid: run cbfsseal IMAGE
            bad|BOOTBLOCK|-|0x40|map hash sha1 invalid: run cbfsseal IMAGE
            remark|COREBOOT|-|-|complete
            remark|COREBOOT|-|-|no components
            remark|COREBOOT|-|-|free bytes|1024
            remark|COREBOOT|-|-|largest content that add takes|992
            not sound: 2 bad, 5 remarks, 0 changes
        """)

    def test_sha224(self):
        self.digests(SHA224, """
            remark|-|-|0x0|flashmap
            remark|BOOTBLOCK|-|0x40|metadata hash sha224 valid
            remark|BOOTBLOCK|-|0x40|map hash sha224 valid
            remark|COREBOOT|-|-|complete
            remark|COREBOOT|-|-|no components
            remark|COREBOOT|-|-|free bytes|1024
            remark|COREBOOT|-|-|largest content that add takes|992
            sound: 0 bad, 7 remarks, 0 changes
        """, """
            remark|-|-|0x0|flashmap
            bad|BOOTBLOCK|-|0x40|metadata hash sha224 invalid: run cbfsseal IMAGE
            bad|BOOTBLOCK|-|0x40|map hash sha224 invalid: run cbfsseal IMAGE
            remark|COREBOOT|-|-|complete
            remark|COREBOOT|-|-|no components
            remark|COREBOOT|-|-|free bytes|1024
            remark|COREBOOT|-|-|largest content that add takes|992
            not sound: 2 bad, 5 remarks, 0 changes
        """)

    def test_sha256(self):
        self.digests(SHA256, """
            remark|-|-|0x0|flashmap
            remark|BOOTBLOCK|-|0x40|metadata hash sha256 valid
            remark|BOOTBLOCK|-|0x40|map hash sha256 valid
            remark|COREBOOT|-|-|complete
            remark|COREBOOT|-|-|no components
            remark|COREBOOT|-|-|free bytes|1024
            remark|COREBOOT|-|-|largest content that add takes|992
            sound: 0 bad, 7 remarks, 0 changes
        """, """
            remark|-|-|0x0|flashmap
            bad|BOOTBLOCK|-|0x40|metadata hash sha256 invalid: run cbfsseal IMAGE
            bad|BOOTBLOCK|-|0x40|map hash sha256 invalid: run cbfsseal IMAGE
            remark|COREBOOT|-|-|complete
            remark|COREBOOT|-|-|no components
            remark|COREBOOT|-|-|free bytes|1024
            remark|COREBOOT|-|-|largest content that add takes|992
            not sound: 2 bad, 5 remarks, 0 changes
        """)

    def test_sha384(self):
        self.digests(SHA384, """
            remark|-|-|0x0|flashmap
            remark|BOOTBLOCK|-|0x40|metadata hash sha384 valid
            remark|BOOTBLOCK|-|0x40|map hash sha384 valid
            remark|COREBOOT|-|-|complete
            remark|COREBOOT|-|-|no components
            remark|COREBOOT|-|-|free bytes|1024
            remark|COREBOOT|-|-|largest content that add takes|992
            sound: 0 bad, 7 remarks, 0 changes
        """, """
            remark|-|-|0x0|flashmap
            bad|BOOTBLOCK|-|0x40|metadata hash sha384 invalid: run cbfsseal IMAGE
            bad|BOOTBLOCK|-|0x40|map hash sha384 invalid: run cbfsseal IMAGE
            remark|COREBOOT|-|-|complete
            remark|COREBOOT|-|-|no components
            remark|COREBOOT|-|-|free bytes|1024
            remark|COREBOOT|-|-|largest content that add takes|992
            not sound: 2 bad, 5 remarks, 0 changes
        """)

    def test_sha512(self):
        self.digests(SHA512, """
            remark|-|-|0x0|flashmap
            remark|BOOTBLOCK|-|0x40|metadata hash sha512 valid
            remark|BOOTBLOCK|-|0x40|map hash sha512 valid
            remark|COREBOOT|-|-|complete
            remark|COREBOOT|-|-|no components
            remark|COREBOOT|-|-|free bytes|1024
            remark|COREBOOT|-|-|largest content that add takes|992
            sound: 0 bad, 7 remarks, 0 changes
        """, """
            remark|-|-|0x0|flashmap
            bad|BOOTBLOCK|-|0x40|metadata hash sha512 invalid: run cbfsseal IMAGE
            bad|BOOTBLOCK|-|0x40|map hash sha512 invalid: run cbfsseal IMAGE
            remark|COREBOOT|-|-|complete
            remark|COREBOOT|-|-|no components
            remark|COREBOOT|-|-|free bytes|1024
            remark|COREBOOT|-|-|largest content that add takes|992
            not sound: 2 bad, 5 remarks, 0 changes
        """)

    def test_another_algorithm(self):
        sha512 = self.sealed(SHA512)
        self.changes(0, self.sealed(SHA1), sha512, """
            change|-|-|-|erase blocks differ|1
            change|-|-|-|anchor's algorithm changed from sha1
            change|BOOTBLOCK|-|0x800|erase blocks differ|1
            sound: 0 bad, 7 remarks, 3 changes
        """)
        self.changes(0, self.sealed(SHA224), sha512, """
            change|-|-|-|erase blocks differ|1
            change|-|-|-|anchor's algorithm changed from sha224
            change|BOOTBLOCK|-|0x800|erase blocks differ|1
            sound: 0 bad, 7 remarks, 3 changes
        """)
        self.changes(0, self.sealed(SHA256), sha512, """
            change|-|-|-|erase blocks differ|1
            change|-|-|-|anchor's algorithm changed from sha256
            change|BOOTBLOCK|-|0x800|erase blocks differ|1
            sound: 0 bad, 7 remarks, 3 changes
        """)
        self.changes(0, self.sealed(SHA384), sha512, """
            change|-|-|-|erase blocks differ|1
            change|-|-|-|anchor's algorithm changed from sha384
            change|BOOTBLOCK|-|0x800|erase blocks differ|1
            sound: 0 bad, 7 remarks, 3 changes
        """)
        self.changes(0, sha512, self.sealed(SHA1), """
            change|-|-|-|erase blocks differ|1
            change|-|-|-|anchor's algorithm changed from sha512
            change|BOOTBLOCK|-|0x800|erase blocks differ|1
            sound: 0 bad, 7 remarks, 3 changes
        """)

    def test_no_anchor(self):
        self.reports(0, self.image([], b""), """
            remark|-|-|0x0|flashmap
            remark|COREBOOT|-|-|complete
            remark|COREBOOT|-|-|no components
            remark|COREBOOT|-|-|free bytes|1024
            remark|COREBOOT|-|-|largest content that add takes|992
            sound: 0 bad, 5 remarks, 0 changes
        """)

    def test_an_unknown_algorithm(self):
        self.reports(1, self.image([], anchor(9, bytes(64), bytes(64))), """
            remark|-|-|0x0|flashmap
            bad|BOOTBLOCK|-|-|anchor with an unknown algorithm
            remark|COREBOOT|-|-|complete
            remark|COREBOOT|-|-|no components
            remark|COREBOOT|-|-|free bytes|1024
            remark|COREBOOT|-|-|largest content that add takes|992
            not sound: 1 bad, 5 remarks, 0 changes
        """)

    def test_an_anchor_that_is_cut_off(self):
        cut = anchor(SHA256, bytes(32), bytes(31))
        self.reports(1, self.image([], cut, at=0x400 - 75), """
            remark|-|-|0x0|flashmap
            bad|BOOTBLOCK|-|-|anchor is cut off
            remark|COREBOOT|-|-|complete
            remark|COREBOOT|-|-|no components
            remark|COREBOOT|-|-|free bytes|1024
            remark|COREBOOT|-|-|largest content that add takes|992
            not sound: 1 bad, 5 remarks, 0 changes
        """)

    def test_a_damaged_region(self):
        damaged = [Component(b"d", b"x", offset=1)]
        self.reports(1, self.image(damaged, sealed_anchor(SHA256, [], self.MAP)), """
            remark|-|-|0x0|flashmap
            bad|BOOTBLOCK|-|0x40|anchor isn't checked: COREBOOT is damaged
            bad|COREBOOT|-|0x0|damaged entry: offset
            remark|COREBOOT|-|-|no components
            remark|COREBOOT|-|-|free bytes|0
            remark|COREBOOT|-|-|no room for a component
            not sound: 2 bad, 4 remarks, 0 changes
        """)

    def test_an_invalid_digest_of_the_fit(self):
        """The FIT tool changes it after the build. It is a remark below a valid anchor."""
        fit = Component(b"intel_fit", b"x", attributes=[hash_attribute(SHA512, b"y")])
        self.reports(0, self.sealed(SHA512, fit), """
            remark|-|-|0x0|flashmap
            remark|BOOTBLOCK|-|0x40|metadata hash sha512 valid
            remark|BOOTBLOCK|-|0x40|map hash sha512 valid
            remark|COREBOOT|intel_fit|0x0|sha512 invalid
            remark|COREBOOT|-|-|complete
            remark|COREBOOT|-|-|components|1
            remark|COREBOOT|-|-|free bytes|896
            remark|COREBOOT|-|-|largest content that add takes|864
            sound: 0 bad, 8 remarks, 0 changes
        """)

    def test_components_below_an_anchor(self):
        self.reports(1, self.sealed(
            SHA256,
            Component(b"o", b"x", attributes=[hash_attribute(SHA512, b"x")]),
            Component(b"intel_fit", b"x", attributes=[hash_attribute(SHA256, b"y")]),
            Component(b"s", b"x", type=SIMPLE_ELF),
            Component(b"l", b"x", gap=257),
        ), """
            remark|-|-|0x0|flashmap
            remark|BOOTBLOCK|-|0x40|metadata hash sha256 valid
            remark|BOOTBLOCK|-|0x40|map hash sha256 valid
            remark|COREBOOT|o|0x0|sha512 valid
            remark|COREBOOT|o|0x0|hash isn't of the anchor's algorithm
            remark|COREBOOT|intel_fit|0x80|sha256 invalid
            bad|COREBOOT|s|0x100|no hash
            bad|COREBOOT|l|0x140|metadata longer than 256 bytes: firmware can't find it
            remark|COREBOOT|l|0x140|no hash
            remark|COREBOOT|-|-|complete
            remark|COREBOOT|-|-|components|4
            remark|COREBOOT|-|-|free bytes|384
            remark|COREBOOT|-|-|largest content that add takes|352
            not sound: 2 bad, 11 remarks, 0 changes
        """)

    def test_an_anchor_that_is_added_or_gone(self):
        none, sealed_image = self.image([], b""), self.sealed(SHA256)
        self.changes(0, none, sealed_image, """
            change|-|-|-|erase blocks differ|1
            change|-|-|-|anchor added
            change|BOOTBLOCK|-|0x800|erase blocks differ|1
            sound: 0 bad, 7 remarks, 3 changes
        """)
        self.changes(1, sealed_image, none, """
            change|-|-|-|erase blocks differ|1
            bad|-|-|-|anchor gone
            change|BOOTBLOCK|-|0x800|erase blocks differ|1
            not sound: 1 bad, 5 remarks, 2 changes
        """)


if __name__ == "__main__":
    unittest.main()
