"""cbfsseal at its limits: the place and the end of an anchor, long metadata, many components, and
each refusal, by literal images.

Expected digests come from hashlib, and expected images from the builder.
"""

import resource
import unittest

from tests.image import (
    ANCHOR_MAGIC, BOOTBLOCK, CBFS_HEADER, HASHES, SHA1, SHA224, SHA256, SHA384, SHA512, STAGE, Area,
    Component, FreeEntry, Image, anchor, attribute, hash_attribute, join, sealed_anchor,
)
from tests.programs import ProgramTest
from tests.test_seal import (
    BOOT_AREA, COREBOOT, FMAP, LENGTHS, SIZE, hashed, in_area, in_component, outdated, region,
)

IGNORED = b"abc"
OWN_DIGEST = ("bootblock with a header that may have a digest of its own: "
              "use coreboot's cbfstool")

# A seal of 50,000 components takes at most so much time of a processor.
SECONDS = 2


class Sealing(ProgramTest):
    """An image becomes another one, or is refused."""

    programs = ("cbfsseal",)

    def seals(self, before, after, command="cbfsseal image.rom"):
        """Checks the sealed image, and that the next run finds nothing to do."""
        folder = self.folder({"image.rom": before})
        self.check(command, folder, left={"image.rom": after})
        self.check(command, folder)

    def refused(self, image, message, options=""):
        self.refuses(1, message, f"cbfsseal {options} image.rom", {"image.rom": image})


class Places(Sealing):
    """The anchor begins at any offset of its range, and ends with it."""

    def sealed_in(self, start, at, algorithm, size=0x2000):
        """Seals an image whose anchor is `at` bytes after the start of the area."""
        areas = [FMAP, COREBOOT, Area("BOOTBLOCK", start, size)]
        made = [Image(SIZE, areas).put("COREBOOT", region()) for _ in range(2)]
        made[0].put_at(start + at, outdated(algorithm))
        made[1].put_at(start + at, sealed_anchor(algorithm, [], made[1].map, IGNORED))
        self.seals(made[0].data(), made[1].data())

    def test_each_offset_around_the_pieces_of_the_search(self):
        # The search reads 256 bytes at once, and again the last seven of them.
        for at in (*range(170, 264), *range(480, 512)):
            with self.subTest(at):
                self.sealed_in(0x2000, at, SHA256)

    def test_each_offset_around_a_page(self):
        # The magic, the number, each digest, and the end of the anchor cross the page.
        for at in range(4096 - 80, 4096 + 12):
            with self.subTest(at):
                self.sealed_in(0x2000, at, SHA256)

    def test_each_offset_around_a_page_of_the_image(self):
        for at in range(4096 - 0x123 - 142, 4096 - 0x123 + 12, 3):
            with self.subTest(at):
                self.sealed_in(0x2123, at, SHA512, 0x1E00)

    def test_an_anchor_that_fills_the_area(self):
        for algorithm, length in LENGTHS.items():
            with self.subTest(HASHES[algorithm]):
                self.sealed_in(0x2000, 0, algorithm, 12 + 2 * length)

    def test_the_end_of_the_area(self):
        for algorithm, length in LENGTHS.items():
            with self.subTest(HASHES[algorithm]):
                last = 0x2000 - 12 - 2 * length
                self.sealed_in(0x2000, last, algorithm)
                for at in range(last + 1, 0x2000 - 7):
                    made = in_area([], outdated(algorithm)[: 0x2000 - at], at)
                    self.refused(made.data(), "anchor cut off")
                for at in (0x2000 - 7, 0x2000 - 1):
                    made = in_area([], outdated(algorithm)[: 0x2000 - at], at)
                    self.refused(made.data(), "no anchor")

    def test_the_end_of_the_component(self):
        for algorithm, length in LENGTHS.items():
            with self.subTest(HASHES[algorithm]):
                whole = b"1234" + outdated(algorithm)
                before, bootblock = in_component([], whole)
                right = sealed_anchor(algorithm, [bootblock], before.map, IGNORED)
                self.seals(before.data(), in_component([], b"1234" + right)[0].data())
                self.assertEqual(len(whole), 16 + 2 * length)
                for size in (16 + 2 * length - 1, 16 + length, 16, 15, 12):
                    # The rest of the anchor follows the content, in the padding of the cell.
                    made, cell = in_component([], whole[:size])
                    place = 0x1000 + cell.content_offset
                    self.refused(made.put_at(place, whole).data(), "anchor cut off")
                made, cell = in_component([], whole[:11])
                place = 0x1000 + cell.content_offset
                self.refused(made.put_at(place, whole).data(), "no anchor")

    def test_an_anchor_before_and_after_the_area(self):
        areas = [FMAP, COREBOOT, Area("BOOTBLOCK", 0x2100, 0x400)]
        made = Image(SIZE, areas).put("COREBOOT", region())
        made.put_at(0x2000, outdated(SHA256)).put_at(0x2500, outdated(SHA256))
        self.refused(made.data(), "no anchor")

    def test_the_end_of_the_image(self):
        areas = [FMAP, COREBOOT, Area("BOOTBLOCK", 0x2000, 0x2000)]
        made = in_area([], outdated(SHA1), 0x2000 - 52, areas)
        right = sealed_anchor(SHA1, [], made.map, IGNORED)
        self.seals(made.data(), in_area([], right, 0x2000 - 52, areas).data())


class FirstMagic(Sealing):
    """The first magic of the range is that of the anchor."""

    def test_two_magics(self):
        for first, second in ((SHA1, SHA512), (SHA512, SHA1), (SHA384, SHA224)):
            for at in (12 + 2 * LENGTHS[first], 0x800):
                with self.subTest(HASHES[first], at=at):
                    before = in_area([], outdated(first)).put_at(0x2040 + at, outdated(second))
                    right = sealed_anchor(first, [], before.map, IGNORED)
                    after = in_area([], right).put_at(0x2040 + at, outdated(second))
                    self.seals(before.data(), after.data())

    def test_a_damaged_anchor_before_a_sound_one(self):
        made = in_area([], ANCHOR_MAGIC + b"abc\x09").put_at(0x2800, outdated(SHA256))
        self.refused(made.data(), "unknown algorithm of the anchor")

    def test_a_magic_that_is_a_digest_of_the_first(self):
        stored = ANCHOR_MAGIC.ljust(32, b"x")
        before = in_area([], anchor(SHA256, stored, stored, IGNORED))
        right = sealed_anchor(SHA256, [], before.map, IGNORED)
        self.seals(before.data(), in_area([], right).data())

    def test_parts_of_the_magic(self):
        for part in (ANCHOR_MAGIC[:7], ANCHOR_MAGIC[1:], ANCHOR_MAGIC[:7] + b"\x16",
                     b"\xac" + ANCHOR_MAGIC[1:]):
            with self.subTest(part):
                before = in_area([], part + outdated(SHA256))
                right = sealed_anchor(SHA256, [], before.map, IGNORED)
                self.seals(before.data(), in_area([], part + right).data())
                self.refused(in_area([], part + b"x" * 90).data(), "no anchor")


class Metadata(Sealing):
    """The bytes before the content, up to 256, of many components or none."""

    def sealed_with(self, parts, components, algorithm=SHA256):
        before = in_area(parts, outdated(algorithm))
        right = sealed_anchor(algorithm, components, before.map, IGNORED)
        self.seals(before.data(), in_area(parts, right).data())

    def test_256_bytes(self):
        # 256 bytes by a long name, by a gap, and by a gap after a digest.
        rows = [
            Component(b"n" * 231, type=CBFS_HEADER),
            Component(b"n", type=CBFS_HEADER, gap=228),
            hashed(b"n" * 187),
            hashed(b"n", gap=184),
        ]
        for row in rows:
            with self.subTest(row.metadata[:40]):
                self.assertEqual(len(row.metadata), 256)
                self.sealed_with([hashed(b"a"), row], [hashed(b"a"), row])

    def test_257_bytes(self):
        rows = [
            (Component(b"n" * 232, type=CBFS_HEADER), 260, "n" * 232),
            (Component(b"n", type=CBFS_HEADER, gap=229), 257, "n"),
            (hashed(b"n" * 187, gap=1), 257, "n" * 187),
            (hashed(b"n", gap=185), 257, "n"),
            (Component(b"bootblock", type=BOOTBLOCK, gap=221), 257, "bootblock"),
        ]
        for row, size, name in rows:
            with self.subTest(name, size=size):
                self.assertEqual(len(row.metadata), size)
                message = f"metadata longer than 256 bytes at 0x80: {name}"
                made = in_area([hashed(b"a"), row], outdated(SHA256)).data()
                self.refused(made, message)
                self.refused(made, message, "--allow-unhashed")

    def test_long_names_in_a_message(self):
        rows = [
            # An entry with a longer name is damaged.
            (b"\x01" * 255, "\\x01" * 255),
            (b"n" * 255, "n" * 255),
            (b"a b\t\\", "a\\x20b\\x09\\x5c"),
            (b"", None),
        ]
        for name, shown in rows:
            with self.subTest(name[:9], length=len(name)):
                made = in_area([Component(name, type=CBFS_HEADER, gap=230)], outdated(SHA256))
                message = "metadata longer than 256 bytes at 0x0"
                self.refused(made.data(), message if shown is None else f"{message}: {shown}")
        made = in_area([Component(b"n" * 256, type=CBFS_HEADER)], outdated(SHA256))
        self.refused(made.data(), "damaged entry at 0x0: name")

    def test_no_component(self):
        for algorithm in HASHES:
            with self.subTest(HASHES[algorithm]):
                self.sealed_with([], [], algorithm)
                self.sealed_with([FreeEntry(64), FreeEntry(128, type=0)], [], algorithm)

    def test_region_without_free_space(self):
        parts = [Component(b"h%d" % number, type=CBFS_HEADER) for number in range(64)]
        made = [Image(SIZE, [FMAP, COREBOOT, BOOT_AREA]).put("COREBOOT", join(*parts))
                for _ in range(2)]
        made[0].put("BOOTBLOCK", outdated(SHA256))
        made[1].put("BOOTBLOCK", sealed_anchor(SHA256, parts, made[1].map, IGNORED))
        self.seals(made[0].data(), made[1].data())

    def test_region_with_an_unused_tail(self):
        parts = [hashed(b"a"), b"\xff" * 0x200]
        made = [Image(SIZE, [FMAP, COREBOOT, BOOT_AREA]).put("COREBOOT", join(*parts, size=0x1000))
                for _ in range(2)]
        made[0].put("BOOTBLOCK", outdated(SHA256))
        made[1].put("BOOTBLOCK", sealed_anchor(SHA256, parts[:1], made[1].map, IGNORED))
        self.seals(made[0].data(), made[1].data())

    def test_fifty_thousand_components(self):
        number, size = 50000, 50000 * 64 + 0x1000
        areas = [FMAP, BOOT_AREA, Area("COREBOOT", 0x4000, size)]
        parts = [Component(b"c%d" % at, type=CBFS_HEADER) for at in range(number)]
        parts += [FreeEntry(0x1000, keeps=b"keep")]
        made = [Image(0x4000 + size, areas).put("COREBOOT", join(*parts)) for _ in range(2)]
        made[0].put("BOOTBLOCK", outdated(SHA256))
        made[1].put("BOOTBLOCK", sealed_anchor(SHA256, parts[:-1], made[1].map, IGNORED))
        began = resource.getrusage(resource.RUSAGE_CHILDREN).ru_utime
        self.seals(made[0].data(), made[1].data())
        seconds = resource.getrusage(resource.RUSAGE_CHILDREN).ru_utime - began
        self.assertLess(seconds, 2 * SECONDS, "the time of two seals")


A = hashed(b"a")
BAD_ATTRIBUTE = attribute(0x1234, b"data", length=7)


def image_in(parts, anchor_bytes=outdated(SHA256), **fields):
    return in_area([A, *parts], anchor_bytes, **fields).data()


def whole_area(size, areas=(FMAP, BOOT_AREA)):
    """Returns an image whose area COREBOOT has this size, and entries for 4096 bytes."""
    made = Image(SIZE, [*areas, Area("COREBOOT", 0x1000, size)])
    return made.put_at(0x1000, join(A, FreeEntry(0xF80))).put("BOOTBLOCK", outdated(SHA256))


def misplaced():
    areas = [FMAP, COREBOOT, Area("BOOTBLOCK", 0x1000, 0x2000)]
    return Image(SIZE, areas).put("COREBOOT", region(A)).put_at(0x1F00, outdated(SHA256))


def with_own_digest():
    return in_area([A], outdated(SHA256)).put_at(0x2000, b"\x7fELF")


# Number, text and image of each refusal but the first, which is an image that cannot be opened.
REFUSALS = [
    (2, "no FMAP", in_area([A], outdated(SHA256)).put_at(0, b"__FMAX__").data()),
    (3, "no such region", Image(SIZE, [FMAP, BOOT_AREA, Area("COREBOOX", 0x1000, 0x1000)])
     .put("BOOTBLOCK", outdated(SHA256)).data()),
    (4, "region outside the image", whole_area(0x3001).data()),
    (4, "region outside the image",
     in_area([A], outdated(SHA256), areas=[FMAP, COREBOOT, Area("BOOTBLOCK", 0x2000, 0x2001)])
     .data()),
    (5, "bad region size", whole_area(0xFFF).data()),
    (5, "bad region size", whole_area(0).data()),
    (6, "not a CBFS region",
     in_area([A], outdated(SHA256)).put_at(0x1000, b"LARCHIVX").data()),
    (7, "damaged entry at 0x80: offset", image_in([Component(b"d", b"x", offset=23)])),
    (7, "damaged entry at 0x80: attributes",
     image_in([Component(b"d", b"x", attributes=[b"1234"], attributes_offset=23)])),
    (7, "damaged entry at 0x80: extent", image_in([Component(b"d", b"x", length=0xFFFFFFFF)])),
    (7, "damaged entry at 0x80: name", image_in([Component(b"", b"x", name_field=b"nnnn")])),
    (7, "damaged entry at 0x80: attribute length",
     image_in([Component(b"d", b"x", attributes=[BAD_ATTRIBUTE])])),
    (8, "no anchor", image_in([], b"")),
    (8, "no anchor", Image(SIZE, [FMAP, COREBOOT]).put("COREBOOT", region(A)).data()),
    (9, "unknown algorithm of the anchor",
     image_in([], ANCHOR_MAGIC + b"abc\x06" + b"x" * 128)),
    (10, "anchor cut off", image_in([], outdated(SHA256)[:75], at=0x2000 - 75)),
    (11, "anchor inside the flash map or COREBOOT", misplaced().data()),
    (12, OWN_DIGEST, with_own_digest().data()),
    (13, f"metadata longer than 256 bytes at 0x80: {'n' * 240}",
     image_in([Component(b"n" * 240, b"x", type=CBFS_HEADER)])),
    (14, "bootblock with a stored digest at 0x80: bootblock",
     image_in([hashed(b"bootblock", b"x", type=BOOTBLOCK)])),
    (14, "bootblock with a stored digest at 0x80: x",
     image_in([hashed(b"x", b"x", SHA1, type=BOOTBLOCK)])),
    (15, "no digest of the anchor's algorithm at 0x80: etc/x", image_in([Component(b"etc/x")])),
    (15, "no digest of the anchor's algorithm at 0x80: etc/x",
     image_in([hashed(b"etc/x", b"x", SHA512)])),
    (15, "no digest of the anchor's algorithm at 0x80: fallback/romstage",
     image_in([Component(b"fallback/romstage", b"x", type=STAGE)])),
    # A digest that is one byte too short.
    (15, "no digest of the anchor's algorithm at 0x80: x",
     image_in([Component(b"x", b"x", attributes=[hash_attribute(SHA256, value=bytes(31))])])),
]


class EachRefusal(Sealing):
    """Each refusal has its exact text, changes nothing, and does not depend on the options."""

    def test_each_number(self):
        self.assertEqual({number for number, _, _ in REFUSALS}, set(range(2, 16)))

    def test_each_text(self):
        self.refuses(1, "device fault", "cbfsseal image.rom")
        for number, message, image in REFUSALS:
            with self.subTest(number, message=message):
                self.refused(image, message)
                self.refused(image, message, "-v")
                if number != 15:
                    self.refused(image, message, "--allow-unhashed")

    def test_right_digests_are_refused_too(self):
        part = Component(b"etc/x")
        made = in_area([A, part], sealed_anchor(SHA256, [A, part], Image(
            SIZE, [FMAP, COREBOOT, BOOT_AREA]).map, IGNORED)).data()
        self.check("cbfsseal --allow-unhashed image.rom", {"image.rom": made})
        self.refused(made, "no digest of the anchor's algorithm at 0x80: etc/x")

    def test_the_first_hash_attribute_counts(self):
        value = hash_attribute(SHA256, b"x"), hash_attribute(SHA1, b"x")
        for first, second in (value, value[::-1]):
            part = Component(b"x", b"x", attributes=[first, second])
            before = in_area([part], outdated(SHA256))
            with self.subTest(first):
                if first == value[0]:
                    right = sealed_anchor(SHA256, [part], before.map, IGNORED)
                    self.seals(before.data(), in_area([part], right).data())
                else:
                    self.refused(before.data(), "no digest of the anchor's algorithm at 0x0: x")

    def test_a_wrong_digest_of_the_content_is_accepted(self):
        part = Component(b"x", b"x", attributes=[hash_attribute(SHA256, b"other")])
        before = in_area([part], outdated(SHA256))
        right = sealed_anchor(SHA256, [part], before.map, IGNORED)
        self.seals(before.data(), in_area([part], right).data())


class Order(Sealing):
    """With two faults, the first one is reported: the places of map, COREBOOT and anchor, then the
    anchor, then COREBOOT from its start on."""

    LONG = Component(b"n" * 240, b"x", type=CBFS_HEADER)
    DAMAGED = Component(b"d", b"x", offset=23)
    UNHASHED = Component(b"u", b"x")
    BOOT = hashed(b"b", b"x", type=BOOTBLOCK)

    def test_pairs(self):
        no_magic = b"\x00" * 76
        unknown = ANCHOR_MAGIC + b"abc\x06"
        far = [FMAP, COREBOOT, Area("BOOTBLOCK", 0x2000, 0x2001)]
        rows = [
            ("no FMAP", in_area([A], no_magic).put_at(0, b"__FMAX__").data()),
            ("no such region", Image(SIZE, [FMAP, far[2]]).data()),
            ("region outside the image",
             in_area([self.DAMAGED], no_magic, areas=far).data()),
            # An error of the anchor in the area precedes those of COREBOOT.
            ("no anchor", whole_area(0xFFF).put_at(0x2000, no_magic).data()),
            ("no anchor", in_area([A], no_magic).put_at(0x1000, b"x").data()),
            ("unknown algorithm of the anchor", image_in([self.DAMAGED], unknown)),
            ("unknown algorithm of the anchor", image_in([], unknown, at=0x2000 - 12)),
            ("anchor cut off", image_in([], unknown[:11], at=0x2000 - 11)),
            ("anchor cut off", image_in([self.DAMAGED], outdated(SHA256)[:75], at=0x2000 - 75)),
            (OWN_DIGEST,
             with_own_digest().put_at(0x1000, b"x").data()),
            # COREBOOT's entries are checked in order.
            ("damaged entry at 0x80: offset", image_in([self.DAMAGED, self.UNHASHED])),
            ("no digest of the anchor's algorithm at 0x80: u",
             image_in([self.UNHASHED, self.DAMAGED])),
            ("no digest of the anchor's algorithm at 0x80: u",
             image_in([self.UNHASHED, self.BOOT])),
            ("bootblock with a stored digest at 0x80: b", image_in([self.BOOT, self.UNHASHED])),
            ("bootblock with a stored digest at 0x80: b", image_in([self.BOOT, self.LONG])),
            # Of one component: the metadata, then the bootblock.
            (f"metadata longer than 256 bytes at 0x80: {'b' * 200}",
             image_in([hashed(b"b" * 200, b"x", type=BOOTBLOCK)])),
            (f"metadata longer than 256 bytes at 0x80: {'b' * 240}",
             image_in([Component(b"b" * 240, b"x")])),
        ]
        for message, image in rows:
            with self.subTest(message):
                self.refused(image, message)

    def test_pairs_without_the_area(self):
        def made(*parts, content=b"1234" + outdated(SHA256), **fields):
            return in_component(parts, content, **fields)[0].data()

        rows = [
            # COREBOOT is walked up to the bootblock before its anchor is searched.
            ("damaged entry at 0x80: offset", made(A, self.DAMAGED, content=b"code")),
            ("no anchor", made(A, self.UNHASHED, content=b"code")),
            ("no digest of the anchor's algorithm at 0x80: u", made(A, self.UNHASHED)),
            ("anchor cut off", made(A, self.UNHASHED, content=outdated(SHA256)[:75])),
            (OWN_DIGEST,
             made(self.UNHASHED, content=b"\x7fELF" + outdated(SHA256))),
            ("bootblock with a stored digest at 0x0: bootblock",
             made(attributes=[hash_attribute(SHA256, b"x")])),
        ]
        for message, image in rows:
            with self.subTest(message):
                self.refused(image, message)


if __name__ == "__main__":
    unittest.main()
