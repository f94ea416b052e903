"""cbfsseal: digests of the metadata and of the flash map, refusals, and unchanged images.

Expected digests come from hashlib, and expected images from the builder.
"""

import unittest

from tests.image import (
    ANCHOR_MAGIC, BOOTBLOCK, CBFS_HEADER, HASHES, RAW, SHA1, SHA224, SHA256, SHA384, SHA512, Area,
    Component, FreeEntry, Image, anchor, digest, flash_map, hash_attribute, join, metadata_digest,
    sealed_anchor,
)
from tests.programs import ProgramTest

FMAP = Area("FMAP", 0, 0x200)
COREBOOT = Area("COREBOOT", 0x1000, 0x1000)
BOOT_AREA = Area("BOOTBLOCK", 0x2000, 0x2000)
SIZE = 0x4000
USAGE = (
    "usage: cbfsseal [-v] [--allow-unhashed] IMAGE\n"
    "       cbfsseal --help | --version\n"
)
LENGTHS = {SHA1: 20, SHA256: 32, SHA512: 64, SHA224: 28, SHA384: 48}


def hashed(name, content=b"content", algorithm=SHA256, **fields):
    """Returns a component with a digest of its content."""
    return Component(name, content, attributes=[hash_attribute(algorithm, content)], **fields)


def outdated(algorithm):
    """Returns an anchor with wrong digests."""
    length = LENGTHS[algorithm]
    return anchor(algorithm, b"m" * length, b"f" * length, ignored=b"abc")


def region(*parts):
    """Returns a region of 0x1000 bytes: the parts, and free space."""
    used = len(join(*parts))
    return join(*parts, FreeEntry(0x1000 - used, keeps=b"keep"))


def in_area(parts, anchor_bytes, at=0x40, areas=(FMAP, COREBOOT, BOOT_AREA), size=SIZE):
    """Returns an image whose anchor is at an offset of the area BOOTBLOCK."""
    made = Image(size, list(areas))
    made.put_at(0x1000, region(*parts))
    made.put_at(0x2000, b"\x00" * 0x2000)
    made.put_at(0x2000 + at, anchor_bytes)
    return made


def in_component(parts, content, areas=(FMAP, COREBOOT), **fields):
    """Returns an image whose last component is a bootblock with this content."""
    bootblock = Component(b"bootblock", content, type=BOOTBLOCK, **fields)
    return Image(SIZE, list(areas)).put("COREBOOT", region(*parts, bootblock)), bootblock


class Seal(ProgramTest):
    programs = ("cbfsseal",)

    def seals(self, before, after, command="cbfsseal image.rom", **run):
        """Checks that the image becomes the other one, and that a second run changes nothing."""
        self.check(command, {"image.rom": before}, left={"image.rom": after}, **run)
        folder = self.folder({"image.rom": after})
        done = folder.run("cbfsseal image.rom -v")
        self.compare_run(folder, done, output=done.output)
        self.assertEqual(done.output.count(b" valid\n"), 2, done.output)

    def refused(self, image, message, options=""):
        self.refuses(1, message, f"cbfsseal image.rom {options}", {"image.rom": image})


class Digests(Seal):
    def test_each_algorithm_in_the_area(self):
        for algorithm in HASHES:
            with self.subTest(HASHES[algorithm]):
                parts = [hashed(b"a", algorithm=algorithm), hashed(b"etc/b", b"", algorithm)]
                before = in_area(parts, outdated(algorithm))
                right = sealed_anchor(algorithm, parts, before.map, b"abc")
                self.seals(before.data(), in_area(parts, right).data())

    def test_each_algorithm_in_the_component(self):
        for algorithm in HASHES:
            with self.subTest(HASHES[algorithm]):
                parts = [hashed(b"a", algorithm=algorithm)]
                before, bootblock = in_component(parts, b"\x00" * 9 + outdated(algorithm) + b"code")
                right = sealed_anchor(algorithm, [*parts, bootblock], before.map, b"abc")
                after, _ = in_component(parts, b"\x00" * 9 + right + b"code")
                self.seals(before.data(), after.data())

    def test_the_area_precedes_the_component(self):
        inner = Component(b"bootblock", b"1234" + outdated(SHA256), type=BOOTBLOCK)
        before = in_area([inner], outdated(SHA1))
        right = sealed_anchor(SHA1, [inner], before.map, b"abc")
        self.seals(before.data(), in_area([inner], right).data())

    def test_free_entries_are_left_out(self):
        parts = [FreeEntry(128), hashed(b"a"), FreeEntry(64, type=0), hashed(b"b"), FreeEntry(64)]
        components = [parts[1], parts[3]]
        before = in_area(parts, outdated(SHA256))
        right = sealed_anchor(SHA256, components, before.map, b"abc")
        self.seals(before.data(), in_area(parts, right).data())

    def test_no_component(self):
        before = in_area([], outdated(SHA512))
        right = sealed_anchor(SHA512, [], before.map, b"abc")
        self.assertIn(digest(SHA512, b""), right)
        self.seals(before.data(), in_area([], right).data())

    def test_many_components(self):
        size = 0x40000
        areas = [FMAP, BOOT_AREA, Area("COREBOOT", 0x4000, size)]
        parts = [Component(b"c%d" % number, type=CBFS_HEADER) for number in range(size // 64)]
        before = Image(0x4000 + size, areas).put("COREBOOT", join(*parts))
        before.put("BOOTBLOCK", outdated(SHA256))
        right = sealed_anchor(SHA256, parts, before.map, b"abc")
        after = Image(0x4000 + size, areas).put("COREBOOT", join(*parts)).put("BOOTBLOCK", right)
        self.seals(before.data(), after.data())

    def test_gap_and_padding_before_the_content(self):
        content = b"content"
        part = Component(b"g", content, attributes=[hash_attribute(SHA256, content)], gap=60)
        before = in_area([part], outdated(SHA256))
        right = sealed_anchor(SHA256, [part], before.map, b"abc")
        self.seals(before.data(), in_area([part], right).data())

    def test_the_last_byte_of_a_name_field_counts_as_nul(self):
        digest_of = [hash_attribute(SHA256, b"x")]
        rows = [
            # the part, and the hashed bytes
            (Component(b"abc", b"x", CBFS_HEADER, gap=3), b"abc\x00\xff\xff\x00"),
            (Component(b"", b"x", CBFS_HEADER, name_field=b"a\x00bcd"), b"a\x00bc\x00"),
            (Component(b"", b"x", RAW, digest_of, name_field=b"a\x00bc"),
             b"a\x00b\x00" + digest_of[0]),
        ]
        for part, end in rows:
            with self.subTest(end):
                before = in_area([part], outdated(SHA256))
                value = digest(SHA256, part.head + end)
                right = anchor(SHA256, value, digest(SHA256, before.map), b"abc")
                self.seals(before.data(), in_area([part], right).data())

    def test_flashmap_behind_other_bytes(self):
        areas = [Area("FMAP", 0x333, 0x200), COREBOOT, BOOT_AREA]
        before = in_area([], outdated(SHA256), areas=areas)
        right = sealed_anchor(SHA256, [], before.map, b"abc")
        self.seals(before.data(), in_area([], right, areas=areas).data())

    def test_digests_and_states_are_printed(self):
        parts = [hashed(b"a")]
        before = in_area(parts, outdated(SHA256))
        metadata, table = metadata_digest(SHA256, parts), digest(SHA256, before.map)
        after = in_area(parts, anchor(SHA256, metadata, table, b"abc"))
        lines = f"metadata sha256 {metadata.hex()} %s\nflashmap sha256 {table.hex()} %s\n"
        run = {"image.rom": before.data()}
        left = {"image.rom": after.data()}
        self.check("cbfsseal -v image.rom", run, 0, lines % ("renewed", "renewed"), "", left)
        run = {"image.rom": after.data()}
        self.check("cbfsseal image.rom -v", run, 0, lines % ("valid", "valid"))
        half = in_area(parts, anchor(SHA256, metadata, b"f" * 32, b"abc"))
        run = {"image.rom": half.data()}
        self.check("cbfsseal image.rom -v", run, 0, lines % ("valid", "renewed"), "", left)


class Places(Seal):
    def sealed_at(self, at, area_size=0x2000):
        areas = [FMAP, COREBOOT, Area("BOOTBLOCK", 0x2000, area_size)]
        before = in_area([], outdated(SHA256), at, areas)
        right = sealed_anchor(SHA256, [], before.map, b"abc")
        self.seals(before.data(), in_area([], right, at, areas).data())

    def test_first_and_last_place(self):
        self.sealed_at(0)
        self.sealed_at(0x2000 - 76)
        self.sealed_at(0, area_size=76)

    def test_across_the_pieces_of_the_search(self):
        for at in (241, 242, 248, 249, 250, 255, 256, 257, 497, 498, 4088, 4095, 4096, 4097):
            with self.subTest(at):
                self.sealed_at(at)

    def test_two_magics(self):
        parts = [hashed(b"a")]
        second = outdated(SHA512)
        before = in_area(parts, outdated(SHA256)).put_at(0x2800, second)
        right = sealed_anchor(SHA256, parts, before.map, b"abc")
        self.seals(before.data(), in_area(parts, right).put_at(0x2800, second).data())

    def test_a_beginning_of_the_magic(self):
        before = in_area([], ANCHOR_MAGIC[:7] + outdated(SHA256))
        right = sealed_anchor(SHA256, [], before.map, b"abc")
        self.seals(before.data(), in_area([], ANCHOR_MAGIC[:7] + right).data())


class Refusals(Seal):
    def test_map_and_region(self):
        made = in_area([], outdated(SHA256))
        self.refused(made.data().replace(b"__FMAP__", b"__FMAX__"), "no FMAP")
        areas = [FMAP, BOOT_AREA, Area("RW", 0x1000, 0x1000)]
        self.refused(Image(SIZE, areas).data(), "no such region")
        areas = [FMAP, BOOT_AREA, Area("COREBOOT", 0x1000, 0x4000)]
        self.refused(Image(SIZE, areas).data(), "region outside the image")
        areas = [FMAP, COREBOOT, Area("BOOTBLOCK", 0x2000, 0x2001)]
        self.refused(Image(SIZE, areas).data(), "region outside the image")

    def test_damage(self):
        areas = [FMAP, BOOT_AREA, Area("COREBOOT", 0x1000, 0xFF0)]
        made = in_area([], outdated(SHA256), areas=areas)
        self.refused(made.data(), "bad region size")
        blank = in_area([], outdated(SHA256)).put_at(0x1000, b"\xff" * 0x1000)
        self.refused(blank.data(), "not a CBFS region")
        parts = [hashed(b"a"), Component(b"d", b"data", offset=24)]
        self.refused(in_area(parts, outdated(SHA256)).data(), "damaged entry at 0x80: offset")

    def test_no_anchor(self):
        self.refused(in_area([], b"").data(), "no anchor")
        self.refused(in_component([], b"code")[0].data(), "no anchor")
        self.refused(Image(SIZE, [FMAP, COREBOOT]).put("COREBOOT", region()).data(), "no anchor")
        inner = Component(b"bootblock", b"1234" + outdated(SHA256), type=BOOTBLOCK)
        self.refused(in_area([inner], b"").data(), "no anchor")
        wrong = Component(b"bootblock", b"1234" + outdated(SHA256), type=RAW)
        made = Image(SIZE, [FMAP, COREBOOT]).put("COREBOOT", region(wrong))
        self.refused(made.data(), "no anchor")

    def test_only_the_first_component_of_the_name(self):
        first = Component(b"bootblock", b"1234", type=BOOTBLOCK)
        made, _ = in_component([first], b"1234" + outdated(SHA256))
        self.refused(made.data(), "no anchor")

    def test_unknown_algorithm(self):
        for number in (0, 6, 9, 255):
            with self.subTest(number):
                made = in_area([], ANCHOR_MAGIC + b"abc" + bytes((number,)) + b"x" * 128)
                self.refused(made.data(), "unknown algorithm of the anchor")

    def test_anchor_cut_off(self):
        for algorithm in HASHES:
            length = 12 + 2 * LENGTHS[algorithm]
            made = in_area([], outdated(algorithm)[: length - 1], 0x2000 - length + 1)
            self.refused(made.data(), "anchor cut off")
        for rest in (8, 11, 12):
            made = in_area([], outdated(SHA256)[:rest], 0x2000 - rest)
            self.refused(made.data(), "anchor cut off")
        made, _ = in_component([], b"1234" + outdated(SHA256)[:-1])
        self.refused(made.data(), "anchor cut off")

    def test_anchor_in_what_it_covers(self):
        message = "anchor inside the flash map or COREBOOT"
        areas = [FMAP, COREBOOT, Area("BOOTBLOCK", 0x1800, 0x2000)]
        made = Image(SIZE, areas).put("COREBOOT", region()).put_at(0x1F00, outdated(SHA256))
        self.refused(made.data(), message)
        areas = [FMAP, COREBOOT, Area("BOOTBLOCK", 0, 0x200)]
        made = Image(SIZE, areas, map_at=0x40).put("COREBOOT", region())
        made.put_at(0, outdated(SHA256)[:0x40])
        self.refused(made.data(), message)

    def test_headers_with_a_digest(self):
        message = ("bootblock with a header that may have a digest of its own: "
                   "use coreboot's cbfstool")
        for start in (b"\x7fELF", b"\xd1\xdc\x4b\x84"):
            made = in_area([], outdated(SHA256)).put_at(0x2000, start)
            self.refused(made.data(), message)
            self.refused(in_component([], start + outdated(SHA256))[0].data(), message)

    def test_metadata_of_256_and_257_bytes(self):
        fine, long = hashed(b"n" * 187), hashed(b"n" * 187, gap=1)
        self.assertEqual((len(fine.metadata), len(long.metadata)), (256, 257))
        before = in_area([fine], outdated(SHA256))
        right = sealed_anchor(SHA256, [fine], before.map, b"abc")
        self.seals(before.data(), in_area([fine], right).data())
        message = f"metadata longer than 256 bytes at 0x0: {'n' * 187}"
        self.refused(in_area([long], outdated(SHA256)).data(), message)
        self.refused(in_area([long], outdated(SHA256)).data(), message, "--allow-unhashed")

    def test_components_without_the_digest(self):
        message = "no digest of the anchor's algorithm at 0x80: a\\x20b"
        for part in (Component(b"a b"), hashed(b"a b", algorithm=SHA512)):
            made = in_area([hashed(b"x"), part], outdated(SHA256))
            self.refused(made.data(), message)
            right = sealed_anchor(SHA256, [hashed(b"x"), part], made.map, b"abc")
            self.seals(made.data(), in_area([hashed(b"x"), part], right).data(),
                       "cbfsseal --allow-unhashed image.rom")

    def seals(self, before, after, command="cbfsseal image.rom", **run):
        self.check(command, {"image.rom": before}, left={"image.rom": after}, **run)

    def test_types_without_a_digest(self):
        parts = [Component(b"h", b"x", type=CBFS_HEADER), Component(b"b", b"x", type=BOOTBLOCK)]
        before = in_area(parts, outdated(SHA256))
        right = sealed_anchor(SHA256, parts, before.map, b"abc")
        self.seals(before.data(), in_area(parts, right).data())

    def test_bootblock_with_a_digest(self):
        content = b"1234" + outdated(SHA256)
        made, _ = in_component([], content, attributes=[hash_attribute(SHA256, content)])
        message = "bootblock with a stored digest at 0x0: bootblock"
        self.refused(made.data(), message)
        self.refused(made.data(), message, "--allow-unhashed")


class CommandLine(Seal):
    def test_bad_lines(self):
        message = "bad command line (see cbfsseal --help)"
        lines = (
            "-x image.rom", "image.rom other.rom", "-v", "-v -v image.rom", "-v=1 image.rom",
            "-vv image.rom", "--verbose image.rom", "--allow-unhashed",
            "--allow-unhashed image.rom --allow-unhashed", "--allow-unhashed=true image.rom",
            "--", "image.rom -- -v", "-- image.rom image.rom", "--- image.rom",
        )
        for line in lines:
            with self.subTest(line):
                self.refuses(2, message, f"cbfsseal {line}", {"image.rom": b"x"})

    def test_usage_help_and_version(self):
        self.check("cbfsseal", status=2, message=USAGE)
        self.check("cbfsseal --version", output="cbfsseal 3.2\n")
        self.check("cbfsseal -x --version --help", output="cbfsseal 3.2\n")
        for line in ("-h", "--help", "image.rom --help", "-v -h --version", "-h -- --version"):
            with self.subTest(line):
                done = self.folder().run(f"cbfsseal {line}")
                self.assertEqual((done.status, done.message), (0, b""))
                self.assertTrue(done.output.startswith(USAGE.encode().split(b"\n")[0]))
                self.assertTrue(done.output.endswith(b"\nExample: cbfsseal coreboot.rom\n"))

    def test_paths_that_look_like_options(self):
        made = in_area([], outdated(SHA256))
        right = in_area([], sealed_anchor(SHA256, [], made.map, b"abc")).data()
        for line, name in (("-- --help", "--help"), ("-", "-"), ("-- -v", "-v"), ("-- --", "--"),
                           ("--allow-unhashed -- -x", "-x")):
            with self.subTest(line):
                self.check(f"cbfsseal {line}", {name: made.data()}, left={name: right})

    def test_missing_image(self):
        self.refuses(1, "device fault", "cbfsseal none.rom")


if __name__ == "__main__":
    unittest.main()
