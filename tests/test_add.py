"""add: the place and the bytes of a new component, in sample images and in small regions."""

import unittest

from tests.image import (
    BOOTBLOCK, DELETED, NULL, RAW, SHA256, SHA512, Area, Component, FreeEntry, Image, empty_region,
    hash_attribute, head, join, region,
)
from tests.programs import ProgramTest, if_memory_can_be_refused
from tests.regions import listing, with_component, without_component
from tests.samples import Sample
from tests.texts import TYPES

SPD = 0xAB
UNKNOWN = 0x1234
NUMBERED = "".join(f"{number}\n" for number in range(1, 20001)).encode()
FILES = {
    "ten": b"0123456789", "abc": b"abc", "none": b"", "some": NUMBERED[:5000],
    "large": NUMBERED[:100000],
    # (a content that begins like an entry, and stands where one may begin)
    "magic": b"LARCHIVE 9abcdefghij",
}
LONGEST = b"0" * 126 + b"1"
KEEP = b"KEEP"


def new(name, content, algorithm=None, **fields):
    """Returns a component with the content of a file, and a digest if an algorithm is given."""
    hashes = [hash_attribute(algorithm, FILES[content])] if algorithm else []
    return Component(name, FILES[content], attributes=hashes, **fields)


class AddTest(ProgramTest):
    """Compares the image after an addition."""

    programs = ("cbfstool",)

    def adds(self, folder, name, words, image):
        """Checks that an addition leaves this image."""
        self.check(["cbfstool", "image.rom", "add", "-n", name.decode(), *words.split()], folder,
                   left={"image.rom": image})

    def add_to(self, sample, *added):
        """Adds components to a sample, lists and extracts each, and removes all of them.

        Each row has the position, that of the content, the component and the arguments.
        """
        folder = self.folder({**FILES, "image.rom": sample.image})
        data = sample.region_bytes()
        for position, content_at, component, words in added:
            with self.subTest(component.name):
                self.assertEqual(position + component.content_offset, content_at)
                data = with_component(data, position, component)
                self.adds(folder, component.name, words, sample.with_region(data))
                self.check("cbfstool image.rom print", folder, output=listing(data))
                self.check(["cbfstool", "image.rom", "extract", "-n", component.name.decode(),
                            "-f", "out"], folder,
                           left={"out": component.bytes[component.content_offset :][
                               : component.length]})
        for *_, component, _ in added:
            with self.subTest(component.name):
                data = without_component(data, component.name)
                self.check(["cbfstool", "image.rom", "remove", "-n", component.name.decode()],
                           folder, left={"image.rom": sample.with_region(data)})
                self.check("cbfstool image.rom print", folder, output=listing(data))
        return data


class Samples(AddTest):
    """Additions to the images of samples/. The positions are counted by hand."""

    def test_a_small_region(self):
        self.add_to(
            Sample("created", keep=KEEP),
            (0, 0x1C, new(b"ten", "ten"), "-t raw -f ten"),
            (0x40, 0x60, new(b"none", "none", type=SPD), "-t spd -f none"),
        )

    def test_gaps_and_digests(self):
        data = self.add_to(
            Sample("hashes", keep=KEEP),
            (0x1C0, 0x1DC, new(b"ten", "ten"), "-t raw -f ten"),
            (0x200, 0x220, new(b"none", "none"), "-t raw -f none"),
            (0x440, 0x460, new(b"some", "some"), "-t raw -f some"),
            (0x240, 0x280, new(b"64", "magic", gap=36), "-t raw -f magic -a 64"),
            (0x2C0, 0x300, new(b"a256", "ten", gap=32), "-t raw -f ten -a 256"),
            (0x1FC0, 0x2000, new(b"a/4K", "ten", gap=32), "-t raw -f ten -a 0x1000"),
            (0x2FC0, 0x3000, new(b"b", "ten", gap=36), "-t raw -f ten -b 0x3000"),
            # (the content covers the last four bytes)
            (0x3FC0, 0x3FF6, new(b"last", "ten", gap=22), "-t raw -f ten -b 16374"),
            (0x1800, 0x184C, new(b"h/256", "abc", SHA256), "-t raw -f abc -A sha256"),
            (0x1880, 0x1900, new(b"h/512", "abc", SHA512, gap=20), "-t raw -f abc -A sha512 -a 64"),
            (0x340, 0x35C, new(b"1", "ten"), "-t raw -f ten"),
            # (the longest metadata and gap)
            (0x1C00, 0x1D23, new(LONGEST, "ten", SHA512, gap=63),
             "-t raw -f ten -A sha512 -b 0x1d23"),
            (0x1940, 0x1960, new("a bü".encode(), "ten"), "-t raw -f ten"),
        )
        self.assertEqual(listing(data).encode(), Sample("hashes").listing)
        self.assertEqual(data[-4:], b"6789")

    def test_a_region_with_compressed_components(self):
        self.add_to(Sample("packed", keep=KEEP), (
            0x9C0, 0xA2C, new(b"sha512", "some", SHA512), "-t raw -f some -A sha512"))

    def test_the_longest_name(self):
        self.add_to(Sample("types", keep=KEEP), (
            0x4C0, 0x558, new(LONGEST, "ten"), "-t raw -f ten"))

    def test_a_region_that_begins_at_no_multiple_of_4096(self):
        sample = Sample("types", "FW_MAIN_A")
        sample.image = sample.with_region(empty_region(sample.region.size, keeps=KEEP))
        folder = self.folder({**FILES, "image.rom": sample.image})
        data = with_component(sample.region_bytes(), 0xFC0, new(b"a", "ten", gap=36))
        self.adds(folder, b"a", "-r FW_MAIN_A -t raw -f ten -a 4096", sample.with_region(data))

    @staticmethod
    def large(components):
        """Returns an image whose region of 128 KiB has these components, by their positions."""
        size = 0x20000
        image = Image(512 + size, [Area("FMAP", 0, 512), Area("COREBOOT", 512, size)])
        return image.put("COREBOOT", region(size, components, KEEP)).data()

    def test_digests_of_long_and_empty_contents(self):
        long = {0: new(b"l/256", "large", SHA256)}
        self.adds(self.folder({**FILES, "image.rom": self.large({})}), b"l/256",
                  "-t raw -f large -A sha256", self.large(long))
        folder = self.folder({**FILES, "image.rom": self.large({})})
        components = {}
        for position, name, content, algorithm, words in [
            (0, b"l/512", "large", SHA512, "-t raw -f large -A sha512"),
            (0x18740, b"a/256", "abc", SHA256, "-t raw -f abc -A sha256"),
            (0x187C0, b"a/512", "abc", SHA512, "-t raw -f abc -A sha512"),
            (0x18840, b"e/256", "none", SHA256, "-t raw -f none -A sha256"),
            (0x188C0, b"e/512", "none", SHA512, "-t raw -f none -A sha512"),
        ]:
            with self.subTest(name):
                components[position] = new(name, content, algorithm)
                self.adds(folder, name, words, self.large(components))


class SmallRegions(AddTest):
    """A region of 512 bytes, on both sides of each limit."""

    A = Component(b"a", b"0123456789")
    AREAS = [Area("FMAP", 0, 512), Area("COREBOOT", 512, 512), Area("REST", 1024, 3072)]

    @classmethod
    def image(cls, data):
        """Returns an image with this region; missing bytes are 0xff."""
        return Image(4096, cls.AREAS).put("COREBOOT", data.ljust(512, b"\xff")).data()

    def becomes(self, before, after, words, content, name=b"b"):
        """Checks the region after the addition of this content."""
        folder = self.folder({"source": content, "image.rom": self.image(before)})
        self.adds(folder, name, f"-t raw -f source {words}", self.image(after))

    def has_no_space(self, before, words, length):
        """Checks that a content of this length has no room."""
        files = {"source": b"a" * length, "image.rom": self.image(before)}
        self.refuses(1, "no space", f"cbfstool image.rom add -n b -t raw -f source {words}", files)

    EMPTY = FreeEntry(512, keeps=b"last").bytes

    with_room = [
        # position, that of the content, length of the content, last four bytes, arguments
        (0, 0x1C, 480, b"last", ""),
        (0, 0x1C, 480, b"last", "-a 1"),
        (0, 0x1C, 480, b"last", "-a 4"),
        (0, 0x1D, 479, b"last", "-a 29"),
        (0, 0x40, 444, b"last", "-a 64"),
        (0x1C0, 0x1E0, 28, b"last", "-a 480"),
        (0x1C0, 0x1FC, 0, b"last", "-a 508"),
        (0x1C0, 0x1FC, 0, b"last", "-b 508"),
        # (the content, or the gap before it, covers some of the last four bytes)
        (0x1C0, 0x1FB, 2, b"aast", "-b 507"),
        (0x1C0, 0x200, 0, b"\xff\xff\xff\xff", "-b 512"),
        (0, 0x28, 472, b"aaaa", "-b 40"),
        (0, 0x1C, 484, b"aaaa", "-b 28"),
    ]

    def test_content_that_has_room(self):
        for position, content_at, length, last, words in self.with_room:
            with self.subTest(words, length=length):
                content = b"a" * length
                component = Component(b"b", content, gap=content_at - position - 28)
                after = with_component(self.EMPTY, position, component)
                self.assertEqual(after[-4:], last)
                self.becomes(self.EMPTY, after, words, content)

    def test_hashed_content_that_has_room(self):
        for length, words, algorithm in [(436, "-A sha256", SHA256), (404, "-A sha512", SHA512)]:
            with self.subTest(words):
                content = b"a" * length
                component = Component(b"b", content,
                                      attributes=[hash_attribute(algorithm, content)])
                after = with_component(self.EMPTY, 0, component)
                self.assertEqual(after[-4:], b"last")
                self.becomes(self.EMPTY, after, words, content)

    without_room = [
        # length of the content, arguments
        (481, ""), (481, "-a 1"), (481, "-a 4"), (480, "-a 29"), (445, "-a 64"), (29, "-a 480"),
        (0, "-a 509"), (0, "-b 513"), (473, "-b 40"), (485, "-b 28"), (0, "-b 27"),
        (437, "-A sha256"), (405, "-A sha512"),
    ]

    def test_content_that_has_no_room(self):
        for length, words in self.without_room:
            with self.subTest(words, length=length):
                self.has_no_space(self.EMPTY, words, length)

    # Free space of 64 bytes, a component, and free space as coreboot writes it.
    X = Component(b"x", b"22", name_field=b"x".ljust(16, b"\0"))
    COREBOOT_SPACE = (head(340, NULL, 0, 40) + bytes(16)).ljust(384, b"\xff")
    TWO_RUNS = join(FreeEntry(64), X, COREBOOT_SPACE)

    runs = [
        # position, that of the content, length of the content, arguments
        (0, 0x1C, 36, ""), (0x80, 0x9C, 37, ""), (0, 0x20, 32, "-a 32"), (0x80, 0xA0, 33, "-a 32"),
        (0, 0x24, 28, "-b 36"),
    ]

    def test_the_lowest_run_with_room(self):
        for position, content_at, length, words in self.runs:
            with self.subTest(words, length=length):
                content = b"a" * length
                component = Component(b"b", content, gap=content_at - position - 28)
                after = with_component(self.TWO_RUNS, position, component)
                self.becomes(self.TWO_RUNS, after, words, content)
        self.has_no_space(self.TWO_RUNS, "-b 36", 29)

    def test_adjacent_free_cells_are_one_run(self):
        before = join(FreeEntry(64, type=DELETED), FreeEntry(64), self.X)
        after = join(Component(b"b", b"a" * 100), self.X)
        self.becomes(before, after, "", b"a" * 100)
        self.has_no_space(before, "", 101)

    def test_free_space_of_either_form(self):
        space = (head(468, NULL, 0, 40) + bytes(16)).ljust(512, b"\xff")
        for before in (empty_region(512), space):
            self.becomes(before, join(self.A, empty_region(448)), "", b"0123456789", b"a")

    def test_free_space_on_both_sides(self):
        before, magic = join(self.A, empty_region(448)), b"LARCHIVE89abcdefghij"
        component = Component(b"b", magic, gap=36)
        for words, content, after in [
            ("-a 64", magic, [component, empty_region(320)]),
            ("-a 256", magic, [FreeEntry(128), component, empty_region(192)]),
            ("-b 0x1f0", magic[:16], [FreeEntry(384), Component(b"b", magic[:16], gap=20)]),
        ]:
            with self.subTest(words):
                self.becomes(before, join(self.A, *after), words, content)

    def test_bytes_after_the_entries_stay(self):
        space = (head(344, NULL, 0, 40) + bytes(16)).ljust(384, b"\xff")
        tail = b"\xff" * 12 + b"tail"
        before = join(self.A, space, tail)
        for words in ("", "-a 1", "-a 4", "-b 92"):
            with self.subTest(words):
                self.has_no_space(before, words, 357)
                self.becomes(before, join(self.A, Component(b"b", b"a" * 356), tail), words,
                             b"a" * 356)

    def test_an_unused_tail_is_no_space(self):
        sample = Sample("hashes", keep=KEEP)
        before = bytearray(sample.region_bytes())
        before[0x440:0x448] = b"\xff" * 8
        files = {**FILES, "image.rom": sample.with_region(bytes(before))}
        self.refuses(1, "no space", "cbfstool image.rom add -n some -t raw -f some", files)
        after = with_component(bytes(before), 0x1C0, new(b"ten", "ten"))
        self.adds(self.folder(files), b"ten", "-t raw -f ten", sample.with_region(after))

    def test_the_gap_covers_the_last_bytes(self):
        for last in (b"\xff\xff\xff\xff", b"last"):
            before = empty_region(512, keeps=last)
            self.has_no_space(before, "-b 510", 3)
            self.becomes(before, join(FreeEntry(448), Component(b"b", b"QQ", gap=34)), "-b 510",
                         b"QQ")

    def test_a_region_that_is_filled(self):
        """All but the last four bytes of a region, and all of a run in the middle of one."""
        sample = Sample("types", keep=KEEP)
        folder = self.folder({"source": NUMBERED[:736], "image.rom": sample.image})
        after = with_component(sample.region_bytes(), 0x4C0, Component(b"fill", NUMBERED[:736]))
        self.adds(folder, b"fill", "-t raw -f source", sample.with_region(after))
        before = join(Component(b"ten", b"0123456789"), Component(b"none"),
                      FreeEntry(384, keeps=KEEP))
        full = Component(b"fit", NUMBERED[:352], type=UNKNOWN).bytes
        folder = self.folder({"source": NUMBERED[:352], "image.rom": self.image(before)})
        self.has_no_space(before, "", 353)
        self.adds(folder, b"fit", f"-t {UNKNOWN} -f source",
                  self.image(before[:128] + full[:-4] + KEEP))
        self.refuses(1, "no space", "cbfstool image.rom add -n full -t raw -f source", folder)

    def test_the_longest_name(self):
        name = "n" * 127
        folder = self.folder({**FILES, "image.rom": self.image(empty_region(512))})
        self.refuses(1, "bad name", f"cbfstool image.rom add -n n{name} -t raw -f ten", folder)
        after = join(Component(name.encode(), b"0123456789"), empty_region(320))
        self.adds(folder, name.encode(), "-t raw -f ten", self.image(after))
        self.refuses(1, "component exists", f"cbfstool image.rom add -n {name} -t raw -f ten",
                     folder)


class Types(AddTest):
    """The type of a component, as a name or a number."""

    def adds_type(self, type, number):
        """Checks the number that is stored, and the name or number that is printed."""
        with self.subTest(type):
            sample = Sample("types", keep=KEEP)
            component = new(b"t", "ten", type=number)
            after = with_component(sample.region_bytes(), 0x4C0, component)
            folder = self.folder({"ten": FILES["ten"], "image.rom": sample.image})
            self.check(["cbfstool", "image.rom", "add", "-n", "t", "-f", "ten", "-t", type], folder,
                       left={"image.rom": sample.with_region(after)})
            self.check("cbfstool image.rom print", folder, output=listing(after))

    def test_names(self):
        for number, name in TYPES.items():
            if number not in (DELETED, NULL):
                self.adds_type(name, number)

    numbers = [
        ("171", SPD), ("0xab", SPD), ("0xAB", SPD), ("0x00000000ab", SPD), ("000000000171", SPD),
        ("80", RAW), ("0x1Aa", 0x1AA), ("000000000000000000009", 9), ("1", BOOTBLOCK),
        ("0x00000000000000AFaf", 0xAFAF), ("4294967294", 0xFFFFFFFE), ("0xfffffffe", 0xFFFFFFFE),
    ]

    def test_numbers(self):
        for text, number in self.numbers:
            self.adds_type(text, number)


class Refusals(AddTest):
    """Additions that are refused change nothing."""

    rows = [
        # refusal, arguments
        ("component exists", "-n gap -t raw -f ten"),
        ("component exists", "-n gap -t raw -f large"),
        ("component exists", "-n gap -t raw -f ten -b 0"),
        ("no space", "-n a -t raw -f large"),
        ("no space", "-n a -t raw -f ten -a 0x8000"),
        ("no space", "-n a -t raw -f ten -a 4294967295"),
        ("no space", "-n a -t raw -f ten -b 0"),
        ("no space", "-n a -t raw -f ten -b 0x1db"),
        ("no space", "-n a -t raw -f ten -b 0x377"),
        ("no space", "-n a -t raw -f ten -b 0x3ff7"),
        ("no space", "-n a -t raw -f ten -b 4294967295"),
        ("bad name", "-n '' -t raw -f ten"),
        ("bad name", f"-n {'0' * 128} -t raw -f ten"),
        ("bad name", "-n '' -t 0 -f ten"),
        ("bad type", "-n a -t 0 -f ten"),
        ("bad type", "-n a -t deleted -f ten"),
        ("bad type", "-n a -t null -f ten"),
        ("bad type", "-n a -t 0xffffffff -f ten"),
        ("bad type", "-n a -t 4294967295 -f ten"),
        ("bad alignment", "-n a -t raw -f ten -a 0"),
        ("bad alignment", "-n a -t raw -f ten -a 0x0"),
        ("no such region", "-r ABSENT -n a -t raw -f ten"),
        ("not a CBFS region", "-r SMMSTORE -n a -t raw -f ten"),
        ("source fault", "-n a -t raw -f absent"),
        ("source fault", "-n a -t raw -f folder"),
        ("source fault", "-n a -t raw -f /dev/null"),
        ("source fault", "-n a -t raw -f /dev/stdin"),
    ]

    def test_refusals(self):
        files = {**FILES, "folder/file": b"", "image.rom": Sample("hashes").image}
        for refusal, words in self.rows:
            with self.subTest(words):
                self.refuses(1, refusal, f"cbfstool image.rom add {words}", files, stdin=b"hello")

    lines = [
        "-n a -t raw -f ten -a 64 -b 64", "-n a -t raw -f ten -a ''", "-n a -t raw -f ten -a 1K",
        "-n a -t raw -f ten -a +1", "-n a -t raw -f ten -a=-1", "-n a -t raw -f ten -a 0x",
        "-n a -t raw -f ten -a 0X40", "-n a -t raw -f ten -a 1a",
        "-n a -t raw -f ten -a 4294967296", "-n a -t raw -f ten -b 0x100000000",
        "-n a -t raw -f ten -b 18446744073709551680", "-n a -t raw -f ten -b 0xg",
        *(f"-n a -f ten -t {type}" for type in (
            "''", "Raw", "RAW", "frobnicate", "0x", "0x0g", "0x0G", "0x0@", "'0x0`'", "0X50", "5a",
            "5:", "5/", "' 5'", "1K", "+1", "4294967296", "0x100000000", "0x100000050")),
        "-n a -t raw -f ten -A md5", "-n a -t raw -f ten -A SHA256", "-n a -t raw -f ten -A ''",
        "-n a -t raw", "-n a -f ten", "-t raw -f ten", "-n a -t raw -f ten -n b",
        "-n a -t raw -f ten -t raw", "-n a -t raw -f ten more",
    ]

    def test_bad_command_lines(self):
        files = {**FILES, "image.rom": Sample("hashes").image}
        for words in self.lines:
            with self.subTest(words):
                self.refuses(2, "bad command line", f"cbfstool image.rom add {words}", files)

    def test_images(self):
        small, outside = Sample("created").image, bytearray(Sample("created").image)
        uneven = bytearray(small)
        uneven[102:104], outside[102:105] = b"\xf4\x01", b"\0\0\x01"
        damaged = bytearray(Sample("types").image)
        damaged[0x5800 + 0x48 : 0x5800 + 0x4A] = b"\0\x01"
        cut = Component(b"a", name_field=b"a\0b".ljust(16, b"\0"))
        for title, image, refusal in [
            ("no byte", b"", "no FMAP"), ("ten bytes", b"0123456789", "no FMAP"),
            ("a size that is no multiple of 64", bytes(uneven), "bad region size"),
            ("a region that ends outside", bytes(outside), "region outside the image"),
            ("a damaged entry", bytes(damaged), "damaged entry at 0x40: extent"),
            ("a name that ends at the first NUL of its field",
             SmallRegions.image(join(cut, empty_region(448))), "component exists"),
        ]:
            with self.subTest(title):
                self.refuses(1, refusal, "cbfstool image.rom add -n a -t raw -f ten",
                             {**FILES, "image.rom": image})

    def test_an_image_that_cannot_be_opened(self):
        for path in ("absent", "folder"):
            with self.subTest(path):
                self.refuses(1, "device fault", f"cbfstool {path} add -n a -t raw -f ten",
                             {**FILES, "folder/file": b""})

    @if_memory_can_be_refused
    def test_refused_memory(self):
        """Each request for memory is refused in turn; there are at least 100."""
        sample = Sample("hashes", keep=KEEP)
        after = with_component(sample.region_bytes(), 0x440, new(b"more", "some", SHA256))
        reported, spared = self.refuse_memory(
            "cbfstool image.rom add -n more -t raw -f some -A sha256",
            {**FILES, "image.rom": sample.image}, left={"image.rom": sample.with_region(after)})
        self.assertEqual(spared, [])
        self.assertGreaterEqual(len(reported), 100)


if __name__ == "__main__":
    unittest.main()
