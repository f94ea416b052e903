"""cbfscheck with long arguments, with many needs, and with a counted number of reads."""

import json
import unittest

from tests.image import RAW, Area, Component, FreeEntry, Image, join
from tests.programs import HAS_COMPILER, TOP, Faults, ProgramTest

FMAP = Area("FMAP", 0, 0x200)
COUNT = 100
NAMES = [f"etc/c{number}" for number in range(COUNT)]
SIZE = COUNT * 64 + 0x400


def board(names=NAMES):
    """Returns an image with a component for each name, each in a cell of 64 bytes."""
    cells = [Component(name.encode(), b"data", type=RAW) for name in names]
    free = SIZE - 64 * len(cells)
    made = Image(0x1000 + SIZE, [FMAP, Area("COREBOOT", 0x1000, SIZE)])
    return made.put("COREBOOT", join(*cells, FreeEntry(free, keeps=b"\xff" * 4))).data()


def needs(names):
    """Returns the value of --need for these components of COREBOOT."""
    return ",".join(f"COREBOOT:{name}" for name in names)


class Check(ProgramTest):
    programs = ("cbfscheck",)

    def rows(self, command, files, status):
        """Returns the rows of a report with the JSON document's."""
        run = self.folder(files).run(command)
        self.assertEqual((run.status, run.message), (status, b""))
        return json.loads(run.output)


class LongPaths(Check):
    """The document names an image by the path of the command line, whatever its length is."""

    def test_lengths(self):
        for length in (9, 254, 255, 256, 257, 1023, 1024, 1025, 4000):
            with self.subTest(length):
                count, rest = divmod(length - len("image.rom"), 2)
                path = "./" * count + "/" * rest + "image.rom"
                if rest and not count:
                    continue
                self.assertEqual(len(path), length)
                found = self.rows(["cbfscheck", "--json", path], {"image.rom": board()}, 0)
                self.assertEqual(found["image"], path)

    def test_two_images(self):
        old, new = "./" * 1996 + "old.rom", "./" * 1996 + "new.rom"
        files = {"old.rom": board(), "new.rom": board()}
        found = self.rows(["cbfscheck", "--json", old, new], files, 0)
        self.assertEqual((found["old"], found["image"]), (old, new))

    def test_characters_that_json_escapes(self):
        path = "a\"b\\c\n" + "\u00fc" * 100 + ".rom"
        run = self.folder({path: board()}).run(["cbfscheck", "--json", path])
        self.assertEqual((run.status, run.message), (0, b""))
        self.assertEqual(json.loads(run.output)["image"], path)

    def test_path_that_is_too_long(self):
        path = "./" * 2100 + "image.rom"
        self.check(["cbfscheck", "--json", path], {"image.rom": board()}, 2, b"",
                   f"cbfscheck: {path}: device fault\n")


class Needs(Check):
    """Each of many needs is checked."""

    def test_a_hundred_needs(self):
        rows = self.rows(["cbfscheck", "--json", "--need", needs(NAMES), "image.rom"],
                         {"image.rom": board()}, 0)
        self.assertEqual(rows["bad"], 0)

    def missing(self, missing, wanted=NAMES):
        """Checks that exactly these components are reported as missing, in order."""
        names = [name for name in NAMES if name not in missing]
        document = self.rows(["cbfscheck", "-v", "--json", "--need", needs(wanted), "image.rom"],
                             {"image.rom": board(names)}, 1)
        found = [row for row in document["rows"] if row["verdict"] == "bad"]
        self.assertEqual([row["component"] for row in found], missing)
        self.assertEqual({row["code"] for row in found}, {"need-missing"})
        self.assertEqual({row["area"] for row in found}, {"COREBOOT"})
        self.assertEqual(document["bad"], len(missing))

    def test_each_need_is_the_one_that_fails(self):
        for number in (0, 1, 7, 8, 9, 15, 16, 17, 31, 32, 63, 64, 98, 99):
            with self.subTest(number):
                self.missing([NAMES[number]])

    def test_the_ninth_of_nine(self):
        self.missing([NAMES[8]], NAMES[:9])

    def test_all_needs_fail(self):
        self.missing(NAMES)

    def test_more_needs_than_rows(self):
        run = self.folder({"image.rom": board([])}).run(
            ["cbfscheck", "--need", needs(NAMES), "image.rom"])
        lines = run.output.decode().splitlines()
        self.assertEqual(sum("\tmore of these\t" not in line and line.startswith("bad")
                             for line in lines), 16)
        self.assertIn("84", [line.split("\t")[-1] for line in lines if "more of these" in line])
        self.assertEqual(lines[-1].split(",")[0], "not sound: 100 bad")

    def test_many_bytes_of_needs(self):
        names = [f"{number:0120}" for number in range(1000)]
        document = self.rows(["cbfscheck", "-v", "--json", "--need", needs(names), "image.rom"],
                             {"image.rom": board()}, 1)
        self.assertEqual(document["bad"], 1000)


# The numbers of reads of each sample: of a check, of a check with -r COREBOOT,FW_MAIN_A, and of OLD
# and NEW in a check of the sample and a copy of it. A check reads the image once from the start to
# the end, the first 4096 bytes by one call and then 16,384 bytes by a call; and each area with a
# CBFS again, from its entries on. It reads the entries of COREBOOT and of the slots once more for
# the structures of the board. The last sample has four areas for such structures, which are blank.
# Of an old image it reads the map, the anchor and the structures, and what it compares.
# A list reads the components of each area once more. Those of the samples are still in the buffer.
READS = [
    ("created.rom", 1, 1, 1, 1),
    ("hashes.rom", 9, 9, 13, 16),
    ("packed.rom", 9, 9, 13, 16),
    ("types.rom", 16, 17, 33, 37),
]
OPTIONS = ["", "-v --list --json", "--all-hashed", "--need COREBOOT:bootblock@end"]


@unittest.skipUnless(HAS_COMPILER, "cc")
class Reads(Check):
    """A check makes a stated number of reads. Without a list, no option changes it."""

    def reads(self, sample, command, file):
        """Returns the number of reads of a file in a command on a sample and its copy."""
        data = (TOP / "samples" / sample).read_bytes()
        faults = Faults(file)
        self.folder({"image.rom": data, "old.rom": data}).run(command, faults=faults)
        return sum(call.name == "read" for call in faults.calls)

    def test_one_image(self):
        for sample, expected, with_areas, _, _ in READS:
            for options in OPTIONS:
                with self.subTest(sample, options=options):
                    seen = self.reads(sample, f"cbfscheck {options} image.rom", "image.rom")
                    self.assertEqual(seen, expected)
            with self.subTest(sample, options="-r"):
                command = "cbfscheck -r COREBOOT,FW_MAIN_A image.rom"
                self.assertEqual(self.reads(sample, command, "image.rom"), with_areas)

    def test_a_list(self):
        """Only a list reads contents without a digest: eight of 8192 bytes, after their heads."""
        cells = join(*(Component(b"c%d" % number, bytes(8192)) for number in range(8)))
        image = Image(0x20000, [FMAP, Area("COREBOOT", 0x1000, 0x1F000)]).put("COREBOOT", cells)
        for options, expected in [("", 40), ("-v --json", 40), ("--list", 45),
                                  ("--list --json", 45)]:
            with self.subTest(options):
                faults = Faults("image.rom")
                folder = self.folder({"image.rom": image.data()})
                folder.run(f"cbfscheck {options} image.rom", faults=faults)
                self.assertEqual(sum(call.name == "read" for call in faults.calls), expected)

    def test_two_images(self):
        command = "cbfscheck old.rom image.rom"
        for sample, _, _, old, new in READS:
            with self.subTest(sample):
                seen = [self.reads(sample, command, file) for file in ("old.rom", "image.rom")]
                self.assertEqual(seen, [old, new])


if __name__ == "__main__":
    unittest.main()
