"""The limits of cbfscheck: checked bytes, compared bytes, areas for overlaps, memory and time.

docs/FORMAT.md states the limits. Each limit has images on both sides of it. Maps and regions with
as many rows as possible have a report in little memory and time.
"""

import json
import subprocess
import sys
import unittest

from tests.findings import CheckTest, board, conclusion, free, report
from tests.image import Component, join
from tests.programs import program
from tests.reading import Reading

# The most memory for each MiB of the images, and for any image, in bytes; the most seconds for an
# image of 4 MiB, and for two images of 16 MiB with as many areas as a map can have.
MEMORY_FOR_MIB = 8_000_000
MEMORY_FOR_ANY = 4_000_000
SECONDS = 10
SECONDS_FOR_TWO = 4

MIB = 1 << 20
MAP = "remark|-|-|0x0|flashmap"
UNCHECKED = "isn't checked: checked areas would exceed twice the image"
TOO_MANY = "bad|-|-|-|too many areas to look for overlaps"
# The SHA-256 of `x`, as sha256sum prints it.
X_256 = "2d711642b726b04401627ca9fbac32f5c8530fb1903cc4db02258717921a4881"
# The limit of areas in which overlaps are looked for.
MOST_COMPARED = 4096


class CheckedAreas(CheckTest):
    """Areas of twice the image's length are checked. An area that would exceed that is left out,
    and does not count."""

    def image(self, size):
        """Returns an image of 4096 bytes with two areas of 3072, one of a size, and one of 64."""
        areas = [("FMAP", 0, 0x400), ("A0", 0x400, 0xC00), ("A1", 0x400, 0xC00),
                 ("L", 0x7C0, size), ("E", 0xFC0, 0x40)]
        return board(0x1000, areas, (0x400, free(0xC00)), (0x7C0, free(size)), (0xFC0, free(0x40)))

    def test_the_last_area_fills_the_limit(self):
        self.reports(0, self.image(0x800), """
            remark|-|-|0x0|flashmap
            remark|A0|-|-|complete
            remark|A0|-|-|no components
            remark|A0|-|-|free bytes|3072
            remark|A0|-|-|largest content that add takes|3040
            remark|A1|-|-|complete
            remark|A1|-|-|no components
            remark|A1|-|-|free bytes|3072
            remark|A1|-|-|largest content that add takes|3040
            remark|L|-|-|complete
            remark|L|-|-|no components
            remark|L|-|-|free bytes|2048
            remark|L|-|-|largest content that add takes|2016
            remark|E|-|0xfc0|isn't checked: checked areas would exceed twice the image
            sound: 0 bad, 14 remarks, 0 changes
        """)

    def test_the_last_area_exceeds_the_limit(self):
        self.reports(0, self.image(0x840), """
            remark|-|-|0x0|flashmap
            remark|A0|-|-|complete
            remark|A0|-|-|no components
            remark|A0|-|-|free bytes|3072
            remark|A0|-|-|largest content that add takes|3040
            remark|A1|-|-|complete
            remark|A1|-|-|no components
            remark|A1|-|-|free bytes|3072
            remark|A1|-|-|largest content that add takes|3040
            remark|L|-|0x7c0|isn't checked: checked areas would exceed twice the image
            remark|E|-|-|complete
            remark|E|-|-|no components
            remark|E|-|-|free bytes|64
            remark|E|-|-|largest content that add takes|32
            sound: 0 bad, 14 remarks, 0 changes
        """)


class Overlaps(CheckTest):
    """Overlaps are looked for in a map of 4096 areas, and in no larger one."""

    def image(self, count):
        """Returns an image with so many areas of one byte, and two that overlap."""
        areas = [("FMAP", 0, 0x40000), *((f"P{n}", 0x40000 + n, 1) for n in range(count)),
                 ("A", 0x40000 + count, 2), ("B", 0x40001 + count, 2)]
        return board(0x42000, areas)

    def test_4096_areas(self):
        self.reports(1, self.image(4093), """
            remark|-|-|0x0|flashmap
            bad|A|-|0x40ffd|overlaps|B
            bad|B|-|0x40ffe|overlaps|A
            not sound: 2 bad, 1 remarks, 0 changes
        """)

    def test_4097_areas(self):
        self.reports(1, self.image(4094), """
            remark|-|-|0x0|flashmap
            bad|-|-|-|too many areas to look for overlaps
            not sound: 1 bad, 1 remarks, 0 changes
        """)


class ComparedAreas(CheckTest):
    """Areas of eight times the new image's length are compared, in the order of the map."""

    def test_a_longer_old_image(self):
        """Each of 18 areas has all 8192 bytes of the new image, so eight are compared."""
        areas = [("FMAP", 0, 0x2000), *((f"P{n}", 0, 0x2000) for n in range(1, 18))]
        new = board(0x2000, areas)
        old = board(0x4000, areas, (0x1FFF, b"\0"), map_size=0x2000)
        self.changes(1, old, new, """
            bad|-|-|-|image size changed from|0x4000
            change|-|-|-|erase blocks differ|3
            change|FMAP|-|0x0|erase blocks differ|1
            change|P1|-|0x0|erase blocks differ|1
            change|P2|-|0x0|erase blocks differ|1
            change|P3|-|0x0|erase blocks differ|1
            change|P4|-|0x0|erase blocks differ|1
            change|P5|-|0x0|erase blocks differ|1
            change|P6|-|0x0|erase blocks differ|1
            change|P7|-|0x0|erase blocks differ|1
            change|P8|-|0x0|not compared
            change|P9|-|0x0|not compared
            change|P10|-|0x0|not compared
            change|P11|-|0x0|not compared
            change|P12|-|0x0|not compared
            change|P13|-|0x0|not compared
            change|P14|-|0x0|not compared
            change|P15|-|0x0|not compared
            change|P16|-|0x0|not compared
            change|P17|-|0x0|not compared
            not sound: 1 bad, 1 remarks, 19 changes
        """)

    def test_a_shorter_old_image(self):
        """Each of 18 areas has half of the new image's 8192 bytes, so sixteen are compared."""
        areas = [("FMAP", 0, 0x1000), *((f"P{n}", 0, 0x1000) for n in range(1, 18))]
        new = board(0x2000, areas)
        old = board(0x1000, areas, (0xFFF, b"\0"), map_size=0x2000)
        self.changes(1, old, new, """
            bad|-|-|-|image size changed from|0x1000
            change|-|-|-|erase blocks differ|2
            change|FMAP|-|0x0|erase blocks differ|1
            change|P1|-|0x0|erase blocks differ|1
            change|P2|-|0x0|erase blocks differ|1
            change|P3|-|0x0|erase blocks differ|1
            change|P4|-|0x0|erase blocks differ|1
            change|P5|-|0x0|erase blocks differ|1
            change|P6|-|0x0|erase blocks differ|1
            change|P7|-|0x0|erase blocks differ|1
            change|P8|-|0x0|erase blocks differ|1
            change|P9|-|0x0|erase blocks differ|1
            change|P10|-|0x0|erase blocks differ|1
            change|P11|-|0x0|erase blocks differ|1
            change|P12|-|0x0|erase blocks differ|1
            change|P13|-|0x0|erase blocks differ|1
            change|P14|-|0x0|erase blocks differ|1
            change|P15|-|0x0|erase blocks differ|1
            change|P16|-|0x0|not compared
            change|P17|-|0x0|not compared
            not sound: 1 bad, 1 remarks, 19 changes
        """)

    # Seven areas of the whole image, after which one of eight lengths is left.
    SEVEN = [("FMAP", 0, 0x2000), *((f"P{n}", 0, 0x2000) for n in range(1, 7))]

    def test_an_area_of_what_is_left_and_one_byte_more(self):
        """Q leaves one byte, which R exceeds, and S takes. T has no byte left."""
        areas = [*self.SEVEN, ("Q", 1, 0x1FFF), ("R", 0x1FFE, 2), ("S", 0x1FFF, 1),
                 ("T", 0x1FFF, 1), ("E", 0x2000, 0)]
        new = board(0x2000, areas)
        old = board(0x2000, areas, (0xFFF, b"\0"), (0x1FFF, b"\0"))
        self.changes(0, old, new, """
            change|-|-|-|erase blocks differ|2
            change|FMAP|-|0x0|erase blocks differ|1
            change|P1|-|0x0|erase blocks differ|1
            change|P2|-|0x0|erase blocks differ|1
            change|P3|-|0x0|erase blocks differ|1
            change|P4|-|0x0|erase blocks differ|1
            change|P5|-|0x0|erase blocks differ|1
            change|P6|-|0x0|erase blocks differ|1
            change|Q|-|0x1|erase blocks differ|2
            change|R|-|0x1ffe|not compared
            change|S|-|0x1fff|erase blocks differ|1
            change|T|-|0x1fff|not compared
            sound: 0 bad, 2 remarks, 12 changes
        """)

    def test_an_inner_area_that_is_compared(self):
        """Its block is not reported of a larger area."""
        areas = [*self.SEVEN, ("I", 0x1000, 0x1000)]
        new, old = board(0x2000, areas), board(0x2000, areas, (0x1800, b"\0"))
        self.changes(0, old, new, """
            change|-|-|-|erase blocks differ|1
            change|I|-|0x1000|erase blocks differ|1
            sound: 0 bad, 1 remarks, 2 changes
        """)

    def test_an_inner_area_that_is_not_compared(self):
        areas = [*self.SEVEN, ("P7", 0, 0x2000), ("I", 0x1000, 0x1000)]
        new, old = board(0x2000, areas), board(0x2000, areas, (0x1800, b"\0"))
        self.changes(0, old, new, """
            change|-|-|-|erase blocks differ|1
            change|I|-|0x1000|not compared
            sound: 0 bad, 1 remarks, 2 changes
        """)

    def test_areas_that_take_nothing_from_the_limit(self):
        """An area that was resized, one that was added, and one that ended outside OLD."""
        same = [("FMAP", 0, 0x1000), *((f"P{n}", 0, 0x1000) for n in range(1, 7))]
        last = [("Q", 0, 0x1000), ("R", 0xFFF, 1)]
        old = board(0x1000, [*same, ("S", 0, 0x800), ("X", 0, 1), ("Z", 0x800, 0x1000), *last])
        new = board(0x1000, [*same, ("S", 0, 0x1000), ("Y", 0, 0x1000), ("Z", 0, 0x1000), *last])
        self.changes(0, old, new, """
            change|-|-|-|erase blocks differ|1
            change|FMAP|-|0x0|erase blocks differ|1
            change|P1|-|0x0|erase blocks differ|1
            change|P2|-|0x0|erase blocks differ|1
            change|P3|-|0x0|erase blocks differ|1
            change|P4|-|0x0|erase blocks differ|1
            change|P5|-|0x0|erase blocks differ|1
            change|P6|-|0x0|erase blocks differ|1
            change|S|-|0x0|area resized from|0x800
            change|Y|-|0x0|area added
            change|Z|-|0x0|area moved from|0x800
            change|Z|-|0x0|not compared
            change|Q|-|0x0|erase blocks differ|1
            change|R|-|0xfff|not compared
            change|X|-|0x0|area gone
            sound: 0 bad, 1 remarks, 15 changes
        """)


CELL = join(Component(b"a", b"." * 36))
ADDED, UNCOMPARED = "component added", "components not compared"


class ComparedRegions(CheckTest):
    """Regions of the old image's length are compared, by their sizes in the old image.

    A region that is larger than what is left leaves it as it is. So does a region that the old map
    lacks, or that ended outside the old image. Each region of the new image begins with the
    component `a`, and no region of the old image begins with an entry.
    """

    A, B, C = ("A", 0x200, 0x40), ("B", 0x240, 0x80), ("C", 0x300, 0x40)

    def images(self, old_size, old, new_size, new):
        """Returns both images; their maps differ in the first block."""
        area = ("FMAP", 0, 0x200)
        cells = [(at, CELL) for _, at, _ in new]
        return board(old_size, [area, *old]), board(new_size, [area, *new], *cells)

    def of_size(self, old, new, text):
        """Checks the changes between images of 1024 bytes with these areas."""
        self.changes(0, *self.images(0x400, old, 0x400, new), text)

    def test_a_region_that_ended_outside_takes_nothing(self):
        self.of_size([("A", 0x200, 0x201), ("B", 0, 0x400)], [self.A, self.B], """
            change|-|-|-|erase blocks differ|1
            change|FMAP|-|0x0|erase blocks differ|1
            change|A|-|0x200|area resized from|0x201
            change|B|-|0x240|area moved from|0x0
            change|B|-|0x240|area resized from|0x400
            change|A|-|0x200|components not compared
            change|B|a|0x0|component added
            sound: 0 bad, 9 remarks, 7 changes
        """)

    def test_a_region_that_ended_with_the_image_takes_its_size(self):
        self.of_size([("A", 0x200, 0x200), ("B", 0, 0x201)], [self.A, self.B], """
            change|-|-|-|erase blocks differ|1
            change|FMAP|-|0x0|erase blocks differ|1
            change|A|-|0x200|area resized from|0x200
            change|B|-|0x240|area moved from|0x0
            change|B|-|0x240|area resized from|0x201
            change|A|a|0x0|component added
            change|B|-|0x240|components not compared
            sound: 0 bad, 9 remarks, 7 changes
        """)

    def test_two_regions_of_the_old_length(self):
        self.of_size([("A", 0x200, 0x200), ("B", 0, 0x200)], [self.A, self.B], """
            change|-|-|-|erase blocks differ|1
            change|FMAP|-|0x0|erase blocks differ|1
            change|A|-|0x200|area resized from|0x200
            change|B|-|0x240|area moved from|0x0
            change|B|-|0x240|area resized from|0x200
            change|A|a|0x0|component added
            change|B|a|0x0|component added
            sound: 0 bad, 9 remarks, 7 changes
        """)

    def test_a_region_of_what_a_larger_one_left(self):
        """A takes 256 bytes. B has one byte more than is left, and C all of it."""
        self.of_size([("A", 0x200, 0x100), ("B", 0, 0x301), ("C", 0, 0x300)],
                     [self.A, self.B, self.C], """
            change|-|-|-|erase blocks differ|1
            change|FMAP|-|0x0|erase blocks differ|1
            change|A|-|0x200|area resized from|0x100
            change|B|-|0x240|area moved from|0x0
            change|B|-|0x240|area resized from|0x301
            change|C|-|0x300|area moved from|0x0
            change|C|-|0x300|area resized from|0x300
            change|A|a|0x0|component added
            change|B|-|0x240|components not compared
            change|C|a|0x0|component added
            sound: 0 bad, 13 remarks, 10 changes
        """)

    def test_two_regions_that_exceed_what_is_left(self):
        self.of_size([("A", 0x200, 0x100), ("B", 0, 0x301), ("C", 0, 0x301)],
                     [self.A, self.B, self.C], """
            change|-|-|-|erase blocks differ|1
            change|FMAP|-|0x0|erase blocks differ|1
            change|A|-|0x200|area resized from|0x100
            change|B|-|0x240|area moved from|0x0
            change|B|-|0x240|area resized from|0x301
            change|C|-|0x300|area moved from|0x0
            change|C|-|0x300|area resized from|0x301
            change|A|a|0x0|component added
            change|B|-|0x240|components not compared
            change|C|-|0x300|components not compared
            sound: 0 bad, 13 remarks, 10 changes
        """)

    def test_an_added_region_takes_nothing(self):
        self.of_size([("B", 0, 0x400)], [self.A, self.B], """
            change|-|-|-|erase blocks differ|1
            change|FMAP|-|0x0|erase blocks differ|1
            change|A|-|0x200|area added
            change|B|-|0x240|area moved from|0x0
            change|B|-|0x240|area resized from|0x400
            change|B|a|0x0|component added
            sound: 0 bad, 9 remarks, 6 changes
        """)

    GROWN = [("A", 0x200, 0x100), ("B", 0x300, 0x40)]

    def test_the_old_sizes_fill_the_limit(self):
        self.of_size([("A", 0x200, 0x40), ("B", 0, 0x3C0)], self.GROWN, """
            change|-|-|-|erase blocks differ|1
            change|FMAP|-|0x0|erase blocks differ|1
            change|A|-|0x200|area resized from|0x40
            change|B|-|0x300|area moved from|0x0
            change|B|-|0x300|area resized from|0x3c0
            change|A|a|0x0|component added
            change|B|a|0x0|component added
            sound: 0 bad, 9 remarks, 7 changes
        """)

    def test_the_old_sizes_exceed_the_limit(self):
        self.of_size([("A", 0x200, 0x40), ("B", 0, 0x3C1)], self.GROWN, """
            change|-|-|-|erase blocks differ|1
            change|FMAP|-|0x0|erase blocks differ|1
            change|A|-|0x200|area resized from|0x40
            change|B|-|0x300|area moved from|0x0
            change|B|-|0x300|area resized from|0x3c1
            change|A|a|0x0|component added
            change|B|-|0x300|components not compared
            sound: 0 bad, 9 remarks, 7 changes
        """)

    def test_a_shorter_old_image(self):
        old = [("A", 0, 0x400), ("B", 0, 0x3C0)]
        self.changes(1, *self.images(0x400, old, 0x1001, [self.A, self.B]), """
            bad|-|-|-|image size changed from|0x400
            change|-|-|-|erase blocks differ|2
            change|FMAP|-|0x0|erase blocks differ|1
            change|A|-|0x200|area moved from|0x0
            change|A|-|0x200|area resized from|0x400
            change|B|-|0x240|area moved from|0x0
            change|B|-|0x240|area resized from|0x3c0
            change|A|a|0x0|component added
            change|B|-|0x240|components not compared
            not sound: 1 bad, 9 remarks, 8 changes
        """)

    def test_regions_of_a_longer_old_image(self):
        old = [("A", 0, 0x800), ("B", 0, 0x801)]
        self.changes(1, *self.images(0x1001, old, 0x400, [self.A, self.B]), """
            bad|-|-|-|image size changed from|0x1001
            change|-|-|-|erase blocks differ|2
            change|FMAP|-|0x0|erase blocks differ|1
            change|A|-|0x200|area moved from|0x0
            change|A|-|0x200|area resized from|0x800
            change|B|-|0x240|area moved from|0x0
            change|B|-|0x240|area resized from|0x801
            change|A|a|0x0|component added
            change|B|a|0x0|component added
            not sound: 1 bad, 9 remarks, 8 changes
        """)

    def test_regions_that_exceed_a_longer_old_image(self):
        old = [("A", 0, 0x800), ("B", 0, 0x802)]
        self.changes(1, *self.images(0x1001, old, 0x400, [self.A, self.B]), """
            bad|-|-|-|image size changed from|0x1001
            change|-|-|-|erase blocks differ|2
            change|FMAP|-|0x0|erase blocks differ|1
            change|A|-|0x200|area moved from|0x0
            change|A|-|0x200|area resized from|0x800
            change|B|-|0x240|area moved from|0x0
            change|B|-|0x240|area resized from|0x802
            change|A|a|0x0|component added
            change|B|-|0x240|components not compared
            not sound: 1 bad, 9 remarks, 8 changes
        """)


# ---- Memory and time

# Runs a program with its output in a file, and prints its memory in KiB, its status and its
# seconds. It is a process of its own, because the memory of a parent counts as that of its child.
MEASURE = """import os, sys, time
begin = time.monotonic()
child = os.fork()
if child == 0:
    os.dup2(os.open("printed", os.O_WRONLY | os.O_CREAT | os.O_TRUNC, 0o644), 1)
    os.execv(sys.argv[1], sys.argv[1:])
_, ended, usage = os.wait4(child, 0)
print(usage.ru_maxrss, os.waitstatus_to_exitcode(ended), time.monotonic() - begin)"""


def shown(rows):
    """Returns the rows that are printed without -v: no hash rows, and 16 rows of a kind.

    A kind is a verdict and a text. Rows of the whole image are of another kind than those of areas.
    """
    counts, left = {}, []
    for row in rows:
        verdict, area, _, _, text = row.split("|")[:5]
        kind = verdict, text, area == "-"
        counts[kind] = counts.get(kind, 0) + 1
        if counts[kind] <= 16:
            left.append(row)
    return left + [f"{verdict}|-|-|-|more of these|{count - 16}"
                   for (verdict, _, _), count in counts.items() if count > 16]


def counts_of(rows):
    """Returns the numbers of bad findings, remarks and changes."""
    verdicts = [row.partition("|")[0] for row in rows]
    return [verdicts.count(verdict) for verdict in ("bad", "remark", "change")]


def of_region(name, components, free_bytes=0):
    """Returns the rows of a region without damage, whose free bytes are one run at its end."""
    count = f"components|{components}" if components else "no components"
    room = f"largest content that add takes|{free_bytes - 32}"
    return [f"remark|{name}|-|-|{text}" for text in
            ("complete", count, f"free bytes|{free_bytes}",
             room if free_bytes else "no room for a component")]


def of_areas(image):
    """Returns the lines of --list for the areas of an image, whose names need no escapes."""
    return [f"area|{area.name.decode()}|{area.offset:#x}|{area.size}|{area.flags:#x}"
            for area in Reading(image).areas]


class MemoryTest(CheckTest):
    """Checks reports of many rows, and the memory and the time that they take."""

    def measure(self, files, options, rows, areas, components, seconds):
        """Checks a report: all rows as text, or their numbers in the document. `areas` and
        `components` are the lines of --list."""
        folder = self.folder(files)
        command = [program("cbfscheck"), *options, *files]
        done = subprocess.run([sys.executable, "-IS", "-c", MEASURE, *command], cwd=folder.path,
                              stdout=subprocess.PIPE, check=True)
        memory, status, took = done.stdout.split()
        printed = (folder.path / "printed").read_bytes()
        printed_rows = rows if "-v" in options else shown(rows)
        counts = counts_of(rows)
        if "--json" in options:
            found = json.loads(printed)
            seen = [len(found.get(name, [])) for name in ("rows", "areas", "components")]
            self.assertEqual([*seen, found["bad"], found["remarks"], found["changes"]],
                             [len(printed_rows), len(areas), len(components), *counts])
        else:
            last = conclusion(*counts)
            expected = report("\n".join([*areas, *components, *printed_rows, last]))
            self.assertTrue(printed == expected, printed[:2000])
        self.assertEqual(int(status), 1 if counts[0] else 0)
        most = sum(map(len, files.values())) * MEMORY_FOR_MIB // MIB + MEMORY_FOR_ANY
        self.assertLessEqual(int(memory) * 1024, most)
        self.assertLessEqual(float(took), seconds)

    def one(self, image, rows, listed=()):
        """Checks the report of an image in each form, with and without the list and -v."""
        usual = [row for row in rows if not row.endswith("|no hash")]
        for options, expected in [
            ([], usual), (["-v"], rows), (["--json"], usual), (["-v", "--json"], rows),
            (["--list"], usual), (["-v", "--list", "--json"], rows),
        ]:
            areas, components = (of_areas(image), listed) if "--list" in options else ([], [])
            with self.subTest(options):
                self.measure({"image.rom": image}, options, [MAP, *expected], areas, components,
                             SECONDS)

    def two(self, old, new, rows, *options):
        """Checks the report of two images in both forms."""
        files = {"old.rom": old, "image.rom": new}
        for form in ([], ["--json"]):
            with self.subTest(form):
                self.measure(files, [*form, *options], [MAP, *rows], [], [], SECONDS_FOR_TWO)


class ManyAreas(MemoryTest):
    """Maps of an image of 4 MiB with as many areas as a map can have."""

    SIZE, END = 0x400000, 0x300000
    OWN = ("FMAP", 0, END)
    NAMES = [f"N{number}" for number in range(65534)]

    def test_areas_with_one_entry(self):
        """Eight areas of 1 MiB are checked, which are twice the image."""
        areas = [self.OWN, *((name, self.END, 0x100000) for name in self.NAMES)]
        self.one(board(self.SIZE, areas, (self.END, free(0x100000))), [
            TOO_MANY, *(row for name in self.NAMES[:8] for row in of_region(name, 0, 0x100000)),
            *(f"remark|{name}|-|0x300000|{UNCHECKED}" for name in self.NAMES[8:])])

    def test_nested_areas(self):
        areas = [(name, self.END + n, 0x100000 - 2 * n) for n, name in enumerate(self.NAMES)]
        self.one(board(self.SIZE, [self.OWN, *areas]), [TOO_MANY])

    def test_areas_with_one_name_and_no_bytes(self):
        areas = [self.OWN, *[("N", self.END, 0)] * 65534]
        self.one(board(self.SIZE, areas), [
            *["remark|N|-|0x300000|has no bytes"] * 65534,
            *["bad|N|-|0x300000|has the name of an earlier area|N"] * 65533, TOO_MANY])

    def overlapping(self, count):
        """Returns an image with so many areas that overlap each other."""
        areas = [(f"N{n}", self.END + n, 0x20000) for n in range(count)]
        return board(self.SIZE, [self.OWN, *areas])

    def test_too_many_areas_that_overlap(self):
        self.one(self.overlapping(65534), [TOO_MANY])

    def test_areas_that_overlap(self):
        self.one(self.overlapping(MOST_COMPARED - 1), [
            "bad|N0|-|0x300000|overlaps|N1",
            *(f"bad|N{n}|-|{0x300000 + n:#x}|overlaps|N0" for n in range(1, MOST_COMPARED - 1))])


class ManyComponents(MemoryTest):
    """Regions of cells of 64 bytes, each with as many rows as a cell can have."""

    CELL = join(Component(b"\xff", b"x", type=0x77))
    # The offset of the content in the cell.
    CONTENT = 28

    def rows(self, name, count):
        """Returns the rows of a region of so many cells, and its list of components."""
        rows = []
        for at in range(0, 64 * count, 64):
            if at:
                rows.append(f"bad|{name}|\\xff|{at:#x}|has the name of an earlier component")
            rows += [f"remark|{name}|\\xff|{at:#x}|name isn't UTF-8",
                     f"remark|{name}|\\xff|{at:#x}|type without a name|0x77",
                     f"remark|{name}|\\xff|{at:#x}|no hash"]
        listed = [f"component|{name}|\\xff|{at:#x}|0x77|1|none|no hash|{at + self.CONTENT:#x}"
                  f"|-|{X_256}" for at in range(0, 64 * count, 64)]
        return [*rows, *of_region(name, count)], listed

    def test_a_region_of_3_mib(self):
        areas = [("FMAP", 0, 0x400), ("A", 0x100000, 0x300000)]
        image = board(0x400000, areas, (0x100000, self.CELL * 0xC000))
        self.one(image, *self.rows("A", 0xC000))

    def test_nested_regions(self):
        """Two of eight nested regions are checked, which are almost twice the image."""
        areas = [(f"A{n}", 0x400 + 64 * n, 0xFFC00 - 64 * n) for n in range(8)]
        image = board(0x100000, [("FMAP", 0, 0x400), *areas], (0x400, self.CELL * 0x3FF0))
        first, of_first = self.rows("A0", 0x3FF0)
        second, of_second = self.rows("A1", 0x3FEF)
        unchecked = [f"remark|{name}|-|{at:#x}|{UNCHECKED}" for name, at, _ in areas[2:]]
        self.one(image, [*first, *second, *unchecked], [*of_first, *of_second])

    def test_regions_in_one_place(self):
        """Eight regions of 1 MiB are checked, of as many areas as a map can have."""
        names = [f"N{number}" for number in range(65534)]
        areas = [("FMAP", 0, 0x300000), *((name, 0x300000, 0x100000) for name in names)]
        image = board(0x400000, areas, (0x300000, self.CELL * 0x4000))
        rows, listed = [MAP, TOO_MANY], []
        for name in names[:8]:
            of_name, listed_of_name = self.rows(name, 0x4000)
            rows += [row for row in of_name if not row.endswith("|no hash")]
            listed += listed_of_name
        rows += [f"remark|{name}|-|0x300000|{UNCHECKED}" for name in names[8:]]
        self.measure({"image.rom": image}, [], rows, [], [], SECONDS)
        self.measure({"image.rom": image}, ["--list", "--json"], rows, of_areas(image), listed,
                     SECONDS)

    def test_a_tail_with_a_magic_at_each_position(self):
        magics = join(Component(b"a", b"x")) + bytes(64) + (b"LARCHIVE" + bytes(56)) * 0xBFFE
        areas = [("FMAP", 0, 0x400), ("A", 0x100000, 0x300000)]
        self.one(board(0x400000, areas, (0x100000, magics)), [
            "remark|A|a|0x0|no hash", "remark|A|-|0x40|unused tail",
            "bad|A|-|0x80|unused tail has other bytes than 0xff and 0x00",
            *(f"bad|A|-|{at:#x}|entry in the unused tail" for at in range(0x80, 0x300000, 64)),
            "remark|A|-|-|components|1", "remark|A|-|-|free bytes|0",
            "remark|A|-|-|no room for a component",
        ], [f"component|A|a|0x0|raw|1|none|no hash|0x1c|-|{X_256}"])


class ManyComparedAreas(MemoryTest):
    """Two images whose areas all differ: seven of all bytes after the map, and small ones."""

    def images(self, size, end, count, small):
        """Returns both images, the small areas, and the rows of all areas.

        The first `end` bytes belong to FMAP. `small` is the size of a small area, below a block.
        """
        places = [(f"N{n}", end + small * n, small) for n in range(count)]
        large = [(f"L{n}", end, size - end) for n in range(7)]
        areas = [("FMAP", 0, end), *large, *places]
        blocks = (size - end) // 0x1000
        rows = [TOO_MANY, f"change|-|-|-|erase blocks differ|{blocks}"]
        rows += [f"change|L{n}|-|{end:#x}|erase blocks differ|{blocks}" for n in range(7)]
        rows += [f"change|{name}|-|{at:#x}|erase blocks differ|1" for name, at, _ in places]
        return board(size, areas, (end, b"\xfe" * (size - end))), board(size, areas), rows

    def test_as_many_areas_as_a_map_can_have(self):
        old, new, rows = self.images(0x1000000, 0x2A1000, 65527, 213)
        self.two(old, new, rows)

    def test_9000_kept_areas(self):
        """All small areas are kept by their names; two kept names are in no image."""
        old, new, rows = self.images(0x400000, 0x5D000, 8992, 424)
        rows = [row.replace("change|N", "bad|N") for row in rows]
        names = [*(f"N{n}" for n in range(8992)), "absent", "ABSENT"]
        self.two(old, new, [*rows, "bad|absent|-|-|no such area", "bad|ABSENT|-|-|no such area"],
                 "--keep", ",".join(names))


class ManyComparedComponents(MemoryTest):
    """Two images of 1 MiB with two nested areas of cells of 64 bytes, whose names have 27 bytes.

    The cells of B are those of A but the first one. A takes the limit of the compared bytes, so
    the components of B are not compared.
    """

    COUNT = 0x3FF0
    AREAS = [("FMAP", 0, 0x400), ("A", 0x400, 64 * COUNT), ("B", 0x440, 64 * (COUNT - 1))]
    # The blocks of B begin 64 bytes after those of A, and B holds all blocks of A but the first.
    ROWS = [*of_region("A", COUNT), *of_region("B", COUNT - 1),
            "change|-|-|-|erase blocks differ|256", "change|A|-|0x400|erase blocks differ|1",
            "change|B|-|0x440|erase blocks differ|256"]
    LAST = "change|B|-|0x440|components not compared"

    def name(self, letter, number):
        """Returns a name of 27 bytes, which fill the name field of 28."""
        return f"{letter}{number:022}-end"

    def image(self, letter, numbers, content):
        """Returns an image with components of these numbers, in order."""
        cells = [Component(self.name(letter, n).encode(), content) for n in numbers]
        return board(MIB, self.AREAS, (0x400, join(*cells)))

    def test_components_in_reversed_order(self):
        old = self.image("n", range(self.COUNT), b"old content.")
        new = self.image("n", range(self.COUNT - 1, -1, -1), b"new content.")
        rows = []
        for number in range(self.COUNT):
            row = f"change|A|{self.name('n', self.COUNT - 1 - number)}|{64 * number:#x}"
            from_place = f"component moved from|{64 * (self.COUNT - 1 - number):#x}"
            rows += [f"{row}|content changed", f"{row}|{from_place}"]
        self.two(old, new, [*self.ROWS, *rows, self.LAST])

    def test_other_components(self):
        """All components of NEW are added, and all of OLD removed."""
        old = self.image("n", range(self.COUNT), b"old content.")
        new = self.image("m", range(self.COUNT), b"new content.")
        rows = [f"change|A|{self.name(letter, n)}|{64 * n:#x}|component {what}"
                for letter, what in [("m", "added"), ("n", "removed")] for n in range(self.COUNT)]
        self.two(old, new, [*self.ROWS, *rows, self.LAST])


if __name__ == "__main__":
    unittest.main()
