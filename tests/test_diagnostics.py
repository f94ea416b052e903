"""Compares DIAGNOSTICS of cbfstool(1) with the program: what a refusal leaves, and how much room a
component needs.
"""

import re
import subprocess
import unittest

from tests import image
from tests.programs import TOP, ProgramTest, program

PAGE = (TOP / "man" / "cbfstool.1").read_text(encoding="utf-8")
SIZE, START, REGION = 0x2000, 0x400, 0x1000


def section(name):
    """Returns the source of a subsection of the page."""
    return re.split(r"^\.S[hs] ", PAGE.split(f"\n.Ss {name}\n", 1)[1], flags=re.MULTILINE)[0]


def board(*entries):
    """Returns an image with the entries in COREBOOT, and areas that are no file system."""
    areas = [image.Area("FMAP", 0, START), image.Area("COREBOOT", START, REGION)]
    areas += [image.Area("CONFIG", 0x1400, 0x100), image.Area("ODD", 0x1500, 100)]
    areas.append(image.Area("OUTSIDE", 0x1600, SIZE))
    made = image.Image(SIZE, areas)
    used = len(image.join(*entries))
    rest = image.FreeEntry(REGION - used, keeps=b"\xff" * 4)
    return made.put("COREBOOT", image.join(*entries, rest)).data()


A = image.Component(b"a", b"content")
PACKED = image.Component(b"p", b"content", attributes=[image.compression(image.LZMA, 10)])
DAMAGED = image.Component(b"d", b"content", length=SIZE)
# For each refusal commands that it follows, with the image before them.
REFUSALS = [
    (4, "extract -n a -f out", b"no image"), (4, "read -f out", b""),
    (5, "extract -r NONE -n a -f out", board(A)), (5, "read -r NONE -f out", board(A)),
    (6, "extract -r OUTSIDE -n a -f out", board(A)), (6, "read -r OUTSIDE -f out", board(A)),
    (7, "extract -r ODD -n a -f out", board(A)), (8, "extract -r CONFIG -n a -f out", board(A)),
    (9, "extract -n x -f out", board(A, DAMAGED)), (10, "extract -n x -f out", board(A)),
    (11, "add -f file -t raw -n a", board(A)), (12, "add -f large -t raw -n b", board(A)),
    (12, "add -f file -t raw -n b -b 0", board(A)), (13, "extract -n p -f out", board(PACKED)),
    (14, "add -f file -t raw -n=", board(A)), (15, "add -f file -t null -n b", board(A)),
    (16, "add -f file -t raw -n b -a 0", board(A)), (17, "write -r CONFIG -f file", board(A)),
    (18, "create -M file", board(A)), (20, "extract -n a -f out -x", board(A)),
    (20, "add -n b -f file", board(A)),
]
CREATIONS = [
    (5, "NONE", []), (6, "OUT", [image.Area("OUT", 0x1000, SIZE)]),
    (7, "ODD", [image.Area("ODD", 0x1000, 100)]), (19, "FMAP", []),
]


class Refusals(ProgramTest):
    """A refusal leaves the image and the file of -f as the table says."""

    programs = ("cbfstool",)

    def rows(self):
        """Returns the states of image and file by refusal, and of those of `create`."""
        table = re.findall(r'^\.It "?(create: )?([\d, to]+)"? Ta "?([\w ]+)"? Ta "?([\w ]+)"? Ta ',
                           section("What a refusal leaves"), re.MULTILINE)
        found = {"": {}, "create: ": {}}
        for kind, numbers, kept, file in table:
            for part in numbers.split(", "):
                first, _, last = part.strip().partition(" to ")
                for number in range(int(first), int(last or first) + 1):
                    self.assertNotIn(number, found[kind])
                    found[kind][number] = (kept, file)
        return found[""], found["create: "]

    def test_each_refusal_has_a_row(self):
        rows, created = self.rows()
        numbers = re.findall(r"^\.It (\d+) Qq ", PAGE, re.MULTILINE)
        self.assertEqual(sorted({*rows, *created}), [int(number) for number in numbers])
        self.assertEqual(sorted(created), [5, 6, 7, 19])

    def texts(self):
        """Returns the text of each refusal."""
        return dict(re.findall(r"^\.It (\d+) Qq (.*)$", PAGE, re.MULTILINE))

    def test_each_row(self):
        rows, _ = self.rows()
        states = {"unchanged": b"previous", "empty": b""}
        tried = set()
        for number, words, before in REFUSALS:
            files = {"image.rom": before, "out": b"previous", "file": b"content",
                     "large": bytes(REGION)}
            run = self.folder(files).run(f"cbfstool image.rom {words}")
            text = self.texts()[str(number)]
            seen = run.message.decode().removeprefix("cbfstool: ").rstrip("\n")
            self.assertEqual(re.sub("0x[0-9a-f]+", "0x40", seen), text, words)
            kept, file = rows[number]
            self.assertEqual(kept, "unchanged", words)
            wanted = {**files, "out": states[file]}
            self.assertEqual(run.after, {**wanted, "image.rom": before}, f"{number}: {words}")
            tried.add(number)
        self.assertEqual(tried, set(rows) - {1, 2, 3, 19, 21, 22})

    def test_a_large_image(self):
        """(A folder would read its 4 GiB, so the program is run directly.)"""
        folder = self.folder({"image.rom": b"", "out": b"previous"})
        with open(folder.path / "image.rom", "r+b") as file:
            file.truncate(1 << 32)
        done = subprocess.run([program("cbfstool"), "image.rom", "read", "-f", "out"],
                              cwd=folder.path, stderr=subprocess.PIPE)
        self.assertEqual(done.stderr, b"cbfstool: image too large\n")
        self.assertEqual(self.rows()[0][22], ("unchanged", "unchanged"))
        self.assertEqual((folder.path / "out").read_bytes(), b"previous")
        self.assertEqual((folder.path / "image.rom").stat().st_size, 1 << 32)

    def test_an_output_fault(self):
        folder = self.folder({"image.rom": board(A)})
        run = folder.run("cbfstool image.rom extract -n a -f none/out")
        self.assertEqual(run.message, b"cbfstool: output fault\n")
        self.assertEqual(self.rows()[0][2][0], "unchanged")
        self.assertEqual(run.after, run.before)

    def test_each_creation(self):
        """The image is erased, and the table is unchanged."""
        created = self.rows()[1]
        for number, names, areas in CREATIONS:
            self.assertEqual(created[number], ("erased", "unchanged"))
            map_area = [] if number == 19 else [image.Area("FMAP", 0, 0x400)]
            table = image.flash_map(SIZE, [*map_area, *areas])
            files = {"image.rom": board(A), "table": table}
            run = self.folder(files).run(f"cbfstool image.rom create -M table -r {names}")
            self.assertEqual(run.message.decode(), f"cbfstool: {self.texts()[str(number)]}\n")
            self.assertEqual(run.after["table"], table)
            self.assertEqual(run.after["image.rom"].strip(b"\xff"), b"", number)
            self.assertEqual(len(run.after["image.rom"]), SIZE)
        self.assertEqual({number for number, _, _ in CREATIONS}, set(created))


class Room(ProgramTest):
    """The arithmetic of `no space` is that of the program."""

    programs = ("cbfstool",)

    def accepts(self, data, length, name, *options):
        """Returns whether `add` takes a content of this length."""
        folder = self.folder({"image.rom": data, "content": bytes(length)})
        words = ["add", f"-n={name}", "-f", "content", "-t", "raw", *options]
        run = folder.run(["cbfstool", "image.rom", *words])
        if run.status:
            self.assertEqual(run.message, b"cbfstool: no space\n")
        folder.remove()
        return run.status == 0

    def largest(self, data, high, name, *options):
        """Returns the length of the largest content that `add` takes."""
        low = -1
        while low + 1 < high:
            middle = (low + high) // 2
            if self.accepts(data, middle, name, *options):
                low = middle
            else:
                high = middle
        return low

    def test_the_example(self):
        """The numbers of the page are those of the program."""
        areas = [image.Area("FMAP", 0, 0x400), image.Area("COREBOOT", 0x400, 0x8000)]
        data = image.Image(0x8400, areas).put("COREBOOT", image.empty_region(0x8000)).data()
        row = self.folder({"image.rom": data}).run("cbfstool image.rom print").output.decode()
        self.assertRegex(row, r"^\(empty\)\t0x0\tnull\t\d+\tnone\n$")
        digest = ("-A", "sha256")
        sizes = [self.largest(data, 0x8001, "logo.bmp", *digest, *options)
                 for options in ((), ("-a", "4096"), ("-b", "80"))]
        self.assertFalse(self.accepts(data, 0, "logo.bmp", *digest, "-b", "79"))
        text = " ".join(section("Room for a component").replace("\\-", "-").split())
        for stated in [
            f"as the only row, in a region of {0x8000} bytes: P is 0 and E is {0x8000}.",
            "the fields have 28 + 8 + 44 = 80 bytes.",
            f"The largest content has {0x8000} - 80 - 4 = {sizes[0]} bytes.",
            f"begins at 4096, and has at most {0x8000} - 4 - 4096 = {sizes[1]} bytes.",
            f"it has at most {0x8000} - 80 = {sizes[2]} bytes, and .Fl b Cm 79 is refused.",
        ]:
            self.assertIn(stated, text)

    def test_the_rule(self):
        """Free space between components and at the end, one cell and two; names of each length."""
        last = image.Component(b"last", b"x")
        for cells, ends in [([512], False), ([512], True), ([128, 448], False), ([64, 512], True)]:
            free = [image.FreeEntry(size) for size in cells]
            region = [A, *free, last] if not ends else [A, *free]
            size = len(image.join(*region))
            areas = [image.Area("FMAP", 0, 0x400), image.Area("COREBOOT", 0x400, size)]
            if ends:
                region[-1] = image.FreeEntry(cells[-1], keeps=b"\xff" * 4)
            made = image.Image(0x400 + size, areas).put("COREBOOT", image.join(*region)).data()
            rows = self.folder({"image.rom": made}).run("cbfstool image.rom print").output
            rows = [row.split("\t") for row in rows.decode().splitlines()]
            empty = [row for row in rows if row[0] == "(empty)"]
            self.assertEqual(len(empty), len(cells))
            start = int(empty[0][1], 16)
            following = [int(row[1], 16) for row in rows if row[0] == "last"]
            end = following[0] if following else size
            limit = end - 4 if ends else end
            for name, digest, bytes_of_digest in [
                ("b", (), 0), ("bcd", (), 0), ("bcde", (), 0), ("b" * 9, ("-A", "sha256"), 44),
                ("b" * 30, ("-A", "sha512"), 76),
            ]:
                rounded = len(name) // 4 * 4
                place = start + 28 + rounded + bytes_of_digest
                wanted = limit - place
                self.assertEqual(self.largest(made, 1000, name, *digest), wanted, (cells, name))
                at = ("-b", str(place))
                self.assertEqual(self.largest(made, 1000, name, *digest, *at), end - place)
                self.assertFalse(self.accepts(made, 0, name, *digest, "-b", str(place - 1)))
                aligned = -(-place // 256) * 256
                wanted = max(limit - aligned, -1)
                self.assertEqual(self.largest(made, 1000, name, *digest, "-a", "256"), wanted)


if __name__ == "__main__":
    unittest.main()
