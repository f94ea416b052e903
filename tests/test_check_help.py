"""Compares the help of cbfscheck with what the program does, and with the manual page."""

import re
import unittest

from tests import image
from tests.programs import TOP, ProgramTest, Folder

OPTIONS = ["-r", "-v", "-h", "--need", "--all-hashed", "--list", "--json", "--help", "--version"]
OPTIONS += ["--flash", "--keep", "--keep-preserved"]
# More components with a digest than rows of one kind are printed.
MANY = 40
PAGE = (TOP / "man" / "cbfscheck.1").read_text(encoding="utf-8")


def image_with(count=0, bootblock=False, flags=image.PRESERVED):
    """Returns an image with components, each with a digest, and a preserved area."""
    start, size = 0x400, 0x4000
    areas = [image.Area("FMAP", 0, start), image.Area("COREBOOT", start, size)]
    areas.append(image.Area("KEPT", start + size, 64, flags))
    hash_of = image.hash_attribute
    cells = [
        image.Component(f"c{number}".encode(), b"data", attributes=[hash_of(image.SHA256, b"data")])
        for number in range(count)
    ]
    used = sum(len(cell.bytes) for cell in cells)
    last = image.FreeEntry(size - used - 64 * bootblock, keeps=b"" if bootblock else bytes(4))
    # (its content of 32 bytes ends with the area)
    end = [image.Component(b"end", bytes(32), gap=4)] if bootblock else []
    made = image.Image(start + size + 64, areas)
    return made.put("COREBOOT", image.join(*cells, last, *end)).data()


class CheckHelp(ProgramTest):
    """Each statement of the help is right."""

    programs = ("cbfscheck",)

    @classmethod
    def setUpClass(cls):
        super().setUpClass()
        folder = Folder()
        cls.text = folder.run("cbfscheck --help").output.decode()
        folder.remove()

    def test_the_rows_of_a_kind(self):
        """The number of the help and of the page is the number of rows that are printed."""
        stated = re.search(r"more than\s+(\d+) rows of a kind", self.text)[1]
        self.assertEqual(re.search(r"\nAt most (\d+) rows with the same", PAGE)[1], stated)
        self.assertEqual(re.search(r"more than (\d+) rows of a kind", PAGE)[1], stated)
        folder = self.folder({"image.rom": image_with(MANY)})
        for options, count in [("", int(stated)), ("-v ", MANY)]:
            output = folder.run(f"cbfscheck {options}image.rom").output.decode()
            self.assertEqual(output.count("\tsha256 valid\n"), count, options)

    def test_the_origin_of_an_offset(self):
        """A needed offset is that of the content, from the start of the area."""
        self.assertIn("its content begins at OFFSET", self.text)
        words = " ".join(self.text.split())
        self.assertIn(
            "(decimal, 0x.., from the start of the area), or ends with the area (end)", words
        )
        folder = self.folder({"image.rom": image_with(1, bootblock=True)})
        # (the header has 28 bytes, and the digest 44)
        content = 28 + 44
        for place, status in [
            (content, 0), (hex(content), 0), (0x400 + content, 1), (0, 1), (content + 1, 1),
        ]:
            run = folder.run(f"cbfscheck --need COREBOOT:c0@{place} image.rom")
            self.assertEqual(run.status, status, place)
        for name, status in [("end", 0), ("c0", 1)]:
            run = folder.run(f"cbfscheck --need COREBOOT:{name}@end image.rom")
            self.assertEqual(run.status, status, name)

    def test_each_option_is_accepted_and_on_the_page(self):
        options = re.findall(
            r"^  (--?[a-z-]+)(?:, (--[a-z-]+))?(?: ([A-Z]+))?", self.text, re.MULTILINE
        )
        names = [name for row in options for name in row[:2] if name]
        self.assertEqual(sorted(names), sorted(OPTIONS))
        folder = self.folder({"old.rom": image_with(1), "new.rom": image_with(1)})
        for short, long, value in options:
            for name in filter(None, (short, long)):
                given = {"AREA": "COREBOOT"}.get(value, "")
                given += ":c0" if name == "--need" else ""
                run = folder.run(f"cbfscheck {name} {given} old.rom new.rom")
                self.assertEqual((run.status, run.message), (0, b""), name)
                self.assertIn("Fl " + name.lstrip("-"), PAGE)

    def test_the_usage(self):
        """The usage without arguments is the start of the help, and the forms of the page."""
        usage = self.folder().run("cbfscheck").message.decode().splitlines()
        self.assertEqual(self.text.splitlines()[:2], usage[:2])
        self.assertEqual(usage, [
            "usage: cbfscheck [OPTIONS] IMAGE", "       cbfscheck [OPTIONS] OLD NEW",
            "       cbfscheck --help | --version",
        ])

    def test_the_example(self):
        """The example of the help runs, and fails if a preserved area has changed."""
        example = re.search(r"^Example: (.*)$", self.text, re.MULTILINE)[1]
        self.assertEqual(example.split()[-2:], ["chip.rom", "image.rom"])
        chip = image_with(1)
        folder = self.folder({"chip.rom": chip, "image.rom": chip})
        run = folder.run(example)
        self.assertEqual((run.status, run.message), (0, b""))
        folder.put("image.rom", chip[:-1] + b"X")
        run = folder.run(example)
        self.assertEqual(run.status, 1)
        self.assertIn(b"bad\tKEPT\t-\t0x4400\terase blocks differ\t1\n", run.output)

    def test_the_exit_status(self):
        self.assertIn(
            "Exit status: 0 if nothing is bad, 1 if a finding is bad, 2 without a complete report.",
            self.text,
        )
        folder = self.folder({"image.rom": image_with(1), "bad.rom": b"no image"})
        for name, status in [("image.rom", 0), ("bad.rom", 1), ("absent.rom", 2)]:
            self.assertEqual(folder.run(f"cbfscheck {name}").status, status)


if __name__ == "__main__":
    unittest.main()
