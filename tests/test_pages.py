"""Runs the examples of the manual pages and of the README, and formats the pages.

Each example of a page has to end with status 0, and to print just what the page shows below it. The
examples of cbfstool(1) and of the README run on a second board too, whose regions have other
offsets and sizes, so that no example depends on those of the first board.
"""

import os
import re
import shutil
import subprocess
import unittest

from tests.pages import (
    FLASHROM, PAGES, examples, literal_blocks, page_text, plain, run_example, section,
)
from tests.programs import NAMES, TOP, ProgramTest, program

README = (TOP / "README.md").read_text(encoding="utf-8")
EXAMPLES = TOP / "dist" / "examples"
HAS_GROFF = shutil.which("groff") is not None
# How many examples each page has at least, so that none can vanish.
LEAST = {"cbfstool.1": 19, "fmaptool.1": 8, "cbfscheck.1": 12, "cbfsseal.1": 9, "fmd.5": 11}
# A board whose regions begin at no multiple of 128, and whose flash map follows them.
ELSEWHERE = [
    ("'FLASH 64K { FMAP 1K COREBOOT(CBFS) 32K CONFIG }'",
     "'FLASH 128K { GAP 448 COREBOOT(CBFS) 32K FMAP 1K CONFIG 31K }'"),
    ("'F 1M { A 256K FMAP 4K COREBOOT(CBFS) 512K REST }'",
     "'F 2M { GAP 4160 A 256K COREBOOT(CBFS) 512K FMAP 4K }'"),
]
# The same for the README: its descriptor samples/board.fmd with a chip of 128 KiB, and the size of
# the free space in the listing.
LARGER = [
    ("0xffff0000 64K", "0xfffe0000 128K"), ("\t\tSI_ME\n", "\t\tSI_ME 8128\n"),
    ("SI_ALL@0x0 8K {", "SI_ALL@0x0 12224 {"), ("SI_BIOS@8K {", "SI_BIOS@12224 {"),
]


def replaced(text, changes):
    """Returns a text with changes, each of which has to occur."""
    for old, new in changes:
        if old not in text:
            raise ValueError(f"the text has not: {old}")
        text = text.replace(old, new)
    return text


class Examples(ProgramTest):
    """Each example prints what its page shows."""

    programs = NAMES

    def setUp(self):
        super().setUp()
        self.bin = self.folder({"flashrom": FLASHROM})
        (self.bin.path / "flashrom").chmod(0o755)
        for name in NAMES:
            (self.bin.path / name).symlink_to(program(name))
        # (two examples run a script of the examples)
        path = os.pathsep.join([str(self.bin.path), str(EXAMPLES), os.environ["PATH"]])
        self.environment = {"PATH": path, "CHIP": "image.rom", "WRITTEN": "written.rom",
                            "LC_ALL": "C.UTF-8"}

    def run_all(self, title, found):
        """Runs examples in a new folder, and stops at the first one that differs."""
        folder = self.folder()
        for example in found:
            with self.subTest(title, line=example.line):
                run_example(self, folder, example, self.environment)
            if getattr(folder, "kept", False):
                break
        return folder

    def check_page(self, name):
        found = examples(section(page_text(name), "EXAMPLES"))
        self.assertGreaterEqual(len(found), LEAST[name])
        folder = self.run_all(name, found)
        if name in ("cbfstool.1", "cbfscheck.1"):
            # (each of them flashes an image)
            self.assertGreater((folder.path / "written.rom").stat().st_size, 0)

    def test_cbfstool(self):
        self.check_page("cbfstool.1")

    def test_fmaptool(self):
        self.check_page("fmaptool.1")

    def test_cbfscheck(self):
        self.check_page("cbfscheck.1")

    def test_the_reports_of_cbfscheck(self):
        """The complete reports that the page explains are those of the images of its examples."""
        text = page_text("cbfscheck.1")
        folder = self.run_all("cbfscheck.1", examples(section(text, "EXAMPLES")))
        for title, status in [("A report, row by row", 1), ("A report before flashing", 0)]:
            part = re.split(r"\n\.S[hs] ", text.split(f"\n.Ss {title}\n")[1])[0]
            command = plain(re.search(r"^\.Ql (cbfscheck .*) ,$", part, re.MULTILINE)[1])
            [(_, lines)] = literal_blocks(part)
            with self.subTest(title):
                run = folder.run(command)
                self.compare_run(folder, run, status, "".join(f"{line}\n" for line in lines))

    def test_cbfsseal(self):
        self.check_page("cbfsseal.1")

    def test_fmd(self):
        self.check_page("fmd.5")

    def test_cbfstool_on_another_board(self):
        """All but the layout is the same where regions have other offsets."""
        text = section(page_text("cbfstool.1"), "EXAMPLES")
        found = [one for one in examples(replaced(text, ELSEWHERE)) if "layout" not in one.command]
        self.assertGreaterEqual(len(found), LEAST["cbfstool.1"] - 1)
        self.run_all("cbfstool.1 elsewhere", found)

    def test_only_descriptors_have_no_command(self):
        for name in PAGES:
            for example in examples(section(page_text(name), "EXAMPLES")):
                self.assertTrue(name == "fmd.5" or not example.is_descriptor, example)

    def test_the_first_descriptor(self):
        """The descriptor of the first screen of fmd(5) compiles, and gives an image."""
        [(_, lines), *_] = literal_blocks(section(page_text("fmd.5"), "DESCRIPTION"))
        folder = self.folder({"first.fmd": "\n".join(lines) + "\n"})
        for command in ["fmaptool first.fmd first.fmap", "cbfstool first.rom create -M first.fmap"]:
            done = folder.run(command)
            self.compare_run(folder, done, left={name: done.after[name] for name in done.after})


class Readme(ProgramTest):
    """The session of the README, and the example of each command in its table."""

    programs = NAMES

    def session(self):
        """Returns the commands of the README with their output."""
        blocks = re.findall(r"^```\w*\n(\$ .*?)^```$", README, re.MULTILINE | re.DOTALL)
        return examples("".join(f".Bd -literal\n{block}.Ed\n" for block in blocks))

    def check_board(self, changes, free):
        descriptor = (TOP / "samples" / "board.fmd").read_text(encoding="utf-8")
        folder = self.folder({
            "samples/board.fmd": replaced(descriptor, changes),
            "LICENSE": (TOP / "LICENSE").read_bytes(),
        })
        found = self.session()
        self.assertGreaterEqual(len(found), 8)
        self.assertGreaterEqual(sum(one.output.count("\n") for one in found), 4)
        for example in found:
            output = example.output.replace("\t41760\t", f"\t{free}\t")
            run_example(self, folder, example._replace(output=output))
        rows = re.findall(r"^\| `(\w+)` \| `(cbfstool [^`]*)`", README, re.MULTILINE)
        self.assertEqual(len(rows), 8)
        for command, line in rows:
            with self.subTest(command):
                self.assertEqual(line.split()[2], command)
                run = folder.run(line)
                self.compare(folder, run, "status", 0, run.status)
                self.compare(folder, run, "message", b"", run.message)
        self.assertEqual((folder.path / "content").read_bytes(), (TOP / "LICENSE").read_bytes())

    def test_the_board(self):
        self.check_board([], 41760)

    def test_a_larger_board(self):
        """The region of this board has 104,512 bytes."""
        self.check_board(LARGER, 103264)


class Formats(unittest.TestCase):
    """The pages are clean, and their headings are printed as they are written."""

    @unittest.skipUnless(shutil.which("mandoc"), "mandoc is not installed")
    def test_mandoc(self):
        # (in one folder, so that they find the pages that they name)
        done = subprocess.run(["mandoc", "-T", "lint", *PAGES], cwd=TOP / "man",
                              stdout=subprocess.PIPE, stderr=subprocess.STDOUT, text=True)
        self.assertEqual((done.returncode, done.stdout), (0, ""))

    def formatted(self, name, *words):
        """Returns a page as groff prints it, without warnings."""
        done = subprocess.run(["groff", "-mdoc", "-Tutf8", *words, TOP / "man" / name],
                              stdout=subprocess.PIPE, stderr=subprocess.PIPE)
        self.assertEqual((done.returncode, done.stderr.decode()), (0, ""), name)
        return done.stdout.decode().replace("\u2010", "-").replace("\u2019", "'")

    @unittest.skipUnless(HAS_GROFF, "groff is not installed")
    def test_groff(self):
        """-ww reports what mandoc accepts: unknown macros, fonts and number registers."""
        for name in PAGES:
            with self.subTest(name):
                self.formatted(name, "-ww", "-z")

    @unittest.skipUnless(HAS_GROFF, "groff is not installed")
    def test_headings(self):
        """A word of a heading that is the name of a macro is not taken for the macro."""
        for name in PAGES:
            lines = [line.strip() for line in self.formatted(name, "-P-cbou").splitlines()]
            for heading in re.findall(r"^\.S[hs] (.*)$", page_text(name), re.MULTILINE):
                with self.subTest(name, heading=heading):
                    self.assertIn(plain(heading), lines)


if __name__ == "__main__":
    unittest.main()
