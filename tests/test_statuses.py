"""Compares exit statuses, usages and messages of the four programs with literal texts."""

import os
import subprocess
import tempfile
import unittest

from tests import image
from tests.programs import NAMES, ProgramTest, program

AREAS = [image.Area("FMAP", 0, 0x200), image.Area("COREBOOT", 0x400, 0x400)]
GOOD = image.Image(0x800, AREAS).put("COREBOOT", image.empty_region(0x400)).data()
CELLS = image.Component(b"x", b"data"), image.Component(b"d", b"data", offset=24)
DAMAGED = image.Image(0x800, AREAS).put("COREBOOT", image.join(*CELLS, size=0x400)).data()
BOARD = {"board.fmd": "F 64K { FMAP 1K }", "bad.fmd": "F"}
VERSION = "3.2"


def listing(*names):
    """Returns the rows of components with four bytes of content, each in a cell of 64 bytes."""
    return "".join(f"{name}\t{at * 64:#x}\traw\t4\tnone\n" for at, name in enumerate(names))


class Usages(ProgramTest):
    programs = NAMES

    def test_the_usage_of_cbfstool(self):
        self.check("cbfstool", output=(
            "usage: cbfstool IMAGE COMMAND [OPTIONS]\n"
            "commands: print layout extract add remove read write create\n"))

    def test_the_usage_of_fmaptool(self):
        self.check("fmaptool", output="usage: fmaptool INPUT.fmd OUTPUT\n")

    def test_the_usage_of_cbfscheck(self):
        self.check("cbfscheck", status=2, message=(
            "usage: cbfscheck [OPTIONS] IMAGE\n"
            "       cbfscheck [OPTIONS] OLD NEW\n"
            "       cbfscheck --help | --version\n"))

    def test_the_usage_of_cbfsseal(self):
        self.check("cbfsseal", status=2, message=(
            "usage: cbfsseal [-v] [--allow-unhashed] IMAGE\n"
            "       cbfsseal --help | --version\n"))

    def test_the_versions(self):
        for name in ["cbfscheck", "cbfsseal"]:
            self.check(f"{name} --version", output=f"{name} {VERSION}\n")

    def test_a_bad_command_line(self):
        for line, message in [
            ("cbfstool image.rom list", "cbfstool: bad command line\n"),
            ("fmaptool board.fmd", "fmaptool: bad command line\n"),
            ("fmaptool board.fmd new.fmap -x", "fmaptool: bad command line\n"),
            ("cbfscheck --bogus", "cbfscheck: unknown option '--bogus' (see cbfscheck --help)\n"),
            ("cbfsseal --bogus", "cbfsseal: bad command line (see cbfsseal --help)\n"),
            ("cbfsseal -v", "cbfsseal: bad command line (see cbfsseal --help)\n"),
        ]:
            with self.subTest(line):
                self.check(line, {"image.rom": GOOD, **BOARD}, 2, message=message)

    def test_an_argument_that_is_not_utf_8(self):
        for name, status, message in [
            ("cbfstool", 2, "cbfstool: bad command line\n"),
            ("fmaptool", 2, "fmaptool: bad command line\n"),
            ("cbfscheck", 2, "cbfscheck: an argument is not UTF-8\n"),
            ("cbfsseal", 2, "cbfsseal: bad command line (see cbfsseal --help)\n"),
        ]:
            with self.subTest(name):
                words = [program(name).encode(), b"\xff", b"print"]
                done = subprocess.run(words, stdout=subprocess.PIPE, stderr=subprocess.PIPE)
                seen = done.returncode, done.stdout, done.stderr.decode()
                self.assertEqual(seen, (status, b"", message))


class Results(ProgramTest):
    """The statuses of refused and bad images."""

    programs = NAMES

    def test_the_statuses(self):
        for line, status in [
            ("cbfstool image.rom print", 0), ("cbfstool image.rom print -r NONE", 1),
            ("cbfstool none.rom print", 1), ("fmaptool board.fmd new.fmap", 0),
            ("fmaptool bad.fmd new.fmap", 1), ("fmaptool none.fmd new.fmap", 1),
            ("cbfscheck image.rom", 0), ("cbfscheck damaged.rom", 1), ("cbfscheck none.rom", 2),
            ("cbfsseal image.rom", 1), ("cbfsseal none.rom", 1),
        ]:
            with self.subTest(line):
                folder = self.folder({"image.rom": GOOD, "damaged.rom": DAMAGED, **BOARD})
                self.assertEqual(folder.run(line).status, status)

    def test_a_message_is_on_standard_error(self):
        self.check("cbfstool image.rom print -r NONE", {"image.rom": GOOD}, 1,
                   message="cbfstool: no such region\n")

    def test_a_file_that_is_missing(self):
        """The message names the file, and no output is made."""
        for line, status, message in [
            ("cbfstool none.rom print", 1, "cbfstool: device fault\n"),
            ("cbfstool image.rom add -n x -t raw -f none", 1, "cbfstool: source fault\n"),
            ("fmaptool none.fmd new.fmap", 1, "fmaptool: read fault\n"),
            ("fmaptool board.fmd none/new.fmap", 1, "fmaptool: output fault\n"),
            ("cbfscheck none.rom", 2, "cbfscheck: none.rom: No such file or directory\n"),
            ("cbfscheck a.rom b.rom", 2, "cbfscheck: a.rom: No such file or directory\n"),
            ("cbfscheck image.rom b.rom", 2, "cbfscheck: b.rom: No such file or directory\n"),
            ("cbfscheck .", 2, "cbfscheck: .: Is a directory\n"),
            ("cbfsseal none.rom", 1, "cbfsseal: device fault\n"),
        ]:
            with self.subTest(line):
                self.check(line, {"image.rom": GOOD, **BOARD}, status, message=message)

    def test_a_source_that_is_too_large(self):
        with tempfile.TemporaryDirectory() as place:
            path = os.path.join(place, "source")
            with open(path, "wb") as file:
                file.truncate(1 << 32)
            words = ["cbfstool", "image.rom", "add", "-n", "x", "-t", "raw", "-f", path]
            self.check(words, {"image.rom": GOOD}, 1, message="cbfstool: image too large\n")


class FullOutputs(ProgramTest):
    """An output that takes no byte is a fault, except after a refusal."""

    programs = NAMES

    def refused(self, line, status, message):
        self.check(["sh", "-c", line], {"image.rom": GOOD, "damaged.rom": DAMAGED, **BOARD},
                   status, message=message)

    def test_an_output_fault(self):
        for line, status, message in [
            ("cbfstool image.rom print > /dev/full", 1, "cbfstool: output fault\n"),
            ("cbfstool image.rom layout > /dev/full", 1, "cbfstool: output fault\n"),
            ("cbfstool image.rom read -f /dev/full", 1, "cbfstool: output fault\n"),
            ("cbfstool > /dev/full", 1, "cbfstool: output fault\n"),
            ("fmaptool board.fmd /dev/full", 1, "fmaptool: output fault\n"),
            ("cbfscheck image.rom > /dev/full", 2, "cbfscheck: output fault\n"),
            ("cbfscheck --help > /dev/full", 2, "cbfscheck: output fault\n"),
            ("cbfsseal --help > /dev/full", 1, "cbfsseal: output fault\n"),
        ]:
            with self.subTest(line):
                self.refused(line, status, message)

    def test_a_refusal_precedes_the_output_fault(self):
        line = "cbfstool damaged.rom print > /dev/full"
        self.refused(line, 1, "cbfstool: damaged entry at 0x40: offset\n")

    def test_the_rows_before_a_refusal(self):
        self.check("cbfstool damaged.rom print", {"damaged.rom": DAMAGED}, 1, listing("x"),
                   "cbfstool: damaged entry at 0x40: offset\n")


class Seals(ProgramTest):
    """What cbfsseal prints."""

    programs = ("cbfsseal",)

    def verified(self, *cells, digests=None):
        """Returns an image with these components, and outdated or the given digests."""
        areas = [*AREAS, image.Area("BOOTBLOCK", 0x800, 0x200)]
        made = image.Image(0xA00, areas)
        used = len(image.join(*cells))
        made.put("COREBOOT", image.join(*cells, image.FreeEntry(0x400 - used)))
        return made.put("BOOTBLOCK", digests or image.anchor(image.SHA256, bytes(32), bytes(32)))

    def test_the_digests(self):
        made = self.verified()
        sealed = image.sealed_anchor(image.SHA256, [], made.map)
        digests = image.metadata_digest(image.SHA256, []), image.digest(image.SHA256, made.map)
        after = self.verified(digests=sealed).data()
        for state, before in [("renewed", made.data()), ("valid", after)]:
            self.check("cbfsseal image.rom -v", {"image.rom": before}, output=(
                f"metadata sha256 {digests[0].hex()} {state}\n"
                f"flashmap sha256 {digests[1].hex()} {state}\n"),
                left={"image.rom": after} if state == "renewed" else None)

    def test_a_component_without_a_digest(self):
        """The message ends with the name, however long it is."""
        name = b"a long name of a component"
        made = self.verified(image.Component(name, b"data"))
        shown = name.decode().replace(" ", "\\x20")
        self.check("cbfsseal image.rom", {"image.rom": made.data()}, 1, message=(
            f"cbfsseal: no digest of the anchor's algorithm at 0x0: {shown}\n"))
        run = self.folder({"image.rom": made.data()}).run("cbfsseal --allow-unhashed image.rom")
        self.assertEqual((run.status, run.message), (0, b""))

    def test_a_file_with_the_name_of_an_option(self):
        folder = self.folder({"--help": self.verified().data()})
        run = folder.run("cbfsseal -- --help")
        self.assertEqual((run.status, run.output, run.message), (0, b"", b""))

    def test_the_help(self):
        run = self.folder().run("cbfsseal --help")
        text = " ".join(run.output.decode().split())
        self.assertIn("Exit status: 0 if both digests are right now, 1 if the image is refused, "
                      "2 for a bad command line.", text)
        self.assertEqual(run.status, 0)


if __name__ == "__main__":
    unittest.main()
