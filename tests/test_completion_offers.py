"""Compares what each shell offers for the last word of a line with a table.

The scripts of tests/shells ask a shell without a terminal, so that a line takes little time;
tests/completions.py types lines into a terminal.
"""

import fcntl
import re
import shutil
import tempfile
import time
import unittest

from tests import image
from tests.programs import NAMES, TOP, Folder, ProgramTest, locked

SHELLS = TOP / "tests" / "shells"
FORMAT = (TOP / "docs" / "FORMAT.md").read_text(encoding="utf-8")
ASKED = {
    "bash": ["bash", "--norc", "--noprofile", SHELLS / "complete.bash"],
    "zsh": ["timeout", "60", "zsh", "-f", SHELLS / "complete.zsh"],
    "fish": ["timeout", "60", "fish", "--no-config", SHELLS / "complete.fish"],
}
FILES = "board.fmap|board.fmd|hashes.rom|image.rom"
COMMANDS = "print|layout|extract|add|remove|read|write|create"
AREAS = ("SI_ALL|SI_DESC|SI_ME|SI_BIOS|RW_MRC_CACHE|RW_SECTION_A|VBLOCK_A|FW_MAIN_A|RW_FWID_A|RO|"
         "FMAP|GBB|COREBOOT")
RW = "RW_MRC_CACHE|RW_SECTION_A|RW_FWID_A"
# The types of FORMAT.md that `add` takes, and the digests of its table of the hash attribute.
TYPES = [name for row in re.findall(r"^\| 0x\w+ \| ([^|]+) \| 0x\w+ \| ([^|]+) \|$", FORMAT, re.M)
         for name in row if name not in ("deleted", "null")]
DIGESTS = "sha256|sha512"
CHECK_OPTIONS = "--need|--all-hashed|--list|--json|--flash|--keep|--keep-preserved|--help|--version"

# A line, and the words that each shell offers for its end. (Of a list with commas, the last names.)
OFFERS = [
    ("cbfstool ", FILES), ("cbfstool im", "image.rom"), ("cbfstool image.rom ", COMMANDS),
    ("cbfstool image.rom re", "remove|read"),
    # ---- the options of each command, without those that the line has
    ("cbfstool image.rom print -", "-r|-v"), ("cbfstool image.rom layout -", ""),
    ("cbfstool image.rom extract -", "-r|-n|-f"),
    ("cbfstool image.rom add -", "-r|-n|-f|-t|-a|-b|-A"),
    ("cbfstool image.rom remove -", "-r|-n"), ("cbfstool image.rom read -", "-r|-f"),
    ("cbfstool image.rom write -", "-r|-f"), ("cbfstool image.rom create -", "-M|-r"),
    ("cbfstool image.rom add -a 64 -rCOREBOOT -", "-n|-f|-t|-A"),
    ("cbfstool image.rom add -t raw -b 0 -n=a -", "-r|-f|-A"),
    ("cbfstool image.rom print -v -", "-r"), ("cbfstool image.rom layout -rFW", ""),
    # ---- regions
    ("cbfstool image.rom print -r ", AREAS), ("cbfstool image.rom read -r RW_", RW),
    ("cbfstool absent.rom read -r ", ""), ("cbfstool image.rom extract -r ", "COREBOOT|FW_MAIN_A"),
    ("cbfstool image.rom add -r FW", "FW_MAIN_A"),
    ("cbfstool image.rom remove -r ", "COREBOOT|FW_MAIN_A"),
    ("cbfstool image.rom write -r G", "GBB"),
    ("cbfstool new.rom create -M board.fmap -r C", "COREBOOT"),
    ("cbfstool new.rom create -M board.fmap -r COREBOOT,FW", "FW_MAIN_A"),
    ("cbfstool new.rom create -r ", ""),
    # ---- components
    ("cbfstool image.rom extract -n t/mrc", "t/mrc|t/mrc_cache"),
    ("cbfstool image.rom remove -n un", "unknown"),
    ("cbfstool image.rom extract -r FW_MAIN_A -n ", "(empty)|a:b|other"),
    ("cbfstool image.rom extract -f board.fmd -rFW_MAIN_A -n o", "other"),
    ("cbfstool image.rom extract -r SMMSTORE -n ", ""),
    ("cbfstool hashes.rom remove -n ", "h sha1|h sha256|h sha512|h none|gap"),
    ("cbfstool hashes.rom remove -n h\\ sha", "h sha1|h sha256|h sha512"),
    ("cbfstool image.rom add -n ", ""), ("cbfstool image.rom extract -n \\(", ""),
    ("cbfstool image.rom extract -r FW_MAIN_A -n \\(", "(empty)"),
    # ---- types, digests and files
    ("cbfstool image.rom add -t ", "|".join(TYPES)),
    ("cbfstool image.rom add -t c", "cbfs header|cmos_default|cmos_layout"),
    ("cbfstool image.rom add -A ", DIGESTS),
    ("cbfstool image.rom add -f b", "board.fmap|board.fmd"),
    ("cbfstool new.rom create -M b", "board.fmap|board.fmd"),
    # ---- fmaptool and cbfscheck
    ("fmaptool ", FILES), ("fmaptool board.fmd ", FILES), ("fmaptool board.fmd board.fmap ", ""),
    ("cbfscheck ", FILES), ("cbfscheck image.rom ha", "hashes.rom"),
    ("cbfscheck image.rom hashes.rom ha", ""), ("cbfscheck -", f"-r|-v|{CHECK_OPTIONS}"),
    ("cbfscheck image.rom --", CHECK_OPTIONS),
    ("cbfscheck --keep-preserved --help image.rom --k", "--keep"),
    ("cbfscheck image.rom --l", "--list"),
    ("cbfscheck -r COREBOOT -v image.rom -", CHECK_OPTIONS),
    ("cbfscheck --json --keep GBB image.rom -",
     "-r|-v|--need|--all-hashed|--list|--flash|--keep-preserved|--help|--version"),
    ("cbfscheck --keep GBB image.rom ha", "hashes.rom"), ("cbfscheck --keep ", ""),
    ("cbfscheck image.rom -r ", AREAS), ("cbfscheck image.rom --keep ", AREAS),
    ("cbfscheck image.rom hashes.rom -r COREBOOT --keep RW_", RW),
    ("cbfscheck image.rom --keep COREBOOT,FW", "FW_MAIN_A"),
    ("cbfscheck image.rom --need COR", "COREBOOT:"), ("cbfscheck image.rom --need COREBOOT:", ""),
    ("cbfscheck --need COREBOOT:boot image.rom ha", "hashes.rom"), ("cbfscheck --need ", ""),
    ("cbfscheck -r RW_", ""), ("cbfscheck absent.rom -r ", ""),
    ("cbfscheck board.fmd --keep ", ""), ("cbfscheck @board.fmd im", "image.rom"),
    ("cbfscheck @board.fmd image.rom hashes.rom ha", ""),
    ("cbfscheck @board.fmd image.rom --need COR", "COREBOOT:"),
]

# Lines whose last word has an option and the start of its value: the line, the option as it is
# written, and the values. bash offers what follows the last of its marks, zsh what follows the
# option, and fish the whole word.
JOINED = [
    ("cbfstool image.rom read -rRW_", "-r", RW), ("cbfstool image.rom read -r=RW_", "-r=", RW),
    ("cbfstool image.rom extract -rF", "-r", "FW_MAIN_A"),
    ("cbfstool image.rom extract -rFW_MAIN_A -no", "-n", "other"),
    ("cbfstool image.rom add -tcm", "-t", "cmos_default|cmos_layout"),
    ("cbfstool image.rom add -Asha2", "-A", "sha256"),
    ("cbfstool image.rom add -A=sha2", "-A=", "sha256"),
    ("cbfstool image.rom extract -fboa", "-f", "board.fmap|board.fmd"),
    ("cbfstool new.rom create -M board.fmap -rFW", "-r", "FW_MAIN_A"),
    ("cbfstool new.rom create -Mboard.fmap -rCOREBOOT,FW", "-rCOREBOOT,", "FW_MAIN_A"),
    ("cbfscheck image.rom -rRW_", "-r", RW),
    ("cbfscheck image.rom @board", "@", "board.fmap|board.fmd"),
]
# Lines for which nothing is offered while another command has the lock of the image.
WAITING = ["cbfstool image.rom print -r ", "cbfstool image.rom extract -r ",
           "cbfstool image.rom extract -n ", "cbfstool image.rom create -M image.rom -r ",
           "cbfscheck image.rom -r ", "cbfscheck image.rom --keep ", "cbfscheck image.rom --need "]
# Lines for which nothing is offered if `cbfstool` is coreboot's, whose listing is another one.
FOREIGN = ["print -r ", "read -r ", "read -rS", "extract -r ", "extract -n ", "remove -n T",
           "create -M board.fmap -r "]
FOREIGN_TOOL = """#!/bin/sh
echo "This image contains the following sections that can be manipulated with this tool:"
echo
echo "'SI_ALL' (size 8192, offset 0)"
"""


def setUpModule():
    """Makes the folder in which the shells complete."""
    global FOLDER
    samples = {name: (TOP / "samples" / name).read_bytes()
               for name in ("hashes.rom", "board.fmd", "board.fmap")}
    data = bytearray((TOP / "samples" / "types.rom").read_bytes())
    # (the area FW_MAIN_A gets three components, one of which has the name of free space)
    cells = [image.Component(name, samples["board.fmd"]) for name in (b"other", b"a:b", b"(empty)")]
    free = image.FreeEntry(0x1BC0 - len(image.join(*cells)), keeps=b"\xff" * 4)
    data[0x2C00 : 0x2C00 + 0x1BC0] = image.join(*cells, free)
    FOLDER = Folder({**samples, "image.rom": bytes(data)})


def tearDownModule():
    FOLDER.remove()


class Offers:
    """The tests of one shell, which a subclass names."""

    shell = ""
    programs = NAMES

    @classmethod
    def setUpClass(cls):
        super().setUpClass()
        if not shutil.which(cls.shell):
            raise unittest.SkipTest(f"{cls.shell} is not installed")
        cls.home = tempfile.mkdtemp(prefix="home-")
        cls.addClassCleanup(shutil.rmtree, cls.home, ignore_errors=True)

    def offered(self, line, path=None):
        """Returns the words that the shell offers, and for a list with commas its last names."""
        words = [*ASKED[self.shell], TOP / "completion", line]
        if self.shell == "zsh":
            # (the file in which zsh keeps a list of all completions)
            words.append(f"{self.home}/dump")
        environment = {"HOME": self.home, **({"PATH": path} if path else {})}
        run = FOLDER.run(words, environment=environment)
        self.compare(FOLDER, run, "message", b"", run.message)
        lines = run.output.decode().splitlines()
        return sorted(one.rpartition(",")[2] for one in lines)

    def check_line(self, line, words):
        self.assertEqual(self.offered(line), sorted(filter(None, words.split("|"))), line)

    def test_each_line(self):
        self.offered("cbfstool ")
        self.check_rows(self.check_line, OFFERS)

    def test_an_option_with_its_value(self):
        for line, option, words in JOINED:
            before = {"bash": "" if option[-1] == "=" else option, "zsh": "", "fish": option}
            # (fish has no `=` after an option of one letter, and no files after one in the word)
            if self.shell == "fish" and (option[-1] == "=" or option == "-f"):
                continue
            with self.subTest(line):
                start = before[self.shell].rpartition(",")[2]
                wanted = sorted(start + word for word in words.split("|"))
                self.assertEqual(self.offered(line), wanted)

    def test_a_locked_image(self):
        """Nothing is offered of an image that another command has locked, and soon."""
        with locked(FOLDER.path / "image.rom", fcntl.LOCK_EX):
            for line in WAITING:
                with self.subTest(line):
                    begun = time.monotonic()
                    self.assertEqual(self.offered(line), [])
                    self.assertLess(time.monotonic() - begun, 20)

    def test_a_foreign_cbfstool(self):
        tools = self.folder({"cbfstool": FOREIGN_TOOL})
        (tools.path / "cbfstool").chmod(0o755)
        for command in FOREIGN:
            line = f"cbfstool image.rom {command}"
            with self.subTest(line):
                self.assertEqual(self.offered(line, path=f"{tools.path}:/usr/bin:/bin"), [])


class BashOffers(Offers, ProgramTest):
    shell = "bash"

    def test_a_name_with_a_separator(self):
        """bash replaces only what follows the mark."""
        line = "cbfstool image.rom extract -r FW_MAIN_A -n a:"
        self.assertEqual(self.offered(line), ["b"])


class ZshOffers(Offers, ProgramTest):
    shell = "zsh"


class FishOffers(Offers, ProgramTest):
    shell = "fish"


class Tables(unittest.TestCase):
    """The table of the offers is that of the documents."""

    def test_types_and_digests(self):
        self.assertGreater(len(TYPES), 15)
        row = re.search(r"^\| 8 to 11 \| the algorithm: (.*)", FORMAT, re.MULTILINE)[1]
        digests = [f"sha{bits}" for bits in re.findall(r"for SHA-(\d+)", row)]
        self.assertEqual("|".join(digests), DIGESTS)

    def test_the_commands(self):
        text = (TOP / "crates/cbfstool/stdout").read_text(encoding="utf-8")
        self.assertIn(f"commands: {COMMANDS.replace('|', ' ')}\n", text)
        self.assertGreater(len(OFFERS), 60)


if __name__ == "__main__":
    unittest.main()
