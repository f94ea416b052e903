"""cbfscheck: its command line, the errors of it, and forms of a line that mean the same."""

import unittest

from tests.findings import CheckTest, patched
from tests.samples import Sample

HASHES = Sample("hashes").image
CHANGED = patched(HASHES, (0x15A0, b"X"))
NO_MAP = patched(HASHES, (0x1000, b"X"))
FILES = {"hashes.rom": HASHES, "image.rom": CHANGED}


class Errors(CheckTest):
    """A command line that is refused, with status 2 and the reason."""

    LINES = [
        ("unknown option '-V'", "-V"),
        ("unknown option '-x'", "hashes.rom -x"),
        ("unknown option '-q'", "hashes.rom -q"),
        ("unknown option '--jsn'", "--jsn hashes.rom"),
        ("unknown option '--js'", "hashes.rom --js"),
        ("unknown option '--verbose'", "hashes.rom --verbose"),
        ("unknown option '--v'", "hashes.rom --v"),
        ("unknown option '--region'", "hashes.rom --region A"),
        ("unknown option '--r'", "hashes.rom --r A"),
        ("unknown option '--JSON'", "hashes.rom --JSON"),
        ("unknown option '--jsons'", "hashes.rom --jsons"),
        ("unknown option '--kee'", "hashes.rom hashes.rom --kee A"),
        ("unknown option '--keeps'", "hashes.rom hashes.rom --keeps A"),
        ("unknown option '--needs'", "hashes.rom --needs A:a"),
        ("unknown option '--all'", "hashes.rom --all"),
        ("unknown option '--lis'", "hashes.rom --lis"),
        ("unknown option '--lists'", "hashes.rom --lists"),
        ("too many images: 'c.rom'", "hashes.rom hashes.rom c.rom"),
        ("no value for option '-r'", "-r"),
        ("no value for option '-r'", "hashes.rom -r"),
        ("no value for option '--keep'", "hashes.rom hashes.rom --keep"),
        ("no value for option '--need'", "hashes.rom --need"),
        ("unexpected value in '--json=yes'", "hashes.rom --json=yes"),
        ("unexpected value in '--all-hashed=1'", "hashes.rom --all-hashed=1"),
        ("unexpected value in '--list=1'", "hashes.rom --list=1"),
        ("an option is given twice at '-v'", "hashes.rom -v -v"),
        ("an option is given twice at '--json'", "hashes.rom --json --json"),
        ("an option is given twice at '--list'", "hashes.rom --list --list"),
        ("no image", "-r A"),
        ("no image", "-v"),
        ("no image", "-v --json"),
        ("bad list of areas 'A,,B'", "hashes.rom -r A,,B"),
        ("bad list of areas ',A'", "hashes.rom -r ,A"),
        ("bad list of areas 'A,'", "hashes.rom hashes.rom --keep A,"),
        ("bad list of areas ''", "hashes.rom -r ''"),
        ("bad need 'a'", "hashes.rom --need a"),
        ("bad need 'A:'", "hashes.rom --need A:"),
        ("bad need ':a'", "hashes.rom --need :a"),
        ("bad need 'A:a@'", "hashes.rom --need A:a@"),
        ("bad need 'A:a@x'", "hashes.rom --need A:a@x"),
        ("bad need 'A:a@4294967296'", "hashes.rom --need A:a@4294967296"),
        ("bad need 'b'", "hashes.rom --need A:a,b"),
        ("--flash, --keep and --keep-preserved need two images", "--keep A hashes.rom"),
        ("--flash, --keep and --keep-preserved need two images", "--flash hashes.rom"),
        ("--flash, --keep and --keep-preserved need two images",
         "hashes.rom --keep-preserved"),
        ("an option is given twice at 'B'", "hashes.rom -r A -r B"),
        ("an option is given twice at 'B'", "hashes.rom hashes.rom --keep A --keep B"),
        ("an option is given twice at 'A:a'", "hashes.rom --need A:a --need A:a"),
        ("unknown option '-json'", "hashes.rom -json"),
        ("unknown option '-keep'", "hashes.rom hashes.rom -keep A"),
        ("unknown option '-k'", "hashes.rom hashes.rom -k A"),
        ("bad list of areas ''", "hashes.rom -r="),
    ]

    def test_each_error(self):
        for message, words in self.LINES:
            with self.subTest(words):
                self.refuses(2, f"{message} (see cbfscheck --help)", f"cbfscheck {words}", FILES)

    def test_an_argument_that_is_not_utf_8(self):
        self.refuses(2, "an argument is not UTF-8", ["cbfscheck", b"\xff"], FILES)


class Outputs(CheckTest):
    """The help, the version, and an output that cannot be written."""

    def test_the_help_names_each_option(self):
        for option in "-h", "--help":
            run = self.folder().run(f"cbfscheck {option}")
            self.assertEqual((run.status, run.message), (0, b""))
            for name in ["-r", "-v", "--json", "--list", "--all-hashed", "--need", "--keep",
                         "--keep-preserved", "--help", "--version"]:
                self.assertIn(name, run.output.decode())

    def test_the_version(self):
        self.check("cbfscheck --version", output="cbfscheck 3.2\n")

    def test_a_full_device(self):
        """A bad report ends with status 2 too."""
        files = {"hashes.rom": HASHES, "image.rom": NO_MAP}
        for words in ["--help", "--version", "hashes.rom", "image.rom", "image.rom --json",
                      "hashes.rom image.rom", "hashes.rom image.rom --json --keep COREBOOT"]:
            with self.subTest(words):
                self.check(["sh", "-c", f"exec cbfscheck {words} > /dev/full"], files, 2,
                           message="cbfscheck: output fault\n")


class Forms(CheckTest):
    """Options before and between the images, a value in the argument of its option, letters in one
    argument, and images whose names begin with a dash."""

    def same(self, status, words, others, files):
        """Checks that two lines have the same report, which is not empty."""
        run = self.folder(files).run(f"cbfscheck {words}")
        self.assertEqual((run.status, run.message), (status, b""))
        self.assertTrue(run.output)
        self.check(f"cbfscheck {others}", files, status, run.output)

    def test_options_before_the_images(self):
        self.same(1, "hashes.rom image.rom --json --keep COREBOOT -r A",
                  "--json hashes.rom --keep=COREBOOT image.rom -rA", FILES)

    def test_letters_in_one_argument(self):
        self.same(1, "hashes.rom -v -r A,A", "-vr=A,A hashes.rom", FILES)
        self.same(1, "hashes.rom -v -r A,A", "hashes.rom -vr=A,A", FILES)

    def test_images_with_a_dash(self):
        files = {**FILES, "-old": HASHES, "--json": CHANGED}
        self.same(0, "hashes.rom image.rom -v", "-v -- -old --json", files)


if __name__ == "__main__":
    unittest.main()
