"""cbfscheck: option files, an argument @FILE that stands for the arguments in the file."""

import unittest

from tests.findings import CheckTest, patched
from tests.programs import HAS_COMPILER, Faults, if_memory_can_be_refused
from tests.samples import Sample

HASHES = Sample("hashes").image
CHANGED = patched(HASHES, (0x15A0, b"X"))
FILES = {"hashes.rom": HASHES, "image.rom": CHANGED}
HINT = " (see cbfscheck --help)"
# The largest size of an option file.
LIMIT = 65536


class OptionFileTest(CheckTest):
    """A test with option files beside two images."""

    def same(self, status, words, others, **files):
        """Checks that two lines have the same report, which is not empty."""
        files = {**FILES, **files}
        run = self.folder(files).run(f"cbfscheck {others}")
        self.assertEqual((run.status, run.message), (status, b""))
        self.assertTrue(run.output)
        self.check(f"cbfscheck {words}", files, status, run.output)

    def refuses_with(self, message, words, **files):
        """Checks the refusal of a line."""
        self.refuses(2, message, f"cbfscheck {words}", {**FILES, **files})


class Lines(OptionFileTest):
    """The arguments in a line. An empty name makes the message show the whole value."""

    VALUES = [
        ("-r A,,", "A,,"),
        ("-r A,,\n", "A,,"),
        ("-r A,,\r\n", "A,,"),
        ("-r A,,\r", "A,,"),
        ("-r\tA,,\n", "A,,"),
        ("-r \t  A,,\n", "A,,"),
        (" \t-r A,,\n", "A,,"),
        ("-r A,, \t\n", "A,,"),
        ("-r A,, \t\r\n", "A,,"),
        ("-r A,,  B\n", "A,,  B"),
        ("-r A,,\tB\n", r"A,,\x09B"),
        ("-r A\r,,\n", r"A\x0d,,"),
        ("-r 'A,,'\n", "'A,,'"),
        ("-r A,,#B\n", "A,,#B"),
        ("-r A,, # B\n", "A,, # B"),
        ("-r @A,,\n", "@A,,"),
        ("-r=A,,\n", "A,,"),
        ("-rA,,\n", "A,,"),
        ("-r\nA,,\n", "A,,"),
        ("\n \n\t\r\n-r A,,\n\n", "A,,"),
        ("# --jsn\n-r A,,\n", "A,,"),
        (" \t# --jsn\n-r A,,\n", "A,,"),
        ("#\n-r A,,\n#", "A,,"),
        ("# @other\n-r A,,\n", "A,,"),
        ("\u00a0-r \u00e9,,\u3000\n", "\u00e9,,"),
    ]

    def test_each_value(self):
        for text, value in self.VALUES:
            with self.subTest(text):
                self.refuses_with(f"bad list of areas '{value}'{HINT}", "hashes.rom @o", o=text)

    def test_each_wrong_word(self):
        for message, text in [
            ("unknown option '--jsn'", "--jsn yes\n"),
            ("unknown option '--js\u00a0on'", "--js\u00a0on\n"),
            ("unknown option '-v#'", "-v#\n"),
            ("unknown option '-x'", "-v\n-x\n-y\n"),
            ("too many images: 'b'", "-v\na b\n"),
            ("no value for option '-r'", "-v\n-r\n"),
            ("unexpected value in '--json=yes'", "--json=yes\n"),
            ("an option is given twice at '-v'", "-v\n-v\n"),
            ("too many images: 'b'", "--\na\nb\n"),
        ]:
            with self.subTest(text):
                self.refuses_with(message + HINT, "hashes.rom @o", o=text)

    def test_a_file_in_a_file(self):
        for text, line in [("@b\n", "@b"), ("-v\n @b x\r\n@c\n", "@b x"), ("@", "@")]:
            with self.subTest(text):
                message = f"o: option files do not nest: '{line}'{HINT}"
                self.refuses_with(message, "hashes.rom @o", o=text, b="--json\n")

    def test_the_first_file_in_a_file(self):
        message = f"b: option files do not nest: '@x'{HINT}"
        self.refuses_with(message, "--jsn @a @b @c", a="-v\n", b="@x\n@y\n", c="@z\n")

    def test_a_shown_path(self):
        message = rf"a\x09b: option files do not nest: '@x\x09y'{HINT}"
        self.refuses(2, message, ["cbfscheck", "@a\tb"], {"a\tb": "@x\ty"})


class Uses(OptionFileTest):
    """An option file where an option may stand, and as a value."""

    def test_each_place(self):
        options = "--json --keep COREBOOT"
        for words in "@o hashes.rom image.rom", "hashes.rom @o image.rom", "hashes.rom image.rom @o":
            with self.subTest(words):
                self.same(1, words, words.replace("@o", options),
                          o="--json\n--keep COREBOOT\n")

    def test_two_files(self):
        self.same(1, "@a hashes.rom image.rom @b", "--json hashes.rom image.rom --keep COREBOOT",
                  a="--json\n", b="--keep COREBOOT\n")
        self.refuses_with(f"an option is given twice at '--json'{HINT}", "@a hashes.rom @a",
                          a="--json\n")

    def test_a_policy_before_flashing(self):
        self.same(0, "@o hashes.rom image.rom", "--flash --json -r COREBOOT hashes.rom image.rom",
                  o="# the policy of a board\n--flash\n--json\n-r COREBOOT\n")

    def test_images_in_a_file(self):
        self.same(0, "@o -v", "-v hashes.rom image.rom", o="hashes.rom\nimage.rom\n")
        self.same(0, "@o", "hashes.rom -- image.rom", o="hashes.rom\n--\nimage.rom\n")

    def test_an_empty_file(self):
        for text in "", "\n", "# nothing":
            with self.subTest(text):
                self.same(0, "hashes.rom @o", "hashes.rom", o=text)
                self.refuses_with(f"no image{HINT}", "@o", o=text)

    def test_a_value(self):
        """A file stands for a value too, unless an equals sign or the letter precedes it."""
        self.same(1, "hashes.rom image.rom --keep @o", "hashes.rom image.rom --keep COREBOOT",
                  o="COREBOOT\n")
        for words in "-r=@o,,", "-r@o,,":
            with self.subTest(words):
                self.refuses_with(f"bad list of areas '@o,,'{HINT}", f"hashes.rom {words}")

    def test_after_the_options(self):
        """The arguments after -- are replaced too."""
        self.same(0, "-v -- @o", "-v hashes.rom", o="hashes.rom\n")

    def test_an_image_with_an_at_sign(self):
        files = {**FILES, "@image": HASHES, "image": "-v\n"}
        run = self.folder(files).run("cbfscheck hashes.rom")
        self.check("cbfscheck ./@image", files, 0, run.output)

    def test_the_help_and_the_version(self):
        self.check("cbfscheck @o", {"o": "--version\n"}, output="cbfscheck 3.2\n")
        run = self.folder().run("cbfscheck --help")
        self.check("cbfscheck --jsn @o", {"o": "-h\n"}, output=run.output)


class Refusals(OptionFileTest):
    """A file that has no text is refused before anything else, in the order of the arguments."""

    def folder_of_kinds(self):
        """Returns a folder with option files and a folder."""
        folder = self.folder({**FILES, "v": "-v\n", "latin": b"-r \xe9\n", "@v": "-v\n"})
        (folder.path / "folder").mkdir()
        return folder

    def test_each_kind(self):
        absent = "No such file or directory"
        for message, words in [
            (f"absent: {absent}", "@absent hashes.rom"),
            (f"absent: {absent}", "@v @absent @folder"),
            ("folder: Is a directory", "@v @folder @absent"),
            ("latin: option file is not UTF-8", "@latin @absent"),
            (f"absent: {absent}", "absent.rom --jsn @absent"),
            (f"absent: {absent}", "--help @absent"),
            (f"absent: {absent}", "-- @absent"),
            ("v/o: device fault", "@v/o"),
            (f": {absent}", "@"),
            (f"@absent: {absent}", "@@absent"),
        ]:
            with self.subTest(words):
                self.refuses(2, message, f"cbfscheck {words}", self.folder_of_kinds())

    def test_a_path_with_an_at_sign(self):
        message = f"cbfscheck: no value for option '-r'{HINT}\n"
        self.check("cbfscheck hashes.rom -r @@v", self.folder_of_kinds(), 2, message=message)

    def test_the_largest_file(self):
        start = "--jsn\n#"
        for size, message in [(LIMIT, f"unknown option '--jsn'{HINT}"),
                              (LIMIT + 1, "o: option file larger than 64 KiB"),
                              (1 << 20, "o: option file larger than 64 KiB")]:
            with self.subTest(size):
                text = start + "x" * (size - len(start))
                self.refuses_with(message, "@o hashes.rom", o=text)

    def test_a_large_file_that_is_not_utf_8(self):
        self.refuses_with("o: option file is not UTF-8", "@o", o=b"\xff" * LIMIT)
        self.refuses_with("o: option file larger than 64 KiB", "@o", o=b"\xff" * (LIMIT + 1))

    def test_a_pipe(self):
        """The output of another command is an option file too."""
        run = self.folder(FILES).run("cbfscheck hashes.rom --json")
        self.check("cbfscheck hashes.rom @/dev/stdin", FILES, output=run.output,
                   stdin=b"--json\n")
        self.refuses(2, "/dev/zero: option file larger than 64 KiB", "cbfscheck @/dev/zero")

    def test_a_file_without_permission(self):
        folder = self.folder({**FILES, "o": "-v\n"})
        (folder.path / "o").chmod(0o200)
        self.refuses(2, "o: Permission denied", "cbfscheck @o hashes.rom", folder, as_nobody=True)

    @unittest.skipUnless(HAS_COMPILER, "cc")
    def test_a_call_that_fails(self):
        for message, change in [("o: device fault", "read 1 1 EIO"),
                                ("o: device fault", "read 2 2 EIO"),
                                ("o: Permission denied", "open 1 1 EACCES"),
                                ("out of memory", "open 1 1 ENOMEM")]:
            with self.subTest(change):
                self.refuses(2, message, "cbfscheck hashes.rom @o", {**FILES, "o": "-v\n"},
                             faults=Faults("o", change))

    @if_memory_can_be_refused
    def test_refused_memory(self):
        """Each refused request is reported, or spared."""
        run = self.folder(FILES).run("cbfscheck hashes.rom -v")
        reported, _ = self.refuse_memory("cbfscheck hashes.rom @o", {**FILES, "o": "-v\n"},
                                         run.output, status=2)
        self.assertTrue(reported)


if __name__ == "__main__":
    unittest.main()
