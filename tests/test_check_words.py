"""Refused command lines of cbfscheck: many arguments, and arguments that a terminal must not get.

A message quotes an argument or a path. A character that controls a terminal, has no shape or
changes the direction of others is quoted as `\\x` and two digits for each of its bytes.
"""

import resource
import sys
import unicodedata
import unittest

from tests import image
from tests.programs import Folder, ProgramTest

MANY = 100_000
# Processor time of one command, in seconds.
TIME = 1.0
SEE = " (see cbfscheck --help)\n"

# Characters without a shape that Unicode counts as letters or marks: fillers, selectors, joiners.
SHAPELESS = [0x34f, 0x61c, 0x115f, 0x1160, 0x17b4, 0x17b5, *range(0x180b, 0x1810), 0x200e, 0x200f]
SHAPELESS += [0x3164, *range(0xfe00, 0xfe10), 0xffa0, *range(0xfff9, 0xfffc)]
SHAPELESS += range(0xe0100, 0xe01f0)
# The classes of Unicode's bidirectional algorithm for characters that are removed, or that set a
# direction.
DIRECTIONS = {"BN", "LRE", "RLE", "LRO", "RLO", "PDF", "LRI", "RLI", "FSI", "PDI"}


def small_image():
    """Returns an image with the areas FMAP and COREBOOT, and a component `a`."""
    areas = [image.Area("FMAP", 0, 0x400), image.Area("COREBOOT", 0x400, 0x400)]
    component = image.Component(b"a", b"data")
    free = image.FreeEntry(0x400 - len(component.bytes), keeps=bytes(4))
    return image.Image(0x800, areas).put("COREBOOT", image.join(component, free)).data()


def is_hidden(code):
    """Returns whether Unicode's data says that a character controls, or has no shape."""
    char = chr(code)
    return (
        unicodedata.category(char) in ("Cc", "Zl", "Zp")
        or unicodedata.bidirectional(char) in DIRECTIONS or code in SHAPELESS
    )


def is_plain(code):
    """Returns whether Unicode's data says that a character is a letter, number or sign."""
    return not is_hidden(code) and unicodedata.category(chr(code))[0] in "LNPS"


def quoted(text):
    """Returns a text as a message quotes it."""
    return "".join(
        "".join(f"\\x{byte:02x}" for byte in char.encode()) if is_hidden(ord(char)) else char
        for char in text
    )


class ManyWords(ProgramTest):
    """A line with many arguments is answered in a second, with the message for its first ones."""

    programs = ("cbfscheck",)

    def refuses(self, words, text):
        """Checks the message of a line, and its processor time."""
        folder = self.folder({"image.rom": small_image()})
        before = resource.getrusage(resource.RUSAGE_CHILDREN)
        run = folder.run(["cbfscheck", *words])
        after = resource.getrusage(resource.RUSAGE_CHILDREN)
        seconds = after.ru_utime + after.ru_stime - before.ru_utime - before.ru_stime
        shown = " ".join(words[:4])
        self.assertEqual((run.status, run.output), (2, b""), shown)
        self.assertEqual(run.message.decode(), f"cbfscheck: {text}{SEE}", shown)
        self.assertLess(seconds, TIME, shown)

    def test_arguments_of_each_kind(self):
        for words, text in [
            (["c"], "too many images: 'c'"),
            ([""], "too many images: ''"),
            (["-"], "too many images: '-'"),
            (["--none"], "unknown option '--none'"),
            (["-x"], "unknown option '-x'"),
            (["-v"], "an option is given twice at '-v'"),
            (["--json"], "an option is given twice at '--json'"),
            (["--list"], "an option is given twice at '--list'"),
            (["--json=x"], "unexpected value in '--json=x'"),
            (["-r", "A"], "an option is given twice at 'A'"),
            (["-rA"], "an option is given twice at '-rA'"),
            (["--keep=A"], "an option is given twice at '--keep=A'"),
            (["--need", "A:a"], "an option is given twice at 'A:a'"),
            (["-r"], "no value for option '-r'"),
            (["--need"], "no value for option '--need'"),
            (["--"], "unknown option '--'"),
        ]:
            with self.subTest(words=words):
                self.refuses(words * (MANY // len(words)), text)

    def test_a_wrong_argument_before_many(self):
        for first, text in [
            (["--none"], "unknown option '--none'"),
            (["a", "b", "c"], "too many images: 'c'"),
            (["-v", "a", "-v"], "an option is given twice at '-v'"),
            (["-r", "--json"], "no value for option '-r'"),
        ]:
            with self.subTest(first=first):
                self.refuses([*first, *["x"] * MANY], text)

    def test_all_options_before_many(self):
        """The longest line that is accepted, with a wrong argument after it, and many more."""
        options = ["-r", "A", "-v", "--json", "--list", "--keep", "A", "--keep-preserved"]
        options += ["--all-hashed", "--need", "A:a"]
        images = ["image.rom", "image.rom"]
        self.refuses([*options, *images, *["c"] * MANY], "too many images: 'c'")
        self.refuses([*options, "--", *images, *["-v"] * MANY], "unknown option '-v'")
        self.refuses([*options, "-r", "B", "--", *images, *["c"] * MANY],
                     "an option is given twice at 'B'")

    def test_long_lists(self):
        """Lists of 30,000 names in one argument."""
        areas = ",".join(["A"] * 30_000)
        self.refuses(["-r", areas + ",", "image.rom"], f"bad list of areas '{areas},'")
        needs = ",".join(["A:a"] * 30_000)
        self.refuses(["--need", needs + ",b", "image.rom"], "bad need 'b'")


class Quotes(ProgramTest):
    """A message is one line of shown characters, whatever an argument has."""

    programs = ("cbfscheck",)

    # an escape sequence, a line feed, DEL, a C1 control, a zero-width space, a change of direction
    HOSTILE = "\x1b[31m\n\x7f\x9b\u200b\u202eé€🙂\\"
    QUOTED = "\\x1b[31m\\x0a\\x7f\\xc2\\x9b\\xe2\\x80\\x8b\\xe2\\x80\\xaeé€🙂\\"

    def test_each_place_of_an_argument(self):
        hostile, shown = self.HOSTILE, self.QUOTED
        for words, text in [
            ([f"--{hostile}"], f"unknown option '--{shown}'"),
            (["a", "b", hostile], f"too many images: '{shown}'"),
            ([f"--json={hostile}"], f"unexpected value in '--json={shown}'"),
            (["-r", "A", "-r", hostile], f"an option is given twice at '{shown}'"),
            (["-r", f"A,,{hostile}", "a"], f"bad list of areas 'A,,{shown}'"),
            (["--keep", f"{hostile},", "a", "b"], f"bad list of areas '{shown},'"),
            (["--need", hostile, "a"], f"bad need '{shown}'"),
            (["--need", f"A:a@{hostile}", "a"], f"bad need 'A:a@{shown}'"),
        ]:
            with self.subTest(text=text):
                self.check(["cbfscheck", *words], status=2, message=f"cbfscheck: {text}{SEE}")

    def test_each_place_of_a_path(self):
        hostile, shown = self.HOSTILE, self.QUOTED
        name = "image.rom"
        folder = self.folder({name: small_image()})
        (folder.path / hostile).mkdir()
        (folder.path / "null\n").symlink_to("/dev/null")
        # (beside the folder, whose files are read before and after each command)
        large = self.folder().path / "large\n"
        with open(large, "wb") as file:
            file.truncate(2 ** 32)
        for paths, text in [
            ([f"{hostile}x"], f"{shown}x: No such file or directory"),
            ([hostile], f"{shown}: Is a directory"),
            (["null\n"], "null\\x0a: device fault"),
            ([str(large)], f"{large.parent}/large\\x0a: image too large"),
            ([name, f"{hostile}x"], f"{shown}x: No such file or directory"),
            ([f"{hostile}x", name], f"{shown}x: No such file or directory"),
            ([f"{hostile}x", "null\n"], f"{shown}x: No such file or directory"),
        ]:
            with self.subTest(text=text):
                run = folder.run(["cbfscheck", "--", *paths])
                self.assertEqual((run.status, run.output), (2, b""))
                self.assertEqual(run.message.decode(), f"cbfscheck: {text}\n")

    def test_each_character(self):
        """Unicode's data, from Python: each control is quoted, each sign stays as it is."""
        codes = [code for code in range(1, sys.maxunicode + 1) if not 0xd800 <= code < 0xe000]
        known = [chr(code) for code in codes if is_hidden(code) or is_plain(code)]
        self.assertGreater(sum(is_hidden(ord(char)) for char in known), 300)
        folder = self.folder()
        for start in range(0, len(known), 30_000):
            text = "".join(known[start:start + 30_000])
            run = folder.run(["cbfscheck", "a", "b", f"x{text}"])
            expected = f"cbfscheck: too many images: 'x{quoted(text)}'{SEE}"
            self.assertEqual((run.status, run.output), (2, b""))
            self.assertEqual(run.message.decode(), expected)


if __name__ == "__main__":
    unittest.main()
