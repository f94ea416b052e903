"""Compares the synopsis of cbfstool(1), its options and its bad command lines with the program.

The page says which options a command takes and needs, what holds without one, which types and
digests there are, and which command lines are none. Each statement is tried.
"""

import re
import string
import unittest

from tests import image
from tests.pages import page_text, plain, section
from tests.programs import TOP, ProgramTest

PAGE = page_text("cbfstool.1")
DESCRIPTION = section(PAGE, "DESCRIPTION")
# The texts that the commands take for the arguments of the synopsis.
VALUES = {
    "NAME": "a", "TYPE": "raw", "ALIGNMENT": "64", "OFFSET": "0x800", "HASH": "sha256",
    "REGION": "COREBOOT", "FLASHMAP": "board.fmap",
}
COMMANDS = ["print", "layout", "extract", "add", "remove", "read", "write", "create"]


def board():
    """Returns an image with two regions that differ, and its flash map."""
    areas = [image.Area("FMAP", 0, 0x200), image.Area("COREBOOT", 0x200, 0x1000),
             image.Area("OTHER", 0x1200, 0x1000)]
    made = image.Image(0x2200, areas)
    for name, content in (("COREBOOT", b"first"), ("OTHER", b"second")):
        cell = image.Component(b"a", content)
        free = image.FreeEntry(0x1000 - len(cell.bytes), keeps=b"\xff" * 4)
        made.put(name, image.join(cell, free))
    return made


BOARD = board()
FILES = {"image.rom": BOARD.data(), "board.fmap": BOARD.map, "abc": b"abc",
         "region": BOARD.data()[0x1200:0x2200]}


class Command:
    """A command of the synopsis: the letters that it needs and takes, and the names of values."""

    def __init__(self, text):
        self.name = re.search(r"^\.Cm (\w+)$", text, re.MULTILINE)[1]
        self.needs, self.takes, self.excluding, self.values = [], [], [], {}
        for line in re.findall(r"^\.(?:Op )?Fl .*$", text, re.MULTILINE):
            letters = re.findall(r"Fl (\w)", line)
            for letter, name in re.findall(r"Fl (\w)(?: Ar (\w+))?", line):
                self.values[letter] = name
            (self.takes if line.startswith(".Op") else self.needs).extend(letters)
            self.excluding += [letters] * ("|" in line)

    def option(self, letter):
        """Returns the words of an option that the command takes."""
        name = self.values[letter]
        if name == "FILE":
            return [f"-{letter}", {"add": "abc", "write": "region"}.get(self.name, "out")]
        if name == "NAME" and self.name == "add":
            return [f"-{letter}", "new"]
        return [f"-{letter}", VALUES[name]] if name else [f"-{letter}"]

    def words(self, *letters, without=""):
        """Returns a command line with the needed options, and with these letters."""
        needed = [letter for letter in self.needs if letter not in without]
        options = [word for letter in [*needed, *letters] for word in self.option(letter)]
        return ["cbfstool", "image.rom", self.name, *options]


PARTS = section(PAGE, "SYNOPSIS").split("\n.Nm\n")[1:]
SYNOPSIS = {one.name: one for one in map(Command, PARTS)}


def item(letter):
    """Returns the text of an option in the description."""
    return re.split(r"^\.It Fl |^\.El$", DESCRIPTION.split(f"\n.It Fl {letter}", 1)[1],
                    flags=re.MULTILINE)[0]


def quoted(text):
    """Returns the texts that the page marks as literal."""
    found = re.findall(r'^\.Ql (.*?)(?: [,.])?$', text, re.MULTILINE)
    return [plain(one).strip('"') for one in found]


class SynopsisTest(ProgramTest):
    programs = ("cbfstool", "fmaptool")

    def status(self, words):
        """Returns the status of a command line on the board."""
        folder = self.folder(FILES)
        run = folder.run(words)
        folder.remove()
        return run.status

    def results(self, words):
        """Returns all that a command line does on the board."""
        run = self.folder(FILES).run(words)
        self.assertEqual(run.status, 0, (words, run.message))
        return run.output, run.after


class Options(SynopsisTest):
    """Each command takes the options of the synopsis, and no others."""

    def test_the_commands(self):
        self.assertEqual(list(SYNOPSIS), COMMANDS)
        usage = self.folder().run("cbfstool").output.decode()
        self.assertEqual(usage.splitlines()[0], "usage: cbfstool IMAGE COMMAND [OPTIONS]")
        self.assertIn(f"\ncommands: {' '.join(COMMANDS)}\n", usage)
        stated = re.findall(r"^\.Ar (\S+)", section(page_text("fmaptool.1"), "SYNOPSIS"), re.M)
        usage = self.folder().run("fmaptool").output.decode()
        self.assertEqual(usage, f"usage: fmaptool {' '.join(stated)}\n")

    def check_command(self, name, command):
        self.assertEqual(self.status(command.words()), 0)
        for letter in command.needs:
            self.assertEqual(self.status(command.words(without=letter)), 2, f"no -{letter}")
        for letter in command.takes:
            self.assertEqual(self.status(command.words(letter)), 0, f"-{letter}")
            self.assertEqual(self.status(command.words(letter, letter)), 2, f"two of -{letter}")
        for letters in command.excluding:
            self.assertEqual(self.status(command.words(*letters)), 2, letters)

    def test_each_command(self):
        self.check_rows(self.check_command, list(SYNOPSIS.items()))

    def check_others(self, name, command):
        known = {*command.needs, *command.takes}
        for letter in sorted(set(string.ascii_letters) - known):
            for option in (f"-{letter}", f"-{letter}=1"):
                words = [*command.words(), option]
                self.assertEqual(self.status(words), 2, f"{name} {option}")

    def test_no_command_takes_another_letter(self):
        self.check_rows(self.check_others, list(SYNOPSIS.items()))


class Defaults(SynopsisTest):
    """Without an option a command does what it does with the default of the page."""

    def test_the_region(self):
        [default] = re.findall(r"The default is\n\.Ql (\w+) \.", item("r"))
        for command in SYNOPSIS.values():
            if "r" in command.takes:
                with self.subTest(command.name):
                    without = self.results(command.words())
                    self.assertEqual(self.results([*command.words(), "-r", default]), without)
                    if command.name != "print":
                        self.assertNotEqual(
                            self.results([*command.words(), "-r", "OTHER"]), without)

    def test_the_others(self):
        """`add` aligns to 1, and stores no digest."""
        self.assertIn("\nThe default is any place.\n", item("a"))
        self.assertIn("\nThe default is none.\n", item("A"))
        add = SYNOPSIS["add"].words()
        self.assertEqual(self.results([*add, "-a", "1"]), self.results(add))
        self.assertNotEqual(self.results([*add, "-a", "1024"]), self.results(add))
        folder = self.folder(FILES)
        folder.run(add)
        self.assertNotIn(b"\thash", folder.run("cbfstool image.rom print -v").output)
        self.assertEqual(len(re.findall("[Tt]he default is", DESCRIPTION)), 3)

    def test_the_defaults_of_the_readme(self):
        readme = (TOP / "README.md").read_text(encoding="utf-8")
        [region] = re.findall(r"^\| `-r .*`(\w+)` without it", readme, re.MULTILINE)
        self.assertIn(f"The default is\n.Ql {region} .", item("r"))
        self.assertRegex(readme, r"(?m)^\| `-A .*none without it")


class Values(SynopsisTest):
    """Types, digests and numbers of the page are those that `add` takes."""

    def added(self, *options):
        """Adds a component with options, and returns the rows of the listing that it has."""
        folder = self.folder(FILES)
        run = folder.run(["cbfstool", "image.rom", "add", "-n", "new", "-f", "abc", *options])
        self.assertEqual(run.status, 0, (options, run.message))
        rows = folder.run("cbfstool image.rom print -v").output.decode().splitlines()
        at = next(number for number, row in enumerate(rows) if row.startswith("new\t"))
        end = next((number for number in range(at + 1, len(rows)) if rows[number][0] != "\t"))
        return rows[at:end], run.after["image.rom"]

    def test_each_type(self):
        """It is listed with its name, and makes no attribute."""
        types = quoted(item("t").split("or a number")[0])
        self.assertGreater(len(types), 15)
        for name in types:
            with self.subTest(name):
                [row], _ = self.added("-t", name)
                self.assertEqual(row.split("\t")[2], name)

    def test_no_type_is_left_out(self):
        source = (TOP / "crates/flash_format/src/type_names.rt").read_text(encoding="utf-8")
        table = source.split("const TYPES", 1)[1].split("];", 1)[0]
        known = set(re.findall(r'"(.*)"\),$', table, re.MULTILINE)) - {"null", "deleted"}
        self.assertEqual(set(quoted(item("t").split("or a number")[0])), known)

    def test_each_digest(self):
        digests = quoted(item("A").split("The default")[0])
        self.assertEqual(digests, ["sha256", "sha512"])
        for name in digests:
            rows, _ = self.added("-t", "raw", "-A", name)
            self.assertTrue(any(row.startswith(f"\thash\t{name}\t") for row in rows), rows)

    def test_leading_zeros(self):
        """010 is ten, and not eight."""
        self.assertIn("\n.Ql 010\n", DESCRIPTION)
        at = [self.added("-t", "raw", "-b", text) for text in ("02048", "2048", "0x800")]
        self.assertEqual(at[0], at[1])
        self.assertEqual(at[0], at[2])

    def test_gaps(self):
        """The gap between fields and content has each length up to that of the page."""
        [most] = re.findall(r"Up to (\d+) bytes of 0xff, the gap, may separate fields", PAGE)
        gaps = set()
        for offset in range(0x800, 0x841):
            [row, *_], _ = self.added("-t", "raw", "-b", str(offset))
            # (the head and the field of the name have 28 bytes)
            gaps.add(offset - int(row.split("\t")[1], 0) - 28)
        self.assertEqual(gaps, set(range(int(most) + 1)))


class Areas(SynopsisTest):
    """The commands that refuse an area are those that the page names under the refusal."""

    def test_each_command(self):
        areas = [image.Area("FMAP", 0, 0x200), image.Area("ODD", 0x200, 100),
                 image.Area("PLAIN", 0x280, 64)]
        made = image.Image(0x400, areas)
        files = {**FILES, "image.rom": made.data(), "board.fmap": made.map}
        for number, area, text in [
            (7, "ODD", "bad region size"), (8, "PLAIN", "not a CBFS region"),
        ]:
            part = PAGE.split(f"\n.It {number} Qq {text}\n")[1].split("\n.It ")[0]
            named = re.search(r"\.Pq Cm (.*)", part)[1]
            for command in SYNOPSIS.values():
                if "r" in command.takes:
                    with self.subTest(command.name, area=area):
                        run = self.folder(files).run([*command.words(), "-r", area])
                        is_named = re.search(rf"\b{command.name}\b", named) is not None
                        self.assertEqual(run.message == f"cbfstool: {text}\n".encode(), is_named)


class BadLines(SynopsisTest):
    """Each example of a bad command line in the page is one."""

    def lines(self):
        """Returns the examples as lists of words, by the numbers of their items."""
        text = section(PAGE, "DIAGNOSTICS").split("\n.It 20 Qq bad command line\n")[1]
        text = re.split(r"^\.It 21 |^\.Ss ", text, flags=re.MULTILINE)[0]
        for number, part in enumerate(text.split("\n.It\n")[1:], 1):
            for row in re.findall(r"^\.((?:Cm|Li) .*?)(?: ?\\&)? ?[,:]$", part, re.MULTILINE):
                words = []
                for mark, word in re.findall(r"(?:(Fl|Li|Cm) )(\S+)", row):
                    words.append(f"-{plain(word)}" if mark == "Fl" else plain(word))
                yield number, words

    def needed(self, words):
        """Returns the needed options that a command line lacks."""
        command = SYNOPSIS.get(words[0])
        if not command:
            return []
        lacking = [letter for letter in command.needs if f"-{letter}" not in words]
        return [word for letter in lacking for word in command.option(letter)]

    def test_each_line(self):
        """The options that it lacks are added, except to those that lack an option on purpose."""
        lines = list(self.lines())
        self.assertGreater(len(lines), 25)
        for number, words in lines:
            with self.subTest(words):
                more = self.needed(words)
                if number == 1:
                    self.assertNotEqual(self.status(["cbfstool", "image.rom", *words, *more]), 2)
                    more = []
                run = self.folder(FILES).run(["cbfstool", "image.rom", *words, *more])
                self.assertEqual((run.status, run.message), (2, b"cbfstool: bad command line\n"))
                self.assertEqual(run.after, run.before)

    def test_fmaptool(self):
        page = section(page_text("fmaptool.1"), "DIAGNOSTICS")
        self.assertIn("\n.It Qq bad command line\n", page)
        for words in ("board.fmd", "board.fmd out.fmap more"):
            run = self.folder().run(f"fmaptool {words}")
            self.assertEqual((run.status, run.message), (2, b"fmaptool: bad command line\n"))


if __name__ == "__main__":
    unittest.main()
