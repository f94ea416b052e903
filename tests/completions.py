"""Types command lines into a shell on a pseudo-terminal, and compares what TAB makes of them.

`Completions` has the tests that bash, zsh and fish share. There is a file of tests for each shell,
so that they run at the same time.

An image may come from anybody, so its names are hostile: no name that a completion offers may run a
command, neither at TAB nor at Enter.
"""

import os
import pathlib
import shlex
import shutil
import tempfile
import time
import unittest

from tests import image
from tests.terminals import Terminal, available, write_program

# Each name begins with a text of its own, and would make a file if a shell ran a part of it.
HOSTILE = [
    "aa$(touch ran)", "bb`touch ran`", "cc'$(touch ran)'", 'dd"$(touch ran)"', "ee;touch ran;",
    "ff|touch ran", "gg&touch ran&", "hh\ntouch ran\n", "ii\\$(touch ran)", "jj${HOME}", "kk!touch",
    "ll'\"`touch ran`\"'", "mm\rtouch ran", "nn>ran", "oo*", "pp{a,b}", "qq\ttouch ran",
    "rr~", "ss#x", "tt(touch ran)", "uu<(touch ran)", "vv=$(touch ran)", "ww:$(touch ran)",
    "xx%touch", "yy\x1b[2Jx",
]
PLAIN = [
    "boot order",
    "it's",
    'say "yes"',
    "path/to/it",
    "a:b",
    "me@home",
    "k=v",
    "back\\slash",
    "zwei\u00e4",
]
QUOTES = ["", '"', "'"]
COMMANDS = {
    "print": "list the cells of a region", "layout": "list the areas of the flashmap",
    "extract": "write the content of a component to a file", "add": "add a file as a component",
    "remove": "put free space in place of a component",
    "read": "write the bytes of a region to a file",
    "write": "replace the bytes of a region by a file", "create": "make an image of a flashmap",
}
OPTIONS = {
    "-r": "the region, an area of the flashmap", "-n": "the name of the component",
    "-f": "the file", "-t": "the type of the component",
    "-a": "the content begins at a multiple of this", "-b": "the content begins just there",
    "-A": "the digest that is stored of the content",
}
CHECK_OPTIONS = {
    "-r": "areas that are checked as a CBFS", "-v": "all rows, and components without a digest",
    "--need": "required components", "--all-hashed": "require a digest for each component",
    "--list": "list all areas, and the components of checked areas",
    "--json": "report as one JSON document",
    "--flash": "check before the new image is flashed over the old one",
    "--keep": "areas that the new image must not change",
    "--keep-preserved": "areas with the flag PRESERVE must not change",
    "--help": "print the help", "--version": "print the version",
}
# The seconds after which a completion without a limit on the time of the program would end.
ENDLESS, SOON = 60, 20


def image_of(components, areas):
    """Returns an image with these components in COREBOOT, and these further areas of 64 bytes."""
    cells = [image.Component(name.encode(), b"content") for name in components]
    size = sum(len(cell.bytes) for cell in cells) + 1024
    first = 0x1000 + size
    table = [image.Area("FMAP", 0, 0x1000), image.Area("COREBOOT", 0x1000, size)]
    table += [image.Area(name, first + 64 * at, 64) for at, name in enumerate(areas)]
    made = image.Image(first + 64 * len(areas), table)
    made.put("COREBOOT", image.join(*cells, image.FreeEntry(1024, keeps=bytes(4))))
    return made.data()


class Completions:
    """The tests of one shell, which a subclass names."""

    shell = ""

    @classmethod
    def setUpClass(cls):
        super().setUpClass()
        if cls.shell not in available():
            raise unittest.SkipTest(f"{cls.shell} is not installed")
        cls.place = pathlib.Path(tempfile.mkdtemp(prefix="completions-"))
        folder = cls.place / "folder"
        folder.mkdir()
        (folder / "hostile.rom").write_bytes(image_of(HOSTILE, HOSTILE))
        plain = image_of(PLAIN + ["lone"], ["FW MAIN A", "RW_VPD", "GBB", "lone$(touch ran)"])
        (folder / "image.rom").write_bytes(plain)
        (folder / "my image.rom").write_bytes(plain)
        (folder / "it's.rom").write_bytes(plain)
        cls.terminal = Terminal(cls.shell, folder, cls.place / "state")
        cls.folder = folder
        (cls.terminal.home / "own.rom").write_bytes(plain)

    @classmethod
    def tearDownClass(cls):
        cls.terminal.end()
        shutil.rmtree(cls.place, ignore_errors=True)

    def runs(self, typed, expected):
        """Checks that the typed line, completed and run, is the expected command line."""
        line = self.terminal.complete(typed)
        ran = self.terminal.enter()
        self.assertEqual(ran, shlex.split(expected), f"typed {typed!r}, completed {line!r}")

    def stays(self, typed):
        """Checks that TAB offers nothing."""
        self.assertEqual(self.terminal.complete(typed).rstrip(" "), typed.rstrip(" "))

    def is_harmless(self, before, name, quote):
        """Checks that the name is completed to itself, or not at all, and runs nothing."""
        typed = before + quote + name[:2]
        line = self.terminal.complete(typed)
        if line.rstrip(" ") != typed:
            if line.startswith(typed) and not line.rstrip(" ").endswith(quote):
                # (the quote stays open if more is to follow)
                self.terminal.send(quote)
            ran = self.terminal.enter()
            self.assertIsNotNone(ran, f"typed {typed!r}, completed {line!r}: the line does not run")
            self.assertTrue(
                ran[-1].rstrip(":").endswith(name),
                f"typed {typed!r}, completed {line!r}: ran {ran}",
            )
        made = sorted(os.listdir(self.folder))
        self.assertEqual(
            made,
            ["hostile.rom", "image.rom", "it's.rom", "my image.rom"],
            f"typed {typed!r}, completed {line!r}",
        )
        return line.rstrip(" ") != typed

    def test_each_special_character_is_in_a_hostile_name(self):
        """No row of the list of hostile names can be left out."""
        special = "$`'\"\\;|&<>()*{}~#!%:= \t\n\r\x1b"
        self.assertLessEqual(set(special), set("".join(HOSTILE)))
        self.assertEqual(len(HOSTILE), 25)
        self.assertLess(SOON, ENDLESS)

    def test_hostile_components_run_nothing(self):
        for quote in QUOTES:
            for name in HOSTILE:
                self.is_harmless("cbfstool hostile.rom extract -n ", name, quote)

    def test_hostile_regions_run_nothing(self):
        for quote in QUOTES:
            for name in HOSTILE[:12]:
                self.is_harmless("cbfstool hostile.rom read -r ", name, quote)
                self.is_harmless("cbfscheck hostile.rom --keep ", name, quote)
        for name in HOSTILE[:6]:
            self.is_harmless("cbfstool hostile.rom read -r", name, '"')
            self.is_harmless("cbfscheck hostile.rom -r", name, '"')
            self.is_harmless("cbfscheck hostile.rom --need=", name, '"')
            self.is_harmless("cbfscheck hostile.rom --need ", name, "'")

    def test_hostile_names_are_offered_without_quotes(self):
        """Without quotes each special character can be escaped, except what a line cannot have."""
        offered = [
            name for name in HOSTILE
            if self.is_harmless("cbfstool hostile.rom extract -n ", name, "")
        ]
        self.assertLessEqual({name for name in HOSTILE if name.isprintable()}, set(offered))

    def test_a_name_with_a_blank(self):
        for typed in ["boot", "boot\\ o", '"boot', '"boot o', "'boot o"]:
            self.runs(
                f"cbfstool image.rom extract -n {typed}",
                "cbfstool image.rom extract -n 'boot order'",
            )
        self.runs("cbfstool image.rom read -r FW", "cbfstool image.rom read -r 'FW MAIN A'")
        self.runs('cbfscheck image.rom --keep "FW M', "cbfscheck image.rom --keep 'FW MAIN A'")

    def test_a_name_with_quotes(self):
        for name in ["it's", 'say "yes"', "back\\slash"]:
            self.runs(
                f"cbfstool image.rom remove -n {name[:2]}",
                f"cbfstool image.rom remove -n {shlex.quote(name)}",
            )

    def test_a_name_with_a_separator(self):
        """bash splits words at these characters."""
        for name in ["a:b", "me@home", "k=v"]:
            for quote in QUOTES:
                for typed in [name[:-3] or name[0], name[:-1]]:
                    line = f"cbfstool image.rom remove -n {quote}{typed}"
                    self.runs(line, f"cbfstool image.rom remove -n {shlex.quote(name)}")

    def test_a_name_outside_ascii(self):
        self.runs("cbfstool image.rom remove -n zw", "cbfstool image.rom remove -n 'zwei\u00e4'")

    def test_an_image_in_quotes(self):
        for typed, name in [
            ("my\\ image.rom", "my image.rom"), ('"my image.rom"', "my image.rom"),
            ("'my image.rom'", "my image.rom"), ("my' 'image.rom", "my image.rom"),
            ("it\\'s.rom", "it's.rom"), ('"it\'s.rom"', "it's.rom"), ("it\"'\"s.rom", "it's.rom"),
        ]:
            line = f"cbfstool {typed} extract -n lo"
            self.runs(line, f"cbfstool {shlex.quote(name)} extract -n lone")
            line = f"cbfscheck {typed} --keep RW"
            self.runs(line, f"cbfscheck {shlex.quote(name)} --keep RW_VPD")

    def test_a_region_in_quotes(self):
        for typed in ['"COREBOOT"', "COREBOO\\T", "'COREBOOT'"]:
            self.runs(
                f"cbfstool image.rom extract -r {typed} -n lo",
                "cbfstool image.rom extract -r COREBOOT -n lone",
            )

    def test_an_image_in_the_home_folder(self):
        home = self.terminal.home
        self.runs("cbfstool ~/own.rom extract -n lo", f"cbfstool {home}/own.rom extract -n lone")
        self.runs("cbfscheck ~/own.rom --keep RW", f"cbfscheck {home}/own.rom --keep RW_VPD")

    def test_a_flashmap_in_the_home_folder(self):
        home = self.terminal.home
        self.runs(
            "cbfstool new.rom create -M ~/own.rom -r COR",
            f"cbfstool new.rom create -M {home}/own.rom -r COREBOOT",
        )

    def test_a_program_of_a_folder(self):
        """cbfscheck asks the cbfstool in its own folder."""
        programs = self.terminal.state / "bin"
        for place in [self.folder / "bin", self.folder / "my bin", self.terminal.home / "tools"]:
            shutil.copytree(programs, place)
        hidden = self.terminal.state / "hidden"
        programs.rename(hidden)
        try:
            for typed in ["bin/", "./bin/", "~/tools/", "my\\ bin/", '"my bin"/']:
                self.runs(f"{typed}cbfscheck image.rom -r RW", "cbfscheck image.rom -r RW_VPD")
                self.runs(
                    f"{typed}cbfstool image.rom read -r RW",
                    "cbfstool image.rom read -r RW_VPD",
                )
        finally:
            hidden.rename(programs)
            shutil.rmtree(self.folder / "bin")
            shutil.rmtree(self.folder / "my bin")
            shutil.rmtree(self.terminal.home / "tools")

    def test_a_value_after_an_equals_sign(self):
        self.runs("cbfscheck image.rom --keep=RW", "cbfscheck image.rom --keep=RW_VPD")
        self.assertEqual(
            self.terminal.complete("cbfscheck image.rom --need=RW"),
            "cbfscheck image.rom --need=RW_VPD:",
        )
        if self.shell != "fish":
            # (fish knows no equals sign after an option of one letter)
            self.runs("cbfstool image.rom read -r=RW", "cbfstool image.rom read -r=RW_VPD")

    def test_a_second_value_after_a_comma(self):
        self.runs("cbfscheck image.rom --keep GBB,RW", "cbfscheck image.rom --keep GBB,RW_VPD")
        self.runs("cbfscheck image.rom --keep=GBB,RW", "cbfscheck image.rom --keep=GBB,RW_VPD")
        self.runs("cbfscheck image.rom -rGBB,RW", "cbfscheck image.rom -rGBB,RW_VPD")
        self.runs(
            "cbfstool new.rom create -M image.rom -r COREBOOT,RW",
            "cbfstool new.rom create -M image.rom -r COREBOOT,RW_VPD",
        )

    def test_a_second_need(self):
        for option in ["--need ", "--need="]:
            for ahead in ["", "GBB:a,", "GBB:a@0x40,COREBOOT:b@end,"]:
                typed = f"cbfscheck image.rom {option}{ahead}"
                self.assertEqual(self.terminal.complete(typed + "RW"), f"{typed}RW_VPD:")
        self.stays("cbfscheck image.rom --need GBB:RW")
        self.stays("cbfscheck image.rom --need GBB:a,RW_VPD:RW")

    def test_an_image_after_the_cursor(self):
        back = "\x02"
        line = self.terminal.complete("cbfscheck -r RW image.rom" + back * len(" image.rom"))
        self.assertEqual(line.split(), ["cbfscheck", "-r", "RW_VPD", "image.rom"])

    def test_a_program_that_does_not_end(self):
        """Each line waits for a program for a second, and not until the program ends."""
        slow = self.terminal.state / "bin" / "cbfstool"
        kept = slow.read_text()
        write_program(slow, f"#!/bin/sh\nexec sleep {ENDLESS}\n")
        try:
            for line in [
                "cbfstool image.rom extract -r ",
                "cbfstool image.rom extract -n ",
                "cbfscheck image.rom --keep ",
            ]:
                begun = time.monotonic()
                self.stays(line)
                self.assertLess(time.monotonic() - begun, SOON, line)
        finally:
            write_program(slow, kept)
