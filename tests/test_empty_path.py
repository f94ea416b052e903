"""Gives an empty path as the file of a command: no file has it, so the file cannot be opened."""

import unittest

from tests import image
from tests.programs import ProgramTest

AREAS = [image.Area("FMAP", 0, 0x100), image.Area("COREBOOT", 0x400, 0x400)]
AREAS += [image.Area("CONFIG", 0x800, 0x100)]


def image_with_config():
    """Returns an image with a component."""
    cell = image.Component(b"config", b"content")
    made = image.Image(0x900, AREAS)
    return made.put("COREBOOT", image.join(cell, image.FreeEntry(0x3C0, keeps=bytes(4)))).data()


class EmptyPath(ProgramTest):
    """An empty path is an argument as any other, so it is no bad command line."""

    programs = ("cbfstool",)

    def test_output(self):
        for command in ["extract -n config", "read -r CONFIG"]:
            for option in ["-f ''", "-f=''"]:
                with self.subTest(command, option=option):
                    line = f"cbfstool image.rom {command} {option}"
                    self.refuses(1, "output fault", line, {"image.rom": image_with_config()})

    def test_source(self):
        for command in ["add -n new -t raw", "write -r CONFIG"]:
            for option in ["-f ''", "-f=''"]:
                with self.subTest(command, option=option):
                    line = f"cbfstool image.rom {command} {option}"
                    self.refuses(1, "source fault", line, {"image.rom": image_with_config()})

    def test_flashmap(self):
        for option in ["-M ''", "-M=''"]:
            with self.subTest(option):
                line = f"cbfstool new.rom create {option}"
                self.refuses(1, "source fault", line)

    def test_image(self):
        self.refuses(1, "device fault", "cbfstool '' print")


if __name__ == "__main__":
    unittest.main()
