"""Types command lines into fish, see tests/completions.py."""

import subprocess
import unittest

from tests.completions import CHECK_OPTIONS, COMMANDS, OPTIONS, Completions
from tests.programs import TOP


class FishCompletions(Completions, unittest.TestCase):
    shell = "fish"
    # (fish does not tell a completion which words follow the cursor)
    test_an_image_after_the_cursor = None

    def test_descriptions(self):
        """fish offers each command and option with its description."""
        for typed, rows in [
            ("cbfstool image.rom ", COMMANDS), ("cbfstool image.rom add -", OPTIONS),
            (
                "cbfstool image.rom print -",
                {"-r": OPTIONS["-r"], "-v": "a line for each attribute and digest"},
            ),
            (
                "cbfstool new.rom create -",
                {"-r": OPTIONS["-r"], "-M": "the flashmap of which the image is made"},
            ),
            ("cbfscheck -", CHECK_OPTIONS),
        ]:
            script = "for file in $argv[1]/*.fish; source $file; end; complete -C $argv[2]"
            words = ["fish", "--no-config", "-c", script, TOP / "completion", typed]
            done = subprocess.run(words, stdout=subprocess.PIPE, check=True, cwd=self.folder)
            offered = dict(line.split("\t") for line in done.stdout.decode().splitlines())
            self.assertEqual(offered, rows, typed)


if __name__ == "__main__":
    unittest.main()
