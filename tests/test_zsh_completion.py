"""Types command lines into zsh, see tests/completions.py."""

import unittest

from tests.completions import CHECK_OPTIONS, COMMANDS, OPTIONS, Completions


class ZshCompletions(Completions, unittest.TestCase):
    shell = "zsh"

    def test_descriptions(self):
        """zsh shows each command and option with its description."""
        for typed, rows in [
            ("cbfstool image.rom ", COMMANDS), ("cbfstool image.rom add -", OPTIONS),
            ("cbfstool image.rom print -", {"-v": "a line for each attribute and digest"}),
            ("cbfstool new.rom create -", {"-M": "the flashmap of which the image is made"}),
            ("cbfscheck -", CHECK_OPTIONS),
        ]:
            self.terminal.has_shown(typed, *(f"-- {text}" for text in rows.values()))


if __name__ == "__main__":
    unittest.main()
