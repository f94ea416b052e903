"""Types command lines into bash, see tests/completions.py."""

import unittest

from tests.completions import HOSTILE, Completions


class BashCompletions(Completions, unittest.TestCase):
    shell = "bash"

    def test_control_characters_after_a_quote(self):
        """A line with a control character does not look like what it is."""
        for name in filter(lambda name: not name.isprintable(), HOSTILE):
            for quote in ['"', "'"]:
                self.stays(f"cbfstool hostile.rom extract -n {quote}{name[:2]}")


if __name__ == "__main__":
    unittest.main()
