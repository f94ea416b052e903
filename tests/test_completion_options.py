"""Compares the options that the completions offer with those of the programs' help.

No terminal is needed: bash and fish print what they offer, and the rows of zsh are read.
"""

import re
import shutil
import subprocess
import unittest

from tests.completions import CHECK_OPTIONS
from tests.programs import TOP, Folder, ProgramTest

SEAL_OPTIONS = {
    "-v": "print both digests", "--allow-unhashed": "accept components without a digest",
    "--help": "print the help", "--version": "print the version",
}
BASH = """
COMP_WORDS=(cbfsseal "$1") COMP_CWORD=1
. completion/cbfsseal.bash
_cbfsseal
printf '%s\\n' "${COMPREPLY[@]}"
"""
FISH = "source completion/$argv[1].fish; complete -C \"$argv[1] -\""


class Options(ProgramTest):
    """Each shell offers the options of a program, with the same descriptions."""

    programs = ("cbfscheck", "cbfsseal")
    rows = {"cbfscheck": CHECK_OPTIONS, "cbfsseal": SEAL_OPTIONS}

    def offered(self, *words):
        """Returns the lines that a shell prints."""
        done = subprocess.run(words, cwd=TOP, stdout=subprocess.PIPE, check=True, text=True)
        return done.stdout.splitlines()

    def test_the_help_has_these_options(self):
        folder = Folder()
        self.addCleanup(folder.remove)
        for program, options in self.rows.items():
            with self.subTest(program):
                text = folder.run(f"{program} --help").output.decode()
                stated = re.findall(r"^  (?:-h, )?(--?[a-z-]+)", text, re.MULTILINE)
                self.assertEqual(sorted(stated), sorted(options))

    def test_bash(self):
        seal = self.offered("bash", "-c", BASH, "bash", "-")
        self.assertEqual(sorted(seal), sorted(SEAL_OPTIONS))
        words = ["bash", "--norc", "--noprofile", "tests/shells/complete.bash", TOP / "completion"]
        self.assertEqual(sorted(self.offered(*words, "cbfscheck -")), sorted(CHECK_OPTIONS))

    def test_zsh(self):
        for program, options in self.rows.items():
            with self.subTest(program):
                text = (TOP / "completion" / f"_{program}").read_text(encoding="utf-8")
                stated = dict(re.findall(r'"(--?[a-z-]+)[=+]?\[(.*?)\]', text))
                self.assertEqual(stated, options)

    @unittest.skipUnless(shutil.which("fish"), "fish is not installed")
    def test_fish(self):
        for program, options in self.rows.items():
            with self.subTest(program):
                rows = self.offered("fish", "--no-config", "-c", FISH, program)
                self.assertEqual(dict(row.split("\t") for row in rows), options)


if __name__ == "__main__":
    unittest.main()
