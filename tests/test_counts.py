"""Compares numbers of checks with a list, and tries the helpers that count them.

The script checks/counts runs in a folder with a small list, one script and one file of tests. The
scripts checks/tests and checks/check print which tools are missing before a test runs.
"""

import shutil
import subprocess
import sys
import unittest

from tests.programs import NAMES, TOP, Folder

LIST = "# a comment\nsources   one\nby-hand   two: it is slow\n"
TEST = "def test_a():\n    assert True\n    assert 1\n"
COUNTS = "one\t7\ntests/test_a.py\t3\ntests/test_a.py statements\t2\n"
COUNTS += "tests/test_a.py literals\t2\n"
MADE = "one\t7\t\ntests/test_a.py\t3\t\n"


class Counts(unittest.TestCase):
    """checks/counts accepts the stated numbers, and reports each other one."""

    def counts(self, listed=LIST, test=TEST, counts=COUNTS, made=MADE):
        """Runs the script, and returns its status and output."""
        folder = Folder({
            "checks/list": listed, "checks/counts.tsv": counts, "tests/test_a.py": test,
            "made": made,
        })
        self.addCleanup(folder.remove)
        shutil.copy(TOP / "checks" / "counts", folder.path / "checks" / "counts")
        words = ["checks/counts", "made"]
        done = subprocess.run(words, cwd=folder.path, stdout=subprocess.PIPE, text=True)
        return done.returncode, done.stdout

    def test_the_stated_numbers(self):
        self.assertEqual(self.counts(), (0, "counts: 4 checks\n"))

    def test_each_other_number(self):
        for change, complaint in [
            ({"made": MADE.replace("7", "6")}, "one: 6, and not 7"),
            ({"made": MADE.replace("7", "8")}, "one: 8, and not 7"),
            ({"made": MADE.replace("\t3", "\t2")}, "tests/test_a.py: 2, and not 3"),
            ({"test": TEST.replace("    assert 1\n", "")}, "statements: 1, and not 2"),
            ({"test": TEST.replace("assert 1", "assert (1, 2)")}, "literals: 3, and not 2"),
            ({"counts": COUNTS.replace("one\t7\n", "")}, "one has no number"),
            ({"counts": COUNTS.replace("tests/test_a.py\t3\n", "")},
             "tests/test_a.py has no number"),
            ({"counts": COUNTS + "three\t1\n"}, "three has a number in"),
            ({"listed": LIST.replace("sources   one\n", "")}, "one has a number in"),
        ]:
            status, output = self.counts(**change)
            self.assertEqual(status, 1, output)
            self.assertIn(complaint, output)

    def test_a_part_that_is_skipped(self):
        """With a missing tool a script may make fewer checks, and not more."""
        self.assertEqual(self.counts(made=MADE.replace("7\t", "6\tstrace (1)"))[0], 0)
        self.assertEqual(self.counts(made=MADE.replace("7\t", "8\tstrace (1)"))[0], 1)


class Skips(unittest.TestCase):
    """Tools that are missing are printed before a test runs."""

    def test_tests_that_need_a_compiler(self):
        folder = Folder()
        self.addCleanup(folder.remove)
        # (no program is on this PATH)
        words = [sys.executable, TOP / "checks" / "tests", "--skips", "test_stops", "test_print"]
        done = subprocess.run(words, env={"PATH": str(folder.path)}, stdout=subprocess.PIPE,
                              text=True)
        self.assertEqual((done.returncode, done.stdout), (0, "to be skipped: cc (2)\n"))

    def test_programs_that_are_missing(self):
        """Without rt, and without built programs, checks/tests says what it needs."""
        folder = Folder()
        self.addCleanup(folder.remove)
        (folder.path / "checks").mkdir()
        shutil.copy(TOP / "checks" / "tests", folder.path / "checks" / "tests")
        built = ", ".join(f"crates/{name}/out/{name}" for name in NAMES)
        for words, needed in [
            ([], "rt, which is not on PATH"),
            (["--built"], f"{built}, which is not built: run make"),
        ]:
            done = subprocess.run([sys.executable, "checks/tests", *words], cwd=folder.path,
                                  env={"PATH": "/usr/bin:/bin"}, stdout=subprocess.PIPE,
                                  stderr=subprocess.STDOUT, text=True)
            self.assertEqual((done.returncode, done.stdout), (1, f"tests: needs {needed}\n"))

    def test_the_quick_test(self):
        """checks/check prints them before it runs a script, if it runs the tests."""
        folder = Folder({
            "checks/list": "programs  tests\n",
            "checks/tests": '#!/bin/sh\necho "tests $1"\n',
        })
        self.addCleanup(folder.remove)
        (folder.path / "checks" / "tests").chmod(0o755)
        shutil.copy(TOP / "checks" / "check", folder.path / "checks" / "check")
        for mode, rows in ("--built", ["tests --skips", "tests --built"]), ("--sources", []):
            done = subprocess.run(["checks/check", mode], cwd=folder.path,
                                  stdout=subprocess.PIPE, stderr=subprocess.DEVNULL, text=True)
            lines = [line for line in done.stdout.splitlines() if line.startswith("tests ")]
            self.assertEqual(lines, rows)


if __name__ == "__main__":
    unittest.main()
