"""The tests notice the mistakes of tests/mutant_lists/wrappers.py, independently of the proofs.

Each of these mistakes is made by a script that runs instead of a program. The test that the list
names must fail, with the text that the list states.
"""

import os
import signal
import subprocess
import sys
import unittest

from tests.mutant_lists.wrappers import MUTANTS
from tests.mutants import is_told
from tests.programs import HAS_COMPILER, NAMES, TOP, Faults, ProgramTest, program
from tests.samples import Sample

# The listing of samples/created.rom.
ROW = (TOP / "samples" / "created.print").read_bytes()
# The seconds in which a test ends, and those of each command in it.
LIMIT, COMMAND_LIMIT = 200, "10"


class Wrappers(ProgramTest):
    """Runs a test with the programs, of which a script replaces one."""

    programs = NAMES

    def check_wrapper(self, title, mutant):
        """Checks that the test fails, and why."""
        folder = self.folder()
        folder.path.chmod(0o755)
        programs = folder.path / "programs"
        programs.mkdir()
        for name in NAMES:
            if name != mutant.program:
                (programs / name).symlink_to(program(name))
        scratch = folder.path / "scratch"
        scratch.mkdir()
        scratch.chmod(0o777)
        script = mutant.write(folder.path / "wrapper", program(mutant.program))
        (programs / mutant.program).symlink_to(script)
        test = subprocess.Popen(
            [sys.executable, "-m", "unittest", "-f", f"tests.{mutant.test}"], cwd=TOP,
            env={**os.environ, "PROGRAMS": str(programs), "TMPDIR": str(scratch),
                 "TIME_LIMIT": COMMAND_LIMIT},
            stdin=subprocess.DEVNULL, stdout=subprocess.PIPE, stderr=subprocess.STDOUT)
        try:
            seen = test.communicate(timeout=LIMIT)[0].decode(errors="replace")
        except subprocess.TimeoutExpired:
            # The test ends its own commands.
            test.send_signal(signal.SIGINT)
            test.communicate()
            self.fail(f"{mutant.test} does not end in {LIMIT} seconds: {title}")
        if "skipped=" in seen and test.returncode == 0:
            self.skipTest("a tool of another test")
        self.assertNotEqual(test.returncode, 0, f"{mutant.test} passes: {title}")
        reason = f"{mutant.test} fails for another reason than {mutant.said}: {title}\n{seen}"
        self.assertTrue(is_told(mutant, seen), reason)

    def test_each_mistake(self):
        rows = [(mutant.title, mutant) for mutant in MUTANTS]
        self.check_rows(self.check_wrapper, rows, at_once=2)


class InjectedFaults(ProgramTest):
    """A fault that changes no call is a mistake of the test that injects it."""

    programs = ("cbfstool",)

    def test_faults_that_do_not_exist(self):
        """A call, a way or an order of numbers that does not exist is refused at once."""
        for change in ["wirte 1 1 EIO", "write 1 1 ENOSPACE", "write 1 1 shrot", "stat 1 1 short",
                       "write 2 1 EIO", "write 0 1 EIO", "write 3 EIO", "write x 3 EIO"]:
            with self.subTest(change), self.assertRaises(ValueError):
                Faults("file", change)

    @unittest.skipUnless(HAS_COMPILER, "cc")
    def test_a_fault_without_a_changed_call(self):
        """The failure lists the calls on the file, so that the right number can be seen."""
        image = Sample("created").image
        command, calls = "cbfstool image.rom print", "read 999 999 EIO"
        folder = self.folder({"image.rom": image})
        with self.assertRaises(self.failureException) as raised:
            self.check(command, folder, output=ROW, faults=Faults("image.rom", calls))
        folder.kept = False
        self.assertIn("no system call was changed", str(raised.exception))
        self.assertIn("read 1 of ", str(raised.exception))
        with self.assertRaises(self.failureException) as raised:
            self.check(command, folder, output=ROW, faults=Faults("other.rom", calls))
        folder.kept = False
        self.assertIn("(none: is the path that of the command line?)", str(raised.exception))
        self.check(command, {"image.rom": image}, output=ROW,
                   faults=Faults("image.rom", calls, may_change_nothing=True))


if __name__ == "__main__":
    unittest.main()
