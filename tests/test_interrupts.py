"""Interrupts system calls on files (EINTR), by strace.

A program repeats an interrupted call, so that an interruption changes neither files nor output nor
status. Only statx may end a command with a fault, before anything has changed, because Linux does
not interrupt it. A program gives up a call that has been interrupted 1000 times.
"""

import re
import unittest

from tests.commands import FILES, RESULTS
from tests.programs import ProgramTest
from tests.strace import traces, tracing

CALLS = ["pread64", "pwrite64", "read", "write", "openat", "flock", "statx", "ftruncate"]
PATHS = [*FILES, "out", "printed", "/"]
IN_A_ROW = 5
TRIES = 1000


def interrupting(folder, command, calls, paths=PATHS, change=None):
    """Returns the command line that runs a command under strace, with `printed` as its output."""
    words = [*tracing(folder, calls, paths, change), *command.split()]
    return ["sh", "-c", 'exec "$0" "$@" > printed', *words]


@unittest.skipUnless(traces(), "strace")
class Interrupts(ProgramTest):
    """Each call of a command is interrupted in turn, once and five times in a row."""

    def numbers_of_calls(self, command):
        """Checks a command that is not interrupted, and returns how often it makes each call."""
        output, left = RESULTS[command]
        folder = self.folder(FILES)
        self.check(interrupting(folder, command, ",".join(CALLS)), folder,
                   left={**left, "printed": output})
        names = re.findall(r"^(\w+)\(", folder.notes.read_text(), re.MULTILINE)
        self.assertLess({"openat"}, set(names))
        self.assertLessEqual(set(names), set(CALLS))
        return {name: names.count(name) for name in names}

    def interruptions(self, command):
        """Returns the rows of a command: title, command, call, and the numbers of the calls.

        Of many calls only the first, the last and some between are interrupted.
        """
        found = []
        for call, count in sorted(self.numbers_of_calls(command).items()):
            for first in sorted({1, 2, 3, 4, count // 2 + 1, count - 1, count}):
                for last in (first, first + IN_A_ROW - 1) if 1 <= first <= count else ():
                    title = f"{command}: {call} {first} to {last}"
                    found.append((title, command, call, first, last))
        return found

    def check_interrupted(self, title, command, call, first, last):
        """Checks that interrupted calls change nothing."""
        folder = self.folder(FILES)
        change = f"error=EINTR:when={first}..{last}"
        done = folder.run(interrupting(folder, command, call, change=change))
        self.compare(folder, done, "interrupted", True, "INJECTED" in folder.notes.read_text())
        output, left = RESULTS[command]
        expected = {**FILES, **left, "printed": output.encode()}
        status = 0
        if call == "statx" and done.status and done.message.endswith(b" fault\n"):
            # (a new image may have been made, without a byte)
            made = {"out": b""} if "out create" in command and done.after.get("out") == b"" else {}
            expected, status = {**FILES, "printed": b"", **made}, done.status
        else:
            self.compare(folder, done, "message", b"", done.message)
        self.compare(folder, done, "status", status, done.status)
        for name in sorted({*expected, *done.after}):
            self.compare(folder, done, name, expected.get(name), done.after.get(name))
        folder.remove()

    def test_interrupted_calls(self):
        found = [row for command in RESULTS for row in self.interruptions(command)]
        self.check_rows(self.check_interrupted, found)

    def test_interrupted_getrandom(self):
        folder = self.folder(FILES)
        command = "cbfscheck image"
        words = interrupting(folder, command, "getrandom", [], "error=EINTR:when=1..5")
        self.check(words, folder, left={"printed": RESULTS[command][0]})
        self.assertEqual(folder.notes.read_text().count("INJECTED"), 5)


@unittest.skipUnless(traces(), "strace")
class EndlessInterrupts(ProgramTest):
    """All calls of a kind on a file are interrupted: the program gives up after 1000 tries."""

    device = ["print", "print -v", "layout", "extract -n c1 -f out", "read -r SPARE -f out",
              "add -n new -t raw -f source", "remove -n c1", "write -r SPARE -f region"]
    calls = [
        # command, file, call, status, message
        *((f"cbfstool image {words}", "image", "pread64", 1, "cbfstool: device fault")
          for words in device),
        *((f"cbfstool image {words}", "image", "pwrite64", 1, "cbfstool: device fault")
          for words in device[-3:]),
        ("cbfstool image add -n new -t raw -f source", "source", "pread64", 1,
         "cbfstool: source fault"),
        ("cbfstool image write -r SPARE -f region", "region", "pread64", 1,
         "cbfstool: source fault"),
        ("cbfstool image create -M map", "map", "pread64", 1, "cbfstool: source fault"),
        ("cbfstool out create -M map", "out", "pwrite64", 1, "cbfstool: device fault"),
        ("fmaptool input out", "input", "read", 1, "fmaptool: read fault"),
        ("cbfscheck image", "image", "pread64", 2, "cbfscheck: image: device fault"),
        ("cbfscheck -v old image", "image", "pread64", 2, "cbfscheck: image: device fault"),
        ("cbfscheck -v old image", "old", "pread64", 2, "cbfscheck: old: device fault"),
    ]

    def check_endless(self, title, command, file, call, status, message):
        """Checks that the command gives up, without a change of an existing file."""
        folder = self.folder(FILES)
        left = {"printed": "", **({"out": b""} if " out" in command else {})}
        words = interrupting(folder, command, call, [file], "error=EINTR:when=1+")
        self.check(words, folder, status, b"", f"{message}\n", left)
        self.assertEqual(folder.notes.read_text().count("INJECTED"), TRIES, title)

    def test_endless_interrupts(self):
        self.check_rows(self.check_endless, [
            (f"{command}: {call} of {file}", command, file, call, status, message)
            for command, file, call, status, message in self.calls
        ])


if __name__ == "__main__":
    unittest.main()
