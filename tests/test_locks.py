"""Locks of images: which commands wait for each other, and an image that is replaced meanwhile.

A command that changes an image takes an exclusive lock, and each other command a shared one. A
command that gets a lock checks that the path still names the locked file, and otherwise opens the
file that took its place. docs/FORMAT.md states the order of these steps.
"""

import contextlib
import fcntl
import os
import re
import shutil
import signal
import time
import unittest

from tests.commands import COMMANDS, READERS, WRITERS, Example
from tests.programs import HAS_COMPILER, LOCK_LIMIT, Faults, ProgramTest, is_locked, locked
from tests.strace import traces, tracing

SHARED, EXCLUSIVE = fcntl.LOCK_SH, fcntl.LOCK_EX
KINDS = {"shared": SHARED, "exclusive": EXCLUSIVE}
SMALL = Example(40)
# The number of components of an image that a command reads and writes for some time.
LONGER = Example(3000)
# How often an image is replaced while a command waits for it. A program gives up after 1000 times.
REPLACEMENTS = 30
OPENINGS = 1000
# The seconds in which a command ends, and for which one that waits is observed.
LIMIT, SOON = LOCK_LIMIT, 0.1


def excludes(how, name):
    """Returns whether a lock of this kind excludes that of the command."""
    return how == EXCLUSIVE or name in WRITERS


class LockTest(ProgramTest):
    """Starts commands that wait for the lock of the image, or hold it."""

    programs = ("cbfstool", "cbfscheck")

    @classmethod
    def setUpClass(cls):
        super().setUpClass()
        # (a script in the background ignores SIGINT, and its commands would inherit that)
        before = signal.signal(signal.SIGINT, signal.default_int_handler)
        cls.addClassCleanup(signal.signal, signal.SIGINT, before)

    def waiting(self, folder, name):
        """Starts a command, and returns it when it waits for the lock of the image."""
        started = folder.start(COMMANDS[name])
        self.waits(folder, started)
        return started

    def waits(self, folder, started):
        """Checks that the command waits for the lock of the image."""
        is_waiting = started.waits_for_lock(folder.path / "image")
        self.assertTrue(is_waiting, f"does not wait for the lock: {started.command}")

    def ends(self, folder, started, name, example=SMALL, **left):
        """Checks that a command ends, and has done the same as on an image without a lock."""
        self.compare_run(folder, started.end(limit=LIMIT), output=example.output(name),
                         left={**example.left(name), **left})

    def fails(self, folder, started, name, why="device fault", **left):
        """Checks that a command ends with a refusal. cbfscheck names the image and the cause."""
        is_check = name == "cbfscheck"
        message = f"cbfscheck: image: {why}\n" if is_check else "cbfstool: device fault\n"
        self.compare_run(folder, started.end(limit=LIMIT), 2 if is_check else 1, "", message, left)


class Waits(LockTest):
    """Another program has a lock of the image when a command starts."""

    def check_beside(self, title, name, how):
        """Checks that a command waits exactly if the other lock excludes its own."""
        folder = self.folder(SMALL.files)
        with locked(folder.path / "image", how):
            if excludes(how, name):
                started = self.waiting(folder, name)
                time.sleep(SOON)
                self.assertIsNone(started.process.poll(), title)
                self.assertEqual(folder.files(), SMALL.files, "it has written something")
            else:
                started = folder.start(COMMANDS[name])
                started.process.wait(LIMIT)
        self.ends(folder, started, name)

    def test_beside_a_lock(self):
        self.check_rows(self.check_beside, [
            (f"{name} beside a lock that is {kind}", name, how)
            for name in COMMANDS for kind, how in KINDS.items()
        ])

    def check_flock(self, title, name, option):
        """Checks that a command waits for flock(1)."""
        folder = self.folder(SMALL.files)
        other = folder.start(["flock", option, "image", "sh", "-c", "echo; read line"])
        self.assertEqual(other.process.stdout.readline(), b"\n", title)
        started = self.waiting(folder, name)
        other.end(b"line\n")
        self.ends(folder, started, name)

    @unittest.skipUnless(shutil.which("flock"), "flock")
    def test_beside_flock(self):
        self.check_rows(self.check_flock, [
            *((f"{name}: flock -x", name, "-x") for name in COMMANDS),
            *((f"{name}: flock -s", name, "-s") for name in WRITERS),
        ])

    def check_stopped(self, name):
        """Checks a command that is stopped and continued while it waits."""
        folder = self.folder(SMALL.files)
        with locked(folder.path / "image", EXCLUSIVE):
            started = self.waiting(folder, name)
            os.kill(started.process.pid, signal.SIGSTOP)
            os.kill(started.process.pid, signal.SIGCONT)
            self.waits(folder, started)
        self.ends(folder, started, name)

    def test_stopped_and_continued(self):
        self.check_rows(self.check_stopped, [(name,) for name in COMMANDS])

    def check_killed(self, title, name, number):
        """Checks that a command that a signal ends while it waits leaves no lock and no change."""
        folder = self.folder(SMALL.files)
        with locked(folder.path / "image", EXCLUSIVE):
            started = self.waiting(folder, name)
            os.kill(started.process.pid, number)
            self.compare_run(folder, started.end(limit=LIMIT), -number)
        self.assertFalse(is_locked(folder.path / "image"), title)
        self.ends(folder, folder.start(COMMANDS[name]), name)

    def test_killed(self):
        self.check_rows(self.check_killed, [
            (f"{name}: {number.name}", name, number) for name in COMMANDS
            for number in (signal.SIGKILL, signal.SIGTERM, signal.SIGINT)
        ])

    def check_errors(self, title, name, error):
        """Checks that a command goes on if the file system has no locks."""
        folder = self.folder(SMALL.files)
        fault = Faults("image", f"lock 1 always {error}")
        with locked(folder.path / "image", EXCLUSIVE):
            self.check(COMMANDS[name], folder, output=SMALL.output(name), left=SMALL.left(name),
                       limit=LIMIT, faults=fault)
        self.assertGreater(fault.changed(), 0, title)

    @unittest.skipUnless(HAS_COMPILER, "cc")
    def test_a_file_system_without_locks(self):
        self.check_rows(self.check_errors, [
            (f"{name}: {error}", name, error)
            for name in COMMANDS for error in ("ENOLCK", "EOPNOTSUPP")
        ])


class ReplacedImages(LockTest):
    """The path of the image names other files while a command waits for the lock."""

    def check_replaced(self, title, name, how, times, is_link):
        """Checks a command while other files replace the image one after the other.

        Each file is locked before the lock of the one before is released. All keep a second name,
        or are the targets of a link, so that they can be compared afterwards.
        """
        examples = [Example(40 + number % 7, content=b"%04d" % number)
                    for number in range(times + 1)]
        last = examples[-1]
        files = {f"target{number}": one.image for number, one in enumerate(examples)}
        folder = self.folder({**last.files, **files})
        path, new = folder.path / "image", folder.path / "new"

        def put(number):
            if is_link:
                new.symlink_to(f"target{number}")
            else:
                os.link(folder.path / f"target{number}", new)
            new.replace(path)

        put(0)
        with contextlib.ExitStack() as held:
            held.enter_context(locked(path, how))
            started = self.waiting(folder, name)
            for number in range(1, times + 1):
                following = contextlib.ExitStack()
                if number < times:
                    following.enter_context(locked(folder.path / f"target{number}", how))
                put(number)
                held.close()
                held = following
                if number < times:
                    self.waits(folder, started)
        after = last.left(name).get("image", last.image)
        self.ends(folder, started, name, last, image=after, **{f"target{times}": after})
        folder.remove()

    def test_one_file(self):
        self.check_rows(self.check_replaced, [
            (f"{name}: a file that replaces one with a lock that is {kind}", name, how, 1, False)
            for name in COMMANDS for kind, how in KINDS.items() if excludes(how, name)
        ])

    def test_five_files(self):
        self.check_rows(self.check_replaced, [(name, name, EXCLUSIVE, 5, False)
                                              for name in COMMANDS])

    def test_links(self):
        self.check_rows(self.check_replaced, [(name, name, EXCLUSIVE, 2, True)
                                              for name in COMMANDS])

    def test_many_files(self):
        self.check_replaced("add", "add", EXCLUSIVE, REPLACEMENTS, False)

    def check_removed(self, name, why, make):
        """Checks a command whose image is removed while it waits, and what `make` puts there."""
        folder = self.folder(SMALL.files)
        path = folder.path / "image"
        os.link(path, folder.path / "gone")
        with locked(path, EXCLUSIVE):
            started = self.waiting(folder, name)
            path.unlink()
            make(path)
        if name == "create" and make == nothing:
            self.ends(folder, started, name, gone=SMALL.image)
        else:
            self.fails(folder, started, name, why, image=None, gone=SMALL.image)

    def test_a_removed_image(self):
        why = "No such file or directory"
        self.check_rows(self.check_removed, [(name, why, nothing) for name in COMMANDS])

    def test_a_pipe(self):
        self.check_rows(self.check_removed, [(name, "device fault", os.mkfifo)
                                             for name in COMMANDS])

    def test_a_folder(self):
        self.check_rows(self.check_removed, [(name, "Is a directory", os.mkdir)
                                             for name in COMMANDS])

    def check_moving(self, name):
        """Checks that a command gives up if the path names another file whenever it looks."""
        folder = self.folder(SMALL.files)
        fault = Faults("image", "stat 2 always other")
        self.fails(folder, folder.start(COMMANDS[name], faults=fault), name)
        self.assertGreaterEqual(fault.changed(), 2 * OPENINGS, name)

    @unittest.skipUnless(HAS_COMPILER, "cc")
    def test_a_path_that_never_stays(self):
        self.check_rows(self.check_moving, [(name,) for name in COMMANDS])


def nothing(path):
    """Puts nothing at a path."""


class HeldLocks(LockTest):
    """A command holds its lock while it works."""

    def check_pipe(self, name):
        """Checks a command that writes to a pipe: it has a shared lock until the pipe is read."""
        folder = self.folder(SMALL.files)
        path = folder.path / "image"
        os.mkfifo(folder.path / "out")
        started = folder.start(COMMANDS[name])
        last = time.monotonic() + LIMIT
        while not is_locked(path):
            self.assertLess(time.monotonic(), last, "takes no lock")
            time.sleep(0.002)
        self.ends(folder, folder.start(COMMANDS["print"]), "print")
        writer = self.waiting(folder, "remove")
        content = (folder.path / "out").read_bytes()
        removed = SMALL.left("remove")
        # (the removal ends after the command that it waits for)
        self.compare_run(folder, writer.end(limit=LIMIT), left=removed)
        self.compare_run(folder, started.end(limit=LIMIT), left=removed)
        self.assertEqual(content, SMALL.left(name)["out"])

    def test_output_to_a_pipe(self):
        self.check_rows(self.check_pipe, [("extract",), ("read",)])

    def calls(self, name):
        """Returns the names of the calls by which a command reads and writes the image."""
        folder = self.folder(LONGER.files)
        words = tracing(folder, "pread64,pwrite64", ["image"])
        done = folder.run([*words, *COMMANDS[name].split()])
        self.assertEqual((done.status, done.message), (0, b""), name)
        return re.findall(r"^(pread64|pwrite64)\(", folder.notes.read_text(), re.MULTILINE)

    def check_killed(self, title, name, position):
        """Checks a command that is delayed at its first or its last call, and killed there."""
        calls = self.calls(name)
        call = calls[position]
        number = 1 if position == 0 else calls.count(call)
        folder = self.folder(LONGER.files)
        path = folder.path / "image"
        words = tracing(folder, call, ["image"], f"delay_enter=60000000:when={number}")
        started = folder.start([words[0], "-D", *words[1:], *COMMANDS[name].split()])
        last, since = time.monotonic() + LIMIT, None
        while since is None or time.monotonic() < since + SOON:
            self.assertIsNone(started.process.poll(), title)
            self.assertLess(time.monotonic(), last, "takes no lock, or releases it too early")
            since = (since or time.monotonic()) if is_locked(path) else None
            time.sleep(0.002)
        is_shared = not is_locked(path, SHARED)
        self.assertEqual(is_shared, name in READERS, "the lock has another kind")
        kill_traced(started.process.pid)
        self.assertEqual(started.end(limit=LIMIT).status, -signal.SIGKILL)
        self.assertFalse(is_locked(path), "the lock outlives the command")
        following = "create" if name == "create" else "print"
        self.assertEqual(folder.run(COMMANDS[following], limit=LIMIT).status, 0)
        folder.remove()

    @unittest.skipUnless(traces(), "strace")
    def test_killed(self):
        self.check_rows(self.check_killed, [
            (f"{name}: the {'first' if position == 0 else 'last'} call", name, position)
            for name in COMMANDS for position in (0, -1)
        ])


def kill_traced(process):
    """Kills a process, and strace, which delays it and would delay its end."""
    with open(f"/proc/{process}/status", encoding="ascii") as status:
        tracer = int(re.search(r"TracerPid:\s+(\d+)", status.read())[1])
    os.kill(process, signal.SIGKILL)
    os.kill(tracer, signal.SIGKILL)


if __name__ == "__main__":
    unittest.main()
