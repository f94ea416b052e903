"""cbfsseal under faults of the system: calls that fail, are short or interrupted, and kills; locks,
closed descriptors, unusual files, and refused memory.

After each run, all bytes outside the two digests are as before, and the next run repairs the image.
Expected digests come from hashlib, and expected images from the builder.
"""

import fcntl
import itertools
import os
import signal
import stat
import tempfile
import time
import unittest

from tests.image import SHA256, sealed_anchor
from tests.loop_devices import attach, detach, has_loop_devices
from tests.programs import (
    HAS_COMPILER, Faults, ProgramTest, if_memory_can_be_refused, is_locked, locked,
)
from tests.test_seal import hashed, in_area, in_component, outdated

PARTS = [hashed(b"a"), hashed(b"etc/b", bytes(range(256)) * 3)]
CODE = b"\x00" * 9

# Where the digests are in an image whose anchor is in the area BOOTBLOCK.
DIGESTS = 0x2000 + 0x40 + 12
LENGTH = 64

MADE = in_area(PARTS, outdated(SHA256))
BEFORE = MADE.data()
AFTER = in_area(PARTS, sealed_anchor(SHA256, PARTS, MADE.map, b"abc")).data()


def component_images():
    """Returns an image with the anchor in a component, and the same image sealed."""
    made, bootblock = in_component(PARTS, CODE + outdated(SHA256))
    right = sealed_anchor(SHA256, [*PARTS, bootblock], made.map, b"abc")
    return made.data(), in_component(PARTS, CODE + right)[0].data()


DONE = 0, ""
FAULT = 1, "cbfsseal: device fault\n"
MEMORY = 1, "cbfsseal: out of memory\n"

# The calls on an image, and how a seal ends if one of them is changed. A number is the count of
# calls that are changed, from this one on.
CHANGES = {
    "open": [("EIO", 1, FAULT), ("ENOSPC", 1, FAULT), ("EACCES", 1, FAULT), ("ENOMEM", 1, MEMORY),
             ("EINTR", 1, DONE), ("EINTR", 5000, DONE)],
    "stat": [("EIO", 1, FAULT), ("EACCES", 1, FAULT), ("ENOMEM", 1, MEMORY)],
    "lock": [("EIO", 1, FAULT), ("ENOSPC", 1, FAULT), ("EINVAL", 1, FAULT), ("ENOMEM", 1, MEMORY),
             ("ENOLCK", 1, DONE), ("EOPNOTSUPP", 1, DONE), ("ENOSYS", 1, DONE),
             ("EINTR", 1, DONE), ("EINTR", 5000, DONE)],
    "read": [("EIO", 1, FAULT), ("ENOSPC", 1, FAULT), ("none", 1, FAULT), ("short", 1, DONE),
             ("short", "always", DONE), ("EINTR", 1, DONE), ("EINTR", 999, DONE),
             ("EINTR", "always", FAULT)],
    "write": [("EIO", 1, FAULT), ("ENOSPC", 1, FAULT), ("none", 1, FAULT), ("short", 1, DONE),
              ("short", "always", DONE), ("EINTR", 1, DONE), ("EINTR", 999, DONE),
              ("EINTR", "always", FAULT)],
    "close": [],
}


class Faulty(ProgramTest):
    """A seal under a fault."""

    programs = ("cbfsseal",)

    def repairs(self, folder, after=AFTER):
        """Checks that the next run leaves the sealed image, and the one after it writes nothing."""
        self.check("cbfsseal image.rom", folder, left={"image.rom": after})
        faults = Faults("image.rom")
        self.check("cbfsseal image.rom", folder, faults=faults)
        self.assertNotIn("write", {call.name for call in faults.calls})

    def ends(self, folder, left, result, faults, command="cbfsseal image.rom"):
        """Checks status and message of a run with changed calls, and the image that it leaves."""
        status, message = result
        done = self.check(command, folder, status, b"", message, {"image.rom": left}, faults=faults)
        self.compare(folder, done, "whether a call was changed", True, faults.changed() > 0)


@unittest.skipUnless(HAS_COMPILER, "cc")
class EachCall(Faulty):
    """Each call on the image is changed in turn, in each way."""

    def each_call(self, before, after, expected):
        """Runs a seal with each change of each call. `expected` has the numbers of the calls."""
        faults = Faults("image.rom")
        self.check("cbfsseal image.rom", {"image.rom": before}, left={"image.rom": after},
                   faults=faults)
        numbers = {}
        for name, number, *_ in faults.calls:
            numbers[name] = number
        self.assertEqual(numbers, expected)
        for name, count in numbers.items():
            for number, (way, times, result) in itertools.product(range(1, count + 1),
                                                                  CHANGES[name]):
                last = times if times == "always" else number + times - 1
                change = f"{name} {number} {last} {way}"
                with self.subTest(change):
                    folder = self.folder({"image.rom": before})
                    left = after if result == DONE else before
                    self.ends(folder, left, result, Faults("image.rom", change))
                    self.repairs(folder, after)

    def test_anchor_in_the_area(self):
        self.each_call(BEFORE, AFTER,
                       {"stat": 3, "open": 1, "lock": 1, "read": 4, "write": 1, "close": 1})

    def test_anchor_in_the_component(self):
        self.each_call(*component_images(),
                       {"stat": 3, "open": 1, "lock": 1, "read": 3, "write": 1, "close": 1})

    def test_sealed_image(self):
        self.each_call(AFTER, AFTER, {"stat": 3, "open": 1, "lock": 1, "read": 4, "close": 1})


# Each write moves half of its bytes: so many are written before each call.
WRITTEN = [0, 32, 48, 56, 60, 62, 63]


@unittest.skipUnless(HAS_COMPILER, "cc")
class Stops(Faulty):
    """A seal ends between two writes: the bytes that were written by then are the new ones."""

    def half_sealed(self, written):
        """Returns the image with so many bytes of the new digests."""
        end = DIGESTS + written
        return BEFORE[:DIGESTS] + AFTER[DIGESTS:end] + BEFORE[end:]

    def each_stop(self, way, result):
        """Ends a seal at each of its writes."""
        for number, written in enumerate(WRITTEN, 1):
            with self.subTest(way, number=number):
                folder = self.folder({"image.rom": BEFORE})
                changes = f"write {number} {number} {way}", "write 1 always short"
                self.ends(folder, self.half_sealed(written), result, Faults("image.rom", *changes))
                self.assertFalse(is_locked(folder.path / "image.rom"), "the lock is left")
                self.repairs(folder)

    def test_kills(self):
        self.each_stop("kill", (-signal.SIGKILL, ""))

    def test_faults(self):
        self.each_stop("EIO", FAULT)

    def test_full_disk(self):
        self.each_stop("ENOSPC", FAULT)

    def test_limits_of_the_file(self):
        for written in range(LENGTH + 1):
            with self.subTest(written):
                folder = self.folder({"image.rom": BEFORE})
                status, message = FAULT if written < LENGTH else DONE
                self.check("cbfsseal image.rom", folder, status, b"", message,
                           {"image.rom": self.half_sealed(written)}, file_limit=DIGESTS + written)
                self.repairs(folder)


class Locks(Faulty):
    """Another process holds a lock of the image, or wants one."""

    def sealed_after(self, how):
        """Seals an image whose lock is held for a time."""
        folder = self.folder({"image.rom": BEFORE})
        path = folder.path / "image.rom"
        with locked(path, how):
            started = folder.start("cbfsseal image.rom")
            self.assertTrue(started.waits_for_lock(path), "it does not wait")
            time.sleep(0.05)
            self.assertIsNone(started.process.poll(), "it has ended")
            self.assertEqual(path.read_bytes(), BEFORE)
        done = started.end()
        self.assertEqual((done.status, done.output, done.message), (0, b"", b""))
        self.assertEqual(done.after, {"image.rom": AFTER})

    def test_exclusive_lock(self):
        self.sealed_after(fcntl.LOCK_EX)

    def test_shared_lock(self):
        self.sealed_after(fcntl.LOCK_SH)

    def test_sealed_image_waits_too(self):
        folder = self.folder({"image.rom": AFTER})
        path = folder.path / "image.rom"
        with locked(path, fcntl.LOCK_SH):
            started = folder.start("cbfsseal image.rom")
            self.assertTrue(started.waits_for_lock(path), "it does not wait")
        done = started.end()
        self.assertEqual((done.status, done.message, done.after), (0, b"", {"image.rom": AFTER}))

    def replaced(self, replace, status, message, left, gone):
        """Replaces the image while a seal waits for its lock."""
        folder = self.folder({"image.rom": BEFORE, "next.rom": AFTER})
        path = folder.path / "image.rom"
        os.link(path, folder.path / "gone.rom")
        with locked(path):
            started = folder.start("cbfsseal image.rom")
            self.assertTrue(started.waits_for_lock(path), "it does not wait")
            replace(folder.path)
        done = started.end(limit=20)
        self.assertEqual((done.status, done.message.decode()), (status, message))
        self.assertEqual(done.after.get("image.rom"), left)
        self.assertEqual(done.after["gone.rom"], gone)

    def test_replaced_image(self):
        def replace(folder):
            (folder / "next.rom").write_bytes(BEFORE[:-1] + b"x")
            (folder / "next.rom").rename(folder / "image.rom")

        self.replaced(replace, *DONE, AFTER[:-1] + b"x", BEFORE)

    def test_removed_image(self):
        self.replaced(lambda folder: (folder / "image.rom").unlink(), *FAULT, None, BEFORE)

    def test_image_replaced_by_a_pipe(self):
        def replace(folder):
            os.mkfifo(folder / "pipe")
            (folder / "pipe").rename(folder / "image.rom")

        self.replaced(replace, *FAULT, None, BEFORE)

    def test_image_replaced_by_a_folder(self):
        def replace(folder):
            (folder / "image.rom").unlink()
            (folder / "image.rom").mkdir()

        self.replaced(replace, *FAULT, None, BEFORE)

    def test_many_seals_at_once(self):
        folder = self.folder({"image.rom": BEFORE})
        started = [folder.start("cbfsseal image.rom") for _ in range(20)]
        for one in started:
            done = one.end()
            self.assertEqual((done.status, done.message), (0, b""))
        self.assertEqual(folder.files(), {"image.rom": AFTER})


@unittest.skipUnless(HAS_COMPILER, "cc")
class HalfASeal(Faulty):
    """A seal pauses after it has written the first digest."""

    programs = ("cbfsseal", "cbfstool", "cbfscheck")

    def paused(self):
        """Returns a folder, and a seal that has written the first digest and waits there."""
        folder = self.folder({"image.rom": BEFORE, "pause": b""})
        faults = Faults("image.rom", "write 2 2 pause", "write 1 1 short",
                        pause=folder.path / "pause")
        started = folder.start("cbfsseal image.rom", faults=faults)
        last = time.monotonic() + 20
        while (folder.path / "image.rom").read_bytes() == BEFORE and time.monotonic() < last:
            time.sleep(0.002)
        half = AFTER[: DIGESTS + 32] + BEFORE[DIGESTS + 32 :]
        self.assertEqual((folder.path / "image.rom").read_bytes(), half)
        return folder, started

    def test_no_lock_is_free(self):
        folder, started = self.paused()
        self.assertTrue(is_locked(folder.path / "image.rom", fcntl.LOCK_SH))
        self.assertTrue(is_locked(folder.path / "image.rom", fcntl.LOCK_EX))
        (folder.path / "pause").unlink()
        self.assertEqual(started.end().status, 0)
        self.assertFalse(is_locked(folder.path / "image.rom"))

    def test_commands_wait(self):
        area = AFTER[0x2000:0x4000]
        for command, left in [
            ("cbfstool image.rom read -r BOOTBLOCK -f area", {"area": area}),
            ("cbfstool image.rom print", {}),
            ("cbfscheck image.rom", {}),
            ("cbfsseal image.rom", {}),
        ]:
            with self.subTest(command):
                folder, started = self.paused()
                other = folder.start(command)
                self.assertTrue(other.waits_for_lock(folder.path / "image.rom"), "it does not wait")
                (folder.path / "pause").unlink()
                self.assertEqual((started.end().status, other.end().status), (0, 0))
                self.assertEqual(folder.files(), {"image.rom": AFTER, **left})

    def test_a_kill_leaves_no_lock(self):
        folder, started = self.paused()
        started.process.kill()
        self.assertEqual(started.end().status, -signal.SIGKILL)
        self.assertFalse(is_locked(folder.path / "image.rom"))
        (folder.path / "pause").unlink()
        self.repairs(folder)


USAGE = (
    "usage: cbfsseal [-v] [--allow-unhashed] IMAGE\n"
    "       cbfsseal --help | --version\n"
)
BAD_LINE = "cbfsseal: bad command line (see cbfsseal --help)\n"
NO_ANCHOR = in_area(PARTS, b"").data()


def printed(state):
    """Returns the output of `-v` for the image of these tests."""
    metadata, table = AFTER[DIGESTS:][:32].hex(), AFTER[DIGESTS:][32:64].hex()
    return f"metadata sha256 {metadata} {state}\nflashmap sha256 {table} {state}\n"


# Command lines with the image before and after, and the status, output and message of each.
LINES = [
    ("cbfsseal image.rom", BEFORE, AFTER, 0, "", ""),
    ("cbfsseal -v image.rom", BEFORE, AFTER, 0, printed("renewed"), ""),
    ("cbfsseal -v image.rom", AFTER, AFTER, 0, printed("valid"), ""),
    ("cbfsseal image.rom", NO_ANCHOR, NO_ANCHOR, 1, "", "cbfsseal: no anchor\n"),
    ("cbfsseal none.rom", BEFORE, BEFORE, 1, "", "cbfsseal: device fault\n"),
    ("cbfsseal --version", BEFORE, BEFORE, 0, "cbfsseal 3.2\n", ""),
    ("cbfsseal -x image.rom", BEFORE, BEFORE, 2, "", BAD_LINE),
    ("cbfsseal", BEFORE, BEFORE, 2, "", USAGE),
]


class Descriptors(Faulty):
    """Standard descriptors are closed, or cannot be written."""

    def test_closed_descriptors(self):
        sets = [closed for n in (1, 2, 3) for closed in itertools.combinations((0, 1, 2), n)]
        for closed, line in itertools.product(sets, LINES):
            command, before, after, status, output, message = line
            with self.subTest(command, closed=closed):
                if 1 in closed and output:
                    status, output, message = 1, "", "cbfsseal: output fault\n"
                self.check(command, {"image.rom": before}, status, output,
                           "" if 2 in closed else message, {"image.rom": after}, closed=closed)

    def test_full_output(self):
        folder = self.folder({"image.rom": BEFORE})
        self.check(["sh", "-c", "exec cbfsseal -v image.rom > /dev/full"], folder, 1, b"",
                   "cbfsseal: output fault\n", {"image.rom": AFTER})

    def test_output_to_the_image(self):
        folder = self.folder({"image.rom": BEFORE})
        run = folder.run(["sh", "-c", "exec cbfsseal image.rom > /dev/null 2>> image.rom"])
        self.assertEqual((run.status, run.after), (0, {"image.rom": AFTER}))


class Files(Faulty):
    """Paths that no image has, and images that are unusual files."""

    def refused(self, command, files=(), **run):
        self.refuses(1, "device fault", command, files, limit=20, **run)

    def test_missing_file(self):
        for path in ("none.rom", "''", "none/image.rom", "image.rom/", "image.rom/x"):
            with self.subTest(path):
                self.refused(f"cbfsseal {path}", {"image.rom": BEFORE})

    def test_directory(self):
        self.refused("cbfsseal .")
        self.refused("cbfsseal folder", {"folder/file": b"x"})

    def test_character_device(self):
        for path in ("/dev/null", "/dev/zero", "/dev/full", "/dev/urandom"):
            with self.subTest(path):
                self.refused(f"cbfsseal {path}")

    def test_pipe(self):
        folder = self.folder()
        os.mkfifo(folder.path / "pipe")
        self.refused("cbfsseal pipe", folder)
        self.assertTrue(stat.S_ISFIFO(os.stat(folder.path / "pipe").st_mode))
        self.refused("cbfsseal /dev/stdin", folder)

    def test_file_that_cannot_be_written(self):
        for mode in (0o444, 0o000, 0o222):
            with self.subTest(oct(mode)):
                folder = self.folder({"image.rom": BEFORE})
                folder.path.chmod(0o755)
                (folder.path / "image.rom").chmod(mode)
                self.refused("cbfsseal image.rom", folder, as_nobody=True)

    def test_links(self):
        folder = self.folder({"target.rom": BEFORE})
        os.symlink("target.rom", folder.path / "image.rom")
        os.link(folder.path / "target.rom", folder.path / "hard.rom")
        run = folder.run("cbfsseal image.rom")
        self.assertEqual((run.status, run.message), (0, b""))
        self.assertEqual(run.after, dict.fromkeys(["image.rom", "target.rom", "hard.rom"], AFTER))
        self.assertTrue((folder.path / "image.rom").is_symlink())
        os.symlink("loop.rom", folder.path / "loop.rom")
        self.refused("cbfsseal loop.rom", folder)

    def test_the_file_stays_the_same(self):
        folder = self.folder({"image.rom": BEFORE})
        path = folder.path / "image.rom"
        path.chmod(0o640)
        first = path.stat()
        self.check("cbfsseal image.rom", folder, left={"image.rom": AFTER})
        second = path.stat()
        self.assertEqual((first.st_ino, first.st_mode, first.st_nlink, first.st_uid),
                         (second.st_ino, second.st_mode, second.st_nlink, second.st_uid))
        os.utime(path, ns=(1, 1))
        self.check("cbfsseal image.rom", folder)
        self.assertEqual(path.stat().st_mtime_ns, 1)

    def test_long_paths(self):
        folder = self.folder({"image.rom": BEFORE})
        path = "./" * 1995 + "/image.rom"
        self.assertEqual(len(path), 4000)
        self.check(["cbfsseal", path], folder, left={"image.rom": AFTER})
        self.refused(["cbfsseal", "./" * 2100 + "image.rom"], folder)
        self.refused(["cbfsseal", "n" * 300], folder)
        self.refused(["cbfsseal", "n" * 4000], folder)

    def test_path_that_is_no_text(self):
        folder = self.folder({"image.rom": BEFORE})
        os.link(folder.path / "image.rom", os.fsencode(folder.path) + b"/\xff.rom")
        run = folder.run([os.fsencode("cbfsseal"), b"\xff.rom"])
        self.assertEqual((run.status, run.message.decode()), (2, BAD_LINE))
        self.assertEqual((folder.path / "image.rom").read_bytes(), BEFORE)

    def test_small_images(self):
        for size in (0, 1, 55, 4095, 4096):
            with self.subTest(size):
                self.refuses(1, "no FMAP", "cbfsseal image.rom", {"image.rom": b"\xff" * size})

    def sparse(self, folder, size):
        """Makes a sparse image of this size, outside the folder whose files are compared."""
        path = os.path.join(folder, "image.rom")
        with open(path, "wb") as file:
            file.write(BEFORE)
            file.truncate(size)
        return path

    def test_large_images(self):
        for size, result in ((2**32 - 1, DONE), (2**32, (1, "cbfsseal: image too large\n")),
                             (2**32 + 0x4000, (1, "cbfsseal: image too large\n"))):
            with self.subTest(size), tempfile.TemporaryDirectory() as folder:
                path = self.sparse(folder, size)
                self.check(["cbfsseal", path], {}, result[0], b"", result[1])
                with open(path, "rb") as file:
                    left = AFTER if result == DONE else BEFORE
                    self.assertEqual(file.read(len(left)), left)
                self.assertEqual(os.path.getsize(path), size)


@unittest.skipUnless(has_loop_devices(), "losetup")
@unittest.skipUnless(HAS_COMPILER, "cc")
class BlockDevice(Faulty):
    """A seal of a block device ends after the device has stored the digests."""

    def setUp(self):
        super().setUp()
        # The file is outside the folder whose files are compared.
        self.store = tempfile.TemporaryDirectory()
        self.addCleanup(self.store.cleanup)
        self.path = os.path.join(self.store.name, "disk")
        with open(self.path, "wb") as file:
            file.write(BEFORE)
        self.device = attach(self.path)
        self.assertIsNotNone(self.device)
        self.addCleanup(detach, self.device)

    def content(self):
        with open(self.device, "rb") as device:
            return device.read()

    def seal(self, result, *changes):
        """Seals the device, and returns the calls."""
        faults = Faults(self.device, *changes)
        self.check(["cbfsseal", self.device], {}, result[0], b"", result[1], faults=faults)
        return [call.name for call in faults.calls]

    def test_the_digests_are_stored(self):
        calls = self.seal(DONE)
        self.assertEqual(self.content(), AFTER)
        self.assertEqual(calls.count("write"), 1)
        self.assertEqual(calls.count("sync"), 1)
        self.assertLess(calls.index("write"), calls.index("sync"))
        self.assertNotIn("write", self.seal(DONE))

    def test_a_fault_of_storing(self):
        for error in ("EIO", "ENOSPC"):
            self.seal(FAULT, f"sync 1 1 {error}")
        self.seal(DONE)
        self.assertEqual(self.content(), AFTER)

    def test_a_fault_of_the_length(self):
        self.seal(FAULT, "seek 1 1 EIO")
        self.assertEqual(self.content(), BEFORE)

    def test_a_fault_of_writing(self):
        self.seal(FAULT, "write 1 1 EIO")
        self.assertEqual(self.content(), BEFORE)
        self.seal((-signal.SIGKILL, ""), "write 2 2 kill", "write 1 1 short")
        half = AFTER[: DIGESTS + 32] + BEFORE[DIGESTS + 32 :]
        self.assertEqual(self.content(), half)
        self.seal(DONE)
        self.assertEqual(self.content(), AFTER)


@if_memory_can_be_refused
class Memory(Faulty):
    """Each request for memory is refused in turn."""

    def each_refusal(self, command, before, after, output):
        """Refuses each request, and returns how many runs ended with each result."""
        seen = {DONE: 0, MEMORY: 0}
        for number in itertools.count(1):
            folder = self.folder({"image.rom": before})
            faults = Faults("image.rom", f"memory {number} {number} ENOMEM")
            run = folder.run(command, faults=faults)
            if not any(call.name == "memory" for call in faults.calls):
                return seen
            result = run.status, run.message.decode()
            self.assertIn(result, seen, f"request {number}")
            seen[result] += 1
            self.assertEqual(run.after["image.rom"], after if result == DONE else before)
            self.assertEqual(run.output.decode(), output if result == DONE else "")
            if number % 16 == 0:
                self.repairs(folder)
        return seen

    def has_refusals(self, seen):
        """Checks that requests were refused, and that a seal does without two of them at most."""
        self.assertGreaterEqual(seen[MEMORY], 4)
        self.assertLessEqual(seen[DONE], 2)

    def test_seal(self):
        self.has_refusals(self.each_refusal("cbfsseal image.rom", BEFORE, AFTER, ""))

    def test_verbose_seal(self):
        output = printed("renewed")
        self.has_refusals(self.each_refusal("cbfsseal -v image.rom", BEFORE, AFTER, output))


if __name__ == "__main__":
    unittest.main()
