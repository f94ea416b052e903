"""cbfscheck: paths that are no images, calls that fail, short calls, locks, and rights."""

import fcntl
import os
import time
import unittest

from tests.findings import CheckTest, report
from tests.programs import HAS_COMPILER, Faults, if_memory_can_be_refused, locked
from tests.samples import Sample
from tests.strace import traces, tracing

FILES = {f"{name}.rom": Sample(name).image for name in ("hashes", "packed", "types")}
# A command that takes longer waits for something.
LIMIT = 10
REPORT = report(r"""
    remark|-|-|0x1000|flashmap
    remark|COREBOOT|h\x20sha1|0x0|hash unsupported
    remark|COREBOOT|h\x20sha256|0x80|sha256 valid
    remark|COREBOOT|h\x20sha512|0x100|sha512 valid
    remark|COREBOOT|gap|0x380|sha256 valid
    remark|COREBOOT|-|-|complete
    remark|COREBOOT|-|-|components|5
    remark|COREBOOT|-|-|free bytes|15744
    remark|COREBOOT|-|-|largest content that add takes|15264
    sound: 0 bad, 9 remarks, 0 changes
""")
ABSENT, DENIED = "No such file or directory", "Permission denied"


class Paths(CheckTest):
    """A path that names no regular file is refused at once, whichever of two images it is."""

    def folder_of_kinds(self):
        """Returns a folder with an image, a pipe and a folder."""
        folder = self.folder(FILES)
        os.mkfifo(folder.path / "pipe")
        (folder.path / "folder").mkdir()
        return folder

    def test_each_kind(self):
        for message, words in [
            (f"absent.rom: {ABSENT}", "absent.rom"),
            (f"absent.rom: {ABSENT}", "absent.rom other.rom"),
            (f"absent.rom: {ABSENT}", "hashes.rom absent.rom"),
            ("pipe: device fault", "pipe"),
            ("pipe: device fault", "hashes.rom pipe"),
            ("/dev/stdin: device fault", "/dev/stdin"),
            ("folder: Is a directory", "folder"),
            ("folder: Is a directory", "hashes.rom folder"),
            ("/dev/null: device fault", "/dev/null"),
            ("/dev/zero: device fault", "hashes.rom /dev/zero"),
        ]:
            with self.subTest(words):
                folder = self.folder_of_kinds()
                self.refuses(2, message, f"cbfscheck {words}", folder, limit=LIMIT)
                self.assertTrue((folder.path / "pipe").is_fifo())

    def test_an_image_of_4_gib(self):
        folder, large = self.folder(FILES), self.folder().path / "large.rom"
        with open(large, "wb") as file:
            file.truncate(1 << 32)
        for words in f"{large}", f"hashes.rom {large}":
            with self.subTest(words):
                self.refuses(2, f"{large}: image too large", f"cbfscheck {words}", folder)

    @unittest.skipUnless(traces(), "strace")
    def test_a_file_that_becomes_a_pipe_before_it_is_opened(self):
        folder = self.folder({"late": b"abc"})
        words = tracing(folder, "openat,stat,statx,newfstatat", ["late"])
        words += ["-e", "inject=openat:delay_enter=2000000"]
        folder.notes.write_text("")
        started = folder.start([*words, "cbfscheck", "late"])
        while started.process.poll() is None and "stat" not in folder.notes.read_text():
            time.sleep(0.01)
        os.mkfifo(folder.path / "pipe")
        (folder.path / "pipe").rename(folder.path / "late")
        # (open for both sides, so that no side waits for the other)
        both = os.open(folder.path / "late", os.O_RDWR)
        self.addCleanup(os.close, both)
        self.compare_run(folder, started.end(limit=LIMIT), 2, "",
                         "cbfscheck: late: device fault\n", {"late": None})
        self.assertIn("DELAYED", folder.notes.read_text())

    @unittest.skipUnless(traces(), "strace")
    def test_no_random_numbers(self):
        """That is reported before an image is opened."""
        folder = self.folder()
        words = tracing(folder, "getrandom", [], "error=EPERM")
        self.check([*words, "cbfscheck", "absent.rom"], folder, 2,
                   message="cbfscheck: no random numbers\n")


@unittest.skipUnless(HAS_COMPILER, "cc")
class Calls(CheckTest):
    """A call on one of the images fails, or moves half of its bytes."""

    def fails(self, message, command, change, file="hashes.rom"):
        """Checks that a command is refused if a call on a file is changed."""
        faults = Faults(file, change)
        self.refuses(2, message, f"cbfscheck {command}", FILES, faults=faults)

    def test_a_failing_lock(self):
        self.fails("hashes.rom: device fault", "hashes.rom", "lock 1 1 EIO")

    def test_a_file_system_without_locks(self):
        faults = Faults("hashes.rom", "lock 1 always ENOLCK")
        self.check("cbfscheck hashes.rom", FILES, output=REPORT, faults=faults)

    def test_a_failing_read(self):
        for number in (1, 2):
            for command in "hashes.rom", "hashes.rom types.rom", "types.rom hashes.rom":
                with self.subTest(command, number=number):
                    self.fails("hashes.rom: device fault", command, f"read {number} {number} EIO")

    def test_a_failing_opening(self):
        for command in "hashes.rom", "hashes.rom types.rom", "types.rom hashes.rom":
            with self.subTest(command):
                self.fails("out of memory", command, "open 1 1 ENOMEM")
        self.fails(f"hashes.rom: {DENIED}", "types.rom hashes.rom", "open 1 1 EACCES")

    def test_short_reads_and_writes(self):
        for file, change in ("hashes.rom", "read 1 always short"), ("-", "write 1 always short"):
            with self.subTest(change):
                faults = Faults(file, change)
                self.check("cbfscheck hashes.rom", FILES, output=REPORT, faults=faults)

    def test_an_image_is_only_read(self):
        """The first calls on it are an opening, a lock and a read."""
        faults = Faults("hashes.rom")
        self.check("cbfscheck hashes.rom", FILES, output=REPORT, faults=faults)
        names = [call.name for call in faults.calls]
        self.assertEqual([name for name in names if name != "stat"][:3], ["open", "lock", "read"])
        self.assertLessEqual(set(names), {"stat", "open", "lock", "read", "seek", "close"})


@if_memory_can_be_refused
class Memory(CheckTest):
    """Each request for memory is refused in turn."""

    def test_one_image(self):
        reported, spared = self.refuse_memory("cbfscheck hashes.rom", FILES, REPORT, status=2)
        self.assertGreaterEqual(len(reported) + len(spared), 90)
        self.assertEqual(len(spared), 5)

    def test_two_images(self):
        done = self.folder(FILES).run("cbfscheck packed.rom hashes.rom --json")
        self.assertEqual(done.output[:52], b'{"format":1,"image":"hashes.rom","old":"packed.rom",')
        reported, spared = self.refuse_memory("cbfscheck packed.rom hashes.rom --json", FILES,
                                              done.output, status=2)
        self.assertGreaterEqual(len(reported) + len(spared), 230)
        self.assertEqual(len(spared), 7)


class Locks(CheckTest):
    """Checks share a lock of the image, and wait for a command that changes it."""

    def test_beside_another_reader(self):
        folder = self.folder(FILES)
        with locked(folder.path / "hashes.rom", fcntl.LOCK_SH):
            self.check("cbfscheck hashes.rom", folder, output=REPORT, limit=LIMIT)

    def waits(self, command, status=0):
        """Checks that a command waits for an exclusive lock of hashes.rom, and its status then."""
        folder = self.folder({**FILES, "created.rom": Sample("created").image})
        with locked(folder.path / "hashes.rom"):
            started = folder.start(command)
            self.assertTrue(started.waits_for_lock(folder.path / "hashes.rom"))
            time.sleep(0.3)
            self.assertIsNone(started.process.poll())
        done = started.end(limit=LIMIT)
        self.assertEqual((done.status, done.message, done.after), (status, b"", done.before))
        return done

    def test_an_exclusive_lock(self):
        self.assertEqual(self.waits("cbfscheck hashes.rom").output, REPORT)

    def test_an_exclusive_lock_of_the_second_image(self):
        self.waits("cbfscheck created.rom hashes.rom", status=1)

    def test_one_image_twice(self):
        """The command shares the lock with itself."""
        self.check("cbfscheck hashes.rom hashes.rom", FILES,
                   output=REPORT, limit=LIMIT)


class Rights(CheckTest):
    """A user who owns nothing checks an image that may only be read."""

    def test_an_image_without_write_permission(self):
        folder = self.folder(FILES)
        folder.path.chmod(0o755)
        (folder.path / "hashes.rom").chmod(0o444)
        self.check("cbfscheck hashes.rom", folder, output=REPORT, as_nobody=True)

    def test_an_image_without_read_permission(self):
        folder = self.folder(FILES)
        folder.path.chmod(0o755)
        (folder.path / "types.rom").chmod(0)
        self.refuses(2, f"types.rom: {DENIED}", "cbfscheck types.rom", folder, as_nobody=True)


if __name__ == "__main__":
    unittest.main()
