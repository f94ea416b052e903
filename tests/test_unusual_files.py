"""Files of cbfstool that are not plain: other kinds, short calls, the order of openings, devices.

docs/FORMAT.md states which files are opened, locked and emptied, in which order.
"""

import os
import pty
import socket
import stat
import tempfile
import time
import unittest

from tests.commands import FILES, NEW, RESULTS
from tests.image import Area, Component, Image, join
from tests.loop_devices import attach, detach, has_loop_devices
from tests.programs import (
    HAS_COMPILER, TOP, Faults, ProgramTest, if_memory_can_be_refused, locked,
)
from tests.strace import traces, tracing

# A command that takes longer waits for something.
LIMIT = 10
MAP = FILES["map"]
IMAGE = FILES["image"]

# Arguments of each command but `create`, with the files of tests.commands.
READING = ["print", "print -v", "layout", "extract -n c1 -f out", "read -r SPARE -f out"]
WRITING = ["remove -n c1", "add -n new -t raw -f source", "write -r SPARE -f region"]


@unittest.skipUnless(HAS_COMPILER, "cc")
class ShortCalls(ProgramTest):
    """Each read or each write of a file moves half of the bytes that it is asked for."""

    def check_short(self, title, command, file, change):
        """Checks that the command does the same, and returns the number of short calls."""
        output, left = RESULTS[command]
        short = Faults(file, change, may_change_nothing=True)
        self.check(command, FILES, output=output, left=left, faults=short)
        self.short += short.changed()

    def test_each_command(self):
        self.short = 0
        changes = [(file, "read 1 always short") for file in FILES]
        changes += [(file, "write 1 always part") for file in ("image", "out")]
        self.check_rows(self.check_short, [
            (f"{command}: {change} of {file}", command, file, change)
            for command in RESULTS for file, change in [*changes, ("-", "write 1 always short")]
            if file in command.split() or file == "-"
        ])
        self.assertGreater(self.short, 100)


class OtherKinds(ProgramTest):
    """Paths that name no regular file are refused at once, and not opened."""

    programs = ("cbfstool",)

    def special(self):
        """Returns a folder with a pipe, a socket and a folder."""
        folder = self.folder({**FILES, "folder/file": b""})
        os.mkfifo(folder.path / "pipe")
        with socket.socket(socket.AF_UNIX) as one:
            one.bind(str(folder.path / "socket"))
        return folder

    def refused(self, refusal, words, stdin=b""):
        """Checks the refusal, and that the pipe is still a pipe."""
        folder = self.special()
        self.refuses(1, refusal, f"cbfstool {words}", folder, stdin=stdin, limit=LIMIT)
        self.assertTrue(stat.S_ISFIFO((folder.path / "pipe").stat().st_mode), "the pipe is gone")

    PATHS = ["pipe", "socket", "folder", "/dev/null", "/dev/zero", "/dev/stdin"]

    def test_images(self):
        for path in self.PATHS:
            for words in (*READING, *WRITING):
                with self.subTest(words, path=path):
                    self.refused("device fault", f"{path} {words}", IMAGE)

    def test_new_images(self):
        for path in self.PATHS:
            with self.subTest(path):
                self.refused("device fault", f"{path} create -M map")

    # (a file of /proc is a regular file that states length 0, and has bytes)
    SOURCES = ["pipe", "socket", "folder", "/dev/null", "/proc/self/status", "/dev/stdin"]

    def test_sources(self):
        for path in self.SOURCES:
            for words in ("add -n new -t raw -f", "write -f"):
                with self.subTest(words, path=path):
                    self.refused("source fault", f"image {words} {path}", b"0123456789")

    def test_flash_maps(self):
        for path in self.SOURCES:
            with self.subTest(path):
                self.refused("source fault", f"new create -M {path}", MAP)

    def test_a_terminal(self):
        main, terminal = pty.openpty()
        try:
            self.refused("device fault", f"{os.ttyname(terminal)} print")
        finally:
            os.close(main)
            os.close(terminal)

    @unittest.skipUnless(traces(), "strace")
    def test_a_source_that_becomes_a_pipe_before_it_is_opened(self):
        folder = self.folder({**FILES, "late": b"abc"})
        words = tracing(folder, "openat,stat,statx,newfstatat", ["late"])
        words += ["-e", "inject=openat:delay_enter=2000000"]
        folder.notes.write_text("")
        started = folder.start([*words, *"cbfstool image add -n new -t raw -f late".split()])
        while started.process.poll() is None and "stat" not in folder.notes.read_text():
            time.sleep(0.01)
        os.mkfifo(folder.path / "pipe")
        (folder.path / "pipe").rename(folder.path / "late")
        # (open for both sides, so that no side waits for the other)
        both = os.open(folder.path / "late", os.O_RDWR)
        try:
            self.compare_run(folder, started.end(limit=LIMIT), 1, "", "cbfstool: source fault\n",
                             {"late": None})
        finally:
            os.close(both)
        self.assertIn("DELAYED", folder.notes.read_text())


class Order(ProgramTest):
    """Of two faults the first one is reported, and a file is emptied only if its turn comes."""

    programs = ("cbfstool",)

    DAMAGED = Image(0x800, [Area("FMAP", 0, 0x200), Area("COREBOOT", 0x400, 0x400)]).put(
        "COREBOOT", join(Component(b"a", b"abc"), Component(b"b", b"abc", length=2000))).data()

    rows = [
        # arguments, refusal
        ("absent add -n new -t raw -f absent", "device fault"),
        ("absent write -f absent", "device fault"),
        ("absent read -f absent/out", "device fault"),
        ("absent extract -n c1 -f absent/out", "device fault"),
        ("absent/image create -M absent", "source fault"),
        ("image extract -n absent -f /dev/full", "no such component"),
    ]

    def test_two_faults(self):
        for words, refusal in self.rows:
            with self.subTest(words):
                self.refuses(1, refusal, f"cbfstool {words}", FILES)

    def test_an_output_that_stays(self):
        """An output is not opened if the image cannot be opened."""
        for words in ("absent extract -n c1 -f out", "absent read -f out"):
            with self.subTest(words):
                self.refuses(1, "device fault", f"cbfstool {words}", {"out": b"old\n"})

    def test_damage_before_a_full_device(self):
        self.check(["sh", "-c", "cbfstool damaged print > /dev/full"], {"damaged": self.DAMAGED}, 1,
                   message="cbfstool: damaged entry at 0x40: extent\n")

    def test_a_longer_output_is_emptied(self):
        files = {**FILES, "out": b"an older output\n" * 1000}
        self.check("cbfstool image extract -n c1 -f out", files, left={"out": b"data"})

    @if_memory_can_be_refused
    def test_an_output_is_emptied_after_the_last_want_of_memory(self):
        """Without the memory to collect the output, it is written in smaller pieces."""
        reported, spared = self.refuse_memory(
            "cbfstool image extract -n c1 -f out", {"image": IMAGE, "out": b"old\n"},
            left={"out": b"data"})
        self.assertEqual(reported, list(range(1, len(reported) + 1)))
        self.assertGreaterEqual(len(reported), 80)
        self.assertGreaterEqual(len(spared), 1)

    @unittest.skipUnless(HAS_COMPILER, "cc")
    def test_want_of_memory_at_an_opening(self):
        for words, file in [
            ("image print", "image"), ("image read -f out", "image"),
            ("image add -n new -t raw -f source", "source"), ("image read -f out", "out"),
            ("new create -M map", "map"), ("new create -M map", "new"),
        ]:
            with self.subTest(words, file=file):
                files = {**FILES, "out": b"old\n"} if file == "out" else FILES
                memory = Faults(file, "open 1 1 ENOMEM")
                self.refuses(1, "out of memory", f"cbfstool {words}", files, faults=memory)
                self.assertEqual(memory.changed(), 1)


class SameFile(ProgramTest):
    """The image is named a second time."""

    programs = ("cbfstool",)

    def test_the_output_is_never_the_image(self):
        for words in ("extract -n c1", "read -r SPARE"):
            for path in ("image", "./image", "hard", "soft", "/dev/fd/3"):
                with self.subTest(words, path=path):
                    folder = self.folder(FILES)
                    os.link(folder.path / "image", folder.path / "hard")
                    os.symlink("image", folder.path / "soft")
                    self.refuses(1, "output fault", f"cbfstool image {words} -f {path}", folder,
                                 limit=LIMIT)

    def test_the_source_is_the_image(self):
        for words, refusal in [
            ("write -f image", "source size differs from the region"),
            ("add -n self -t raw -f image", "no space"),
            ("create -M image", "bad flashmap"),
        ]:
            with self.subTest(words):
                self.refuses(1, refusal, f"cbfstool image {words}",
                             {"image": IMAGE[4096:] if "create" in words else IMAGE}, limit=LIMIT)


class Locks(ProgramTest):
    """Which files are locked, and when."""

    programs = ("cbfstool",)

    def test_outputs_and_sources_are_not_locked(self):
        for words, left in [("extract -n c1 -f source", {"source": b"data"}),
                            ("add -n new -t raw -f source", NEW.left("add"))]:
            with self.subTest(words):
                folder = self.folder(FILES)
                with locked(folder.path / "source"):
                    self.check(f"cbfstool image {words}", folder, left=left, limit=LIMIT)

    def test_the_length_is_that_of_the_locked_image(self):
        folder = self.folder({"image": IMAGE[:4096]})
        path = folder.path / "image"
        with locked(path):
            started = folder.start("cbfstool image layout")
            self.assertTrue(started.waits_for_lock(path), "the command does not wait")
            path.write_bytes(IMAGE)
        self.compare_run(folder, started.end(limit=LIMIT), output=NEW.layout(),
                         left={"image": IMAGE})

    errors = [
        # error of flock, whether the command goes on without a lock
        ("ENOLCK", True), ("EOPNOTSUPP", True), ("ENOSYS", True), ("EIO", False),
        ("EINVAL", False),
    ]

    @unittest.skipUnless(HAS_COMPILER, "cc")
    def test_errors_of_the_lock(self):
        for error, goes_on in self.errors:
            for words in ("print", "create -M map"):
                with self.subTest(words, error=error):
                    fault = Faults("image", f"lock 1 always {error}")
                    command = f"cbfstool image {words}"
                    if goes_on:
                        output, left = RESULTS[command]
                        self.check(command, FILES, output=output, left=left, faults=fault)
                    else:
                        self.refuses(1, "device fault", command, FILES, faults=fault)
                    self.assertGreater(fault.changed(), 0)

    @unittest.skipUnless(traces(), "strace")
    def test_the_lock_precedes_all_other_calls(self):
        """The path is looked at, opened and locked, and then looked at again; nothing is emptied as
        it is opened."""
        for words in ("print", "create -M map"):
            with self.subTest(words):
                folder = self.folder(FILES)
                traced = tracing(folder, "all", ["image"])
                output, left = RESULTS[f"cbfstool image {words}"]
                self.check([*traced, "cbfstool", "image", *words.split()], folder, output=output,
                           left=left)
                lines = [line for line in folder.notes.read_text().splitlines()
                         if not line.startswith(("close", "+++", "---"))]
                names = [line.partition("(")[0] for line in lines[:5]]
                self.assertEqual(names, ["statx", "openat", "flock", "statx", "statx"])
                self.assertNotIn("O_TRUNC", lines[1])

    @unittest.skipUnless(traces(), "strace")
    def test_a_source_is_opened_for_reading(self):
        folder = self.folder(FILES)
        command = "cbfstool image add -n new -t raw -f source"
        self.check([*tracing(folder, "openat", ["source"]), *command.split()], folder,
                   left=NEW.left("add"))
        self.assertIn("O_RDONLY", folder.notes.read_text())
        self.assertNotRegex(folder.notes.read_text(), "O_WRONLY|O_RDWR")

    @unittest.skipUnless(traces(), "strace")
    def test_no_file_has_the_number_of_a_closed_descriptor(self):
        for closed in (0, 1, 2):
            for words in ("image print", "new create -M map"):
                with self.subTest(words, closed=closed):
                    folder = self.folder(FILES)
                    traced = tracing(folder, "openat", ["image", "new", "map"])
                    folder.run([*traced, "sh", "-c", f'exec "$0" "$@" {closed}>&-', "cbfstool",
                                *words.split()])
                    numbers = [int(line.rpartition("= ")[2])
                               for line in folder.notes.read_text().splitlines()
                               if line.startswith("openat(") and "= -1" not in line]
                    self.assertGreaterEqual(numbers[-1], 3)


@unittest.skipUnless(HAS_COMPILER, "cc")
class CutFiles(ProgramTest):
    """A file ends before its length, or a write moves a part of a header."""

    programs = ("cbfstool",)

    def test_an_image(self):
        fault = Faults("image", "read 1 always none")
        self.refuses(1, "device fault", "cbfstool image print", FILES, faults=fault)

    def test_a_source(self):
        """The space for the component is free again, whatever its bytes are."""
        for number in (1, 2):
            with self.subTest(number):
                folder = self.folder({**FILES, "source": bytes(range(250)) * 30})
                fault = Faults("source", f"read {number} always none")
                done = folder.run("cbfstool image add -n new -t raw -f source", faults=fault)
                image = done.after["image"]
                self.compare_run(folder, done, 1, "", "cbfstool: source fault\n",
                                 {"image": IMAGE[: 4096 + 64 * 600 + 28]
                                  + image[4096 + 64 * 600 + 28 : -4100] + IMAGE[-4100:]})
                self.check("cbfstool image print", folder, output=NEW.listing())

    def test_a_disk_that_is_full_after_half_of_a_content(self):
        """Two writes of a header and one of 0xff precede it. The next addition overwrites it."""
        start, half = 4096 + 64 * 600 + 28, FILES["source"][:350]
        command, folder = "cbfstool image add -n new -t raw -f source", self.folder(FILES)
        fault = Faults("image", "write 4 4 short", "write 5 5 ENOSPC")
        self.refuses(1, "device fault", command, folder, faults=fault,
                     left={"image": IMAGE[:start] + half + IMAGE[start + 350 :]})
        self.assertEqual(fault.changed(), 2)
        self.check("cbfstool image print", folder, output=NEW.listing())
        self.check(command, folder, left=NEW.left("add"))

    def test_a_header(self):
        fault = Faults("image", "write 1 1 short")
        self.refuses(1, "device fault", "cbfstool image remove -n c1", FILES, faults=fault)


@unittest.skipUnless(traces(), "strace")
class Writes(ProgramTest):
    """The number of writes, and a header by a single one.

    Each commit writes the header that is there and then its own; 0xff is written only where the
    image has another byte.
    """

    programs = ("cbfstool",)

    def count(self, folder, words, writes, headers):
        """Checks the numbers of writes of the image, and of those of 28 bytes."""
        done = folder.run([*tracing(folder, "pwrite64,write", ["image"]), "cbfstool", "image",
                           *words.split()])
        self.assertEqual((done.status, done.message), (0, b""))
        lines = [line for line in folder.notes.read_text().splitlines() if "write" in line]
        self.assertEqual(len(lines), writes, words)
        in_one = [line for line in lines if line.endswith(" = 28") and ", 28, " in line]
        self.assertEqual(len(in_one), headers, words)

    def test_numbers_of_writes(self):
        samples = TOP / "samples"
        folder = self.folder({
            "image": (samples / "hashes.rom").read_bytes(), "source": (b"content" * 715)[:5000],
            "map": (samples / "board.fmap").read_bytes(),
        })
        self.count(folder, "add -n some -t raw -f source", 8, 5)
        self.count(folder, "remove -n some", 6, 2)
        self.count(folder, "create -M map -r COREBOOT,FW_MAIN_A", 7, 4)


@unittest.skipUnless(has_loop_devices(), "losetup")
class LoopDevice(ProgramTest):
    """A block device instead of the image: the same results as on a file."""

    programs = ("cbfstool",)

    def attach(self, content, size=None):
        """Returns the path of a device with this content, which ends at a multiple of 512 bytes."""
        file = tempfile.NamedTemporaryFile(prefix="test-")
        self.addCleanup(file.close)
        file.write(content)
        file.truncate(len(content) if size is None else size)
        file.flush()
        device = attach(file.name)
        self.assertIsNotNone(device)
        self.addCleanup(detach, device)
        return device

    @staticmethod
    def content(device):
        """Returns the bytes of a device."""
        with open(device, "rb") as file:
            return file.read()

    def on_device(self, words, before, after=None, output="", left=None, refusal=None, fault=None):
        """Runs a command on a device with these bytes, and compares the bytes afterwards.

        `fault` is a change of the calls on the device.
        """
        device = self.attach(before)
        files = {name: data for name, data in FILES.items() if name != "image"}
        faults = Faults(device, fault) if fault else None
        message = f"cbfstool: {refusal}\n" if refusal else ""
        self.check(f"cbfstool {device} {words}", files, int(refusal is not None), output, message,
                   left, faults=faults)
        self.assertTrue(self.content(device) == (before if after is None else after), words)
        self.assertTrue(fault is None or faults.changed() > 0, "no call was changed")

    def test_each_command(self):
        for command, (output, left) in RESULTS.items():
            program, image, words = [*command.split(maxsplit=2), ""][:3]
            if (program, image) == ("cbfstool", "image"):
                with self.subTest(words):
                    others = {name: data for name, data in left.items() if name != "image"}
                    self.on_device(words, IMAGE, left.get("image"), output, others)

    def test_create_on_a_larger_device(self):
        rest = bytes(range(256)) * 100
        self.on_device("create -M map", IMAGE + rest, NEW.created() + rest)

    def test_create_on_a_smaller_device(self):
        for before in (IMAGE[:-512], IMAGE[:4096]):
            with self.subTest(len(before)):
                self.on_device("create -M map", before, refusal="device fault")

    def test_a_device_of_4_GiB(self):
        device = self.attach(IMAGE, 1 << 32)
        for words in ("print", "create -M map"):
            with self.subTest(words):
                self.refuses(1, "image too large", f"cbfstool {device} {words}", {"map": MAP})

    @unittest.skipUnless(HAS_COMPILER, "cc")
    def test_bytes_that_are_not_stored(self):
        """The command has written its bytes, and reports that the device has not stored them."""
        for words, name in [("add -n new -t raw -f source", "add"), ("remove -n c1", "remove"),
                            ("write -r SPARE -f region", "write"), ("create -M map", "create")]:
            with self.subTest(words):
                self.on_device(words, IMAGE, NEW.left(name)["image"], refusal="device fault",
                               fault="sync 1 always EIO")


if __name__ == "__main__":
    unittest.main()
