"""File systems, replaced files, calls that fail, and outputs that exist already."""

import os
import pathlib
import shutil
import subprocess
import time
import unittest

from tests import image
from tests.programs import ProgramTest, program

AREAS = [image.Area("FMAP", 0, 0x200), image.Area("COREBOOT", 0x400, 0x400)]
AREAS.append(image.Area("CONFIG", 0x800, 64))
CELL = image.Component(b"x", b"data")
FREE = image.FreeEntry(0x3C0, keeps=b"\xff" * 4)
GOOD = image.Image(0x840, AREAS).put("COREBOOT", image.join(CELL, FREE)).data()
COMMANDS = ["print", "layout", "extract -n x -f out", "read -r CONFIG -f out",
            "add -n y -t raw -f new", "remove -n x", "write -r CONFIG -f config", "create -M map"]
# The seconds that a command gets to end.
LONG = 20


class FileTest(ProgramTest):
    programs = ("cbfstool", "fmaptool", "cbfscheck")

    def files(self, **more):
        files = {"image.rom": GOOD, "new": b"1234", "config": b"c" * 64, "map": GOOD, **more}
        return self.folder(files)

    def ends(self, child, status=0):
        """Checks that a command ends."""
        message = child.communicate(timeout=LONG)[1]
        self.assertEqual((child.returncode, message), (status, b""))


class Outputs(FileTest):
    def test_a_longer_output_is_emptied(self):
        for command, content in [("extract -n x -f out", b"data"),
                                 ("read -r CONFIG -f out", b"\xff" * 64)]:
            with self.subTest(command):
                folder = self.files(out=b"o" * 100)
                self.check(f"cbfstool image.rom {command}", folder, left={"out": content})

    def test_a_longer_table_is_emptied(self):
        folder = self.folder({"board.fmd": "F 64K { FMAP 1K }", "out": b"o" * 200})
        table = image.flash_map(0x10000, [image.Area("FMAP", 0, 1024)], name=b"F")
        self.check("fmaptool board.fmd out", folder, left={"out": table})

    def test_an_output_that_is_the_image(self):
        """Whatever its path is, the image stays as it was."""
        folder = self.files()
        os.link(folder.path / "image.rom", folder.path / "hard")
        (folder.path / "soft").symlink_to("image.rom")
        for path in ["image.rom", "./image.rom", "hard", "soft"]:
            with self.subTest(path):
                self.check(f"cbfstool image.rom read -f {path}", folder, 1,
                           message="cbfstool: output fault\n")

    def test_an_output_that_is_the_descriptor(self):
        folder = self.folder({"board.fmd": "F 64K { FMAP 1K }"})
        os.link(folder.path / "board.fmd", folder.path / "hard")
        for path in ["board.fmd", "hard"]:
            with self.subTest(path):
                self.check(f"fmaptool board.fmd {path}", folder, 1,
                           message="fmaptool: output fault\n")

    def test_create_shortens_a_longer_image(self):
        folder = self.files(**{"image.rom": b"o" * 0x2000})
        made = image.Image(0x840, AREAS).put("COREBOOT", image.empty_region(0x400)).data()
        self.check("cbfstool image.rom create -M map", folder, left={"image.rom": made})


def traces():
    """Returns whether strace is here and may trace."""
    words = ["strace", "-o", os.devnull, "-e", "inject=openat:delay_exit=1", "true"]
    return bool(shutil.which("strace")) and subprocess.run(words, stderr=subprocess.DEVNULL,
                                                           check=False).returncode == 0


def mounts():
    """Returns whether file systems can be mounted in a namespace of their own."""
    words = [*NAMESPACE, "mount", "-t", "tmpfs", "none", "/tmp"]
    return bool(shutil.which("unshare")) and subprocess.run(words, stderr=subprocess.DEVNULL,
                                                            check=False).returncode == 0


def has_opened(parent, path):
    """Returns whether a child of a process has opened a file."""
    children = pathlib.Path(f"/proc/{parent.pid}/task/{parent.pid}/children")
    try:
        for child in children.read_text(encoding="ascii").split():
            files = pathlib.Path(f"/proc/{child}/fd")
            if any(os.readlink(file) == os.fspath(path) for file in files.iterdir()):
                return True
    except OSError:
        pass
    return False


NAMESPACE = ["unshare", "--user", "--map-root-user", "--mount"]
# Mounts two file systems, whose first files have the same inode, and runs a command.
TWO_FILE_SYSTEMS = """
set -e
mkdir a b
mount -t tmpfs none a
mount -t tmpfs none b
cp "$1" a/file
printf %200s > b/file
[ "$(stat -c %i a/file)" = "$(stat -c %i b/file)" ] || exit 9
shift
"$@"
"""
# Adds a component while the link of the image gets another target.
MOVED = """
set -e
cp image.rom b/file
ln -s a/file link
exec 9< a/file
flock 9
cbfstool link add -n y -t raw -f new 9<&- &
sleep 0.5
ln -sfn b/file link
flock --unlock 9
wait $!
cat a/file > old
cat b/file > changed
"""


@unittest.skipUnless(mounts(), "unshare cannot mount file systems")
class FileSystems(FileTest):
    """Files of two file systems are different ones, also if their inodes have the same number."""

    def test_an_output_of_the_same_inode(self):
        folder = self.folder({"board.fmd": "F 64K { FMAP 1K }"})
        words = [*NAMESPACE, "sh", "-c", TWO_FILE_SYSTEMS, "sh", "board.fmd"]
        run = folder.run([*words, "fmaptool", "a/file", "b/file"])
        self.assertEqual((run.status, run.message), (0, b""))

    def test_an_image_of_the_same_inode(self):
        """A command that waits for the lock changes the file that the link names then."""
        folder = self.files()
        words = [*NAMESPACE, "sh", "-c", TWO_FILE_SYSTEMS, "sh", "image.rom"]
        run = folder.run([*words, "sh", "-c", MOVED])
        self.assertEqual((run.status, run.message), (0, b""))
        self.assertTrue(run.after["old"] == GOOD, "the image that was moved away has changed")
        self.assertNotEqual(run.after["changed"], GOOD)


@unittest.skipUnless(traces(), "strace is missing or may not trace")
class Calls(FileTest):
    def test_a_source_that_is_replaced_while_it_is_opened(self):
        """The content is that of the opened file, and so is its length."""
        for other in [b"5", b"a longer content"]:
            folder = self.files(other=other)
            path = folder.path / "new"
            words = ["strace", "-o", os.devnull, "-P", path, "-e", "trace=openat", "-e",
                     "inject=openat:delay_exit=2000000", program("cbfstool"), "image.rom",
                     "add", "-n", "y", "-t", "raw", "-f", path]
            child = subprocess.Popen(words, cwd=folder.path, stderr=subprocess.PIPE)
            while child.poll() is None and not has_opened(child, path):
                time.sleep(0.01)
            (folder.path / "other").rename(path)
            self.ends(child)
            run = folder.run("cbfstool image.rom extract -n y -f found")
            self.assertEqual((run.status, run.after["found"]), (0, b"1234"))

    def test_a_failed_call_names_its_image(self):
        for call, error, name, message in [
            ("pread64", "EIO", "old.rom", "device fault"),
            ("pread64", "EIO", "new.rom", "device fault"),
            ("openat", "EACCES", "old.rom", "Permission denied"),
            ("openat", "EACCES", "new.rom", "Permission denied"),
        ]:
            with self.subTest(call, name=name):
                folder = self.folder({"old.rom": GOOD, "new.rom": GOOD})
                old, new = folder.path / "old.rom", folder.path / "new.rom"
                run = folder.run(["strace", "-o", os.devnull, "-P", folder.path / name,
                                  "-e", f"trace={call}", "-e", f"inject={call}:error={error}",
                                  program("cbfscheck"), old, new])
                seen = run.status, run.message.decode()
                self.assertEqual(seen, (2, f"cbfscheck: {folder.path / name}: {message}\n"))

    def test_a_root_directory_that_cannot_be_opened(self):
        """The null device then takes the place of a closed descriptor."""
        folder = self.folder({"board.fmd": "F 64K { FMAP 1K }"})
        words = ["strace", "-o", os.devnull, "-P", "/", "-e", "trace=openat", "-e",
                 "inject=openat:error=EACCES"]
        line = f"exec '{program('fmaptool')}' board.fmd out <&-"
        run = folder.run([*words, "sh", "-c", line])
        self.assertEqual((run.status, run.message), (0, b""))
        self.assertIn("out", run.after)


class Sources(FileTest):
    def test_a_pipe_is_no_image(self):
        """A pipe is not opened: cbfscheck would wait for a writer."""
        folder = self.files()
        (folder.path / "image.rom").unlink()
        os.mkfifo(folder.path / "image.rom")
        lines = [("cbfscheck image.rom", 2, "cbfscheck: image.rom: device fault\n")]
        lines += [(f"cbfstool image.rom {command}", 1, "cbfstool: device fault\n")
                  for command in COMMANDS]
        for line, status, message in lines:
            with self.subTest(line):
                name, *words = line.split()
                done = subprocess.run(
                    [program(name), *words], cwd=folder.path,
                    stdout=subprocess.PIPE, stderr=subprocess.PIPE, timeout=LONG)
                self.assertEqual((done.returncode, done.stderr.decode()), (status, message))

    @unittest.skipUnless(os.path.exists("/proc/self/status"), "/proc is not mounted")
    def test_a_source_with_more_bytes_than_stated(self):
        self.check("cbfstool image.rom add -n y -t raw -f /proc/self/status", self.files(), 1,
                   message="cbfstool: source fault\n")


if __name__ == "__main__":
    unittest.main()
