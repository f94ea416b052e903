"""Writes that the system refuses in part.

A limit of the size of a file refuses all bytes from some position on, and a full file system
refuses the blocks of a sparse file that are holes. Both cut a write at a multiple of 4096 bytes, or
at the limit. `add`, `remove` and `create` run with limits around each such border, and with a hole
at each block. Afterwards the region has the components from before the command or those after it,
with all their bytes, and no byte outside the region has changed.
"""

import concurrent.futures
import os
import pathlib
import resource
import shutil
import signal
import subprocess
import tempfile
import unittest

from tests.image import (
    SHA256, SHA512, Area, Component, FreeEntry, Image, empty_region, flash_map, hash_attribute,
    join,
)
from tests.programs import ProgramTest, difference, program
from tests.reading import cut

BLOCK = 4096
REGION = 7 * BLOCK
LENGTH = 10 * BLOCK
# Positions of the region: at a multiple of 64, and such that a header of 28 bytes is cut.
STARTS = (2 * BLOCK, 2 * BLOCK - 12, 2 * BLOCK - 25)
# A limit is at most so many bytes away from a border: the length of a header.
NEAR = 28
LIMITS = [border + d for border in range(2 * BLOCK, 2 * BLOCK + REGION + 1, BLOCK)
          for d in range(-NEAR, NEAR + 1)]


def pattern(size, seed):
    """Returns bytes without two equal neighbours."""
    return bytes((seed + i * 7 + i // 251) % 251 for i in range(size))


def hashed(name, content, algorithm):
    """Returns a component with a digest."""
    return Component(name, content, attributes=[hash_attribute(algorithm, content)])


SMALL_FILE, LARGE_FILE = pattern(900, 5), pattern(BLOCK - 32, 6)
FIRST = hashed(b"first", pattern(BLOCK - 76, 1), SHA256)
# (in each position of the region it has a block that can be a hole of the file)
ZEROS = Component(b"zeros", bytes(3 * BLOCK - 32))
LAST = hashed(b"last", pattern(BLOCK - 108, 2), SHA512)
SMALL = hashed(b"small", SMALL_FILE, SHA256)
LARGE = Component(b"large", LARGE_FILE)
PLACED = Component(b"placed", SMALL_FILE, gap=32)
# (free space that has been zeros before)
ZERO_SPACE, SPACE = FreeEntry(BLOCK, fill=b"\0"), FreeEntry(BLOCK)
LAST_SPACE = FreeEntry(BLOCK, keeps=b"last")
BEFORE = [FIRST, ZEROS, ZERO_SPACE, LAST, LAST_SPACE]

# For each command the range of bytes of the region that may change, and the entries afterwards.
# `create` replaces the image.
COMMANDS = {
    "remove -n first": (0, BLOCK, [SPACE, ZEROS, ZERO_SPACE, LAST, LAST_SPACE]),
    "remove -n zeros": (BLOCK, 5 * BLOCK, [FIRST, FreeEntry(4 * BLOCK), LAST, LAST_SPACE]),
    "add -n small -f small -t raw -A sha256":
        (4 * BLOCK, 5 * BLOCK, [FIRST, ZEROS, SMALL, FreeEntry(3072), LAST, LAST_SPACE]),
    "add -n large -f large -t raw":
        (4 * BLOCK, 5 * BLOCK, [FIRST, ZEROS, LARGE, LAST, LAST_SPACE]),
    "add -n placed -f small -t raw -b 25088": (6 * BLOCK, REGION - 4, [
        FIRST, ZEROS, ZERO_SPACE, LAST, FreeEntry(448), PLACED, FreeEntry(2624, keeps=b"last")]),
    "create -M map": (0, REGION, None),
}


def areas(start):
    """Returns the areas of the image."""
    return [Area("FMAP", 0, 1024), Area("COREBOOT", start, REGION)]


def image(start, entries):
    """Returns the image with the region at `start`, or that of `create` without entries."""
    made = Image(LENGTH, areas(start))
    if entries is None:
        return made.put("COREBOOT", empty_region(REGION)).data()
    return made.put_at(1024, pattern(LENGTH - 1024, 3)).put("COREBOOT", join(*entries)).data()


def cells(data):
    """Returns the components of a region, by their positions, and the end of the cells."""
    found = cut(data)
    state = "damage" if found.damage else "complete" if found.end == len(data) else "tail"
    used = {one.position: one.metadata + one.content for one in found.components}
    return used, (state, found.end)


def components(entries):
    """Returns the components among entries, each from its head to the end of its content."""
    return [entry.bytes[: entry.content_offset + entry.length]
            for entry in entries if isinstance(entry, Component)]


class Bench:
    """A folder in which one command runs many times."""

    def __init__(self, start, words, folder=None):
        self.start, self.words = start, words
        self.path = pathlib.Path(folder or tempfile.mkdtemp(prefix="test-"))
        self.message = os.memfd_create("message")
        for name, data in (("small", SMALL_FILE), ("large", LARGE_FILE),
                           ("map", flash_map(LENGTH, areas(start)))):
            (self.path / name).write_bytes(data)

    def run(self, limit=None):
        """Runs the command, and returns its status, message and image.

        With a limit of the image's size, a refused write ends the program by the signal SIGXFSZ if
        the limit is odd; the program ignores the signal if it is even.
        """
        actions = [(os.POSIX_SPAWN_OPEN, 0, os.devnull, os.O_RDONLY, 0),
                   (os.POSIX_SPAWN_OPEN, 1, os.devnull, os.O_WRONLY, 0),
                   (os.POSIX_SPAWN_DUP2, self.message, 2)]
        os.ftruncate(self.message, 0)
        os.lseek(self.message, 0, os.SEEK_SET)
        tool = program("cbfstool")
        killing = [signal.SIGXFSZ] if limit is not None and limit % 2 else []
        soft, hard = resource.getrlimit(resource.RLIMIT_FSIZE)
        here = os.getcwd()
        os.chdir(self.path)
        resource.setrlimit(resource.RLIMIT_FSIZE, (soft if limit is None else limit, hard))
        try:
            child = os.posix_spawn(tool, [tool, "image.rom", *self.words.split()], os.environ,
                                   file_actions=actions, setsigdef=killing)
        finally:
            resource.setrlimit(resource.RLIMIT_FSIZE, (soft, hard))
            os.chdir(here)
        status = os.waitstatus_to_exitcode(os.waitpid(child, 0)[1])
        os.lseek(self.message, 0, os.SEEK_SET)
        message = os.read(self.message, 4096).decode()
        return status, message, (self.path / "image.rom").read_bytes()

    def close(self):
        """Removes the folder."""
        os.close(self.message)
        shutil.rmtree(self.path)


def fault_of_region(words, before, seen, is_done):
    """Returns what is wrong with a region that a command has left, or nothing.

    The command was to change one component; if it was refused, the components may be the same.
    """
    start, end, entries = COMMANDS[words]
    if before[:start] + before[end:] != seen[:start] + seen[end:]:
        return "other bytes have changed\n" + difference(before, seen)
    (was, was_end), (now, now_end) = cells(before), cells(seen)
    gone = [data for at, data in was.items() if now.get(at) != data]
    new = [data for at, data in now.items() if was.get(at) != data]
    old, made = components(BEFORE), components(entries)
    done = [one for one in old if one not in made], [one for one in made if one not in old]
    if was_end == now_end and ((gone, new) == done or (gone, new) == ([], []) and not is_done):
        return ""
    return "the components are neither those before nor those after\n" + difference(
        lines_of(was, was_end), lines_of(now, now_end))


def lines_of(found, end):
    """Returns a line for each component, and one for the end of the cells."""
    lines = [f"component at {at:#x}: {data.hex()}" for at, data in found.items()]
    return "\n".join([*lines, f"{end[0]} at {end[1]:#x}"])


DEVICE_FAULT = "cbfstool: device fault\n"


def fault_of_run(bench, before, status, message, seen, is_sound=True):
    """Returns what is wrong with the result of a run, or nothing.

    In an image that is not sound, a block of zeros may have damaged the region, so that the command
    is refused before it changes anything.
    """
    _, _, entries = COMMANDS[bench.words]
    after = image(bench.start, entries)
    if status == 0 and (is_sound or entries is None):
        return "" if seen == after else "the image\n" + difference(after, seen)
    if status == 1 and message != DEVICE_FAULT and not is_sound:
        return "" if seen == before or entries is None else "the refused command changed the image"
    if (status, message) not in ((0, ""), (1, DEVICE_FAULT), (-signal.SIGXFSZ, "")):
        return f"status {status}, message {message!r}"
    if entries is None:
        return ""
    region = slice(bench.start, bench.start + REGION)
    if before[: region.start] + before[region.stop :] != seen[: region.start] + seen[region.stop :]:
        return "bytes outside the region have changed\n" + difference(before, seen)
    return fault_of_region(bench.words, before[region], seen[region], status == 0)


def faults_with_limits(start, words):
    """Runs a command without a limit, and with each. Returns the number of refused runs, and the
    first fault with the command and the folder."""
    bench, refused = Bench(start, words), 0
    before = image(start, BEFORE)
    for limit in [None, *LIMITS]:
        (bench.path / "image.rom").write_bytes(before)
        status, message, seen = bench.run(limit)
        fault = fault_of_run(bench, before, status, message, seen)
        if fault or (limit is None and status):
            return refused, (f"{fault}\ncommand: cbfstool image.rom {words}\nregion at {start}, "
                             f"limit of {limit} bytes\nfolder: {bench.path}")
        refused += status != 0
    bench.close()
    return refused, ""


class SizeLimits(ProgramTest):
    """A limit of the size of a file at each multiple of 4096, and at each byte near it."""

    programs = ("cbfstool",)

    def check_limits(self, *commands):
        """Runs commands, whose first words these are, with each limit and each position."""
        tasks = [(start, words) for start in STARTS for words in COMMANDS
                 if words.startswith(commands)]
        with concurrent.futures.ProcessPoolExecutor(os.cpu_count()) as pool:
            results = list(pool.map(faults_with_limits, *zip(*tasks)))
        for (start, words), (refused, fault) in zip(tasks, results):
            with self.subTest(words, start=start):
                self.assertEqual(fault, "")
                self.assertGreater(refused, 0, "no limit has refused a write")

    def test_a_removal(self):
        self.check_limits("remove -n first")

    def test_a_removal_beside_free_space(self):
        self.check_limits("remove -n zeros")

    def test_additions(self):
        self.check_limits("add")

    def test_creation(self):
        self.check_limits("create")


def write_sparse(path, data):
    """Writes the data; each block of zeros is a hole."""
    with open(path, "wb") as file:
        file.truncate(len(data))
        for at in range(0, len(data), BLOCK):
            block = data[at : at + BLOCK]
            if block.strip(b"\0"):
                file.seek(at)
                file.write(block)


def mounted(folder):
    """Mounts a small file system in memory, and returns whether this is allowed."""
    words = ["mount", "-t", "tmpfs", "-o", "size=256k", "none", str(folder)]
    has_mount = shutil.which("mount") is not None
    return has_mount and subprocess.run(words, capture_output=True).returncode == 0


def may_mount():
    """Returns whether file systems may be mounted."""
    with tempfile.TemporaryDirectory() as folder:
        return mounted(folder) and subprocess.run(["umount", folder]).returncode == 0


@unittest.skipUnless(may_mount(), "mount")
class FullFileSystem(ProgramTest):
    """An image with holes, on a file system without a free block.

    The component `zeros` has a hole in each image.
    """

    programs = ("cbfstool",)

    def setUp(self):
        super().setUp()
        self.path = pathlib.Path(tempfile.mkdtemp(prefix="test-"))
        self.addCleanup(self.path.rmdir)
        self.assertTrue(mounted(self.path))
        self.addCleanup(subprocess.run, ["umount", str(self.path)], check=True)

    def run_without_a_free_block(self, bench, data):
        """Runs the command while no block is free, and returns its status, message and image."""
        write_sparse(bench.path / "image.rom", data)
        filler = bench.path / "filler"
        with self.assertRaises(OSError), open(filler, "wb", buffering=0) as file:
            while True:
                file.write(b"x" * 1024)
        try:
            return bench.run()
        finally:
            filler.unlink()

    def refused_with_holes(self, bench):
        """Runs the command with one more hole at each block, and without.

        Returns the number of runs that ended with a device fault.
        """
        refused = 0
        for hole in (None, *range(BLOCK, LENGTH, BLOCK)):
            before = bytearray(image(bench.start, BEFORE))
            if hole is not None:
                before[hole : hole + BLOCK] = bytes(BLOCK)
            with self.subTest(bench.words, start=bench.start, hole=hole):
                status, message, seen = self.run_without_a_free_block(bench, bytes(before))
                refused += message == DEVICE_FAULT
                fault = fault_of_run(bench, bytes(before), status, message, seen, hole is None)
                self.assertEqual(fault, "")
        return refused

    def test_each_hole(self):
        for start in STARTS:
            benches = [Bench(start, words, self.path) for words in COMMANDS]
            refused = sum(self.refused_with_holes(bench) for bench in benches)
            self.assertGreater(refused, 0, "the full file system has refused no write")

    def test_a_sound_image(self):
        """The removal of `zeros` is refused when its hole is filled, after its last commit."""
        for start in STARTS:
            bench = Bench(start, "remove -n zeros", self.path)
            before = image(start, BEFORE)
            status, message, seen = self.run_without_a_free_block(bench, before)
            self.assertEqual((status, message), (1, DEVICE_FAULT))
            self.assertEqual(fault_of_run(bench, before, status, message, seen), "")


if __name__ == "__main__":
    unittest.main()
