"""The command line of cbfstool, and images that are too large, read-only or not there."""

import os
import tempfile
import unittest

from tests.image import Component
from tests.programs import TOP, ProgramTest, if_memory_can_be_refused
from tests.regions import with_component
from tests.samples import NAMES, Sample
from tests.strace import traces, tracing

USAGE = "usage: cbfstool IMAGE COMMAND [OPTIONS]\n"
USAGE += "commands: print layout extract add remove read write create\n"
TYPES = Sample("types")


class CommandLine(ProgramTest):
    programs = ("cbfstool",)

    def test_usage(self):
        self.check("cbfstool", output=USAGE)

    bad = [
        "image.rom", "image.rom help", "image.rom --help", "image.rom read",
        f"image.rom print {os.fsdecode(bytes([255]))}", "image.rom read -r ABSENT",
        "image.rom frobnicate", "image.rom print -h", "image.rom print more",
        "image.rom print print", "image.rom print -r", "image.rom print -r A -r B",
        "image.rom print -f unmade", "image.rom layout -r A", "image.rom extract -n a",
        "image.rom extract -f unmade", "image.rom extract -n a -n b -f unmade",
        "image.rom write -r A", "image.rom remove", "image.rom remove -n a -f unmade",
        "image.rom write -f unmade -f unmade",
        # no option has a long name
        "image.rom print --verbose", "image.rom print --region COREBOOT",
        "image.rom layout --verbose", "image.rom extract --name a --file unmade",
        "image.rom extract -n a --file unmade", "image.rom extract --name=a -f unmade",
        "image.rom add -n a -t raw -f unmade --alignment 64",
        "image.rom add -n a -t raw -f unmade --align 64",
        "image.rom add -n a -t raw -f unmade --base 0",
        "image.rom add -n a -t raw -f unmade --hash sha256",
        "image.rom add -n a --type raw -f unmade", "image.rom remove --name a",
        "image.rom read --file unmade", "image.rom write --file unmade",
        "image.rom create --flashmap unmade", "image.rom create -M unmade --regions A",
        "image.rom print --help", "image.rom print --version", "image.rom print --v",
        "image.rom print --r COREBOOT",
    ]

    def test_bad_command_lines(self):
        for words in self.bad:
            with self.subTest(words):
                self.refuses(2, "bad command line", f"cbfstool {words}",
                             {"image.rom": TYPES.image})

    refused = [
        ("text print", "no FMAP"), ("image.rom print -r ABSENT", "no such region"),
        ("image.rom print -r ''", "no such region"), ("absent.rom print", "device fault"),
        ("folder print", "device fault"),
    ]

    def test_refusals(self):
        files = {"image.rom": TYPES.image, "text": TYPES.listing, "folder/file": b""}
        for words, refusal in self.refused:
            with self.subTest(words):
                self.refuses(1, refusal, f"cbfstool {words}", files)


class FullDevice(ProgramTest):
    """The output cannot be written."""

    programs = ("cbfstool",)

    def test_usage(self):
        self.check(["sh", "-c", "cbfstool > /dev/full"], status=1,
                   message="cbfstool: output fault\n")

    def test_listings(self):
        for name in NAMES:
            for command in ("print", "layout"):
                with self.subTest(name, command=command):
                    self.check(["sh", "-c", f"cbfstool image.rom {command} > /dev/full"],
                               {"image.rom": Sample(name).image}, 1,
                               message="cbfstool: output fault\n")


class LargeFiles(ProgramTest):
    """Files of 4 GiB, and one byte less. They are sparse, and beside the folder of the test."""

    programs = ("cbfstool",)

    def large(self, length, content=b""):
        """Returns the path of a file of this length that begins with the content."""
        file = tempfile.NamedTemporaryFile(prefix="test-")
        self.addCleanup(file.close)
        file.write(content)
        file.truncate(length)
        file.flush()
        return file.name

    def test_4_GiB(self):
        image, source = self.large(1 << 32, TYPES.image), self.large(1 << 32)
        self.refuses(1, "image too large", f"cbfstool {image} print")
        self.refuses(1, "image too large", f"cbfstool image.rom write -f {source}",
                     {"image.rom": TYPES.image})
        # (a byte that is written into a hole takes room)
        self.assertEqual(os.stat(source).st_blocks, 0)

    def test_one_byte_less(self):
        path = self.large((1 << 32) - 1, TYPES.image)
        self.check(f"cbfstool {path} print", output=TYPES.listing)
        self.refuses(1, "source size differs from the region",
                     f"cbfstool image.rom write -f {path}", {"image.rom": TYPES.image})


class Permissions(ProgramTest):
    """A user who may read a file, but not write it, or neither."""

    programs = ("cbfstool",)

    def folder_of(self, image, mode=0o666):
        """Returns a folder with an image, and with sources of which one cannot be read."""
        folder = self.folder({
            "image.rom": image, "ten": b"0123456789", "secret": b"abc",
            "map": (TOP / "samples" / "board.fmap").read_bytes(),
        })
        folder.path.chmod(0o755)
        for name, bits in [("image.rom", mode), ("ten", 0o444), ("secret", 0), ("map", 0o444)]:
            (folder.path / name).chmod(bits)
            os.chown(folder.path / name, os.getuid(), os.getgid())
        return folder

    def test_a_source_that_may_not_be_written(self):
        data = with_component(TYPES.region_bytes(), 0x4C0, Component(b"ten", b"0123456789"))
        self.check("cbfstool image.rom add -n ten -t raw -f ten", self.folder_of(TYPES.image),
                   left={"image.rom": TYPES.with_region(data)}, as_nobody=True)
        size = TYPES.region.size
        folder = self.folder_of(TYPES.image)
        folder.put("zeros", bytes(size))
        (folder.path / "zeros").chmod(0o444)
        self.check("cbfstool image.rom write -f zeros", folder,
                   left={"image.rom": TYPES.with_region(bytes(size))}, as_nobody=True)

    def test_a_source_that_may_not_be_read(self):
        self.refuses(1, "source fault", "cbfstool image.rom add -n abc -t raw -f secret",
                     self.folder_of(TYPES.image), as_nobody=True)

    def test_an_image_that_may_not_be_written(self):
        for words in ("print", "add -n abc -t raw -f ten", "create -M map"):
            with self.subTest(words):
                self.refuses(1, "device fault", f"cbfstool image.rom {words}",
                             self.folder_of(TYPES.image, 0o444), as_nobody=True)


@if_memory_can_be_refused
class RefusedMemory(ProgramTest):
    programs = ("cbfstool",)

    def test_print(self):
        """Each request for memory is refused in turn: of at least 64 one can be spared."""
        # (no component of this image has attributes)
        reported, spared = self.refuse_memory("cbfstool image.rom print -v",
                                              {"image.rom": TYPES.image}, output=TYPES.listing)
        self.assertEqual(len(spared), 1)
        self.assertGreaterEqual(len(reported), 63)


@unittest.skipUnless(traces(), "strace")
class Reads(ProgramTest):
    """The number of reads of an image, which samples/reads states.

    The first piece of an image is read by itself, and what follows is read ahead by 16 KiB.
    """

    programs = ("cbfstool",)

    def test_numbers_of_reads(self):
        for line in (TOP / "samples" / "reads").read_text().splitlines():
            count, image, words = line.split(maxsplit=2)
            with self.subTest(words, image=image):
                folder = self.folder({"image.rom": (TOP / "samples" / image).read_bytes()})
                done = folder.run([*tracing(folder, "pread64", ["image.rom"]), "cbfstool",
                                   "image.rom", *words.split()])
                self.compare(folder, done, "status", 0, done.status)
                if words == "print":
                    self.compare(folder, done, "output", Sample(image[:-4]).listing, done.output)
                reads = folder.notes.read_text().count("pread64(")
                self.compare(folder, done, "reads", int(count), reads)


if __name__ == "__main__":
    unittest.main()
