"""extract, read and write: the bytes of components and regions."""

import unittest

from tests.image import RAW, Area, Component, Image, empty_region, head, join
from tests.programs import HAS_COMPILER, Faults, ProgramTest, if_memory_can_be_refused
from tests.regions import cells
from tests.samples import NAMES, Sample

AREAS = [Area("FMAP", 0, 512), Area("COREBOOT", 512, 512), Area("REST", 1024, 3072)]
LONGER = b"an older and longer file" * 4000


def image_of(*parts):
    """Returns an image with a region of 512 bytes; missing bytes are 0xff."""
    return Image(4096, AREAS).put("COREBOOT", join(*parts, size=512)).data()


class Extract(ProgramTest):
    programs = ("cbfstool",)

    def test_the_components_of_the_samples(self):
        """The first component with a name is extracted; a compressed one is not."""
        for sample_name in NAMES:
            sample, seen = Sample(sample_name), set()
            for cell in cells(sample.region_bytes()):
                if cell.is_free() or cell.name in seen:
                    continue
                seen.add(cell.name)
                with self.subTest(cell.name, sample=sample_name):
                    command = ["cbfstool", "image.rom", "extract", "-n", cell.name.decode(),
                               "-f", "out"]
                    files = {"image.rom": sample.image, "out": LONGER}
                    if cell.compression():
                        self.refuses(1, "component is compressed", command, files, {"out": b""})
                    else:
                        self.check(command, files, left={"out": cell.content})

    def extracts(self, image, name, content):
        """Checks the content of a component."""
        self.check(["cbfstool", "image.rom", "extract", "-n", name, "-f", "out"],
                   {"image.rom": image}, left={"out": content})

    def test_the_first_of_two_components_with_a_name(self):
        self.extracts(image_of(Component(b"x", b"1"), Component(b"x", b"22")), "x", b"1")

    def test_names_that_end_before_the_attributes(self):
        region = head(10, RAW, 27, 40) + b"nn".ljust(16, b"\0") + b"0123456789"
        self.extracts(image_of(region), "nn", b"0123456789")

    def test_the_longest_name(self):
        name = "0" * 255
        image = image_of(head(0, RAW, 0, 280) + name.encode() + b"\0")
        self.extracts(image, name, b"")
        self.refuses(1, "no such component", f"cbfstool image.rom extract -n {name[1:]} -f out",
                     {"image.rom": image}, {"out": b""})

    def test_damage_after_the_component(self):
        damaged = head(0xFFFFFFFF, RAW, 0, 40) + b"x".ljust(16, b"\0")
        image = image_of(Component(b"a", b"0123456789"), damaged)
        self.extracts(image, "a", b"0123456789")
        self.refuses(1, "damaged entry at 0x40: extent",
                     "cbfstool image.rom extract -n z -f out", {"image.rom": image}, {"out": b""})

    def test_refusals(self):
        image = image_of(Component(b"a", b"abc"), empty_region(448))
        for words in ("-n absent", "-n ''"):
            with self.subTest(words):
                self.refuses(1, "no such component", f"cbfstool image.rom extract {words} -f out",
                             {"image.rom": image}, {"out": b""})

    @if_memory_can_be_refused
    def test_refused_memory(self):
        """Each request for memory is refused in turn: of at least 90 one can be spared."""
        content = cells(Sample("types").region_bytes())[0].content
        reported, spared = self.refuse_memory(
            "cbfstool image.rom extract -r COREBOOT -n t/raw -f out",
            {"image.rom": Sample("types").image}, left={"out": content}, made=["out"])
        self.assertEqual(len(spared), 1)
        self.assertGreaterEqual(len(reported), 89)


class ReadAndWrite(ProgramTest):
    programs = ("cbfstool",)

    def test_all_areas_of_the_samples_are_read(self):
        for sample_name in NAMES:
            sample = Sample(sample_name)
            for area in sample.areas:
                with self.subTest(area.name, sample=sample_name):
                    self.check(f"cbfstool image.rom read -r {area.name.decode()} -f out",
                               {"image.rom": sample.image, "out": LONGER},
                               left={"out": sample.bytes_of(area)})

    def test_the_region_of_each_sample_is_written(self):
        for sample_name in NAMES:
            with self.subTest(sample_name):
                sample = Sample(sample_name)
                size = sample.region.size
                folder = self.folder({
                    "image.rom": sample.image, "zeros": bytes(size), "short": bytes(size - 1),
                    "long": bytes(size + 1), "same": sample.region_bytes(),
                })
                self.check("cbfstool image.rom write -f zeros", folder,
                           left={"image.rom": sample.with_region(bytes(size))})
                self.check("cbfstool image.rom write -f same", folder,
                           left={"image.rom": sample.image})
                for source in ("short", "long"):
                    self.refuses(1, "source size differs from the region",
                                 f"cbfstool image.rom write -f {source}", folder)

    @unittest.skipUnless(HAS_COMPILER, "cc")
    def test_short_writes(self):
        for sample_name in NAMES:
            with self.subTest(sample_name):
                sample = Sample(sample_name)
                zeros = bytes(sample.region.size)
                files = {"image.rom": sample.image, "zeros": zeros}
                for command, file, output, left in [
                    ("print", "-", sample.listing, {}),
                    ("read -f out", "out", "", {"out": sample.region_bytes()}),
                    ("write -f zeros", "image.rom", "",
                     {"image.rom": sample.with_region(zeros)}),
                ]:
                    short = Faults(file, "write 1 always short")
                    self.check(f"cbfstool image.rom {command}", files, output=output, left=left,
                               faults=short)
                    self.assertGreater(short.changed(), 0)

    refusals = [
        # arguments, refusal, the files that are made
        ("image.rom read -f /dev/full", "output fault", {}),
        ("image.rom read -f absent/file", "output fault", {}),
        ("image.rom read -f folder", "output fault", {}),
        ("image.rom write -f absent", "source fault", {}),
        ("image.rom write -f folder", "source fault", {}),
        ("image.rom read -r ABSENT -f out", "no such region", {"out": b""}),
        ("absent.rom read -f out", "device fault", {}),
    ]

    def test_refusals(self):
        files = {"image.rom": Sample("types").image, "folder/file": b""}
        for words, refusal, left in self.refusals:
            with self.subTest(words):
                self.refuses(1, refusal, f"cbfstool {words}", files, left)


if __name__ == "__main__":
    unittest.main()
