"""remove: the empty entry that replaces a component and the free space around it."""

import unittest

from tests.image import DELETED, NULL, Area, Component, FreeEntry, Image, empty_region, head, join
from tests.programs import ProgramTest
from tests.regions import cells, listing, without_component
from tests.samples import NAMES, Sample

AREAS = [Area("FMAP", 0, 512), Area("COREBOOT", 512, 512), Area("REST", 1024, 3072)]
DELETED_SPACE = FreeEntry(64, type=DELETED)
M = Component(b"m", b"12345", name_field=b"m".ljust(16, b"\0"))
X1 = Component(b"x", b"1", name_field=b"x".ljust(16, b"\0"))
X2 = Component(b"x", b"22", name_field=b"x".ljust(16, b"\0"))


def space(length, size):
    """Returns free space as coreboot writes it: a length, and a content at 40."""
    return (head(length, NULL, 0, 40) + bytes(16)).ljust(size, b"\xff")


def image_of(*parts, size=512):
    """Returns an image with a region of this size at 512; missing bytes are 0xff."""
    areas = [AREAS[0], Area("COREBOOT", 512, size), AREAS[2]]
    return Image(4096, areas).put("COREBOOT", join(*parts, size=size)).data()


class Removal(ProgramTest):
    programs = ("cbfstool",)

    def removes(self, before, after, name="m"):
        """Checks the image after a removal."""
        self.check(["cbfstool", "image.rom", "remove", "-n", name], {"image.rom": before},
                   left={"image.rom": after})

    def test_the_components_of_the_samples(self):
        """All components of an image are removed, one after the other."""
        for sample_name in NAMES:
            sample = Sample(sample_name)
            folder, data = self.folder({"image.rom": sample.image}), sample.region_bytes()
            for name in [cell.name for cell in cells(data) if not cell.is_free()]:
                with self.subTest(name, sample=sample_name):
                    data = without_component(data, name)
                    self.check(["cbfstool", "image.rom", "remove", "-n", name.decode()], folder,
                               left={"image.rom": sample.with_region(data)})
                    self.check("cbfstool image.rom print", folder, output=listing(data))
            self.refuses(1, "no such component", "cbfstool image.rom remove -n absent", folder)

    def test_free_space_on_both_sides(self):
        self.removes(image_of(DELETED_SPACE, M, space(340, 384)), image_of(empty_region(512)))

    def test_the_last_four_bytes_stay(self):
        self.removes(image_of(DELETED_SPACE, M, space(340, 384)[:380], b"last"),
                     image_of(empty_region(512, keeps=b"last")))

    def test_an_unused_tail_stays(self):
        tail = b"\xff" * 12 + b"tail"
        self.removes(image_of(DELETED_SPACE, M, space(280, 320), tail),
                     image_of(FreeEntry(448), tail))

    def test_the_first_component_with_the_name(self):
        rest = space(340, 384)
        self.removes(image_of(X1, X2, rest), image_of(FreeEntry(64), X2, rest), "x")
        self.removes(image_of(FreeEntry(64), X2, rest), image_of(empty_region(512)), "x")

    refusals = [
        ("no such component", image_of(empty_region(512)), "-n x"),
        ("no such component", image_of(M, space(404, 448)), "-n absent"),
        ("no such component", image_of(M, space(404, 448)), "-n ''"),
        ("no such region", image_of(M, space(404, 448)), "-r ABSENT -n m"),
        ("damaged entry at 0x40: extent",
         image_of(M, head(0xFFFFFFFF, NULL, 0, 40) + bytes(16)), "-n m"),
        ("not a CBFS region", image_of(b"\xff", M), "-n m"),
        ("bad region size", image_of(M, size=500), "-n m"),
    ]

    def test_refusals(self):
        for refusal, image, words in self.refusals:
            with self.subTest(refusal, words=words):
                self.refuses(1, refusal, f"cbfstool image.rom remove {words}",
                             {"image.rom": image})


if __name__ == "__main__":
    unittest.main()
