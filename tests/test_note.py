"""The notes of cbfstool on an image that it has changed.

A note is one line on standard error after a successful `add`, `remove` or `write`. It changes
neither the status nor standard output nor the image. Expected images come from the builder.
"""

import os
import subprocess
import time
import unittest

from tests.image import (
    ANCHOR_MAGIC, BOOTBLOCK, CBFS_HEADER, SHA1, SHA256, SHA384, SHA512, Area, Component, FreeEntry,
    Image, anchor, digest, flash_map, join, metadata_digest, sealed_anchor,
)
from tests.programs import ProgramTest, program

SIZE = 0x4000
FMAP = Area("FMAP", 0, 0x200)
CONFIG = Area("CONFIG", 0x800, 0x20)
COREBOOT = Area("COREBOOT", 0x1000, 0x1000)
BOOT_AREA = Area("BOOTBLOCK", 0x2000, 0x1000)
AREAS = (FMAP, CONFIG, COREBOOT, BOOT_AREA)
NOTE = "cbfstool: note: the bootblock's metadata hash is outdated: run cbfsseal %s\n"
HOLDS = "cbfstool: note: the region holds the flash map\n"
CONTAINS = "cbfstool: note: the region contains other areas of the flash map\n"
ANOTHER = "cbfstool: note: the image has another flash map now, at %#x\n"
NO_MAP = "cbfstool: note: the image has no flash map now\n"
LISTING = "a\t0x0\traw\t7\tnone\n(empty)\t0x40\tnull\t4000\tnone\n"

OLD = Component(b"a", b"content")
NEW = Component(b"b", b"abc")
ADD = "cbfstool image.rom add -n b -f new -t raw"
REMOVE = "cbfstool image.rom remove -n a"


def region(*parts):
    """Returns a region of 0x1000 bytes: the parts, and free space."""
    used = len(join(*parts))
    return join(*parts, FreeEntry(0x1000 - used, keeps=b"keep"))


def image(*parts, areas=AREAS, start=b"", config=b""):
    """Returns an image with these components, and these bytes at the start of BOOTBLOCK."""
    made = Image(SIZE, list(areas)).put("COREBOOT", region(*parts))
    return made.put_at(0x800, config).put_at(0x2000, start)


def sealed(*parts, algorithm=SHA256):
    """Returns an anchor with the right digests of these components."""
    return sealed_anchor(algorithm, parts, image().map)


def full_pipe():
    """Returns both ends of a pipe that takes no further byte until it is read."""
    reader, writer = os.pipe()
    os.set_blocking(writer, False)
    try:
        while True:
            os.write(writer, bytes(4096))
    except BlockingIOError:
        os.set_blocking(writer, True)
    return reader, writer


class Note(ProgramTest):
    programs = ("cbfstool", "fmaptool", "cbfsseal")

    def notes(self, command, before, after, path="image.rom", others="", **files):
        """Checks that the command succeeds with the note on the anchor, after the given others, and
        leaves this image."""
        self.check(command, {path: before.data(), **files}, 0, "", others + NOTE % path,
                   {path: after.data()})

    def is_silent(self, command, before, after=None, output="", left=(), others="", **files):
        """Checks that the command succeeds without the note on the anchor."""
        changed = {"image.rom": (after or before).data(), **dict(left)}
        self.check(command, {"image.rom": before.data(), **files}, 0, output, others, changed)


class Outdated(Note):
    def test_after_an_addition(self):
        for algorithm in (SHA1, SHA256, SHA384, SHA512):
            with self.subTest(algorithm):
                right = sealed(OLD, algorithm=algorithm)
                self.notes(ADD, image(OLD, start=right), image(OLD, NEW, start=right), new=b"abc")

    def test_after_a_removal(self):
        right = sealed(OLD, NEW)
        before = image(OLD, NEW, start=right)
        self.notes("cbfstool image.rom remove -n b", before, image(OLD, start=right))

    def test_after_a_write_of_components(self):
        right = sealed(OLD)
        self.notes("cbfstool image.rom write -f new", image(OLD, start=right),
                   image(OLD, NEW, start=right), new=region(OLD, NEW))

    def test_after_a_write_of_the_anchor(self):
        of_components, of_map = metadata_digest(SHA256, [OLD]), digest(SHA256, image().map)
        wrong = anchor(SHA256, b"m" * 32, of_map)
        for start in (wrong, b"code" + wrong, anchor(SHA256, of_components, b"f" * 32)):
            with self.subTest(start):
                bootblock = start.ljust(0x1000, b"\0")
                self.notes("cbfstool image.rom write -r BOOTBLOCK -f new",
                           image(OLD, start=sealed(OLD)), image(OLD, start=bootblock),
                           new=bootblock)

    def test_after_a_change_elsewhere(self):
        wrong = sealed(NEW)
        self.notes("cbfstool image.rom write -r CONFIG -f new", image(OLD, start=wrong),
                   image(OLD, start=wrong, config=b"c" * 0x20), new=b"c" * 0x20)

    def test_with_the_anchor_in_the_component(self):
        areas = (FMAP, CONFIG, COREBOOT)
        table = image(areas=areas).map
        boot = Component(b"bootblock", b"code" + anchor(SHA256, b"m" * 32, b"f" * 32),
                         type=BOOTBLOCK)
        right = sealed_anchor(SHA256, [boot], table)
        boot = Component(b"bootblock", b"code" + right, type=BOOTBLOCK)
        self.notes(ADD, image(boot, areas=areas), image(boot, NEW, areas=areas), new=b"abc")

    def test_the_path_is_the_argument(self):
        right = sealed(OLD)
        before, after = image(OLD, start=right), image(OLD, NEW, start=right)
        for path in ("./image.rom", "folder/my image.rom"):
            with self.subTest(path):
                name = path.removeprefix("./")
                self.check(["cbfstool", path, "add", "-n", "b", "-f", "new", "-t", "raw"],
                           {name: before.data(), "new": b"abc"}, 0, "", NOTE % path,
                           {name: after.data()})

    def test_the_lock_is_released_before_the_note(self):
        """No command on the image waits for the reader of the note."""
        right = sealed(OLD)
        folder = self.folder({"image.rom": image(OLD, start=right).data(), "new": b"abc"})
        after = image(OLD, NEW, start=right).data()
        reader, writer = full_pipe()
        words = [program("cbfstool"), *ADD.split()[1:]]
        child = subprocess.Popen(words, cwd=folder.path, stderr=writer)
        os.close(writer)
        try:
            end = time.monotonic() + 20
            while (folder.path / "image.rom").read_bytes() != after and time.monotonic() < end:
                time.sleep(0.01)
            run = folder.run("cbfstool image.rom print", limit=20)
            self.assertEqual(run.status, 0, "the listing waits for the reader of the note")
            self.assertIsNone(child.poll(), "the note is not printed after the listing")
        finally:
            with os.fdopen(reader, "rb") as messages:
                message = messages.read().lstrip(b"\0").decode()
            status = child.wait()
        self.assertEqual((status, message), (0, NOTE % "image.rom"))


# A flash map at the end of the image, which a search meets last.
LATE_AREAS = (Area("FMAP", 0x3000, 0x1000), CONFIG, COREBOOT, BOOT_AREA)
LATE_AT = 0x3000
# A valid flash map whose areas no image has, as a content of a component.
FOREIGN = flash_map(SIZE, [Area("OTHER", 0, 0x100)])


def late_image(*parts, start=b""):
    """Returns an image with the flash map in its last 4096 bytes."""
    made = Image(SIZE, list(LATE_AREAS)).put("COREBOOT", region(*parts))
    return made.put_at(0x2000, start)


def late_sealed(*parts):
    """Returns an anchor with the right digests of these components in such an image."""
    return sealed_anchor(SHA256, parts, late_image().map)


class StandingMap(Note):
    """The note is about the flash map that the command used, while its head stands."""

    def test_a_map_at_the_end(self):
        right = late_sealed(OLD)
        self.notes(ADD, late_image(OLD, start=right), late_image(OLD, NEW, start=right),
                   new=b"abc")
        self.notes(REMOVE, late_image(OLD, start=right), late_image(start=right))
        right = late_sealed(OLD, NEW)
        self.is_silent(ADD, late_image(OLD, start=right), late_image(OLD, NEW, start=right),
                       new=b"abc")

    def test_an_added_map_below_the_map(self):
        """A later search finds the added map, but the firmware reads the other."""
        nested = Component(b"b", FOREIGN)
        # (behind a component of one cell and a header of 28 bytes)
        hides = ANOTHER % (0x1000 + 0x40 + 28)
        right = late_sealed(OLD)
        self.notes(ADD, late_image(OLD, start=right), late_image(OLD, nested, start=right),
                   others=hides, new=FOREIGN)
        right = late_sealed(OLD, nested)
        self.is_silent(ADD, late_image(OLD, start=right), late_image(OLD, nested, start=right),
                       others=hides, new=FOREIGN)

    def test_a_write_over_the_map(self):
        """Another head at the place of the map: the lowest map of the image counts."""
        write = "cbfstool image.rom write -r FMAP -f new"
        for name, areas, map_at, start in (("first", AREAS, 0, image(OLD)),
                                           ("last", LATE_AREAS, LATE_AT, late_image(OLD))):
            size = [area.size for area in areas if area.name == b"FMAP"][0]
            renamed = flash_map(SIZE, areas, name=b"OTHER")
            wrong = sealed_anchor(SHA256, [OLD], start.map)
            right = sealed_anchor(SHA256, [OLD], renamed)
            content = renamed.ljust(size, b"\xff")
            with self.subTest(name):
                before = start.put_at(0x2000, wrong)
                after = Image(SIZE, list(areas), name=b"OTHER").put("COREBOOT", region(OLD))
                after.put_at(map_at, content).put_at(0x2000, wrong)
                others = HOLDS + ANOTHER % map_at
                self.notes(write, before, after, others=others, new=content)
                before.put_at(0x2000, right)
                after.put_at(0x2000, right)
                self.is_silent(write, before, after, others=others, new=content)

    def test_a_write_of_a_map_at_another_offset(self):
        """The map moves inside its area, so that no head is at the earlier offset."""
        write = "cbfstool image.rom write -r FMAP -f new"
        table = late_image().map
        content = b"\xff" * 0x100 + table + b"\xff" * (0x1000 - 0x100 - len(table))
        for start, told in ((late_sealed(NEW), True), (late_sealed(OLD), False)):
            with self.subTest(told):
                before = late_image(OLD, start=start)
                after = late_image(OLD, start=start).put_at(LATE_AT, content)
                (self.notes if told else self.is_silent)(
                    write, before, after, others=HOLDS + ANOTHER % (LATE_AT + 0x100), new=content)

    def test_a_write_that_removes_the_map(self):
        write = "cbfstool image.rom write -r FMAP -f new"
        content = b"\xff" * 0x1000
        start = late_sealed(NEW)
        self.is_silent(write, late_image(OLD, start=start),
                       late_image(OLD, start=start).put_at(LATE_AT, content),
                       others=HOLDS + NO_MAP, new=content)

    def test_a_write_of_other_areas_below_the_same_head(self):
        """The head stands, so the areas are read anew: BOOTBLOCK is elsewhere."""
        write = "cbfstool image.rom write -r FMAP -f new"
        moved = (LATE_AREAS[0], CONFIG, COREBOOT, Area("BOOTBLOCK", 0x2800, 0x800))
        table = flash_map(SIZE, moved)
        content = table.ljust(0x1000, b"\xff")
        for anchored, told in ((sealed_anchor(SHA256, [OLD], table), False),
                               (sealed_anchor(SHA256, [NEW], table), True)):
            with self.subTest(told):
                before = late_image(OLD).put_at(0x2800, anchored)
                after = late_image(OLD).put_at(0x2800, anchored).put_at(LATE_AT, content)
                (self.notes if told else self.is_silent)(write, before, after, others=HOLDS,
                                                         new=content)


class WrittenRegions(Note):
    """The notes on the region that `write` replaces."""

    def writes(self, name, note, areas, content=None, size=SIZE, map_at=None):
        """Checks the note after the bytes of an area, or a content, are written to the area."""
        before = Image(size, areas, map_at) if map_at else Image(size, areas)
        data = before.data()
        area = next(area for area in areas if area.name == name.encode())
        end = area.offset + area.size
        content = data[area.offset : end] if content is None else content
        self.check(f"cbfstool image.rom write -r {name} -f new",
                   {"image.rom": data, "new": content}, 0, "", note,
                   {"image.rom": data[: area.offset] + content + data[end:]})

    def test_a_region_at_the_map(self):
        """The table of n areas at 0x100 ends at 0x100 + 56 + 42 n."""
        end = 0x100 + 56 + 42 * 3
        for offset, size, note in [
            (0x100, 0x100, HOLDS),
            (0xF0, 0x10, ""),
            (0xF0, 0x11, HOLDS),
            (end, 0x10, ""),
            (end - 1, 1, HOLDS),
            (0x110, 1, HOLDS),
            (0x110, 0, ""),
            (0x100, 0, ""),
        ]:
            with self.subTest(hex(offset), size=size):
                self.writes("A", note, [Area("FMAP", 0x400, 0x100), COREBOOT,
                                        Area("A", offset, size)], map_at=0x100)

    def test_a_region_with_the_map_and_other_areas(self):
        """There is no second note on the region."""
        areas = [Area("FMAP", 0x100, 0x200), Area("ALL", 0, SIZE), COREBOOT]
        self.writes("ALL", HOLDS, areas, map_at=0x100)

    def test_a_region_with_other_areas(self):
        for offset, size, note in [
            (0x1400, 0x400, CONTAINS),
            (0x1000, 0x1000, CONTAINS),
            (0x1000, 1, CONTAINS),
            (0x1FFF, 1, CONTAINS),
            (0x1400, 0, ""),
            (0xFFF, 2, ""),
            (0xFFF, 0x1001, ""),
            (0x1FFF, 2, ""),
            (0x1000, 0x1001, ""),
            (0x2000, 0x10, ""),
        ]:
            with self.subTest(hex(offset), size=size):
                self.writes("OUTER", note, [FMAP, Area("INNER", offset, size),
                                            Area("OUTER", 0x1000, 0x1000)])

    def test_a_region_beside_the_others(self):
        self.writes("CONFIG", "", list(AREAS))
        self.writes("COREBOOT", "", list(AREAS), content=region(OLD))

    def test_a_second_area_of_the_name(self):
        self.writes("COREBOOT", "", [FMAP, COREBOOT, Area("COREBOOT", 0x1400, 0x100)])

    def test_another_command_in_a_region_with_other_areas(self):
        areas = [FMAP, COREBOOT, Area("INNER", 0x1800, 0x100)]
        before, after = image(OLD, areas=areas), image(OLD, NEW, areas=areas)
        self.is_silent(ADD, before, after, new=b"abc")
        self.is_silent("cbfstool image.rom remove -n b", after, before)

    def test_a_refused_write(self):
        data = image(OLD).data()
        self.refuses(1, "source size differs from the region",
                     "cbfstool image.rom write -r FMAP -f new", {"image.rom": data, "new": b"x"})


class OtherMaps(Note):
    """The note on the flash map that the next command finds."""

    def test_an_addition_of_a_map(self):
        """Below the image's map it hides that map, and above it does not."""
        nested = Component(b"b", FOREIGN)
        self.is_silent(ADD, late_image(), late_image(nested), others=ANOTHER % (0x1000 + 28),
                       new=FOREIGN)
        self.is_silent(ADD, image(), image(nested), new=FOREIGN)

    def test_an_addition_of_no_valid_map(self):
        """The major version is 2, or the signature is not complete."""
        for wrong in (FOREIGN[:8] + b"\2" + FOREIGN[9:], FOREIGN[1:]):
            with self.subTest(wrong[:9]):
                self.is_silent(ADD, late_image(), late_image(Component(b"b", wrong)), new=wrong)

    def test_a_removal_of_a_map(self):
        """The removal by the hidden map's rival, which has the region too, leaves the other map."""
        areas = [Area("FMAP", 0x3000, 0x1000), CONFIG, COREBOOT]
        rival = flash_map(SIZE, areas)
        before = Image(SIZE, areas, 0x3000)
        before.put("COREBOOT", region(Component(b"a", rival)))
        after = Image(SIZE, areas, 0x3000).put("COREBOOT", region())
        run = self.folder({"image.rom": before.data()}).run(REMOVE)
        self.assertEqual((run.status, run.output, run.message.decode()),
                         (0, b"", ANOTHER % 0x3000))
        # (the removed content is erased)
        self.assertEqual(run.after["image.rom"], after.data())

    def test_a_write_of_the_same_map(self):
        before = image(OLD)
        self.is_silent("cbfstool image.rom write -r FMAP -f new", before, others=HOLDS,
                       new=before.data()[:0x200])

    def test_a_write_of_a_map_elsewhere(self):
        """A map below the image's own one becomes the first, and a map above does not."""
        content = FOREIGN.ljust(0x1000, b"\xff")
        write = "cbfstool image.rom write -r COREBOOT -f new"
        self.is_silent(write, late_image(), late_image().put_at(0x1000, content),
                       others=ANOTHER % 0x1000, new=content)
        self.is_silent(write, image(), image().put_at(0x1000, content), new=content)

    def test_the_notes_are_in_order(self):
        """All three notes of a write over the map, under another head."""
        right = late_sealed(OLD)
        before = late_image(OLD, start=right)
        renamed = flash_map(SIZE, LATE_AREAS, name=b"OTHER").ljust(0x1000, b"\xff")
        self.notes("cbfstool image.rom write -r FMAP -f new", before,
                   late_image(OLD, start=right).put_at(LATE_AT, renamed),
                   others=HOLDS + ANOTHER % LATE_AT, new=renamed)


class NotOutdated(Note):
    def test_without_an_anchor(self):
        magic = ANCHOR_MAGIC[:7] + b"x"
        for start in (b"", b"code", magic):
            with self.subTest(start):
                self.is_silent(ADD, image(OLD, start=start), image(OLD, NEW, start=start),
                               new=b"abc")
                self.is_silent(REMOVE, image(OLD, start=start), image(start=start))
        areas = (FMAP, CONFIG, COREBOOT)
        self.is_silent(ADD, image(OLD, areas=areas), image(OLD, NEW, areas=areas), new=b"abc")

    def test_after_a_removal_that_makes_the_anchor_right(self):
        right = sealed(NEW)
        self.is_silent(REMOVE, image(OLD, NEW, start=right),
                       image(FreeEntry(0x40), NEW, start=right))

    def test_after_an_addition_that_makes_the_anchor_right(self):
        right = sealed(OLD, NEW)
        self.is_silent(ADD, image(OLD, start=right), image(OLD, NEW, start=right), new=b"abc")

    def test_after_a_seal(self):
        header = Component(b"b", b"abc", type=CBFS_HEADER)
        made = self.folder({"image.rom": image(start=sealed()).data(), "new": b"abc",
                            "config": b"c" * 0x20})
        add = 'cbfstool image.rom add -n b -f new -t "cbfs header"'
        after = image(header, start=sealed())
        self.check(add, made, 0, "", NOTE % "image.rom", {"image.rom": after.data()})
        after = image(header, start=sealed(header))
        self.check("cbfsseal image.rom", made, 0, left={"image.rom": after.data()})
        after.put_at(0x800, b"c" * 0x20)
        self.check("cbfstool image.rom write -r CONFIG -f config", made, 0, "", "",
                   {"image.rom": after.data()})

    def test_after_a_command_that_only_reads(self):
        outdated = image(OLD, start=sealed(NEW))
        self.is_silent("cbfstool image.rom print", outdated, output=LISTING)
        areas = "".join(f"{area.name.decode()}\t{area.offset:#x}\t{area.size}\t0x0\n"
                        for area in AREAS)
        self.is_silent("cbfstool image.rom layout", outdated,
                       output=f"fmap\t0x0\tBOARD\t{SIZE}\t4\n{areas}")
        self.is_silent("cbfstool image.rom extract -n a -f got", outdated,
                       left={"got": b"content"})
        self.is_silent("cbfstool image.rom read -r CONFIG -f got", outdated,
                       left={"got": b"\xff" * 0x20})

    def test_after_a_creation(self):
        after = Image(SIZE, list(AREAS))
        after.put("COREBOOT", FreeEntry(0x1000, keeps=b"\xff" * 4).bytes)
        self.is_silent("cbfstool image.rom create -M new", image(OLD, start=sealed(NEW)), after,
                       new=after.map)

    def test_after_a_refused_command(self):
        outdated = image(OLD, start=sealed(NEW)).data()
        lines = [
            ("component exists", "add -n a -f new -t raw"),
            ("no space", "add -n b -f new -t raw -b 4096"),
            ("no such component", "remove -n b"),
            ("source size differs from the region", "write -r CONFIG -f new"),
            ("source fault", "add -n b -f none -t raw"),
        ]
        for message, line in lines:
            with self.subTest(line):
                self.refuses(1, message, f"cbfstool image.rom {line}",
                             {"image.rom": outdated, "new": b"abc"})
        self.refuses(2, "bad command line", "cbfstool image.rom add", {"image.rom": outdated})

    def test_if_the_anchor_cannot_be_computed(self):
        unknown = ANCHOR_MAGIC + b"abc\x09" + b"x" * 128
        self.is_silent(ADD, image(OLD, start=unknown), image(OLD, NEW, start=unknown), new=b"abc")
        damaged = Component(b"d", b"data", offset=24)
        wrong = sealed(NEW)
        write = "cbfstool image.rom write -r CONFIG -f new"
        self.is_silent(write, image(damaged, start=wrong),
                       image(damaged, start=wrong, config=b"c" * 0x20), new=b"c" * 0x20)
        areas = (FMAP, CONFIG, BOOT_AREA)
        made = Image(SIZE, list(areas)).put_at(0x2000, wrong)
        after = Image(SIZE, list(areas)).put_at(0x2000, wrong).put_at(0x800, b"c" * 0x20)
        self.is_silent(write, made, after, new=b"c" * 0x20)


if __name__ == "__main__":
    unittest.main()
