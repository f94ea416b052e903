"""Runs the scripts of dist/examples on boards and names that could lead them to a wrong place.

tests/test_example_results.py has the usual results, and tests/test_examples.py the cases in which a
script could lose data. Here are full and empty regions, names that are equal as numbers, names of
any bytes, areas without a name, refusals, and changes of another command at the same time.
"""

import os
import shutil
import subprocess
import time
import unittest

from tests import image
from tests.programs import ProgramTest, program, waits_for_lock
from tests.test_examples import ExampleTest, board

FREE = b"\xff" * 4
# Region COREBOOT of this image begins at no multiple of 128. FULL has one component and no free
# space, EMPTY no component.
START, SIZE = 0x440, 0x4000
BYTES = bytes(number * 37 % 251 for number in range(0x4000))


def regions_image(*cells):
    """Returns an image with the regions COREBOOT, FULL, EMPTY, +1 and +01."""
    areas = [image.Area("FMAP", 0, 0x400), image.Area("COREBOOT", START, SIZE)]
    areas += [image.Area("FULL", 0x4440, 0x400), image.Area("EMPTY", 0x4840, 0x400)]
    areas += [image.Area("BLOCK", 0x4C40, 0x100), image.Area("+1", 0x4D40, 0x1000)]
    areas.append(image.Area("+01", 0x5D40, 0x800))
    made = image.Image(0x6540, areas)
    used = len(image.join(*cells))
    made.put("COREBOOT", image.join(*cells, image.FreeEntry(SIZE - used, keeps=FREE)))
    # (a component may have all bytes but the last four)
    made.put("FULL", image.join(image.Component(b"all", BYTES[: 0x400 - 32], keeps=FREE)))
    made.put("EMPTY", image.empty_region(0x400))
    made.put("BLOCK", b"B" * 0x100)
    for name, content, size in (("+1", b"wide", 0x1000), ("+01", b"small", 0x800)):
        cell = image.Component(b"a", content)
        made.put(name, image.join(cell, image.FreeEntry(size - len(cell.bytes), keeps=FREE)))
    return made.data()


class BoardTest(ExampleTest):
    """A test that runs scripts on the image with several regions."""

    def board(self, *cells, **files):
        return self.folder({"image.rom": regions_image(*cells), "new": BYTES[:200], **files})

    def refused(self, folder, message, name, *words, status=1):
        """Checks that a script is refused with this message, and changes no file."""
        run = self.example(folder, name, *words, status=status)
        self.assertEqual(run.message.decode(), f"{message}\n", words)
        self.leaves(run, run.before, words)
        return run


class Places(BoardTest):
    """Additions at a place: in which regions, and with which refusals."""

    def test_regions_with_names_that_are_equal_as_numbers(self):
        address = (1 << 32) - 0x6540
        for region, start, size in [("+1", 0x4D40, 0x1000), ("+01", 0x5D40, 0x800)]:
            for words, place in [
                (["add-aligned", "image.rom", region, "n", "new", "raw", "1024"],
                 -(-(start + 96) // 1024) * 1024),
                (["add-at-end", "image.rom", region, "n", "new", "raw"], start + size - 200),
                (["add-at-address", "image.rom", region, "n", "new", "raw",
                  hex(address + start + 0x300)], start + 0x300),
            ]:
                with self.subTest(region, script=words[0]):
                    folder = self.board()
                    after = self.example(folder, *words).after["image.rom"]
                    self.assertEqual(after[place : place + 200], BYTES[:200])
                    shown = ["component-place", "image.rom", region]
                    self.assertEqual(self.example(folder, *shown, "n").output.decode(),
                                     f"{place:#x}\n")
                    run = self.example(folder, *shown, "a", "stored")
                    self.assertEqual(run.after["stored"], b"wide" if region == "+1" else b"small")

    def test_a_full_region(self):
        folder = self.board()
        for align in ("4096", "1000", "4"):
            words = ["image.rom", "FULL", "n", "new", "raw", align]
            self.refused(folder, "no space in FULL", "add-aligned", *words)

    def test_the_first_free_space(self):
        """An addition goes to the first free space with room for it, also with a digest."""
        cells = [image.Component(b"x", BYTES[:100]), image.FreeEntry(0x1000),
                 image.Component(b"y", BYTES[:100])]
        for name in ("abc", "blank in it"):
            for align, options in [(1000, []), (4, []), (512, ["-A", "sha512"])]:
                with self.subTest(name, align=align):
                    folder = self.board(*cells)
                    words = ["image.rom", "COREBOOT", name, "new", "raw", str(align), *options]
                    self.example(folder, "add-aligned", *words)
                    shown = name.replace(" ", "\\x20")
                    run = self.example(folder, "component-place", "image.rom", "COREBOOT", shown)
                    place = int(run.output, 16)
                    self.assertEqual(place % align, 0)
                    first = START + 128 + 28 + len(name) // 4 * 4 + 76 * bool(options)
                    self.assertEqual(place, -(-first // align) * align)

    def test_refusals_of_an_alignment(self):
        """A refusal that no other free space can mend is printed once."""
        cell = image.Component(b"config", b"1")
        folder = self.board(cell, image.FreeEntry(128), image.Component(b"y", b"2"),
                            large=bytes(0x8000))
        for region, name, file, type, message in [
            ("COREBOOT", "config", "new", "raw", "cbfstool: component exists"),
            ("COREBOOT", "n", "absent", "raw", "cbfstool: source fault"),
            ("COREBOOT", "n", "new", "deleted", "cbfstool: bad type"),
            ("COREBOOT", "n", "large", "raw", "no space in COREBOOT"),
            ("ABSENT", "n", "new", "raw", "no such region: ABSENT"),
        ]:
            words = ["image.rom", region, name, file, type, "4"]
            self.refused(folder, message, "add-aligned", *words)

    def test_refusals_at_the_end_and_at_an_address(self):
        folder = self.board(large=bytes(0x8000))
        for script, more in [("add-at-end", []), ("add-at-address", ["0xffffa000"])]:
            words = [script, "image.rom"]
            self.refused(folder, "no such region: ABSENT", *words, "ABSENT", "n", "new", "raw",
                         *more)
        words = ["add-at-end", "image.rom", "COREBOOT", "n"]
        self.refused(folder, "stat: cannot statx 'absent': No such file or directory", *words,
                     "absent", "raw")
        self.refused(folder, "large has no room in COREBOOT", *words, "large", "raw")
        self.refused(folder, "0x1000 lies below COREBOOT", "add-at-address", "image.rom",
                     "COREBOOT", "n", "new", "raw", "0x1000")

    def test_a_long_path_to_a_link(self):
        """The content is that of the file, and not of the link, whose path is longer."""
        folder = self.board()
        link = folder.path / "link"
        link.symlink_to("/" * 300 + str(folder.path / "new"))
        for region, end in [("COREBOOT", START + SIZE), ("EMPTY", 0x4C40)]:
            self.example(folder, "add-at-end", "image.rom", region, "boot", "link", "bootblock")
            after = (folder.path / "image.rom").read_bytes()
            self.assertEqual(after[end - 200 : end], BYTES[:200])


class Listings(BoardTest):
    """Scripts that read an image, with full and empty regions and names of any bytes."""

    PACKED = image.Component(b"packed", BYTES[:50],
                             attributes=[image.compression(image.LZMA, 1000)])

    def test_components_that_are_absent(self):
        folder = self.board(image.Component(b"x", b"data"))
        for script, absent in [
            ("component-place", "no such region: ABSENT"),
            ("component-digest", "cbfstool: no such region\nno such component: x"),
        ]:
            for region, shown, message in [
                ("COREBOOT", "absent", "no such component: absent"),
                ("COREBOOT", "(empty)", "no such component: (empty)"), ("ABSENT", "x", absent),
            ]:
                run = self.refused(folder, message, script, "image.rom", region, shown)
                self.assertEqual(run.output, b"")

    def test_the_place_of_packed_bytes(self):
        folder = self.board(self.PACKED)
        run = self.example(folder, "component-place", "image.rom", "COREBOOT", "packed", "stored")
        self.assertEqual(run.after["stored"], BYTES[:50])

    def test_digests_of_names_that_are_equal_as_numbers(self):
        digest = [image.hash_attribute(image.SHA512, b"nine")]
        cells = [image.Component(name, b"nine", attributes=digest * (name == b"7"))
                 for name in (b"07", b"7", b"1e1", b"10")]
        folder = self.board(*cells)
        for shown, output in [("07", ""), ("7", "sha512\n"), ("10", ""), ("1e1", "")]:
            run = self.example(folder, "component-digest", "image.rom", "COREBOOT", shown)
            self.assertEqual(run.output.decode(), output, shown)

    def test_digests_of_empty_and_full_regions(self):
        folder = self.board()
        run = self.example(folder, "bad-digests", "image.rom", "FULL", "EMPTY", "COREBOOT")
        self.assertEqual(run.output, b"")

    def extracted(self, folder, region):
        """Returns the contents of the files that extract-all makes of a region."""
        after = self.example(folder, "extract-all", "image.rom", region).after
        place = f"out.{region}/"
        found = {name.removeprefix(place): content for name, content in after.items()
                 if name.startswith(place)}
        rows = found.pop("rows").decode()
        self.assertEqual(rows, folder.run(f"cbfstool image.rom print -r {region}").output.decode())
        del found["region"]
        return found

    def test_all_components(self):
        """A name that is too long for a file when it is shown is left out of the file's name."""
        long = "\u00e9".encode() * 63
        cells = [image.Component(b"", b"no name", name_field=bytes(4)), self.PACKED,
                 image.Component(long, b"long"), image.Component(b"line\n", b"line"),
                 image.Component(b"a/b", b"")]
        folder = self.board(*cells)
        places = [0]
        for cell in cells:
            places.append(places[-1] + len(cell.bytes))
        names = ["", "packed", None, "line\\x0a", "a+b"]
        contents = [b"no name", BYTES[:50], b"long", b"line", b""]
        wanted = {f"{at:#x}" + ("" if name is None else f"-{name}"): content
                  for at, name, content in zip(places, names, contents)}
        self.assertEqual(self.extracted(folder, "COREBOOT"), wanted)
        self.assertEqual(self.extracted(folder, "FULL"), {"0x0-all": BYTES[: 0x400 - 32]})
        self.assertEqual(self.extracted(folder, "EMPTY"), {})
        # (the folder is there, so it may be that of another image)
        run = self.example(folder, "extract-all", "image.rom", "FULL", status=1)
        self.leaves(run, run.before)

    def test_a_layout_with_nested_areas(self):
        """Each row has the first and the last byte of an area, also of one without a name."""
        for name in ("NAMED", ""):
            areas = [image.Area("FMAP", 0, 0x400), image.Area(name, 0x440, 0x80),
                     image.Area("OUTER", 0x800, 0x800), image.Area("INNER", 0x900, 1)]
            folder = self.folder({"image.rom": image.Image(0x1000, areas).data()})
            run = self.example(folder, "flashrom-layout", "image.rom")
            self.assertEqual(run.output.decode().splitlines(), [
                "00000000:000003ff FMAP", f"00000440:000004bf {name}", "00000800:00000fff OUTER",
                "00000900:00000900 INNER",
            ])

    @unittest.skipUnless(shutil.which("cc"), "cc")
    def test_a_header_for_c(self):
        """A program for C sees the offsets of the map, also beside an area without a name."""
        for name in ("FW_MAIN_A", ""):
            areas = [image.Area("RW", 0x20040, 0x40000), image.Area(name, 0x20840, 0x20000),
                     image.Area("FMAP", 0xA0040, 0x800), image.Area("GBB", 0xA0840, 2048)]
            table = image.flash_map(1 << 20, areas, name=b"FLASH", base=0xFFF00000)
            wanted = {"FMAP_OFFSET": 0xA0040, "FMAP_SIZE": 56 + 4 * 42,
                      "FMAP_SECTION_FLASH_START": 0xFFF00000, "FMAP_SECTION_FLASH_SIZE": 1 << 20,
                      f"FMAP_SECTION_{name}_START": 0xFFF20840, "FMAP_SECTION_GBB_SIZE": 2048,
                      f"FMAP_SECTION_{name}_SIZE": 0x20000, "FMAP_SECTION_FMAP_START": 0xFFFA0040}
            equal = " && ".join(f"{one} == {value}ul" for one, value in wanted.items())
            uses = f'#include "fmap_config.h"\nchar is_equal[{equal} ? 1 : -1];\n'
            folder = self.folder({"board.fmap": table, "uses.c": uses})
            run = self.example(folder, "fmap-config", "board.fmap")
            folder.put("fmap_config.h", run.output)
            done = folder.run("cc -c uses.c")
            self.assertEqual((done.status, done.message), (0, b""))

    def test_a_header_of_no_table(self):
        folder = self.folder({"board.fmap": b"abc"})
        self.refused(folder, "cbfstool: no FMAP", "fmap-config", "board.fmap")


class Regions(ExampleTest):
    """cbfs-regions prints the names that `create` takes, for any text that fmd(5) allows."""

    ODD = (b"# A(CBFS)\n#\xff(CBFS)\n ROOT # x\n(CBFS)@4K 1M{FMAP 4K A(CBFS)64K B # (\xff {\n"
           b"\t(\r\n# )\nPRESERVE CBFS ) 64K{C(CBFS PRESERVE)4K D(PRESERVE)E\"1\",x.(\tCBFS\t)"
           b"@0x8000}"
           b"CBFS(PRESERVE)4K PRESERVE (CBFS) 64K F(PRESERVE CBFS PRESERVE)}# end")

    def test_any_text(self):
        folder = self.folder({"board.fmd": self.ODD})
        names = ["A", "B", "C", 'E"1",x.', "PRESERVE", "F"]
        run = self.example(folder, "cbfs-regions", "board.fmd")
        self.assertEqual(run.output.decode().splitlines(), names)
        self.assertEqual(folder.run("fmaptool board.fmd board.fmap").status, 0)

    def test_the_names_are_taken_by_create(self):
        text = "F 64K { FMAP 1K A(CBFS) 4K B 16K { C (PRESERVE CBFS) 8K D } COREBOOT(CBFS) }"
        folder = self.folder({"board.fmd": text})
        names = self.example(folder, "cbfs-regions", "board.fmd").output.decode().split()
        self.assertEqual(names, ["A", "C", "COREBOOT"])
        folder.run("fmaptool board.fmd board.fmap")
        words = f"cbfstool image.rom create -M board.fmap -r {','.join(names)}"
        self.assertEqual(folder.run(words).status, 0)
        for name in names:
            self.assertEqual(folder.run(f"cbfstool image.rom print -r {name}").status, 0)

    def test_no_region(self):
        folder = self.folder({"board.fmd": "F 64K { FMAP 1K A }"})
        self.assertEqual(self.example(folder, "cbfs-regions", "board.fmd", status=1).output, b"")


class Replacements(BoardTest):
    """replace-component keeps the place and the digest that its options state, and no others."""

    def board(self, **files):
        digest = [image.hash_attribute(image.SHA256, b"old content")]
        cell = image.Component(b"config", b"old content", attributes=digest)
        return super().board(cell, **files)

    def replace(self, folder, *options, name="config", source="new", **run):
        words = ["replace-component", "image.rom", "COREBOOT", name, source, "mrc", *options]
        return self.example(folder, *words, **run)

    def digest_of(self, folder, shown):
        words = ["component-digest", "image.rom", "COREBOOT", shown]
        return self.example(folder, *words).output.decode()

    def test_without_options(self):
        """Someone who has forgotten what the component had changes nothing."""
        run = self.replace(self.board(), status=2)
        self.assertIn(b"usage: replace-component", run.message)
        self.leaves(run, run.before)

    def test_with_the_options_of_add(self):
        folder = self.board()
        self.replace(folder, "-A", "sha512", "-a", "2048")
        words = ["component-place", "image.rom", "COREBOOT", "config"]
        place = int(self.example(folder, *words).output, 16)
        self.assertEqual((place - START) % 2048, 0)
        self.assertEqual(self.digest_of(folder, "config"), "sha512\n")
        self.replace(folder, "--plain")
        self.assertEqual(self.digest_of(folder, "config"), "")

    def test_at_the_end(self):
        folder = self.board(more=BYTES[60:360])
        words = ["add-at-end", "image.rom", "COREBOOT", "boot", "new", "bootblock", "-A", "sha256"]
        self.example(folder, *words)
        self.replace(folder, "--end", "-A", "sha256", name="boot", source="more")
        after = (folder.path / "image.rom").read_bytes()
        self.assertEqual(after[START + SIZE - 300 : START + SIZE], BYTES[60:360])
        self.assertEqual(self.digest_of(folder, "boot"), "sha256\n")

    def holder(self, folder, script):
        """Starts a script for sh that holds the lock of the image, and waits until it has it."""
        words = ["flock", "image.rom", "sh", "-c", f"touch locked; {script}"]
        child = subprocess.Popen(words, cwd=folder.path)
        self.wait_for(folder.path / "locked")
        (folder.path / "locked").unlink()
        return child

    def wait_for(self, path):
        words = ["timeout", "20", "sh", "-c", f"until [ -e '{path}' ]; do sleep 0.02; done"]
        subprocess.run(words, check=True)

    def test_a_change_under_the_lock(self):
        """The change of a command that has the lock is not lost."""
        folder = self.board()
        patch = "printf X | dd of=image.rom bs=1 seek=25000 conv=notrunc status=none"
        child = self.holder(folder, f"sleep 0.4; {patch}")
        self.replace(folder, "--plain")
        self.assertEqual(child.wait(), 0)
        self.assertEqual((folder.path / "image.rom").read_bytes()[25000], ord("X"))
        self.assertEqual(self.content(folder, "image.rom", "config"), BYTES[:200])

    def test_an_image_that_is_replaced_during_the_wait(self):
        """The script waits for the lock of the new file too, and loses no change of it."""
        folder = self.board()
        first = self.holder(folder, "until [ -e moved ]; do sleep 0.02; done")
        child = self.start(folder, "replace-component", "image.rom", "COREBOOT", "config", "new",
                           "mrc", "--plain")
        while child.poll() is None and not waits_for_lock(r"\d+", folder.path / "image.rom"):
            time.sleep(0.02)
        shutil.copy(folder.path / "image.rom", folder.path / "other")
        os.replace(folder.path / "other", folder.path / "image.rom")
        patch = "printf Y | dd of=image.rom bs=1 seek=25000 conv=notrunc status=none"
        second = self.holder(folder, f"sleep 0.6; {patch}")
        (folder.path / "moved").touch()
        message = child.stderr.read()
        child.stderr.close()
        self.assertEqual((child.wait(60), message), (0, b""))
        self.assertEqual((first.wait(), second.wait()), (0, 0))
        self.assertEqual((folder.path / "image.rom").read_bytes()[25000], ord("Y"))
        self.assertEqual(self.content(folder, "image.rom", "config"), BYTES[:200])
        self.has_files(folder, "image.rom", "moved", "new")


class Signatures(BoardTest):
    """sign-region signs the used part of a full and of an empty region."""

    def sign(self, folder, region, command, **run):
        words = ["sign-region", "image.rom", region, "BLOCK", "sh", "-c", command, "sign"]
        return self.example(folder, *words, **run)

    def test_the_signed_bytes(self):
        for region, length in [("FULL", 0x400), ("EMPTY", 0)]:
            with self.subTest(region):
                folder = self.board()
                run = self.sign(folder, region, "wc -c < $1")
                before = run.before["image.rom"]
                start = {"FULL": 0x4440, "EMPTY": 0x4840}[region]
                self.assertEqual(run.after["to_sign"], before[start : start + length])
                block = f"{length}\n".encode().ljust(0x100, b"B")
                wanted = before[:0x4C40] + block + before[0x4D40:]
                self.leaves(run, {**run.after, "image.rom": wanted})

    def test_a_signature_that_is_too_long(self):
        run = self.sign(self.board(), "FULL", "seq 1000", status=1)
        self.assertEqual(run.after["image.rom"], run.before["image.rom"])


class NestedMaps(ExampleTest):
    """undo-nested-map, where the image's map precedes the region, and where it follows it."""

    def image(self, is_behind, maps, count):
        """Returns an image with a component `ec` that has `maps` flash maps, or without it."""
        inner = b"".join(b"x" * 700 + image.flash_map(
            0x1000, [image.Area("EC_RO", 0, 64)], name=b"EC%d" % number) for number in range(maps))
        areas = [image.Area("COREBOOT", 0x400, 0x4000),
                 image.Area("FMAP", 0x4400 if is_behind else 0, 0x400)]
        made = image.Image(0x8000, areas)
        cells = [image.Component(b"ec", inner)] * count
        free = image.FreeEntry(0x4000 - len(image.join(*cells)), keeps=FREE)
        return made.put("COREBOOT", image.join(*cells, free)).data()

    def test_one_map_and_two(self):
        for is_behind in (True, False):
            for maps in (1, 2):
                with self.subTest(is_behind=is_behind, maps=maps):
                    hidden = self.image(is_behind, maps, 1)
                    folder = self.folder({"image.rom": hidden})
                    seen = folder.run("cbfstool image.rom print")
                    self.assertEqual(seen.status, int(is_behind))
                    run = self.example(folder, "undo-nested-map", "image.rom", "COREBOOT", "ec")
                    clean = self.image(is_behind, maps, 0)
                    self.leaves(run, {"image.rom": hidden, "undone.rom": clean})

    def test_a_region_that_is_absent(self):
        folder = self.folder({"image.rom": self.image(True, 1, 1)})
        run = self.example(folder, "undo-nested-map", "image.rom", "ABSENT", "ec", status=1)
        self.assertEqual(run.after["image.rom"], run.before["image.rom"])


class Verified(ExampleTest):
    """edit-verified on a board with CBFS verification, given by a symbolic link."""

    programs = (*ProgramTest.programs, "cbfsseal")
    WORDS = ("content", "raw", "sha256")

    def setUp(self):
        super().setUp()
        (self.bin.path / "cbfsseal").symlink_to(program("cbfsseal"))

    def board(self, *cells):
        """Returns a folder with an image that has outdated digests, and a link to it."""
        areas = [image.Area("FMAP", 0, 0x400), image.Area("COREBOOT", 0x400, 0x1000)]
        areas.append(image.Area("BOOTBLOCK", 0x1400, 0x400))
        self.made = image.Image(0x1800, areas)
        free = image.FreeEntry(0x1000 - len(image.join(*cells)), keeps=FREE)
        self.made.put("COREBOOT", image.join(*cells, free))
        self.made.put("BOOTBLOCK", image.anchor(image.SHA256, bytes(32), bytes(32)))
        folder = self.folder({"image.rom": self.made.data(), "content": b"content"})
        (folder.path / "link.rom").symlink_to("image.rom")
        return folder

    def test_a_link(self):
        folder = self.board()
        self.example(folder, "edit-verified", "link.rom", "new", *self.WORDS)
        self.assertTrue((folder.path / "link.rom").is_symlink())
        self.assertEqual(self.content(folder, "image.rom", "new"), b"content")
        self.has_files(folder, "content", "image.rom", "link.rom")

    def test_refusals(self):
        """A refusal leaves the image, and no copy."""
        digest = [image.hash_attribute(image.SHA256, b"old")]
        old = image.Component(b"old", b"old", attributes=digest)
        plain = image.Component(b"plain", b"data")
        for cells, name, message in [
            ([old], "old", "cbfstool: component exists"),
            ([old, plain], "new",
             "cbfsseal: no digest of the anchor's algorithm at 0x80: plain"),
        ]:
            folder = self.board(*cells)
            run = self.example(folder, "edit-verified", "image.rom", name, *self.WORDS, status=1)
            self.assertEqual(run.message.decode(), f"{message}\n")
            self.leaves(run, run.before)


if __name__ == "__main__":
    unittest.main()
