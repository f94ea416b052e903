"""create: whole images, how other commands change them, and the refusals.

Each expected image is built from the areas that a row states.
"""

import os
import tempfile
import unittest

from tests.image import (
    BOOTBLOCK, SHA256, SHA512, Area, Component, Image, digest, empty_region, flash_map,
    hash_attribute, region,
)
from tests.programs import (
    HAS_COMPILER, TOP, Faults, ProgramTest, if_memory_can_be_refused,
)
from tests.strace import traces, tracing
from tests.texts import layout, listing

OLD = "".join(f"{number}\n" for number in range(1, 30001)).encode()


def image_of(size, areas, names, **fields):
    """Returns the image that `create` makes: each of the named regions is one empty entry."""
    made = Image(size, areas, **fields)
    for name in names.split(","):
        first = next(area for area in areas if area.name == name.encode())
        made.put_at(first.offset, empty_region(first.size))
    return made.data()


class Board(ProgramTest):
    """The image of a board, which samples/board.fmap describes."""

    programs = ("cbfstool",)

    MAP = (TOP / "samples" / "board.fmap").read_bytes()
    AREAS = [
        Area("SI_ALL", 0, 8192), Area("SI_DESC", 0, 4096), Area("SI_ME", 4096, 4096),
        Area("SI_BIOS", 8192, 57344), Area("RW_MRC_CACHE", 8192, 2048, 8),
        Area("RW_SECTION_A", 0x2800, 8192), Area("VBLOCK_A", 0x2800, 1024),
        Area("FW_MAIN_A", 0x2C00, 7104), Area("RW_FWID_A", 0x47C0, 64),
        Area("RO", 0x4800, 47104), Area("FMAP", 0x4800, 1024), Area("GBB", 0x4C00, 3072),
        Area("COREBOOT", 0x5800, 43008),
    ]
    LAYOUT = """\
fmap 0x4800 FLASH 65536 13
SI_ALL 0x0 8192 0x0
SI_DESC 0x0 4096 0x0
SI_ME 0x1000 4096 0x0
SI_BIOS 0x2000 57344 0x0
RW_MRC_CACHE 0x2000 2048 0x8
RW_SECTION_A 0x2800 8192 0x0
VBLOCK_A 0x2800 1024 0x0
FW_MAIN_A 0x2c00 7104 0x0
RW_FWID_A 0x47c0 64 0x0
RO 0x4800 47104 0x0
FMAP 0x4800 1024 0x0
GBB 0x4c00 3072 0x0
COREBOOT 0x5800 43008 0x0
""".replace(" ", "\t")

    @classmethod
    def image(cls, names):
        """Returns the image of the board with these regions."""
        return image_of(0x10000, cls.AREAS, names, name=b"FLASH", base=0xFFFF0000)

    def test_the_default_region(self):
        self.check("cbfstool image.rom create -M map", {"map": self.MAP},
                   left={"image.rom": self.image("COREBOOT")})

    def test_one_region(self):
        self.check("cbfstool image.rom create -M map -r COREBOOT", {"map": self.MAP},
                   left={"image.rom": self.image("COREBOOT")})

    def test_any_order_of_the_regions(self):
        for names in ("FW_MAIN_A,COREBOOT", "COREBOOT,FW_MAIN_A"):
            with self.subTest(names):
                self.check(f"cbfstool image.rom create -M map -r {names}", {"map": self.MAP},
                           left={"image.rom": self.image(names)})

    def test_another_file_is_replaced(self):
        self.check("cbfstool image.rom create -M map -r FW_MAIN_A,COREBOOT",
                   {"map": self.MAP, "image.rom": OLD},
                   left={"image.rom": self.image("FW_MAIN_A,COREBOOT")})

    def test_bytes_after_the_map_are_ignored(self):
        self.check("cbfstool image.rom create -M map", {"map": self.MAP + b"more\n"},
                   left={"image.rom": self.image("COREBOOT")})

    def test_listings_of_a_new_image(self):
        files = {"image.rom": self.image("COREBOOT,FW_MAIN_A")}
        for words, output in [
            ("layout", self.LAYOUT),
            ("print", "(empty)\t0x0\tnull\t42976\tnone\n"),
            ("print -r FW_MAIN_A", "(empty)\t0x0\tnull\t7072\tnone\n"),
        ]:
            with self.subTest(words):
                self.check(f"cbfstool image.rom {words}", files, output=output)


class FilledBoard(ProgramTest):
    """The image of the board is filled, listed and emptied, one command after the other."""

    programs = ("cbfstool",)

    STAGE, BOOTSPLASH, MICROCODE, SPD = 0x11, 0x40, 0x53, 0xAB
    SIZE = 43008
    FILES = {
        "config": (TOP / "samples" / "board.fmd").read_bytes(), "none": b"", "abc": b"abc",
        "block": OLD[:64], "some": OLD[:5000], "large": OLD[:9000],
    }
    SHA256_OF_SOME = [hash_attribute(SHA256, FILES["some"])]
    SHA512_OF_LARGE = [hash_attribute(SHA512, FILES["large"])]
    SHA512_OF_ABC = [hash_attribute(SHA512, b"abc")]

    added = [
        # position, position of the content, name, arguments, component
        (0, 0x20, "config", "-t raw -f config", Component(b"config", FILES["config"])),
        (0x1C0, 0x218, "fallback/romstage", "-t stage -f some -A sha256",
         Component(b"fallback/romstage", FILES["some"], STAGE, SHA256_OF_SOME)),
        (0x1FC0, 0x2000, "logo.bmp", "-t bootsplash -f large -a 4096",
         Component(b"logo.bmp", FILES["large"], BOOTSPLASH, gap=28)),
        (0x7F80, 0x8000, "microcode", "-t microcode -f large -A sha512 -b 0x8000",
         Component(b"microcode", FILES["large"], MICROCODE, SHA512_OF_LARGE, gap=16)),
        (0xA780, 0xA7C0, "bootblock", "-t bootblock -f block -b 0xa7c0",
         Component(b"bootblock", FILES["block"], BOOTBLOCK, gap=28)),
        (0x15C0, 0x15E0, "none", "-t raw -f none", Component(b"none")),
        (0x1600, 0x1668, "a b", "-t spd -f abc -A sha512",
         Component(b"a b", b"abc", SPD, SHA512_OF_ABC)),
    ]

    DETAILS = f"""\
config	0x0	raw	355	none
fallback/romstage	0x1c0	stage	5000	none
	attr	0x68736148	44
	hash	sha256	{digest(SHA256, FILES["some"]).hex()}	valid
none	0x15c0	raw	0	none
a\\x20b	0x1600	spd	3	none
	attr	0x68736148	76
	hash	sha512	{digest(SHA512, b"abc").hex()}	valid
(empty)	0x1680	null	2340	none
logo.bmp	0x1fc0	bootsplash	9000	none
(empty)	0x4340	null	15396	none
microcode	0x7f80	microcode	9000	none
	attr	0x68736148	76
	hash	sha512	{digest(SHA512, FILES["large"]).hex()}	valid
(empty)	0xa340	null	1060	none
bootblock	0xa780	bootblock	64	none
"""

    @classmethod
    def image(cls, components, keeps=b"\xff" * 4):
        """Returns the image, whose region COREBOOT has these components by their positions."""
        made = bytearray(Board.image("COREBOOT,FW_MAIN_A"))
        made[0x5800:] = region(cls.SIZE, components, keeps)
        return bytes(made)

    @staticmethod
    def faults(changes):
        """Returns changes of the calls on the image, or nothing."""
        return Faults("image.rom", *changes) if changes else None

    def add_all(self, *changes):
        """Adds the components, while the calls on the image are changed."""
        folder = self.folder({**self.FILES, "image.rom": self.image({})})
        components = {}
        for position, content_at, name, words, component in self.added:
            with self.subTest(name, changes=changes):
                self.assertEqual(position + component.content_offset, content_at)
                components[position] = component
                self.check(["cbfstool", "image.rom", "add", "-n", name, *words.split()], folder,
                           left={"image.rom": self.image(components)},
                           faults=self.faults(changes))
                self.check("cbfstool image.rom print", folder,
                           output=listing(self.SIZE, components))
                folder.put("out", b"an older and longer file" * 1000)
                self.check(["cbfstool", "image.rom", "extract", "-n", name, "-f", "out"], folder,
                           left={"out": self.FILES[words.split()[3]]})

    def test_components_are_added(self):
        self.add_all()

    @unittest.skipUnless(HAS_COMPILER, "cc")
    def test_components_are_added_by_short_calls(self):
        self.add_all("read 1 always short")
        self.add_all("write 1 always part")

    @unittest.skipUnless(HAS_COMPILER, "cc")
    def test_listing_by_short_calls(self):
        for file, change in [("image.rom", "read 1 always short"), ("-", "write 1 always short")]:
            with self.subTest(change):
                short = Faults(file, change)
                self.check("cbfstool image.rom print -v",
                           {"image.rom": self.image(self.filled())}, output=self.DETAILS,
                           faults=short)
                self.assertGreater(short.changed(), 0)

    def filled(self):
        """Returns all components by their positions."""
        return {position: component for position, *_, component in self.added}

    def test_listings(self):
        files = {"image.rom": self.image(self.filled())}
        self.check("cbfstool image.rom print -v", files, output=self.DETAILS)
        self.check("cbfstool image.rom layout", files, output=Board.LAYOUT)
        self.check("cbfstool image.rom print -r FW_MAIN_A", files,
                   output="(empty)\t0x0\tnull\t7072\tnone\n")

    def remove_all(self, *changes):
        """Removes the components, while the calls on the image are changed."""
        folder = self.folder({"image.rom": self.image(self.filled())})
        components = self.filled()
        # (the last four bytes of the region are those of the removed bootblock)
        keeps = self.FILES["block"][-4:]
        for position in (0x1C0, 0x7F80, 0x1600, 0, 0xA780, 0x1FC0, 0x15C0):
            name = components.pop(position).name.decode()
            with self.subTest(name, changes=changes):
                self.check(["cbfstool", "image.rom", "remove", "-n", name], folder,
                           left={"image.rom": self.image(components, keeps)},
                           faults=self.faults(changes))
                self.check("cbfstool image.rom print", folder,
                           output=listing(self.SIZE, components))

    def test_components_are_removed(self):
        self.remove_all()

    @unittest.skipUnless(HAS_COMPILER, "cc")
    def test_components_are_removed_by_short_calls(self):
        self.remove_all("read 1 always short")
        self.remove_all("write 1 always part")

    def test_another_region(self):
        folder = self.folder({**self.FILES, "image.rom": self.image(self.filled())})
        after = bytearray(self.image(self.filled()))
        after[0x2C00:0x47C0] = region(7104, {0: Component(b"config", b"abc")})
        self.check("cbfstool image.rom add -r FW_MAIN_A -n config -t raw -f abc", folder,
                   left={"image.rom": bytes(after)})
        self.check("cbfstool image.rom print -r FW_MAIN_A", folder,
                   output="config\t0x0\traw\t3\tnone\n(empty)\t0x40\tnull\t7008\tnone\n")
        self.check("cbfstool image.rom extract -r FW_MAIN_A -n config -f out", folder,
                   left={"out": b"abc"})
        self.check("cbfstool image.rom print -v", folder, output=self.DETAILS)

    def test_an_area_without_entries(self):
        before = self.image(self.filled())
        folder = self.folder({"image.rom": before, "gbb": OLD[:3072]})
        self.check("cbfstool image.rom read -r GBB -f out", folder, left={"out": b"\xff" * 3072})
        self.check("cbfstool image.rom write -r GBB -f gbb", folder,
                   left={"image.rom": before[:0x4C00] + OLD[:3072] + before[0x5800:]})


class Maps(ProgramTest):
    """Flash maps of other shapes."""

    programs = ("cbfstool",)

    rows = [
        # title, size of the image, areas, regions
        ("neighbours, one of which ends with the image", 4096,
         [("FMAP", 0, 1024), ("B", 1024, 2048), ("C", 3072, 1024)], "B,C"),
        ("the area FMAP is as large as the map", 1000,
         [("A", 0, 64), ("B", 64, 64), ("FMAP", 128, 224), ("C", 352, 648)], "B,A"),
        ("the first of two areas with a name", 4096,
         [("A", 0, 64), ("A", 64, 65), ("FMAP", 1024, 1024), ("FMAP", 1024, 8)], "A"),
        ("the map follows its region", 4096, [("B", 1024, 2048), ("FMAP", 3072, 1024)], "B"),
        ("an image of 64 KiB and a byte", 65537, [("FMAP", 0, 1024), ("B", 1024, 64512)], "B"),
        ("an image of 200,000 bytes", 200000, [("FMAP", 0, 1024), ("B", 1024, 64512)], "B"),
        ("16 regions, and more areas", 0x2000,
         [*((name, 4096 + 128 * at, 128) for at, name in enumerate("ABCDEFGHIJKLMNOP")),
          ("FMAP", 0, 1024)], "A,B,C,D,E,F,G,H,I,J,K,L,M,N,O,P"),
    ]

    def test_images(self):
        for title, size, fields, names in self.rows:
            with self.subTest(title):
                areas = [Area(*field) for field in fields]
                image = image_of(size, areas, names)
                self.check(f"cbfstool image.rom create -M map -r {names}",
                           {"map": flash_map(size, areas), "image.rom": OLD},
                           left={"image.rom": image})

    def test_each_region_is_listed_as_one_empty_entry(self):
        areas = [Area("FMAP", 0, 1024), Area("B", 1024, 2048), Area("C", 3072, 1024)]
        files = {"image.rom": image_of(4096, areas, "B,C")}
        self.check("cbfstool image.rom print -r B", files,
                   output="(empty)\t0x0\tnull\t2016\tnone\n")
        self.check("cbfstool image.rom print -r C", files,
                   output="(empty)\t0x0\tnull\t992\tnone\n")

    def test_a_lower_map_replaces_that_of_the_image(self):
        """The content of a component before the area FMAP is a map itself."""
        areas = [Area("COREBOOT", 0, 512), Area("FMAP", 512, 512)]
        other = flash_map(4096, [Area("FMAP", 0, 512), Area("COREBOOT", 512, 3584)], name=b"F")
        cells = region(512, {0: Component(b"m", other)})
        image = Image(4096, areas).put("COREBOOT", cells).data()
        folder = self.folder({"image.rom": image_of(4096, areas, "COREBOOT"), "other": other})
        self.check("cbfstool image.rom add -n m -t raw -f other", folder,
                   message="cbfstool: note: the image has another flash map now, at 0x1c\n",
                   left={"image.rom": image})
        self.check("cbfstool image.rom layout", folder, output=(
            "fmap\t0x1c\tF\t4096\t2\nFMAP\t0x0\t512\t0x0\nCOREBOOT\t0x200\t3584\t0x0\n"))


class RefusedAreas(ProgramTest):
    """Refusals of areas: the image is 0xff then, without a map and without regions."""

    programs = ("cbfstool",)

    AREAS = [
        Area("FMAP", 0, 1024), Area("LOW", 1024, 64), Area("ODD", 1088, 100),
        Area("NONE", 1188, 0), Area("OUT", 4033, 64), Area("LAST", 4032, 64),
        Area("FAR", 0xFFFFFFFF, 64), Area("ON", 960, 128), Area("ALL", 0, 4096),
        Area("LESS", 1088, 127), Area("MORE", 1088, 129), Area("BYTE", 1023, 64),
        Area("NEXT", 1087, 64),
    ]

    names = [
        # regions, refusal
        ("COREBOOT", "no such region"),
        ("LO", "no such region"),
        ("LOW,ABSENT,OUT,ODD,LOW", "no such region"),
        ("LOW,OUT,ABSENT,ODD,LOW", "region outside the image"),
        ("FAR", "region outside the image"),
        ("LOW,ODD,ABSENT,OUT,LOW", "bad region size"),
        ("NONE", "bad region size"),
        ("LESS", "bad region size"),
        ("MORE", "bad region size"),
        ("LOW,LOW", "bad FMAP area"),
        ("LAST,ON", "bad FMAP area"),
        ("LOW,LAST,ALL", "bad FMAP area"),
        ("FMAP", "bad FMAP area"),
        ("BYTE", "bad FMAP area"),
        ("LOW,NEXT", "bad FMAP area"),
    ]

    def refused(self, size, areas, names, refusal):
        files = {"map": flash_map(size, areas), "image.rom": OLD}
        self.refuses(1, refusal, f"cbfstool image.rom create -M map -r {names}", files,
                     {"image.rom": b"\xff" * size})

    def test_regions(self):
        for names, refusal in self.names:
            with self.subTest(names):
                self.refused(4096, self.AREAS, names, refusal)

    def test_regions_of_the_same_map_that_are_made(self):
        for names in ("NEXT", "LAST,LOW"):
            with self.subTest(names):
                self.check(f"cbfstool image.rom create -M map -r {names}",
                           {"map": flash_map(4096, self.AREAS)},
                           left={"image.rom": image_of(4096, self.AREAS, names)})

    maps = [
        # title, size of the image, areas, regions
        ("an area FMAP that is one byte smaller than the map", 1000,
         [("A", 0, 64), ("B", 64, 64), ("FMAP", 128, 223), ("C", 352, 648)], "B"),
        ("no area FMAP", 4096, [("FMA", 0, 1024), ("B", 1024, 2048)], "ABSENT"),
        ("an area FMAP that ends outside", 4096, [("FMAP", 3073, 1024), ("B", 1024, 2048)],
         "ABSENT"),
        ("an area FMAP that ends at 4 GiB", 4096,
         [("FMAP", 0xFFFFFC00, 1024), ("B", 1024, 2048)], "ABSENT"),
        ("an image of no bytes", 0, [("FMAP", 0, 0)], "B"),
        ("a region twice, with another one between", 0x2000,
         [("A", 4096, 128), ("B", 4224, 128), ("FMAP", 0, 1024)], "A,B,A"),
    ]

    def test_areas_FMAP(self):
        for title, size, fields, names in self.maps:
            with self.subTest(title):
                areas = [Area(*field) for field in fields]
                self.refused(size, areas, names, "bad FMAP area")


class RefusedSources(ProgramTest):
    """Refusals of the arguments and of the map: the image is neither made nor changed."""

    programs = ("cbfstool",)

    AREAS = [Area("FMAP", 0, 1024), Area("B", 1024, 2048), Area("C", 3072, 1024)]
    SMALL = flash_map(4096, AREAS)

    def refused(self, status, refusal, words, **files):
        """Checks the refusal without an image, and with one."""
        files = {"small": self.SMALL, **files}
        for image in ({}, {"image.rom": OLD}):
            self.refuses(status, refusal, ["cbfstool", "image.rom", "create", *words],
                         {**files, **image})

    lines = [
        [], ["-r", "B"], ["-f", "small"], ["-M", "small", "-r", ""], ["-M", "small", "-r", "B,,C"],
        ["-M", "small", "-r", ",B"], ["-M", "small", "-r", "B,"],
        ["-M", "small", "-r", "A,B,C,D,E,F,G,H,I,J,K,L,M,N,O,P,Q"],
        ["-M", "small", "-M", "small"], ["-M", "small", "-r", "B", "-r", "C"],
        ["-M", "small", "B"],
    ]

    def test_bad_command_lines(self):
        for words in self.lines:
            with self.subTest(" ".join(words)):
                self.refused(2, "bad command line", words)

    def test_sources_that_cannot_be_read(self):
        for path in ("absent", "folder", "/dev/null"):
            with self.subTest(path):
                self.refused(1, "source fault", ["-M", path], **{"folder/file": b""})

    def test_a_source_of_4_GiB(self):
        with tempfile.NamedTemporaryFile() as huge:
            os.truncate(huge.name, 1 << 32)
            self.refused(1, "image too large", ["-M", huge.name])

    maps = [
        ("a part of a head", SMALL[:55]),
        ("no byte", b""),
        ("the last area is cut off", SMALL[:181]),
        ("another major version", SMALL[:8] + b"\2" + SMALL[9:]),
        ("a name with a blank", SMALL[:22] + b" " + SMALL[23:]),
        ("no signature at the start", SMALL[1:]),
    ]

    def test_bad_maps(self):
        for title, data in self.maps:
            with self.subTest(title):
                self.refused(1, "bad flashmap", ["-M", "map", "-r", "B"], map=data)

    def test_images_that_cannot_be_made(self):
        for path in ("absent/image.rom", "folder", "/dev/full"):
            with self.subTest(path):
                files = {"small": self.SMALL, "folder/file": b""}
                self.refuses(1, "device fault", f"cbfstool {path} create -M small -r B", files)


@unittest.skipUnless(HAS_COMPILER, "cc")
class SystemFaults(ProgramTest):
    """Short calls, refused memory, and calls that fail."""

    programs = ("cbfstool",)

    COMMAND = "cbfstool image.rom create -M map -r FW_MAIN_A,COREBOOT"
    IMAGE = Board.image("FW_MAIN_A,COREBOOT")

    def test_short_writes(self):
        short = Faults("image.rom", "write 1 always part")
        self.check(self.COMMAND, {"map": Board.MAP}, left={"image.rom": self.IMAGE}, faults=short)
        self.assertGreater(short.changed(), 0)

    @if_memory_can_be_refused
    def test_refused_memory(self):
        """Each request for memory is refused in turn; there are at least 78. No image is made."""
        reported, spared = self.refuse_memory(self.COMMAND, {"map": Board.MAP},
                                              left={"image.rom": self.IMAGE}, made=["image.rom"])
        self.assertEqual(spared, [])
        self.assertGreaterEqual(len(reported), 78)

    def test_each_call_that_fails(self):
        areas = [Area("FMAP", 0, 1024), Area("B", 1024, 2048), Area("C", 3072, 1024)]
        files = {"map": flash_map(4096, areas)}
        for file, call, refusal in [("map", "read", "source fault"),
                                    ("image.rom", "write", "device fault")]:
            number = 0
            while True:
                number += 1
                fault = Faults(file, f"{call} {number} {number} EIO")
                folder = self.folder(files)
                done = folder.run("cbfstool image.rom create -M map -r B,C", faults=fault)
                if not fault.changed():
                    break
                with self.subTest(call, number=number):
                    left = {"image.rom": done.after.get("image.rom")}
                    self.compare_run(folder, done, 1, "", f"cbfstool: {refusal}\n", left)
            self.compare_run(folder, done, left={"image.rom": image_of(4096, areas, "B,C")})
            self.assertGreater(number, 2, f"no {call} has failed")


class OutputFaults(ProgramTest):
    """The output is a beginning of the text, and not all of it, if a write of it fails."""

    programs = ("cbfstool",)

    AREAS = [Area("FMAP", 0, 1024), Area("LARGE", 1024, 300000), Area("B", 302080, 64)]
    LARGE = (b"".join(b"%d\n" % number for number in range(60000)))[:300000]

    def each_write(self, folder, run, text, least):
        """Lets all writes from some number on fail, for each number.

        `run` returns a run for a number, whether a write has failed, and the output.
        """
        number = 0
        while True:
            number += 1
            done, has_failed, output = run(number)
            if not has_failed:
                break
            self.compare(folder, done, "status", 1, done.status)
            self.compare(folder, done, "message", b"cbfstool: output fault\n", done.message)
            self.compare(folder, done, "start", text[: len(output)], output)
            self.assertLess(len(output), len(text))
        self.compare(folder, done, "status", 0, done.status)
        self.compare(folder, done, "output", text, output)
        self.assertGreater(number, least)

    @unittest.skipUnless(HAS_COMPILER, "cc")
    def test_read(self):
        image = Image(0x60000, self.AREAS).put("LARGE", self.LARGE).data()
        folder = self.folder({"image.rom": image})

        def run(number):
            fault = Faults("out", f"write {number} always ENOSPC")
            done = folder.run("cbfstool image.rom read -r LARGE -f out", faults=fault)
            return done, fault.changed() > 0, done.after["out"]

        self.each_write(folder, run, self.LARGE, 5)

    @unittest.skipUnless(traces(), "strace")
    def test_layout(self):
        folder = self.folder({"image.rom": Image(0x60000, self.AREAS).data()})

        def run(number):
            words = tracing(folder, "write", ["out"], f"error=ENOSPC:when={number}+")
            done = folder.run(["sh", "-c", 'exec "$0" "$@" > out', *words, "cbfstool", "image.rom",
                               "layout"])
            return done, "INJECTED" in folder.notes.read_text(), done.after["out"]

        self.each_write(folder, run, layout(0x60000, self.AREAS).encode(), 1)


if __name__ == "__main__":
    unittest.main()
