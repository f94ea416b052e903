"""Two faults, or two changes, at once: which one is reported first.

docs/FORMAT.md has ordered lists: the checks of an entry, the refusals of a command or a descriptor,
the rows of a report. Each row of a table here combines two neighbours of one list, in a literal
image or text. The image stays as it is, unless the row says otherwise.
"""

from tests.findings import TEN_256
from tests.image import (
    COMPRESSION_TAG, DELETED, LZMA, SHA256, SHA512, STAGE, Area, Component, FreeEntry, Image,
    attribute, compression, empty_region, flash_map, hash_attribute, join, region,
)
from tests.programs import ProgramTest
from tests.structured_board import PLACES, board as structured

FMAP = Area("FMAP", 0, 0x200)
COREBOOT = Area("COREBOOT", 0x400, 0x400)
EMPTY = empty_region(0x400)


def board(region=EMPTY, areas=(FMAP, COREBOOT), size=0x800, **fields):
    """Returns an image of 2048 bytes; the area COREBOOT at 0x400 begins with the region."""
    return Image(size, list(areas), **fields).put_at(0x400, region).data()


class Entries(ProgramTest):
    """The checks of an entry: offset, attributes, extent, name, attribute length."""

    TOO_LONG = 2000
    NO_NUL = b"n" * 260
    MALFORMED = [attribute(COMPRESSION_TAG, b"", length=4)]

    rows = [
        ("offset before attributes",
         Component(b"d", b"data", offset=24, attributes_offset=24), "offset"),
        ("attributes before extent",
         Component(b"d", b"data", attributes_offset=24, length=TOO_LONG), "attributes"),
        ("extent before name",
         Component(b"", b"data", name_field=NO_NUL, length=TOO_LONG), "extent"),
        ("name before attribute length",
         Component(b"", b"data", name_field=NO_NUL, attributes=MALFORMED), "name"),
        ("attribute length", Component(b"d", b"data", attributes=MALFORMED), "attribute length"),
        ("free: offset before extent", FreeEntry(0x400, offset=23, length=TOO_LONG), "offset"),
    ]

    def test_checks_of_an_entry(self):
        for title, entry, kind in self.rows:
            with self.subTest(title):
                image = board(join(entry, size=0x400))
                message = f"damaged entry at 0x0: {kind}"
                self.refuses(1, message, "cbfstool image.rom print", {"image.rom": image})


class Commands(ProgramTest):
    """The refusals of a command of cbfstool."""

    X = Component(b"x", b"data")
    DAMAGED = Component(b"d", b"data", offset=24)
    FULL = join(*(Component(b"c%d" % number, b"data") for number in range(16)))
    PACKED = Component(b"x", b"data", attributes=[compression(LZMA, 9)])

    no_map = board(signature=b"__FMAX__")
    good = board()
    outside = board(areas=[FMAP, Area("COREBOOT", 0x400, 0x401)])
    uneven = board(areas=[FMAP, Area("COREBOOT", 0x400, 0x3F0)])
    uneven_blank = board(b"\xff" * 0x400, areas=[FMAP, Area("COREBOOT", 0x400, 0x3F0)])
    damaged_behind = board(join(X, DAMAGED, size=0x400))
    damaged_alone = board(join(DAMAGED, size=0x400))
    packed_then_damaged = board(join(PACKED, DAMAGED, size=0x400))

    ADD = "cbfstool image.rom add -f source"
    EXTRACT = "cbfstool image.rom extract -f out"

    rows = [
        # title, image, command, refusal
        ("print: no map before no region", no_map, "cbfstool image.rom print -r NONE", "no FMAP"),
        ("print: outside before the size", outside, "cbfstool image.rom print",
         "region outside the image"),
        ("print: the size before no entry", uneven_blank, "cbfstool image.rom print",
         "bad region size"),
        ("add: no map before the name", no_map, f"{ADD} -t raw -n ''", "no FMAP"),
        ("add: no region before the name", good, f"{ADD} -t raw -n '' -r NONE", "no such region"),
        ("add: outside before the name", outside, f"{ADD} -t raw -n ''",
         "region outside the image"),
        ("add: the name before the type", good, f"{ADD} -n '' -t deleted", "bad name"),
        ("add: the type before the alignment", good, f"{ADD} -n x -t null -a 0", "bad type"),
        ("add: the alignment before the size", uneven, f"{ADD} -n x -t raw -a 0",
         "bad alignment"),
        ("add: the size before no entry", uneven_blank, f"{ADD} -n x -t raw", "bad region size"),
        ("add: damage before the component", damaged_behind, f"{ADD} -n x -t raw",
         "damaged entry at 0x40: offset"),
        ("add: the component before no space", board(FULL), f"{ADD} -n c3 -t raw",
         "component exists"),
        ("extract: outside before the size", outside, f"{EXTRACT} -n x",
         "region outside the image"),
        ("extract: the size before no entry", uneven_blank, f"{EXTRACT} -n x", "bad region size"),
        ("extract: compressed before later damage", packed_then_damaged, f"{EXTRACT} -n x",
         "component is compressed"),
        ("extract: damage before no component", damaged_alone, f"{EXTRACT} -n x",
         "damaged entry at 0x0: offset"),
        ("remove: outside before the size", outside, "cbfstool image.rom remove -n x",
         "region outside the image"),
        ("remove: the size before no entry", uneven_blank, "cbfstool image.rom remove -n x",
         "bad region size"),
        ("remove: damage before the component", damaged_behind, "cbfstool image.rom remove -n x",
         "damaged entry at 0x40: offset"),
        ("remove: damage before no component", damaged_alone, "cbfstool image.rom remove -n x",
         "damaged entry at 0x0: offset"),
        ("read: no map before no region", no_map, "cbfstool image.rom read -f out -r NONE",
         "no FMAP"),
        ("write: no map before the length", no_map, "cbfstool image.rom write -f source",
         "no FMAP"),
        ("write: no region before the length", good, "cbfstool image.rom write -f source -r NONE",
         "no such region"),
        ("write: outside before the length", outside, "cbfstool image.rom write -f source",
         "region outside the image"),
    ]

    def test_refusals(self):
        for title, image, command, refusal in self.rows:
            with self.subTest(title):
                files = {"image.rom": image, "source": b"0123456789"}
                left = {"out": b""} if " -f out" in command else {}
                self.refuses(1, refusal, command, files, left)

    def test_extract_ends_before_later_damage(self):
        files = {"image.rom": self.damaged_behind}
        self.check(f"{self.EXTRACT} -n x", files, left={"out": b"data"})

    def test_print_shows_the_rows_before_the_damage(self):
        self.check("cbfstool image.rom print", {"image.rom": self.damaged_behind}, 1,
                   "x\t0x0\traw\t4\tnone\n", "cbfstool: damaged entry at 0x40: offset\n")

    opened = [
        # title, command, status, refusal, files that are made
        ("the command line before the image", "add -n x -t none -f none", 2, "bad command line",
         {}),
        ("the image before the source", "add -n x -t raw -f none", 1, "device fault", {}),
        ("the image before the output", "extract -n x -f none/out", 1, "device fault", {}),
        ("create: the source before the image", "create -M none", 1, "source fault", {}),
    ]

    def test_files(self):
        for title, words, status, refusal, left in self.opened:
            with self.subTest(title):
                self.refuses(status, refusal, f"cbfstool none/image.rom {words}", {}, left)

    behind = [
        ("the source before the map", "add -n x -t raw -f none", "source fault"),
        ("the output before the map", "extract -n x -f none/out", "output fault"),
        ("write: the source before the map", "write -f none", "source fault"),
    ]

    def test_files_before_the_image_is_read(self):
        for title, words, refusal in self.behind:
            with self.subTest(title):
                self.refuses(1, refusal, f"cbfstool image.rom {words}", {"image.rom": self.no_map})

    def test_a_refusal_before_an_output_fault(self):
        command = ["sh", "-c", "cbfstool image.rom print > /dev/full"]
        self.check(command, {"image.rom": self.damaged_behind}, 1, b"",
                   "cbfstool: damaged entry at 0x40: offset\n")


class Creation(ProgramTest):
    """The refusals of `create`: the map, the area FMAP, each region in order, overlaps."""

    SMALL = Area("FMAP", 0, 100)
    UNEVEN = Area("U", 0x400, 0x41)
    UNEVEN_OUTSIDE = Area("U", 0x400, 0x1001)
    IN_MAP = Area("IN", 0x100, 0x41)
    OUT = Area("OUT", 0x7C0, 0x80)
    A, B = Area("A", 0x400, 0x80), Area("B", 0x440, 0x80)

    rows = [
        # title, areas, names, refusal
        ("no area FMAP before no region", [A], "NONE", "bad FMAP area"),
        ("a small area FMAP before no region", [SMALL, A], "NONE", "bad FMAP area"),
        ("outside before the size", [FMAP, UNEVEN_OUTSIDE], "U", "region outside the image"),
        ("the size before an overlap with FMAP", [FMAP, IN_MAP], "IN", "bad region size"),
        ("the first name: outside before no region", [FMAP, OUT], "OUT,NONE",
         "region outside the image"),
        ("the first name: no region before outside", [FMAP, OUT], "NONE,OUT", "no such region"),
        ("the first name: the size before no region", [FMAP, UNEVEN], "U,NONE",
         "bad region size"),
        ("a later name before an overlap", [FMAP, A, B], "A,B,NONE", "no such region"),
        ("a later size before an overlap", [FMAP, A, B, UNEVEN], "A,B,U", "bad region size"),
    ]

    def test_refusals(self):
        for title, areas, names, refusal in self.rows:
            with self.subTest(title):
                files = {"map": flash_map(0x800, areas), "image.rom": b"old"}
                command = f"cbfstool image.rom create -M map -r {names}"
                self.refuses(1, refusal, command, files, {"image.rom": b"\xff" * 0x800})

    def test_bad_flashmap_before_the_area_FMAP(self):
        files = {"map": flash_map(0x800, [self.A], major=2), "image.rom": b"old"}
        self.refuses(1, "bad flashmap", "cbfstool image.rom create -M map", files)

    def test_bad_flashmap_before_the_image_is_made(self):
        files = {"map": flash_map(0x800, [FMAP], major=2)}
        self.refuses(1, "bad flashmap", "cbfstool none/image.rom create -M map", files)


class Texts(ProgramTest):
    """The first refusal of a descriptor's text."""

    LONG_NAME = b"n" * 32
    DEEP = b"A{" * 32

    rows = [
        ("the length before the first byte", b"\x01" + b" " * 1048576, "text too long"),
        ("the lower offset: a byte", b"A \x01 )", "bad byte at 2"),
        ("the lower offset: a token", b"A ) \x01", "expected end at 2"),
        ("a bad byte before the expected section", b"\x01", "bad byte at 0"),
        ("a bad number before the expected section", b"1x", "bad number at 0"),
        ("a large number before the expected section", b"4294967296", "number too large at 0"),
        ("the expected section", b"4294967295", "expected section at 0"),
        ("a bad number before a large one", b"A 4294967296x", "bad number at 2"),
        ("too deep before the expected number", DEEP + b"A@{", "nested too deep"),
        ("a long name before the expected number", b"A@" + LONG_NAME, "name too long at 2"),
        ("a long name before the expected annotation", b"A(" + LONG_NAME, "name too long at 2"),
        ("a long name before the expected end", b"A 8 " + LONG_NAME, "name too long at 4"),
        ("a bad number before the expected bracket", b"A(CBFS 1x", "bad number at 7"),
        ("an annotation after the bracket", b"A()", "expected annotation at 2"),
        ("a name after an annotation", b"A(CBFS x)", "expected annotation at 7"),
        ("no name after an annotation", b"A(CBFS 1)", "expected ) at 7"),
        ("a number", b"A@x", "expected number at 2"),
        ("a section or a brace", b"A{B 1 2", "expected section or } at 6"),
        ("a brace at the end", b"A{", "expected section or } at 2"),
    ]

    def test_texts(self):
        for title, text, refusal in self.rows:
            with self.subTest(title):
                self.refuses(1, refusal, "fmaptool in.fmd out", {"in.fmd": text}, {"out": b""})

    files = [
        ("the command line before the input", "none", 2, "bad command line"),
        ("three arguments", "in.fmd none/out more", 2, "bad command line"),
        ("the input before the output", "none none/out", 1, "read fault"),
        ("the input before the output is made", "none out", 1, "read fault"),
        ("the output before the text", "in.fmd none/out", 1, "output fault"),
    ]

    def test_files(self):
        for title, words, status, refusal in self.files:
            with self.subTest(title):
                self.refuses(status, refusal, f"fmaptool {words}", {"in.fmd": b"\x01"})


class Layouts(ProgramTest):
    """The first refusal of a descriptor's layout. Sections are numbered in preorder from 0."""

    # (with FMAP one area more than a map may have)
    MANY = " ".join(f"S{number} 8" for number in range(65535))
    MANY_AND_ONE = f"{MANY} S65535 8"

    rows = [
        ("a duplicate before no FMAP", "F 64{A 8 A 8}", "duplicate name of section 2"),
        ("the lowest duplicate", "F 64{A 8 B 8 B 8 A 8}", "duplicate name of section 3"),
        ("the root's name", "F 64{A 8 F 8 A 8}", "duplicate name of section 2"),
        ("a duplicate before too many areas", f"F 4M{{S0 8 FMAP 8 {MANY}}}",
         "duplicate name of section 3"),
        ("no FMAP before too many areas", f"F 4M{{{MANY_AND_ONE}}}", "no FMAP section"),
        ("no FMAP before the root's size", "F{A 8}", "no FMAP section"),
        ("too many areas before the root's size", f"F{{FMAP 8 {MANY}}}", "too many areas"),
        ("the root's size before a child's", "F{FMAP A}", "ambiguous size of section 0"),
        ("an empty root before a child's size", "F 0{FMAP A}", "empty section 0"),
        ("a size before an earlier empty child", "F 64K{FMAP 0 A B}",
         "ambiguous size of section 3"),
        ("the lowest size", "F 64K{A B C@32K D FMAP 1K}", "ambiguous size of section 2"),
        ("an empty child before its overlap", "F 64K{FMAP 8K A@4K 0}", "empty section 2"),
        ("an overlap before the parent's end", "F 64K{FMAP 8K A@4K 64K}", "overlap at section 2"),
        ("the first child: its parent's end before an empty one", "F 64K{FMAP 128K A@0 0}",
         "section 1 outside its parent"),
        ("the first child: empty before a parent's end", "F 64K{FMAP 0 A 128K}",
         "empty section 1"),
        ("a child of the root before a child of its first child",
         "F 64K{FMAP 8K{A 0} B@4K 8K}", "overlap at section 3"),
        ("the first parent: empty before a parent's end", "F 64K{FMAP 8K{A 0} B 8K{C 16K}}",
         "empty section 2"),
        ("the first parent: empty before a size", "F 64K{FMAP 8K{A 0} B 8K{C D}}",
         "empty section 2"),
        ("a parent's end before a small FMAP", "F 64K{FMAP 8 A 128K}",
         "section 2 outside its parent"),
        ("a small FMAP", "F 64K{FMAP 8 A 8K}", "FMAP section too small"),
    ]

    def test_layouts(self):
        for title, text, refusal in self.rows:
            with self.subTest(title):
                self.refuses(1, refusal, "fmaptool in.fmd out", {"in.fmd": text}, {"out": b""})


class CheckArguments(ProgramTest):
    """The errors of cbfscheck's arguments: the first wrong argument, no image, no second image, the
    lists of -r, --keep and --need; then OLD and NEW."""

    TWO = "--flash, --keep and --keep-preserved need two images"

    rows = [
        ("an unknown option before a third path", "--none a b c", "unknown option '--none'"),
        ("a third path before an unknown option", "a b c --none", "too many images: 'c'"),
        ("a third path of one dash", "a b - --none", "too many images: '-'"),
        ("an unknown option before a second -v", "-v --none -v", "unknown option '--none'"),
        ("a second -v before an unknown option", "-v -v --none",
         "an option is given twice at '-v'"),
        ("a value before a third path", "--json=x a b c", "unexpected value in '--json=x'"),
        ("a third path before a value", "a b c --json=x", "too many images: 'c'"),
        ("a third path before a missing value", "a b c -r", "too many images: 'c'"),
        ("a second -v before a missing value", "-v -v -r", "an option is given twice at '-v'"),
        ("an unknown option before no image", "-x", "unknown option '-x'"),
        ("no image before no second image", "--keep A", "no image"),
        ("no image before a bad list", "-r ,", "no image"),
        ("no second image before the list of -r", "image.rom --keep A -r ,", TWO),
        ("no second image before the list of --keep", "image.rom --keep ,", TWO),
        ("--flash: no second image before a need", "image.rom --flash --need x", TWO),
        ("--keep-preserved: no second image before a need", "image.rom --keep-preserved --need x",
         TWO),
        ("the list of -r before that of --keep", "a b --keep x, -r ,y",
         "bad list of areas ',y'"),
        ("the list of --keep before the needs", "a b --need x --keep y,",
         "bad list of areas 'y,'"),
        ("the first bad need", "a --need A:b,x,y", "bad need 'x'"),
    ]

    def test_arguments(self):
        for title, words, error in self.rows:
            with self.subTest(title):
                message = f"{error} (see cbfscheck --help)"
                self.refuses(2, message, f"cbfscheck {words}", {"image.rom": board()})

    images = [
        ("a need before the image", "none --need x", "bad need 'x' (see cbfscheck --help)"),
        ("OLD before NEW", "none other", "none: No such file or directory"),
        ("NEW before what OLD has", "image.rom other", "other: No such file or directory"),
        ("two dashes end the options", "-- --help", "--help: No such file or directory"),
    ]

    def test_images(self):
        for title, words, error in self.images:
            with self.subTest(title):
                self.refuses(2, error, f"cbfscheck {words}", {"image.rom": b"no map"})

    VERSION = "cbfscheck 3.2\n"

    def test_help_and_version(self):
        self.check("cbfscheck --none --version --help", output=self.VERSION)
        self.check("cbfscheck a b c --version -v -v", output=self.VERSION)
        shown = self.folder().run("cbfscheck --help --version --none")
        self.assertEqual((shown.status, shown.output[:16]), (0, b"usage: cbfscheck"))


def rows_of(text):
    """Returns the lines of a report; a blank stands for a tab, and an underscore for a blank."""
    return [line.replace(" ", "\t").replace("_", " ") for line in text]


class ReportTest(ProgramTest):
    """Checks the order of rows of a report."""

    def in_order(self, title, command, files, *rows, status=1, without=()):
        """Runs cbfscheck. The rows stand in the report, each once, in this order; `without` are
        texts that the report has not."""
        with self.subTest(title):
            folder = self.folder(files)
            done = folder.run(command)
            self.compare(folder, done, "status", status, done.status)
            self.compare(folder, done, "message", b"", done.message)
            self.compare(folder, done, "files", done.before, done.after)
            lines = done.output.decode().splitlines()
            wanted = rows_of(rows)
            seen = [line for line in lines if line in wanted]
            self.compare(folder, done, "order of rows", "\n".join(wanted), "\n".join(seen)
                         or done.output.decode())
            for text in without:
                self.assertNotIn(text, done.output.decode())


MAP_ROW = "remark - - 0x0 flashmap"
SIZE_ROW = "bad - - - the_flashmap_states_another_size_than_the_image_has"
COMPLETE = "remark COREBOOT - - complete"


class MapFindings(ReportTest):
    """The rows of the flash map, in the order of their table."""

    def test_rows_of_the_map(self):
        second = flash_map(0x800, [FMAP])
        other = "remark - - 0x300 another_flashmap"
        for title, areas, fields, rows in [
            ("the map before another one", [], {}, [MAP_ROW, other]),
            ("another map before the size", [], {"map_size": 0x900}, [other, SIZE_ROW]),
            ("the size before an area outside", [Area("OUT", 0x7FF, 2)], {"map_size": 0x900},
             [SIZE_ROW, "bad OUT - 0x7ff ends_outside_the_image"]),
            ("outside before empty", [Area("OUT", 0x801, 0)], {},
             ["bad OUT - 0x801 ends_outside_the_image", "remark OUT - 0x801 has_no_bytes"]),
            ("outside before the name", [Area(b"\xff", 0x7FF, 2)], {},
             ["bad \\xff - 0x7ff ends_outside_the_image", "remark \\xff - 0x7ff name_isn't_UTF-8"]),
            ("empty before the name", [Area(b"\xff", 0x240, 0)], {},
             ["remark \\xff - 0x240 has_no_bytes", "remark \\xff - 0x240 name_isn't_UTF-8"]),
            ("the rows of an area are adjacent", [Area(b"\xff", 0x240, 1), Area("O", 0x801, 0)], {},
             ["remark \\xff - 0x240 name_isn't_UTF-8", "bad O - 0x801 ends_outside_the_image"]),
            ("the name before an earlier name",
             [Area("A", 0x240, 1), Area("A", 0x250, 1), Area(b"\xff", 0x260, 1)], {},
             ["remark \\xff - 0x260 name_isn't_UTF-8",
              "bad A - 0x250 has_the_name_of_an_earlier_area A"]),
            ("an earlier name before an overlap",
             [Area("B", 0x240, 2), Area("C", 0x241, 2), Area("A", 0x250, 1), Area("A", 0x251, 1)],
             {}, ["bad A - 0x251 has_the_name_of_an_earlier_area A", "bad B - 0x240 overlaps C",
                  "bad C - 0x241 overlaps B"]),
        ]:
            image = Image(0x800, [FMAP, COREBOOT, *areas], **fields)
            image.put("COREBOOT", EMPTY).put_at(0x300, second)
            bad = any(row.startswith("bad") for row in rows)
            self.in_order(title, "cbfscheck image.rom", {"image.rom": image.data()}, *rows,
                          status=int(bad))

    def test_rows_of_the_area_FMAP(self):
        overlap = [Area("B", 0x240, 2), Area("C", 0x241, 2)]
        many = [Area(f"A{number}", 0x30000 + number, 1) for number in range(4096)]
        none = "bad - - - no_area_FMAP"
        for title, size, areas, rows in [
            ("an overlap before no area FMAP", 0x800, [COREBOOT, *overlap],
             ["bad C - 0x241 overlaps B", none]),
            ("too many areas before no area FMAP", 0x40000, [COREBOOT, *many],
             ["bad - - - too_many_areas_to_look_for_overlaps", none]),
            ("an overlap before the place of the map", 0x800,
             [COREBOOT, Area("FMAP", 1, 0x200), *overlap],
             ["bad C - 0x241 overlaps B", "bad FMAP - 0x1 doesn't_begin_with_the_flashmap"]),
            ("the place of the map before a region", 0x800, [COREBOOT, Area("FMAP", 1, 0x200)],
             ["bad FMAP - 0x1 doesn't_begin_with_the_flashmap", COMPLETE]),
        ]:
            at = 0x400 if size == 0x800 else 0x3F000
            areas = [Area("COREBOOT", at, 0x400), *areas[1:]]
            image = Image(size, areas, map_at=0).put("COREBOOT", EMPTY).data()
            self.in_order(title, "cbfscheck image.rom", {"image.rom": image}, *rows)


class RegionFindings(ReportTest):
    """The rows of a region, and of the options."""

    CONTENT = b"0123456789"
    DIGEST = [hash_attribute(SHA256, CONTENT)]
    WRONG = [hash_attribute(SHA512, b"other")]
    NO_STAGE = "bad COREBOOT x 0x0 stage_has_no_stage_attribute_of_24_bytes"

    def test_rows_of_a_cell(self):
        odd = Component(b"\xff", self.CONTENT)
        typed = {"type": 0x1234}
        type_row = "remark COREBOOT x 0x0 type_without_a_name 0x1234"
        for title, region, options, rows in [
            ("an earlier component before the name", [odd, odd], "",
             ["bad COREBOOT \\xff 0x40 has_the_name_of_an_earlier_component",
              "remark COREBOOT \\xff 0x40 name_isn't_UTF-8"]),
            ("the name before the type", [Component(b"\xff", **typed)], "",
             ["remark COREBOOT \\xff 0x0 name_isn't_UTF-8",
              "remark COREBOOT \\xff 0x0 type_without_a_name 0x1234"]),
            ("the type before no hash", [Component(b"x", **typed)], "-v",
             [type_row, "remark COREBOOT x 0x0 no_hash"]),
            ("the type before a valid hash",
             [Component(b"x", self.CONTENT, attributes=self.DIGEST, **typed)], "",
             [type_row, "remark COREBOOT x 0x0 sha256_valid"]),
            ("the type before an invalid hash",
             [Component(b"x", self.CONTENT, attributes=self.WRONG, **typed)], "",
             [type_row, "bad COREBOOT x 0x0 sha512_invalid"]),
            ("a hash before the fault of the attributes",
             [Component(b"x", self.CONTENT, attributes=self.DIGEST, type=STAGE)], "",
             ["remark COREBOOT x 0x0 sha256_valid", self.NO_STAGE]),
            ("the fault of the attributes before the next component",
             [Component(b"x", type=STAGE), Component(b"x")], "",
             [self.NO_STAGE, "bad COREBOOT x 0x40 has_the_name_of_an_earlier_component"]),
            ("the fault of the attributes before a deleted component",
             [Component(b"x", type=STAGE), FreeEntry(0x40, type=DELETED)], "",
             [self.NO_STAGE, "remark COREBOOT - 0x40 deleted_component"]),
            ("a hash before the next component",
             [Component(b"x", self.CONTENT, attributes=self.DIGEST), Component(b"x")], "",
             ["remark COREBOOT x 0x0 sha256_valid",
              "bad COREBOOT x 0x80 has_the_name_of_an_earlier_component"]),
            ("a component before a deleted one", [Component(b"x", **typed),
             FreeEntry(0x40, type=DELETED)], "",
             [type_row, "remark COREBOOT - 0x40 deleted_component"]),
            ("a deleted one before the next component", [FreeEntry(0x40, type=DELETED),
             Component(b"x", **typed)], "",
             ["remark COREBOOT - 0x0 deleted_component",
              "remark COREBOOT x 0x40 type_without_a_name 0x1234"]),
        ]:
            used = join(*region)
            image = board(used + empty_region(0x400 - len(used)))
            self.in_order(title, f"cbfscheck image.rom {options}", {"image.rom": image}, *rows,
                          status=int(any(row.startswith("bad") for row in rows)))

    def test_end_of_the_cells(self):
        x = Component(b"x", self.CONTENT)
        tail = "remark COREBOOT - 0x40 unused_tail"
        counts = ["remark COREBOOT - - components 1", "remark COREBOOT - - free_bytes 960",
                  "remark COREBOOT - - largest_content_that_add_takes 928"]
        no_counts = ["remark COREBOOT - - free_bytes 0",
                     "remark COREBOOT - - no_room_for_a_component"]
        for title, region, rows in [
            ("a deleted component before the end", FreeEntry(0x400, type=DELETED).bytes,
             ["remark COREBOOT - 0x0 deleted_component", COMPLETE]),
            ("complete before the number", join(x, empty_region(0x3C0)), [COMPLETE, *counts]),
            ("the tail before its bytes", join(x, b"\xff" * 40 + b"X"),
             [tail, "bad COREBOOT - 0x68 unused_tail_has_other_bytes_than_0xff_and_0x00"]),
            ("the bytes of the tail before its entry", join(x, b"\xff" * 64 + b"LARCHIVE"),
             ["bad COREBOOT - 0x80 unused_tail_has_other_bytes_than_0xff_and_0x00",
              "bad COREBOOT - 0x80 entry_in_the_unused_tail"]),
            ("an entry in the tail before the number", join(x, b"\xff" * 64 + b"LARCHIVE"),
             ["bad COREBOOT - 0x80 entry_in_the_unused_tail", counts[0], *no_counts]),
            ("damage before the number", join(x, Commands.DAMAGED),
             ["bad COREBOOT - 0x40 damaged_entry:_offset", counts[0], *no_counts]),
            ("no component before the free bytes", EMPTY,
             [COMPLETE, "remark COREBOOT - - no_components",
              "remark COREBOOT - - free_bytes 1024"]),
        ]:
            image = board(region)
            self.in_order(title, "cbfscheck image.rom", {"image.rom": image}, *rows,
                          status=int(any(row.startswith("bad") for row in rows)))

    def test_rows_of_options(self):
        files = {"image.rom": board()}
        last = "remark COREBOOT - - largest_content_that_add_takes 992"
        missing = "needed_component_isn't_there"
        for title, options, rows in [
            ("the regions before the names", "-r NONE", [last, "bad NONE - - no_such_area"]),
            ("the names in order", "-r Z,A", ["bad Z - - no_such_area", "bad A - - no_such_area"]),
            ("the names before the needs", "--need COREBOOT:x -r NONE",
             ["bad NONE - - no_such_area", f"bad COREBOOT x - {missing}"]),
            ("the needs in order", "--need COREBOOT:z,COREBOOT:a",
             [f"bad COREBOOT z - {missing}", f"bad COREBOOT a - {missing}"]),
        ]:
            self.in_order(title, f"cbfscheck image.rom {options}", files, *rows)

    def test_areas_in_the_order_of_the_map(self):
        areas = [FMAP, Area("Z", 0x600, 0x200), Area("COREBOOT", 0x400, 0x200)]
        image = Image(0x800, areas).put("COREBOOT", empty_region(0x200))
        image.put("Z", empty_region(0x200))
        last = "remark Z - - largest_content_that_add_takes 480"
        self.in_order("the order of the map", "cbfscheck image.rom", {"image.rom": image.data()},
                      "remark Z - - complete", last, COMPLETE, status=0)

    def test_first_and_last_rows(self):
        files = {"image.rom": board(join(Component(b"x", self.CONTENT), empty_region(0x3C0)))}
        listed = ["area COREBOOT 0x400 1024 0x0",
                  f"component COREBOOT x 0x0 raw 10 none no_hash 0x1c - {TEN_256}"]
        self.in_order("the list before the map", "cbfscheck image.rom --list", files, *listed,
                      MAP_ROW, status=0)
        files = {"image.rom": board(join(*(
            Component(b"c%d" % number, b"0", type=0x1234, attributes=self.WRONG)
            for number in range(17)), size=0x900), [FMAP, Area("COREBOOT", 0x400, 0x900)], 0xD00)}
        self.in_order("omitted rows after all others", "cbfscheck image.rom --need COREBOOT:x",
                      files, "bad COREBOOT x - needed_component_isn't_there",
                      "remark - - - more_of_these 1", "bad - - - more_of_these 1",
                      "not sound: 18 bad, 22 remarks, 0 changes".replace(" ", "_"))


class Changes(ReportTest):
    """The rows of changes, in their order: images, map, areas, components, names of --keep."""

    BLOCKS = "change - - - erase_blocks_differ"
    DATA = Area("DATA", 0x1000, 0x1000)

    def image(self, areas=(FMAP, COREBOOT, DATA), size=0x2000, region=EMPTY, **fields):
        """Returns an image of 8192 bytes, with the region at 0x400."""
        return board(region, areas, size, **fields)

    def test_rows_of_images_and_maps(self):
        old = self.image()
        no_map = self.image(signature=b"__FMAX__")
        size = "bad - - - image_size_changed_from 0x1000"
        moved = "change - - - flashmap_moved_from 0x10"
        base = "change - - - base_address_changed_from 0x0"
        name = "change - - - name_of_the_flashmap_changed"
        last = "remark COREBOOT - - largest_content_that_add_takes 992"
        shifted = [FMAP, COREBOOT, Area("DATA", 0x1100, 0xF00)]
        for title, before, after, rows in [
            ("findings before the size", old[:0x1000], old, [last, size]),
            ("findings before the blocks", no_map, old, [last, f"{self.BLOCKS} 1"]),
            ("the size before the blocks", old[:0x1000], old, [size, f"{self.BLOCKS} 1"]),
            ("the blocks before no map", no_map, old,
             [f"{self.BLOCKS} 1", "change - - - the_old_image_has_no_flashmap"]),
            ("the blocks before the place of the map", self.image(map_at=0x10), old,
             [f"{self.BLOCKS} 1", moved]),
            ("the place of the map before the base address", self.image(map_at=0x10),
             self.image(base=1), [moved, base]),
            ("the base address before the name", old, self.image(base=1, name=b"OTHER"),
             [base, name]),
            ("the name before an area", old, self.image(shifted, name=b"OTHER"),
             [name, "change DATA - 0x1100 area_moved_from 0x1000"]),
        ]:
            self.in_order(title, "cbfscheck old.rom new.rom",
                          {"old.rom": before, "new.rom": after}, *rows,
                          status=int(len(before) != len(after)))

    def test_rows_of_areas(self):
        moved = "change DATA - 0x1100 area_moved_from 0x1000"
        resized = "change DATA - 0x1100 area_resized_from 0x1000"
        flags = "change DATA - 0x1100 flags_changed_from 0x0"
        gone = "change DATA - 0x1000 area_gone"
        added = "change NEW - 0x1000 area_added"
        boot = "change COREBOOT - 0x400 flags_changed_from 0x0"
        old = self.image()
        written = bytearray(self.image([FMAP, COREBOOT, Area("DATA", 0x1000, 0x1000, 8)]))
        written[0x1800] = 0
        short = [FMAP, COREBOOT, Area("DATA", 0x1100, 0xF00, 8)]
        outside = [FMAP, COREBOOT, Area("DATA", 0x1100, 0x1000, 8)]
        for title, after, rows, status in [
            ("the place before the size", self.image(short), [moved, resized], 0),
            ("the size before the flags", self.image(short), [resized, flags], 0),
            ("the place before the flags", self.image(outside), [moved, flags], 1),
            ("the flags before the blocks", bytes(written),
             ["change DATA - 0x1000 flags_changed_from 0x0",
              "change DATA - 0x1000 erase_blocks_differ 1"], 0),
            ("the flags before an area that is not compared", self.image(outside),
             [flags, "change DATA - 0x1100 not_compared"], 1),
            ("areas in the order of NEW", self.image(
                [FMAP, Area("NEW", 0x1000, 8), Area("COREBOOT", 0x400, 0x400, 8), self.DATA]),
             [added, boot], 0),
            ("an area of NEW before one of OLD", self.image(
                [FMAP, COREBOOT, Area("NEW", 0x1000, 8)]), [added, gone], 0),
            ("an area of OLD before the components", self.image(
                [FMAP, COREBOOT],
                region=join(Component(b"x"), empty_region(0x3C0))),
             [gone, "change COREBOOT x 0x0 component_added"], 0),
        ]:
            self.in_order(title, "cbfscheck old.rom new.rom",
                          {"old.rom": old, "new.rom": after}, *rows, status=status)

    def test_rows_of_structures(self):
        """A structure that is lost stands behind the number of blocks, and before the areas."""
        gbb = "bad GBB - - GBB_is_gone"
        for title, after, rows in [
            ("the blocks before a structure", structured(GBB=None), [f"{self.BLOCKS} 3", gbb]),
            ("a structure before the areas", structured(GBB=None),
             [gbb, "change GBB - 0x3000 erase_blocks_differ 3"]),
            ("structures in their order",
             structured(GBB=None, COREBOOT=region(PLACES["COREBOOT"][1], {})),
             ["bad COREBOOT - - no_bootblock_ends_the_image_any_more",
              "bad COREBOOT - - master_header_is_gone", gbb]),
        ]:
            self.in_order(title, "cbfscheck old.rom new.rom",
                          {"old.rom": structured(), "new.rom": after}, *rows)

    def test_rows_of_components(self):
        def region(*components):
            used = join(*components)
            return self.image(region=used + empty_region(0x400 - len(used)))

        old = region(Component(b"x", b"data"), Component(b"y", b"more"))
        note = [attribute(0x1234)]
        for title, after, rows, without in [
            ("the type before the length", region(Component(b"x", b"longer", type=1)),
             ["change COREBOOT x 0x0 type_changed"], ["length changed"]),
            ("the length before the content", region(Component(b"x", b"longer")),
             ["change COREBOOT x 0x0 length_changed"], ["content changed"]),
            ("the content before the attributes",
             region(Component(b"x", b"atad", attributes=note)),
             ["change COREBOOT x 0x0 content_changed"], ["attributes changed"]),
            ("the attributes before the place",
             region(FreeEntry(0x40), Component(b"x", b"data", attributes=note)),
             ["change COREBOOT x 0x40 attributes_changed",
              "change COREBOOT x 0x40 component_moved_from 0x0"], []),
            ("components in the order of NEW",
             region(Component(b"y", b"erom"), Component(b"x", b"atad")),
             ["change COREBOOT y 0x0 content_changed", "change COREBOOT y 0x0 component_moved_from"
              " 0x40", "change COREBOOT x 0x40 content_changed"], []),
            ("a component of NEW before one of OLD",
             region(FreeEntry(0x40), Component(b"y", b"more"), Component(b"z")),
             ["change COREBOOT z 0x80 component_added",
              "change COREBOOT x 0x0 component_removed"], []),
        ]:
            self.in_order(title, "cbfscheck old.rom new.rom", {"old.rom": old, "new.rom": after},
                          *rows, status=0, without=without)

    def test_rows_of_kept_names(self):
        files = {"old.rom": self.image(), "new.rom": self.image(
            region=join(Component(b"x"), empty_region(0x3C0)))}
        added = "change COREBOOT x 0x0 component_added"
        self.in_order("the changes before the names", "cbfscheck old.rom new.rom --keep NONE",
                      files, added, "bad NONE - - no_such_area")
        self.in_order("the names in order", "cbfscheck old.rom new.rom --keep Z,A", files,
                      "bad Z - - no_such_area", "bad A - - no_such_area")
        self.in_order("the names before the areas with the flag PRESERVE",
                      "cbfscheck old.rom new.rom --keep-preserved --keep NONE", files,
                      "bad NONE - - no_such_area", "remark - - - no_area_has_the_flag_PRESERVE")
        self.in_order("a name of -r before the changes",
                      "cbfscheck old.rom new.rom --keep K -r R", files,
                      "bad R - - no_such_area", added, "bad K - - no_such_area")
