"""fmaptool: the tables of descriptors, the refusals, and the files.

Each expected table is built from the areas that a row states.
"""

import os
import unittest

from tests.image import PRESERVED, Area, flash_map
from tests.programs import (
    HAS_COMPILER, TOP, Faults, ProgramTest, if_memory_can_be_refused,
)

BOARD = (TOP / "samples" / "board.fmd").read_bytes()
BOARD_MAP = (TOP / "samples" / "board.fmap").read_bytes()
SMALL = b"F@0x10 4K { FMAP 1K P(PRESERVE)@2K 1K { Q 512 R } }\n"
SMALL_AREAS = [Area("FMAP", 0, 1024), Area("P", 2048, 1024, PRESERVED), Area("Q", 2048, 512),
               Area("R", 2560, 512)]
SMALL_MAP = flash_map(4096, SMALL_AREAS, name=b"F", base=16)
LONGEST = 1048576


class Tables(ProgramTest):
    """The table of a descriptor."""

    programs = ("fmaptool",)

    def makes(self, text, size, *areas, **fields):
        """Checks that the descriptor gives a table with these areas."""
        areas = [Area(*area) for area in areas]
        made = flash_map(size, areas, **{"name": b"F", **fields})
        self.check("fmaptool in.fmd out", {"in.fmd": text}, left={"out": made})

    sizes = [
        # title, descriptor, size of the image, areas
        ("a size in the middle is omitted", "F 4K { FMAP 1K B C 1K }", 4096,
         ("FMAP", 0, 1024), ("B", 1024, 2048), ("C", 3072, 1024)),
        ("the first size is omitted", "F 4K { A FMAP@1K }", 4096,
         ("A", 0, 1024), ("FMAP", 1024, 3072)),
        ("the area FMAP is as large as the table", "F 4K { FMAP 140 A }", 4096,
         ("FMAP", 0, 140), ("A", 140, 3956)),
        ("the last area ends with its parent", "F 4K { FMAP 1K A 3K }", 4096,
         ("FMAP", 0, 1024), ("A", 1024, 3072)),
        ("an offset is the end of the previous area", "F 4K { FMAP 1K A@1024 1K }", 4096,
         ("FMAP", 0, 1024), ("A", 1024, 1024)),
        ("an omitted size is one byte", "F 4K { FMAP 4095 A }", 4096,
         ("FMAP", 0, 4095), ("A", 4095, 1)),
    ]

    def test_sizes_and_offsets(self):
        for title, text, size, *areas in self.sizes:
            with self.subTest(title):
                self.makes(text, size, *areas)

    def test_offsets_of_children_and_a_base_address(self):
        self.makes(
            "F@0x10 4K { FMAP 1K P(PRESERVE)@2K 1K { Q 512 R } }", 4096, ("FMAP", 0, 1024),
            ("P", 2048, 1024, PRESERVED), ("Q", 2048, 512), ("R", 2560, 512), base=16,
        )

    def test_two_annotations(self):
        self.makes("F@0x10 4K{A(CBFS PRESERVE)1K FMAP}", 4096, ("A", 0, 1024, PRESERVED),
                   ("FMAP", 1024, 3072), base=16)

    numbers = [
        ("0xffffffff", 4294967295), ("4294967295", 4294967295), ("4194303K", 4294966272),
        ("4095M", 4293918720), ("3G", 3221225472), ("0x1K", 1024), ("0x1FK", 31744),
    ]

    def test_numbers_and_suffixes(self):
        for number, size in self.numbers:
            with self.subTest(number):
                self.makes(f"F {number} {{FMAP}}", size, ("FMAP", 0, size))

    def test_all_tokens_and_blanks(self):
        """All parts of a section, each blank, comments, annotations as names, the first and the
        last byte that a name may have."""
        text = (
            b"# board\r{ @ 010 \x7f\n!FLASH(CBFS) @\t0xff000000\n16M#size\n"
            b"{ RW-1.a/b(PRESERVE CBFS)@4K 1M{}\tCBFS\n"
            b"{PRESERVE@0 0xfF RO 1K\rFMAP 0xaBK LAST~ 2\tEND 3\nX@0x100000}#a}\n} # end"
        )
        self.makes(
            text, 16777216, ("RW-1.a/b", 0x1000, 0x100000, PRESERVED),
            ("CBFS", 0x101000, 0xEFF000), ("PRESERVE", 0x101000, 255), ("RO", 0x1010FF, 1024),
            ("FMAP", 0x1014FF, 175104), ("LAST~", 0x12C0FF, 2), ("END", 0x12C101, 3),
            ("X", 0x201000, 0xDFF000), name=b"!FLASH", base=0xFF000000,
        )

    def test_most_areas(self):
        sections = "".join(f"S{number} 1\n" for number in range(1, 65535))
        areas = [("FMAP", 0, 4 << 20)]
        areas += [(f"S{number}", (4 << 20) + number - 1, 1) for number in range(1, 65535)]
        self.makes(f"F 16M {{ FMAP 4M\n{sections}}}", 16 << 20, *areas)

    def test_a_board(self):
        self.check("fmaptool board.fmd out", {"board.fmd": BOARD}, left={"out": BOARD_MAP})


class Refusals(ProgramTest):
    """The refusals of a descriptor, with the offset in the text or the number of the section."""

    programs = ("fmaptool",)

    texts = [
        # descriptor, refusal
        ("", "expected section at 0"),
        ("# F", "expected section at 3"),
        ("F 4K 5", "expected end at 5"),
        ("A#b {\nC", "expected end at 6"),
        ("F()", "expected annotation at 2"),
        ("F(X)", "expected annotation at 2"),
        ("F(CBFS X)", "expected annotation at 7"),
        ("F(CBFS 5", "expected ) at 7"),
        ("F@{", "expected number at 2"),
        ("F{5", "expected section or } at 2"),
        ("F{A 1", "expected section or } at 5"),
        ("F{A 1 2", "expected section or } at 6"),
        ("FLASH 4K { ", "expected section or } at 11"),
        ("A \x01", "bad byte at 2"),
        ("F\x7f", "bad byte at 1"),
        ("\x1f", "bad byte at 0"),
        ("F\x0b", "bad byte at 1"),
        (b"F \xc2\x80", "bad byte at 2"),
        ("FLASH 4K { FMAP 010 }", "bad number at 16"),
        *((f"F {number}", "bad number at 2")
          for number in ("0x", "0x1g", "00", "1Q", "1KK", "1k", "0X1")),
        *((f"F {number} {{}}", "number too large at 2")
          for number in ("4G", "4294967296", "0x100000000", "4194304K", "4096M")),
        # the longest name, the most open braces, and the longest text, each with one more
        ("A" * 31 + " 1", "no FMAP section"),
        ("A" * 32, "name too long at 0"),
        ("A{" * 32, "expected section or } at 64"),
        ("A{" * 33, "nested too deep"),
        ("F" + " " * (LONGEST - 1), "no FMAP section"),
        (" " * (LONGEST + 1), "text too long"),
    ]

    layouts = [
        # descriptor, refusal
        ("FLASH { FMAP }", "ambiguous size of section 0"),
        ("F 0 { FMAP }", "empty section 0"),
        ("F 0K {FMAP}", "empty section 0"),
        ("F 0 {}", "no FMAP section"),
        ("F 4K { A 1K }", "no FMAP section"),
        ("FMAP 4K { A }", "no FMAP section"),
        ("FLASH 4K { COREBOOT(CBFS) }", "no FMAP section"),
        ("F 4K { FMAP 1K FMAP 1K }", "duplicate name of section 2"),
        ("F 4K { F 1K FMAP }", "duplicate name of section 1"),
        ("F 4K { FMAP A }", "ambiguous size of section 2"),
        ("F 4K { A 1K { B C } FMAP }", "ambiguous size of section 3"),
        ("F 4K { A B FMAP@1K }", "ambiguous size of section 2"),
        ("F 4K { FMAP 4K A }", "empty section 2"),
        ("F 4K { FMAP 4095 A 0 }", "empty section 2"),
        ("F 4K { FMAP 1K A@512 1K }", "overlap at section 2"),
        ("F 4K { FMAP 1K A@1023 1K }", "overlap at section 2"),
        ("F 4K { FMAP 1K A 4K }", "section 2 outside its parent"),
        ("F 4K { FMAP 1K A 3073 }", "section 2 outside its parent"),
        ("F 4K { A 1K { B C } FMAP 4K }", "section 4 outside its parent"),
        ("F 4K { A 1K {B 512 {C} D 1K} FMAP }", "section 4 outside its parent"),
        ("FLASH 4K { FMAP 97 }", "FMAP section too small"),
        ("F 4K { FMAP 64 A }", "FMAP section too small"),
        ("F 4K { FMAP 139 A }", "FMAP section too small"),
    ]

    def refused(self, rows):
        """Checks that each descriptor of a table is refused, and that the output is then empty."""
        for text, refusal in rows:
            with self.subTest(text[:40]):
                files = {"in.fmd": text, "out": b"old\n"}
                self.refuses(1, refusal, "fmaptool in.fmd out", files, {"out": b""})

    def test_texts(self):
        self.refused(self.texts)

    def test_layouts(self):
        self.refused(self.layouts)

    def test_one_area_too_many(self):
        sections = "".join(f"S{number} 1\n" for number in range(65535))
        self.refused([(f"F 16M {{ FMAP 4M\n{sections}}}", "too many areas")])


class CommandLine(ProgramTest):
    """The arguments, and files that cannot be opened or written."""

    programs = ("fmaptool",)

    def test_usage(self):
        self.check("fmaptool", output="usage: fmaptool INPUT.fmd OUTPUT\n")

    def test_usage_on_a_full_device(self):
        self.check(["sh", "-c", "fmaptool > /dev/full"], status=1,
                   message="fmaptool: output fault\n")

    rows = [
        # title, arguments, status, refusal, the files that it makes
        ("one argument", ["board.fmd"], 2, "bad command line", {}),
        ("one empty argument", [""], 2, "bad command line", {}),
        ("three arguments", ["board.fmd", "out", "more"], 2, "bad command line", {}),
        ("an empty third argument", ["board.fmd", "out", ""], 2, "bad command line", {}),
        ("two empty arguments more", ["board.fmd", "out", "", ""], 2, "bad command line", {}),
        ("a path that is not UTF-8", ["board.fmd", os.fsdecode(b"out\xff")], 2,
         "bad command line", {}),
        ("an empty path of the input", ["", "out"], 1, "read fault", {}),
        ("an empty path of the output", ["board.fmd", ""], 1, "output fault", {}),
        ("no input", ["absent.fmd", "out"], 1, "read fault", {}),
        ("no input, and no folder of the output", ["absent.fmd", "absent/out"], 1, "read fault",
         {}),
        ("no folder of the output", ["board.fmd", "absent/out"], 1, "output fault", {}),
        ("a folder as input", ["folder", "out"], 1, "read fault", {"out": b""}),
        ("a folder as output", ["board.fmd", "folder"], 1, "output fault", {}),
        ("a full device as output", ["board.fmd", "/dev/full"], 1, "output fault", {}),
    ]

    def test_refusals(self):
        for title, words, status, refusal, left in self.rows:
            with self.subTest(title):
                files = {"board.fmd": BOARD, "folder/file": b""}
                self.refuses(status, refusal, ["fmaptool", *words], files, left)


class Outputs(ProgramTest):
    """The output file."""

    programs = ("fmaptool",)

    def test_an_older_and_longer_output(self):
        files = {"board.fmd": BOARD, "out": bytes(4096)}
        self.check("fmaptool board.fmd out", files, left={"out": BOARD_MAP})

    def test_the_input_is_never_the_output(self):
        for path in ("same.fmd", "./same.fmd", "hard.fmd", "soft.fmd", "/dev/fd/3"):
            with self.subTest(path):
                folder = self.folder({"same.fmd": BOARD})
                os.link(folder.path / "same.fmd", folder.path / "hard.fmd")
                os.symlink("same.fmd", folder.path / "soft.fmd")
                self.refuses(1, "output fault", f"fmaptool same.fmd {path}", folder)


@unittest.skipUnless(HAS_COMPILER, "cc")
class SystemFaults(ProgramTest):
    """Short calls, and memory that is refused."""

    programs = ("fmaptool",)

    def test_short_reads_and_writes(self):
        for file, change in [("board.fmd", "read 1 always short"), ("out", "write 1 always short")]:
            with self.subTest(change):
                short = Faults(file, change)
                self.check("fmaptool board.fmd out", {"board.fmd": BOARD}, left={"out": BOARD_MAP},
                           faults=short)
                self.assertGreater(short.changed(), 0)

    @if_memory_can_be_refused
    def test_refused_memory(self):
        """Each request for memory is refused in turn: one of them can be spared."""
        for text, table, least in [(BOARD, BOARD_MAP, 41), (SMALL, SMALL_MAP, 21)]:
            reported, spared = self.refuse_memory("fmaptool in.fmd out", {"in.fmd": text},
                                                  left={"out": table}, made=["out"])
            self.assertEqual(len(spared), 1)
            self.assertGreaterEqual(len(reported), least)

    def test_refused_memory_at_an_opening_changes_no_file(self):
        for file in ("in.fmd", "out"):
            with self.subTest(file):
                memory = Faults(file, "open 1 1 ENOMEM")
                self.refuses(1, "out of memory", "fmaptool in.fmd out",
                             {"in.fmd": SMALL, "out": b"old\n"}, faults=memory)
                self.assertEqual(memory.changed(), 1)


if __name__ == "__main__":
    unittest.main()
