"""The report of cbfscheck on a terminal: tables, their colours, and the hidden remarks.

Standard output is a pseudo-terminal. In a pipe, the reports are those of the other tests.
"""

import re
import textwrap
import unittest

from tests.findings import A, FMAP, H, N, board, cell, free, region
from tests.pages import examples, literal_blocks, page_text, plain, run_example, section
from tests.programs import ProgramTest
from tests.screens import on_screen

RED, YELLOW, GREEN, RESET = "\x1b[1;31m", "\x1b[33m", "\x1b[32m", "\x1b[0m"

MAP = ("FMAP", 0, 0x200)
# A component with a digest, and free space.
SOUND = region(192, [H, free(192 - len(H))])
# Two components of one name, one without a text as its name.
BAD = region(256, [A, A, N, free(64)])


def lines(text):
    """Returns a report by its lines, which are all indented equally."""
    kept = textwrap.dedent(text).strip("\n").splitlines()
    return "".join(f"{line}\n" for line in kept)


class TerminalReports(ProgramTest):
    programs = ("cbfscheck",)

    def on_terminal(self, files, words, environment):
        """Returns the status of a command, and the text that its terminal got."""
        folder = self.folder(files).path
        status, text, message = on_screen(["cbfscheck", *words], folder, environment)
        self.assertEqual(message, b"")
        return status, text

    def shows(self, status, image, text, options="", environment=None):
        """Checks the report of an image on a terminal, without colours unless they are chosen."""
        words = [*options.split(), "image.rom"]
        self.assertEqual(self.on_terminal({"image.rom": image}, words, environment or {}),
                         (status, lines(text)))


class OneImage(TerminalReports):
    def test_a_sound_image(self):
        self.shows(0, SOUND, """
                  IN IMAGE    SIZE   AREA
            area  0x00000000  0x100  FMAP
            area  0x00000100  0xc0   A     cbfs
            6 remarks are not shown: -v shows them
            sound: 0 bad, 6 remarks
        """)

    def test_remarks_on_request(self):
        self.shows(0, SOUND, """
                  IN IMAGE    SIZE   AREA
            area  0x00000000  0x100  FMAP
            area  0x00000100  0xc0   A     cbfs
                    AREA  COMPONENT  OFFSET
            remark  -     -          0x0     flashmap
            remark  A     h          0x0     sha256 valid
            remark  A     -          -       complete
            remark  A     -          -       components 1
            remark  A     -          -       free bytes 64
            remark  A     -          -       largest content that add takes 32
            sound: 0 bad, 6 remarks
        """, "-v")

    def test_bad_rows_precede_remarks(self):
        self.shows(1, BAD, """
                  IN IMAGE    SIZE   AREA
            area  0x00000000  0x100  FMAP
            area  0x00000100  0x100  A     cbfs
                    AREA  COMPONENT  OFFSET
            bad     A     a          0x40    has the name of an earlier component
            remark  -     -          0x0     flashmap
            remark  A     a          0x0     no hash
            remark  A     a          0x40    no hash
            remark  A     \\xff       0x80    name isn't UTF-8
            remark  A     \\xff       0x80    type without a name 0x77
            remark  A     \\xff       0x80    no hash
            remark  A     -          -       complete
            remark  A     -          -       components 3
            remark  A     -          -       free bytes 64
            remark  A     -          -       largest content that add takes 32
            not sound: 1 bad, 10 remarks
        """, "-v")

    def test_columns_are_those_of_the_shown_rows(self):
        self.shows(1, BAD, """
                  IN IMAGE    SIZE   AREA
            area  0x00000000  0x100  FMAP
            area  0x00000100  0x100  A     cbfs
                 AREA  COMPONENT  OFFSET
            bad  A     a          0x40    has the name of an earlier component
            7 remarks are not shown: -v shows them
            not sound: 1 bad, 7 remarks
        """)

    def test_components(self):
        self.shows(1, BAD, """
                  IN IMAGE    SIZE   AREA
            area  0x00000000  0x100  FMAP
            area  0x00000100  0x100  A     cbfs
                       AREA  COMPONENT  IN AREA  TYPE  LENGTH  COMPRESSION  HASH     CONTENT
            component  A     a          0x0      raw   10      none         no hash  0x28
            component  A     a          0x40     raw   10      none         no hash  0x68
            component  A     \\xff       0x80     0x77  10      none         no hash  0xa8
                 AREA  COMPONENT  OFFSET
            bad  A     a          0x40    has the name of an earlier component
            7 remarks are not shown: -v shows them
            not sound: 1 bad, 7 remarks
        """, "--list")

    def test_no_map(self):
        self.shows(1, bytes(256), """
                 AREA  COMPONENT  OFFSET
            bad  -     -          -       no flashmap
            not sound: 1 bad, 0 remarks
        """)

    def test_a_single_hidden_remark(self):
        self.shows(1, board(0x200, [FMAP, ("A", 0x100, 0x200)]), """
                  IN IMAGE    SIZE   AREA
            area  0x00000000  0x100  FMAP
            area  0x00000100  0x200  A
                 AREA  COMPONENT  OFFSET
            bad  A     -          0x100   ends outside the image
            1 remark is not shown: -v shows it
            not sound: 1 bad, 1 remark
        """)

    def test_names(self):
        """An empty name is a dash, and no byte of a name controls the terminal."""
        areas = [FMAP, ("", 0x100, 0x40), ("\x1b[31m", 0x140, 0x40, 8), ("a b", 0x180, 0x80, 0x17)]
        self.shows(0, board(0x200, areas), """
                  IN IMAGE    SIZE   AREA
            area  0x00000000  0x100  FMAP
            area  0x00000100  0x40   -
            area  0x00000140  0x40   \\x1b[31m  flag PRESERVE
            area  0x00000180  0x80   a\\x20b
            1 remark is not shown: -v shows it
            sound: 0 bad, 1 remark
        """)

    def test_many_rows_of_a_kind(self):
        table = lines("""
                  IN IMAGE    SIZE   AREA
            area  0x00000000  0x100  FMAP
            area  0x00000100  0x500  A     cbfs
                 AREA  COMPONENT  OFFSET
        """)
        rows = "".join(f"bad  A     a          {place:<#6x}  has the name of an earlier component\n"
                       for place in range(0x40, 0x440, 0x40))
        self.shows(1, region(0x500, [A] * 18 + [free(128)]), table + rows + lines("""
            bad  -     -          -       more of these 1
            5 remarks are not shown: -v shows them
            not sound: 17 bad, 5 remarks
        """))

    def test_many_areas(self):
        """There is a table for up to 128 areas."""
        for count in (128, 129):
            size = 0x2000 + 0x10 * count
            areas = [("FMAP", 0, 0x2000)]
            areas += [(f"A{n}", 0x2000 + 0x10 * n, 0x10) for n in range(1, count)]
            table = "      IN IMAGE    SIZE    AREA\narea  0x00000000  0x2000  FMAP\n" + "".join(
                f"area  0x{place:08x}  0x10    {name}\n" for name, place, _ in areas[1:])
            with self.subTest(count):
                self.shows(0, board(size, areas), (table if count == 128 else "") + lines("""
                    1 remark is not shown: -v shows it
                    sound: 0 bad, 1 remark
                """))

    def test_json(self):
        status, text = self.on_terminal({"image.rom": SOUND}, ["--json", "image.rom"], {})
        self.assertEqual((status, text[:11], text[-2:]), (0, '{"format":1', "}\n"))


class Colours(TerminalReports):
    COLOURED = f"""
              IN IMAGE    SIZE   AREA
        area  0x00000000  0x100  FMAP
        area  0x00000100  0x100  A     cbfs
             AREA  COMPONENT  OFFSET
        {RED}bad  A     a          0x40    has the name of an earlier component{RESET}
        7 remarks are not shown: -v shows them
        {RED}not sound: 1 bad, 7 remarks{RESET}
    """

    def test_colours(self):
        for environment in ({"TERM": "xterm"}, {"TERM": "vt100", "NO_COLOR": ""}):
            with self.subTest(environment):
                self.shows(1, BAD, self.COLOURED, environment=environment)

    def test_a_sound_image(self):
        self.shows(0, bytes(SOUND), f"""
                  IN IMAGE    SIZE   AREA
            area  0x00000000  0x100  FMAP
            area  0x00000100  0xc0   A     cbfs
            6 remarks are not shown: -v shows them
            {GREEN}sound: 0 bad, 6 remarks{RESET}
        """, environment={"TERM": "xterm"})

    def test_no_colours(self):
        plain = self.COLOURED.replace(RED, "").replace(RESET, "")
        for environment in ({}, {"TERM": "dumb"}, {"TERM": "xterm", "NO_COLOR": "0"}):
            with self.subTest(environment):
                self.shows(1, BAD, plain, environment=environment)


class TwoImages(TerminalReports):
    OLD = board(0x800, [
        MAP, ("SAME", 0x300, 0x40), ("KEPT", 0x340, 0x40, 8), ("MOVED", 0x380, 0x40),
        ("SIZE", 0x3C0, 0x40), ("FLAGS", 0x400, 0x40), ("GONE", 0x440, 0x40),
        ("OUT", 0x7C0, 0x80), ("A", 0x600, 0x100),
    ], (0x600, cell(b"a") + free(0xC0)))
    NEW = board(0x800, [
        MAP, ("SAME", 0x300, 0x40), ("KEPT", 0x340, 0x40, 8), ("MOVED", 0x480, 0x40),
        ("SIZE", 0x3C0, 0x20), ("FLAGS", 0x400, 0x40, 2), ("ADDED", 0x440, 0x40),
        ("OUT", 0x7C0, 0x80), ("A", 0x600, 0x100), ("SAME", 0x4C0, 0x40),
    ], (0x340, b"kept"), (0x600, cell(b"b") + free(0xC0)))

    def compares(self, text, options="", environment=None):
        files = {"old.rom": self.OLD, "new.rom": self.NEW}
        done = self.on_terminal(files, [*options.split(), "old.rom", "new.rom"], environment or {})
        self.assertEqual(done, (1, lines(self.TABLE) + lines(text)))

    TABLE = """
              IN IMAGE    SIZE   AREA
        area  0x00000000  0x200  FMAP   changed
        area  0x00000300  0x40   SAME   unchanged
        area  0x00000340  0x40   KEPT   changed flag PRESERVE
        area  0x00000480  0x40   MOVED  moved
        area  0x000003c0  0x20   SIZE   resized
        area  0x00000400  0x40   FLAGS  other flags
        area  0x00000440  0x40   ADDED  new
        area  0x000007c0  0x80   OUT    not compared
        area  0x00000600  0x100  A      changed cbfs
        area  0x000004c0  0x40   SAME   not compared
    """

    def test_changes(self):
        self.compares(f"""
                    AREA   COMPONENT  OFFSET
            {RED}bad     OUT    -          0x7c0   ends outside the image{RESET}
            {RED}bad     SAME   -          0x4c0   has the name of an earlier area SAME{RESET}
            {RED}bad     KEPT   -          0x340   erase blocks differ 1{RESET}
            {YELLOW}change  -      -          -       erase blocks differ 1{RESET}
            {YELLOW}change  FMAP   -          0x0     erase blocks differ 1{RESET}
            {YELLOW}change  MOVED  -          0x480   area moved from 0x380{RESET}
            {YELLOW}change  SIZE   -          0x3c0   area resized from 0x40{RESET}
            {YELLOW}change  FLAGS  -          0x400   flags changed from 0x0{RESET}
            {YELLOW}change  ADDED  -          0x440   area added{RESET}
            {YELLOW}change  OUT    -          0x7c0   not compared{RESET}
            {YELLOW}change  A      -          0x600   erase blocks differ 1{RESET}
            {YELLOW}change  GONE   -          0x440   area gone{RESET}
            {YELLOW}change  A      b          0x0     component added{RESET}
            {YELLOW}change  A      a          0x0     component removed{RESET}
            5 remarks are not shown: -v shows them
            {RED}not sound: 3 bad, 5 remarks, 11 changes{RESET}
        """, "--keep-preserved", {"TERM": "xterm"})


class Page(ProgramTest):
    programs = ("cbfstool", "fmaptool", "cbfscheck")

    def test_the_report_of_the_page(self):
        """The report that cbfscheck(1) explains is the one of the images of its examples."""
        text = page_text("cbfscheck.1")
        folder = self.folder()
        for example in examples(section(text, "EXAMPLES"))[:20]:
            run_example(self, folder, example, {})
            if "new.rom add" in example.command:
                break
        part = re.split(r"\n\.S[hs] ", text.split("\n.Ss A report on a terminal\n")[1])[0]
        command = plain(re.search(r"^\.Ql (cbfscheck .*) ,$", part, re.MULTILINE)[1])
        [(_, shown)] = literal_blocks(part)
        self.assertEqual(on_screen(command.split(), folder.path, {}),
                         (1, "".join(f"{line}\n" for line in shown), b""))


if __name__ == "__main__":
    unittest.main()
