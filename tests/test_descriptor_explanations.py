"""The lines that explain a refused descriptor of fmaptool, on a terminal or on request."""

import unittest

from tests.programs import ProgramTest
from tests.screens import messages_on_screen

NUMBER = "a number is decimal, or hexadecimal after 0x, with at most one of the units K, M and G"
PAIR = "of adjacent sections without offsets, one may omit its size"

# the descriptor, the refusal, and the lines that explain it
ROWS = [
    ("F 4K { FMAP 1K\n  A 1KB }\n", "bad number at 19", [
        f"line 2, column 5: {NUMBER}", "      A 1KB }", "        ^"]),
    ("F 4K { FMAP 1K\n\tA\x1b[2J }", "bad byte at 17", [
        "line 2, column 3: only printable ASCII is allowed outside comments",
        "     A [2J }", "      ^"]),
    ("F 5G { FMAP }", "number too large at 2", [
        "line 1, column 3: numbers are less than 4G", "    F 5G { FMAP }", "      ^"]),
    ("", "expected section at 0", [
        "line 1, column 1: a descriptor begins with the name of a section", "    ", "    ^"]),
    ("F 4K { FMAP(PRESERVED) 1K }", "expected annotation at 12", [
        "line 1, column 13: an annotation is CBFS or PRESERVE",
        "    F 4K { FMAP(PRESERVED) 1K }", "                ^"]),
    ("F 4K { FMAP(CBFS @ 1K }", "expected ) at 17", [
        "line 1, column 18: a parenthesis closes the annotations",
        "    F 4K { FMAP(CBFS @ 1K }", "                     ^"]),
    ("F 4K { FMAP@A 1K }", "expected number at 12", [
        "line 1, column 13: a number follows @", "    F 4K { FMAP@A 1K }",
        "                ^"]),
    ("F 4K {\n FMAP 1K\n", "expected section or } at 16", [
        "line 3, column 1: the name of a section or a closing brace follows", "    ", "    ^"]),
    ("F 4K { FMAP 1K } G", "expected end at 17", [
        "line 1, column 18: nothing follows the first section",
        "    F 4K { FMAP 1K } G", "                     ^"]),
    ("F 4K { FMAP 1K " + "N" * 32 + " }", "name too long at 15", [
        "line 1, column 16: a name has at most 31 bytes",
        "    F 4K { FMAP 1K " + "N" * 32 + " }", " " * 19 + "^"]),
    ("F" + " { F" * 33, "nested too deep", ["at most 32 braces are open at a time"]),
    ("F { FMAP 1K }", "ambiguous size of section 0", [
        "line 1, column 1: the first section needs a size", "    F { FMAP 1K }", "    ^"]),
    ("# board\nF 4K {\n  FMAP 1K # CBFS\n  A(CBFS PRESERVE)\n  B(CBFS)\n}",
     "ambiguous size of section 3", [
         f"line 5, column 3: {PAIR}", "      B(CBFS)", "      ^"]),
    ("F 4K { FMAP 1K A 0 }", "empty section 2", [
        "line 1, column 16: a section has at least one byte", "    F 4K { FMAP 1K A 0 }",
        "                   ^"]),
    ("F 4K { FMAP 1K A@512 1K }", "overlap at section 2", [
        "line 1, column 16: a section begins at or after the end of the previous one",
        "    F 4K { FMAP 1K A@512 1K }", "                   ^"]),
    ("F 4K { FMAP 1K A 4K }", "section 2 outside its parent", [
        "line 1, column 16: a section ends at or before the end of its parent",
        "    F 4K { FMAP 1K A 4K }", "                   ^"]),
    ("F 4K { FMAP 1K A 1K { B 1K } B 1K }", "duplicate name of section 4", [
        "line 1, column 30: each section has another name",
        "    F 4K { FMAP 1K A 1K { B 1K } B 1K }", " " * 33 + "^"]),
    ("F 4K { A 1K }", "no FMAP section", ["a section FMAP contains the flash map"]),
    ("F 4K { FMAP 64 A 1K }", "FMAP section too small", [
        "FMAP needs 56 bytes, and 42 for each section below the first"]),
    ("#" * 1048577, "text too long", ["a descriptor has at most 1,048,576 bytes"]),
    # at most 60 bytes are shown before the mark, and at most 100 in all
    ("F 4K { FMAP 1K " + " " * 85 + "A 1KB" + " " * 200 + "}", "bad number at 102", [
        f"line 1, column 103: {NUMBER}", " " * 62 + "A 1KB" + " " * 37, " " * 64 + "^"]),
]


def message(refusal, lines):
    """Returns the refusal and the lines that explain it."""
    return f"fmaptool: {refusal}\nfmaptool: " + "\n".join(lines) + "\n"


class Explanations(ProgramTest):
    programs = ("fmaptool",)

    def refused(self, text, expected, **environment):
        self.check("fmaptool in.fmd out", {"in.fmd": text.encode()}, 1, message=expected,
                   left={"out": b""}, environment=environment)

    def test_with_the_variable(self):
        for text, refusal, lines in ROWS:
            with self.subTest(refusal):
                self.refused(text, message(refusal, lines), CBFSTOOL_EXPLAIN="1")

    def test_without_a_terminal(self):
        for text, refusal, _ in ROWS:
            with self.subTest(refusal):
                self.refused(text, f"fmaptool: {refusal}\n")

    def test_other_failures(self):
        self.check("fmaptool absent.fmd out", {}, 1, message="fmaptool: read fault\n",
                   environment={"CBFSTOOL_EXPLAIN": "1"})

    def test_on_a_terminal(self):
        text, refusal, lines = ROWS[0]
        folder = self.folder({"in.fmd": text.encode()})
        self.assertEqual(messages_on_screen(["fmaptool", "in.fmd", "out"], folder.path),
                         (1, b"", message(refusal, lines)))


if __name__ == "__main__":
    unittest.main()
