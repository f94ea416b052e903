"""cbfscheck: at most 16 rows of a kind, the options of two images, and the texts of the page."""

import pathlib
import re
import unittest

from tests.findings import A, FMAP, CheckTest, board, region
from tests.programs import TOP


class RowsOfAKind(CheckTest):
    """Without -v, the first 16 rows of a kind are printed. A kind is a verdict and a text."""

    def test_16_rows(self):
        image = region(0x480, [A], *((at, b"LARCHIVE") for at in range(0x80, 0x480, 0x40)))
        self.reports(1, image, """
            remark|-|-|0x0|flashmap
            remark|A|a|0x0|no hash
            remark|A|-|0x40|unused tail
            bad|A|-|0x80|unused tail has other bytes than 0xff and 0x00
            bad|A|-|0x80|entry in the unused tail
            bad|A|-|0xc0|entry in the unused tail
            bad|A|-|0x100|entry in the unused tail
            bad|A|-|0x140|entry in the unused tail
            bad|A|-|0x180|entry in the unused tail
            bad|A|-|0x1c0|entry in the unused tail
            bad|A|-|0x200|entry in the unused tail
            bad|A|-|0x240|entry in the unused tail
            bad|A|-|0x280|entry in the unused tail
            bad|A|-|0x2c0|entry in the unused tail
            bad|A|-|0x300|entry in the unused tail
            bad|A|-|0x340|entry in the unused tail
            bad|A|-|0x380|entry in the unused tail
            bad|A|-|0x3c0|entry in the unused tail
            bad|A|-|0x400|entry in the unused tail
            bad|A|-|0x440|entry in the unused tail
            remark|A|-|-|components|1
            remark|A|-|-|free bytes|0
            remark|A|-|-|no room for a component
            not sound: 17 bad, 6 remarks, 0 changes
        """, "-v")
        self.reports(1, image, """
            remark|-|-|0x0|flashmap
            remark|A|-|0x40|unused tail
            bad|A|-|0x80|unused tail has other bytes than 0xff and 0x00
            bad|A|-|0x80|entry in the unused tail
            bad|A|-|0xc0|entry in the unused tail
            bad|A|-|0x100|entry in the unused tail
            bad|A|-|0x140|entry in the unused tail
            bad|A|-|0x180|entry in the unused tail
            bad|A|-|0x1c0|entry in the unused tail
            bad|A|-|0x200|entry in the unused tail
            bad|A|-|0x240|entry in the unused tail
            bad|A|-|0x280|entry in the unused tail
            bad|A|-|0x2c0|entry in the unused tail
            bad|A|-|0x300|entry in the unused tail
            bad|A|-|0x340|entry in the unused tail
            bad|A|-|0x380|entry in the unused tail
            bad|A|-|0x3c0|entry in the unused tail
            bad|A|-|0x400|entry in the unused tail
            bad|A|-|0x440|entry in the unused tail
            remark|A|-|-|components|1
            remark|A|-|-|free bytes|0
            remark|A|-|-|no room for a component
            not sound: 17 bad, 5 remarks, 0 changes
        """)

    def test_17_rows(self):
        image = region(0x4C0, [A], *((at, b"LARCHIVE") for at in range(0x80, 0x4C0, 0x40)))
        self.reports(1, image, """
            remark|-|-|0x0|flashmap
            remark|A|a|0x0|no hash
            remark|A|-|0x40|unused tail
            bad|A|-|0x80|unused tail has other bytes than 0xff and 0x00
            bad|A|-|0x80|entry in the unused tail
            bad|A|-|0xc0|entry in the unused tail
            bad|A|-|0x100|entry in the unused tail
            bad|A|-|0x140|entry in the unused tail
            bad|A|-|0x180|entry in the unused tail
            bad|A|-|0x1c0|entry in the unused tail
            bad|A|-|0x200|entry in the unused tail
            bad|A|-|0x240|entry in the unused tail
            bad|A|-|0x280|entry in the unused tail
            bad|A|-|0x2c0|entry in the unused tail
            bad|A|-|0x300|entry in the unused tail
            bad|A|-|0x340|entry in the unused tail
            bad|A|-|0x380|entry in the unused tail
            bad|A|-|0x3c0|entry in the unused tail
            bad|A|-|0x400|entry in the unused tail
            bad|A|-|0x440|entry in the unused tail
            bad|A|-|0x480|entry in the unused tail
            remark|A|-|-|components|1
            remark|A|-|-|free bytes|0
            remark|A|-|-|no room for a component
            not sound: 18 bad, 6 remarks, 0 changes
        """, "-v")
        self.reports(1, image, """
            remark|-|-|0x0|flashmap
            remark|A|-|0x40|unused tail
            bad|A|-|0x80|unused tail has other bytes than 0xff and 0x00
            bad|A|-|0x80|entry in the unused tail
            bad|A|-|0xc0|entry in the unused tail
            bad|A|-|0x100|entry in the unused tail
            bad|A|-|0x140|entry in the unused tail
            bad|A|-|0x180|entry in the unused tail
            bad|A|-|0x1c0|entry in the unused tail
            bad|A|-|0x200|entry in the unused tail
            bad|A|-|0x240|entry in the unused tail
            bad|A|-|0x280|entry in the unused tail
            bad|A|-|0x2c0|entry in the unused tail
            bad|A|-|0x300|entry in the unused tail
            bad|A|-|0x340|entry in the unused tail
            bad|A|-|0x380|entry in the unused tail
            bad|A|-|0x3c0|entry in the unused tail
            bad|A|-|0x400|entry in the unused tail
            bad|A|-|0x440|entry in the unused tail
            remark|A|-|-|components|1
            remark|A|-|-|free bytes|0
            remark|A|-|-|no room for a component
            bad|-|-|-|more of these|1
            not sound: 18 bad, 5 remarks, 0 changes
        """)

    def test_kinds_in_the_order_of_their_first_rows(self):
        image = board(0x2000, [("FMAP", 0, 0x1000), *((f"E{n}", 0x1000, 0) for n in range(1, 19))])
        names = "N1,N2,N3,N4,N5,N6,N7,N8,N9,N10,N11,N12,N13,N14,N15,N16,N17,N18,N19"
        self.reports(1, image, """
            remark|-|-|0x0|flashmap
            remark|E1|-|0x1000|has no bytes
            remark|E2|-|0x1000|has no bytes
            remark|E3|-|0x1000|has no bytes
            remark|E4|-|0x1000|has no bytes
            remark|E5|-|0x1000|has no bytes
            remark|E6|-|0x1000|has no bytes
            remark|E7|-|0x1000|has no bytes
            remark|E8|-|0x1000|has no bytes
            remark|E9|-|0x1000|has no bytes
            remark|E10|-|0x1000|has no bytes
            remark|E11|-|0x1000|has no bytes
            remark|E12|-|0x1000|has no bytes
            remark|E13|-|0x1000|has no bytes
            remark|E14|-|0x1000|has no bytes
            remark|E15|-|0x1000|has no bytes
            remark|E16|-|0x1000|has no bytes
            bad|N1|-|-|no such area
            bad|N2|-|-|no such area
            bad|N3|-|-|no such area
            bad|N4|-|-|no such area
            bad|N5|-|-|no such area
            bad|N6|-|-|no such area
            bad|N7|-|-|no such area
            bad|N8|-|-|no such area
            bad|N9|-|-|no such area
            bad|N10|-|-|no such area
            bad|N11|-|-|no such area
            bad|N12|-|-|no such area
            bad|N13|-|-|no such area
            bad|N14|-|-|no such area
            bad|N15|-|-|no such area
            bad|N16|-|-|no such area
            remark|-|-|-|more of these|2
            bad|-|-|-|more of these|3
            not sound: 19 bad, 19 remarks, 0 changes
        """, f"-r {names}")

    def test_a_hundred_names_of_areas(self):
        """With -v, each of them has its row."""
        image = board(0x400, [FMAP])
        names = [f"N{number}" for number in range(1, 101)]
        rows = [f"bad|{name}|-|-|no such area" for name in names]
        self.reports(1, image, "\n".join(["remark|-|-|0x0|flashmap", *rows,
                                          "not sound: 100 bad, 1 remarks, 0 changes"]),
                     f"-v -r {','.join(names)}")


# ---- The texts of the page

# Verdict, area, component, position and text of an expected row in a test.
EXPECTED_ROW = re.compile(
    r"\b(bad|remark|change)\|[^|\n]*\|[^|\n]*\|[^|\n]*\|([A-Za-z][^|\"\\\n]*)")
PAGE = (TOP / "man" / "cbfscheck.1").read_text(encoding="utf-8")


class Texts(unittest.TestCase):
    """The manual page has the verdict and the text of each row that the tests of cbfscheck expect,
    and no other one. A test that expects a row compares it with the program."""

    def texts_with_a_condition(self):
        """Returns the texts of the page whose verdict depends on the image or the options."""
        rows = re.findall(r"^\.It bad or remark Qq (.*)$", PAGE, re.M)
        self.assertEqual(len(rows), len(set(rows)))
        return set(rows)

    def texts_of_the_page(self):
        """Returns the verdicts and texts of the tables of the page that have one verdict."""
        found = set()
        for verdict, texts in re.findall(r"^\.It (bad|remark|change) (Q[qo] .*)", PAGE, re.M):
            names = re.sub(r"Q[qo] | Qc", "", texts).split(" , ")
            found |= {(verdict, name) for name in names}
        # (the other kinds of damage, below the row of the first one)
        damages = re.findall(r"^\.Qq (damaged entry: [a-z ]*?)(?: ,| \.)*$", PAGE, re.M)
        return found | {("bad", text) for text in damages}

    def texts_of_tests(self):
        """Returns the verdicts and texts of the rows that the tests of cbfscheck expect."""
        found = set()
        for path in sorted(pathlib.Path(__file__).parent.glob("test_check_*.py")):
            found |= set(EXPECTED_ROW.findall(path.read_text(encoding="utf-8")))
        return {(verdict, text.rstrip()) for verdict, text in found if "{" not in text}

    def test_the_texts_of_the_page(self):
        """A change of a kept area has the verdict `bad`, and its row on the page is a change. An
        area that is gone is bad without an option too."""
        page, either = self.texts_of_the_page(), self.texts_with_a_condition()
        kept = {("bad", text) for verdict, text in page if verdict == "change"}
        kept -= {("bad", "area gone"), ("bad", "more of these")}
        self.assertGreater(len(page) + len(either), 80)
        expected = self.texts_of_tests() - kept
        of_either = {(verdict, text) for verdict, text in expected if text in either}
        self.assertEqual({text for _, text in of_either}, either)
        self.assertEqual({verdict for verdict, _ in of_either}, {"bad", "remark"})
        self.assertEqual(sorted(expected - of_either), sorted(page))


if __name__ == "__main__":
    unittest.main()
