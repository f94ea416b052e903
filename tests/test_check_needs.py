"""cbfscheck --need: components that an area has to have, and the offsets of their contents."""

import unittest

from tests.findings import (
    A, A_216, B, DELETED_64, FMAP, NULL_64, SHORT, CheckTest, board, conclusion, patched,
    region,
)

MISSING, ELSEWHERE = "needed component isn't there", "needed component is elsewhere"


class Needs(CheckTest):
    """A need adds a row after all others if it is not met. The content of `a` begins at 0x28."""

    def needs(self, image, text, *rows):
        """Checks needs on an image whose report has `text` before the rows of the needs."""
        for need, *bad in rows:
            with self.subTest(need):
                remarks, other = text.count("remark|"), text.count("bad|")
                last = conclusion(other + len(bad), remarks, 0)
                expected = "\n".join([text.strip(), *bad, last])
                self.reports(int(other + len(bad) > 0), image, expected, need)

    def test_a_component_at_an_offset(self):
        self.needs(region(64, [A]), """
            remark|-|-|0x0|flashmap
            remark|A|-|-|complete
            remark|A|-|-|components|1
            remark|A|-|-|free bytes|0
            remark|A|-|-|no room for a component
            """,
            ["--need A:a"],
            ["--need A:a@40"],
            ["--need A:a@0x28"],
            ["--need A:a,A:a@40"],
            ["--need=A:a@0x28"],
            ["--need A:a@39", f"bad|A|a|0x28|{ELSEWHERE}"],
            ["--need A:a@41", f"bad|A|a|0x28|{ELSEWHERE}"],
            ["--need A:a@0", f"bad|A|a|0x28|{ELSEWHERE}"],
            ["--need A:a@0xffffffff", f"bad|A|a|0x28|{ELSEWHERE}"],
            ["--need A:a@end", f"bad|A|a|0x28|{ELSEWHERE}"],
            ["--need A:a,A:a@41", f"bad|A|a|0x28|{ELSEWHERE}"],
            ["--need A:b", f"bad|A|b|-|{MISSING}"],
            ["--need A:b@40", f"bad|A|b|-|{MISSING}"],
            ["--need A:b@end", f"bad|A|b|-|{MISSING}"],
            ["--need A:a,A:b", f"bad|A|b|-|{MISSING}"],
            ["--need A:aa", f"bad|A|aa|-|{MISSING}"],
            ["--need B:a", f"bad|B|a|-|{MISSING}"],
            ["--need A:b,A:a@1,A:a,B:a@end", f"bad|A|b|-|{MISSING}", f"bad|A|a|0x28|{ELSEWHERE}",
             f"bad|B|a|-|{MISSING}"],
            ["-r X --need X:a", "bad|X|-|-|no such area", f"bad|X|a|-|{MISSING}"])

    def test_a_content_that_ends_with_the_area(self):
        self.needs(region(256, [A_216]), """
            remark|-|-|0x0|flashmap
            remark|A|-|-|complete
            remark|A|-|-|components|1
            remark|A|-|-|free bytes|0
            remark|A|-|-|no room for a component
            """, ["--need A:a@end"], ["--need A:a@end,A:a@40"])

    def test_a_content_that_ends_before_the_area(self):
        self.needs(region(320, [A_216, NULL_64]), """
            remark|-|-|0x0|flashmap
            remark|A|-|-|complete
            remark|A|-|-|components|1
            remark|A|-|-|free bytes|64
            remark|A|-|-|largest content that add takes|32
            """, ["--need A:a@end", f"bad|A|a|0x28|{ELSEWHERE}"])

    def test_the_first_component_of_a_name(self):
        self.needs(region(128, [A, A]), """
            remark|-|-|0x0|flashmap
            bad|A|a|0x40|has the name of an earlier component
            remark|A|-|-|complete
            remark|A|-|-|components|2
            remark|A|-|-|free bytes|0
            remark|A|-|-|no room for a component
            """, ["--need A:a@40"], ["--need A:a@0x68", f"bad|A|a|0x28|{ELSEWHERE}"])

    def test_a_component_after_damage(self):
        self.needs(region(192, [NULL_64, SHORT], (0x80, B)), """
            remark|-|-|0x0|flashmap
            bad|A|-|0x40|damaged entry: attribute length
            remark|A|-|-|no components
            remark|A|-|-|free bytes|64
            remark|A|-|-|largest content that add takes|36
            """, ["--need A:b", f"bad|A|b|-|{MISSING}"])

    def test_a_deleted_component(self):
        self.needs(region(64, [patched(DELETED_64, (0x1C, b"a"))]), """
            remark|-|-|0x0|flashmap
            remark|A|-|0x0|deleted component
            remark|A|-|-|complete
            remark|A|-|-|no components
            remark|A|-|-|free bytes|64
            remark|A|-|-|largest content that add takes|32
            """, ["--need A:a", f"bad|A|a|-|{MISSING}"])

    def test_the_first_area_of_a_name(self):
        image = board(0x400, [FMAP, ("A", 0x100, 0x40), ("A", 0x200, 0x40)], (0x200, A))
        self.reports(1, image, """
            remark|-|-|0x0|flashmap
            bad|A|-|0x200|has the name of an earlier area|A
            bad|A|-|-|no CBFS
            remark|A|-|-|complete
            remark|A|-|-|components|1
            remark|A|-|-|free bytes|0
            remark|A|-|-|no room for a component
            bad|A|a|-|needed component isn't there
            not sound: 3 bad, 5 remarks, 0 changes
        """, "--need A:a")


if __name__ == "__main__":
    unittest.main()
