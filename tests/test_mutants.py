"""The mistakes of tests/mutant_lists fit the tree, and tests/mutants.tsv has a row for each.

A text that a mistake replaces can change with its file. Without this test, nobody would notice
before somebody runs the mistakes again.
"""

import unittest

from tests import mutants

ALL = [one for kind in mutants.KINDS for one in mutants.mutants_of(kind)[0]]


class Lists(unittest.TestCase):
    def test_each_mistake_can_be_made(self):
        """Its text is in its file, once, its test exists, and no other one has its title."""
        self.assertGreater(len(ALL), 500)
        for one in ALL:
            with self.subTest(one.title):
                self.assertEqual(mutants.faults(one), [])

    def test_each_mistake_has_been_made(self):
        """Those of wrappers are made by tests/test_wrappers.py in each run."""
        recorded, titles = set(mutants.recorded()), {one.title for one in ALL}
        wrappers = {one.title for one in ALL if mutants.is_wrapper(one)}
        self.assertEqual(titles - wrappers - recorded, set())
        self.assertEqual(recorded - titles, set())


if __name__ == "__main__":
    unittest.main()
