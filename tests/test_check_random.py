"""cbfscheck on images at random: each report is that of the second model, tests/model.py.

The images, most of them boards with the structures of tests/structures.py, come from a fixed seed.
tests/fuzz.py makes others.
"""

import functools
import random

from tests import model
from tests.programs import ProgramTest
from tests.random_images import Maker
from tests.reading import Reading

SEED = "reports 0"
TRIALS = range(200)
# A map with more than 4096 areas is not made at random; tests/test_limits.py has one.
NOT_MADE = {"too-many-areas"}


class Trial:
    """An image, maybe an older one, and options; the report that the model has of them."""

    def __init__(self, number):
        maker = Maker(random.Random(f"{SEED}/{number}"))
        new = maker.image() if number % 4 == 0 else maker.changed(maker.board(), number % 3 // 2)
        old = maker.changed(new, 2) if number % 8 < 6 else maker.board()
        self.files = {"new.rom": new, "old.rom": old}
        self.new, self.old = Reading(new), Reading(old) if number % 2 else None
        self.wishes, self.words = maker.options(self.new, self.old is not None)
        self.rows = model.report(self.old, self.new, self.wishes)
        self.listing = model.listing(self.old, self.new, self.wishes)
        self.images = [*["old.rom"] * bool(self.old), "new.rom"]

    @property
    def status(self):
        return int(any(row.verdict == "bad" for row in self.rows))

    def text(self):
        """Returns the lines of the report."""
        return model.text(self.rows, None, self.wishes.is_verbose, self.wishes.is_flash)

    def document(self):
        """Returns the document of the report, with the list of areas and components."""
        wishes = self.wishes
        return model.document(self.images, self.rows, self.listing, wishes.is_verbose,
                              wishes.is_flash)


@functools.lru_cache(maxsize=None)
def trial(number):
    """Returns the trial of a number."""
    return Trial(number)


class Reports(ProgramTest):
    programs = ("cbfscheck",)

    def test_reports_are_those_of_the_model(self):
        self.check_rows(self.compare_reports, [(number,) for number in TRIALS])

    def compare_reports(self, number):
        """Compares the text of a trial, and its document with the list of areas and components."""
        one = trial(number)
        folder, words = self.folder(one.files), [*one.words, *one.images]
        self.check(["cbfscheck", *words], folder, one.status, one.text())
        self.check(["cbfscheck", "--json", "--list", *words], folder, one.status, one.document())

    def test_the_images_have_each_row(self):
        seen = {row.code for number in TRIALS for row in trial(number).rows}
        self.assertEqual(set(model.CODES) - seen, NOT_MADE)
