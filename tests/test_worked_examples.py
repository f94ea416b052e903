"""The worked examples of docs/EXAMPLES.md have tests, and FORMAT.md has an index of definitions.

Each example names tests below the heading of their file in crates/library_tests/src. Some of these
tests also run with each request for memory refused.
"""

import re
import resource
import unittest

from tests.programs import HAS_COMPILER, TOP, Faults, ProgramTest

TESTS = TOP / "crates" / "library_tests" / "src"
BUILT = TOP / "crates" / "library_tests" / "out" / "library_tests_tests"
EXAMPLES = (TOP / "docs" / "EXAMPLES.md").read_text(encoding="utf-8")
FORMAT = (TOP / "docs" / "FORMAT.md").read_text(encoding="utf-8")
# The sections of FORMAT.md that state no rule.
WITHOUT_RULES = ["A region at a glance", "Glossary", "Worked examples", "Index of definitions"]


def cells(line):
    """Returns the cells of a row of a table."""
    return [cell.strip() for cell in line.strip().strip("|").split(" | ")]


def examples():
    """Returns the file of each example, by the heading above it, and the cells of its row."""
    place, found = "", []
    for line in EXAMPLES.splitlines():
        if line.startswith("#"):
            place = line.strip("# `")
        elif line.startswith("| ") and cells(line) != ["Example", "Test"]:
            found.append((place, cells(line)))
    return found


def tests_of(place):
    """Returns the names of the tests of a file, which are below `#[test]`."""
    path = TESTS / f"{place}.rt"
    text = path.read_text(encoding="utf-8") if path.exists() else ""
    return re.findall(r"^ *#\[test\]\n *fn (\w+)\(", text, re.MULTILINE)


def named_tests():
    """Returns the file and the name of each test that an example names."""
    return [(place, test) for place, row in examples() for test in re.findall(r"`(\w+)`", row[-1])]


class WorkedExamples(unittest.TestCase):
    def test_the_cells_of_a_row(self):
        """The example, and one or more names of tests."""
        self.assertGreater(len(examples()), 70)
        for place, row in examples():
            with self.subTest(place, row=row[0]):
                self.assertEqual(len(row), 2)
                self.assertRegex(row[1], r"^`\w+`(, `\w+`)*$")

    def test_each_named_test_exists(self):
        for place, test in named_tests():
            with self.subTest(place, test=test):
                self.assertIn(test, tests_of(place))

    def test_no_test_is_named_twice(self):
        named = named_tests()
        self.assertEqual(sorted(named), sorted(set(named)))

    def test_each_test_has_an_example(self):
        """Each test of the folder `rows` is that of an example."""
        places = [f"rows/{path.stem}" for path in sorted((TESTS / "rows").glob("*.rt"))]
        lacking = [(place, test) for place in places for test in tests_of(place)
                   if (place, test) not in named_tests()]
        self.assertEqual(lacking, [])


class Definitions(unittest.TestCase):
    """The index of definitions in FORMAT.md."""

    def rows(self):
        """Returns the first and the last cell of each row of the index."""
        lines = FORMAT.partition("## Index of definitions\n")[2].splitlines()
        found = [cells(line) for line in lines if line.startswith("| ")]
        return [(row[0], row[-1]) for row in found if row != ["Section", "Definitions"]]

    def test_each_section_has_a_row_in_order(self):
        sections = re.findall(r"^## (.*)", FORMAT, re.MULTILINE)
        self.assertEqual([section for section, _ in self.rows()],
                         [section for section in sections if section not in WITHOUT_RULES])

    def test_each_definition_file_exists(self):
        for section, cell in self.rows():
            with self.subTest(section):
                self.assertRegex(cell, r"^`\w+/[\w/]+`(, `\w+/[\w/]+`)*$")
                for crate, name in re.findall(r"`(\w+)/([\w/]+)`", cell):
                    self.assertTrue((TOP / "crates" / crate / "specs" / f"{name}.antt").exists(),
                                    f"{crate}/{name}")


@unittest.skipUnless(HAS_COMPILER, "cc")
@unittest.skipUnless(BUILT.is_file(), "library_tests")
class Memory(ProgramTest):
    """Each request for memory of a library test is refused in turn.

    A test that accepts an allocation failure passes then, and another one reports it. `rt test` in
    crates/library_tests builds the tests.
    """

    programs = ()

    @classmethod
    def setUpClass(cls):
        super().setUpClass()
        # (a test that fails aborts)
        limits = resource.getrlimit(resource.RLIMIT_CORE)
        resource.setrlimit(resource.RLIMIT_CORE, (0, limits[1]))
        cls.addClassCleanup(resource.setrlimit, resource.RLIMIT_CORE, limits)

    def refused(self, test):
        """Returns the runs of a test in which a request for memory was refused."""
        runs = []
        while True:
            number = len(runs) + 1
            memory = Faults("", f"memory {number} {number} ENOMEM")
            folder = self.folder()
            run = folder.run([BUILT, test], faults=memory)
            folder.remove()
            if not memory.changed():
                self.assertEqual(run.status, 0, run.output)
                return runs
            runs.append(run)

    def accepts(self, test, least):
        """Checks that a test passes without memory, and has at least so many requests."""
        runs = self.refused(test)
        self.assertGreaterEqual(len(runs), least)
        for number, run in enumerate(runs, 1):
            self.assertEqual(run.status, 0, f"request {number}: {run.output}{run.message}")

    def reports(self, test, least):
        """Checks that a test reports that it has no memory, and has at least so many requests."""
        runs = self.refused(test)
        self.assertGreaterEqual(len(runs), least)
        for number, run in enumerate(runs, 1):
            self.assertNotEqual(run.status, 0, f"request {number}")
            self.assertIn(b"Memory", run.output + run.message, f"request {number}")

    def test_a_flash_map(self):
        self.accepts("rows::memory::a_table_or_want_of_memory", 16)
        self.reports("rows::descriptors::the_table_of_sections_in_sections", 33)

    def test_a_compiled_text(self):
        self.accepts("rows::memory::a_compiled_text_or_want_of_memory", 17)

    def test_a_command_line(self):
        self.accepts("rows::memory::a_line_or_want_of_memory", 55)
        self.reports("rows::line::a_verbose_listing_of_the_usual_region", 55)


if __name__ == "__main__":
    unittest.main()
