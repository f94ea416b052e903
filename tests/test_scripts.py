"""Runs the gate and the builds in a small tree, with scripts that fail and an `rt` that fails.

A failure of a script, of a call of rt, or of what either prints must be one of the gate, of `prove`
or of make. No script or test may compare a text with itself, or ignore the result of a comparison.
"""

import os
import pathlib
import re
import shutil
import subprocess
import unittest

from tests.programs import TOP, Folder

# What a stand-in for rt does: `ci` has the last line of `rt ci`, `ci_status` its status, `fails_at`
# the number of the call of rt that fails, and `makes_nothing` lets it build no program.
RT = """#!/bin/sh
state=${0%/*}
if [ "$1" = ci ]; then
    echo "rt: ok"
    [ -e "$state/makes_nothing" ] || for program in cbfstool fmaptool cbfscheck; do
        mkdir -p crates/$program/out
        : > crates/$program/out/$program
        chmod 755 crates/$program/out/$program
    done
    cat "$state/ci"
    exit "$(cat "$state/ci_status")"
fi
case $PWD in
    */tree/crates/*) echo "$1 ${PWD##*/}" >> "$state/calls" ;;
    *) exit 1 ;;
esac
[ "$(wc -l < "$state/calls" | tr -d ' ')" != "$(cat "$state/fails_at")" ] || exit 1
[ ! -e "$state/makes_nothing" ] || exit 0
mkdir -p out/rlib
[ "$1" != run ] || { : > "out/${PWD##*/}" && chmod 755 "out/${PWD##*/}"; }
"""
# The scripts of the small tree. The first two run programs, the second one none under make's
# variables, and the third one runs no program.
SCRIPTS = {
    "bench/report": "echo report",
    "checks/one": '[ -x crates/cbfstool/out/cbfstool ] || exit 1\necho "one: 3 checks"',
    "checks/two": '[ "$1$MAKEFLAGS$MAKELEVEL" = --built ] || exit 1\n'
                  'echo "two: 4 checks, skipped: strace (2), flock (1)"',
    "checks/three": '[ "$#" = 0 ] || exit 1\necho text; echo "three: 5 checks"',
    "checks/counts": '[ "$#" = 1 ] && [ -s "$1" ] || exit 1\necho "counts: 1 checks"',
}
LIST = ("programs  one\nprograms  two\nsources   three\nby-hand   check: x\nby-hand   counts: x\n"
        "by-hand   gate: x\npart      list\n")
COPIED = ["Makefile", "prove", "crates.txt", "HANDLES", "VERSION", "CHANGELOG.md", ".ci/run",
          "checks/gate", "checks/check"]


class TreeTest(unittest.TestCase):
    """A test in a small tree, which has the gate of the repository and stand-ins for the rest."""

    def tree(self, status=0, ci="149 passed, 0 failed", **scripts):
        """Makes the tree. `status` and `ci` are those of `rt ci`, `scripts` replace stand-ins."""
        made = Folder({"rt/rt": RT, "rt/ci": f"{ci}\n" if ci else "", "rt/ci_status": f"{status}",
                       "rt/fails_at": "0", "rt/calls": "", "tree/checks/list": LIST})
        self.addCleanup(made.remove)
        self.top, self.rt = made.path / "tree", made.path / "rt"
        for name in COPIED:
            (self.top / name).parent.mkdir(parents=True, exist_ok=True)
            shutil.copy(TOP / name, self.top / name)
        for name in ("dist", "samples"):
            shutil.copytree(TOP / name, self.top / name)
        for line in (TOP / "crates.txt").read_text(encoding="utf-8").splitlines():
            (self.top / "crates" / line.split(":")[0]).mkdir(parents=True)
        changed = {f"checks/{name}": text for name, text in scripts.items()}
        for name, text in {**SCRIPTS, **changed}.items():
            made.put(f"tree/{name}", f"#!/bin/sh\n{text}\n")
            (self.top / name).chmod(0o755)
        (self.rt / "rt").chmod(0o755)
        return made

    def run_in_tree(self, *words):
        """Runs a command in the tree, and returns the status and what it prints."""
        environment = {name: value for name, value in os.environ.items()
                       if not name.startswith(("MAKE", "MFLAGS"))}
        environment.update(PATH=f"{self.rt}:{os.environ['PATH']}", TMPDIR=str(self.top.parent))
        done = subprocess.run(words, cwd=self.top, env=environment, stdin=subprocess.DEVNULL,
                              stdout=subprocess.PIPE, stderr=subprocess.PIPE, text=True)
        return done.returncode, done.stdout

    def gate(self, status, last, *texts):
        """Checks that the gate ends with 0 or another status, this last line, and these lines."""
        seen, output = self.run_in_tree(".ci/run")
        self.assertEqual((bool(seen), output.splitlines()[-1]), (bool(status), last), output)
        for text in texts:
            self.assertIn(text, output)


class Gate(TreeTest):
    """The gate fails if a part of it fails, and its last line has the sums of all parts."""

    def test_all_passes(self):
        self.tree()
        self.gate(0, "170 passed, 0 failed", "skipped by two: strace (2), flock (1)\n",
                  "\n149 passed, 0 failed\n", "\n21 passed, 0 failed\n")

    def test_a_failed_proof(self):
        """The programs were not built, so the scripts that run them are not run."""
        self.tree(status=1, ci="140 passed, 9 failed")
        self.gate(1, "154 passed, 9 failed", "not run: checks/one\n", "not run: checks/two\n")

    def test_a_sum_without_the_failure(self):
        self.tree(status=1)
        self.gate(1, "163 passed, 1 failed", "rt ci ends with status 1")

    def test_a_failure_without_the_status(self):
        self.tree(ci="148 passed, 1 failed")
        self.gate(1, "162 passed, 1 failed", "not run: checks/one\n")

    def test_no_sum(self):
        for status, ci in [(0, "149 passed"), (137, "")]:
            self.tree(status=status, ci=ci)
            self.gate(1, "14 passed, 1 failed", "the last line of rt ci is no sum",
                      "not run: checks/two\n")

    def test_no_program(self):
        self.tree()
        (self.rt / "makes_nothing").touch()
        self.gate(1, "167 passed, 1 failed",
                  "failed: checks/one --built (status 1)")

    def test_a_script_that_fails(self):
        """It fails at once or at its end, or prints no sum, that of another script, or of none."""
        for text in ["exit 1", 'echo "three: 5 checks"; exit 1', "exit 0", "echo three: 0 checks",
                     "echo two: 5 checks"]:
            with self.subTest(text):
                self.tree(three=text)
                self.gate(1, "165 passed, 1 failed", "failed: checks/three")

    def test_two_scripts_that_fail(self):
        made = self.tree(one="exit 1")
        made.put("tree/bench/report", "#!/bin/sh\nexit 1\n")
        self.gate(1, "166 passed, 2 failed", "failed: bench/report")

    def test_numbers_that_differ(self):
        for text in ['echo "counts: 1 checks"; exit 1', 'echo "counts: 0 checks"']:
            with self.subTest(text):
                self.tree(counts=text)
                self.gate(1, "169 passed, 1 failed", "failed: checks/counts")

    def test_a_script_that_is_not_listed(self):
        made = self.tree()
        made.put("tree/checks/list", LIST.replace("programs  two\n", ""))
        self.gate(1, "159 passed, 1 failed", "failed: checks/list: checks/list lacks two")


class Builds(TreeTest):
    """`prove` and make fail if a call of rt fails, or if there is no program afterwards."""

    COMMANDS = [["./prove", "cbfstool", "fmaptool", "cbfscheck"], ["make"], ["make", "fmaptool"]]

    def older(self):
        """Makes a tree in which older programs lie."""
        self.tree()
        for program in ("cbfstool", "fmaptool", "cbfscheck"):
            (self.top / "crates" / program / "out").mkdir()
            shutil.copy(self.rt / "rt", self.top / "crates" / program / "out" / program)

    def calls(self):
        return (self.rt / "calls").read_text().splitlines()

    def test_each_call_that_fails(self):
        """The first call, one in the middle, and each that builds a program."""
        for command in self.COMMANDS:
            self.older()
            status, output = self.run_in_tree(*command)
            self.assertEqual(status, 0, output)
            calls = self.calls()
            self.assertGreater(len(calls), 4, command)
            for number, call in enumerate(calls, 1):
                if number in (1, len(calls) // 2) or call.startswith("run"):
                    with self.subTest(command, call=call):
                        self.older()
                        (self.rt / "fails_at").write_text(f"{number}")
                        self.assertNotEqual(self.run_in_tree(*command)[0], 0)
                        self.assertGreaterEqual(len(self.calls()), number)

    def test_no_program(self):
        for command in self.COMMANDS:
            self.tree()
            (self.rt / "makes_nothing").touch()
            self.assertNotEqual(self.run_in_tree(*command)[0], 0, command)


class List(unittest.TestCase):
    """`checks/check --list` refuses each other list of the scripts."""

    def complaints(self, text, *more):
        """Returns the complaints about this list, if checks/ has further files."""
        folder = Folder()
        self.addCleanup(folder.remove)
        shutil.copytree(TOP / "checks", folder.path / "checks",
                        ignore=shutil.ignore_patterns("__pycache__"))
        folder.put("checks/list", text)
        for name in more:
            folder.put(f"checks/{name}", "")
        # (without tests, the numbers of checks differ, so that the status is 1 in any case)
        words = ["checks/check", "--list"]
        done = subprocess.run(words, cwd=folder.path, stdout=subprocess.PIPE, text=True)
        return re.findall("^failed: checks/list: (.*)$", done.stdout, re.MULTILINE)

    def test_each_change(self):
        text = (TOP / "checks" / "list").read_text(encoding="utf-8")
        self.assertEqual(self.complaints(text), [])
        self.assertEqual(self.complaints(text, "more"), ["checks/list lacks more"])
        for old, new in [
            ("programs  tests\n", ""), ("part      counts.tsv\n", ""),
            ("programs  tests\n", "programs  test\n"), ("programs  tests\n", "by-hand   tests\n"),
            ("programs  tests\n", "part      tests\n"),
            ("part      counts.tsv\n", "programs  counts.tsv\n"),
        ]:
            with self.subTest(old, new=new):
                self.assertIn(old, text)
                self.assertNotEqual(self.complaints(text.replace(old, new)), [])


SOURCE = """/// Returns the larger number.
pub fn larger(a: u32, b: u32) -> u32
    requires { 0 < a }
    ensures first { a \u2264 result }
    ensures second { b \u2264 result }
{
    a.max(b)
}

fn hidden() ensures { \u22a4 } {}
"""
DEFINITION = "-- The limit.\npub limit : \u2115\nlimit = 4\n"


class Contracts(unittest.TestCase):
    """checks/contracts reports each changed clause and definition, and no other change."""

    def complaints(self, source=SOURCE, definition=DEFINITION):
        """Returns the complaints about another source, after the list was written of SOURCE."""
        folder = Folder({"crates/a/src/lib.rt": SOURCE, "crates/a/specs/Limit.antt": DEFINITION})
        self.addCleanup(folder.remove)
        (folder.path / "checks").mkdir()
        for name in "contracts", "sources.py":
            shutil.copy(TOP / "checks" / name, folder.path / "checks" / name)
        for words in [["--write"], []]:
            done = subprocess.run(["checks/contracts", *words], cwd=folder.path,
                                  stdout=subprocess.PIPE, text=True)
            folder.put("crates/a/src/lib.rt", source)
            folder.put("crates/a/specs/Limit.antt", definition)
        found = re.findall("^contracts: crates/a/(.*)$", done.stdout, re.MULTILINE)
        self.assertEqual(done.returncode, int(bool(found)), done.stdout)
        return found

    def test_each_change(self):
        for old, new, complaint in [
            ("0 < a", "1 < a", "larger requires: changed"),
            ("    ensures second { b \u2264 result }\n", "", "larger ensures second: gone"),
            ("    ensures first", "    requires more { 0 < b }\n    ensures first",
             "larger requires more: new"),
            ("b: u32", "b: u64", "larger signature: changed"),
        ]:
            with self.subTest(complaint):
                found = self.complaints(source=SOURCE.replace(old, new))
                self.assertEqual(found, [f"src/lib.rt {complaint}"])
        found = self.complaints(definition=DEFINITION.replace("4", "5"))
        self.assertEqual(found, ["specs/Limit.antt limit definition: changed"])

    def test_other_changes(self):
        """A body, a comment and a private function are no part of a contract."""
        for old, new in [("a.max(b)", "b.max(a)"), ("larger number", "number"),
                         ("{ \u22a4 }", "{ \u22a5 }"), ("{ 0 < a }", "{ 0  <  a }")]:
            self.assertEqual(self.complaints(source=SOURCE.replace(old, new)), [])
        self.assertEqual(self.complaints(definition=DEFINITION.replace("The", "A")), [])


def text_of(clear, vague):
    """Returns a text of so many clear and vague words."""
    return " ".join(["sector"] * clear + ["it"] * vague)


class Prose(unittest.TestCase):
    """checks/prose reports each vague text and each long paragraph, and no other text."""

    def complaints(self, name, text):
        """Returns the complaints about a file of this name with this text."""
        folder = Folder({name: text})
        self.addCleanup(folder.remove)
        (folder.path / "checks").mkdir()
        shutil.copy(TOP / "checks" / "prose", folder.path / "checks" / "prose")
        done = subprocess.run(["checks/prose"], cwd=folder.path, stdout=subprocess.PIPE, text=True)
        found = re.findall("^prose: (.*)$", done.stdout, re.MULTILINE)
        if done.returncode == 0:
            self.assertEqual(found, ["1 checks"])
            return []
        return found

    def test_vague_words(self):
        for name, mark, place in [
            ("README.md", "", "README.md"), ("docs/FORMAT.md", "", "docs/FORMAT.md"),
            ("crates/a/README.md", "", "crates/a/README.md"),
            ("crates/a/src/b/lib.rt", "    /// ", "crates/a/src, comments"),
            ("crates/a/specs/Limit.antt", "-- ", "crates/a/specs, comments"),
        ]:
            with self.subTest(name):
                self.assertEqual(self.complaints(name, mark + text_of(93, 7)), [])
                [found] = self.complaints(name, mark + text_of(92, 8))
                self.assertTrue(found.startswith(f"{place}: 8.0 vague words in a hundred"), found)

    def test_short_texts(self):
        self.assertEqual(self.complaints("README.md", text_of(0, 59)), [])
        self.assertEqual(len(self.complaints("README.md", text_of(0, 60))), 1)

    def test_paragraphs(self):
        some, most, more = text_of(60, 0), text_of(100, 0), text_of(101, 0)
        for title, text, found in [
            ("a paragraph of the limit", most, []), ("a long paragraph", more, ["1: 101"]),
            ("the second paragraph", f"{most}\n\n{more}", ["3: 101"]),
            ("two paragraphs", f"{some}\n\n{some}", []),
            ("two lines", f"{some}\n{some}", ["1: 120"]),
            ("two items", f"- {some}\n- {some}", []), ("a long item", f"- {more}", ["1: 101"]),
            ("an item of two lines", f"- {some}\n  {some}", ["1: 120"]),
            ("two numbered items", f"1. {some}\n2. {some}", []),
            ("two cells", f"| {some} | {some} |", []),
            ("a long cell", f"| a |\n| {more} |", ["2: 101"]),
            ("a block of code", f"```\n{more}\n```", []), ("a link", f"[{some}]({more})", []),
        ]:
            with self.subTest(title):
                faults = self.complaints("README.md", text)
                self.assertEqual([fault.partition(" words")[0] for fault in faults],
                                 [f"README.md:{place}" for place in found])


# Texts that compare something with itself, or ignore the result of a comparison.
HELPERS = ("cmp|diff|has|missing|empty|runs|does|shows|refuses|reports|finds|differs|trips|waits|"
           "offers")
MEANINGLESS = [
    rf"(^|[^a-z_-])({HELPERS}) [^|]*\|\| *(true|:)( |$|;)",
    r'(^|[^a-z_])(cmp|diff) (-[a-z]+ )*("?[^ ")]+"?) \4([ ;)]|$)',
    r'(\[|test) "?(\$[^ "]+|\$\([^"]*\))"? (=|==|!=|-eq|-ne) "?\2"?( |$)',
    r"(^|[^a-z_.])([a-z_]+(\[[^]]*\]|\([a-z_]*\))?) (==|!=) \2([^a-z_.\[(]|$)",
    r"(assert[A-Za-z]+|compare)\(([^,()]+), \2[,)]",
]
REFUSED = [
    "cmp image.rom wanted.rom || true", "    shows areas image.rom layout || :",
    'refuses 1 "no FMAP" image.rom print || :', "cmp made.rom made.rom",
    'diff "$work/wanted" "$work/wanted" > "$work/differs" || fail "other words"',
    '[ "$found" = "$found" ] || fail "other options"', "assert found == found, (wanted, found)",
    '[ "$(tail -n 1 printed)" = "$(tail -n 1 printed)" ] || fail "other counts"',
    "        self.assertEqual(done.status, done.status)", "        self.assertIn(row, row, 'a')",
    "        if not DRAWING.is_file() or drawn != drawn:",
]
ACCEPTED = [
    "cmp image.rom wanted.rom", '[ "$found" = "$wanted" ] || fail', "assert wanted == found",
    'kill "$child" || :', "cp image.rom image.rom.old", "self.assertEqual(done.status, status)",
]


def meaningless(text):
    """Returns the lines of a text that compare nothing."""
    return [line for line in text.splitlines()
            if any(re.search(pattern, line) for pattern in MEANINGLESS)]


class Comparisons(unittest.TestCase):
    """Each comparison of a script or a test can fail."""

    def test_all_scripts_and_tests(self):
        # (these have such lines on purpose)
        own, mistakes = pathlib.Path(__file__).resolve(), TOP / "tests" / "mutant_lists"
        paths = [path for folder in ("checks", "tests") for path in (TOP / folder).rglob("*")
                 if path.is_file() and path.suffix not in (".pyc", ".tsv")
                 and path != own and path.parent != mistakes]
        self.assertGreater(len(paths), 80)
        found = {path.name: meaningless(path.read_text(encoding="utf-8")) for path in paths}
        self.assertEqual({name: lines for name, lines in found.items() if lines}, {})

    def test_the_patterns(self):
        for line in REFUSED:
            self.assertEqual(meaningless(line), [line])
        for line in ACCEPTED:
            self.assertEqual(meaningless(line), [])


if __name__ == "__main__":
    unittest.main()
