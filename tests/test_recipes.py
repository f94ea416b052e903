"""Runs the recipes of the manual pages on two boards that differ in what matters to a recipe.

On the board PLAIN the flash map is at the front and regions begin at round offsets. On the board
PARTS there are nested areas, no region begins at a multiple of 128, and the map follows them. What
a recipe makes is compared with literal values.
"""

import hashlib
import json
import os
import re
import shutil
import subprocess
import time
import unittest

from tests import image
from tests.pages import FLASHROM, page_text, recipes, section
from tests.programs import NAMES, TOP, ProgramTest, program

EXAMPLES = TOP / "dist" / "examples"
RECIPES = {title: text for page in ("cbfstool.1", "fmaptool.1", "cbfscheck.1")
           for title, text in recipes(page_text(page)).items()}
PLAIN = "FLASH@0xfffc0000 256K { FMAP 1K COREBOOT(CBFS) 128K EMPTY(CBFS) 4K CONFIG }\n"
PARTS = """# ends at 4 GiB
FLASH@0xfff00000 1M {
	SI_DESC 4K
	SI_ME 60K
	RW_SECTION_A@0x20040 { VBLOCK_A 2K FW_MAIN_A(CBFS) 256K RW_FWID_A 64 }
	RW_SECTION_B@0x80040 { VBLOCK_B 2K FW_MAIN_B ( CBFS ) 64K RW_FWID_B 64 }
	RO@0xa0040 { FMAP 2K GBB 2K COREBOOT(CBFS) 32K }
}
"""
# The boards of most recipes: descriptor, region, offset and size of the region.
BOARDS = {"plain": (PLAIN, "COREBOOT", 0x400, 128 << 10),
          "parts": (PARTS, "FW_MAIN_A", 0x20840, 256 << 10)}
BYTES = bytes(number * 31 % 251 for number in range(90000))
COMPONENTS = {
    b"config": BYTES[:700], b"boot order 2": BYTES[5:25], b"back\\slash": b"b", b"-dash": b"",
    b"07": b"seven", b"7": b"other", b"line\n": BYTES[90:120], "\u00e9".encode() * 63: BYTES[50:70],
}


class RecipeTest(ProgramTest):
    """A test that runs recipes, with the scripts of the examples and a stand-in for flashrom."""

    programs = NAMES

    def setUp(self):
        super().setUp()
        self.bin = self.folder({"flashrom": FLASHROM})
        (self.bin.path / "flashrom").chmod(0o755)
        for name in NAMES:
            (self.bin.path / name).symlink_to(program(name))
        places = [self.bin.path, EXAMPLES, os.environ["PATH"]]
        self.path = os.pathsep.join(map(str, places))

    def run_recipe(self, folder, *titles, then="", status=0, **variables):
        """Runs recipes one after the other, with variables, and checks the status."""
        text = "".join(RECIPES[title] for title in titles) + then
        environment = {"PATH": self.path, "LC_ALL": "C.UTF-8", "CHIP": "chip", **variables}
        run = folder.run(["bash", "-euo", "pipefail", "-c", text], environment=environment)
        self.compare(folder, run, "status", status, run.status)
        return run

    def board(self, name, components=COMPONENTS):
        """Returns a folder with the board's image, in which the region has these components."""
        descriptor, region, _, _ = BOARDS[name]
        folder = self.folder({"board.fmd": descriptor})
        self.assertEqual(folder.run("fmaptool board.fmd board.fmap").status, 0)
        command = f"cbfstool image.rom create -M board.fmap -r {region}"
        self.assertEqual(folder.run(command).status, 0)
        data = bytearray((folder.path / "image.rom").read_bytes())
        _, _, start, size = BOARDS[name]
        # (the listing shows the type of one component as two words)
        cells = [image.Component(title, content, image.CBFS_HEADER if title == b"-dash" else
                                 image.RAW) for title, content in components.items()]
        free = image.FreeEntry(size - len(image.join(*cells)), keeps=b"\xff" * 4)
        data[start : start + size] = image.join(*cells, free)
        folder.put("image.rom", bytes(data))
        return folder


class Titles(unittest.TestCase):
    def test_each_recipe_is_run(self):
        """A recipe without a test is noticed here, and the name of a missing one in its test."""
        text = (TOP / "tests" / "test_recipes.py").read_text(encoding="utf-8")
        for title in RECIPES:
            with self.subTest(title):
                self.assertIn(f'= "{title}"\n', text)
        self.assertEqual(len(RECIPES), 11)


class Names(RecipeTest):
    """The recipes of cbfstool(1) about names and listings."""

    NAME = "The name of a component that is shown"
    TABLE = "A readable table"

    def test_each_name(self):
        """The name that is found for a shown name is that of the component."""
        then = 'printf %s "$name" > found\n'
        then += 'cbfstool image.rom extract -r "$region" -n="$name" -f content\n'
        for board, (_, region, _, _) in BOARDS.items():
            folder = self.board(board)
            rows = folder.run(f"cbfstool image.rom print -r {region}").output.decode()
            shown = [row.split("\t")[0] for row in rows.splitlines()]
            self.assertEqual(len(shown), len(COMPONENTS) + 1)
            for (name, content), text in zip(COMPONENTS.items(), shown):
                with self.subTest(board, shown=text):
                    run = self.run_recipe(folder, self.NAME, then=then, shown=text, region=region)
                    self.assertEqual((run.after["found"], run.after["content"]), (name, content))

    @unittest.skipUnless(shutil.which("column"), "column is not installed")
    def test_a_table(self):
        for board, (_, region, _, _) in BOARDS.items():
            folder = self.board(board)
            rows = folder.run(f"cbfstool image.rom print -r {region}").output.decode()
            run = self.run_recipe(folder, self.TABLE, image="image.rom", region=region)
            with self.subTest(board):
                fields = [row.split("\t") for row in rows.splitlines()]
                widths = [max(map(len, column)) for column in zip(*fields)]
                wanted = ["  ".join(map(str.ljust, row, widths)).rstrip() for row in fields]
                self.assertEqual(run.output.decode().splitlines(), wanted)
                self.assertIn("cbfs header", rows)


class Makefile(RecipeTest):
    """The makefile makes all or nothing: after a refusal, and after a kill in each rule."""

    MAKEFILE = "A makefile"

    def setUp(self):
        super().setUp()
        if not shutil.which("make"):
            self.skipTest("make is not installed")
        self.environment = {"PATH": self.path, "LC_ALL": "C.UTF-8"}
        for name in ("MAKEFLAGS", "MFLAGS", "MAKELEVEL"):
            self.environment[name] = ""

    def made(self, board, **files):
        """Returns a folder with the makefile and the files of a board."""
        descriptor = BOARDS[board][0]
        return self.folder({"Makefile": RECIPES[self.MAKEFILE], "board.fmd": descriptor,
                            "cmdline": f"console=ttyS0 {board}", "logo.bmp": BYTES[:5000], **files})

    def make(self, folder, *words, status=0):
        run = folder.run(["make", "-s", *words], environment=self.environment)
        self.compare(folder, run, "status", status, run.status)
        return run

    def test_all(self):
        for board in BOARDS:
            folder = self.made(board)
            after = self.make(folder, "-j4").after
            with self.subTest(board):
                self.assertEqual(after["cmdline.txt"], after["cmdline"])
                self.assertIn(BYTES[:5000], after["coreboot.rom"])
                self.assertFalse([name for name in after if name.endswith(".new")])
                self.make(folder, "-q")

    def test_a_kill(self):
        """Neither an incomplete image nor an incomplete text counts as made."""
        folder = self.made("plain")
        made = self.make(folder, "-j4").after
        for target, line in [("coreboot.rom", "create"), ("coreboot.rom", "cmdline"),
                             ("cmdline.txt", "cmdline")]:
            with self.subTest(target, line=line):
                for name in ("coreboot.rom", "cmdline.txt"):
                    (folder.path / name).unlink(missing_ok=True)
                if target == "cmdline.txt":
                    self.make(folder, "coreboot.rom")
                rules, killed = RECIPES[self.MAKEFILE].split(f"\n{target}: "), 0
                self.assertEqual(len(rules), 2)
                rule, blank, rest = rules[1].partition("\n\n")
                commands = []
                for command in rule.splitlines():
                    commands.append(command)
                    if command.startswith("\tcbfstool") and line in command:
                        commands.append("\tkill -9 $$PPID")
                        killed += 1
                self.assertEqual(killed, 1)
                changed = "\n".join(commands) + blank + rest
                folder.put("Killed", f"{rules[0]}\n{target}: {changed}")
                words = ["sh", "-c", "make -s -j4 -f Killed; exit $?"]
                run = folder.run(words, environment=self.environment)
                self.assertNotEqual(run.status, 0)
                self.make(folder, "-q", status=1)
                after = self.make(folder, "-j4").after
                for name in ("coreboot.rom", "cmdline.txt"):
                    self.assertEqual(after[name], made[name])

    def test_a_refusal(self):
        """The previous image stays, and is not up to date; without one, none is left."""
        folder = self.made("plain")
        made = self.make(folder, "-j4").after
        time.sleep(0.02)
        folder.put("logo.bmp", bytes(400000))
        run = self.make(folder, "-j4", status=2)
        self.assertIn(b"cbfstool: no space\n", run.message)
        self.assertEqual(run.after["coreboot.rom"], made["coreboot.rom"])
        self.make(folder, "-q", status=1)
        (folder.path / "coreboot.rom").unlink()
        self.assertNotIn("coreboot.rom", self.make(folder, "-j4", status=2).after)
        folder.put("logo.bmp", BYTES[:5000])
        self.assertEqual(self.make(folder, "-j4").after["coreboot.rom"], made["coreboot.rom"])

    def test_a_refused_descriptor(self):
        folder = self.made("plain", **{"board.fmd": "F 1K { FMAP 1KB }"})
        self.assertNotIn("board.fmap", self.make(folder, status=2).after)

    def test_a_refused_extraction(self):
        folder = self.made("parts")
        text = RECIPES[self.MAKEFILE].replace("add -n etc", "add -n other")
        folder.put("Makefile", text)
        after = self.make(folder, status=2).after
        self.assertIn("coreboot.rom", after)
        self.assertNotIn("cmdline.txt", after)


# Descriptors with each kind of text that the compiler skips, with the names of their sections.
SECTIONS = [
    ("A0(CBFS\n PRESERVE)@1{B1 2K C_2{D.3(PRESERVE)4 #E {\n}F{ }}}# G\n", "A0 B1 C_2 D.3 F"),
    (PLAIN, "FLASH FMAP COREBOOT EMPTY CONFIG"),
    (PARTS, "FLASH SI_DESC SI_ME RW_SECTION_A VBLOCK_A FW_MAIN_A RW_FWID_A RW_SECTION_B VBLOCK_B "
            "FW_MAIN_B RW_FWID_B RO FMAP GBB COREBOOT"),
    ((TOP / "samples" / "board.fmd").read_text(encoding="utf-8"),
     "FLASH SI_ALL SI_DESC SI_ME SI_BIOS RW_MRC_CACHE RW_SECTION_A VBLOCK_A FW_MAIN_A RW_FWID_A RO "
     "FMAP GBB COREBOOT"),
]
# Refused descriptors, with the section or the line of the refusal.
REFUSED = [
    ("F 64K { FMAP 1K A 1K A 1K }", "duplicate name of section 3", "A"),
    ("F 64K {\n# A 1\nA 1K(PRESERVE)\n}", "expected section or } at 18", "3"),
    ("F{ FMAP}", "ambiguous size of section 0", "F"),
    ("F 64K { FMAP 1K\nA@8K 1K B@1K 1K }", "overlap at section 3", "B"),
    ("F 64K { FMAP 1K A2 0 }", "empty section 2", "A2"),
    ("# {}\n\nFLASH 128K {\n\tA9 1K\nFMAP 0xG", "bad number at 31", "5"),
]


class Descriptors(RecipeTest):
    """The recipes of fmaptool(1) find what a refusal numbers."""

    SECTION = "The name of section n"
    LINE = "The line of a place"

    def test_each_section(self):
        for text, names in SECTIONS:
            folder = self.folder({"board.fmd": text})
            for number, name in enumerate([*names.split(), ""]):
                with self.subTest(names, section=number):
                    run = self.run_recipe(folder, self.SECTION, input="board.fmd", n=str(number))
                    self.assertEqual(run.output.decode().rstrip("\n"), name)

    def test_each_refusal(self):
        for text, cause, found in REFUSED:
            with self.subTest(cause):
                folder = self.folder({"board.fmd": text})
                run = folder.run("fmaptool board.fmd board.fmap")
                self.assertEqual(run.message.decode(), f"fmaptool: {cause}\n")
                number = cause.split()[-1]
                title = self.SECTION if "section " in cause.replace("section or", "") else self.LINE
                run = self.run_recipe(folder, title, input="board.fmd", n=number, place=number)
                self.assertEqual(run.output.decode(), f"{found}\n")


def checked_board(behind, *cells):
    """Returns an image with COREBOOT and CONFIG, in which the flash map may follow the region."""
    areas = [image.Area("FMAP", 0, 0x400), image.Area("COREBOOT", 0x400, 0x8000)]
    areas.append(image.Area("CONFIG", 0x8400, 0x400))
    if behind:
        areas = [image.Area("COREBOOT", 0x1C0, 0x8000), image.Area("FMAP", 0x81C0, 0x400)]
        areas.append(image.Area("CONFIG", 0x85C0, 0x400))
    made = image.Image(0x10000, areas)
    made.put("COREBOOT", image.join(
        *cells, image.FreeEntry(0x8000 - len(image.join(*cells)), keeps=b"\xff" * 4)))
    return made.data()


class Checks(RecipeTest):
    """The recipes of cbfscheck(1) on a good image, a newer one, and one with a damaged content."""

    JOB = "A CI job"
    CHANGES = "What changed between two releases"
    WITHOUT = "Components without a digest"
    FLASH = "Flash an image"
    BILL = "A software bill of materials"

    def setUp(self):
        super().setUp()
        digest = image.hash_attribute(image.SHA256, BYTES[:700])
        config = image.Component(b"config", BYTES[:700], attributes=[digest])
        wrong = image.Component(b"config", b"X" + BYTES[1:700], attributes=[digest])
        note = image.Component(b"note", BYTES[:700])
        self.files = []
        for behind in (False, True):
            old, new = checked_board(behind, config), checked_board(behind, config, note)
            files = {"old.rom": old, "new.rom": new, "broken.rom": checked_board(behind, wrong),
                     "lost.rom": new.replace(b"LARCHIVE", b"xARCHIVE"), "chip": old}
            self.files.append((behind, files))

    def changes(self, behind, verdict):
        """Returns the rows of the newer image."""
        start = "0x1c0" if behind else "0x400"
        return (f"change\t-\t-\t-\terase blocks differ\t1\n"
                f"{verdict}\tCOREBOOT\t-\t{start}\terase blocks differ\t1\n"
                f"{verdict}\tCOREBOOT\tnote\t0x340\tcomponent added\n")

    def test_a_job(self):
        for behind, files in self.files:
            for name, status, message in [
                ("old.rom", 0, ""),
                ("broken.rom", 1, "bad\tCOREBOOT\tconfig\t0x0\tsha256 invalid\n"),
                ("absent.rom", 2, "cbfscheck: absent.rom: No such file or directory\n"),
                ("unneeded.rom", 1, "bad\tCOREBOOT\tother\t-\tneeded component isn't there\n"),
            ]:
                with self.subTest(name, behind=behind):
                    needed = "COREBOOT:other" if name == "unneeded.rom" else "COREBOOT:config"
                    run = self.run_recipe(self.folder({**files, "unneeded.rom": files["new.rom"]}),
                                          self.JOB, status=status, image=name, needed=needed)
                    self.assertEqual(run.message.decode(), message)
                    if status == 0:
                        self.assertIn(b"\nsound: 0 bad, 6 remarks, 0 changes\n",
                                      run.after["report.txt"])

    def test_changes(self):
        for behind, files in self.files:
            for kept, status, verdict in [("CONFIG", 0, "change"), ("COREBOOT", 1, "bad")]:
                with self.subTest(kept, behind=behind):
                    run = self.run_recipe(self.folder(files), self.CHANGES, status=status,
                                          image="new.rom", old="old.rom", kept=kept)
                    self.assertEqual(run.output.decode(), self.changes(behind, verdict))
            run = self.run_recipe(self.folder(files), self.CHANGES, status=2, image="absent.rom",
                                  old="old.rom", kept="CONFIG")
            self.assertEqual(run.message, b"cbfscheck: absent.rom: No such file or directory\n")

    def test_components_without_a_digest(self):
        for behind, files in self.files:
            with self.subTest(behind=behind):
                run = self.run_recipe(self.folder(files), self.WITHOUT, image="new.rom")
                self.assertEqual(run.output, b"COREBOOT: note\n")

    @unittest.skipUnless(shutil.which("jq"), "jq is not installed")
    def test_a_bill(self):
        """The content of both components is that of the file, at different offsets."""
        for behind, files in self.files:
            for name, status, count in [
                ("new.rom", 0, 2), ("broken.rom", 1, 1), ("lost.rom", 2, 0),
            ]:
                with self.subTest(name, behind=behind):
                    run = self.run_recipe(self.folder(files), self.BILL, status=status, image=name)
                    bill = json.loads(run.after["sbom.json"] or '{"components": []}')
                    found = [(one["bom-ref"], one["hashes"][0]["content"])
                             for one in bill["components"]]
                    content = (b"X" if name == "broken.rom" else BYTES[:1]) + BYTES[1:700]
                    digest = hashlib.sha256(content).hexdigest()
                    self.assertEqual(found, [("COREBOOT/config@0x0", digest),
                                             ("COREBOOT/note@0x340", digest)][:count])

    def flash(self, behind, files, name, status, kept="CONFIG", **more):
        """Runs the recipe that flashes an image, and returns the run."""
        folder = self.folder({**files, **more})
        run = self.run_recipe(folder, self.FLASH, status=status, image=name, kept=kept,
                              needed="COREBOOT:config")
        self.assertEqual(run.after["chip"], files["new.rom"] if status == 0 else files["old.rom"])
        return run

    def test_a_good_image_is_flashed(self):
        for behind, files in self.files:
            with self.subTest(behind=behind):
                self.flash(behind, files, "new.rom", 0)

    def test_a_kept_area_that_changes_is_not_flashed(self):
        for behind, files in self.files:
            with self.subTest(behind=behind):
                run = self.flash(behind, files, "new.rom", 1, kept="COREBOOT")
                self.assertEqual(run.message, b"new.rom is not written: see report.txt\n")
                self.assertEqual(run.output.decode(), self.changes(behind, "bad"))

    def test_a_backup_is_not_overwritten(self):
        for behind, files in self.files:
            run = self.flash(behind, files, "new.rom", 2, **{"chip.rom": b"backup"})
            self.assertEqual(run.message, b"chip.rom exists: move it away first\n")
            self.assertEqual(run.after["chip.rom"], b"backup")

    def test_a_bad_image_is_not_flashed(self):
        for behind, files in self.files:
            self.flash(behind, files, "lost.rom", 1)
            self.assertNotIn("chip.rom", self.flash(behind, files, "absent.rom", 2).after)


class Preserved(RecipeTest):
    """The steps before an image is flashed copy the preserved areas of the chip."""

    BEFORE = "Before an image is flashed"
    BOARDS = ["F 64K { FMAP 1K A(PRESERVE) 256 COREBOOT(CBFS) 32K B 512 C(PRESERVE) 64 }",
              "F 64K { C(PRESERVE) 64 B 512 FMAP 1K COREBOOT(CBFS) 32K A(CBFS PRESERVE) 256 }"]

    def image(self, descriptor, areas=()):
        """Returns a new image of a descriptor, with contents of areas."""
        folder = self.folder({"board.fmd": descriptor, **dict(areas)})
        commands = ["fmaptool board.fmd board.fmap", "cbfstool image.rom create -M board.fmap"]
        commands += [f"cbfstool image.rom write -r {name} -f {name}" for name in dict(areas)]
        for command in commands:
            self.assertEqual(folder.run(command).status, 0, command)
        return (folder.path / "image.rom").read_bytes()

    def test_the_areas_are_copied(self):
        contents = {"A": BYTES[:256], "B": BYTES[:512], "C": BYTES[:64]}
        for board in self.BOARDS:
            with self.subTest(board):
                chip = self.image(board, contents.items())
                folder = self.folder({"new.rom": self.image(board), "chip": chip})
                run = self.run_recipe(folder, self.BEFORE, image="new.rom")
                kept = {name: contents[name] for name in "AC"}
                self.assertEqual(run.after["new.rom"], self.image(board, kept.items()))
                self.assertEqual(run.after["backup.rom"], chip)
                names = [row for row in run.output.decode().splitlines() if "\t" not in row]
                self.assertEqual(sorted(names[:2]), ["A", "C"])

    def test_an_image_without_the_area_stays(self):
        for board in self.BOARDS:
            for old, new in [(" 64 ", " 128 "), ("C(PRESERVE)", "D(PRESERVE)")]:
                with self.subTest(board, new=new):
                    other = self.image(board.replace(old, new))
                    folder = self.folder({"other.rom": other, "chip": self.image(board)})
                    run = self.run_recipe(folder, self.BEFORE, status=1, image="other.rom")
                    self.assertEqual(run.message, b"other.rom has no area C of 64 bytes\n")
                    self.assertEqual(run.after["other.rom"], other)


class Scripts(unittest.TestCase):
    """The pages list all scripts of the examples, with the usage that they print."""

    def listed(self):
        """Returns the lines with the scripts that cbfstool(1) lists, as they are printed."""
        lines = []
        for row in re.findall(r"^\.It Ic (.*)$", section(page_text("cbfstool.1"), "RECIPES"), re.M):
            optional = "Op" in row.split()
            words = [word for word in row.replace("\\-", "-").split() if word not in ("Ar", "Ic")]
            text = " ".join(words).replace("Fl ", "-")
            lines.append(re.sub(r" Op (.*)$", r" [\1]", text) if optional else text)
        return lines

    def test_the_usages(self):
        """Without arguments a script prints its usage, with status 2."""
        listed = {line.split()[0]: line for line in self.listed()}
        self.assertGreater(len(listed), 11)
        shown = {}
        for path in sorted(EXAMPLES.iterdir()):
            done = subprocess.run([path], stdout=subprocess.PIPE, stderr=subprocess.PIPE, text=True)
            with self.subTest(path.name):
                self.assertEqual((done.returncode, done.stdout), (2, ""))
                self.assertRegex(done.stderr, f"^usage: {path.name} [A-Z]")
            shown[path.name] = re.sub(r" \(.*", "", done.stderr.splitlines()[0]).removeprefix(
                "usage: ")
        self.assertEqual({name: shown[name] for name in listed}, listed)
        called = " ".join(RECIPES.values())
        for name in shown:
            self.assertTrue(name in listed or name in called, f"no page names {name}")


if __name__ == "__main__":
    unittest.main()
