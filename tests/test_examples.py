"""Runs the scripts of dist/examples where a user's image, names or timing differ from the usual.

tests/test_recipes.py runs the scripts as the manual pages call them, and
tests/test_example_boards.py runs them on several regions. The cases here are those in which a
script could lose or damage data, or refuse a name that the format allows.
"""

import os
import shutil
import stat
import subprocess
import unittest

from tests import image
from tests.programs import TOP, ProgramTest, difference, program

EXAMPLES = TOP / "dist" / "examples"
# Changes a byte of the image at an offset, without its lock.
PATCH = "printf X | dd of=image.rom bs=1 seek={} conv=notrunc status=none"
HOSTILE = "-e $(touch ran) `touch ran` 'a\" ;*?[b]\\x\t~"


def board(
    components=(("config", b"old"),), areas=(), name="COREBOOT", size=0x2000, start=0x400, **fields
):
    """Returns an image with a CBFS in one area. `areas` are further names, contents and flags."""
    cells = [image.Component(title.encode(), content) for title, content in components]
    used = sum(len(cell.bytes) for cell in cells)
    table = [image.Area("FMAP", 0, start), image.Area(name, start, size)]
    at = start + size
    for title, content, flags in areas:
        table.append(image.Area(title, at, len(content), flags))
        at += len(content)
    made = image.Image(at, table, **fields)
    made.put(name, image.join(*cells, image.FreeEntry(size - used, keeps=b"\xff" * 4)))
    for title, content, _ in areas:
        made.put(title, content)
    return made.data()


class ExampleTest(ProgramTest):
    """A test that runs scripts with the programs first on PATH."""

    def setUp(self):
        super().setUp()
        self.bin = self.folder()
        for name in ("cbfstool", "fmaptool", "cbfscheck"):
            (self.bin.path / name).symlink_to(program(name))

    def environment(self, **variables):
        """Returns the environment of a script."""
        return {"PATH": f"{self.bin.path}:{os.environ['PATH']}", "LC_ALL": "C.UTF-8", **variables}

    def stand_in(self, name, text):
        """Writes a script that stands in for a program, whose path is in the variable REAL."""
        path = self.bin.path / name
        real = program(name) if name.startswith("cbfs") else shutil.which(name)
        path.unlink(missing_ok=True)
        path.write_text(f"#!/bin/bash\nREAL='{real}'\n{text}\n")
        path.chmod(0o755)

    def acts_before(self, command, action):
        """Makes a script act before cbfstool runs this command."""
        text = f'[ "$2" != {command} ] || {{ {action}; }}\nexec "$REAL" "$@"'
        self.stand_in("cbfstool", text)

    def example(self, folder, name, *words, status=0, **variables):
        """Runs a script, and checks its status. Returns the run."""
        run = folder.run([EXAMPLES / name, *words], environment=self.environment(**variables))
        self.compare(folder, run, "status", status, run.status)
        return run

    def start(self, folder, name, *words):
        """Starts a script."""
        return subprocess.Popen(
            [EXAMPLES / name, *words], cwd=folder.path, stdout=subprocess.DEVNULL,
            stderr=subprocess.PIPE, env={**os.environ, **self.environment()},
        )

    def content(self, folder, path, name, region="COREBOOT"):
        """Returns the content of a component, as cbfstool extracts it."""
        words = ["extract", f"-r={region}", f"-n={name}", "-f", folder.path / "found"]
        subprocess.run([program("cbfstool"), folder.path / path, *words], check=True)
        found = (folder.path / "found").read_bytes()
        (folder.path / "found").unlink()
        return found

    def leaves(self, run, files, about=""):
        """Checks the contents of all files after a run."""
        self.assertEqual(sorted(run.after), sorted(files), about)
        for name, content in files.items():
            if run.after[name] != content:
                shown = difference(content, run.after[name])
                self.fail(f"{about or run.command}: {name} differs\n{shown}")

    def has_files(self, folder, *names):
        """Checks which files the folder has."""
        self.assertEqual(sorted(os.listdir(folder.path)), sorted(names))


class ReplaceComponent(ExampleTest):
    """replace-component writes the new image onto the old one, or leaves it as it was."""

    def replace(
        self, folder, path="image.rom", name="config", source="new", options=("--plain",), **run
    ):
        words = [path, "COREBOOT", name, source, "raw", *options]
        return self.example(folder, "replace-component", *words, **run)

    def files(self, **more):
        return self.folder({"image.rom": board(), "new": b"new content", **more})

    def test_a_symbolic_link_stays_a_link_to_the_changed_image(self):
        folder = self.files()
        (folder.path / "store").mkdir()
        (folder.path / "image.rom").rename(folder.path / "store/real.rom")
        (folder.path / "image.rom").symlink_to("store/real.rom")
        (folder.path / "again.rom").symlink_to("image.rom")
        self.replace(folder, "again.rom")
        self.assertEqual(os.readlink(folder.path / "again.rom"), "image.rom")
        self.assertEqual(os.readlink(folder.path / "image.rom"), "store/real.rom")
        self.assertEqual(self.content(folder, "store/real.rom", "config"), b"new content")
        self.assertEqual(os.listdir(folder.path / "store"), ["real.rom"])

    def test_mode_and_hard_links_stay(self):
        folder = self.files()
        path = folder.path / "image.rom"
        os.link(path, folder.path / "other.rom")
        path.chmod(0o640)
        before = path.stat()
        self.replace(folder)
        after = path.stat()
        self.assertEqual(stat.S_IMODE(after.st_mode), 0o640)
        self.assertEqual(
            (after.st_ino, after.st_nlink, after.st_uid, after.st_gid),
            (before.st_ino, 2, before.st_uid, before.st_gid),
        )
        self.assertEqual(self.content(folder, "other.rom", "config"), b"new content")

    def test_a_file_beside_the_image_stays(self):
        """Neither a file with a usual name of a copy changes, nor the target of such a link."""
        folder = self.files(**{"image.rom.bak": "kept", "target": "kept"})
        (folder.path / "image.rom.new").symlink_to("target")
        self.replace(folder)
        self.replace(folder, name="absent", status=1)
        self.has_files(folder, "image.rom", "image.rom.bak", "image.rom.new", "new", "target")
        self.assertEqual((folder.path / "target").read_bytes(), b"kept")
        self.assertEqual((folder.path / "image.rom.bak").read_bytes(), b"kept")

    def test_a_refusal_leaves_the_image_and_no_copy(self):
        folder = self.files(large=bytes(0x3000))
        before = folder.files()
        for run in [
            self.replace(folder, name="absent", status=1),
            self.replace(folder, source="large", status=1),
            self.replace(folder, source="absent", status=1),
            self.replace(folder, options=["-A", "md5"], status=2),
            self.replace(folder, source="large", options=["--end"], status=1),
        ]:
            self.leaves(run, before, run.message)

    def test_a_missing_image(self):
        folder = self.folder({"new": b"new"})
        run = self.replace(folder, "absent.rom", status=1)
        self.assertEqual(run.message, b"absent.rom: no file that can be written\n")
        self.has_files(folder, "new")

    def test_two_replacements_at_once_lose_none(self):
        """Each command waits, so that the second replacement begins before the first one ends."""
        for _ in range(3):
            folder = self.folder(
                {"image.rom": board([("a", b"1"), ("b", b"2")]), "new a": b"A", "new b": b"B"}
            )
            self.stand_in("cbfstool", 'sleep 0.3\nexec "$REAL" "$@"')
            words = ["replace-component", "image.rom", "COREBOOT"]
            children = [
                self.start(folder, *words, name, f"new {name}", "raw", "--plain") for name in "ab"
            ]
            for child in children:
                self.assertEqual((child.wait(60), child.stderr.read()), (0, b""))
                child.stderr.close()
            self.bin.path.joinpath("cbfstool").unlink()
            (self.bin.path / "cbfstool").symlink_to(program("cbfstool"))
            self.assertEqual(
                [self.content(folder, "image.rom", name) for name in "ab"], [b"A", b"B"]
            )

    def test_a_command_waits_for_the_replacement(self):
        """cbfstool adds a component while the script works, and both changes stay."""
        folder = self.files()
        adding = f"'{program('cbfstool')}' image.rom add -n late -t raw -f new"
        self.acts_before("remove", f"({adding}; touch added) > /dev/null 2>&1 9>&- & sleep 0.5")
        self.replace(folder)
        subprocess.run(
            ["timeout", "20", "sh", "-c", "until [ -e added ]; do sleep 0.05; done"],
            cwd=folder.path,
            check=True,
        )
        self.assertEqual(self.content(folder, "image.rom", "late"), b"new content")
        self.assertEqual(self.content(folder, "image.rom", "config"), b"new content")

    def test_a_change_without_the_lock_is_not_overwritten(self):
        folder = self.files()
        self.acts_before("remove", PATCH.format(9000))
        run = self.replace(folder, status=1)
        self.assertEqual(
            run.message, b"image.rom was changed meanwhile by a program that ignores its lock\n"
        )
        wanted = bytearray(board())
        wanted[9000] = ord("X")
        self.leaves(run, {"image.rom": bytes(wanted), "new": b"new content"})

    def test_a_replaced_image_is_not_lost(self):
        """A program moves another file onto the image, even one with the same bytes."""
        for other in [board(), board([("other", b"1")])]:
            folder = self.files(other=other)
            self.acts_before("remove", "mv other image.rom")
            run = self.replace(folder, status=1)
            self.leaves(run, {"image.rom": other, "new": b"new content"})

    def test_a_signal_before_the_last_step_leaves_the_image(self):
        folder = self.files()
        before = folder.files()
        for command in ["remove", "add"]:
            self.stand_in(
                "cbfstool", f'[ "$2" != {command} ] || kill -TERM $PPID $$\nexec "$REAL" "$@"'
            )
            run = self.replace(folder, status=143)
            self.leaves(run, before)

    def test_a_signal_in_the_last_step_does_not_stop_it(self):
        for name in ["TERM", "INT", "HUP"]:
            folder = self.files()
            self.stand_in("dd", f'kill -{name} $PPID $$\nsleep 0.1\nexec "$REAL" "$@"')
            self.replace(folder)
            self.assertEqual(self.content(folder, "image.rom", "config"), b"new content")
            self.has_files(folder, "image.rom", "new")

    def test_a_kill_in_the_last_step_leaves_the_complete_copy(self):
        folder = self.files()
        self.stand_in("dd", '"$REAL" "$@" count=1 bs=512\nkill -9 $PPID')
        self.replace(folder, status=-9)
        copies = [name for name in os.listdir(folder.path) if name.startswith("image.rom.")]
        self.assertEqual(len(copies), 1)
        self.assertEqual(self.content(folder, copies[0], "config"), b"new content")
        old, new = board(), (folder.path / copies[0]).read_bytes()
        self.assertTrue((folder.path / "image.rom").read_bytes() == new[:512] + old[512:])

    def test_a_failed_write_says_where_the_new_image_is(self):
        folder = self.files()
        self.stand_in("dd", "exit 1")
        run = self.replace(folder, status=1)
        copies = [name for name in os.listdir(folder.path) if name.startswith("image.rom.")]
        self.assertEqual(
            run.message.decode(),
            f"image.rom is incomplete: the new image is in {folder.path / copies[0]}\n",
        )
        self.assertEqual(self.content(folder, copies[0], "config"), b"new content")

    def test_names_of_any_bytes(self):
        name, path = HOSTILE, f"{HOSTILE}\n"
        folder = self.folder({path: board([(name, b"old")]), HOSTILE: b"new content"})
        for options in [["--plain"], ["--end", "-A", "sha256"]]:
            self.replace(folder, path, name, HOSTILE, options)
            self.assertEqual(self.content(folder, path, name), b"new content")
            self.has_files(folder, path, HOSTILE)


class CopyPreserved(ExampleTest):
    """copy-preserved copies all areas with the flag PRESERVE in one image, or changes nothing."""

    def copy(self, old_areas, new_areas, **run):
        """Runs the script on two images with these areas, and returns its run."""
        folder = self.folder({"old.rom": board(areas=old_areas), "new.rom": board(areas=new_areas)})
        return self.example(folder, "copy-preserved", "old.rom", "new.rom", **run)

    def test_an_area_with_another_flag_too(self):
        """The flags are a sum: static 1, compressed 2, read-only 4, preserved 8."""
        flags = list(range(16))
        contents = [(f"A{flag}", bytes([flag + 1]) * 64) for flag in flags]
        for in_old, in_new in [(flags, flags), (flags, [0] * 16), ([0] * 16, flags)]:
            old = [(*area, flag) for area, flag in zip(contents, in_old)]
            new = [(name, bytes(64), flag) for (name, _), flag in zip(contents, in_new)]
            wanted = [(name, content if kept >= 8 else bytes(64), flag)
                      for (name, content), kept, flag in zip(contents, flags, in_new)]
            run = self.copy(old, new)
            self.leaves(run, {**run.after, "new.rom": board(areas=wanted)})
            names = [f"A{flag}" for flag in flags if flag >= 8]
            self.assertEqual(run.output.decode().split(), names)

    def test_an_area_that_only_the_new_image_preserves(self):
        """An area of another size has no content that could be copied, and the others are."""
        first = ("FIRST", b"1" * 64, 8)
        for old, new in [
            (("B", b"2" * 64, 0), ("C", b"3" * 64, 8)), (("B", b"2" * 64, 0), ("B", b"3" * 128, 8)),
            # (commands use the first area of a name)
            (("FIRST", b"2" * 64, 0), ("B", b"3" * 64, 8)),
        ]:
            folder = self.folder({
                "old.rom": self.named(first, old),
                "new.rom": self.named(("FIRST", b"3" * 64, 8), new),
            })
            run = self.example(folder, "copy-preserved", "old.rom", "new.rom")
            self.leaves(run, {**run.after, "new.rom": self.named(first, new)}, old)
            self.assertEqual(run.output, b"FIRST\n")

    def test_names_of_any_bytes(self):
        for name, shown in [
            ("two words", "two\\x20words"), (HOSTILE[:31], None), ("a\nb", "a\\x0ab"),
            ("]$(x)[", "]$(x)["), ("-n", "-n"), ("\u00e4", "\\xc3\\xa4"),
            ("a\\x41", "a\\x5cx41"), ("A" * 32, "A" * 32), ("", ""),
        ]:
            old = [("FIRST", b"1" * 64, 8), (name, b"2" * 128, 8)]
            run = self.copy(old, [("FIRST", b"3" * 64, 8), (name, b"4" * 128, 0)])
            self.leaves(
                run, {**run.after, "new.rom": board(areas=[old[0], (name, b"2" * 128, 0)])}, name
            )
            if shown is not None:
                self.assertEqual(run.output.decode(), f"FIRST\n{shown}\n")

    def test_a_refusal_changes_nothing(self):
        """The second area is refused, and the first one is not copied."""
        first = ("FIRST", b"1" * 64, 8)
        for old, new in [
            (("B", b"2" * 64, 8), ("C", b"3" * 64, 8)),
            (("B", b"2" * 64, 8), ("B", b"3" * 128, 8)),
            ((b"\xff", b"2" * 64, 8), (b"\xff", b"3" * 64, 8)),
            (("FIRST", b"2" * 64, 8), ("B", b"3" * 64, 8)),
        ]:
            folder = self.folder({
                "old.rom": self.named(first, old),
                "new.rom": self.named(("FIRST", b"3" * 64, 0), new),
            })
            run = self.example(folder, "copy-preserved", "old.rom", "new.rom", status=ANY)
            self.assertNotEqual(run.status, 0, old)
            self.leaves(run, run.before, old)
            self.assertEqual(run.output, b"")

    def named(self, *areas):
        """Returns an image with these areas, which may have the same name."""
        table = [image.Area("FMAP", 0, 0x400), image.Area("COREBOOT", 0x400, 0x400)]
        data = b""
        for name, content, flags in areas:
            table.append(image.Area(name, 0x800 + len(data), len(content), flags))
            data += content
        made = image.Image(0x800 + len(data), table)
        made.put("COREBOOT", image.empty_region(0x400))
        return made.put_at(0x800, data).data()

    def test_the_first_of_two_areas_decides(self):
        """Commands use the first area of a name, so its size counts."""
        folder = self.folder({
            "old.rom": board(areas=[("FIRST", b"1" * 64, 8), ("B", b"2" * 64, 8)]),
            "new.rom": self.named(
                ("FIRST", b"3" * 64, 0), ("B", b"4" * 128, 0), ("B", b"5" * 64, 0)
            ),
        })
        run = self.example(folder, "copy-preserved", "old.rom", "new.rom", status=1)
        self.leaves(run, run.before)

    def test_the_old_image_may_be_read_only(self):
        folder = self.folder({
            "old.rom": board(areas=[("A", b"1" * 64, 8)]),
            "new.rom": board(areas=[("A", b"2" * 64, 8)]),
        })
        (folder.path / "old.rom").chmod(0o444)
        self.check_not_written(folder, "old.rom")
        self.example(folder, "copy-preserved", "old.rom", "new.rom")
        self.assertTrue(
            (folder.path / "new.rom").read_bytes() == board(areas=[("A", b"1" * 64, 8)])
        )

    def check_not_written(self, folder, name):
        """Makes cbfstool refuse this image, as it does for a user without write permission."""
        text = (
            f'[ ! "$1" -ef "{folder.path / name}" ] && [ $(($(stat -c 0%a "$1") & 0200)) != 0 ] || '
            '{ echo "cbfstool: device fault" >&2; exit 1; }'
        )
        self.stand_in("cbfstool", f'{text}\nexec "$REAL" "$@"')


class FlashChecked(ExampleTest):
    """flash-checked writes the bytes that it has checked, and no others."""

    def setUp(self):
        super().setUp()
        self.stand_in(
            "flashrom", 'case $3 in -r) cp chip "$4" ;; -w) cp "$4" chip ;; *) exit 9 ;; esac'
        )

    def test_the_checked_bytes_are_written(self):
        """Another program changes the image after the check."""
        good = board()
        folder = self.folder({"image.rom": good, "chip": bytes(len(good))})
        text = f'"$REAL" "$@"; status=$?; {PATCH.format(1050)}; exit $status'
        self.stand_in("cbfscheck", text)
        run = self.example(folder, "flash-checked", "image.rom", "-r", "COREBOOT")
        self.leaves(run, {**run.after, "chip": good})
        self.assertNotEqual(run.after["image.rom"], good)
        self.leaves(run, {**run.after, "chip.rom": bytes(len(good))})

    def test_the_copy_is_made_under_the_lock(self):
        """A command that holds the lock completes its change first."""
        good, half = board(), board([("config", b"bad")])
        folder = self.folder({"image.rom": half, "good": good, "chip": bytes(len(good))})
        holder = subprocess.Popen(
            ["flock", "image.rom", "sh", "-c", "touch locked; sleep 1; cat good > image.rom"],
            cwd=folder.path,
        )
        subprocess.run(
            ["timeout", "20", "sh", "-c", "until [ -e locked ]; do sleep 0.05; done"],
            cwd=folder.path,
            check=True,
        )
        run = self.example(folder, "flash-checked", "image.rom", "-r", "COREBOOT")
        self.assertEqual(holder.wait(), 0)
        self.leaves(run, {**run.after, "chip": good})

    def test_a_dangling_link_for_the_backup(self):
        """flashrom would write the backup to the file that the link names. An earlier report is
        emptied, so that nobody takes it for that of this image."""
        folder = self.folder({"image.rom": board(), "chip": b"chip", "report.txt": b"earlier"})
        (folder.path / "chip.rom").symlink_to("elsewhere")
        run = self.example(folder, "flash-checked", "image.rom", "-r", "COREBOOT", status=2)
        self.assertEqual(run.message, b"chip.rom exists: move it away first\n")
        self.has_files(folder, "image.rom", "chip", "chip.rom", "report.txt")
        self.assertEqual(run.after["report.txt"], b"")

    def test_a_bad_image_is_not_written(self):
        folder = self.folder({"image.rom": b"no image", "chip": b"chip"})
        run = self.example(folder, "flash-checked", "image.rom", "-r", "COREBOOT", status=1)
        self.leaves(run, {**run.after, "chip": b"chip"})
        self.assertIn(b"bad\t-\t-\t-\tno flashmap", run.output)

    def test_an_image_name_of_any_bytes(self):
        folder = self.folder({HOSTILE: board(), "chip": bytes(len(board()))})
        run = self.example(folder, "flash-checked", HOSTILE, "-r", "COREBOOT")
        self.leaves(run, {**run.after, "chip": board()})
        self.has_files(folder, HOSTILE, "chip", "chip.rom", "report.txt")


class UndoNestedMap(ExampleTest):
    def nested(self, areas):
        """Returns an image that a component with another map hides, and the image without it."""
        inner = image.flash_map(0x1000, [image.Area("EC_RO", 0, 64)], name=b"EC")
        table = [image.Area("COREBOOT", 0, 0x2000), image.Area("FMAP", 0x2000, 0x60000)]
        table += [image.Area(name, 0x62000, 64) for name in areas]
        cell = image.Component(b"ec", inner)
        free = 0x2000 - len(cell.bytes)
        hidden, clean = (image.Image(0x63000, table) for _ in range(2))
        hidden.put("COREBOOT", image.join(cell, image.FreeEntry(free, keeps=b"\xff" * 4)))
        clean.put("COREBOOT", image.empty_region(0x2000))
        return hidden.data(), clean.data()

    def test_a_long_listing(self):
        """The listing is longer than a pipe holds, so a reader that ends early stops its writer."""
        hidden, clean = self.nested([f"AREA_{number:027}" for number in range(4000)])
        folder = self.folder({"image.rom": hidden})
        run = self.example(folder, "undo-nested-map", "image.rom", "COREBOOT", "ec")
        self.leaves(run, {"image.rom": hidden, "undone.rom": clean})

    def test_no_region_of_the_name_of_the_first_row(self):
        """The first row of the listing begins with `fmap`, and is no area."""
        hidden, _ = self.nested([])
        folder = self.folder({"image.rom": hidden})
        run = self.example(folder, "undo-nested-map", "image.rom", "fmap", "ec", status=1)
        self.assertEqual(run.message, b"cbfstool: no FMAP\nno such region: fmap\n")


class Names(ExampleTest):
    """Names and numbers that a script could cut short."""

    def test_a_name_is_counted_in_bytes(self):
        """The header has 24 bytes, and the name with its NUL 12: four letters of two bytes each."""
        folder = self.folder({"image.rom": board([]), "new": b"content"})
        self.example(
            folder, "add-aligned", "image.rom", "COREBOOT", "\u00e4" * 4, "new", "raw", "16"
        )
        at = (folder.path / "image.rom").read_bytes().index(b"content")
        self.assertEqual(at, 0x400 + 48)

    def test_a_base_above_4_gib(self):
        table = image.flash_map(
            0x1000,
            [image.Area("FMAP", 0x200, 0x100), image.Area("A", 0x300, 64)],
            name=b"BIG",
            base=0x123456789AB000,
        )
        folder = self.folder({"big.fmap": table})
        run = self.example(folder, "fmap-config", "big.fmap")
        self.assertEqual(run.output.decode().splitlines(), [
            "#ifndef FMAPTOOL_GENERATED_HEADER_H_", "#define FMAPTOOL_GENERATED_HEADER_H_", "",
            "#define FMAP_OFFSET 0x200", "#define FMAP_SIZE 0x8c", "",
            '#define FMAP_TERMINAL_SECTIONS "FMAP A "', "",
            "#define FMAP_SECTION_BIG_START 0x123456789ab000",
            "#define FMAP_SECTION_BIG_SIZE 0x1000",
            "#define FMAP_SECTION_FMAP_START 0x123456789ab200",
            "#define FMAP_SECTION_FMAP_SIZE 0x100",
            "#define FMAP_SECTION_A_START 0x123456789ab300", "#define FMAP_SECTION_A_SIZE 0x40", "",
            "#endif",
        ])

    def test_areas_that_contain_others(self):
        """FMAP_TERMINAL_SECTIONS has the areas that contain no other area."""
        folder = self.folder({"board.fmd": "F 64K { A 8K { B { C 1K D } FMAP 1K } E { G } H 1K }"})
        self.assertEqual(folder.run("fmaptool board.fmd board.fmap").status, 0)
        run = self.example(folder, "fmap-config", "board.fmap")
        self.assertIn(b'#define FMAP_TERMINAL_SECTIONS "C D FMAP G H "\n', run.output)

    def test_a_map_at_the_start(self):
        """C's `%#x` prints 0 without 0x; the first area FMAP counts."""
        areas = [image.Area("FMAP", 0, 0x100), image.Area("FMAP", 0x200, 0x100)]
        folder = self.folder({"board.fmap": image.flash_map(0x1000, areas, name=b"F")})
        lines = self.example(folder, "fmap-config", "board.fmap").output.decode().splitlines()
        self.assertEqual(lines[3:5], ["#define FMAP_OFFSET 0", "#define FMAP_SIZE 0x8c"])
        self.assertEqual(lines[8], "#define FMAP_SECTION_F_START 0")

    def test_a_table_that_is_read_only(self):
        table = image.flash_map(0x1000, [image.Area("FMAP", 0, 0x100)], name=b"F")
        folder = self.folder({"board.fmap": table})
        (folder.path / "board.fmap").chmod(0o444)
        self.stand_in("cbfstool", '[ ! "$1" -ef board.fmap ] || exit 1\nexec "$REAL" "$@"')
        run = self.example(folder, "fmap-config", "board.fmap")
        self.assertIn(b"#define FMAP_SECTION_F_SIZE 0x1000\n", run.output)

    def test_a_slash_in_a_region(self):
        folder = self.folder(
            {"image.rom": board([("path/to/it", b"content")], name="RW/A"), "new": b"new"}
        )
        run = self.example(folder, "extract-all", "image.rom", "RW/A")
        self.assertEqual(run.after["out.RW+A/0x0-path+to+it"], b"content")
        for name, words in [
            ("add-aligned", ["n1", "new", "raw", "64"]), ("add-at-end", ["n2", "new", "raw"]),
            ("add-at-address", ["n3", "new", "raw", hex((1 << 32) - len(board()) + 0x1400)]),
        ]:
            self.example(folder, name, "image.rom", "RW/A", *words)
            self.assertEqual(self.content(folder, "image.rom", words[0], "RW/A"), b"new")
        run = self.example(folder, "component-place", "image.rom", "RW/A", "path/to/it")
        self.assertEqual(run.output, b"0x424\n")
        self.assertEqual(self.example(folder, "bad-digests", "image.rom", "RW/A").output, b"")
        self.assertEqual(
            self.example(folder, "flashrom-layout", "image.rom").output,
            b"00000000:000003ff FMAP\n00000400:000023ff RW/A\n",
        )

    def test_a_slash_in_a_section(self):
        folder = self.folder({"board.fmd": "F 64K { FMAP 1K RW/A(CBFS) 32K B(CBFS) }"})
        self.assertEqual(self.example(folder, "cbfs-regions", "board.fmd").output, b"RW/A\nB\n")


class AnyStatus:
    """Is equal to each status."""

    def __eq__(self, other):
        return True


ANY = AnyStatus()

if __name__ == "__main__":
    unittest.main()
