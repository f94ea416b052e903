"""Listings that go to a pipe, while other commands work on the same image.

A program releases the lock of the image before it prints, so that a command further down a pipe can
change the image. This also holds for a listing that ends with a refusal, because the region has a
damaged entry after its first components.
"""

import os
import shutil
import subprocess
import unittest

from tests import image
from tests.commands import COMMANDS, KEEPS, REGION, SOURCE, Example
from tests.programs import IS_PROVED, LOCK_LIMIT, ProgramTest, if_memory_can_be_refused, program
from tests.texts import rows as lines

# The listing of so many components is longer than the 65,536 bytes that a pipe holds.
COMPONENTS = 4000
SIZE = COMPONENTS * 64 + 1024
EDITS = ["write -r SPARE -f spare", "add -n new -t raw -f spare -r OTHER"]


def image_with(*last):
    """Returns an image with many components, and these last entries."""
    areas = [image.Area("FMAP", 0, 0x400), image.Area("COREBOOT", 0x400, SIZE)]
    areas += [image.Area("SPARE", 0x400 + SIZE, 64), image.Area("OTHER", 0x440 + SIZE, 0x400)]
    cells = [image.Component(f"c{number}".encode(), b"data") for number in range(COMPONENTS)]
    made = image.Image(0x840 + SIZE, areas)
    made.put("COREBOOT", image.join(*cells, *last, size=SIZE))
    return made.put("OTHER", image.empty_region(0x400)).data()


def rows():
    """Returns the rows of the components."""
    return "".join(f"c{number}\t{number * 64:#x}\traw\t4\tnone\n" for number in range(COMPONENTS))


# An entry whose content begins before the end of its head.
DAMAGED = image_with(image.Component(b"bad", b"data", offset=8))
SOUND = image_with(image.FreeEntry(1024, keeps=bytes(4)))
AT = COMPONENTS * 64
REFUSED = 1, rows(), f"cbfstool: damaged entry at {AT:#x}: offset\n"
LISTED = 0, f"{rows()}(empty)\t{AT:#x}\tnull\t992\tnone\n", ""


class Pipes(ProgramTest):
    """A command ends while the reader of the listing has read nothing."""

    def edits_below(self, data, words, expected=None):
        """Runs each edit while the program waits for a reader of its output."""
        for edit in EDITS:
            with self.subTest(words, edit=edit):
                folder = self.folder({"image.rom": data, "spare": b"s" * 64})
                child = subprocess.Popen(
                    [program(words[0]), *words[1:]], cwd=folder.path,
                    stdout=subprocess.PIPE, stderr=subprocess.PIPE, bufsize=0,
                )
                try:
                    # (the first byte shows that the program prints)
                    first = child.stdout.read(1)
                    run = folder.run(f"cbfstool image.rom {edit}", limit=20)
                    self.assertIsNotNone(run.status, "the edit waits for the reader of the listing")
                    self.assertIsNone(child.poll(), "the listing is shorter than a pipe holds")
                finally:
                    rest, message = child.communicate()
                if expected:
                    seen = child.returncode, (first + rest).decode(), message.decode()
                    self.assertEqual(seen[0::2], expected[0::2])
                    self.assertTrue(seen[1] == expected[1], "another listing")

    def test_a_listing(self):
        self.edits_below(SOUND, ["cbfstool", "image.rom", "print"], LISTED)

    def test_a_refused_listing(self):
        self.edits_below(DAMAGED, ["cbfstool", "image.rom", "print"], REFUSED)

    def test_a_refused_listing_with_attributes(self):
        self.edits_below(DAMAGED, ["cbfstool", "image.rom", "print", "-v"], REFUSED)

    def test_a_report_of_a_damaged_image(self):
        self.edits_below(DAMAGED, ["cbfscheck", "-v", "--list", "image.rom"])


# The listings of these images are longer than the 65,536 bytes that a pipe holds. cbfscheck accepts
# at most 4096 areas.
MANY = Example(4000)
MANY_AREAS = Example(40, more=3000)
REPORT = lines(*MANY.findings(*MANY.without_hashes()), "sound:_0_bad,_4005_remarks,_0_changes")
LISTINGS = {
    "print": (MANY, "cbfstool image print", MANY.listing()),
    "print -v": (MANY, "cbfstool image print -v", MANY.listing()),
    "layout": (MANY_AREAS, "cbfstool image layout", MANY_AREAS.layout()),
    "cbfscheck": (MANY, "cbfscheck -v image", REPORT),
}
# The seconds in which a command ends.
LIMIT = LOCK_LIMIT if IS_PROVED else 100

# Reads a listing, and runs a command after each of the first lines.
LOOP = """
set -o pipefail
{listing} | {{
    for round in {rounds}; do
        IFS= read -r line && printf '%s\\n' "$line" >> listed || exit 3
        {command} < /dev/null > printed 2>> refused || exit 4
    done
    cat >> listed
}}
"""

# Commands that are run several times, with `$round` as a part of a name, and the image afterwards.
REPEATED = {
    "extract": "cbfstool image extract -n c$round -f out",
    "add": "cbfstool image add -n new$round -t raw -f source",
    "remove": "cbfstool image remove -n c$round",
}
ROUNDS = (1, 2, 3)


class Loops(ProgramTest):
    """A loop reads a listing, and runs a command on the same image for each line."""

    programs = ("cbfstool", "cbfscheck")

    def left(self, example, name):
        """Returns the files that the repeated command makes or changes."""
        if name == "add":
            return {"image": example.added("new1", "new2", "new3")}
        if name == "remove":
            return {"image": example.removed(*ROUNDS)}
        return example.left(name)

    def check_loop(self, title, listing, name):
        """Checks the listing, the result of the command, and that no process waits."""
        example, words, listed = LISTINGS[listing]
        # (a created image has no components)
        rounds = ROUNDS[:1] if name == "create" else ROUNDS
        loop = LOOP.format(listing=words, command=REPEATED.get(name, COMMANDS[name]),
                           rounds=" ".join(map(str, rounds)))
        folder = self.folder(example.files)
        self.check(["bash", "-c", loop], folder, limit=LIMIT, left={
            **self.left(example, name), "listed": listed, "printed": example.output(name),
            "refused": b""})
        folder.remove()

    @unittest.skipUnless(shutil.which("bash"), "bash")
    def test_each_command(self):
        self.check_rows(self.check_loop, [
            (f"{listing} | {name}", listing, name) for listing in LISTINGS for name in COMMANDS
        ])


class Readers(ProgramTest):
    """The reader of a listing ends early, or does not read."""

    programs = ("cbfstool", "cbfscheck")

    @unittest.skipUnless(shutil.which("bash"), "bash")
    def test_a_reader_of_one_line(self):
        for listing, (example, words, listed) in LISTINGS.items():
            with self.subTest(listing):
                name, status = words.split()[0], 2 if listing == "cbfscheck" else 1
                pipe = f"{words} 2> refused | head -n 1; exit ${{PIPESTATUS[0]}}"
                self.check(["bash", "-c", pipe], example.files, status, limit=LIMIT,
                           output=listed.partition("\n")[0] + "\n",
                           left={"refused": f"{name}: output fault\n"})

    def check_unread(self, listing):
        """Checks that all commands end while the pipe is full, and the listing afterwards."""
        example, words, listed = LISTINGS[listing]
        folder = self.folder(example.files)
        started = folder.start(words)
        # (the first byte shows that the program prints)
        first = os.read(started.process.stdout.fileno(), 1)
        for name in ("print", "extract", "cbfscheck", "add", "remove", "write"):
            done = folder.run(COMMANDS[name], limit=LIMIT)
            self.compare(folder, done, "status", 0, done.status)
            self.compare(folder, done, "message", b"", done.message)
            if name in ("print", "cbfscheck"):
                self.compare(folder, done, "output", example.output(name).encode(), done.output)
        self.assertIsNone(started.process.poll(), "the listing is shorter than a pipe holds")
        rest = example.cells[2:] + [image.Component(b"new", SOURCE)]
        free = image.FreeEntry(8192 - 768, keeps=KEEPS)
        after = example.image_with(example.cells[0], image.FreeEntry(64), *rest, free, spare=REGION)
        done = started.end(limit=LIMIT)
        done.output = first + done.output
        self.compare_run(folder, done, output=listed, left={"image": after, "out": b"data"})

    def test_no_reader(self):
        self.check_rows(self.check_unread, [(listing,) for listing in LISTINGS])


@if_memory_can_be_refused
class RefusedMemory(ProgramTest):
    """Each request for memory is refused in turn."""

    programs = ("cbfstool",)

    def check_memory(self, command):
        """Checks that those of the first steps are reported, and those for the listing are spared.

        There is at least one of the latter for each 65,536 bytes.
        """
        example = Example(3000, more=3000)
        listed = example.output(command)
        reported, spared = self.refuse_memory(COMMANDS[command], {"image": example.image}, listed)
        self.assertEqual(reported, list(range(1, len(reported) + 1)))
        self.assertGreaterEqual(len(reported), 3)
        self.assertGreaterEqual(len(spared), (len(listed) - 1) // 65536)

    def test_listings(self):
        self.check_rows(self.check_memory, [("print",), ("print -v",), ("layout",)])


if __name__ == "__main__":
    unittest.main()
