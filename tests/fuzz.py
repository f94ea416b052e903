#!/usr/bin/env python3
"""Runs the programs on images and descriptors made at random, and compares all that they do.

    python3 -m tests.fuzz [--seconds N] [--seed S] [--keep FOLDER] [--trial N] [--create]
                          CBFSTOOL FMAPTOOL [CBFSCHECK]

Run by hand. The images are those of tests/random_images.py: bytes, regions of cells behind a flash
map, the images of samples/, and boards with the structures that they boot from, with changes. The
descriptors are sections at random, sound ones, and the sample with changes.

On each image `layout`, `print`, `print -v`, `extract`, `read`, `write`, `add` and `remove` run, and
command lines that are refused. Status, output, message and every file are compared with
tests/command_model.py. With CBFSCHECK, its reports on the image, and on the image before and after
the commands, are compared with tests/model.py, as texts and as documents, with options at random.
The table of a descriptor is compared with the text; with --create images are also made by `create`.

It prints its seed first, and at the end how often each command had each result. A trial that fails
is kept in FOLDER, with the commands that show the failure; --trial N runs only the trial of this
number. The status is 1 if a trial failed.

--seconds N    the time, 60 by default; the last trial is completed
--seed S       another seed than the time
--keep FOLDER  /tmp/fuzz-kept by default
"""

import argparse
import collections
import os
import pathlib
import random
import re
import shlex
import shutil
import sys
import tempfile
import time

from tests import command_model as commands
from tests import model
from tests.command_model import Addition
from tests.image import RAW, SHA256, SHA512
from tests.programs import Folder, as_bytes, difference
from tests.random_images import Maker, is_word
from tests.reading import Reading, map_at
from tests.texts import TYPES

PROGRAMS = ("cbfstool", "fmaptool", "cbfscheck")
LIMIT = 20.0
MOST_FAILURES = 50
DIGESTS = {"sha256": SHA256, "sha512": SHA512}
UNREADABLE = [
    [], ["frobnicate"], ["print", "more"], ["print", "-r"], ["layout", "-r", "A"], ["remove"],
    ["--help"], ["extract", "-n", "a"], ["remove", "-n", "a", "-n", "b"], ["read"],
    ["write", "-r", "A"], ["print", b"\xff"], ["add", "-n", "a", "-f", "s", "-t", "RAW"],
    ["add", "-n", "a", "-f", "s", "-t", "raw", "-a", "64", "-b", "0"],
    ["add", "-n", "a", "-f", "s", "-t", "raw", "-a", "1K"],
    ["add", "-n", "a", "-f", "s", "-t", "raw", "-A", "md5"],
    ["add", "-n", "a", "-f", "s", "-t", "raw", "-b", "4294967296"],
]
WORD = r"(?:section|annotation|\)|number|section or }|end)"
DESCRIPTOR_REFUSAL = re.compile(
    rf"text too long|(?:bad byte|bad number|number too large|expected {WORD}|name too long)"
    r" at (?P<place>\d+)|nested too deep|(?:ambiguous size of|empty|overlap at|duplicate name of)"
    r" section \d+|section \d+ outside its parent|no FMAP section|FMAP section too small"
    r"|too many areas")


class Failure(Exception):
    """A command did something else than the model."""


class Trial:
    """An image or a descriptor in a folder, and the commands that were run there."""

    def __init__(self, rng, options, tally):
        self.rng, self.options, self.tally = rng, options, tally
        self.maker = Maker(rng)
        self.folder = Folder()
        self.commands = []
        self.made = 0
        self.image = b""
        # The names of the regions of an image that `create` has made; none share bytes.
        self.is_made = False

    def run(self, words, subject):
        """Runs a command line, and counts it."""
        self.commands.append(words)
        done = self.folder.run(words, limit=LIMIT)
        first = done.message.decode(errors="replace").partition("\n")[0]
        refused = re.sub(r"0x[0-9a-f]+|\d+", "N", first) or "bad"
        answer = "done" if done.status == 0 else refused
        self.tally[subject][answer] += 1
        return done

    def compare(self, done, status, output, message, left):
        """Raises a failure if the command did something else, or changed another file."""
        files = {**done.before, **left}
        names = sorted({*files, *done.after})
        rows = [("status", status, done.status), ("message", as_bytes(message), done.message),
                ("output", as_bytes(output), done.output)]
        rows += [(name, files.get(name), done.after.get(name)) for name in names]
        for what, expected, seen in rows:
            if expected != seen:
                raise Failure(f"{what} differs:\n{difference(expected, seen)}")

    def file(self, content):
        """Returns the name of a new file with a content."""
        self.made += 1
        self.folder.put(f"file{self.made}", content)
        return f"file{self.made}"

    def start(self, image):
        """Goes on with an image, of which a copy is kept."""
        self.image = image
        for name in "start.rom", "image.rom":
            self.folder.put(name, image)

    def reading(self):
        """Returns the reading of the image."""
        return Reading(self.image)

    # ---- cbfstool

    def expect(self, words, result, out=None):
        """Runs a command on the image, and compares it with the result of the model."""
        done = self.run(["cbfstool", "image.rom", *words], words[0])
        left = {"image.rom": result.image, **({out: result.file} if out else {})}
        message = "".join(f"cbfstool: note: {note}\n" for note in result.notes)
        if result.refusal:
            message = f"cbfstool: {result.refusal}\n"
        self.compare(done, int(result.refusal is not None), result.output, message, left)
        self.image = result.image
        return result.refusal is None

    def option(self, letter, value):
        """Returns the words of an option, in one of the ways in which they can be written."""
        forms = [] if value.startswith(b"-") else [[f"-{letter}", value]]
        if value:
            forms.append([f"-{letter}=".encode() + value])
        if value and not value.startswith(b"="):
            forms.append([f"-{letter}".encode() + value])
        return self.rng.choice(forms)

    def region(self, name):
        """Returns the words that name a region."""
        is_default = name == b"COREBOOT" and self.rng.randrange(2)
        return [] if is_default else self.option("r", name)

    def listings(self, name):
        """Lists a region in both ways."""
        for is_verbose in False, True:
            words = ["print", *["-v"] * is_verbose, *self.region(name)]
            self.expect(words, commands.show(self.reading(), name, is_verbose))

    def extract(self, name, component):
        out = self.file(b"what was there before")
        words = ["extract", *self.option("n", component), *self.region(name), "-f", out]
        self.expect(words, commands.extract(self.reading(), name, component), out)

    def read_and_write(self, name):
        """Reads a region and writes it back, after other bytes, some of another length."""
        out = self.file(b"old")
        words = [*self.region(name), "-f"]
        result = commands.read(self.reading(), name)
        self.expect(["read", *words, out], result, out)
        before, size = self.image, len(result.file)
        sizes = [one for one in (0, 1, size + 1, size - 1) if one >= 0 and one != size]
        contents = [self.rng.randbytes(self.rng.choice(sizes))]
        contents += [] if self.holds_map(name) else [self.rng.randbytes(size)]
        for content in [*contents, result.file]:
            source = self.file(content)
            self.expect(["write", *words, source], commands.write(self.reading(), name, content))
        if self.image != before:
            raise Failure("what was read and written back is another image")

    def holds_map(self, name):
        """Returns whether an edit of the region can change the flash map."""
        image = self.reading()
        area = image.first(name)
        if area is None:
            return False
        at = image.map.position
        end = at + len(image.map.bytes)
        return area.offset < end and at < area.offset + area.size

    def request(self, name):
        """Returns an addition at random, and the word of its type."""
        rng, maker, image = self.rng, self.maker, self.reading()
        area = image.inside(name)
        cells = image.cut(area).cells if area else []
        names = [maker.name()] + [b"new%d" % rng.randrange(9)] * 4
        names += [cell.name for cell in cells[:2] if not cell.is_free()]
        component = rng.choice(names)
        kind = rng.choice([*TYPES, *[RAW] * 20, 0x7777, rng.getrandbits(32)])
        words = [f"{kind}", f"0x{kind:x}", f"0x{kind:08X}", *[TYPES.get(kind, f"{kind}")] * 3]
        sizes = [cell.head[0] for cell in cells if cell.is_free()] + [0, 100]
        near = max(0, rng.choice(sizes) - rng.randrange(130))
        size = rng.choice([0, 1, 10, rng.randrange(400), near, rng.randrange(9000)])
        place = rng.choice([0] + [cell.position for cell in cells]) + rng.randrange(200)
        number = rng.choice([maker.number(), 2 ** rng.randrange(14), place])
        how = rng.choice([{}, {}, {}, {"alignment": number}, {"offset": number}])
        digest = rng.choice([None, None, *DIGESTS.values()])
        usable = component if is_word(component) else b"new"
        added = Addition(usable, kind, rng.randbytes(min(size, 20000)), digest, **how)
        return added, rng.choice(words)

    def add_words(self, name, added, word):
        """Returns the words of an addition."""
        words = ["add", *self.region(name), *self.option("n", added.name), "-t", word,
                 "-f", self.file(added.content)]
        for letter, number in ("-a", added.alignment), ("-b", added.offset):
            if number is not None:
                words += [letter, self.rng.choice([f"{number}", f"{number:#x}"])]
        names = {number: name for name, number in DIGESTS.items()}
        return [*words, *(["-A", names[added.digest]] if added.digest else [])]

    def add(self, name):
        """Adds a component, twice, and sometimes removes it and adds it where it was."""
        added, word = self.request(name)
        words = self.add_words(name, added, word)
        if not self.expect(words, commands.add(self.reading(), name, added)):
            return
        self.listings(name)
        self.expect(words, commands.add(self.reading(), name, added))
        self.extract(name, added.name)
        if self.rng.randrange(2):
            image = self.image
            self.remove(name, added.name)
            self.expect(words, commands.add(self.reading(), name, added))
            if self.image != image:
                raise Failure("the same addition leaves another image")

    def remove(self, name, component):
        words = ["remove", *self.region(name), *self.option("n", component)]
        self.expect(words, commands.remove(self.reading(), name, component))

    def names(self, name):
        """Returns names of components of a region, and one that is not there."""
        image = self.reading()
        area = image.inside(name)
        components = image.cut(area).components if area else []
        listed = sorted({one.name for one in components if one.name and is_word(one.name)})
        return self.rng.sample(listed, min(4, len(listed))) + [b"absent"]

    def steps(self, name):
        """Runs commands on one region."""
        self.listings(name)
        for component in self.names(name):
            self.extract(name, component)
        self.read_and_write(name)
        count = 0 if self.holds_map(name) else self.rng.randrange(1, 8)
        for _ in range(count):
            what = self.rng.randrange(5)
            if what < 3:
                self.add(name)
            elif what == 3:
                self.remove(name, self.rng.choice(self.names(name)))
            else:
                self.refuse_words()

    def refuse_words(self):
        """Runs a command line that is refused."""
        words = ["cbfstool", "image.rom", *self.rng.choice(UNREADABLE)]
        done = self.run(words, "bad words")
        self.compare(done, 2, "", "cbfstool: bad command line\n", {})

    # ---- cbfscheck

    def report(self, old, new, paths):
        """Compares the report on the image, or on two, as a text and as a document."""
        wishes, words = self.maker.options(new, old is not None)
        rows = model.report(old, new, wishes)
        listing = model.listing(old, new, wishes)
        for row in rows:
            self.tally["rows of cbfscheck"][f"{row.verdict} {row.code}"] += 1
        status = int(any(row.verdict == "bad" for row in rows))
        texts = [
            ([], model.text(rows, None, wishes.is_verbose, wishes.is_flash)),
            (["--json"], model.document(paths, rows, None, wishes.is_verbose, wishes.is_flash)),
            (["--list"], model.text(rows, listing, wishes.is_verbose, wishes.is_flash)),
        ]
        for more, printed in texts:
            done = self.run(["cbfscheck", *more, *words, *paths], "cbfscheck")
            self.compare(done, status, printed, "", {})

    def check_created(self):
        """Checks that no finding of an image that `create`, `add` and `remove` made is bad."""
        # (COREBOOT is checked even if `create` didn't format it)
        bad = [row for row in model.report(None, self.reading(), model.Wishes())
               if row.verdict == "bad" and (row.code, row.area) != ("no-cbfs", b"COREBOOT")]
        if bad:
            raise Failure(f"of an image that was made here it reports {bad[0]}")

    # ---- Images

    def on_image(self):
        """Runs commands on regions of the image, and on one that it may not have."""
        image = self.reading()
        self.expect(["layout"], commands.layout(image))
        if self.options.cbfscheck:
            self.report(None, image, ["image.rom"])
        listed = [area.name for area in image.areas if is_word(area.name)]
        other = [self.rng.choice([*listed, b"ABSENT"])] if image.map else []
        for name in [b"COREBOOT", *other]:
            self.steps(name)
        if self.options.cbfscheck:
            old = Reading(self.folder.files()["start.rom"])
            self.report(old, self.reading(), ["start.rom", "image.rom"])
        if self.is_made:
            self.check_created()
        self.edit_map()

    def edit_map(self):
        """Runs a command on a region that holds the flash map, which it may change."""
        image = self.reading()
        names = [area.name for area in image.areas
                 if is_word(area.name) and image.inside(area.name) and self.holds_map(area.name)]
        if names:
            added = Addition(b"new", RAW, self.rng.randbytes(100))
            what = self.rng.choice([None, b"a", b"t/raw"])
            if what:
                self.remove(names[0], what)
            else:
                self.expect(self.add_words(names[0], added, "raw"),
                            commands.add(image, names[0], added))

    # ---- Descriptors

    def on_descriptor(self, text):
        """Compiles a descriptor, and lists its table; returns the table, or None if refused."""
        source, out = self.file(text), self.file(b"old" * 1000)
        done = self.run(["fmaptool", source, out], "fmaptool")
        table = done.after[out]
        message = done.message.decode()
        if done.status != 0:
            found = re.fullmatch("fmaptool: (.*)\n", message)
            refusal = found and DESCRIPTOR_REFUSAL.fullmatch(found[1])
            if not refusal or int(refusal["place"] or 0) > len(text):
                raise Failure(f"fmaptool refuses with {message}")
            self.compare(done, 1, "", message, {out: b""})
            return None
        self.compare(done, 0, "", "", {out: table})
        self.check_table(map_at(table, 0), table, text)
        self.start(table)
        self.expect(["layout"], commands.layout(self.reading()))
        return table

    def check_table(self, found, table, text):
        """Checks what must hold of each table."""
        names = [area.name for area in found.areas] if found else []
        rules = [
            found is not None and found.bytes == table,
            all(area.offset + area.size <= found.size for area in found.areas),
            len(set(names)) == len(names),
            all(name in text for name in names),
            any(area.name == b"FMAP" and area.size >= len(table) for area in found.areas),
        ]
        if not all(rules):
            raise Failure(f"the table breaks a rule: {rules}")

    def create(self, table):
        """Makes an image of a table by `create`, and goes on with it."""
        areas = map_at(table, 0).areas
        count = self.rng.randrange(1, min(4, len(areas)) + 1)
        chosen = [area.name for area in self.rng.sample(areas, count)]
        words = ["-r", b",".join(chosen)] if self.rng.randrange(3) else []
        names = chosen if words else [b"COREBOOT"]
        result = commands.create(table, names)
        command = ["cbfstool", "created.rom", "create", "-M", "image.rom", *words]
        done = self.run(command, "create")
        message = f"cbfstool: {result.refusal}\n" if result.refusal else ""
        status = int(result.refusal is not None)
        self.compare(done, status, "", message, {"created.rom": result.image})
        if result.refusal:
            return
        self.start(result.image)
        # (of two areas that share bytes, an edit of one may break the other)
        formatted = [area for area in areas if area.name in names]
        self.is_made = not any(commands.share_bytes([one, other]) for one in formatted
                               for other in areas if other is not one)
        self.on_image()


def run_trial(trial, options):
    """Makes the image or the descriptor of a trial, and runs the commands."""
    if trial.rng.randrange(8):
        trial.tally["made"]["images"] += 1
        trial.start(trial.maker.image())
        trial.on_image()
        return
    trial.tally["made"]["descriptors"] += 1
    table = trial.on_descriptor(trial.maker.descriptor())
    if table and options.create and map_at(table, 0).size <= 1 << 20:
        trial.create(table)


def keep(trial, number, options, failure):
    """Keeps the folder of a trial that failed, with its commands."""
    kept = pathlib.Path(options.keep, f"trial{number}")
    shutil.rmtree(kept, ignore_errors=True)
    shutil.copytree(trial.folder.path, kept)
    lines = ["cp start.rom image.rom"]
    lines += [shlex.join(map(os.fsdecode, words)) for words in trial.commands]
    text = "\n".join([*lines, ""])
    (kept / "commands").write_text(text, errors="surrogateescape")
    last = ascii(trial.commands[-1:])
    print(f"trial {number}: {failure}\n    after {last}, kept in {kept}", flush=True)


def is_passed(number, options, tally):
    """Runs the trial of a number, and returns whether all was as it should be."""
    trial = Trial(random.Random(f"{options.seed}/{number}"), options, tally)
    try:
        run_trial(trial, options)
        return True
    except Failure as failure:
        keep(trial, number, options, failure)
        return False
    finally:
        trial.folder.remove()


def read_options(words):
    """Returns the options of the command line."""
    parser = argparse.ArgumentParser(usage=__doc__)
    parser.add_argument("--seconds", type=float, default=60)
    parser.add_argument("--seed", default=str(int(time.time())))
    parser.add_argument("--keep", default=os.path.join(tempfile.gettempdir(), "fuzz-kept"))
    parser.add_argument("--trial", type=int)
    parser.add_argument("--create", action="store_true")
    parser.add_argument("cbfstool", type=os.path.abspath)
    parser.add_argument("fmaptool", type=os.path.abspath)
    parser.add_argument("cbfscheck", type=os.path.abspath, nargs="?")
    return parser.parse_args(words)


def run_trials(options):
    """Runs trials until the time is over, and returns how many failed."""
    tally = collections.defaultdict(collections.Counter)
    end, number, failed = time.monotonic() + options.seconds, 0, 0
    if options.trial is not None:
        end, number = 0, options.trial
    while True:
        failed += not is_passed(number, options, tally)
        number += 1
        if time.monotonic() > end or failed >= MOST_FAILURES:
            break
    for name, answers in tally.items():
        print(f"{name}: {sum(answers.values())}")
        for answer, count in answers.most_common():
            print(f"    {count}\t{answer}")
    return failed


def main(words):
    options = read_options(words)
    print("seed", options.seed, flush=True)
    with tempfile.TemporaryDirectory(prefix="fuzz-programs-") as folder:
        for name in PROGRAMS:
            if getattr(options, name):
                os.symlink(getattr(options, name), os.path.join(folder, name))
        os.environ["PROGRAMS"] = folder
        failed = run_trials(options)
    print("failed:", failed)
    sys.exit(1 if failed else 0)


if __name__ == "__main__":
    main(sys.argv[1:])
