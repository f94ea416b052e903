"""Compares the numbers, options, paths and examples of the documents with programs and sources.

`FACTS` is one table: a place, a text with `{}` for each number, and what gives the number, which is
a run of a program, a constant of a source, or the table of a test. A place is compared with single
blanks for all white space, and of a manual page with macros as they stand. A document that states
another number lacks the text, and so does a source with another constant.
"""

import datetime
import functools
import json
import re
import shutil
import unittest

from tests import image, structured_board, structures
from tests.programs import NAMES, TOP, Folder, ProgramTest

FOLDERS = ("bench", "checks", "completion", "crates", "dist", "docs", "man", "samples", "tests")
DOCUMENTS = ["README.md", "CONTRIBUTING.md", "CHANGELOG.md", "dist/README.md", "bench/RESULTS.md"]
DOCUMENTS += sorted(f"docs/{path.name}" for path in (TOP / "docs").glob("*.md"))


@functools.lru_cache(None)
def text_of(name):
    """Returns the text of a file of the repository."""
    return (TOP / name).read_text(encoding="utf-8")


@functools.lru_cache(None)
def words_of_document(name):
    """Returns the text of a document, with single blanks for all white space."""
    return " ".join(text_of(name).split())


# ---- What gives a number


def constant(file, name):
    """Returns a function that returns a constant of a Rattle source."""
    def number():
        value = re.search(rf"\bconst {name}: \w+ = ([0-9a-fx_]+);", text_of(file))[1]
        return int(value.replace("_", ""), 0)
    return number


def in_test(file, pattern):
    """Returns a function that returns a number of a test or a document, by a pattern."""
    return lambda: int(re.search(pattern, text_of(file))[1])


def the(number):
    """Returns a function that returns a number of a standard."""
    return lambda: number


@functools.lru_cache(None)
def board():
    """Returns an image with 20 empty areas for file systems, and one of any bytes."""
    areas = [image.Area("FMAP", 0, 0x1000), image.Area("COREBOOT", 0x1000, 0x1000)]
    areas += [image.Area(f"A{at}", 0x2000 + at * 0x40, 0x40) for at in range(20)]
    made = image.Image(0x3000, areas)
    return made.put("COREBOOT", image.empty_region(0x1000)).data()


def ran(command, files=()):
    """Runs a command in a new folder, and returns the run."""
    folder = Folder({"image.rom": board(), "abc": b"abc", **dict(files)})
    try:
        return folder.run(command)
    finally:
        folder.remove()


def status(command, files=()):
    """Returns a function that returns the status of a command."""
    return functools.lru_cache(None)(lambda: ran(command, files).status)


def largest(accepts, high):
    """Returns the largest number below `high` that is accepted, if all lower ones are too."""
    low = 1
    while low + 1 < high:
        middle = (low + high) // 2
        low, high = (middle, high) if accepts(middle) else (low, middle)
    return low


@functools.lru_cache(None)
def longest_name():
    """Returns the number of bytes of the longest name that `add` takes."""
    command = "cbfstool image.rom add -f abc -t raw -n "
    return largest(lambda count: ran(command + "n" * count).status == 0, 500)


@functools.lru_cache(None)
def most_regions():
    """Returns the largest number of regions of `create`."""
    def accepts(count):
        names = ",".join(f"A{at}" for at in range(count))
        return ran(f"cbfstool new.rom create -M image.rom -r {names}").status == 0
    return largest(accepts, 21)


@functools.lru_cache(None)
def compiled(text):
    """Returns the areas of a compiled descriptor, by their names, or None if it is refused."""
    folder = Folder({"board.fmd": text})
    try:
        if folder.run("fmaptool board.fmd board.fmap").status:
            return None
        rows = folder.run("cbfstool board.fmap layout").output.decode().splitlines()[1:]
    finally:
        folder.remove()
    return {row.split("\t")[0]: [int(field, 0) for field in row.split("\t")[1:]] for row in rows}


def size_of(text):
    """Returns a function that returns the size that fmaptool gives to a number."""
    return lambda: compiled(f"F 0xffffffff {{ FMAP 1024 A {text} }}")["A"][1]


def flag_of(annotation):
    """Returns a function that returns the flags of a section with an annotation."""
    return lambda: compiled(f"F 64K {{ FMAP 1K A({annotation}) 1K }}")["A"][2]


@functools.lru_cache(None)
def longest_section_name():
    """Returns the number of bytes of the longest name of a section."""
    return largest(lambda count: compiled(f"F 64K {{ FMAP 1K {'n' * count} 1K }}") is not None, 200)


@functools.lru_cache(None)
def most_braces():
    """Returns how many lists of braces may be open at once."""
    def accepts(count):
        inner = "FMAP 4K"
        for at in range(count - 1):
            inner = f"S{at} 64K {{ {inner} }}"
        return compiled(f"F 64K {{ {inner} }}") is not None
    return largest(accepts, 200)


@functools.lru_cache(None)
def cell_size():
    """Returns the size of the cell of the smallest component."""
    folder = Folder({"image.rom": board(), "none": b""})
    try:
        folder.run("cbfstool image.rom add -n a -f none -t raw")
        rows = folder.run("cbfstool image.rom print").output.decode().splitlines()
    finally:
        folder.remove()
    return int(rows[1].split("\t")[1], 0)


PARSER = "crates/fmd_lang/src/parser.rt"
TEXT_LIMIT = constant(PARSER, "TEXT_LIMIT")
AREAS = constant("crates/fmd_lang/src/table.rt", "AREA_LIMIT")
KIND_ROWS = constant("crates/check_report/src/rows/writer.rt", "MOST")
OVERLAPS = constant("crates/check_findings/src/map/overlaps.rt", "MOST_COMPARED")
CHECKED = constant("crates/check_findings/src/image/image.rt", "MAX_IMAGES")
COMPARED = constant("crates/check_changes/src/areas/areas.rt", "MOST_TIMES")
PIECE = constant("crates/flash_device/src/flash.rt", "PIECE")
COMMIT = constant("crates/flash_device/src/flash.rt", "COMMIT_LENGTH")
SEALED = constant("crates/cbfs_anchor/src/demand.rt", "LONGEST_METADATA")
OUTPUT = constant("crates/flash_store/src/output.rt", "BLOCK")
TRIES = constant("crates/flash_store/src/transfer.rt", "TRIES")
MEMORY = in_test("tests/test_limits.py", r"MEMORY_FOR_MIB = (\d+)_000_000\n")
BASE_MEMORY = in_test("tests/test_limits.py", r"MEMORY_FOR_ANY = (\d+)_000_000\n")
HEAD = constant("crates/flash_format/src/flashmap.rt", "LENGTH")
ENTRY_HEAD = constant("crates/flash_format/src/head.rt", "LENGTH")
PROMISED_STACK = in_test("docs/PROMISES.md", r"The stack has room: (\d+) KiB are sufficient")
START_HEAD = constant("crates/check_findings/src/image/starts.rt", "HEAD")

DONE, REFUSED, BAD_LINE = (
    status("cbfstool image.rom print"), status("cbfstool image.rom print -r NONE"),
    status("cbfstool image.rom print -x"),
)
MAP = {"board.fmd": "F 64K { FMAP 1K }", "bad.fmd": "F"}
COMPILED, NOT_COMPILED, BAD_COMPILER_LINE = (
    status("fmaptool board.fmd new.fmap", tuple(MAP.items())),
    status("fmaptool bad.fmd new.fmap", tuple(MAP.items())), status("fmaptool bad.fmd"),
)
SOUND, BAD, INCOMPLETE = (
    status("cbfscheck image.rom"), status("cbfscheck -r NONE image.rom"),
    status("cbfscheck none.rom"),
)
SEAL_REFUSED, BAD_SEAL_LINE = status("cbfsseal image.rom"), status("cbfsseal")


def sealed():
    """Returns the status of a seal of an image without components."""
    areas = [image.Area("FMAP", 0, 0x200), image.Area("COREBOOT", 0x200, 0x200)]
    made = image.Image(0x600, areas + [image.Area("BOOTBLOCK", 0x400, 0x200)])
    made.put("COREBOOT", image.empty_region(0x200))
    made.put("BOOTBLOCK", image.anchor(image.SHA256, bytes(32), bytes(32)))
    return ran("cbfsseal sealed.rom", {"sealed.rom": made.data()}.items()).status


# ---- The table

TOOL, COMPILER, LANGUAGE = "man/cbfstool.1", "man/fmaptool.1", "man/fmd.5"
CHECK, SEAL = "man/cbfscheck.1", "man/cbfsseal.1"
FORMAT, PROMISES, README = "docs/FORMAT.md", "docs/PROMISES.md", "README.md"

FACTS = [
    # ---- exit statuses
    (TOOL, ".It {} Success; nothing is printed, except by", [DONE]),
    (TOOL, ".It {} Refused, for the reason that is printed on standard error.", [REFUSED]),
    (TOOL, ".It {} The arguments are not a command line.", [BAD_LINE]),
    (COMPILER, ".It {} Success. .It {} Refused, for the reason", [COMPILED, NOT_COMPILED]),
    (COMPILER, ".It {} The arguments are not a command line.", [BAD_COMPILER_LINE]),
    (COMPILER, "The arguments are not two, or not UTF-8; the status is {}.", [BAD_COMPILER_LINE]),
    (CHECK, ".It {} Nothing is bad, or help or version is printed.", [SOUND]),
    (CHECK, ".It {} A finding is bad.", [BAD]),
    (CHECK, ".It {} The report is missing or incomplete, see", [INCOMPLETE]),
    (CHECK, ".Pp The status is {} if a finding is", [BAD]),
    (SEAL, "{} if both digests are right now, {} if the image is refused, and {} for a bad "
     "command line.", [sealed, SEAL_REFUSED, BAD_SEAL_LINE]),
    (README, "Status 0 means no bad finding; status {}, at least one; status {}, a missing or "
     "incomplete report.", [BAD, INCOMPLETE]),
    (FORMAT, "The exit status is {} for success, {} for a bad command line, and {} for any other "
     "refusal.", [DONE, BAD_LINE, REFUSED]),
    ("docs/MOVING.md", "A refusal is one line on standard error, with status {}, or {} for a bad "
     "command line.", [REFUSED, BAD_LINE]),
    ("dist/examples/check-build", "ends with the # status of cbfscheck: {} if nothing is bad, {} "
     "if something is, {} without a complete report.", [SOUND, BAD, INCOMPLETE]),
    # ---- names and lists
    (TOOL, "A new one has 1 to {} bytes.", [longest_name]),
    (TOOL, "The new name is empty, over {} bytes, or has a NUL", [longest_name]),
    (FORMAT, "The name has 1 to {} bytes without NUL", [longest_name]),
    (FORMAT, "new name empty, longer than {} bytes, or with NUL", [longest_name]),
    (TOOL, "a list of at most {} names, separated by commas", [most_regions]),
    (TOOL, "an empty name, or over {} names;", [most_regions]),
    (README, "for `create` up to {} names", [most_regions]),
    (FORMAT, "at most {} named regions, each a single empty entry", [most_regions]),
    (FORMAT, "an empty name or more than {} names for `create`", [most_regions]),
    # ---- descriptors
    (LANGUAGE, "It has at most {:,} bytes.", [TEXT_LIMIT]),
    (COMPILER, "The text has more than {:,} bytes.", [TEXT_LIMIT]),
    (FORMAT, "A descriptor is a text of at most {:,} bytes", [TEXT_LIMIT]),
    (FORMAT, "| 2 | `text too long` | more than {:,} bytes |", [TEXT_LIMIT]),
    ("docs/EXAMPLES.md", "| {:,} blanks, no more |", [lambda: TEXT_LIMIT() + 1]),
    (LANGUAGE, "At most {} brace lists are open at once.", [most_braces]),
    (COMPILER, "while {} are open.", [most_braces]),
    (FORMAT, "At most {} brace lists are open at once", [most_braces]),
    (FORMAT, "`{{` inside {} open braces", [most_braces]),
    (LANGUAGE, "At most {} bytes 0x21 to 0x7e, except", [longest_section_name]),
    (COMPILER, "A name of {} bytes or more.", [lambda: longest_section_name() + 1]),
    (FORMAT, "a maximal sequence with any other first byte, at most {} bytes",
     [longest_section_name]),
    (FORMAT, "| 8 | `name too long at N` | {} bytes or more |",
     [lambda: longest_section_name() + 1]),
    (LANGUAGE, ".Ql K , .Ql M or .Ql G , a factor of {}, its square or its cube.", [size_of("1K")]),
    (LANGUAGE, "a factor of {}, its square", [lambda: size_of("1M")() // size_of("1K")()]),
    (FORMAT, "An optional suffix K, M or G multiplies by {}, its square or its cube.",
     [lambda: size_of("1G")() // size_of("1M")()]),
    (LANGUAGE, "sets the flag {}, by which an update program can keep the section",
     [flag_of("PRESERVE")]),
    (FORMAT, "Annotations are `CBFS` (no flag) and `PRESERVE` (the flag {})",
     [flag_of("PRESERVE")]),
    (CHECK, "does not change any area with the flag PRESERVE ({:#x}) in", [flag_of("PRESERVE")]),
    (TOOL, "the sum of 1 static, 2 compressed, 4 read-only, {} preserved.", [flag_of("PRESERVE")]),
    (FORMAT, "Flags are a sum: 1 static (never changes), 2 compressed, 4 read-only, {} preserved",
     [flag_of("PRESERVE")]),
    (LANGUAGE, "lists all sections except the root, at most {:,}, and", [AREAS]),
    (COMPILER, "There are more than {:,}.", [AREAS]),
    (FORMAT, "| 16 | `too many areas` | more than {:,} |", [AREAS]),
    (LANGUAGE, "and has {} bytes, and 42 for each section it lists.", [HEAD]),
    (COMPILER, "The table has {} bytes, and 42 for each area.", [HEAD]),
    (FORMAT, "A flash map is a head of {} bytes, followed by areas of 42 bytes.", [HEAD]),
    # ---- checks
    (CHECK, "At most {} rows with the same verdict and code are printed", [KIND_ROWS]),
    (FORMAT, "| rows with the same verdict and code (a *kind*) | {} without `-v` |", [KIND_ROWS]),
    (FORMAT, "After all other rows, each kind with more than {} rows", [KIND_ROWS]),
    (PROMISES, "although at most {} rows of a kind are printed", [KIND_ROWS]),
    (CHECK, "The map has more than {} areas. Remove some from the descriptor.", [OVERLAPS]),
    (FORMAT, "more than {} areas; replaces `area-overlaps`", [OVERLAPS]),
    (FORMAT, "limit = {} * length of the image", [CHECKED]),
    (FORMAT, "| bytes of checked areas | {} × the length of the image |", [CHECKED]),
    (FORMAT, "| bytes of compared areas | {} × the length of NEW |", [COMPARED]),
    (CHECK, "The number of differing blocks of {} bytes of the image or the area.", [PIECE]),
    (FORMAT, "A *block* has {} bytes, counted from the start of the image or area", [PIECE]),
    (CHECK, "A check needs at most {} MB, and {} MB for each MiB of the image, or of both",
     [BASE_MEMORY, MEMORY]),
    (PROMISES, "{} MB, and {} MB for each MiB of the image, or of both images together",
     [BASE_MEMORY, MEMORY]),
    ("CHANGELOG.md", "The limit of memory is {} MB per MiB of both images together.", [MEMORY]),
    # ---- bytes, calls and memory
    (TOOL, "up to {} bytes between them have any content.", [PIECE]),
    (TOOL, "A kill can cut a write at a border of two blocks of {} bytes,", [PIECE]),
    (PROMISES, "with at most {} arbitrary bytes between them", [PIECE]),
    (PROMISES, "at most 2n + 64 device calls, with at most {} bytes each. This is a bound",
     [PIECE]),
    (PROMISES, "A *commit* is a write of a {}-byte header that changes the entries", [COMMIT]),
    (TOOL, "A header has {} bytes.", [COMMIT]),
    (TOOL, "ends too early for listings over {} KiB", [lambda: OUTPUT() // 1024]),
    (PROMISES, "the text of a listing, or {} KiB of other output", [lambda: OUTPUT() // 1024]),
    (PROMISES, "They repeat an interrupted call up to {:,} times.", [TRIES]),
    (SEAL, "metadata longer than {} bytes at 0x40", [SEALED]),
    (FORMAT, "Firmware finds a component only if its metadata has at most {} bytes.", [SEALED]),
    (TOOL, "Firmware does not find a component with more than {} bytes of metadata.",
     [SEALED]),
    (FORMAT, "without those of more than {} bytes, which the firmware does not find", [SEALED]),
    (FORMAT, "| 13 | `metadata longer than {} bytes at 0x40` |", [SEALED]),
    (TOOL, "{} bytes for the head, and for the end of the name; .It the length of the name in "
     "bytes, rounded down to a multiple of 4; .It {} bytes for a digest by .Fl A Cm sha256 , {} by "
     ".Fl A Cm sha512 .",
     [the(24 + 4), lambda: 12 + hash_size("sha256"), lambda: 12 + hash_size("sha512")]),
    (FORMAT, "| 4 to 7 | the length: {} for SHA-256, {} for SHA-512 |",
     [lambda: 12 + hash_size("sha256"), lambda: 12 + hash_size("sha512")]),
    (FORMAT, "1 SHA-1 (d = 20), {} SHA-256 (32), {} SHA-512 (64), {} SHA-224 (28), {} SHA-384 (48)",
     [the(image.SHA256), the(image.SHA512), the(image.SHA224), the(image.SHA384)]),
    (FORMAT, "32-bit algorithm ({} SHA-256, {} SHA-512, from vboot's `enum vb2_hash_algorithm`)",
     [the(image.SHA256), the(image.SHA512)]),
    (FORMAT, "32-bit algorithm ({} none, {} LZMA, {} LZ4), 32-bit decompressed size",
     [the(image.NONE), the(image.LZMA), the(image.LZ4)]),
    (TOOL, "a sequence of .Em entries whose lengths are multiples of {}:", [cell_size]),
    (TOOL, "The size is 0 or no multiple of {}", [cell_size]),
    (TOOL, "Up to {} bytes of 0xff, the gap, may separate fields and content.",
     [lambda: cell_size() - 1]),
    (CHECK, ".It bad Qq size is less than {}", [cell_size]),
    (CHECK, ".It remark Qq size is no multiple of {}", [cell_size]),
    (CHECK, "A lost entry, at a multiple of {} bytes.", [cell_size]),
    (LANGUAGE, "a coreboot file system, whose size is a multiple of {}.", [cell_size]),
    (FORMAT, "| 0 to {} | the gap, bytes 0xff, if the content requires a higher offset.",
     [lambda: cell_size() - 1]),
    (CHECK, "no smaller area of at least {} bytes has the same offset", [START_HEAD]),
    (FORMAT, "lies inside its image, has at least {} bytes, starts with the magic", [START_HEAD]),
    (FORMAT, "Each CBFS entry starts with a *head* of {} bytes.", [ENTRY_HEAD]),
    (CHECK, "A comparison of two images needs a stack of {} KiB", [PROMISED_STACK]),
    # ---- systems
    (README, "The programs require Linux with the GNU C library {} or newer.",
     [lambda: "2.34"]),
    ("dist/README.md", "on Linux with the GNU C library {} or a newer version.",
     [lambda: "2.34"]),
]


@functools.lru_cache(None)
def hash_size(algorithm):
    """Returns the number of bytes of the digest that `add -A` stores."""
    folder = Folder({"image.rom": board(), "abc": b"abc"})
    try:
        folder.run(f"cbfstool image.rom add -n abc -f abc -t raw -A {algorithm}")
        rows = folder.run("cbfstool image.rom print -v").output.decode().splitlines()
    finally:
        folder.remove()
    return next(len(row.split("\t")[3]) // 2 for row in rows if row.startswith("\thash\t"))


class Numbers(ProgramTest):
    """Each number of a document is that of a program, a source or a test."""

    programs = NAMES

    def test_each_number(self):
        for place, text, numbers in FACTS:
            with self.subTest(place, text=text):
                stated = text.format(*(number() for number in numbers))
                self.assertTrue(stated in words_of_document(place), f"not in {place}: {stated}")

    def test_all_tries_are_the_same(self):
        """An interrupted call of a file is repeated equally often, whichever call it is."""
        for file in ["flash_store/src/output_file.rt", "flash_store/src/repeating_sink.rt",
                     "flash_store/src/transfer.rt", "fmap_compiler/src/reader.rt"]:
            self.assertEqual(constant(f"crates/{file}", "TRIES")(), 1000, file)


# Limits that tests compare a program with: a file, the text of the limit, and the number. Whoever
# raises a limit has to change it here too.
LIMITS = [
    ("tests/programs.py", r'^TIME_LIMIT = int\(os.environ.get\("TIME_LIMIT", (\d+)\)\)$', 60),
    ("tests/programs.py", r"^LOCK_LIMIT = min\((\d+), TIME_LIMIT\)$", 20),
    ("tests/completions.py", r"^ENDLESS, SOON = 60, (\d+)$", 20),
    ("tests/test_pipes.py", r"^COMPONENTS = (\d+)$", 4000),
    ("tests/test_limits.py", r"^MEMORY_FOR_ANY = (\d+)_000_000$", 4),
    ("tests/test_limits.py", r"^SECONDS = (\d+)$", 10),
    ("tests/test_limits.py", r"^SECONDS_FOR_TWO = (\d+)$", 4),
]


class Limits(unittest.TestCase):
    """The limits of the tests are those of the table."""

    def test_each_limit(self):
        for file, pattern, number in LIMITS:
            with self.subTest(file, pattern=pattern):
                found = re.findall(pattern, text_of(file), re.MULTILINE)
                self.assertEqual(found, [str(number)])


class Fields(ProgramTest):
    """The tables of FORMAT.md state where a field is: it has the value that a program wrote."""

    programs = ("cbfstool", "fmaptool")

    def fields(self, heading):
        """Returns the positions of the fields of the first table of a section."""
        section = text_of(FORMAT).split(f"\n## {heading}\n")[1].split("\n## ")[0]
        rows = re.findall(r"(?:^|\|) (\d+) to (\d+) \| `?([\w ]+)`?", section, re.MULTILINE)
        return {name.strip(): (int(first), int(last) + 1) for first, last, name in rows}

    def test_the_head_of_an_entry(self):
        folder = self.folder({"image.rom": board(), "content": b"0123456789"})
        folder.run("cbfstool image.rom add -n a -f content -t raw -A sha256")
        entry = (folder.path / "image.rom").read_bytes()[0x1000:]
        places = self.fields("Heads")
        for name, wanted in [("magic", b"LARCHIVE"), ("len", 10), ("type", 0x50),
                             ("attributes_offset", 28), ("offset", 72)]:
            first, end = places[name]
            wanted = wanted if isinstance(wanted, bytes) else wanted.to_bytes(4, "big")
            self.assertEqual(entry[first:end], wanted, name)

    def test_the_flash_map(self):
        text = "NAME@0xff000000 1M { FMAP 1K AREA(PRESERVE)@0x10000 2K }"
        folder = self.folder({"board.fmd": text})
        self.assertEqual(folder.run("fmaptool board.fmd board.fmap").status, 0)
        table = (folder.path / "board.fmap").read_bytes()
        places = self.fields("Flashmaps")
        section = text_of(FORMAT).split("\n## Flashmaps\n")[1]
        rows = re.findall(r"\| (\d+) to (\d+) \| (\w+) \|$", section, re.MULTILINE)
        for name, wanted in [("signature ", b"__FMAP__"), ("base address", 0xFF000000),
                             ("size of the image", 1 << 20), ("number of areas", 2)]:
            first, end = places[name.strip()]
            wanted = wanted if isinstance(wanted, bytes) else wanted.to_bytes(end - first, "little")
            self.assertEqual(table[first:end], wanted, name)
        areas = {name: (56 + 42 + int(first), 56 + 43 + int(last)) for first, last, name in rows}
        for name, wanted in [("offset", 0x10000), ("size", 2048), ("flags", 8),
                             ("name", b"AREA".ljust(32, b"\0"))]:
            first, end = areas[name]
            wanted = wanted if isinstance(wanted, bytes) else wanted.to_bytes(end - first, "little")
            self.assertEqual(table[first:end], wanted, name)

    def test_the_first_checks_of_an_entry(self):
        """The least offset of a component, and of a free entry, are those of the table."""
        rows = dict(re.findall(r"^\| 1 (Offset) \| (.*) \|$", text_of(FORMAT), re.MULTILINE))
        self.assertEqual(rows["Offset"], "`offset` ≥ 24 | `offset` ≥ 25")
        for entry, wanted in [
            (image.FreeEntry(0x1000, offset=24, length=0), 0),
            (image.FreeEntry(0x1000, offset=23, length=0), 1),
            (image.Component(b"", offset=25, name_field=b"\0", length=0), 0),
            (image.Component(b"", offset=24, name_field=b"", length=0), 1),
        ]:
            made = bytearray(board())
            made[0x1000:0x2000] = entry.bytes.ljust(0x1000, b"\xff")
            run = ran("cbfstool image.rom print", {"image.rom": bytes(made)}.items())
            self.assertEqual(run.status, wanted, run.message)

    def test_the_bytes_of_an_empty_entry(self):
        """The table states the fill, and the numbers of the header."""
        section = words_of_document(FORMAT)
        self.assertIn("| 28 to L - 1 | 0xff, except the last four bytes of a region |", section)
        self.assertIn("`len` L - 28, type 0xffffffff, `attributes_offset` 0 and `offset` 28",
                      section)
        folder = self.folder({"image.rom": board()})
        folder.run("cbfstool new.rom create -M image.rom -r COREBOOT")
        made = (folder.path / "new.rom").read_bytes()[0x1000:0x2000]
        self.assertEqual(made[28:-4], b"\xff" * (0x1000 - 32))
        self.assertEqual(made[:28], image.empty_region(0x1000)[:28])


class Refusals(ProgramTest):
    """The refusals of FORMAT.md and of the pages have the same numbers and texts."""

    programs = ()

    def rows(self, name, pattern):
        return re.findall(pattern, text_of(name), re.MULTILINE)

    def test_the_numbers_of_the_pages(self):
        section = text_of(FORMAT).split("\n## Refusals\n")[1]
        tool, compiler = section.split("\n## fmaptool\n")
        for page, part in [(TOOL, tool), (COMPILER, compiler.split("\n## ")[0])]:
            stated = re.findall(r"^\| (\d+) \| `([^`]+)` \|", part, re.MULTILINE)
            shown = self.rows(page, r'^\.It (\d+) Qq (.*)$')
            self.assertEqual(shown, stated, page)
            self.assertEqual([int(number) for number, _ in stated],
                             list(range(1, len(stated) + 1)))

    def test_the_order_of_add(self):
        """The table of the page has the numbers of the refusals, and the order of FORMAT.md."""
        stated = words_of_document(FORMAT)
        first = re.search(r"For each command with a region: (.*?)\.", stated)[1]
        then = re.search(r"\| `add` \| (`bad name`.*?) \|", stated)[1]
        part = text_of(TOOL).split("\n.Ss The refusals of add, in order\n")[1].split("\n.El\n")[0]
        rows = re.findall(r"^\.It (\d+) Ta (.*?) Ta ", part, re.MULTILINE)
        opened = ["bad command line", "device fault", "image too large", "source fault",
                  "image too large"]
        self.assertEqual([text for _, text in rows],
                         [*opened, *re.findall(r"`([^`]+)`", f"{first}, {then}")])
        numbers = dict(self.rows(TOOL, r"^\.It (\d+) Qq (.*)$"))
        for number, text in rows:
            self.assertEqual(numbers[number].split(" at ")[0], text)

    def stated_in(self, *names):
        """Returns numbers and texts of the refusals of sources, with the pages' placeholders."""
        found = []
        for name in names:
            for number, text in re.findall(r'/// (\d+): (?:(?!///  *\d).)*?#\[error\("(.*?)"',
                                           text_of(f"crates/{name}"), re.DOTALL):
                text = text.replace("{at:#x}: {}", "0x40: extent").replace("{what}", "W")
                found.append((number, re.sub(r"\{(at|section)\}", "N", text)))
        return sorted(((int(number), text) for number, text in found if text != "{0}"))

    def test_the_refusals_of_the_sources(self):
        for page, names in [
            (TOOL, ["cbfs_requests/src/refusal.rt"]),
            (COMPILER, ["fmd_lang/src/fault.rt", "fmap_compiler/src/refusal.rt"]),
        ]:
            shown = self.rows(page, r"^\.It (\d+) Qq (.*)$")
            self.assertEqual(self.stated_in(*names), [(int(n), text) for n, text in shown], page)

    def literals(self, page, item):
        """Returns the literal texts of a refusal of a page, without what is in parentheses."""
        text = re.split(r"^\.It \d", text_of(page).split(f"\n.It {item}\n")[1], flags=re.M)[0]
        found = re.findall(r"^\.Ql (.*?)(?: [,.])?$", text, re.MULTILINE)
        return sorted(one.replace("\\&", "") for one in found)

    def test_each_refusal_is_expected_by_a_test(self):
        """The text of each refusal is in a file of tests that runs its program."""
        files = [path.name for path in (TOP / "tests").glob("test_*.py")]
        tests = {name: text_of(f"tests/{name}") for name in files if name != "test_documents.py"}
        for page, name in ((TOOL, "cbfstool"), (COMPILER, "fmaptool")):
            for _, text in self.rows(page, r"^\.It (\d+) Qq (.*)$"):
                start = re.split(r" (?:at )?(?:0x40|[NW])\b", text)[0]
                with self.subTest(name, text=text):
                    expecting = [one for one in tests.values() if start in one and name in one]
                    self.assertTrue(expecting)

    def test_the_kinds_of_damage(self):
        """The page has their names, and FORMAT.md their numbers."""
        names = re.findall(r'=> "(.*)",', text_of("crates/flash_format/src/damage_name.rt"))
        self.assertEqual(self.literals(TOOL, "9 Qq damaged entry at 0x40: extent"), sorted(names))
        enum = text_of("crates/flash_format/src/head.rt").split("pub enum DamageKind")[1]
        kinds = re.findall(r"^    (\w+) = (\d+),$", enum.split("\n}")[0], re.MULTILINE)
        entries = text_of(FORMAT).split("\n## Entries\n")[1].split("\n## ")[0]
        stated = re.findall(r"^\| (\d+) (\w+) \|", entries, re.MULTILINE)
        self.assertEqual([(name, number) for number, name in stated], kinds)

    def test_the_expected_words(self):
        enum = text_of("crates/fmd_lang/src/fault.rt").split("pub enum Expected")[1]
        words = re.findall(r'#\[error\("(.*)"\)\]', enum.split("\n}")[0])
        stated = self.literals(COMPILER, "6 Qq expected W at N")
        self.assertEqual(stated, sorted(word.replace("}}", "}") for word in words))


ALGORITHMS = ["sha1", "sha224", "sha256", "sha384", "sha512"]


class Codes(unittest.TestCase):
    """The page of cbfscheck and FORMAT.md give the same code to each text of a row."""

    def test_the_codes_of_the_page(self):
        texts, pairs = [], set()
        for line in text_of(CHECK).split("\n.Sh JSON\n")[0].splitlines():
            if re.match(r"\.It (bad|remark|change) ", line):
                found = re.findall(r"Qq (.*)$|Qo (.*?) Qc", line)
                texts += [one or other for one, other in found]
            elif line.startswith(".Bq the code"):
                texts = []
            elif line.startswith(".Bq "):
                pairs |= {(text, line.split()[1]) for text in texts}
            elif not line.startswith((".", "or, ")):
                texts = []
        stated = set()
        for row in re.findall(r"^\| (`[^|]*`) \| `([a-z-]+)` \|", text_of(FORMAT), re.MULTILINE):
            stated |= {(text, row[1]) for text in re.findall(r"`([^`]+)`", row[0])}
        codes = {code for _, code in stated}
        self.assertEqual({code for _, code in pairs}, codes)
        self.assertGreater(len(codes), 40)
        for text, code in stated:
            for name in ALGORITHMS if "ALG" in text else [""]:
                if text != "damaged entry: KIND":
                    shown = text.replace("ALG", name)
                    self.assertTrue((shown, code) in pairs, f"{shown} has another code")


class Names(unittest.TestCase):
    """Paths, links and options that documents name exist."""

    def spans(self, name):
        """Returns the code spans of a document, outside its blocks."""
        text = re.sub(r"^ *```.*?^ *```", "", text_of(name), flags=re.MULTILINE | re.DOTALL)
        return re.findall(r"`([^`\n]+)`", text)

    def test_paths(self):
        for name in DOCUMENTS:
            for span in self.spans(name):
                word = span.split()[0] if span.split() else ""
                # (a word in capitals stands for any name)
                if word.split("/")[0] in FOLDERS and re.fullmatch(r"[a-z\d._/-]+", word):
                    with self.subTest(name, span=span):
                        self.assertTrue((TOP / word).exists() or word.endswith("/out/"), span)

    def test_links(self):
        for name in DOCUMENTS:
            for target in re.findall(r"\]\(([^)\s]+)\)", text_of(name)):
                path, _, anchor = target.partition("#")
                if "://" in target:
                    continue
                with self.subTest(name, target=target):
                    linked = (TOP / name).parent / path if path else TOP / name
                    self.assertTrue(linked.exists())
                    if anchor:
                        headings = re.findall(r"^#+ (.*)$", linked.read_text("utf-8"), re.MULTILINE)
                        self.assertIn(anchor, [self.anchor(heading) for heading in headings])

    def anchor(self, heading):
        """Returns the anchor of a heading."""
        plain = re.sub(r"[^\w\s-]", "", heading.replace("`", "").lower())
        return re.sub(r"\s", "-", plain)

    def test_options_of_scripts(self):
        """An option after the path of a script is one that the script knows."""
        for name in DOCUMENTS:
            for span in self.spans(name):
                script, *words = span.replace("[", "").replace("]", "").split() or [""]
                path = TOP / script
                if script.split("/")[0] in ("checks", "bench", "dist") and path.is_file():
                    for word in words:
                        if word.startswith("--"):
                            with self.subTest(name, span=span):
                                self.assertIn(word, path.read_text("utf-8"))

    def test_options_of_programs(self):
        """The table of options in the README has those of each command."""
        rows = re.findall(r"^\| `(-\w) ?[A-Z]*` \| (.*?) \|", text_of(README), re.MULTILINE)
        commands = ["print", "layout", "extract", "add", "remove", "read", "write", "create"]
        synopsis = text_of(TOOL).split(".Sh SYNOPSIS")[1].split(".Sh DESCRIPTION")[0]
        takes = {}
        for part in synopsis.split(".Nm")[1:]:
            command = re.search(r"\.Cm (\w+)", part)[1]
            takes[command] = set(re.findall(r"Fl (\w)\b", part))
        self.assertEqual(sorted(takes), sorted(commands))
        self.assertEqual(len(rows), 9)
        for option, named in rows:
            if named.startswith("all but"):
                wanted = set(commands) - set(re.findall(r"`(\w+)`", named))
            else:
                wanted = set(re.findall(r"`(\w+)`", named))
            seen = {command for command in commands if option[1:] in takes[command]}
            self.assertEqual(seen, wanted, option)


class Json(ProgramTest):
    """The examples of FORMAT.md are documents, and the queries of the page give their values."""

    programs = ("cbfstool", "cbfscheck")

    def examples(self):
        section = text_of(FORMAT).split("\n## Reports\n")[1].split("\n### Limits")[0]
        return re.findall(r"^\{.*\}$", section, re.MULTILINE)

    def report(self):
        """Returns a report of two images, with a bad digest and a list."""
        content = b"0123456789"
        wrong = image.hash_attribute(image.SHA256, value=bytes(32))
        cell = image.Component(b"logo", content, attributes=[wrong])
        areas = [image.Area("FMAP", 0, 0x200), image.Area("COREBOOT", 0x200, 0x400)]
        made = image.Image(0x600, areas)
        made.put("COREBOOT", image.join(cell, image.FreeEntry(0x400 - len(cell.bytes))))
        folder = self.folder({"old.rom": board(), "new.rom": made.data()})
        return json.loads(folder.run("cbfscheck --json --list old.rom new.rom").output)

    def test_the_examples(self):
        document, area, component, row = self.examples()
        document = document.replace("PATH", '"a"').replace("[..]", "[]")
        document = json.loads(re.sub(r":N\b", ":0", document))
        report = self.report()
        self.assertEqual(list(document), list(report))
        self.assertEqual(list(json.loads(area)), list(report["areas"][0]))
        self.assertEqual(list(json.loads(component)), list(report["components"][0]))
        rows = [seen for seen in report["rows"] if seen["code"] == "hash-invalid"]
        self.assertEqual(list(json.loads(row)), list(rows[0]))
        self.assertEqual({**json.loads(row), "position": 0}, rows[0])

    @unittest.skipUnless(shutil.which("jq"), "jq is not installed")
    def test_the_queries(self):
        page = text_of(CHECK).replace("\\(aq", "'").replace("\\-", "-").replace("\\&", "")
        blocks = re.findall(r"\.Bd -literal.*?\n(.*?)\.Ed", page, re.DOTALL)
        queries = [block for block in blocks if "jq" in block]
        self.assertEqual(len(queries), 2)
        wrong = image.hash_attribute(image.SHA256, value=bytes(32))
        changed = [image.Component(b"logo", text, attributes=[wrong]) for text in (b"abc", b"abd")]
        files = {}
        for name, cell in zip(("old.rom", "new.rom"), changed):
            made = bytearray(board())
            made[0x1000:0x2000] = image.join(cell, image.FreeEntry(0x1000 - len(cell.bytes)))
            files[name] = bytes(made)
        folder = self.folder({**files, "image.rom": files["old.rom"]})
        for query, wanted in zip(queries, ["hash-invalid", "logo"]):
            run = folder.run(["sh", "-c", query])
            self.assertIn(wanted, run.output.decode().splitlines(), query)
            self.assertEqual(run.message, b"")


class Promises(unittest.TestCase):
    """Bounds of PROMISES.md are those of the clauses, which state them in letters."""

    def test_the_calls(self):
        definition = re.search(r"^call_limit device = (\d+) \* length device.content \+ (\d+)$",
                               text_of("crates/flash_device/specs/Device.antt"), re.MULTILINE)
        one = f"at most {definition[1]}n + {definition[2]} device calls"
        clauses = words_of_document("crates/check_report/src/change_inspection.rt")
        old = re.search(r"\((\d+) \* \(lengths images\.old\)\.old \+ "
                        r"\(lengths images\.old\)\.new / (\d+) \+ (\d+)\)", clauses)
        new = re.search(r"\((\d+) \* \(lengths images\.old\)\.new \+ (\d+)\)", clauses)
        two = f"it makes at most {old[1]}m + n/{old[2]} + {old[3]} calls of the old image and "
        two += f"{new[1]}n + {new[2]} of the new image"
        stated = words_of_document(PROMISES)
        promises = [
            f"A command on an image of n bytes makes {one}",
            f"for one image of n bytes, it makes {one}",
            f"It makes {one} for an image of n bytes",
            two,
        ]
        for promise in promises:
            self.assertTrue(promise in stated, f"not in {PROMISES}: {promise}")


class Boards(unittest.TestCase):
    """VERIFICATION.md counts the rows of tests/boards.tsv, and the harm that each judge notices."""

    def test_the_numbers(self):
        heads, *rows = [line.split("\t") for line in text_of("tests/boards.tsv").splitlines()]
        rows = [dict(zip(heads, row)) for row in rows]
        harmful = [row for row in rows if row["harm"] != "none"]

        def noticed(*names):
            return sum(any(row[name] not in ("", "-") for name in names) for row in harmful)

        self.assertFalse([row for row in rows if "-" in (row["cbfscheck, one image"],
                                                         row["cbfscheck, two images"])])
        stated = words_of_document("docs/VERIFICATION.md")
        for text in [
            f"breaks them in {len(rows)} ways, of which {len(harmful)} do harm and "
            f"{len(rows) - len(harmful)} are good changes.",
            f"The rules notice {noticed('rules, one image', 'rules, two images')} of the "
            f"{len(harmful)} harmful changes, `futility verify` "
            f"{noticed('futility verify')}, coreboot's `print -v` {noticed('cbfstool print -v')}, "
            f"`ifdtool -t` {noticed('ifdtool -t')} and `ifittool` {noticed('ifittool -a')}.",
            f"`cbfscheck` notices {noticed('cbfscheck, one image')} with the broken image alone, "
            f"and {noticed('cbfscheck, two images')} with the board as the old image",
        ]:
            self.assertIn(text, stated)
        missed = sum(not row["cbfscheck, two images"] for row in harmful)
        self.assertIn(f"lists the other {missed} by class.", stated)
        refused = [row for row in rows if row["harm"] == "none" and row["cbfscheck, two images"]]
        self.assertEqual(len(refused), 9)
        self.assertIn("Of the 110 good changes it calls nine bad", stated)

    # What PROMISES.md says of a class of missed harm, and the rows of the class: the first class of
    # a row counts. A row is a text of its structure, its change and the rules, joined by bars.
    CLASSES = [
        ("| signatures of RSA and the keys that they belong to. (A changed byte inside the signed "
         "bytes of a slot is found with two images, if the signatures are the same: "
         "`slot-outdated`) | {} |", r"\(RSA\)"),
        ("| a broken master header on a board whose `COREBOOT` does not end with a bootblock (a "
         "remark): only older payloads read it | {} |", r"^arm\|arm\|.*header"),
        ("| wrong fields of the FIT: an entry or the microcode is missing, an entry is skipped, or "
         "the table does not end with its component | {} |", r"^\w+\|FIT\|"),
        ("| wrong fields of the GBB: an empty hardware id, or a key that begins inside its own "
         "fields | {} |", r"^\w+\|GBB\|"),
        ("| wrong code of the bootblock, also with an erased part: no digest covers it | {} |",
         r"^intel\|bootblock\||^arm\|arm\|the first byte of the bootblock"),
        ("| wrong content of the ME and of GbE | {} |", r"^intel\|descriptor\|"),
        ("`cbfsseal` renews it) | {} | `--need AREA:NAME` |", r"^\w+\|anchor\|"),
        ("| a stage whose memory is smaller than its content: builds make such stages on purpose | "
         "{} |", r"memory is smaller"),
        ("a changed content without a digest | {} |", r"digest"),
        ("| a second flash map, which coreboot's tools and the firmware may prefer (a remark) "
         "| {} |", r"\|flash map\|another map"),
    ]

    def test_the_classes_of_missed_harm(self):
        """PROMISES.md lists each harmful change that cbfscheck misses, in one class."""
        heads, *rows = [line.split("\t") for line in text_of("tests/boards.tsv").splitlines()]
        rows = [dict(zip(heads, row)) for row in rows]
        missed = [row for row in rows if row["harm"] != "none" and not row["cbfscheck, two images"]]
        texts = ["|".join(row[key] for key in ("board", "structure", "change", "rules, two images"))
                 for row in missed]
        stated = words_of_document(PROMISES)
        for text, pattern in self.CLASSES:
            ours = [one for one in texts if re.search(pattern, one)]
            texts = [one for one in texts if one not in ours]
            with self.subTest(text):
                self.assertTrue(text.format(len(ours)) in stated, f"there are {len(ours)}")
        self.assertEqual(texts, [])
        self.assertTrue(f"has no bad row for {len(missed)} of them." in stated)


class Procedures(unittest.TestCase):
    """The README, the page of cbfscheck and its script flash an image by the same steps."""

    TITLES = ["Read the chip", "Copy the preserved areas", "Make all other changes", "Intel only",
              "Seal and sign", "Check, and read the report", "Flash", "Keep the backup"]

    def section(self, name, start, end):
        return text_of(name).split(start, 1)[1].split(end, 1)[0]

    def test_the_steps(self):
        text = self.section(README, "\n## Flashing a changed image\n", "\n## ")
        listed = re.findall(r"^(\d)\. \*\*(.*?)\.?\*\*(.*)$", text, re.MULTILINE)
        self.assertEqual([(number, title) for number, title, _ in listed],
                         [(str(at), title) for at, title in enumerate(self.TITLES, 1)])
        page = self.section(CHECK, "\n.Sh FLASHING\n", "\n.El\n").replace("\\-", "-")
        items = page.split("\n.It\n")[1:]
        titles = [re.match(r"\.Em (.*?)( [.,:])?\n", item)[1] for item in items]
        self.assertEqual(titles, self.TITLES)
        commands = [re.findall(r"^\.Dl (.*)$", item, re.MULTILINE) for item in items]
        self.assertEqual([len(found) for found in commands], [1, 1, 2, 2, 1, 1, 1, 0])
        for (_, title, shown), found in zip(listed, commands):
            for command in found:
                self.assertIn(f"`{command}`", shown, title)

    def test_the_steps_of_a_locked_chip(self):
        text = words_of_document(README)
        page = words_of_document(CHECK).replace("\\-", "-")
        for command in ["flashrom -p internal --ifd -i fd -i bios -r backup.rom",
                        "--ifd -i bios -N"]:
            self.assertIn(f"`{command}`", text)
            self.assertIn(f".Ql {command} .", page)

    # What flashrom may write without flash-checked: the content of a chip, and a part of an image.
    WRITTEN = {"chip.rom", "backup.rom", "second.new"}

    def test_no_example_writes_an_unchecked_image(self):
        """flashrom alone would write a complete image over the flash descriptor of a chip."""
        for name in [README, CHECK, TOOL, "docs/MOVING.md", "dist/README.md"]:
            text = words_of_document(name).replace("\\-", "-")
            pattern = r"(Never use (?:`|\.Ql ))?flashrom (?:-p \S+ )?-w ?([\w.]*)"
            for warning, written in re.findall(pattern, text):
                if not warning:
                    self.assertIn(written, self.WRITTEN, name)

    def test_the_steps_of_the_script(self):
        """The script and the recipes name the steps by their numbers."""
        self.assertIn("It takes the steps 6 and 7 of FLASHING in cbfscheck(1).",
                      text_of("dist/examples/flash-checked"))
        self.assertIn("The steps 1, 2 and 6 of .Sx FLASHING .", words_of_document(CHECK))
        self.assertIn("Step 7 of .Sx FLASHING .", words_of_document(CHECK))


class Sample(ProgramTest):
    """The report of the README that passes is that of the program, and each row has a decision."""

    programs = ("cbfscheck",)
    COMMAND = ("cbfscheck --flash -r COREBOOT,FW_MAIN_A,FW_MAIN_B --need COREBOOT:bootblock@end "
               "backup.rom image.rom")

    def image(self, content):
        """Returns a board with a preserved area, and a component with this content."""
        offset, size = structured_board.PLACES["COREBOOT"]
        header_at, boot_size = structured_board.HEADER_AT, structured_board.BOOTBLOCK_SIZE
        boot = structures.bootblock(boot_size,
                                    header_pointer=structures.header_pointer(header_at, size))
        digest = image.hash_attribute(image.SHA256, content)
        region = image.region(size, {
            0: structures.header_component(structures.master_header(offset + size, offset)),
            0x80: image.Component(b"logo.bmp", content, type=0x40, attributes=[digest]),
            size - boot_size - 64: image.Component(
                b"bootblock", boot, type=image.BOOTBLOCK, gap=28),
        })
        areas = []
        for area in structured_board.AREAS:
            preserved = [("FMAP", 0xC000, 0x800), ("RW_VPD", 0xC800, 0x800, image.PRESERVED)]
            areas += preserved if area[0] == "FMAP" else [area]
        return structured_board.board(areas, COREBOOT=region)

    def test_the_report(self):
        section = text_of(README).split("\n### A report that passes\n")[1].split("\n### ")[0]
        self.assertIn(f"`{self.COMMAND}`", section)
        _, shown, rest = section.split("```\n")
        files = {"backup.rom": self.image(b"the old logo")}
        files["image.rom"] = self.image(b"the new logo")
        self.check(self.COMMAND, files, 0, shown.encode())
        table = rest.strip().split("\n\n")[0].splitlines()
        decided = re.findall(r"`([^`]+)`", "".join(row.split("|")[1] for row in table))
        *rows, last = shown.splitlines()
        for text in [*(row.split("\t")[4] for row in rows), last.split(":")[0]]:
            self.assertIn(text, decided)


class Orders(ProgramTest):
    """Ordered lists of the pages have the order of the program."""

    programs = ("cbfscheck",)

    def test_the_errors_of_cbfscheck(self):
        """Option files come first, then arguments, the old image, the new one, and the output."""
        self.assertIn(
            "Errors are checked in the order option files, arguments, random numbers, .Ar OLD , "
            ".Ar NEW , output.", words_of_document(CHECK),
        )
        folder = self.folder({"image.rom": board()})
        for line, wanted in [
            ("--bogus no.rom @none", b"none: No such file"),
            ("--bogus no.rom none.rom", b"unknown option '--bogus'"),
            ("no.rom none.rom", b"no.rom: No such file"),
            ("image.rom none.rom", b"none.rom: No such file"),
        ]:
            run = folder.run(["sh", "-c", f"cbfscheck {line} > /dev/full"])
            self.assertIn(b"cbfscheck: " + wanted, run.message, line)

    def test_the_parts_of_a_need(self):
        """The area ends at the first colon, and the offset begins after the last @."""
        stated = "In .Fl Fl need , .Ar AREA ends at the first colon, and .Ar OFFSET begins after"
        self.assertIn(f"{stated} the last .Ql @ .", words_of_document(CHECK))
        made = bytearray(board())
        cell = image.Component(b"a:b@c", b"data")
        free = image.FreeEntry(0x1000 - len(cell.bytes))
        made[0x1000:0x2000] = image.join(cell, free)
        files = {"named.rom": bytes(made)}.items()
        for need, wanted in [("COREBOOT:a:b@c@32", 0), ("COREBOOT:a:b@c@33", 1)]:
            self.assertEqual(ran(f"cbfscheck --need {need} named.rom", files).status, wanted, need)

    def test_the_lists_of_cbfscheck(self):
        self.assertIn(
            "the order is: no image, no second image, the list of .Fl r , that of .Fl Fl keep , "
            "that of .Fl Fl need .", words_of_document(CHECK),
        )
        for line, wanted in [
            ("--keep , -r , --need x", b"no image"),
            ("--keep , -r , --need x image.rom", b"need two images"),
            ("--keep , -r , --need x image.rom image.rom", b"bad list of areas ','"),
            ("--keep , --need x image.rom image.rom", b"bad list of areas ','"),
            ("--need x image.rom image.rom", b"bad need 'x'"),
        ]:
            self.assertIn(wanted, ran(f"cbfscheck {line}").message, line)


# ---- Names of the sources in documents


@functools.lru_cache(None)
def sources(*patterns):
    """Returns the texts of all files of the crates with these patterns, by their paths."""
    paths = [path for pattern in patterns for path in TOP.glob(f"crates/*/{pattern}")]
    return {str(path.relative_to(TOP)): path.read_text(encoding="utf-8") for path in sorted(paths)}


@functools.lru_cache(None)
def names_of_sources():
    """Returns all names that sources, definitions, edits and crates have."""
    names = {path.name for path in (TOP / "crates").iterdir()}
    names |= {path.stem for path in TOP.glob("crates/*/must-fail*/*.edit")}
    for text in sources("src/**/*.rt").values():
        names |= set(re.findall(r"\b(?:fn|struct|enum|trait|type|mod|const) (\w+)", text))
        names |= set(re.findall(r"^\s+(?:pub )?(\w+): ", text, re.MULTILINE))
    for text in sources("specs/**/*.antt", "proofs/**/*.antt").values():
        names |= set(re.findall(r"^ *(?:\w+ )*?([A-Za-z][\w']*) ?[:({]", text, re.MULTILINE))
        names |= set(re.findall(r"\b(?:data|record) ([\w']+)", text))
    return names


class Identifiers(unittest.TestCase):
    """Each name of a function, definition, law, test or edit that a document marks exists."""

    DOCUMENTS = ("docs/PROMISES.md", "docs/VERIFICATION.md", "docs/MISTAKES.md")
    NAME = re.compile(r"[a-z]\w*_\w+|[A-Z][a-z]\w*[A-Z]\w*")

    def test_each_name(self):
        count = 0
        for document in self.DOCUMENTS:
            text = re.sub(r"```.*?```", "", text_of(document), flags=re.DOTALL)
            for name in sorted(set(re.findall(r"`([^`\n]+)`", text))):
                if self.NAME.fullmatch(name):
                    count += 1
                    with self.subTest(document, name=name):
                        self.assertIn(name, names_of_sources())
        self.assertGreater(count, 100)


PROGRAM_CRATES = ("library_tests", *NAMES)


class Crates(unittest.TestCase):
    """The README of a crate names just what the crate has for others."""

    def exported(self, crate):
        """Returns the names that a crate exports."""
        text = text_of(f"crates/{crate}/src/lib.rt")
        names = set(re.findall(r"^pub mod (\w+);", text, re.MULTILINE))
        for path, listed in re.findall(r"^pub use ([\w:]+?)(?:::\{(.*?)\})?;", text,
                                       re.MULTILINE | re.DOTALL):
            found = listed or path.split("::")[-1]
            names |= set(re.findall(r"\w+", re.sub(r"\w+::", "", found)))
        return names

    def test_each_crate(self):
        for path in sorted((TOP / "crates").iterdir()):
            crate = path.name
            text = text_of(f"crates/{crate}/README.md")
            with self.subTest(crate):
                self.assertEqual(text.splitlines()[0], f"# {crate}")
                if crate in PROGRAM_CRATES:
                    continue
                names = self.exported(crate)
                for others in re.findall(r"re-exports all names of (.*)", text):
                    for other in re.findall(r"\[([a-z_]+)\]", others):
                        self.assertLessEqual(self.exported(other), names)
                        names -= self.exported(other)
                tables = re.findall(r"^\|---.*\n((?:\|.*\n)*)", text, re.MULTILINE)
                cells = [row.split("|")[1] for row in "".join(tables).splitlines()]
                listed = [name for cell in cells for name in re.findall(r"`([^`]+)`", cell)]
                self.assertEqual(sorted(listed), sorted(names))


class Walks(unittest.TestCase):
    """The walks of DEVELOPING.md lead through files with the names that they state."""

    WALKS = ["An added file with a digest", "A check of two images", "A descriptor"]

    def steps(self, title):
        """Returns the steps of a walk: the file, the names, and the files of definitions."""
        text = text_of("docs/DEVELOPING.md").split(f"\n### {title}\n")[1].split("\n## ")[0]
        for line in re.findall(r"^\d+\. (.*)$", text.split("\n### ")[0], re.MULTILINE):
            file, rest = re.fullmatch(r"`([^`]+)`: (.*)", line).groups()
            names, _, cited = rest.partition("Definitions: ")
            yield file, re.findall(r"`([^`]+)`", names), re.findall(r"`([^`]+)`", cited)

    def check_step(self, file, names, cited):
        """Returns the paths of the definitions that the file of the step uses."""
        text = text_of(f"crates/{file}")
        for name in names:
            self.assertRegex(text, rf"(?<!\w){re.escape(name)}(?!\w)", file)
        for name in cited:
            # (a file of definitions of the step's own crate needs no crate)
            whole = name if "/" in name else f"{file.split('/')[0]}/{name}"
            crate, _, path = whole.partition("/")
            self.assertTrue((TOP / "crates" / crate / "specs" / f"{path}.antt").exists(), whole)
            self.assertRegex(text, rf"Rattle\.{crate}\.specs\.{path.replace('/', '.')}\b", file)
            yield whole

    def test_each_step(self):
        for title in self.WALKS:
            files, definitions, count = [], [], 0
            for file, names, cited in self.steps(title):
                with self.subTest(title, file=file):
                    definitions += self.check_step(file, names, cited)
                files.append(file)
                count += len(names) + len(cited)
            self.assertGreater(len(files), 10)
            self.assertGreater(count, 30)
            self.assertEqual(len(files), len(set(files)), "a file is in two steps")
            self.assertEqual(len(definitions), len(set(definitions)), "definitions in two steps")

    def test_the_files_that_a_change_affects(self):
        text = text_of("docs/DEVELOPING.md").split("\n## What a change affects\n")[1]
        names = set(re.findall(r"`([A-Za-z_\d/]+\.(?:rt|antt|edit|1|5|json))`",
                               text.split("\n## How a proof")[0]))
        self.assertGreater(len(names), 40)
        for name in sorted(names):
            with self.subTest(name):
                found = [*TOP.glob(f"crates/**/{name}"), *TOP.glob(f"docs/{name}"),
                         *TOP.glob(f"man/{name}"), *TOP.glob(name)]
                self.assertTrue([path for path in found if "/out/" not in str(path)])

    def test_the_examples_of_code(self):
        """Each line of an example stands so in a source, a proof, an edit or a test."""
        text = text_of("docs/DEVELOPING.md")
        parts = [text.split("\n## One contract")[1].split("\n## A failed proof")[0],
                 text.split("\n## How a proof")[1].split("\n## The gate")[0]]
        blocks = re.findall(r"^```\w*\n(.*?)^```", "".join(parts), re.MULTILINE | re.DOTALL)
        lines = [line for block in blocks for line in block.splitlines() if line.strip()]
        self.assertGreater(len(lines), 10)
        whole = "\n".join(sources("src/**/*.rt", "specs/**/*.antt", "proofs/**/*.antt",
                                  "must-fail*/*.edit").values())
        whole += "\n".join(path.read_text("utf-8") for path in (TOP / "tests").glob("*.py"))
        for line in lines:
            with self.subTest(line):
                self.assertTrue(line in whole, "no file has this line")


class Versions(unittest.TestCase):
    """All places name the version of the file VERSION."""

    def test_each_place(self):
        version = text_of("VERSION").strip()
        self.assertRegex(version, r"^\d+(\.\d+)+$")
        for page in (TOOL, COMPILER, LANGUAGE, CHECK, SEAL):
            history = text_of(page).split("\n.Sh HISTORY\n")[1]
            self.assertIn(f"\nThis page is of version {version}.\n", f"\n{history}", page)
        self.assertIn(f"cbfscheck {version}", text_of("crates/cbfscheck/src/texts.rt"))
        head = r"^## (.*)\n\nReleased on (.*)\.$"
        newest = re.search(head, text_of("CHANGELOG.md"), re.MULTILINE)
        self.assertEqual(newest[1], version)
        datetime.datetime.strptime(newest[2], "%B %d, %Y")


# What the first 40 lines of the description of a page answer.
FIRST_SCREENS = [
    (TOOL, ".Dl cbfstool image.rom print"), (TOOL, ".Xr cbfscheck 1"),
    (CHECK, ".Dl cbfscheck -r COREBOOT image.rom"), (CHECK, ".Ss Not checked"),
    (COMPILER, ".Dl fmaptool board.fmd board.fmap"), (LANGUAGE, "COREBOOT(CBFS)"),
]
# Wordings that users have misread.
MISREAD = [
    "fit to be flashed", r"\b(is|are) told\b", r", of which\b", r"\bso is\b",
    "any device call fails", "what is there is lost", "bad where a command", "it always hides that",
]


class FirstScreens(unittest.TestCase):
    """A page and the README begin with what most readers look for."""

    def test_each_page(self):
        for page, text in FIRST_SCREENS:
            with self.subTest(page, text=text):
                lines = text_of(page).split("\n.Sh DESCRIPTION\n")[1].splitlines()[:40]
                self.assertIn(text, "\n".join(lines).replace("\\-", "-"))

    def test_the_readme(self):
        readme = text_of(README)
        first = "\n".join(readme.splitlines()[:14])
        for command in ("make cbfstool", "make test"):
            self.assertIn(f"\n| `{command}` |", first)
        promised = readme.split("\n## What is promised")[1].split("\n## Building")[0]
        self.assertEqual(len(re.findall(r"^\d+\. ", promised, re.MULTILINE)), 3)
        pictures = re.findall(r"^!\[.*\]\((.*)\)$", readme, re.MULTILINE)
        self.assertLess(readme.index("\n## Getting it\n"), readme.index("\n!["))
        for picture in pictures:
            self.assertIn(text_of(picture).count("<rect x="), range(3, 9), picture)

    def test_wordings(self):
        names = [f"man/{path.name}" for path in (TOP / "man").iterdir()]
        names += [README, "CONTRIBUTING.md", "dist/README.md", "docs/MOVING.md", "CHANGELOG.md"]
        for name in names:
            # (a text may be broken by a macro or a line)
            text = re.sub(r"(?m)^\.[A-Z][a-z]? ", "", text_of(name)).replace("\n", " ")
            for wording in MISREAD:
                with self.subTest(name, wording=wording):
                    self.assertNotRegex(text, wording)


if __name__ == "__main__":
    unittest.main()
