"""The commands on an image of many equal components, and what each of them prints and changes.

    example = Example(40)
    self.check(COMMANDS["add"], example.files, *example.result("add"))
"""

from tests.image import (
    SHA256, Area, Component, FreeEntry, Image, empty_region, flash_map, hash_attribute, join,
)
from tests.texts import layout, listing, rows

# Commands that take a shared lock of the image, and those that take an exclusive one.
READERS = {
    "print": "cbfstool image print",
    "print -v": "cbfstool image print -v",
    "layout": "cbfstool image layout",
    "extract": "cbfstool image extract -n c1 -f out",
    "read": "cbfstool image read -r SPARE -f out",
    "cbfscheck": "cbfscheck image",
}
WRITERS = {
    "add": "cbfstool image add -n new -t raw -f source",
    "remove": "cbfstool image remove -n c1",
    "write": "cbfstool image write -r SPARE -f region",
    "create": "cbfstool image create -M map",
}
COMMANDS = {**READERS, **WRITERS}

FREE = 8192
SPARE = 4096
KEEPS = b"\xff" * 4
SOURCE = bytes(number * 7 % 251 for number in range(700))
REGION = (b"region\n" * SPARE)[:SPARE]


class Example:
    """An image with the areas FMAP, COREBOOT and SPARE.

    COREBOOT has the components c0, c1 .., each in a cell of 64 bytes with the four bytes `content`,
    and 8192 bytes of free space. SPARE repeats `content`. `more` areas of 64 bytes follow, whose
    names have 32 bytes.
    """

    def __init__(self, count, content=b"data", more=0):
        self.count, self.content = count, content
        start = -(-(56 + 42 * (3 + more)) // 4096) * 4096
        self.size = 64 * count + FREE
        end = start + self.size
        self.areas = [Area("FMAP", 0, start), Area("COREBOOT", start, self.size),
                      Area("SPARE", end, SPARE)]
        self.areas += [Area(f"a{n:031}", end + SPARE + 64 * n, 64) for n in range(more)]
        self.length = end + SPARE + 64 * more
        self.cells = [Component(b"c%d" % number, content) for number in range(count)]
        self.image = self.image_with(*self.cells, FreeEntry(FREE, keeps=KEEPS))
        self.map = flash_map(self.length, self.areas)
        self.files = {"image": self.image, "source": SOURCE, "region": REGION, "map": self.map}

    def image_with(self, *entries, spare=None):
        """Returns the image with these entries in COREBOOT, and with these bytes in SPARE."""
        made = Image(self.length, self.areas).put("COREBOOT", join(*entries))
        return made.put("SPARE", spare or self.content * (SPARE // 4)).data()

    def added(self, *names, **fields):
        """Returns the image with new components, each with the content of `source`."""
        new = [Component(name.encode(), SOURCE, **fields) for name in names]
        rest = FreeEntry(FREE - len(join(*new)), keeps=KEEPS)
        return self.image_with(*self.cells, *new, rest)

    def removed(self, *numbers):
        """Returns the image without the components of these numbers, which are neighbours."""
        first, end = numbers[0], numbers[-1] + 1
        return self.image_with(*self.cells[:first], FreeEntry(64 * len(numbers)),
                               *self.cells[end:], FreeEntry(FREE, keeps=KEEPS))

    def written(self):
        """Returns the image whose area SPARE has the content of `region`."""
        return self.image_with(*self.cells, FreeEntry(FREE, keeps=KEEPS), spare=REGION)

    def created(self):
        """Returns the image that `create` makes."""
        return Image(self.length, self.areas).put("COREBOOT", empty_region(self.size)).data()

    def listing(self):
        """Returns the output of `print`, and of `print -v`."""
        return listing(self.size, {64 * number: cell for number, cell in enumerate(self.cells)})

    def layout(self):
        """Returns the output of `layout`."""
        return layout(self.length, self.areas)

    def findings(self, *states):
        """Returns the rows of cbfscheck for the image, with these rows of the components."""
        return ["remark - - 0x0 flashmap", *states, "remark COREBOOT - - complete",
                f"remark COREBOOT - - components {self.count}",
                f"remark COREBOOT - - free_bytes {FREE}",
                f"remark COREBOOT - - largest_content_that_add_takes {FREE - 32}"]

    def without_hashes(self):
        """Returns the rows of `cbfscheck -v` for the components."""
        return [f"remark COREBOOT c{n} {64 * n:#x} no_hash" for n in range(self.count)]

    def output(self, name):
        """Returns what a command prints."""
        report = rows(*self.findings(), "sound:_0_bad,_5_remarks,_0_changes")
        printed = {"print": self.listing, "print -v": self.listing, "layout": self.layout,
                   "cbfscheck": lambda: report}
        return printed[name]() if name in printed else ""

    def left(self, name):
        """Returns the files that a command makes or changes."""
        made = {
            "extract": lambda: {"out": self.content},
            "read": lambda: {"out": self.content * (SPARE // 4)},
            "add": lambda: {"image": self.added("new")},
            "remove": lambda: {"image": self.removed(1)},
            "write": lambda: {"image": self.written()},
            "create": lambda: {"image": self.created()},
        }
        return made[name]() if name in made else {}


# ---- Commands of all programs, on files of this module

NEW = Example(600)
# (its ten more areas make it as long as the new image)
OLD = Example(590, content=b"else", more=10)
DESCRIPTOR = b"F 64K { FMAP 4K COREBOOT(CBFS) 32K" + b" # a long comment\n" * 400 + b" }\n"
MAP_OF_DESCRIPTOR = flash_map(
    65536, [Area("FMAP", 0, 4096), Area("COREBOOT", 4096, 32768)], name=b"F")
FILES = {**NEW.files, "old": OLD.image, "input": DESCRIPTOR}


def report_of_changes():
    """Returns the report of `old` and `image`, with all rows."""
    blocks = range(0, NEW.length, 4096)
    count = sum(OLD.image[at : at + 4096] != NEW.image[at : at + 4096] for at in blocks)
    return rows(
        *NEW.findings(*NEW.without_hashes()),
        f"change - - - erase_blocks_differ {count}",
        "change FMAP - 0x0 erase_blocks_differ 1",
        "change COREBOOT - 0x1000 area_resized_from 0xb380",
        "change SPARE - 0xc600 area_moved_from 0xc380",
        "change SPARE - 0xc600 erase_blocks_differ 1",
        *(f"change a{n:031} - {0xD380 + 64 * n:#x} area_gone" for n in range(10)),
        *(f"change COREBOOT c{n} {64 * n:#x} content_changed" for n in range(590)),
        *(f"change COREBOOT c{n} {64 * n:#x} component_added" for n in range(590, 600)),
        "sound:_0_bad,_605_remarks,_615_changes",
    )


HASH = [hash_attribute(SHA256, SOURCE)]

# For each command what it prints, and the files that it makes or changes.
RESULTS = {
    **{line: (NEW.output(name), NEW.left(name)) for name, line in COMMANDS.items()},
    "cbfstool image add -n new -t raw -f source -A sha256":
        ("", {"image": NEW.added("new", attributes=HASH)}),
    "cbfstool out create -M map": ("", {"out": NEW.created()}),
    "cbfscheck -v old image": (report_of_changes(), {}),
    "fmaptool input out": ("", {"out": MAP_OF_DESCRIPTOR}),
}
