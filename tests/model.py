"""A second model of cbfscheck: the rows that it has to report of an image, and of two.

The model is written from docs/FORMAT.md and not from the programs: it reads images by
tests/reading.py, and the structures of a board by tests/board_model.py. tests/test_check_random.py
and tests/fuzz.py compare the program with it.

    new = Reading(image)
    rows = report(None, new, Wishes())              the rows of one image, with those that are left
                                                    out without -v
    text(rows, components(None, new, Wishes()))     the lines that cbfscheck prints
    document(["image.rom"], rows)                   what it prints with --json

A new row needs its code in `CODES`, with its verdict and its text, and a line in the function of
its group, at its place in the order of the document.
"""

import collections
import json
import struct
from typing import NamedTuple, Optional, Tuple

from tests import board_model
from tests.image import (
    BOOTBLOCK, CBFS_HEADER, CELL_SIZE, COMPRESSION_TAG, DELETED, HASH_TAG, HASHES, HEAD_SIZE,
    HEADER_SIZE, MAGIC, PRESERVED, SHA256, SIMPLE_ELF, STAGE, STAGE_TAG, digest,
)
from tests.reading import BAD_SIZE, NO_CBFS, UNUSED_TAGS, Reading, first_map, has_entry
from tests.regions import runs
from tests.texts import COMPRESSIONS, TYPES, shown

BLOCK = 4096
CHECKED, COMPARED = 2, 8
MOST_OF_A_KIND = 16
MOST_COMPARED = 4096
LONGEST_METADATA = 256
KEPT_BYTES = 4
LEGACY_STAGE, FIT_PAYLOAD, FSP = 0x10, 0x21, 0x60
LOADED = {LEGACY_STAGE, STAGE, SIMPLE_ELF, FIT_PAYLOAD, FSP}
# The areas from which a firmware with CBFS verification loads components.
LOADED_FROM = (b"COREBOOT", b"FW_MAIN_A", b"FW_MAIN_B")
SHAPES = {BAD_SIZE: "region-size", NO_CBFS: "no-cbfs"}
MORE = "more of these"

# The verdict and the text of each code. Some rows replace the text, or put words around it.
CODES = {
    "no-map": ("bad", "no flashmap"),
    "map": ("remark", "flashmap"),
    "other-map": ("remark", "another flashmap"),
    "map-size": ("bad", "the flashmap states another size than the image has"),
    "area-outside": ("bad", "ends outside the image"),
    "area-empty": ("remark", "has no bytes"),
    "area-name": ("remark", "name isn't UTF-8"),
    "area-same-name": ("bad", "has the name of an earlier area"),
    "area-overlaps": ("bad", "overlaps"),
    "too-many-areas": ("bad", "too many areas to look for overlaps"),
    "no-map-area": ("bad", "no area FMAP"),
    "map-area": ("bad", "doesn't begin with the flashmap"),
    "metadata-hash-valid": ("remark", "metadata hash {} valid"),
    "metadata-hash-invalid": ("bad", "metadata hash {} invalid: run cbfsseal IMAGE"),
    "map-hash-valid": ("remark", "map hash {} valid"),
    "map-hash-invalid": ("bad", "map hash {} invalid: run cbfsseal IMAGE"),
    "anchor-not-checked": ("bad", "anchor isn't checked: COREBOOT is damaged"),
    "anchor-unknown-algorithm": ("bad", "anchor with an unknown algorithm"),
    "anchor-cut-off": ("bad", "anchor is cut off"),
    "area-not-checked": (
        "remark", "isn't checked: checked areas would exceed twice the image"),
    "region-size": ("bad", "size is less than 64"),
    "no-cbfs": ("bad", "no CBFS"),
    "component-shadowed": ("bad", "has the name of an earlier component"),
    "metadata-too-long": ("bad", "metadata longer than 256 bytes: firmware can't find it"),
    "component-name": ("remark", "name isn't UTF-8"),
    "component-type": ("remark", "type without a name"),
    "hash-missing": ("remark", "no hash"),
    "hash-valid": ("remark", "{} valid"),
    "hash-invalid": ("bad", "{} invalid"),
    "hash-unsupported": ("remark", "hash unsupported"),
    "hash-other-algorithm": ("remark", "hash isn't of the anchor's algorithm"),
    "attributes-invalid": ("bad", "stage has no stage attribute of 24 bytes"),
    "component-deleted": ("remark", "deleted component"),
    "complete": ("remark", "complete"),
    "tail": ("remark", "unused tail"),
    "tail-bytes": ("bad", "unused tail has other bytes than 0xff and 0x00"),
    "tail-entry": ("bad", "entry in the unused tail"),
    "entry-damaged": ("bad", "damaged entry: {}"),
    "components": ("remark", "components"),
    "no-components": ("remark", "no components"),
    "free-bytes": ("remark", "free bytes"),
    "largest-content": ("remark", "largest content that add takes"),
    "no-room": ("remark", "no room for a component"),
    "region-unaligned": ("remark", "size is no multiple of 64"),
    "no-area": ("bad", "no such area"),
    "need-missing": ("bad", "needed component isn't there"),
    "need-elsewhere": ("bad", "needed component is elsewhere"),
    **board_model.CODES,
    "image-size": ("bad", "image size changed from"),
    "blocks": ("change", "erase blocks differ"),
    "no-old-map": ("change", "the old image has no flashmap"),
    "map-moved": ("change", "flashmap moved from"),
    "map-base": ("change", "base address changed from"),
    "map-name": ("change", "name of the flashmap changed"),
    "anchor-added": ("change", "anchor added"),
    "anchor-gone": ("bad", "anchor gone"),
    "anchor-algorithm-changed": ("change", "anchor's algorithm changed from {}"),
    "structure-gone": ("bad", "GBB is gone"),
    "slot-outdated": ("bad", "signed bytes changed, but not the signatures"),
    "area-added": ("change", "area added"),
    "area-moved": ("change", "area moved from"),
    "area-resized": ("change", "area resized from"),
    "area-flags": ("change", "flags changed from"),
    "area-changed": ("change", "erase blocks differ"),
    "area-not-compared": ("change", "not compared"),
    "area-gone": ("change", "area gone"),
    "component-added": ("change", "component added"),
    "component-type-changed": ("change", "type changed"),
    "component-length-changed": ("change", "length changed"),
    "component-content-changed": ("change", "content changed"),
    "component-attributes-changed": ("change", "attributes changed"),
    "component-moved": ("change", "component moved from"),
    "component-removed": ("change", "component removed"),
    "components-not-compared": ("change", "components not compared"),
    "none-preserved": ("remark", "no area has the flag PRESERVE"),
}
# The codes whose detail is a hexadecimal number in a text.
HEXADECIMAL = {
    "component-type", "firmware-table-invalid", "gbb-flags", "image-size", "map-moved", "map-base",
    "area-moved", "area-resized", "area-flags", "component-moved",
}


class Need(NamedTuple):
    """A need of a component: its area, its name, and its offset, "end" or None."""

    area: bytes
    component: bytes
    place: object = None


class Wishes(NamedTuple):
    """What a command line asks for: names of areas and needs, and options."""

    areas: Tuple[bytes, ...] = ()
    kept: Tuple[bytes, ...] = ()
    needs: Tuple[Need, ...] = ()
    is_verbose: bool = False
    needs_hashes: bool = False
    keeps_preserved: bool = False
    is_flash: bool = False


class Row(NamedTuple):
    """A row of a report. `other` is the name of another area."""

    verdict: str
    code: str
    area: Optional[bytes] = None
    component: Optional[bytes] = None
    position: Optional[int] = None
    what: str = ""
    value: Optional[int] = None
    other: Optional[bytes] = None


class ListedArea(NamedTuple):
    """An area as --list shows it."""

    area: bytes
    offset: int
    size: int
    flags: int


class Listed(NamedTuple):
    """A component as --list shows it: `content` is the offset of its content in the area.

    `stored` has the digits of the stored digest, if that is one of SHA-256 or SHA-512, and `sha256`
    those of the SHA-256 of the content as it is stored.
    """

    area: bytes
    component: bytes
    position: int
    type: str
    length: int
    compression: str
    hash: str
    content: int
    stored: Optional[str]
    sha256: str


class Listing(NamedTuple):
    """What --list shows: the areas of the flash map, and the components of the checked areas."""

    areas: list
    components: list


def finding(code, area=None, component=None, position=None, word="", **others):
    """Returns a row with the verdict and the text of its code, which may have a word in it.

    `others` replaces fields, such as the verdict, or adds some.
    """
    verdict, what = CODES[code]
    fields = {"verdict": verdict, "what": what.format(word), **others}
    return Row(code=code, area=area, component=component, position=position, **fields)


def end_of(area):
    """Returns the offset at which an area ends."""
    return area.offset + area.size


# ---- Reports as texts and as documents


def line(row):
    """Returns a row as a line of text."""
    place = "-" if row.position is None else f"{row.position:#x}"
    names = ["-" if name is None else shown(name) for name in (row.area, row.component)]
    fields = [row.verdict, *names, place, row.what]
    if row.value is not None:
        is_hexadecimal = row.code in HEXADECIMAL and row.what != MORE
        fields.append(f"{row.value:#x}" if is_hexadecimal else str(row.value))
    if row.other is not None:
        fields.append(shown(row.other))
    return "\t".join(fields) + "\n"


def area_line(row):
    """Returns an area of --list as a line of text."""
    fields = [shown(row.area), f"{row.offset:#x}", str(row.size), f"{row.flags:#x}"]
    return "\t".join(["area", *fields]) + "\n"


def component_line(row):
    """Returns a component of --list as a line of text."""
    fields = [shown(row.area), shown(row.component), f"{row.position:#x}", row.type,
              str(row.length), row.compression, row.hash, f"{row.content:#x}",
              "-" if row.stored is None else row.stored, row.sha256]
    return "\t".join(["component", *fields]) + "\n"


def listed_lines(listing):
    """Returns what --list shows as lines of text."""
    return [*map(area_line, listing.areas), *map(component_line, listing.components)]


def counts(rows):
    """Returns how many rows of each verdict there are: bad, remarks, changes."""
    count = collections.Counter(row.verdict for row in rows)
    return [count["bad"], count["remark"], count["change"]]


def conclusion(rows, is_flash):
    """Returns the verdict in words: on the image, or with --flash on flashing it."""
    is_bad = counts(rows)[0] > 0
    if is_flash:
        return "must not be flashed" if is_bad else "may be flashed"
    return "not sound" if is_bad else "sound"


def shortened(rows):
    """Returns at most 16 rows of a kind, and then how many more of each kind there are."""
    count, left = collections.Counter(), []
    for row in rows:
        count[row.verdict, row.code] += 1
        left += [row] * (count[row.verdict, row.code] <= MOST_OF_A_KIND)
    return left + [Row(verdict, code, what=MORE, value=number - MOST_OF_A_KIND)
                   for (verdict, code), number in count.items() if number > MOST_OF_A_KIND]


def text(rows, listing=None, is_verbose=True, is_flash=False):
    """Returns what cbfscheck prints: what --list shows, the rows, and the conclusion."""
    printed = rows if is_verbose else shortened(rows)
    lines = [*([] if listing is None else listed_lines(listing)), *map(line, printed)]
    last = "{}: {} bad, {} remarks, {} changes\n".format(conclusion(rows, is_flash), *counts(rows))
    return "".join(lines) + last


def member(row):
    """Returns a row, or a component of the list, as a member of a document."""
    fields = {key: value for key, value in row._asdict().items() if value is not None}
    names = {key: value.decode() if is_text(value) else list(value)
             for key, value in fields.items() if isinstance(value, bytes)}
    return {**fields, **names}


def members(rows):
    """Returns rows, areas or components as members of a document."""
    return [member(row) for row in rows]


def document(images, rows, listing=None, is_verbose=True, is_flash=False):
    """Returns what cbfscheck prints with --json, and with --list for a listing.

    `images` are the paths as they were given, the old one first.
    """
    *old, new = images
    printed = rows if is_verbose else shortened(rows)
    bad, remarks, changes = counts(rows)
    whole = {
        "format": 1, "image": new, **({"old": old[0]} if old else {}),
        **({} if listing is None else {"areas": members(listing.areas),
                                       "components": members(listing.components)}),
        "rows": members(printed),
        "verdict": conclusion(rows, is_flash), "bad": bad, "remarks": remarks,
        "changes": changes,
    }
    return json.dumps(whole, ensure_ascii=False, separators=(",", ":")) + "\n"


# ---- The flash map


def is_text(name):
    """Returns whether a name is UTF-8."""
    try:
        return name.decode() is not None
    except UnicodeDecodeError:
        return False


def overlap(one, other):
    """Returns whether two areas share a byte, and neither holds the other."""
    return (one.offset < other.offset < end_of(one) < end_of(other)
            or other.offset < one.offset < end_of(other) < end_of(one))


def map_rows(image):
    """Returns the rows of the flash map."""
    if image.map is None:
        return [finding("no-map")]
    rows = [finding("map", position=image.map.position)]
    other = first_map(image.data, image.map.position + 1)
    rows += [finding("other-map", position=other.position)] if other else []
    rows += [finding("map-size")] * (image.map.size != len(image.data))
    for area in image.areas:
        place = {"area": area.name, "position": area.offset}
        rows += [finding("area-outside", **place)] * (not image.is_inside(area))
        rows += [finding("area-empty", **place)] * (area.size == 0)
        rows += [finding("area-name", **place)] * (not is_text(area.name))
    return rows + same_name_rows(image) + overlap_rows(image) + map_area_rows(image)


def same_name_rows(image):
    """Returns the rows of areas with the name of an earlier one."""
    rows, names = [], set()
    for area in image.areas:
        if area.name in names:
            rows.append(finding("area-same-name", area.name, None, area.offset, other=area.name))
        names.add(area.name)
    return rows


def overlap_rows(image):
    """Returns the rows of areas that overlap others."""
    if len(image.areas) > MOST_COMPARED:
        return [finding("too-many-areas")]
    rows = []
    for area in image.areas:
        other = next((other for other in image.areas if overlap(area, other)), None)
        if other:
            rows.append(finding("area-overlaps", area.name, None, area.offset, other=other.name))
    return rows


def map_area_rows(image):
    """Returns the row of an area FMAP that is missing or elsewhere."""
    own, at = image.first(b"FMAP"), image.map.position
    if own is None:
        return [finding("no-map-area")]
    begins_with_it = own.offset == at and at + len(image.map.bytes) <= end_of(own)
    return [] if begins_with_it else [finding("map-area", own.name, position=own.offset)]


# ---- The anchor


def anchor_rows(image):
    """Returns the rows of the anchor, if the image has one."""
    anchor = image.anchor
    if anchor is None:
        return []
    place = (b"COREBOOT", b"bootblock") if anchor.in_component else (b"BOOTBLOCK", None)
    if anchor.is_cut_off():
        return [finding("anchor-cut-off", *place)]
    if anchor.algorithm is None:
        return [finding("anchor-unknown-algorithm", *place)]
    right = image.right_digests()
    if right is None:
        return [finding("anchor-not-checked", *place, anchor.position)]
    rows = []
    for what, one, other in zip(("metadata", "map"), anchor.digests(), right):
        code = f"{what}-hash-{'valid' if one == other else 'invalid'}"
        rows.append(finding(code, *place, anchor.position, HASHES[anchor.algorithm]))
    return rows


def usable_algorithm(image):
    """Returns the algorithm of an anchor that can be used, or None."""
    anchor = image.anchor
    return anchor.algorithm if anchor and anchor.is_usable() else None


# ---- The areas


def begins_with_entry(image, area):
    """Returns whether an area inside the image has room for a head and begins with a magic."""
    is_long = area.size >= HEAD_SIZE and image.is_inside(area)
    return is_long and image.data[area.offset : area.offset + 8] == MAGIC


def file_systems(image):
    """Returns the areas that begin with an entry, without those above a smaller one."""
    smallest = {}
    for area in image.areas:
        if area.size >= HEAD_SIZE:
            least = smallest.get(area.offset, area.size)
            smallest[area.offset] = min(area.size, least)
    return [area for area in image.areas
            if begins_with_entry(image, area) and smallest[area.offset] == area.size]


def expected_names(old, wishes):
    """Returns the names of areas that are checked whatever they begin with."""
    names = {b"COREBOOT", *wishes.areas, *(need.area for need in wishes.needs)}
    return names | {area.name for area in file_systems(old)} if old else names


class Checked:
    """The areas of an image that are checked, and the rows of these and of others."""

    def __init__(self, image, expected, wishes):
        self.image = image
        self.areas, self.rows = [], []
        left, chosen = CHECKED * len(image.data), file_systems(image)
        for area in image.areas:
            is_expected = area.name in expected and image.is_inside(area)
            if not is_expected and area not in chosen:
                continue
            if area.size > left:
                verdict = "bad" if is_expected else "remark"
                self.rows.append(finding("area-not-checked", area.name, position=area.offset,
                                         verdict=verdict))
                continue
            left -= area.size
            self.areas.append(area)
            self.rows += RegionRows(image, area, wishes).rows()


def attribute_fault(cell):
    """Returns the text of the first fault of a component's attributes, or None.

    coreboot's firmware goes on behind an attribute with an unused tag.
    """
    seen = set()
    for tag, data in cell.all_attributes():
        if tag not in UNUSED_TAGS and seen.intersection(UNUSED_TAGS):
            return "an attribute stands behind the end of the attributes"
        fault = None
        if tag == COMPRESSION_TAG and len(data) != 16:
            fault = "compression attribute hasn't 16 bytes"
        elif tag == HASH_TAG:
            fault = digest_fault(data, HASH_TAG in seen)
        elif tag == STAGE_TAG and cell.type == STAGE and STAGE_TAG not in seen:
            fault = stage_fault(data)
        if fault:
            return fault
        seen.add(tag)
    return NO_STAGE if cell.type == STAGE and STAGE_TAG not in seen else None


def digest_fault(data, is_second):
    """Returns the text of the fault of a hash attribute, or None."""
    wrong_length = "digest attribute has a wrong length"
    if len(data) < 12:
        return wrong_length
    # (coreboot reads the last byte of the number only)
    algorithm = data[11]
    if algorithm not in HASHES:
        return "digest has an unknown algorithm"
    if len(data) != 12 + len(digest(algorithm, b"")):
        return wrong_length
    return "second digest: only the first is compared" if is_second else None


NO_STAGE = "stage has no stage attribute of 24 bytes"


def stage_fault(data):
    """Returns the text of the fault of a stage attribute, or None."""
    if len(data) != 24:
        return NO_STAGE
    entry, memory = struct.unpack(">II", data[16:24])
    return "entry point of the stage lies outside its memory" if entry >= memory else None


class RegionRows:
    """The rows of an area that is checked."""

    def __init__(self, image, area, wishes):
        self.area = area
        self.cut = image.entries(area)
        self.wishes = wishes
        self.anchor = usable_algorithm(image) if area.name in LOADED_FROM else None

    def finding(self, code, *place, **fields):
        """Returns a row of the area."""
        return finding(code, self.area.name, *place, **fields)

    def rows(self):
        """Returns the rows: the cells, how they end, the counts, and the size."""
        size = [self.finding("region-unaligned")] * self.is_unaligned()
        if self.cut.shape:
            return [self.finding(SHAPES[self.cut.shape]), *size]
        rows, names = [], set()
        for cell in self.cut.cells:
            if not cell.is_free():
                rows += self.component(cell, cell.name in names)
                names.add(cell.name)
            elif cell.type == DELETED:
                rows.append(self.finding("component-deleted", None, cell.position))
        return [*rows, *self.end(), *self.counts(), *size]

    def is_unaligned(self):
        """Returns whether the area has room for an entry, and bytes that no entry can fill."""
        return self.area.size > CELL_SIZE and self.area.size % CELL_SIZE != 0

    def component(self, cell, is_shadowed):
        """Returns the rows of a component."""
        place = cell.name, cell.position
        rows = [self.finding("component-shadowed", *place)] * is_shadowed
        is_long = cell.offset > LONGEST_METADATA
        rows += [self.finding("metadata-too-long", *place)] * is_long
        rows += [self.finding("component-name", *place)] * (not is_text(cell.name))
        has_type = cell.type in TYPES
        rows += [self.finding("component-type", *place, value=cell.type)] * (not has_type)
        rows += self.hash(cell, place)
        rows += [self.finding("hash-other-algorithm", *place)] * self.has_other_hash(cell)
        fault = attribute_fault(cell)
        return rows + [self.finding("attributes-invalid", *place, what=fault)] * bool(fault)

    def hash(self, cell, place):
        """Returns the row of a component's digest, if it has one."""
        state = cell.hash_state()
        is_exempt = cell.type in (BOOTBLOCK, CBFS_HEADER)
        is_bad = self.wishes.needs_hashes and not is_exempt or self.is_refused(cell)
        if state == "absent":
            is_needed = (self.wishes.needs_hashes or self.anchor is not None) and not is_exempt
            if not (self.wishes.is_verbose or is_needed):
                return []
            return [self.finding("hash-missing", *place, verdict=self.verdict(is_bad))]
        if state == "unsupported":
            return [self.finding("hash-unsupported", *place, verdict=self.verdict(is_bad))]
        algorithm, result = state.split()
        changes_later = self.anchor is not None and cell.name == b"intel_fit"
        is_bad = result == "invalid" and not changes_later
        return [self.finding(f"hash-{result}", *place, algorithm, verdict=self.verdict(is_bad))]

    def verdict(self, is_bad):
        """Returns the verdict of a row that is no change."""
        return "bad" if is_bad else "remark"

    def is_refused(self, cell):
        """Returns whether the firmware refuses a component without a digest that it can use."""
        stored = cell.stored_digest()
        is_usable = stored is not None and stored[1] is not None
        return self.anchor is not None and cell.type in LOADED and not is_usable

    def has_other_hash(self, cell):
        """Returns whether the first digest is not of the anchor's algorithm."""
        stored = cell.stored_digest()
        if self.anchor is None or stored is None:
            return False
        return stored[0] != self.anchor or stored[1] is None

    def end(self):
        """Returns the rows of how the cells end."""
        region, end = self.cut.region, self.cut.end
        if self.cut.damage:
            return [self.finding("entry-damaged", None, end, self.cut.damage)]
        if end == len(region):
            return [self.finding("complete")]
        rows = [self.finding("tail", None, end)]
        others = (end + at for at, byte in enumerate(region[end:-KEPT_BYTES])
                  if byte not in (0, 0xFF))
        other = next(others, None)
        rows += [self.finding("tail-bytes", None, other)] if other is not None else []
        starts = range(end, len(region), CELL_SIZE)
        return rows + [self.finding("tail-entry", None, at) for at in starts
                       if has_entry(region, at)]

    def counts(self):
        """Returns the rows of the numbers of components and of free bytes."""
        components = len(self.cut.components)
        rows = [self.finding("components", value=components) if components
                else self.finding("no-components")]
        free = sum(len(cell.bytes) for cell in self.cut.cells if cell.is_free())
        rows.append(self.finding("free-bytes", value=free))
        rooms = [end - start - HEADER_SIZE - KEPT_BYTES * (end == len(self.cut.region))
                 for start, end in runs(self.cut.cells)]
        if not rooms:
            return [*rows, self.finding("no-room")]
        return [*rows, self.finding("largest-content", value=max(rooms))]


# ---- The options


def missing_rows(areas, names):
    """Returns the rows of names that no area has."""
    there = {area.name for area in areas}
    return [finding("no-area", name) for name in names if name not in there]


def need_rows(need, checked):
    """Returns the row of a need that is not met."""
    area = next((area for area in checked.areas if area.name == need.area), None)
    found = checked.image.entries(area).component(need.component) if area else None
    if found is None:
        return [finding("need-missing", need.area, need.component)]
    at_end = area.size - len(found.content)
    wanted = at_end if need.place == "end" else need.place
    is_elsewhere = wanted not in (None, found.start)
    return [finding("need-elsewhere", need.area, need.component, found.start)] * is_elsewhere


# ---- Two images


class Changes:
    """The rows of what changes from an old image to a new one."""

    def __init__(self, old, new, checked, wishes):
        self.old, self.new, self.checked, self.wishes = old, new, checked, wishes
        # (an old image without a map has the areas of the new one)
        self.old_areas = old.areas if old.map else new.areas
        self.before, self.after = firsts(self.old_areas), firsts(new.areas)
        self.keeps_preserved = wishes.keeps_preserved or wishes.is_flash
        self.kept = {*wishes.kept, *self.preserved()}
        self.vital = self.kept | {area.name for area in file_systems(old)}

    def preserved(self):
        """Returns the names of areas that are preserved in one of the images."""
        areas = [*self.old_areas, *self.new.areas] if self.keeps_preserved else []
        return {area.name for area in areas if area.flags & PRESERVED}

    def rows(self):
        """Returns the rows, in order."""
        rows = [*self.image(), *self.maps(), *self.anchors(), *self.structures()]
        for row in [*self.areas(), *self.regions()]:
            names = self.vital if row.code == "area-gone" else self.kept
            rows.append(row._replace(verdict="bad") if row.area in names else row)
        rows += missing_rows([*self.old_areas, *self.new.areas], self.wishes.kept)
        return rows + self.unpreserved()

    def unpreserved(self):
        """Returns the row of areas that are to be preserved, if there are none."""
        if not self.keeps_preserved or self.preserved():
            return []
        is_bad = self.wishes.is_flash and not self.wishes.kept
        return [finding("none-preserved", **({"verdict": "bad"} if is_bad else {}))]

    def image(self):
        """Returns the rows of the lengths and of the erase blocks of the images."""
        old, new = self.old.data, self.new.data
        longest = max(len(old), len(new))
        count = sum(old[at : at + BLOCK] != new[at : at + BLOCK]
                    for at in range(0, longest, BLOCK))
        rows = [finding("image-size", value=len(old))] * (len(old) != len(new))
        return rows + [finding("blocks", value=count)] * (count > 0)

    def maps(self):
        """Returns the rows of the flash maps."""
        old, new = self.old.map, self.new.map
        if new is None or old is None:
            return [finding("no-old-map")] * (new is not None)
        rows = [finding("map-moved", value=old.position)] * (old.position != new.position)
        # (before flashing, another board's map is bad)
        verdict = "bad" if self.wishes.is_flash else "change"
        rows += [finding("map-base", value=old.base, verdict=verdict)] * (old.base != new.base)
        return rows + [finding("map-name", verdict=verdict)] * (old.name != new.name)

    def anchors(self):
        """Returns the row of anchors that differ."""
        old, new = usable_algorithm(self.old), usable_algorithm(self.new)
        if old == new:
            return []
        if old is None or new is None:
            return [finding("anchor-gone" if new is None else "anchor-added")]
        return [finding("anchor-algorithm-changed", word=HASHES[old])]

    def structures(self):
        """Returns the rows of the structures that only the old image has, and of slots whose
        signatures are those of other bytes."""
        boards = [board_model.BoardRows(image, finding) for image in (self.old, self.new)]
        rows = [finding("structure-gone", area, what=text)
                for area, text in board_model.lost_structures(*boards)]
        # (an old image without a map has the areas of the new one)
        before = Reading(self.old.data, self.old.map or self.new.map)
        outdated = board_model.outdated_slots(
            board_model.BoardRows(before, finding), boards[1])
        return rows + [finding("slot-outdated", area) for area in outdated]

    def areas(self):
        """Returns the rows of the areas of both images."""
        rows, left = [], COMPARED * len(self.new.data)
        for name, area in self.after.items():
            if name not in self.before:
                rows.append(finding("area-added", name, position=area.offset))
                continue
            more, compared = self.area(self.before[name], area, left)
            rows, left = rows + more, left - compared
        return rows + [finding("area-gone", name, position=area.offset)
                       for name, area in self.before.items() if name not in self.after]

    def area(self, old, new, left):
        """Returns the rows of an area of both images, and how many bytes were compared."""
        place = {"area": new.name, "position": new.offset}
        rows = []
        for code, before, now in (("area-moved", old.offset, new.offset),
                                  ("area-resized", old.size, new.size),
                                  ("area-flags", old.flags, new.flags)):
            rows += [finding(code, value=before, **place)] * (before != now)
        if old.size != new.size:
            return rows, 0
        if not self.are_inside(old, new) or new.size > left:
            return [*rows, finding("area-not-compared", **place)], 0
        count = sum(self.counts_block(old, new, at) for at in range(0, new.size, BLOCK))
        return rows + [finding("area-changed", value=count, **place)] * (count > 0), new.size

    def are_inside(self, old, new):
        """Returns whether the areas of a pair lie inside their images."""
        return self.old.is_inside(old) and self.new.is_inside(new)

    def counts_block(self, old, new, at):
        """Returns whether a block of an area differs and is counted for this area."""
        end = min(at + BLOCK, new.size)
        before = self.old.data[old.offset + at : old.offset + end]
        if before == self.new.data[new.offset + at : new.offset + end]:
            return False
        place = new.offset + at, new.offset + end
        return new.name in self.kept or not self.is_held(place, old, new)

    def is_held(self, place, old, new):
        """Returns whether a smaller pair of areas, which moved as this one, holds a place."""
        for name, other in self.after.items():
            was = self.before.get(name)
            if (was and was.size == other.size < new.size and self.are_inside(was, other)
                    and was.offset - other.offset == old.offset - new.offset
                    and other.offset <= place[0] and place[1] <= end_of(other)):
                return True
        return False

    def regions(self):
        """Returns the rows of the components of each area that is checked in the new image."""
        rows, left = [], len(self.old.data)
        for area in self.checked.areas:
            was = self.before.get(area.name)
            if was is None:
                continue
            if not self.old.is_inside(was) or was.size > left:
                rows.append(finding("components-not-compared", area.name, None, area.offset))
                continue
            left -= was.size
            rows += component_changes(area, self.old.entries(was), self.new.entries(area))
        return rows


def firsts(areas):
    """Returns the first area of each name."""
    first = {}
    for area in areas:
        first.setdefault(area.name, area)
    return first


def first_components(cut):
    """Returns the first component of each name."""
    first = {}
    for cell in cut.components:
        first.setdefault(cell.name, cell)
    return first


def component_changes(area, old, new):
    """Returns the rows of the components of an area, by its cuts in both images."""
    before, after, rows = first_components(old), first_components(new), []
    for name, cell in after.items():
        place = area.name, name, cell.position
        if name not in before:
            rows.append(finding("component-added", *place))
            continue
        rows += [finding(code, *place) for code in first_difference(before[name], cell)]
        was = before[name].position
        rows += [finding("component-moved", *place, value=was)] * (was != cell.position)
    return rows + [finding("component-removed", area.name, name, cell.position)
                   for name, cell in before.items() if name not in after]


def first_difference(old, new):
    """Returns the code of what differs first between two components, as a list."""
    differences = [
        ("component-type-changed", old.type != new.type),
        ("component-length-changed", len(old.content) != len(new.content)),
        ("component-content-changed", old.content != new.content),
        ("component-attributes-changed", old.stored != new.stored),
    ]
    return [code for code, differs in differences if differs][:1]


# ---- The report


def listing(old, new, wishes):
    """Returns the areas of the map and the components of all areas that are checked."""
    areas = [ListedArea(area.name, area.offset, area.size, area.flags) for area in new.areas]
    return Listing(areas, components(old, new, wishes))


def components(old, new, wishes):
    """Returns the components of all areas that are checked, as --list shows them."""
    rows = []
    for area in Checked(new, expected_names(old, wishes), wishes).areas:
        for cell in new.entries(area).components:
            packing, state = cell.compression(), cell.hash_state()
            kind = TYPES.get(cell.type, hex(cell.type))
            texts = {"absent": "no hash", "unsupported": "hash unsupported"}
            stored = None if state in texts else cell.stored_digest()[1].hex()
            rows.append(Listed(area.name, cell.name, cell.position, kind, len(cell.content),
                               COMPRESSIONS.get(packing, hex(packing)), texts.get(state, state),
                               cell.start, stored, digest(SHA256, cell.content).hex()))
    return rows


def report(old, new, wishes):
    """Returns all rows of a report on an image, or on what it changes of an old one."""
    checked = Checked(new, expected_names(old, wishes), wishes)
    rows = [*map_rows(new), *anchor_rows(new), *checked.rows]
    rows += missing_rows(new.areas, wishes.areas)
    for need in wishes.needs:
        rows += need_rows(need, checked)
    rows += board_model.BoardRows(new, finding).rows()
    return rows + (Changes(old, new, checked, wishes).rows() if old else [])
