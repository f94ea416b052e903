"""A second model of cbfstool: what each command does with an image.

The model is written from the sections "Places and addition", "Empty entries and removal", "Whole
images" and "Refusals" of docs/FORMAT.md, and reads images by tests/reading.py. tests/fuzz.py
compares the program with it.

    result = add(Reading(image), "COREBOOT", Addition(b"logo", RAW, content))
    result.refusal       the text of the refusal, or None
    result.output        what is printed
    result.file          what an output file has
    result.image         the bytes of the image
"""

from typing import NamedTuple, Optional

from tests.image import (
    CELL_SIZE, DELETED, NULL, Component, Image, empty_region, hash_attribute, round_up,
)
from tests.reading import BAD_SIZE, Reading, map_at
from tests.regions import rows, runs, with_component, without_component
from tests.texts import layout as layout_text

LONGEST_NAME = 127


class Result(NamedTuple):
    """What a command does. Without a refusal it also may print notes."""

    image: bytes
    refusal: Optional[str] = None
    output: str = ""
    file: bytes = b""
    notes: tuple = ()


class Refusal(Exception):
    """The text of a refusal, and what is printed before it."""

    def __init__(self, text, output=""):
        super().__init__(text)
        self.text = text
        self.output = output


def require(holds, text):
    """Refuses with the text if a rule does not hold."""
    if not holds:
        raise Refusal(text)


def command(function):
    """Makes a function that returns the refusal as a result, which leaves the image."""
    def run(image, *arguments):
        try:
            return function(image, *arguments)
        except Refusal as refusal:
            return Result(image.data, refusal.text, refusal.output)

    return run


def region_of(image, name):
    """Returns the area on which a command works, or refuses."""
    require(image.map, "no FMAP")
    area = image.first(name)
    require(area, "no such region")
    require(image.is_inside(area), "region outside the image")
    return area


def walk(image, area):
    """Returns the cut of a region without damage, or refuses."""
    found = image.cut(area)
    if found.refusal():
        raise Refusal(found.refusal())
    return found


def map_note(before, after):
    """Returns the note on the first map of an image, if it is not the map of before."""
    if after is None:
        return ["the image has no flash map now"]
    if (after.position, after.bytes[:56]) != (before.position, before.bytes[:56]):
        return [f"the image has another flash map now, at {after.position:#x}"]
    return []


def region_note(image, area):
    """Returns the note on an area that is written, by the map of the image."""
    end = area.offset + area.size
    first, last = image.map.position, image.map.position + len(image.map.bytes)
    if area.size and area.offset < last and first < end:
        return ["the region holds the flash map"]
    others = [other for other in image.areas if other.name != area.name and other.size
              and area.offset <= other.offset and other.offset + other.size <= end]
    return ["the region contains other areas of the flash map"] if others else []


def replaced(image, area, region, region_notes=()):
    """Returns the result of a command that replaces a region.

    The note on an anchor is about the flash map at the place that the command used, if its head is
    still there.
    """
    data = image.data[: area.offset] + region + image.data[area.offset + area.size :]
    same = map_at(data, image.map.position)
    is_same = same is not None and same.bytes[:56] == image.map.bytes[:56]
    now = Reading(data, same if is_same else None)
    anchors = ["the bootblock's metadata hash is outdated: run cbfsseal image.rom"]
    notes = [*region_notes, *map_note(image.map, Reading(data).map),
             *(anchors if now.has_outdated_anchor() else [])]
    return Result(data, notes=tuple(notes))


# ---- Commands that read


@command
def layout(image):
    """Returns the result of `layout`."""
    require(image.map, "no FMAP")
    one = image.map
    printed = layout_text(one.size, one.areas, one.name.decode(), one.position)
    return Result(image.data, output=printed)


@command
def show(image, name, is_verbose=False):
    """Returns the result of `print`, or of `print -v`. The rows before damage are printed."""
    found = image.cut(region_of(image, name))
    printed = rows(found.cells, is_verbose)
    if found.refusal():
        raise Refusal(found.refusal(), printed)
    return Result(image.data, output=printed)


@command
def extract(image, name, component):
    """Returns the result of `extract`, for which the walk ends at the component."""
    found = image.cut(region_of(image, name))
    one = found.component(component)
    if one is None:
        raise Refusal(found.refusal() or "no such component")
    require(one.compression() == 0, "component is compressed")
    return Result(image.data, file=one.content)


@command
def read(image, name):
    """Returns the result of `read`."""
    return Result(image.data, file=image.bytes_of(region_of(image, name)))


# ---- Commands that change a region


@command
def write(image, name, data):
    """Returns the result of `write`."""
    area = region_of(image, name)
    require(len(data) == area.size, "source size differs from the region")
    return replaced(image, area, data, region_note(image, area))


@command
def remove(image, name, component):
    """Returns the result of `remove`."""
    area = region_of(image, name)
    require(walk(image, area).component(component), "no such component")
    return replaced(image, area, without_component(image.bytes_of(area), component))


class Addition(NamedTuple):
    """What `add` has to add; `digest` is a number of tests/image.py."""

    name: bytes
    type: int
    content: bytes
    digest: Optional[int] = None
    alignment: Optional[int] = None
    offset: Optional[int] = None

    def component(self, gap=0):
        """Returns the component with a gap before its content."""
        attributes = [hash_attribute(self.digest, self.content)] if self.digest else []
        return Component(self.name, self.content, self.type, attributes, gap)


@command
def add(image, name, added):
    """Returns the result of `add`."""
    area = region_of(image, name)
    require(1 <= len(added.name) <= LONGEST_NAME and b"\0" not in added.name, "bad name")
    require(added.type not in (DELETED, NULL), "bad type")
    require(added.alignment != 0, "bad alignment")
    found = walk(image, area)
    require(found.component(added.name) is None, "component exists")
    place = place_for(found, added)
    require(place, "no space")
    head, gap = place
    region = with_component(found.region, head, added.component(gap))
    return replaced(image, area, region)


def place_for(found, added):
    """Returns the position of the entry and the length of the gap in a cut, or None."""
    metadata = added.component().content_offset
    for start, end in runs(found.cells):
        lowest = start + metadata
        content = lowest
        if added.alignment:
            content = round_up(lowest, added.alignment)
        if added.offset is not None:
            content = added.offset
        elif end == len(found.region):
            end -= 4
        if content >= lowest and content + len(added.content) <= end:
            head = (content - metadata) // CELL_SIZE * CELL_SIZE
            return head, content - metadata - head
    return None


# ---- Whole images


def create(table, names):
    """Returns the result of `create` for a file with a flash map at its start.

    A refusal leaves an erased image.
    """
    erased = Reading(b"\xff" * map_at(table, 0).size, map_at(table, 0))
    return created(erased, names)


@command
def created(image, names):
    """Returns the result of `create` on an erased image, which has the map of the file."""
    own = image.first(b"FMAP")
    is_usable = own and image.is_inside(own) and len(image.map.bytes) <= own.size
    require(is_usable, "bad FMAP area")
    made = Image(len(image.data), image.areas, own.offset)
    made.put_at(own.offset, image.map.bytes)
    areas = [own]
    for name in names:
        area = region_of(image, name)
        require(area.size and area.size % CELL_SIZE == 0, BAD_SIZE)
        areas.append(area)
        made.put_at(area.offset, empty_region(area.size))
    require(not share_bytes(areas), "bad FMAP area")
    return Result(made.data())


def share_bytes(areas):
    """Returns whether two of the areas have a byte in common."""
    ordered = sorted(areas, key=lambda area: area.offset)
    return any(one.offset + one.size > other.offset for one, other in zip(ordered, ordered[1:]))
