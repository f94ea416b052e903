"""Makes images, descriptors and options at random, for fuzz.py and test_check_random.py.

    maker = Maker(random.Random("a seed"))
    maker.image()           one of the kinds below, with changes
    maker.board()           a board with the structures of tests/structures.py, some of them broken
    maker.descriptor()      a descriptor for fmaptool
    maker.change(image)     one change of a bytearray

The kinds of images are

- bytes at random;
- a flash map with regions of cells in a random order, and with other bytes between them;
- the images of samples/;
- boards, with a flash descriptor, an engine, a GBB, slots, a firmware interface table, a master
  header, a bootblock and an anchor, each of which can be absent, blank, broken or sound.

A change is a bit, a number of a head, an attribute, a structure or the flash map, the length, a
block twice, or a magic.
"""

import hashlib
import re
import struct

from tests.image import (
    ANCHOR_MAGIC, HASH_TAG, HASHES, MAGIC, NULL, RAW, SHA256, Area, Component, FreeEntry, Image,
    anchor, attribute, compression, digest, flash_map, hash_attribute, join, metadata_digest,
)
from tests.model import Need, Wishes, is_text
from tests.programs import TOP
from tests.reading import MAP_MAGIC, cut
from tests.structures import (
    DESCRIPTOR_MAGIC, FIT_MAGIC, HEADER_MAGIC, UNUSED_REGION, address, bootblock,
    bootblock_component, descriptor, descriptor_region, fit_entry, fit_table, gbb,
    header_component, header_pointer, key_fields, keyblock, master_header, microcode,
    partition_table, preamble,
)
from tests.texts import TYPES

NUMBERS = [0, 1, *range(23, 30), 40, 44, 45, 63, 64, 65, 0xFFFFFFFF, 0xFFFFFFFE, 0x80000000]
NAMES = [b"a", b"b", b"c", b"fallback/romstage", b"(empty)", b"-n", b"=", b"a b", b"\\x20",
         b"\xc3\xbc"]
LENGTHS = [3, 4, 15, 16, 126, 127, 128, 254, 255, 256]
SAMPLES = [path.read_bytes() for path in sorted((TOP / "samples").glob("*.rom"))]
DESCRIPTOR = (TOP / "samples" / "board.fmd").read_bytes()
# What the structures begin with, and how many bytes of fields follow.
STRUCTURES = [
    (struct.pack("<I", DESCRIPTOR_MAGIC), 0x60), (b"$FPT", 8), (b"$GBB", 80), (b"CHROMEOS", 112),
    (FIT_MAGIC, 64), (HEADER_MAGIC, 32), (ANCHOR_MAGIC, 80), (b"\1\0\0\0\1\0\0\0", 48),
]


def is_word(name):
    """Returns whether a command line can have a name, which is UTF-8 then, without a NUL."""
    return b"\0" not in name and is_text(name)


def is_plain(name):
    """Returns whether a need can have a name."""
    return bool(name) and is_word(name) and not set(name) & set(b",:@")


class Maker:
    """Makes all of these by a generator of random numbers."""

    def __init__(self, rng):
        self.rng = rng

    def number(self, old=0):
        """Returns a number of 32 bits, maybe one that is near another one."""
        rng = self.rng
        choices = [rng.choice(NUMBERS), rng.choice(NUMBERS), old + rng.choice([-64, -1, 1, 64]),
                   rng.randrange(700), rng.getrandbits(32)]
        return rng.choice(choices) & 0xFFFFFFFF

    # ---- Cells

    def name(self):
        """Returns the name of a component."""
        rng = self.rng
        long = bytes(rng.choice(b"abc") for _ in range(rng.choice(LENGTHS)))
        other = rng.randbytes(3).replace(b"\0", b"x")
        return rng.choice([rng.choice(NAMES), rng.choice(NAMES), rng.choice(NAMES), long, b"",
                           other])

    def attribute(self, content):
        """Returns an attribute, mostly a digest, which can be right, wrong or too short."""
        rng = self.rng
        digests = [hash_attribute(number, content + more)
                   for more in (b"", b"x") for number in HASHES]
        short = struct.pack(">I", rng.choice([0, 1, 2, 3, 4, 9]))
        short += rng.randbytes(rng.choice([0, 19, 20, 31, 32, 63, 64, 65]))
        tag = rng.choice([0, NULL, rng.getrandbits(32)])
        made = rng.choice([
            compression(rng.choice([0, 0, 1, 2, 3, NULL]), 100), *digests,
            attribute(HASH_TAG, short), attribute(tag, rng.randbytes(rng.randrange(40))),
        ])
        if rng.randrange(12):
            return made
        return made[:4] + struct.pack(">I", self.number(len(made))) + made[8:]

    def component(self, name=None, type=None):
        """Returns a component, whose cell ends with bytes 0xff or 0."""
        rng = self.rng
        name = self.name() if name is None else name
        padding = rng.choice([4, 4, 16])
        content = rng.randbytes(rng.choice([0, 1, 10, rng.randrange(300), rng.randrange(6000)]))
        kinds = [*TYPES, RAW, RAW, 0x1234, rng.getrandbits(32)]
        count = rng.choice([0, 0, 1, 1, 2, 3])
        return Component(
            name, content, type=rng.choice(kinds) if type is None else type,
            attributes=[self.attribute(content) for _ in range(count)],
            gap=rng.choice([0, 0, rng.randrange(64)]), fill=rng.choice([b"\xff", b"\0"]),
            name_field=name + bytes(padding - len(name) % 4),
        )

    def free_entry(self, size):
        """Returns the bytes of a free entry of a size."""
        rng = self.rng
        offset = rng.choice([24, 28, 28, 28, 40, 64])
        length = size - offset - rng.choice([0, 0, 4, 60]) % (size - offset + 1)
        return FreeEntry(size, rng.choice([0, NULL, NULL]), length=length, offset=offset).bytes

    def cells(self, size):
        """Returns cells that fill a region of a size, or leave a tail or something damaged."""
        rng, made = self.rng, b""
        while True:
            if rng.randrange(3) == 0:
                cell = self.free_entry(64 * rng.choice([1, 1, 2, 5, 20]))
            else:
                cell = self.component().bytes
            if len(made) + len(cell) > size or rng.randrange(12) == 0:
                break
            made += cell
        left = size - len(made)
        if left >= 64 and rng.randrange(5):
            return made + self.free_entry(left)
        part = self.component().bytes[:left].ljust(left, b"\xff")
        return made + rng.choice([b"\xff" * left, bytes(left), rng.randbytes(left), part])

    # ---- Images

    def file_systems(self):
        """Returns an image with a flash map and regions of cells in a random order."""
        rng = self.rng
        names = [b"FMAP", b"COREBOOT", b"FW_MAIN_A"]
        names += rng.sample([b"COREBOOT", b"S" * 32, b"", b"-r", b"EMPTY"], rng.randrange(4))
        rng.shuffle(names)
        image, areas = b"", []
        for name in names:
            image += rng.choice([b"", b"", b"\xff" * rng.randrange(300),
                                 rng.randbytes(rng.randrange(5000)), MAP_MAGIC])
            size = 64 * rng.choice([1, 2, 5, rng.randrange(150)])
            size += rng.randrange(64) if rng.randrange(15) == 0 else 0
            part = bytes(56 + 42 * len(names)) if name == b"FMAP" else self.cells(size)
            areas.append(Area(name, len(image), len(part), rng.randrange(16)))
            image += part
        if rng.randrange(10) == 0:
            areas.append(Area(rng.choice(names), self.number(len(image)), self.number()))
        at = next(area.offset for area in areas if area.name == b"FMAP")
        table = flash_map(len(image), areas, rng.choice([b"FLASH", b"", b"x" * 31]),
                          minor=rng.choice([0, 1, 1, 255]))
        return image[:at] + table + image[at + len(table) :]

    def board(self):
        """Returns a board, some of whose structures are broken."""
        return BoardMaker(self).image()

    def image(self):
        """Returns an image of one of the kinds, with changes."""
        rng, kind = self.rng, self.rng.randrange(14)
        if kind == 0:
            return rng.randbytes(rng.choice([0, 1, 55, 56, rng.randrange(9000)]))
        if kind < 6:
            image, counts = self.file_systems(), [0, 1, 2]
        elif kind < 10:
            image, counts = rng.choice(SAMPLES), [0, 1, 1, 2, 3, 6]
        else:
            image, counts = self.board(), [0, 0, 1, 2]
        return self.changed(image, rng.choice(counts))

    # ---- Changes

    def changed(self, image, count=1):
        """Returns an image with changes."""
        made = bytearray(image)
        for _ in range(count):
            self.change(made)
        return bytes(made)

    def change(self, image):
        """Makes one change of an image."""
        rng = self.rng
        changes = [*4 * [self.change_head], self.change_attribute, self.change_content,
                   self.change_map, *2 * [self.change_structure], self.cut_off, self.copy_block, self.change_magic,
                   self.flip_bit]
        heads = [found.start() for found in re.finditer(MAGIC, image)]
        rng.choice(changes)(image, rng.choice(heads or [0]))

    def put_number(self, image, at, order=">I"):
        """Replaces a number of 32 bits by another one."""
        old = struct.unpack(order, image[at : at + 4])[0] if at + 4 <= len(image) else 0
        image[at : at + 4] = struct.pack(order, self.number(old))

    def change_head(self, image, head):
        self.put_number(image, head + self.rng.choice([8, 12, 16, 20]))

    def change_attribute(self, image, head):
        offset = int.from_bytes(image[head + 16 : head + 20], "big")
        if 0 < offset < 4096:
            self.put_number(image, head + offset + self.rng.choice([0, 4, 8]))

    def change_content(self, image, head):
        offset = int.from_bytes(image[head + 20 : head + 24], "big")
        if head + offset < len(image):
            image[head + offset] ^= 1 << self.rng.randrange(8)

    def change_map(self, image, _):
        rng, at = self.rng, image.find(MAP_MAGIC)
        if at >= 0:
            area = 56 + 42 * rng.randrange(6) + rng.choice([0, 4, 8, 39])
            at += rng.choice([8, 10, 18, 22, 54, area])
            value = rng.choice([0, 1, 63, 64, 65, rng.getrandbits(16)])
            image[at : at + 2] = struct.pack("<H", value)

    def change_structure(self, image, _):
        magic, size = self.rng.choice(STRUCTURES)
        places = [found.start() for found in re.finditer(re.escape(magic), image)]
        if places:
            at = self.rng.choice(places) + 4 * self.rng.randrange(size // 4)
            self.put_number(image, at, "<I")

    def cut_off(self, image, _):
        del image[self.rng.randrange(len(image) + 1) :]

    def copy_block(self, image, _):
        blocks = range(1, 1 + len(image) // 64 + 1)
        size, start, to = (64 * self.rng.choice(blocks) for _ in range(3))
        size = min(size, 2048)
        image[to : to + size] = image[start : start + size][: max(0, len(image) - to)]

    def change_magic(self, image, _):
        at = 64 * self.rng.randrange(len(image) // 64 + 1)
        image[at : at + 8] = self.rng.choice([MAGIC, b"LARCHIVX", MAP_MAGIC, b"\xff" * 8])

    def flip_bit(self, image, head):
        at = self.rng.choice([head, max(0, image.find(MAP_MAGIC))]) + self.rng.randrange(200)
        if at < len(image):
            image[at] ^= 1 << self.rng.randrange(8)

    # ---- Options of cbfscheck

    def options(self, image, is_change=False):
        """Returns what a command line asks for, and its words, for a check of a `Reading`."""
        rng = self.rng
        areas, area_words = self.names("-r", image)
        needs, need_words = self.needs(image)
        wishes = Wishes(areas=areas, needs=needs, is_verbose=rng.randrange(2) == 0,
                        needs_hashes=rng.randrange(2) == 0)
        words = [*area_words, *need_words, *["-v"] * wishes.is_verbose,
                 *["--all-hashed"] * wishes.needs_hashes]
        if is_change:
            kept, kept_words = self.names("--keep", image)
            wishes = wishes._replace(kept=kept, keeps_preserved=rng.randrange(2) == 0,
                                     is_flash=rng.randrange(3) == 0)
            words += [*kept_words, *["--keep-preserved"] * wishes.keeps_preserved,
                      *["--flash"] * wishes.is_flash]
        return wishes, words

    def names(self, option, image):
        """Returns names of areas, and the words that give them."""
        rng = self.rng
        known = sorted({area.name for area in image.areas
                        if area.name and b"," not in area.name and is_word(area.name)})
        names = rng.sample([*known, b"ABSENT"], rng.randrange(min(5, len(known) + 2)))
        if not names or names[0].startswith(b"-"):
            return (), []
        return tuple(names), [option, b",".join(names)]

    def needs(self, image):
        """Returns needs of components, and the words that give them."""
        rng, needs = self.rng, []
        area = rng.choice(image.areas) if image.areas else None
        is_usable = area and is_plain(area.name) and image.is_inside(area)
        components = image.cut(area).components if is_usable else []
        for one in rng.sample(components, min(2, len(components))):
            place = rng.choice([None, one.start, one.start, one.start + 1, "end"])
            needs += [Need(area.name, one.name, place)] * is_plain(one.name)
        needs += [Need(b"COREBOOT", b"absent")] * (rng.randrange(4) == 0)
        texts = [b"%s:%s" % (need.area, need.component)
                 + (b"" if need.place is None else b"@%s" % str(need.place).encode())
                 for need in needs]
        return tuple(needs), [b"--need=" + b",".join(texts)] * bool(texts)

    # ---- Descriptors

    def descriptor(self):
        """Returns a descriptor: sections at random, a sound one, or the sample with changes."""
        rng, kind = self.rng, self.rng.randrange(4)
        if kind == 0:
            return self.section(3).encode()
        if kind == 1:
            areas = "".join(self.area(number) for number in range(rng.randrange(9)))
            size = rng.choice(["8K", "0x4000", "1M"])
            return f"F {size} {{ FMAP 1K{areas} COREBOOT(CBFS) }}".encode()
        text = bytearray(DESCRIPTOR)
        for _ in range(rng.randrange(4)):
            at = rng.randrange(len(text))
            words = [b"", b"{", b"}", b"@", b"(", b" 1 ", b"#", b"\n", b"\x7f", rng.randbytes(1)]
            text[at : at + rng.randrange(3)] = rng.choice(words)
        return bytes(text)

    def area(self, number):
        """Returns a section that is no region, a region, or one with an offset."""
        more = self.rng.choice(["", "(CBFS)", f"@{0x1000 + 256 * number:#x}"])
        return f" A{number}{more} {self.rng.choice(['64', '0x80', '256'])}"

    def section(self, depth):
        """Returns a section with sections, in which not everything is right."""
        rng = self.rng
        text = rng.choice(["A", "B", "C", "FMAP", "COREBOOT", "X" * 31, "X" * 32,
                           f"N{rng.randrange(99)}"])
        text += rng.choice(["", "", "(CBFS)", "(PRESERVE)", "(CBFS PRESERVE)", "(X)", "("])
        text += "@" + self.size() if rng.randrange(3) == 0 else ""
        text += " " + self.size() if rng.randrange(3) else ""
        if depth == 0 or rng.randrange(2):
            return text + " "
        inside = " ".join(self.section(depth - 1) for _ in range(rng.randrange(4)))
        return f"{text} {{{inside}}}"

    def size(self):
        """Returns a number of a descriptor."""
        return self.rng.choice(["0", "1", "0x40", "64", "1K", "4K", "0x1000", "2M", "4G", "99",
                                "08", "1k", "0xffffffff"])


# ---- Boards

# A key of RSA with 1024 bits, which algorithm 1 has.
KEY = bytes(range(256)) + b"\x5a" * 8
ALGORITHM = 1
PACKED_KEY = key_fields(32, len(KEY), ALGORITHM, 1) + KEY
SIGNATURE = b"\xa5" * 128
HARDWARE_ID = b"BOARD 1234\0"
TEXT = HARDWARE_ID[:-1]
BOOT_SIZES = [0x200, 0x400, 0x800]


class BoardMaker:
    """Makes the areas of a board, and what is in them."""

    def __init__(self, maker):
        self.maker = maker
        self.rng = maker.rng
        self.areas = []
        # The address of the firmware interface table, if the board has one.
        self.table_at = 0

    def is_rare(self, one_of=6):
        """Returns whether something rare happens."""
        return self.rng.randrange(one_of) == 0

    def image(self):
        """Returns the image."""
        self.place_areas()
        made = self.blank()
        for name, part in (
            ("SI_DESC", self.flash_descriptor), ("SI_ME", self.engine), ("GBB", self.gbb),
            ("FW_MAIN_A", self.body), ("FW_MAIN_B", self.body),
        ):
            self.put(made, name, part)
        for letter in "AB":
            self.put(made, f"VBLOCK_{letter}", lambda area: self.slot(made, letter))
        self.put_coreboot(made)
        return made.data()

    def blank(self):
        """Returns the image with its flash map only, and rarely with a second map."""
        rng, own = self.rng, next(area for area in self.areas if area.name == b"FMAP")
        if self.is_rare(20):
            own.name = b"MAP"
        name, base = rng.choice([b"BOARD", b"BOARD", b"OTHER"]), rng.choice([0, 0, 0xFF000000])
        made = Image(self.end(), self.areas, own.offset, name=name, base=base)
        if self.is_rare(12):
            other = flash_map(len(made.bytes), [])
            made.put_at(own.offset + own.size - len(other), other)
        return made

    def put(self, made, name, part):
        """Puts a part into its area, or leaves the area blank, or fills it with 0."""
        area = next((area for area in self.areas if area.name == name.encode()), None)
        if area is None or self.is_rare(8):
            return
        data = bytes(area.size) if self.is_rare(20) else part(area)
        if self.is_rare(4):
            data = self.broken(data)
        made.put_at(area.offset, data[: area.size])

    def broken(self, data):
        """Returns a structure with other numbers in its first bytes."""
        made = bytearray(data)
        for _ in range(self.rng.choice([1, 1, 2])):
            at = 4 * self.rng.randrange(max(1, min(len(made), 128) // 4))
            self.maker.put_number(made, at, "<I")
        return bytes(made)

    # ---- Areas

    def place_areas(self):
        """Places the areas of the board one after the other, COREBOOT mostly as the last one."""
        rng = self.rng
        sizes = {
            "SI_DESC": rng.choice([0x1000, 0x1000, 0x1000, 0x800]), "SI_ME": 0x400, "GBB": 0x400,
            "VBLOCK_A": 0x600, "FW_MAIN_A": 0x800, "VBLOCK_B": 0x600, "FW_MAIN_B": 0x800,
            "FMAP": 0x600, "RW_MRC_CACHE": 0x400, "BOOTBLOCK": 0x400,
            "COREBOOT": 0x1000 * rng.choice([1, 2, 3]),
        }
        rare = {"BOOTBLOCK": 3, "RW_MRC_CACHE": 2}
        for name, size in sizes.items():
            is_left_out = self.is_rare(rare.get(name, 12)) != (name in rare)
            if name not in ("FMAP", "COREBOOT") and is_left_out:
                continue
            if name == "GBB" and self.is_rare(8):
                size = 64
            self.add_area(name, size)
        if self.is_rare(8):
            self.add_area("END", 0x100)
        self.add_overlying()
        if self.is_rare(8):
            # (so that the areas of -r together can exceed what is checked)
            self.areas += [Area(f"ALL{number}", 0, self.end()) for number in range(3)]

    def add_area(self, name, size):
        """Adds an area at the end of the others."""
        flags = self.rng.choice([0, 0, 4, 8])
        self.areas.append(Area(name, self.end(), size, flags))

    def end(self):
        """Returns the highest end of an area."""
        return max((area.offset + area.size for area in self.areas), default=0)

    def add_overlying(self):
        """Adds an area that holds others, such as that of the BIOS, and rarely odd ones."""
        rng = self.rng
        first, end = rng.choice(self.areas), self.end()
        self.areas.append(Area("SI_BIOS", first.offset, end - first.offset))
        if self.is_rare():
            other = rng.choice(self.areas)
            offset = other.offset + rng.choice([0, 64])
            self.areas.append(Area(other.name, offset, min(other.size, end - offset)))
        for name, size in (b"EMPTY", 0), (b"\xff", 64):
            if self.is_rare(12):
                self.areas.append(Area(name, first.offset, size))
        if self.is_rare(3):
            rng.shuffle(self.areas)

    # ---- Structures

    def flash_descriptor(self, area):
        """Returns a flash descriptor, whose regions are mostly the areas."""
        places = {one.name: one for one in self.areas}
        numbers = []
        for name in (b"SI_DESC", b"SI_BIOS", b"SI_ME", b"SI_GBE", b"SI_PDR", b"-", b"-", b"-"):
            one = places.get(name)
            is_described = one and one.size >= 0x1000 and not self.is_rare()
            numbers.append(descriptor_region(one.offset, one.size) if is_described
                           else UNUSED_REGION)
        table = self.rng.choice([0x40, 0x40, 0x40, 0xFE0, 0xFF0])
        made = descriptor([*numbers, UNUSED_REGION], table=table, size=0x1040)[:0x1000]
        return made[0x10:] + made[:0x10] if self.is_rare() else made

    def engine(self, area):
        """Returns the partition table of the management engine."""
        start = self.rng.choice([b"\xff" * 16, b"", b"\0" * 8])
        return partition_table(start=start)

    def gbb(self, area):
        """Returns a GBB."""
        rng = self.rng
        sizes = rng.choice([(0x20, 0x140, 0, 0x140), (0x20, 0x140, 0, 0x140), (0, 0x140, 0, 0x128),
                            (0x20, 0x120, 0, 0x140), (0x20, 0x10, 0, 0x140)])
        return gbb(
            HARDWARE_ID if sizes[0] else b"", PACKED_KEY[: sizes[1]], PACKED_KEY, sizes,
            flags=rng.choice([0, 0, 0x39]), minor=rng.choice([2, 2, 1]),
            digest=rng.choice([hashlib.sha256(TEXT).digest()] * 3 + [bytes(32)]),
        )

    def body(self, area):
        """Returns the region of a slot."""
        first = self.maker.component(b"main")
        rest = area.size - len(first.bytes)
        return first.bytes + self.maker.free_entry(rest) if rest >= 64 else first.bytes

    def slot(self, made, letter):
        """Returns a keyblock and a preamble, which mostly signs all entries of its body."""
        rng = self.rng
        body = next((one for one in self.areas if one.name == b"FW_MAIN_" + letter.encode()), None)
        found = cut(made.data()[body.offset : body.offset + body.size]).components if body else []
        end = found[-1].end if found else 0
        signed = rng.choice([end, end, body.size if body else 0, 0, max(0, end - 1), 0x900])
        fields = rng.choice([{}] * 6 + [
            {"data_size": 0x200}, {"digest": bytes(64)}, {"algorithm": 4}, {"size": 100},
            {"data_size": 5000}])
        block = keyblock(KEY, SIGNATURE, **{"algorithm": ALGORITHM, **fields})
        more = rng.choice([{}] * 4 + [{"size": 50}, {"size": 5000}])
        made = preamble(KEY, SIGNATURE, SIGNATURE, signed, **more)
        return block + (self.broken(made) if self.is_rare() else made)

    # ---- COREBOOT

    def put_coreboot(self, made):
        """Puts components into COREBOOT: a master header, files, and a bootblock at the end."""
        rng = self.rng
        area = next(area for area in self.areas if area.name == b"COREBOOT")
        size, image_size = area.size, len(made.bytes)
        first = header_component(master_header(area.offset + size, area.offset))
        parts = [] if self.is_rare() else [first]
        self.add_files(parts, area, image_size)
        used = len(join(*parts))
        boot = rng.choice(BOOT_SIZES)
        start = size - boot - 64
        if used > start or self.is_rare():
            rest = size - used
            free = [self.maker.free_entry(rest)] if rest >= 64 else []
            made.put_at(area.offset, join(*parts, *free)[:size])
            self.put_anchor(made, parts, None, b"")
            return
        pointer = header_pointer(first.content_offset, size)
        content = self.bootblock(boot, image_size, pointer)
        last = Component(b"bootblock", content, type=bootblock_component(content).type, gap=28)
        free = [FreeEntry(start - used)] if used < start else []
        made.put_at(area.offset, join(*parts, *free, last))
        self.put_anchor(made, [*parts, last], area.offset + size - boot, content)

    def add_files(self, parts, area, image_size):
        """Adds components, as a rule with a firmware interface table and an update."""
        maker, rng = self.maker, self.rng
        if not self.is_rare(3):
            self.add_updates(parts, area, image_size)
        for _ in range(rng.randrange(4)):
            kind = rng.choice([None, None, 0x10, 0x11, 0x20, 0x21, 0x60, 1, 2])
            name = rng.choice([None, None, b"intel_fit", b"bootblock", b"x" * 230])
            part = maker.component(name, kind)
            if len(join(*parts, part)) <= area.size - 64:
                parts.append(part)

    def add_updates(self, parts, area, image_size):
        """Adds a component with updates of the microcode, and a table that names them."""
        rng = self.rng
        lengths = rng.choice([[64], [64, 128], [2048], []])
        fields = rng.choice([{}] * 5 + [{"version": 2}, {"sum_is": 1}, {"stated": 70},
                                        {"stated": 1 << 20}])
        updates = [microcode(length, **fields) for length in lengths]
        at = area.offset + len(join(*parts)) + 64
        entries, content = [], b""
        for update in updates:
            place = address(at + len(content), image_size)
            entries.append(fit_entry(rng.choice([place] * 7 + [place + 8, 0xFFFFFFFF, 4096]),
                                     rng.choice([1, 1, 1, 7])))
            content += update
        count = rng.choice([None] * 8 + [0, 5000])
        self.table_at = address(at + len(content), image_size)
        content += fit_table(entries, slots=1, count=count)
        name = rng.choice([b"fit", b"intel_fit"])
        parts.append(Component(name, content, name_field=name.ljust(40, b"\0")))

    def bootblock(self, size, image_size, pointer):
        """Returns the content of a bootblock, whose reset vector can be erased."""
        rng = self.rng
        place = rng.choice([self.table_at] * 5 + [0, 0xFFFFFFFF])
        last = rng.choice([pointer] * 5 + [bytes(4)])
        reset = rng.choice([b"\xe9" + bytes(11)] * 5 + [bytes(12), b"\xff" * 12])
        return bootblock(size, fit_pointer=place, header_pointer=last, reset=reset)

    def put_anchor(self, made, parts, place, content):
        """Puts an anchor into the area BOOTBLOCK, or else into the bootblock at a place."""
        rng = self.rng
        area = next((one for one in self.areas if one.name == b"BOOTBLOCK"), None)
        start, room = (area.offset, area.size) if area else (place, len(content) - 0x80)
        if start is None or self.is_rare(4):
            return
        components = [part for part in parts if part.type not in (0, NULL)]
        algorithm = rng.choice([*HASHES, SHA256, SHA256, SHA256])
        digests = metadata_digest(algorithm, components), digest(algorithm, made.map)
        data = anchor(algorithm, *(one if rng.randrange(5) else bytes(len(one))
                                   for one in digests))
        if self.is_rare(12):
            data = data[:11] + b"\x09" + data[12:]
        at = room - 40 if self.is_rare(10) else 4 * rng.randrange((room - len(data)) // 4)
        made.put_at(start + at, data[: room - at])
