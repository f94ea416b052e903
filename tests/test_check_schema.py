"""cbfscheck --json: each document is valid by docs/cbfscheck.schema.json, and each code occurs.

The schema itself refuses documents with a fault.
"""

import copy
import json
import re
import unittest

from tests.findings import ABC_256, ABC_512, TEN_256, CheckTest, board, free, patched
from tests.image import (
    SHA256, SHA512, STAGE, Area, Component, anchor, flash_map, hash_attribute, join, sealed_anchor,
)
from tests.programs import TOP
from tests.samples import NAMES, Sample
from tests.schema import REPORTS, Schema
from tests.structured_board import (
    BOARD, board as board_with, coreboot, signed_block, sound_gbb, with_table,
)
from tests.structures import (
    UNUSED_REGION, bootblock, descriptor, descriptor_region, microcode,
)

CODES = REPORTS.schema["definitions"]["code"]["enum"]
SAMPLES = [Sample(name).image for name in NAMES]

# The texts of each code. `more of these` has the code of its kind.
TEXTS = {
    "no-map": ["no flashmap"],
    "map": ["flashmap"],
    "other-map": ["another flashmap"],
    "map-size": ["the flashmap states another size than the image has"],
    "area-outside": ["ends outside the image"],
    "area-empty": ["has no bytes"],
    "area-same-name": ["has the name of an earlier area"],
    "area-overlaps": ["overlaps"],
    "too-many-areas": ["too many areas to look for overlaps"],
    "area-name": ["name isn't UTF-8"],
    "no-map-area": ["no area FMAP"],
    "map-area": ["doesn't begin with the flashmap"],
    "metadata-hash-valid": ["metadata hash sha256 valid"],
    "metadata-hash-invalid": [
        "metadata hash sha256 invalid: run cbfsseal IMAGE",
        "metadata hash sha512 invalid: run cbfsseal IMAGE"],
    "map-hash-valid": ["map hash sha256 valid"],
    "map-hash-invalid": [
        "map hash sha256 invalid: run cbfsseal IMAGE",
        "map hash sha512 invalid: run cbfsseal IMAGE"],
    "anchor-not-checked": ["anchor isn't checked: COREBOOT is damaged"],
    "anchor-unknown-algorithm": ["anchor with an unknown algorithm"],
    "anchor-cut-off": ["anchor is cut off"],
    "area-not-checked": ["isn't checked: checked areas would exceed twice the image"],
    "no-area": ["no such area"],
    "region-size": ["size is less than 64"],
    "no-cbfs": ["no CBFS"],
    "component-shadowed": ["has the name of an earlier component"],
    "metadata-too-long": ["metadata longer than 256 bytes: firmware can't find it"],
    "component-type": ["type without a name"],
    "component-name": ["name isn't UTF-8"],
    "hash-valid": ["sha256 valid", "sha512 valid"],
    "hash-invalid": ["sha256 invalid"],
    "hash-missing": ["no hash"],
    "hash-unsupported": ["hash unsupported"],
    "hash-other-algorithm": ["hash isn't of the anchor's algorithm"],
    "attributes-invalid": ["stage has no stage attribute of 24 bytes"],
    "component-deleted": ["deleted component"],
    "complete": ["complete"],
    "tail": ["unused tail"],
    "tail-bytes": ["unused tail has other bytes than 0xff and 0x00"],
    "tail-entry": ["entry in the unused tail"],
    "entry-damaged": ["damaged entry: extent", "damaged entry: offset"],
    "no-components": ["no components"],
    "components": ["components"],
    "free-bytes": ["free bytes"],
    "largest-content": ["largest content that add takes"],
    "no-room": ["no room for a component"],
    "region-unaligned": ["size is no multiple of 64"],
    "need-missing": ["needed component isn't there"],
    "need-elsewhere": ["needed component is elsewhere"],
    "descriptor": ["flash descriptor"],
    "descriptor-blank": ["blank: no flash descriptor"],
    "descriptor-invalid": ["no flash descriptor"],
    "area-not-region": ["isn't the region of the flash descriptor"],
    "me-table": ["partition table of the ME"],
    "me-table-blank": ["blank: no partition table of the ME"],
    "me-table-invalid": ["no partition table of the ME"],
    "reset-vector": ["reset vector"],
    "reset-vector-invalid": ["reset vector is erased"],
    "firmware-table": ["firmware interface table"],
    "firmware-table-invalid": ["microcode has another sum than 0"],
    "master-header": ["master header"],
    "master-header-invalid": ["no master header"],
    "gbb": ["GBB"],
    "gbb-flags": ["flags weaken the verification"],
    "gbb-blank": ["blank: no GBB"],
    "gbb-invalid": ["no GBB"],
    "slot": ["signed slot"],
    "slot-not-checked": ["body isn't checked: no length is signed"],
    "slot-blank": ["blank: no signatures"],
    "slot-invalid": ["no keyblock"],
    "image-size": ["image size changed from"],
    "blocks": ["erase blocks differ"],
    "no-old-map": ["the old image has no flashmap"],
    "map-moved": ["flashmap moved from"],
    "map-base": ["base address changed from"],
    "map-name": ["name of the flashmap changed"],
    "anchor-added": ["anchor added"],
    "anchor-gone": ["anchor gone"],
    "anchor-algorithm-changed": ["anchor's algorithm changed from sha256"],
    "structure-gone": ["GBB is gone", "signatures of the slot are gone"],
    "slot-outdated": ["signed bytes changed, but not the signatures"],
    "area-added": ["area added"],
    "area-gone": ["area gone"],
    "area-moved": ["area moved from"],
    "area-resized": ["area resized from"],
    "area-flags": ["flags changed from"],
    "area-changed": ["erase blocks differ"],
    "area-not-compared": ["not compared"],
    "component-added": ["component added"],
    "component-removed": ["component removed"],
    "component-type-changed": ["type changed"],
    "component-length-changed": ["length changed"],
    "component-content-changed": ["content changed"],
    "component-attributes-changed": ["attributes changed"],
    "component-moved": ["component moved from"],
    "components-not-compared": ["components not compared"],
    "none-preserved": ["no area has the flag PRESERVE"],
}


def entry(name, content=b"x", **fields):
    """Returns the cell of a component."""
    return Component(name, content, **fields).bytes


A, B = entry(b"a", b"0123456789"), entry(b"b")
HASHED = entry(b"h", b"abc", attributes=[hash_attribute(SHA256, b"abc")])


def faults_of_maps():
    """Returns images with faults of the map: names, places, sizes, and too many bytes."""
    odd = [("X", 1, 0x100), ("X", 0x80, 0x100), (b"\xff", 0x3F0, 0x40), ("", 0x200, 0)]
    small = flash_map(0x400, [], name=b"F")
    many = [("FMAP", 0, 0x400), *((f"P{n}", 0, 0x1000) for n in range(8)), ("A", 0x800, 0x100)]
    same = [("FMAP", 0, 0x200), ("A", 0x200, 0x100), *((f"P{n}", 0x200, 0x100) for n in range(9))]
    eight = "P0,P1,P2,P3,P4,P5,P6,P7"
    return [
        ("", b""),
        ("-r NONE", board(0x400, odd, map_size=0x800)),
        ("", board(0x400, [("FMAP", 1, 0x200)], (0x300, small))),
        ("", board(0x400, same, (0x200, free(0x100)))),
        ("-v", board(0x1000, many, (0x800, free(0x100)))),
        (f"-r {eight}", board(0x1000, many, (0x800, free(0x100)))),
        ("", board(0x2B000, [("FMAP", 0, 0x2B000), *((f"P{n}", n, 1) for n in range(4096))])),
    ]


def faults_of_regions():
    """Returns images with cells of all kinds, and with an entry that is damaged."""
    cells = join(
        A, A, entry(b"\xff", type=0x77), HASHED, patched(HASHED, (0x54, b"d")),
        patched(HASHED, (0x33, b"\x09")), free(0x40, type=0))
    areas = [("FMAP", 0, 0x200), ("A", 0x200, 0x800), ("C", 0xA00, 40), ("U", 0xC00, 100)]
    small = [("FMAP", 0, 0x200), ("A", 0x200, 0x200), ("COREBOOT", 0x400, 0x200)]
    return [
        ("-v --list --need A:a@1,A:h@end,B:a",
         board(0x1000, areas, (0x200, cells), (0x900, A), (0xA00, A), (0xC00, A))),
        ("--list", board(0x400, small[:2], (0x200, free(0x200)))),
        ("", board(0x600, small, (0x200, free(0x200)), (0x400, patched(A, (20, b"\xff"))))),
    ]


OLD = board(
    0x600, [("FMAP", 0, 0x200), ("A", 0x200, 0x200), ("COREBOOT", 0x400, 0x200),
            ("GONE", 0x200, 1)],
    (0x200, join(A, B, HASHED, entry(b"t"), entry(b"l"))), (0x400, A))
NEW = board(
    0x700, [("FMAP", 0x80, 0x180), ("A", 0x200, 0x200, 8), ("COREBOOT", 0x440, 0x1C0),
            ("NEW", 0x600, 16)],
    (0x200, join(entry(b"a", b"9876543210"), entry(b"n"), B, patched(HASHED, (0x33, b"\x09")),
                 entry(b"t", type=0x51), entry(b"l", b"xyz"))),
    (0x440, B), base=1, name=b"G", map_at=0x80)


def changes():
    """Returns pairs of images with changes of the map, of areas and of components."""
    no_map = patched(OLD, (0, b"X"))
    pairs = [(options, old, new) for options in ("", "--keep A,NONE", "--keep-preserved -v")
             for old, new in ((OLD, NEW), (NEW, OLD))]
    return pairs + [("", no_map, OLD), ("", OLD[:0x300], OLD), ("", OLD, no_map)]


AREAS = [("FMAP", 0, 0x200), ("COREBOOT", 0x400, 0x400), ("BOOTBLOCK", 0x800, 0x400)]
MAP = flash_map(0xC00, [Area(*area) for area in AREAS], name=b"F")
PARTS = [Component(b"o", b"x", attributes=[hash_attribute(SHA512, b"x")]),
         Component(b"s", b"x", type=STAGE), Component(b"l", b"x", gap=257)]
RIGHT = sealed_anchor(SHA256, PARTS, MAP)


def anchored(anchor_bytes, parts=tuple(PARTS), at=0x40):
    """Returns an image with these components, and with these bytes in the area BOOTBLOCK."""
    space = free(0x400 - len(join(*parts)), keeps=bytes(4))
    return board(0xC00, AREAS, (0x400, join(*parts, space)), (0x800 + at, anchor_bytes))


SEALED, NO_ANCHOR = anchored(RIGHT), anchored(b"")
OTHER_ALGORITHM = anchored(anchor(SHA512, bytes(64), bytes(64)))
ANCHORS = [
    ("", SEALED), ("", anchored(anchor(SHA256, bytes(32), bytes(32)))),
    ("", anchored(anchor(9, b"", b""))), ("", anchored(RIGHT[:-1], at=0x401 - len(RIGHT))),
    ("", anchored(RIGHT, [Component(b"d", b"x", offset=1)])),
    ("", SEALED, NO_ANCHOR), ("", NO_ANCHOR, SEALED), ("", SEALED, OTHER_ALGORITHM),
]
ERASED = b"\xff" * 12
BOARDS = [
    ("", BOARD), ("", board_with(SI_DESC=None, SI_ME=None, GBB=None)),
    ("", board_with(SI_DESC=b"x", SI_ME=b"x", GBB=b"x", VBLOCK_A=b"x")),
    ("", board_with(SI_DESC=descriptor([descriptor_region(0, 0x2000), *8 * [UNUSED_REGION]]))),
    ("", board_with(COREBOOT=coreboot(b"x", boot=bootblock(0x400, reset=ERASED)))),
    ("", board_with(GBB=sound_gbb(flags=1), VBLOCK_A=signed_block(0))),
    ("", with_table(microcode(96))), ("", with_table(microcode(96, sum_is=1))),
    ("", BOARD, board_with(GBB=None, VBLOCK_A=None)),
    ("", BOARD, board_with(FW_MAIN_A=b"x")),
]
OF_SAMPLES = [row for sample in SAMPLES for row in [
    ("", sample), ("-v --all-hashed --need COREBOOT:none", sample),
    ("--keep-preserved", SAMPLES[1], sample), ("--list", sample), ("--list", SAMPLES[1], sample)]]
TWENTY_NAMES = ",".join(f"N{number}" for number in range(20))
RUNS = [*OF_SAMPLES, *faults_of_maps(), *faults_of_regions(), *changes(), *ANCHORS, *BOARDS,
        (f"-r {TWENTY_NAMES}", OLD), ("--flash", OLD, OLD)]


class Documents(CheckTest):
    """Documents of images with each finding and each change."""

    def document(self, options, *images):
        """Returns the document of one image or of two."""
        paths = ["0.rom", "1.rom"][:len(images)]
        run = self.folder(dict(zip(paths, images))).run(["cbfscheck", "--json", *options.split(),
                                                         *paths])
        self.assertEqual((run.message, run.status in (0, 1)), (b"", True))
        found = json.loads(run.output)
        self.assertEqual(found["image"], paths[-1])
        self.assertEqual(found.get("old"), paths[0] if images[1:] else None)
        for member in "areas", "components":
            self.assertEqual(member in found, "--list" in options)
        return found

    def test_each_document_and_each_code(self):
        codes = set()
        for number, (options, *images) in enumerate(RUNS):
            with self.subTest(number, options=options):
                found = self.document(options, *images)
                self.assertTrue(REPORTS.accepts(found), f"not valid: {found}")
                for row in found["rows"]:
                    self.assertIn(row["what"], [*TEXTS[row["code"]], "more of these"])
                codes |= {row["code"] for row in found["rows"]}
        self.assertEqual(sorted(codes), sorted(CODES))


class Codes(unittest.TestCase):
    """The codes of the schema are those of the manual page and of the table of texts."""

    def test_the_codes_of_the_page(self):
        page = (TOP / "man" / "cbfscheck.1").read_text(encoding="utf-8")
        self.assertLessEqual(set(CODES), set(re.findall(r"^\.Bq ([a-z-]+)", page, re.MULTILINE)))

    def test_the_codes_of_the_table(self):
        self.assertEqual(list(TEXTS), CODES)

    def test_a_text_has_one_code(self):
        """Only two texts have two, one for each kind of place."""
        texts = [text for group in TEXTS.values() for text in group]
        self.assertEqual(sorted({text for text in texts if texts.count(text) > 1}),
                         ["erase blocks differ", "name isn't UTF-8"])


VALID = {
    "format": 1, "image": "new.rom", "old": "old.rom",
    "areas": [{"area": "A", "offset": 0, "size": 64, "flags": 8}],
    "components": [{"area": "A", "component": "a", "position": 0, "type": "raw", "length": 10,
                    "compression": "none", "hash": "no hash", "content": 40, "sha256": TEN_256}],
    "rows": [{"verdict": "remark", "code": "hash-missing", "area": "A", "component": [255],
              "position": 0, "what": "no hash"}],
    "verdict": "sound", "bad": 0, "remarks": 1, "changes": 0,
}


class Faults(unittest.TestCase):
    """The schema refuses a document with one fault."""

    def refuses(self, title, change):
        """Checks that a change of the valid document is refused."""
        with self.subTest(title):
            document = copy.deepcopy(VALID)
            change(document)
            self.assertNotEqual(document, VALID)
            self.assertFalse(REPORTS.accepts(document))

    def test_a_valid_document(self):
        self.assertTrue(REPORTS.accepts(VALID))

    def test_members_of_the_document(self):
        for title, members in [
            ("another format", {"format": 2}), ("a further member", {"more": 1}),
            ("a count that is a text", {"bad": "0"}), ("a count below 0", {"bad": -1}),
            ("a count that is a truth value", {"bad": True}),
            ("another verdict", {"verdict": "may not be flashed"}),
            ("rows that are no array", {"rows": {}}),
            ("an image that is a number", {"image": 1}), ("an old image of bytes", {"old": [97]}),
            ("areas that are no array", {"areas": {}}),
            ("components that are no array", {"components": {}}),
        ]:
            self.refuses(title, lambda document: document.update(members))

    def test_a_missing_member(self):
        for member in "format", "image", "rows", "bad", "remarks", "changes":
            self.refuses(f"no {member}", lambda document: document.pop(member))

    def test_members_of_a_row(self):
        for title, members in [
            ("an empty text", {"what": ""}), ("another code", {"code": "mop"}),
            ("another verdict", {"verdict": "good"}), ("a further member", {"more": 1}),
            ("a position that is a text", {"position": "0x0"}),
            ("a name that is a number", {"area": 1}),
            ("a name of no bytes", {"area": []}), ("a byte above 255", {"area": [256]}),
            ("two details", {"value": 1, "other": "A"}),
        ]:
            self.refuses(title, lambda document: document["rows"][0].update(members))

    def test_a_missing_member_of_a_row(self):
        for member in "verdict", "code", "what":
            self.refuses(f"no {member}", lambda document: document["rows"][0].pop(member))

    def test_an_area_and_a_component(self):
        for list_ in "areas", "components":
            for member in VALID[list_][0]:
                self.refuses(f"no {member}", lambda document: document[list_][0].pop(member))
                self.refuses(f"another {member}",
                             lambda document: document[list_][0].update({member: -1}))
            self.refuses("a further member",
                         lambda document: document[list_][0].update(code="map"))
            self.refuses("a row", lambda document: document[list_].append(VALID["rows"][0]))

    def test_digests(self):
        """A component can have a stored digest of SHA-256 or of SHA-512."""
        for stored in ABC_256, ABC_512:
            document = copy.deepcopy(VALID)
            document["components"][0]["stored"] = stored
            self.assertTrue(REPORTS.accepts(document))
        for title, members in [
            ("a SHA-256 of upper-case digits", {"sha256": ABC_256.upper()}),
            ("a SHA-256 of 63 digits", {"sha256": ABC_256[:63]}),
            ("a SHA-256 of 65 digits", {"sha256": ABC_256 + "0"}),
            ("a SHA-256 of 128 digits", {"sha256": ABC_512}),
            ("a SHA-256 with a line feed", {"sha256": ABC_256 + "\n"}),
            ("a SHA-256 that is a dash", {"sha256": "-"}),
            ("a stored digest that is a dash", {"stored": "-"}),
            ("a stored digest of no digits", {"stored": ""}),
            ("a stored digest of upper-case digits", {"stored": ABC_256.upper()}),
            ("a stored digest of 63 digits", {"stored": ABC_256[:63]}),
            ("a stored digest of 96 digits", {"stored": ABC_512[:96]}),
            ("a stored digest of 127 digits", {"stored": ABC_512[:127]}),
            ("a stored digest of 129 digits", {"stored": ABC_512 + "0"}),
            ("a stored digest that is a number", {"stored": 0}),
        ]:
            self.refuses(title, lambda document: document["components"][0].update(members))

    def test_an_unknown_keyword(self):
        schema = copy.deepcopy(REPORTS.schema)
        schema["definitions"]["number"]["multipleOf"] = 1
        with self.assertRaises(ValueError):
            Schema(schema).accepts(VALID)


if __name__ == "__main__":
    unittest.main()
