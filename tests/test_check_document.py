"""cbfscheck --json: the document, which has the rows of the report, and their codes."""

import json
import unittest

from tests.findings import (
    A, ABC_256, ABC_512, ABCD_256, B, DELETED_64, EMPTY_256, FMAP, H, NULL_64, NULL_128, TEN_256,
    U, CheckTest, board, cell, conclusion, patched, region, report, verdict,
)
from tests.image import SHA512, Component, compression, hash_attribute
from tests.samples import Sample
from tests.schema import REPORTS

HASHES, TYPES = Sample("hashes").image, Sample("types").image


def row(verdict, code, what, **members):
    """Returns the object of a row, with its members in the order of the document."""
    made = {"verdict": verdict, "code": code}
    made.update((key, members[key]) for key in ("area", "component", "position") if key in members)
    made["what"] = what
    made.update((key, members[key]) for key in ("value", "other") if key in members)
    return made


class DocumentTest(CheckTest):
    def document(self, status, files, options, rows, counts, components=None, areas=None):
        """Checks the document of one image or of two, with --list also its areas and components.
        """
        paths = list(files)
        expected = {"format": 1, "image": paths[-1]}
        if len(paths) == 2:
            expected["old"] = paths[0]
        if components is not None:
            expected["areas"] = areas
            expected["components"] = components
        expected["rows"] = rows
        expected["verdict"] = verdict(counts[0])
        expected.update(zip(("bad", "remarks", "changes"), counts))
        self.assertTrue(REPORTS.accepts(expected), "not valid by the schema")
        text = json.dumps(expected, ensure_ascii=False, separators=(",", ":"))
        command = ["cbfscheck", "--json", *paths, *options.split()]
        self.check(command, files, status, text + "\n")


def of_region(area, components, free, largest=None):
    """Returns the rows of the counts of a region."""
    count = row("remark", "components", "components", area=area, value=components)
    if not components:
        count = row("remark", "no-components", "no components", area=area)
    room = row("remark", "no-room", "no room for a component", area=area)
    if largest is not None:
        room = row("remark", "largest-content", "largest content that add takes", area=area,
                   value=largest)
    return [count, row("remark", "free-bytes", "free bytes", area=area, value=free), room]


MAP = row("remark", "map", "flashmap", position=0)
COMPLETE = row("remark", "complete", "complete", area="A")


def hash_row(verdict, code, component, position, what, area="COREBOOT"):
    """Returns the row of a component's digest."""
    return row(verdict, code, what, area=area, component=component, position=position)


class Samples(DocumentTest):
    ROWS = [
        row("remark", "map", "flashmap", position=0x1000),
        hash_row("remark", "hash-unsupported", "h sha1", 0, "hash unsupported"),
        hash_row("remark", "hash-valid", "h sha256", 0x80, "sha256 valid"),
        hash_row("remark", "hash-valid", "h sha512", 0x100, "sha512 valid"),
        hash_row("remark", "hash-valid", "gap", 0x380, "sha256 valid"),
        row("remark", "complete", "complete", area="COREBOOT"),
        *of_region("COREBOOT", 5, 15744, 15264),
    ]

    def test_digests(self):
        self.document(0, {"image.rom": HASHES}, "", self.ROWS, (0, 9, 0))

    def test_types_with_all_rows(self):
        names = ["raw", "spd", "cmos_default", "cmos_layout", "microcode", "bootsplash", "mrc",
                 "mrc_cache", "vsa", "mbi", "optionrom", "bootblock", "mma", "efi", "struct",
                 "stage", "fit", "simple_elf"]
        places = [(f"t/{name}", 64 * number) for number, name in enumerate(names)]
        places += [("unknown", 0x480), ("t/fsp", 0x7C0)]
        numbers = {"t/mma": 0x62, "t/efi": 0x63, "t/struct": 0x70, "unknown": 0x1234}
        rows = [row("remark", "map", "flashmap", position=0x4800)]
        for name, position in places:
            at = {"area": "COREBOOT", "component": name, "position": position}
            if name in numbers:
                rows.append(row("remark", "component-type", "type without a name", **at,
                                value=numbers[name]))
            rows.append(row("remark", "hash-missing", "no hash", **at))
            if name == "t/stage":
                rows.append(row("bad", "attributes-invalid",
                                "stage has no stage attribute of 24 bytes", **at))
        rows += [row("remark", "complete", "complete", area="COREBOOT"),
                 *of_region("COREBOOT", 20, 41664, 40864),
                 row("remark", "descriptor-blank", "blank: no flash descriptor", area="SI_DESC"),
                 row("remark", "me-table-blank", "blank: no partition table of the ME",
                     area="SI_ME"),
                 row("remark", "gbb-blank", "blank: no GBB", area="GBB"),
                 row("remark", "slot-blank", "blank: no signatures", area="VBLOCK_A")]
        self.document(1, {"image.rom": TYPES}, "-v", rows, (1, 33, 0))

    def test_a_change_of_a_component(self):
        files = {"old.rom": HASHES, "image.rom": patched(HASHES, (0x15A0, b"X"))}
        self.document(0, files, "", [
            *self.ROWS, row("change", "blocks", "erase blocks differ", value=1),
            row("change", "area-changed", "erase blocks differ", area="COREBOOT", position=0x1400,
                value=1),
            hash_row("change", "component-content-changed", "h none", 0x180, "content changed"),
        ], (0, 9, 3))

    def test_no_map_in_the_new_image(self):
        files = {"old.rom": HASHES, "image.rom": patched(HASHES, (0x1000, b"X"))}
        gone = [("BOOTBLOCK", 0), ("FMAP", 0x1000), ("COREBOOT", 0x1400), ("SMMSTORE", 0x6000),
                ("TAIL", 0x7000)]
        self.document(1, files, "", [
            row("bad", "no-map", "no flashmap"),
            row("change", "blocks", "erase blocks differ", value=1),
            *(row("bad" if name == "COREBOOT" else "change", "area-gone", "area gone", area=name,
                  position=at) for name, at in gone),
        ], (2, 0, 5))


class Lists(DocumentTest):
    """The areas and the components of --list, before the rows."""

    def areas(self, size):
        """Returns the objects of the areas FMAP and A of an image with a region of this size."""
        return [{"area": "FMAP", "offset": 0, "size": 0x100, "flags": 0},
                {"area": "A", "offset": 0x100, "size": size, "flags": 0}]

    def listed(self, component, position, type, length, content, sha256, compressed="none",
               state="no hash", **stored):
        """Returns the object of a component of the area A, with the member `stored` if it is given.
        """
        return {"area": "A", "component": component, "position": position, "type": type,
                "length": length, "compression": compressed, "hash": state, "content": content,
                **stored, "sha256": sha256}

    def test_three_components(self):
        components = [self.listed("a", 0x40, "raw", 10, 0x68, TEN_256),
                      self.listed("u", 0xC0, "raw", 0, 0xF4, EMPTY_256, state="hash unsupported"),
                      self.listed("h", 0x100, "raw", 3, 0x154, ABC_256, state="sha256 valid",
                                  stored=ABC_256)]
        areas = self.areas(384)
        deleted = row("remark", "component-deleted", "deleted component", area="A", position=0)
        no_hash = hash_row("remark", "hash-missing", "a", 0x40, "no hash", "A")
        rest = [hash_row("remark", "hash-unsupported", "u", 0xC0, "hash unsupported", "A"),
                hash_row("bad", "attributes-invalid", "u", 0xC0,
                         "digest has an unknown algorithm", "A"),
                hash_row("remark", "hash-valid", "h", 0x100, "sha256 valid", "A"),
                COMPLETE, *of_region("A", 3, 128, 36)]
        files = {"image.rom": region(384, [DELETED_64, A, NULL_64, U, H])}
        self.document(1, files, "--list", [MAP, deleted, *rest], (1, 8, 0), components, areas)
        self.document(1, files, "--list -v", [MAP, deleted, no_hash, *rest], (1, 9, 0), components,
                      areas)

    def test_compressed_components(self):
        packed = [Component(b"p", b"abcd", attributes=[compression(n, 100)]) for n in (1, 2, 9)]
        rows = [hash_row("bad", "component-shadowed", "p", at,
                         "has the name of an earlier component", "A") for at in (0x40, 0x80)]
        self.document(1, {"image.rom": region(192, packed)}, "--list",
                      [MAP, *rows, COMPLETE, *of_region("A", 3, 0)], (2, 5, 0),
                      [self.listed("p", 0, "raw", 4, 0x2C, ABCD_256, "LZMA"),
                       self.listed("p", 0x40, "raw", 4, 0x6C, ABCD_256, "LZ4"),
                       self.listed("p", 0x80, "raw", 4, 0xAC, ABCD_256, "0x9")], self.areas(192))

    def test_an_invalid_digest_of_sha512(self):
        """The stored digest is that of `abc`, and the content is `abcd`."""
        attributes = [hash_attribute(SHA512, value=bytes.fromhex(ABC_512))]
        image = region(128, [cell(b"w", b"abcd", attributes=attributes)])
        invalid = hash_row("bad", "hash-invalid", "w", 0, "sha512 invalid", "A")
        self.document(1, {"image.rom": image}, "--list",
                      [MAP, invalid, COMPLETE, *of_region("A", 1, 0)], (1, 5, 0),
                      [self.listed("w", 0, "raw", 4, 0x74, ABCD_256, state="sha512 invalid",
                                   stored=ABC_512)], self.areas(128))

    def test_no_components(self):
        self.document(0, {"image.rom": region(128, [NULL_128])}, "--list",
                      [MAP, COMPLETE, *of_region("A", 0, 128, 96)], (0, 5, 0), [],
                      self.areas(128))


class RowsOfAKind(DocumentTest):
    """Rows that are left out have the code of their kind."""

    def tail(self, count):
        """Returns an image with so many entries in its unused tail, and their rows."""
        places = range(0x80, 0x80 + 64 * count, 64)
        image = region(0x80 + 64 * count, [A], *((at, b"LARCHIVE") for at in places))
        rows = [row("bad", "tail-entry", "entry in the unused tail", area="A", position=at)
                for at in places]
        return {"image.rom": image}, rows

    TAIL = row("remark", "tail", "unused tail", area="A", position=0x40)
    BYTES = row("bad", "tail-bytes", "unused tail has other bytes than 0xff and 0x00", area="A",
                position=0x80)
    NO_HASH = hash_row("remark", "hash-missing", "a", 0, "no hash", "A")
    COUNTS = of_region("A", 1, 0)

    def test_16_rows(self):
        files, rows = self.tail(16)
        self.document(1, files, "", [MAP, self.TAIL, self.BYTES, *rows, *self.COUNTS], (17, 5, 0))
        self.document(1, files, "-v", [MAP, self.NO_HASH, self.TAIL, self.BYTES, *rows,
                                       *self.COUNTS], (17, 6, 0))

    def test_17_rows(self):
        files, rows = self.tail(17)
        more = row("bad", "tail-entry", "more of these", value=1)
        self.document(1, files, "", [MAP, self.TAIL, self.BYTES, *rows[:16], *self.COUNTS, more],
                      (18, 5, 0))
        self.document(1, files, "-v", [MAP, self.NO_HASH, self.TAIL, self.BYTES, *rows,
                                       *self.COUNTS], (18, 6, 0))

    def test_17_names_of_areas(self):
        rows = [row("bad", "no-area", "no such area", area=f"N{n}") for n in range(1, 17)]
        more = row("bad", "no-area", "more of these", value=1)
        names = "N1,N2,N3,N4,N5,N6,N7,N8,N9,N10,N11,N12,N13,N14,N15,N16,N17"
        self.document(1, {"hashes.rom": HASHES}, f"-r {names}", [*Samples.ROWS, *rows, more],
                      (17, 9, 0))


AREAS = [FMAP, ("A", 0x100, 0x100), ("B", 0x200, 0x100), ("C", 0x300, 0x100)]
OLD = board(0x400, AREAS, (0x100, A), (0x200, B))
NEW = board(0x400, AREAS, (0x100, A), (0x131, b"x"), (0x200, B))


def tail_of(area):
    """Returns the objects of the rows after those of the components of an area."""
    return [row("remark", "tail", "unused tail", area=area, position=0x40), *of_region(area, 1, 0)]


def changes_of_a(verdict):
    """Returns the objects of the changes in A."""
    return [row(verdict, "area-changed", "erase blocks differ", area="A", position=0x100, value=1),
            hash_row(verdict, "component-content-changed", "a", 0, "content changed", "A")]


class Options(DocumentTest):
    """Each choice of -v, -r C, --keep A and --need A:b with two images, in both forms.

    The new image has another content in A, and no file system in C.
    """

    # For each row the option that prints it, or whose absence makes it a change.
    ROWS = [
        ("", "remark|-|-|0x0|flashmap", [MAP]),
        ("-v", "remark|A|a|0x0|no hash", [
            hash_row("remark", "hash-missing", "a", 0, "no hash", "A")]),
        ("", """
            remark|A|-|0x40|unused tail
            remark|A|-|-|components|1
            remark|A|-|-|free bytes|0
            remark|A|-|-|no room for a component
        """, tail_of("A")),
        ("-v", "remark|B|b|0x0|no hash", [
            hash_row("remark", "hash-missing", "b", 0, "no hash", "B")]),
        ("", """
            remark|B|-|0x40|unused tail
            remark|B|-|-|components|1
            remark|B|-|-|free bytes|0
            remark|B|-|-|no room for a component
        """, tail_of("B")),
        ("-r C", "bad|C|-|-|no CBFS", [row("bad", "no-cbfs", "no CBFS", area="C")]),
        ("--need A:b", "bad|A|b|-|needed component isn't there", [
            row("bad", "need-missing", "needed component isn't there", area="A", component="b")]),
        ("", "change|-|-|-|erase blocks differ|1", [
            row("change", "blocks", "erase blocks differ", value=1)]),
        ("no --keep A", """
            change|A|-|0x100|erase blocks differ|1
            change|A|a|0x0|content changed
        """, changes_of_a("change")),
        ("--keep A", """
            bad|A|-|0x100|erase blocks differ|1
            bad|A|a|0x0|content changed
        """, changes_of_a("bad")),
    ]

    # For each choice the status and the counts.
    CHOICES = [
        ("", 0, 0, 9, 3), ("-v", 0, 0, 11, 3),
        ("--need A:b", 1, 1, 9, 3), ("-v --need A:b", 1, 1, 11, 3),
        ("--keep A", 1, 2, 9, 1), ("-v --keep A", 1, 2, 11, 1),
        ("--keep A --need A:b", 1, 3, 9, 1), ("-v --keep A --need A:b", 1, 3, 11, 1),
        ("-r C", 1, 1, 9, 3), ("-v -r C", 1, 1, 11, 3),
        ("-r C --need A:b", 1, 2, 9, 3), ("-v -r C --need A:b", 1, 2, 11, 3),
        ("-r C --keep A", 1, 3, 9, 1), ("-v -r C --keep A", 1, 3, 11, 1),
        ("-r C --keep A --need A:b", 1, 4, 9, 1), ("-v -r C --keep A --need A:b", 1, 4, 11, 1),
    ]

    def test_each_choice(self):
        files = {"old.rom": OLD, "image.rom": NEW}
        for options, status, bad, remarks, changes in self.CHOICES:
            chosen = [(text, rows) for option, text, rows in self.ROWS if option in options
                      or (option == "no --keep A" and "--keep" not in options)]
            last = conclusion(bad, remarks, changes)
            with self.subTest(options):
                self.check(f"cbfscheck old.rom image.rom {options}", files, status,
                           report("\n".join([*(text.strip() for text, _ in chosen), last])))
                self.document(status, files, options, sum((rows for _, rows in chosen), []),
                              (bad, remarks, changes))


class Names(DocumentTest):
    """Names of any bytes: of areas one with characters that are escaped, and two that are not
    UTF-8 and overlap; of components one of two bytes, and one of none."""

    ESCAPED = b"a\t\"\\\x01\x7f\n"
    AREAS = [FMAP, (ESCAPED, 0x100, 64), (b"\xff1", 0x140, 64), (b"\xff2", 0x160, 64)]
    IMAGE = board(0x1C0, AREAS,
                  (0x100, Component(b"\xc3\xa9", b"0123456789", type=0x1234,
                                    name_field=b"\xc3\xa9".ljust(16, b"\0")).bytes),
                  (0x140, Component(b"", b"0123456789", name_field=bytes(16)).bytes))
    ROWS = (
        '"rows":[{"verdict":"remark","code":"map","position":0,"what":"flashmap"},'
        '{"verdict":"remark","code":"area-name","area":[255,49],"position":320,'
        '"what":"name isn\'t UTF-8"},'
        '{"verdict":"remark","code":"area-name","area":[255,50],"position":352,'
        '"what":"name isn\'t UTF-8"},'
        '{"verdict":"bad","code":"area-overlaps","area":[255,49],"position":320,'
        '"what":"overlaps","other":[255,50]},'
        '{"verdict":"bad","code":"area-overlaps","area":[255,50],"position":352,'
        '"what":"overlaps","other":[255,49]},'
        '{"verdict":"remark","code":"component-type","area":"a\\t\\"\\\\\\u0001\x7f\\n",'
        '"component":"é","position":0,"what":"type without a name","value":4660},'
        '{"verdict":"remark","code":"hash-missing","area":"a\\t\\"\\\\\\u0001\x7f\\n",'
        '"component":"é","position":0,"what":"no hash"},'
        '{"verdict":"remark","code":"complete","area":"a\\t\\"\\\\\\u0001\x7f\\n",'
        '"what":"complete"},'
        '{"verdict":"remark","code":"components","area":"a\\t\\"\\\\\\u0001\x7f\\n",'
        '"what":"components","value":1},'
        '{"verdict":"remark","code":"free-bytes","area":"a\\t\\"\\\\\\u0001\x7f\\n",'
        '"what":"free bytes","value":0},'
        '{"verdict":"remark","code":"no-room","area":"a\\t\\"\\\\\\u0001\x7f\\n",'
        '"what":"no room for a component"},'
        '{"verdict":"remark","code":"hash-missing","area":[255,49],"component":"","position":0,'
        '"what":"no hash"},'
        '{"verdict":"remark","code":"complete","area":[255,49],"what":"complete"},'
        '{"verdict":"remark","code":"components","area":[255,49],"what":"components","value":1},'
        '{"verdict":"remark","code":"free-bytes","area":[255,49],"what":"free bytes","value":0},'
        '{"verdict":"remark","code":"no-room","area":[255,49],"what":"no room for a component"}],'
        '"verdict":"not sound","bad":2,"remarks":14,"changes":0}\n'
    )
    LIST = (
        '"areas":[{"area":"FMAP","offset":0,"size":256,"flags":0},'
        '{"area":"a\\t\\"\\\\\\u0001\x7f\\n","offset":256,"size":64,"flags":0},'
        '{"area":[255,49],"offset":320,"size":64,"flags":0},'
        '{"area":[255,50],"offset":352,"size":64,"flags":0}],'
        '"components":[{"area":"a\\t\\"\\\\\\u0001\x7f\\n","component":"é","position":0,'
        '"type":"0x1234","length":10,"compression":"none","hash":"no hash","content":40,'
        f'"sha256":"{TEN_256}"}},'
        '{"area":[255,49],"component":"","position":0,"type":"raw","length":10,'
        '"compression":"none","hash":"no hash","content":40,'
        f'"sha256":"{TEN_256}"}}],'
    )

    def test_the_report(self):
        self.reports(1, self.IMAGE, r"""
            remark|-|-|0x0|flashmap
            remark|\xff1|-|0x140|name isn't UTF-8
            remark|\xff2|-|0x160|name isn't UTF-8
            bad|\xff1|-|0x140|overlaps|\xff2
            bad|\xff2|-|0x160|overlaps|\xff1
            remark|a\x09"\x5c\x01\x7f\x0a|\xc3\xa9|0x0|type without a name|0x1234
            remark|a\x09"\x5c\x01\x7f\x0a|\xc3\xa9|0x0|no hash
            remark|a\x09"\x5c\x01\x7f\x0a|-|-|complete
            remark|a\x09"\x5c\x01\x7f\x0a|-|-|components|1
            remark|a\x09"\x5c\x01\x7f\x0a|-|-|free bytes|0
            remark|a\x09"\x5c\x01\x7f\x0a|-|-|no room for a component
            remark|\xff1||0x0|no hash
            remark|\xff1|-|-|complete
            remark|\xff1|-|-|components|1
            remark|\xff1|-|-|free bytes|0
            remark|\xff1|-|-|no room for a component
            not sound: 2 bad, 14 remarks, 0 changes
        """, "-v")

    def test_the_document(self):
        self.check("cbfscheck --json image.rom -v", {"image.rom": self.IMAGE}, 1,
                   '{"format":1,"image":"image.rom",' + self.ROWS)

    def test_the_list(self):
        self.check("cbfscheck --json image.rom -v --list", {"image.rom": self.IMAGE}, 1,
                   '{"format":1,"image":"image.rom",' + self.LIST + self.ROWS)

    def test_a_path_of_any_characters(self):
        path = 'a"\\\té.rom'
        self.check(["cbfscheck", "--json", path, "-v"], {path: self.IMAGE}, 1,
                   '{"format":1,"image":"a\\"\\\\\\té.rom",' + self.ROWS)

    def test_the_paths_of_the_command_line(self):
        run = self.folder({"image.rom": self.IMAGE, "hashes.rom": HASHES}).run(
            "cbfscheck --json ./image.rom hashes.rom")
        start = b'{"format":1,"image":"hashes.rom","old":"./image.rom","rows":['
        self.assertEqual(run.output[:len(start)], start)


if __name__ == "__main__":
    unittest.main()
