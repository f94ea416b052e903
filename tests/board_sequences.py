#!/usr/bin/env python3
"""Runs the rules of tests/board_rules.py on images by random sequences of coreboot's commands.

    python3 -m tests.board_sequences [IMAGES] [BOARDS] [SEED]      2000, 30 and 1 by default

Run by hand; coreboot-utils and vboot-utils are needed. The tools made each image, and nothing was
broken, so that a bad finding is either true or a false alarm. Each kind of bad finding that is true
is in EXPLAINED, with a function that finds the reason in the commands; any other one is printed
with the commands, and the status is 1.
If cbfscheck is built, the codes of its bad rows are counted too.
"""

import collections
import concurrent.futures
import random
import sys
import tempfile

from tests import board_rules as rules
from tests import boards, image, structures
from tests.board_breakages import sign_without_cbfstool
from tests.board_table import cbfscheck_rows
from tests.boards import KEYS, Bench



# ---- True findings: what the commands did


def last(log, *beginnings):
    """Returns the number of the last accepted command with one of these beginnings, or -1."""
    return max((n for n, line in enumerate(log) if line.startswith(beginnings)), default=-1)


def changes_coreboot(line):
    """Returns whether a line of the log is an accepted change of COREBOOT."""
    changing = line.startswith(("add", "remove", "compact", "expand", "truncate"))
    return changing and (" -r " not in line or " -r COREBOOT" in line)


def odd_map(finding, log):
    """The descriptor puts FMAP at no multiple of 16, and no command finds the map of `create`."""
    pads = [int(word) for word in log[0].split("PAD ")[1:2] for word in [word.split()[0]]]
    return any(pad % 16 for pad in pads)


def long_metadata(finding, log):
    """A long name, or the padding of `add -p`, puts more than 256 bytes before the content."""
    name = finding.place.partition(":")[2]
    return len(name) > 150 or any(f"-n {name} " in line and " -p " in line for line in log)


def outdated_bootblock(finding, log):
    """`write` put a bootblock with an outdated anchor into its area, and COREBOOT stayed."""
    written = last(log, "write -u -r BOOTBLOCK")
    return written >= 0 and not any(map(changes_coreboot, log[written + 1 :]))


def earlier_component(finding, log):
    """The component was added before the bootblock with the anchor, and so without a digest."""
    own = max(n for n, line in enumerate(log) if f"-n {finding.place} " in line)
    return own < last(log, "add -n bootblock", "write -u -r BOOTBLOCK")


def lost_pointer(finding, log):
    """A bootblock after the master header replaced the pointer, or `compact` moved the header."""
    header = last(log, "add-master-header -r COREBOOT")
    return -1 < header < last(log, "add -n bootblock", "add -n header", "compact -r COREBOOT")


def digest_of_bootblock(finding, log):
    """The bootblock has a digest, and its anchor or one of its pointers changed after it."""
    return finding.place in ("COREBOOT:bootblock", "COREBOOT:header pointer")


def no_hardware_id(finding, log):
    """`futility gbb -c` made the GBB, and no hardware id was set."""
    return last(log, "write -u -r GBB") > last(log, "futility gbb -s")


def new_bootblock(finding, log):
    """The bootblock was replaced after ifittool had set its pointer to the FIT."""
    return -1 < last(log, "ifittool") < last(log, "add -n bootblock")


EXPLAINED = {
    ("map", "not found by coreboot's tools"): odd_map,
    ("metadata size", "more than 256 bytes before the content"): long_metadata,
    ("anchor", "metadata digest differs"): outdated_bootblock,
    ("anchor", "map digest differs"): outdated_bootblock,
    ("required digest", "no digest, but an anchor"): earlier_component,
    ("master header", "the pointer is another one"): lost_pointer,
    ("digest", "the content differs from its digest"): digest_of_bootblock,
    ("gbb", "the digest of the hardware id differs"): no_hardware_id,
    ("fit", "the pointer is not the place of intel_fit"): new_bootblock,
}

# Types for `add`; a payload's content has to be one, since `print -v` reads it.
TYPES = ("raw", "bootsplash", "optionrom", "microcode", "spd", "mrc", "mrc_cache", "cmos_default",
         "cmos_layout", "vsa", "mbi", "fsp", "efi", "struct", "mma", "0x4711")
HASHES = ("none", "sha1", "sha224", "sha256", "sha384", "sha512")


def random_map(chance):
    """Returns a descriptor text, and the names of its CBFS regions and of its other areas."""
    kib = chance.choice((300, 512, 512, 1000, 1024))
    rows, regions, others = [], [], []

    def area(name, size, cbfs=False):
        flag = "(CBFS)" if cbfs else chance.choice(("", "(PRESERVE)", ""))
        rows.append(f"{name}{flag} {size}")
        (regions if cbfs else others).append(name)

    if chance.random() < 0.3:
        area("BOOTBLOCK", f"{chance.choice((8, 16, 20, 32))}K")
    if chance.random() < 0.3:
        for letter in "AB":
            area(f"VBLOCK_{letter}", "8K")
            area(f"FW_MAIN_{letter}", f"{chance.choice((16, 32))}K", True)
    if chance.random() < 0.3:
        area("GBB", "12K")
    if chance.random() < 0.3:
        area("RW_VPD", f"{chance.randrange(1, 9)}K")
    if chance.random() < 0.3:
        area("RW_LEGACY", chance.choice(("16K", "16K", "16400")), True)
    chance.shuffle(rows)
    place = chance.randrange(len(rows) + 1)
    gap = chance.choice(("", "", f"PAD {chance.randrange(1, 64) * 16}"))
    if chance.random() < 0.03:
        gap = f"PAD {chance.randrange(1, 4000)}"
    rows[place:place] = [gap, f"FMAP {chance.choice((1024, 2048, 4096))}"]
    end = f"COREBOOT(CBFS)@{kib // 2}K {kib - kib // 2}K"
    regions.append("COREBOOT")
    base = f"@{hex((1 << 32) - (kib << 10))}" if chance.random() < 0.7 else ""
    return f"FLASH{base} {kib}K {{ {' '.join(rows)} {end} }}", regions, others, kib << 10


class Sequence:
    """A random sequence of commands on one image; refused commands are allowed."""

    def __init__(self, chance, folder):
        self.chance = chance
        self.bench = Bench(folder)
        text, self.regions, self.others, self.size = random_map(chance)
        self.log = [text]
        self.names = collections.defaultdict(list)
        self.bench.create(text, self.regions)

    def run(self, command, *words):
        """Runs a command of cbfstool, and returns whether it was accepted."""
        line = [str(word) for word in (command, *words)]
        self.bench.run("cbfstool", self.bench.rom, *line, check=False)
        mark = "" if self.bench.status == 0 else "refused: "
        if self.bench.status < 0:
            mark = "crashed: "
        self.log.append(mark + " ".join(line))
        return not mark

    def name(self):
        """Returns a new name, at times a long one."""
        length = self.chance.choice((1, 3, 8, 20, 60)) if self.chance.random() < 0.95 else 200
        return "n" * length + str(self.chance.randrange(10**6))

    def content(self, limit=3000):
        """Returns random bytes, or compressible ones."""
        size = self.chance.randrange(1, limit)
        if self.chance.random() < 0.5:
            return self.chance.randbytes(size)
        return boards.text(self.chance.randrange(1000), size)

    def region(self):
        """Returns a region, most often COREBOOT."""
        return "COREBOOT" if self.chance.random() < 0.6 else self.chance.choice(self.regions)

    def place(self):
        """Returns options for the place of a component."""
        kind = self.chance.random()
        if kind < 0.2:
            return ["-a", str(self.chance.choice((16, 64, 256, 4096)))]
        if kind < 0.35:
            return ["-b", hex(self.chance.randrange(0x100, self.size // 2, 16))]
        if kind < 0.45:
            return ["-p", str(self.chance.randrange(1, 200))]
        return []

    def add(self):
        region, name = self.region(), self.name()
        words = ["-r", region, "-n", name, "-f", self.bench.put("file", self.content()), "-t",
                 self.chance.choice(TYPES), *self.place()]
        words += ["-A", self.chance.choice(HASHES)] if self.chance.random() < 0.5 else []
        words += ["-c", self.chance.choice(("none", "lzma", "lz4"))]
        if self.run("add", *words):
            self.names[region].append(name)

    def add_number(self):
        region, name = self.region(), self.name()
        if self.run("add-int", "-r", region, "-n", name, "-i", self.chance.randrange(2**64)):
            self.names[region].append(name)

    def elf(self):
        content = self.content(8000)
        load = self.chance.randrange(0x100000, 0x7F000000, 16)
        entry = load + self.chance.randrange(len(content))
        memory = len(content) + self.chance.choice((0, 0, 100, 5000, 100000))
        made = structures.elf(load, entry, content, memory, self.chance.choice((3, 40)))
        return self.bench.put("file.elf", made)

    def add_stage(self):
        region, name = self.region(), self.name()
        words = ["-r", region, "-n", name, "-f", self.elf(), "-c",
                 self.chance.choice(("none", "lzma", "lz4"))]
        words += self.place()[:2] if self.chance.random() < 0.4 else []
        words += ["-A", self.chance.choice(HASHES)] if self.chance.random() < 0.5 else []
        words += ["-y"] if self.chance.random() < 0.1 else []
        if self.run("add-stage", *words):
            self.names[region].append(name)

    def add_payload(self):
        region, name = self.region(), self.name()
        words = ["-r", region, "-n", name, "-f", self.elf(), "-c",
                 self.chance.choice(("none", "lzma"))]
        if self.run("add-payload", *words):
            self.names[region].append(name)

    def add_flat(self):
        region, name = self.region(), self.name()
        words = ["-r", region, "-n", name, "-f", self.bench.put("file", self.content()), "-l",
                 "0x100000", "-e", hex(self.chance.randrange(0x100000, 0x100800))]
        if self.run("add-flat-binary", *words):
            self.names[region].append(name)

    def bootblock(self):
        size = self.chance.choice((1024, 4096, 8192))
        anchor = b""
        if self.chance.random() < 0.6:
            number = self.chance.choice(sorted(image.HASHES))
            length = len(image.digest(number, b""))
            anchor = image.anchor(number, bytes(length), bytes(length))
        content = structures.bootblock(size, anchor, anchor_at=self.chance.randrange(0, 700, 4))
        path = self.bench.put("file", content)
        if "BOOTBLOCK" in self.others:
            self.run("write", "-u", "-r", "BOOTBLOCK", "-f", path)
            self.bench.put("pointer", b"ptr_")
            self.run("add", "-n", "header pointer", "-t", "cbfs header", "-b", "-4", "-f",
                     self.bench.folder / "pointer")
            return
        words = ["-n", "bootblock", "-t", "bootblock", "-b", f"-{size}", "-f", path]
        words += ["-A", self.chance.choice(HASHES)] if self.chance.random() < 0.1 else []
        if self.run("add", *words):
            self.names["COREBOOT"].append("bootblock")

    def master_header(self):
        self.run("add-master-header", "-r", self.region())

    def remove(self):
        region = self.region()
        if self.names[region]:
            name = self.chance.choice(self.names[region])
            if self.run("remove", "-r", region, "-n", name):
                self.names[region].remove(name)

    def compact(self):
        self.run("compact", "-r", self.region())

    def truncate(self):
        region = self.chance.choice(self.regions)
        self.run("truncate", "-r", region)
        if self.chance.random() < 0.7:
            self.run("expand", "-r", region)

    def write(self):
        others = [name for name in self.others if name not in ("GBB", "BOOTBLOCK")
                  and not name.startswith("VBLOCK")]
        if others:
            self.run("write", "-u", "-r", self.chance.choice(others), "-f",
                     self.bench.put("file", self.content(1000)))

    def table(self):
        name = "intel_fit"
        if name in self.names["COREBOOT"] or "bootblock" not in self.names["COREBOOT"]:
            return
        fit = self.bench.put("file", structures.fit_table([], slots=6))
        code = self.bench.put("code", boards.MICROCODE)
        if self.run("add", "-n", name, "-t", "raw", "-a", "16", "-f", fit):
            self.names["COREBOOT"].append(name)
            if self.run("add", "-n", "microcode", "-t", "microcode", "-a", "16", "-f", code):
                words = ("-f", self.bench.rom, "-r", "COREBOOT", "-s", "6")
                self.bench.run("ifittool", *words, "-F", "-n", name, check=False)
                self.bench.run("ifittool", *words, "-a", "-n", "microcode", "-t", "1", check=False)
                self.log.append("ifittool -F, ifittool -a")

    def gbb(self):
        if "GBB" in self.others:
            self.bench.run("futility", "gbb", "-c", "0x100,0x1000,0,0x1000", "gbb")
            if self.run("write", "-u", "-r", "GBB", "-f", self.bench.folder / "gbb"):
                self.bench.run("futility", "gbb", "-s", "--hwid=A BOARD", "-k",
                               KEYS / "root_key.vbpubk", "-r", KEYS / "recovery_key.vbpubk",
                               self.bench.rom, check=False)
                found = b"A BOARD" in self.bench.data()
                self.log.append("futility gbb -s" if found else "refused: futility gbb -s")

    def sign(self):
        if "FW_MAIN_A" in self.regions:
            slots = (self.bench.run("futility", "sign", "--type", "bios", self.bench.rom,
                                    check=False))
            self.log.append("futility sign" + (": failed" if "ERROR" in slots else ""))

    def step(self):
        kinds = ((30, self.add), (6, self.add_number), (12, self.add_stage), (8, self.add_payload),
                 (4, self.add_flat), (6, self.bootblock), (6, self.master_header),
                 (12, self.remove), (3, self.compact), (3, self.truncate), (4, self.write),
                 (5, self.table), (4, self.gbb), (5, self.sign))
        self.chance.choices([kind for _, kind in kinds], [weight for weight, _ in kinds])[0]()


def one_image(seed):
    """Returns (findings, cbfscheck's codes, log) of the image by one sequence."""
    chance = random.Random(seed)
    with tempfile.TemporaryDirectory() as folder:
        made = Sequence(chance, folder)
        for _ in range(chance.randint(1, 12)):
            made.step()
        found = rules.check(made.bench.data())
        codes = cbfscheck_rows(made.bench.folder, "-r", "COREBOOT", made.bench.rom) or set()
    bad = [one for one in found if one.verdict == rules.BAD]
    return bad, codes, made.log


def random_board(chance, bench):
    """Builds a board with random properties in the order of coreboot's build."""
    mib = chance.choice((8, 16, 32))
    blobs, gbe = chance.random() < 0.8, chance.random() < 0.5
    slots, anchored = chance.random() < 0.7, chance.random() < 0.6
    engine = 1 if mib == 8 else chance.choice((1, 2, 3))
    gbe_row = "SI_GBE 8K" if gbe else ""
    slot_rows = " ".join(f"RW_SECTION_{x} 1M {{ VBLOCK_{x} 64K FW_MAIN_{x}(CBFS) RW_FWID_{x} 64 }}"
                         for x in "AB") if slots else ""
    gbb_row = "GBB 12K" if slots else ""
    descriptor = (f"FLASH@{hex((1 << 32) - (mib << 20))} {mib}M {{ SI_ALL {engine}M {{ SI_DESC 4K "
                  f"{gbe_row} SI_ME }} SI_BIOS {{ {slot_rows} RW_MRC_CACHE(PRESERVE) 64K "
                  f"RW_VPD(PRESERVE) 16K UNUSED WP_RO 3M {{ FMAP {chance.choice((1, 2, 4))}K "
                  f"{gbb_row} COREBOOT(CBFS) }} }} }}")
    regions = ["COREBOOT"] + (["FW_MAIN_A", "FW_MAIN_B"] if slots else [])
    bench.create(descriptor, regions)
    if blobs:
        add_blobs(chance, bench, engine, mib, gbe)
    number = chance.choice((image.SHA256, image.SHA512))
    size = len(image.digest(number, b""))
    anchor = image.anchor(number, bytes(size), bytes(size)) if anchored else b""
    block = chance.choice((16384, 32768, 65536))
    bench.add("bootblock", structures.bootblock(block, anchor), "-b", f"-{block}",
              type="bootblock")
    bench.cbfstool("add-master-header")
    if chance.random() < 0.7:
        bench.add("cpu_microcode_blob.bin", boards.MICROCODE, "-a", "16", type="microcode")
        bench.add("intel_fit", structures.fit_table([], slots=chance.randrange(3, 40)), "-a", "16")
        words = ("-f", bench.rom, "-r", "COREBOOT", "-s", "40")
        bench.run("ifittool", *words, "-F", "-n", "intel_fit")
        bench.run("ifittool", *words, "-a", "-n", "cpu_microcode_blob.bin", "-t", "1")
    fill(bench, number if anchored else None)
    if slots:
        boards.add_gbb(bench)
        for letter in "AB":
            boards.fill_slot(bench, "FW_MAIN_" + letter, chance.randrange(1000),
                             digest=image.HASHES[number])
        if chance.random() < 0.2:
            sign_without_cbfstool(bench)
        else:
            boards.sign(bench)


def add_blobs(chance, bench, engine, mib, gbe):
    """Writes a flash descriptor and the engine."""
    first = 0x3000 if gbe else 0x1000
    whole, start = mib << 20, engine << 20
    places = [(0, 0x1000), (start, whole - start), (first, start - first)]
    numbers = [structures.descriptor_region(*place) for place in places]
    numbers.append(structures.descriptor_region(0x1000, 0x2000) if gbe
                   else structures.UNUSED_REGION)
    bench.write("SI_DESC", structures.descriptor([*numbers, structures.UNUSED_REGION]))
    start = chance.choice((b"\xff" * 16, b""))
    bench.write("SI_ME", structures.partition_table(start=start) + boards.text(3, 100000))


def fill(bench, number):
    """Adds stages, a payload and data; with an anchor, each has a digest of its algorithm."""
    words = ["-A", image.HASHES[number]] if number else []
    bench.stage("fallback/romstage", boards.text(10, 30000), 0x2000000, "-c", "none", *words)
    bench.stage("fallback/ramstage", boards.text(11, 90000), 0x4000000, "-c", "lzma", *words,
                memory=120000)
    bench.payload("fallback/payload", boards.text(13, 60000), 0x6000000, "-c", "lzma", *words)
    bench.add("config", boards.text(14, 900), *words)


def one_board(seed):
    """Returns (findings, cbfscheck's codes, log) of a random board, and what the tools say."""
    chance = random.Random(seed)
    with tempfile.TemporaryDirectory() as folder:
        bench = Bench(folder)
        random_board(chance, bench)
        found = rules.check(bench.data())
        codes = cbfscheck_rows(bench.folder, "-r", "COREBOOT", bench.rom) or set()
        bench.run("ifdtool", "-t", bench.rom, check=False)
        text = (bench.folder / "board.fmd").read_text()
    return [one for one in found if one.verdict == rules.BAD], codes, [text]


def report(name, results):
    """Prints the counts of the bad findings and codes, and returns whether all are explained."""
    counts, codes, unexplained = collections.Counter(), collections.Counter(), []
    for number, (bad, rows, log) in enumerate(results):
        counts.update({(one.rule, one.text) for one in bad})
        codes.update({code.split(":")[0] for code in rows})
        for one in bad:
            true = EXPLAINED.get((one.rule, one.text))
            if not true or not true(one, log):
                unexplained.append((number, one, log))
    good = sum(not bad for bad, _, _ in results)
    print(f"{len(results)} {name}: {good} without a bad finding")
    for kind, count in counts.most_common():
        reason = EXPLAINED[kind].__doc__ if kind in EXPLAINED else "no reason is known"
        print(f"  {count} {kind[0]}: {kind[1]}: {reason}")
    print(f"  cbfscheck, by codes: {dict(codes)}")
    for number, finding, log in unexplained[:10]:
        print(f"  NOT EXPLAINED in number {number}: {finding}", *log, sep="\n      ")
    print(f"  {len(unexplained)} findings are not explained", flush=True)
    return not unexplained


def main(images="2000", count="30", seed="1"):
    for name in boards.TOOLS:
        boards.tool(name)
    first = int(seed) * 10**6
    with concurrent.futures.ProcessPoolExecutor(2) as pool:
        made = list(pool.map(one_image, range(first, first + int(images)), chunksize=20))
        explained = [report("images", made)]
        built = list(pool.map(one_board, range(first, first + int(count))))
    explained.append(report("boards", built))
    sys.exit(0 if all(explained) else 1)


if __name__ == "__main__":
    main(*sys.argv[1:])
