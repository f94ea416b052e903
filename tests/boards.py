#!/usr/bin/env python3
"""Builds boards with the real tools, and compares tests/structures.py with what they make.

    python3 -m tests.boards build FOLDER       writes intel.rom, arm.rom and plain.rom
    python3 -m tests.boards structures         compares each builder of tests/structures.py

Run by hand: coreboot-utils (cbfstool, fmaptool, ifdtool, ifittool), vboot-utils (futility) and the
development keys of vboot-kernel-utils are needed. The boards are

- `intel`: 16 MiB with flash descriptor, management engine, two signed slots, GBB, FIT with
  microcode, master header, and a bootblock with an anchor of CBFS verification;
- `arm`: 8 MiB with an area BOOTBLOCK that has an anchor, two signed slots and a GBB;
- `plain`: 8 MiB with a bootblock for x86, and nothing of the above but a master header.
"""

import pathlib
import shutil
import struct
import subprocess
import sys
import tempfile

from tests import board_rules as rules
from tests import image, structures

KEYS = pathlib.Path("/usr/share/vboot/devkeys")
TOOLS = ("cbfstool", "fmaptool", "ifdtool", "ifittool", "futility")
HARDWARE_ID = b"TEST BOARD 1234"
MIB = 1 << 20

INTEL = """FLASH@0xff000000 16M {
	SI_ALL@0x0 2M {
		SI_DESC@0x0 4K
		SI_GBE 8K
		SI_ME
	}
	SI_BIOS@2M 14M {
		RW_SECTION_A 3M { VBLOCK_A 64K FW_MAIN_A(CBFS) RW_FWID_A 64 }
		RW_SECTION_B 3M { VBLOCK_B 64K FW_MAIN_B(CBFS) RW_FWID_B 64 }
		RW_MISC 256K {
			RW_MRC_CACHE(PRESERVE) 64K
			RW_ELOG(PRESERVE) 16K
			RW_VPD(PRESERVE) 8K
			RW_NVRAM(PRESERVE) 24K
		}
		RW_LEGACY(CBFS) 1M
		WP_RO@8M 6M {
			RO_VPD(PRESERVE) 16K
			RO_SECTION {
				FMAP 2K
				RO_FRID 64
				RO_FRID_PAD 1984
				GBB 12K
				COREBOOT(CBFS)
			}
		}
	}
}
"""

ARM = """FLASH 8M {
	WP_RO 4M {
		BOOTBLOCK 64K
		FMAP 4K
		COREBOOT(CBFS)
		GBB 12K
		RO_VPD(PRESERVE) 16K
		RO_FRID 256
	}
	RW_SECTION_A 1M { VBLOCK_A 8K FW_MAIN_A(CBFS) RW_FWID_A 256 }
	RW_SECTION_B 1M { VBLOCK_B 8K FW_MAIN_B(CBFS) RW_FWID_B 256 }
	RW_VPD(PRESERVE) 16K
	RW_NVRAM(PRESERVE) 64K
	RW_UNUSED
}
"""

PLAIN = """FLASH@0xff800000 8M {
	FMAP 4K
	CONFIG(PRESERVE) 64K
	COREBOOT(CBFS)
}
"""


def tool(name):
    """Returns the path of a real tool, which may be in /usr/sbin."""
    found = shutil.which(name, path="/usr/sbin:/usr/bin:/usr/local/sbin:/usr/local/bin")
    if not found:
        sys.exit(f"boards: skipped: no {name} (packages coreboot-utils and vboot-utils)")
    return found


class Bench:
    """A folder with an image `rom`, and the files and tools that change it."""

    def __init__(self, folder):
        self.folder = pathlib.Path(folder)
        self.rom = self.folder / "rom"
        self.status = 0

    def put(self, name, content):
        """Writes a file, and returns its path."""
        path = self.folder / name
        path.write_bytes(content if isinstance(content, bytes) else content.encode())
        return path

    def run(self, name, *words, check=True):
        """Runs a tool in the folder, and returns its output. It must succeed, if `check`.

        The status stays in `status`.
        """
        done = subprocess.run([tool(name), *map(str, words)], cwd=self.folder,
                              stdout=subprocess.PIPE, stderr=subprocess.STDOUT)
        self.status = done.returncode
        if check and done.returncode:
            text = done.stdout.decode(errors="replace")[:2000]
            raise ValueError(f"{name} {' '.join(map(str, words))}: {done.returncode}: {text}")
        return done.stdout.decode(errors="replace")

    def cbfstool(self, command, *words):
        """Runs a command of coreboot's cbfstool on the image."""
        return self.run("cbfstool", self.rom, command, *words)

    def create(self, descriptor, regions):
        """Creates the image from a descriptor text, with an empty CBFS in each of the regions."""
        self.put("board.fmd", descriptor)
        self.run("fmaptool", "board.fmd", "board.fmap")
        self.cbfstool("create", "-M", "board.fmap", "-r", ",".join(regions))

    def add(self, name, content, *words, type="raw", region="COREBOOT"):
        """Adds a component."""
        self.put("file", content)
        self.cbfstool("add", "-r", region, "-n", name, "-t", type, "-f", "file", *words)

    def write(self, area, content):
        """Writes the start of an area, and leaves the rest as it is."""
        self.put("file", content)
        self.cbfstool("write", "-u", "-r", area, "-f", "file")

    def stage(self, name, content, load, *words, region="COREBOOT", memory=None, machine=3):
        """Adds a stage from an ELF file; its entry is 16 bytes after its start."""
        self.put("file.elf", structures.elf(load, load + 16, content, memory, machine))
        self.cbfstool("add-stage", "-r", region, "-n", name, "-f", "file.elf", *words)

    def payload(self, name, content, load, *words, region="COREBOOT", machine=3):
        """Adds a payload from an ELF file."""
        self.put("file.elf", structures.elf(load, load, content, None, machine))
        self.cbfstool("add-payload", "-r", region, "-n", name, "-f", "file.elf", *words)

    def data(self):
        """Returns the bytes of the image."""
        return self.rom.read_bytes()


def text(seed, size):
    """Returns compressible bytes, which are others for another seed."""
    return b"".join(b"%d line %d of the text\n" % (seed, n) for n in range(size // 16 + 1))[:size]


def fill_slot(bench, region, seed, machine=3, digest="sha256"):
    """Adds what a signed slot has; a board with an anchor takes digests of its algorithm only."""
    bench.stage("fallback/romstage", text(seed, 30000), 0x2000000, "-c", "none", region=region,
                machine=machine)
    bench.stage("fallback/ramstage", text(seed + 1, 90000), 0x4000000, "-c", "lzma", "-A",
                digest, region=region, memory=120000, machine=machine)
    bench.payload("fallback/payload", text(seed + 2, 60000), 0x6000000, "-c", "lzma",
                  region=region, machine=machine)
    bench.add("ecrw", text(seed + 3, 8000), "-A", digest, region=region)
    bench.add("config", text(seed + 4, 700), region=region)


def fill_coreboot(bench, machine=3):
    """Adds what COREBOOT has beside the bootblock."""
    bench.stage("fallback/romstage", text(10, 30000), 0x2000000, "-c", "none", "-A", "sha256",
                machine=machine)
    bench.stage("fallback/ramstage", text(11, 90000), 0x4000000, "-c", "lzma", "-A", "sha256",
                memory=120000, machine=machine)
    bench.stage("fallback/verstage", text(12, 20000), 0x5000000, "-c", "lz4", "-A", "sha256",
                memory=40000, machine=machine)
    bench.payload("fallback/payload", text(13, 60000), 0x6000000, "-c", "lzma", "-A", "sha256",
                  machine=machine)
    bench.add("config", text(14, 900), "-A", "sha256")
    bench.add("revision", text(15, 300), "-A", "sha256")
    bench.add("logo.bmp", text(16, 5000), "-A", "sha256", "-c", "lzma", type="bootsplash")
    bench.put("number", b"")
    bench.cbfstool("add-int", "-i", "0x1122334455667788", "-n", "etc/boot-delay")


def sign(bench):
    """Signs both slots with the development keys, in place."""
    bench.run("futility", "sign", "--type", "bios", "-s", KEYS / "firmware_data_key.vbprivk", "-b",
              KEYS / "firmware.keyblock", "-k", KEYS / "kernel_subkey.vbpubk", bench.rom)


def add_gbb(bench):
    """Creates a GBB with the development keys, and writes it to its area."""
    bench.run("futility", "gbb", "-c", "0x100,0x1000,0,0x1000", "gbb")
    bench.cbfstool("write", "-u", "-r", "GBB", "-f", "gbb")
    bench.run("futility", "gbb", "-s", "--hwid=" + HARDWARE_ID.decode(), "-k",
              KEYS / "root_key.vbpubk", "-r", KEYS / "recovery_key.vbpubk", bench.rom)


def intel_descriptor():
    """Returns the flash descriptor of the board `intel`."""
    places = [(0, 0x1000), (0x200000, 0xE00000), (0x3000, 0x1FD000), (0x1000, 0x2000)]
    regions = [structures.descriptor_region(*place) for place in places]
    return structures.descriptor([*regions, structures.UNUSED_REGION])


EMPTY_ANCHOR = image.anchor(image.SHA256, bytes(32), bytes(32))
MICROCODE = structures.microcode(2048) + structures.microcode(4096, revision=2)


def build_intel(folder):
    """Returns the bytes of the board `intel`."""
    bench = Bench(folder)
    bench.create(INTEL, ["COREBOOT", "FW_MAIN_A", "FW_MAIN_B", "RW_LEGACY"])
    bench.write("SI_DESC", intel_descriptor())
    bench.write("SI_GBE", text(1, 4096))
    bench.write("SI_ME", structures.partition_table() + text(2, 500000))
    bench.add("bootblock", structures.bootblock(65536, anchor=EMPTY_ANCHOR), "-b", "-65536",
              type="bootblock")
    bench.cbfstool("add-master-header")
    bench.add("cpu_microcode_blob.bin", MICROCODE, "-a", "16", type="microcode")
    bench.add("intel_fit", structures.fit_table([], slots=8), "-a", "16")
    fill_coreboot(bench)
    fit = ("-f", bench.rom, "-r", "COREBOOT", "-s", "8")
    bench.run("ifittool", *fit, "-F", "-n", "intel_fit")
    bench.run("ifittool", *fit, "-a", "-n", "cpu_microcode_blob.bin", "-t", "1")
    finish(bench)
    bench.payload("altfw/seabios", text(60, 40000), 0x6000000, "-c", "lzma", region="RW_LEGACY")
    return bench.data()


def finish(bench, machine=3):
    """Adds identifiers, GBB and signed slots."""
    bench.write("RO_FRID", b"Board.1.2.3\0")
    add_gbb(bench)
    for slot, seed in (("A", 20), ("B", 40)):
        bench.write("RW_FWID_" + slot, b"Board.1.2.%d\0" % seed)
        fill_slot(bench, "FW_MAIN_" + slot, seed, machine)
    sign(bench)


def build_arm(folder):
    """Returns the bytes of the board `arm`."""
    bench = Bench(folder)
    bench.create(ARM, ["COREBOOT", "FW_MAIN_A", "FW_MAIN_B"])
    bench.write("BOOTBLOCK", b"\x07\0\0\xea" * 2000 + EMPTY_ANCHOR + text(3, 3000))
    bench.add("header pointer", b"ptr_", "-b", "-4", type="cbfs header")
    bench.cbfstool("add-master-header")
    fill_coreboot(bench, machine=40)
    finish(bench, machine=40)
    return bench.data()


def build_plain(folder):
    """Returns the bytes of the board `plain`."""
    bench = Bench(folder)
    bench.create(PLAIN, ["COREBOOT"])
    bench.add("bootblock", structures.bootblock(32768), "-b", "-32768", type="bootblock")
    bench.cbfstool("add-master-header")
    bench.stage("fallback/romstage", text(71, 30000), 0x2000000, "-c", "none")
    bench.stage("fallback/ramstage", text(72, 90000), 0x4000000, "-c", "lzma", memory=120000)
    bench.payload("fallback/payload", text(73, 60000), 0x6000000, "-c", "lzma")
    bench.add("config", text(74, 900), "-A", "sha256")
    bench.add("data", text(75, 5000))
    return bench.data()


BUILDERS = {"intel": build_intel, "arm": build_arm, "plain": build_plain}


def build(name):
    """Builds a board in a new folder, and returns its bytes."""
    with tempfile.TemporaryDirectory() as folder:
        return BUILDERS[name](folder)


def build_all(folder):
    """Writes each board to a file in the folder."""
    for name in BUILDERS:
        (pathlib.Path(folder) / f"{name}.rom").write_bytes(build(name))


# ---- Comparison of tests/structures.py with the real tools


def check_descriptor(folder, board):
    """The bytes that `ifdtool -n` writes for a layout are the numbers of descriptor_region()."""
    bench = Bench(folder)
    places = {"fd": (0, 0x1000), "bios": (0x300000, 0xD00000), "me": (0x5000, 0x2FB000),
              "gbe": (0x1000, 0x4000)}
    rows = [f"{at:08x}:{at + size - 1:08x} {name}\n" for name, (at, size) in places.items()]
    bench.put("rom", board.data)
    bench.put("layout", "".join(rows))
    bench.run("ifdtool", "-n", "layout", "rom")
    numbers = [structures.descriptor_region(*place) for place in places.values()]
    made = (bench.folder / "rom.new").read_bytes()[0x40 : 0x40 + 16]
    return made, struct.pack("<4I", *numbers)


def check_dump(folder, board):
    """The regions that `ifdtool -f` reads are those of the descriptor, and `ifdtool -t` agrees."""
    bench = Bench(folder)
    bench.put("rom", board.data)
    bench.run("ifdtool", "-t", "rom")
    bench.run("ifdtool", "-f", "layout", "rom")
    expected = (b"00000000:00000fff fd\n00200000:00ffffff bios\n00003000:001fffff me\n"
                b"00001000:00002fff gbe\n")
    return (bench.folder / "layout").read_bytes(), expected


def check_keyblock(folder, board):
    """The keyblock of futility's slot, from its key and its signature."""
    block = board.bytes_of("VBLOCK_A")
    key, size = slice(112, 112 + rules.u64(block, 88)), rules.u64(block, 16)
    signature = block[24 + rules.u64(block, 24) :][: rules.u64(block, 32)]
    return block[:size], structures.keyblock(block[key], signature, flags=rules.u64(block, 72))


def check_preamble(folder, board):
    """The preamble of futility's slot, from its key and its signatures."""
    block = board.bytes_of("VBLOCK_A")
    data = block[rules.u64(block, 16) :]
    key = data[108 : 108 + rules.u64(data, 56)]
    own, body = (data[at + rules.u64(data, at) :][: rules.u64(data, at + 8)] for at in (8, 80))
    made = structures.preamble(key, body, own, rules.last_end(board.bytes_of("FW_MAIN_A")))
    return data[: rules.u32(data, 0)], made


def check_gbb(folder, board):
    """The GBB of futility, from the keys."""
    keys = [(KEYS / name).read_bytes() for name in ("root_key.vbpubk", "recovery_key.vbpubk")]
    made = structures.gbb(HARDWARE_ID, *keys)
    return board.bytes_of("GBB")[: len(made)], made


def check_fit(folder, board):
    """The FIT after ifittool added the microcode to an empty one, and its pointer."""
    table, code = (next(one for one in board.components() if one.name == name)
                   for name in (b"intel_fit", b"cpu_microcode_blob.bin"))
    start = board.area("COREBOOT").offset
    size = len(board.data)
    first = structures.address(start + code.start, size)
    entries = [structures.fit_entry(first), structures.fit_entry(first + 2048)]
    pointer = structures.address(start + table.start, size)
    seen = table.content + board.data[size - 0x40 : size - 0x3C]
    return seen, structures.fit_table(entries, slots=6) + struct.pack("<I", pointer)


def check_master_header(folder, board):
    """The component and the pointer that `add-master-header` made."""
    area = board.area("COREBOOT")
    seen = board.bytes_of("COREBOOT")
    header = board.components()[0]
    content = structures.master_header(area.offset + area.size, area.offset)
    made = structures.header_component(content).bytes
    pointer = structures.header_pointer(header.start, area.size)
    return seen[: len(made)] + seen[-4:], made + pointer


def check_bootblock(folder, board):
    """The bootblock as the tools left it: anchor, FIT pointer, reset vector, header pointer."""
    one = board.bootblock()
    metadata = b"".join(map(rules.terminated, board.components()))
    digests = [image.digest(image.SHA256, metadata),
               image.digest(image.SHA256, board.map.bytes)]
    made = structures.bootblock(65536, anchor=image.anchor(image.SHA256, *digests),
                                fit_pointer=rules.u32(one.content, 65536 - 0x40),
                                header_pointer=one.content[-4:])
    return one.content, made


def check_stage(folder, board):
    """The attribute of a stage that `add-stage` made from an ELF file of elf()."""
    one = next(one for one in board.components() if one.name == b"fallback/ramstage")
    seen = one.metadata[one.attributes_offset :]
    at = seen.index(struct.pack(">I", image.STAGE_TAG))
    return seen[at : at + 24], image.stage_attribute(16, 120000, 0x4000000)


def check_newer_descriptor(folder, board):
    """The verdicts of `ifdtool -p sklkbl -t` on small images, with SI_EC as the ninth region."""
    bench = Bench(folder)
    places = {"FMAP": (0x8000, 0x400), "SI_DESC": (0, 0x1000), "SI_EC": (0x4000, 0x1000),
              "SI_PDR": (0x5000, 0x1000), "SI_BIOS": (0x6000, 0xA000)}
    unused = structures.UNUSED_REGION
    right = [structures.descriptor_region(*places["SI_DESC"]),
             structures.descriptor_region(*places["SI_BIOS"]), unused, unused,
             structures.descriptor_region(*places["SI_PDR"]), unused, unused, unused,
             structures.descriptor_region(*places["SI_EC"])]
    changes = [(), ((8, 1),), ((8, 1 << 16),), ((8, 0x1000),), ((8, 0x4000),), ((8, 0x8000),),
               ((8, 0x40000000),), ((8, 0x80000000),), ((1, 0x10000000),), ((1, 1),), ((4, 1),),
               ((4, -1),), ((0, 1 << 16),), ((5, 1),), ((8, unused - right[8]),)]
    seen, found = [], []
    for change in changes:
        numbers = list(right)
        for index, delta in change:
            numbers[index] = (numbers[index] + delta) & 0xFFFFFFFF
        made = image.Image(0x10000, [image.Area(name, *place) for name, place in places.items()])
        made.put_at(0, structures.descriptor(numbers))
        bench.put("rom", made.data())
        output = bench.run("ifdtool", "-p", "sklkbl", "-t", "rom", check=False)
        seen.append("mismatch" in output)
        found.append(any(one.rule == "descriptor" for one in rules.check(made.data())))
    return bytes(seen), bytes(found)


def check_rules(folder, board):
    """The findings of tests/board_rules.py about the board, and so about its microcode: none."""
    return repr(rules.check(board.data)).encode(), b"[]"


STRUCTURES = (check_rules, check_descriptor, check_dump, check_newer_descriptor, check_keyblock,
              check_preamble, check_gbb, check_fit, check_master_header, check_bootblock,
              check_stage)


def check_structures():
    """Compares each builder with the tools' bytes, and returns whether all are equal."""
    board = rules.Board(build("intel"))
    equal = True
    for check in STRUCTURES:
        with tempfile.TemporaryDirectory() as folder:
            seen, made = check(folder, board)
        print(f"{'equal' if seen == made else 'DIFFERS'}\t{len(seen)}\t{check.__doc__}")
        if seen != made:
            equal = False
            print(f"  tool: {seen[:64].hex(' ', 4)}\n  ours: {made[:64].hex(' ', 4)}")
    return equal


def main(command="", folder="."):
    if command == "build":
        build_all(folder)
    elif command == "structures":
        sys.exit(0 if check_structures() else 1)
    else:
        sys.exit(__doc__)


if __name__ == "__main__":
    main(*sys.argv[1:])
