#!/usr/bin/env python3
"""Images with anchors, judged by coreboot's cbfstool (package coreboot-utils).

    python3 -m tests.peers_seal sequences [COUNT] [SEED]
    python3 -m tests.peers_seal images [COUNT] [SEED]

Run by hand. The programs under test are those of tests/programs.py.

`sequences` runs random sequences of our `add` and `remove`, each sealed by cbfsseal: the judge's
`print -v` has to call the anchor of each sealed image valid, and of each edited image invalid.

`images` makes images by coreboot's commands alone: our cbfscheck finds nothing bad in any of them,
and cbfsseal finds both digests right, by the judge's word too.
"""

import pathlib
import random
import subprocess
import sys
import tempfile

from tests.image import (
    BOOTBLOCK, HASHES, SHA256, SHA512, Area, Component, FreeEntry, Image, flash_map, join,
)
from tests.programs import program
from tests.structures import elf
from tests.test_seal import BOOT_AREA, COREBOOT, FMAP, SIZE, outdated

JUDGE = "/usr/sbin/cbfstool"


def state(image):
    """Returns the judge's word on the anchor, `valid` or `invalid`."""
    done = subprocess.run([JUDGE, image, "print", "-v"], stdout=subprocess.PIPE,
                          stderr=subprocess.PIPE, check=True)
    return done.stdout.decode(errors="replace").splitlines()[-1].rpartition(":")[2]


def first_image(chance, algorithm, in_area):
    """Returns an image with free space, and an outdated anchor of the algorithm."""
    content = bytes(chance.randrange(300)) + outdated(algorithm) + b"code"
    areas = [FMAP, COREBOOT, BOOT_AREA] if in_area else [FMAP, COREBOOT]
    made = Image(SIZE, areas)
    last = b"" if in_area else Component(b"bootblock", content, type=BOOTBLOCK).bytes
    made.put("COREBOOT", join(FreeEntry(0x1000 - len(last), keeps=b"" if last else b"keep"), last))
    return made.put("BOOTBLOCK", content) if in_area else made


def edit(chance, folder, names, algorithm):
    """Adds or removes a component, and returns whether the command was accepted."""
    tool = program("cbfstool")
    if names and chance.random() < 0.4:
        name = chance.choice(names)
        command = [tool, "image.rom", "remove", "-n", name]
        change = names.remove
    else:
        name = "c" * chance.randint(1, 40) + str(chance.randrange(10**6))
        (folder / "file").write_bytes(chance.randbytes(chance.randrange(400)))
        command = [tool, "image.rom", "add", "-n", name, "-f", "file", "-t", "raw"]
        hashes = {SHA256: "sha256", SHA512: "sha512"}
        command += ["-A", hashes[algorithm]] if algorithm in hashes else []
        command += ["-a", str(chance.choice([1, 4, 64, 256]))] if chance.random() < 0.3 else []
        change = names.append
    accepted = subprocess.run(command, cwd=folder, stdout=subprocess.PIPE, stderr=subprocess.PIPE)
    if accepted.returncode == 0:
        change(name)
    return accepted.returncode == 0


def check(chance, folder, algorithm, in_area):
    """Edits an image several times, seals it after each edit, and asks the judge."""
    image = folder / "image.rom"
    image.write_bytes(first_image(chance, algorithm, in_area).data())
    option = [] if algorithm in (SHA256, SHA512) else ["--allow-unhashed"]
    names = []
    for _ in range(chance.randint(1, 6)):
        if edit(chance, folder, names, algorithm) and state(image) != "invalid":
            return "an edited image is not invalid"
        before = image.read_bytes()
        subprocess.run([program("cbfsseal"), image, *option], check=True)
        if state(image) != "valid":
            return "a sealed image is not valid"
        if sum(a != b for a, b in zip(before, image.read_bytes())) > 128:
            return "more bytes changed than the digests have"
    return None


def sequences(chance, folder):
    """Checks a sequence of edits and seals, and returns its fault, or None."""
    algorithm, in_area = chance.choice(list(HASHES)), chance.random() < 0.5
    fault = check(chance, folder, algorithm, in_area)
    return f"{fault}: {HASHES[algorithm]}, area: {in_area}" if fault else None


# ---- Images of coreboot's commands

LARGE = 0x40000
LOAD = 0x100000
AREAS = [FMAP, Area("COREBOOT", 0x1000, 0x20000)]
PLAIN_TYPES = ["raw", "bootsplash", "mrc_cache", "microcode", "optionrom", "spd", "cmos_default"]


def random_elf(chance):
    """Returns an ELF file with code at random, and 32 more bytes of memory."""
    code = chance.randbytes(chance.randint(1, 900)) + bytes(chance.randrange(600))
    return elf(LOAD, LOAD, code, len(code) + 32)


def added(chance, kind, name):
    """Returns the words of a command of coreboot's tool that adds a component."""
    place = ["-b", hex(chance.randrange(0x20000))] if chance.random() < 0.15 else []
    packing = ["-c", chance.choice(["none", "lzma", "lz4"])] if chance.random() < 0.4 else []
    align = ["-a", chance.choice(["64", "256", "4096"])] if chance.random() < 0.2 else []
    if kind == "int":
        return ["add-int", "-n", name, "-i", str(chance.randrange(2**40)), *place]
    if kind == "header":
        return ["add-master-header"]
    if kind in ("stage", "payload"):
        return [f"add-{kind}", "-n", name, "-f", "elf", *packing, *place]
    if kind == "flat":
        return ["add-flat-binary", "-n", name, "-f", "file", "-l", "0x100000", "-e", "0x100000",
                *packing]
    return ["add", "-n", name, "-f", "file", "-t", kind, *packing, *(place or align)]


class Build:
    """A build of an image by coreboot's commands, with a bootblock that has an anchor."""

    def __init__(self, chance, folder):
        self.chance = chance
        self.folder = folder
        self.image = folder / "image.rom"
        self.algorithm, self.in_area = chance.choice(list(HASHES)), chance.random() < 0.5
        self.names = []
        self.log = []
        self.message = ""
        self.checked = 0

    def run(self, words):
        """Runs a command of coreboot's tool on the image, and returns whether it was accepted."""
        self.log.append(" ".join(words))
        done = subprocess.run([JUDGE, self.image, *words], cwd=self.folder,
                              stdout=subprocess.PIPE, stderr=subprocess.PIPE)
        self.message = done.stderr.decode(errors="replace")
        return done.returncode == 0

    def begin(self):
        """Creates the image with its flash map."""
        areas = [*AREAS, Area("BOOTBLOCK", 0x30000, 0x2000)] if self.in_area else AREAS
        (self.folder / "map").write_bytes(flash_map(LARGE, areas))
        self.image.unlink(missing_ok=True)
        return self.run(["create", "-M", "map", "-r", "COREBOOT"])

    def add_bootblock(self):
        """Puts the bootblock into its area, or adds it as a component."""
        content = bytes(self.chance.randrange(300)) + outdated(self.algorithm) + b"code" * 9
        if self.in_area:
            (self.folder / "boot").write_bytes(content.ljust(0x2000, b"\xff"))
            return self.run(["write", "-r", "BOOTBLOCK", "-f", "boot"])
        (self.folder / "boot").write_bytes(content)
        place = ["-b", hex(self.chance.randrange(0x1000, 0x1F000, 64))]
        return self.run(["add", "-n", "bootblock", "-t", "bootblock", "-f", "boot",
                         *(place if self.chance.random() < 0.7 else [])])

    def is_place_taken(self):
        """Returns whether the last command was refused, since the chosen offset is not free."""
        return " -b " in self.log[-1] and "E: Could not add" in self.message

    def step(self, kinds):
        """Adds or removes a component, and returns whether the command was accepted."""
        if self.names and self.chance.random() < 0.3:
            name = self.chance.choice(self.names)
            if self.run(["remove", "-n", name]):
                self.names.remove(name)
                return True
            return False
        (self.folder / "file").write_bytes(self.chance.randbytes(self.chance.randint(1, 3000)))
        (self.folder / "elf").write_bytes(random_elf(self.chance))
        name = "c" * self.chance.randint(1, 40) + str(self.chance.randrange(10**6))
        words = added(self.chance, self.chance.choice(kinds), name)
        if not self.run(words):
            return False
        self.names.append("cbfs master header" if words[0] == "add-master-header" else name)
        return True

    def fault(self):
        """Returns what a program finds wrong with the image, or None."""
        if state(self.image) != "valid":
            return None if self.log[-1].startswith("write") else "the judge: invalid"
        self.checked += 1
        report = subprocess.run([program("cbfscheck"), "-v", "-r", "COREBOOT", self.image],
                                stdout=subprocess.PIPE, stderr=subprocess.PIPE)
        if report.returncode:
            return f"cbfscheck: {(report.stdout + report.stderr).decode(errors='replace')}"
        before = self.image.read_bytes()
        sealed = subprocess.run([program("cbfsseal"), "-v", "--allow-unhashed", self.image],
                                stdout=subprocess.PIPE, stderr=subprocess.PIPE)
        if sealed.stdout.count(b" valid\n") != 2 or self.image.read_bytes() != before:
            return f"cbfsseal: {(sealed.stdout + sealed.stderr).decode(errors='replace')}"
        return None


def first_build(chance, folder):
    """Returns a build with a bootblock, and its fault or None.

    Before the bootblock has its anchor, coreboot's tool gives no component a digest, so that only
    components which another program than the firmware reads are added there. One of them can lie
    where the bootblock is to be added. Coreboot's tool then refuses the bootblock, and the next
    build is taken.
    """
    for _ in range(TRIES):
        build = Build(chance, folder)
        if not build.begin():
            return build, "the image is not created"
        for _ in range(chance.choice([0, 0, 0, 1, 2, 3])):
            build.step(PLAIN_TYPES)
        if build.add_bootblock():
            return build, None
        if not build.is_place_taken():
            break
        SKIPPED.append(build)
    return build, f"no bootblock: {build.log}"


def images(chance, folder):
    """Makes an image, checks it after each command, and returns the fault or None."""
    build, fault = first_build(chance, folder)
    if fault:
        return fault
    kinds = [*PLAIN_TYPES, "int", "header", "stage", "payload", "flat"]
    for _ in range(chance.randint(1, 8)):
        if build.step(kinds):
            fault = build.fault()
            if fault:
                return f"{fault}\n{build.log}\n{HASHES[build.algorithm]}, area: {build.in_area}"
    CHECKED.append(build.checked)
    return None


# How many builds are tried until coreboot's tool finds a place for the bootblock of one.
TRIES = 20
SKIPPED = []
CHECKED = []
PARTS = {"sequences": sequences, "images": images}


def main(part, count="500", seed="1"):
    chance = random.Random(int(seed))
    with tempfile.TemporaryDirectory() as path:
        for number in range(int(count)):
            fault = PARTS[part](chance, pathlib.Path(path))
            if fault:
                sys.exit(f"{part}, {number}: {fault}")
    if part == "sequences":
        print(f"{count} sequences: every sealed image is valid")
    else:
        print(f"{count} builds, {sum(CHECKED)} images: nothing is bad, and both digests are right")
        print(f"{len(SKIPPED)} builds were skipped, since a component lay in the bootblock's place")


if __name__ == "__main__":
    if len(sys.argv) < 2 or sys.argv[1] not in PARTS:
        sys.exit(__doc__)
    main(*sys.argv[1:])
