"""Many commands at once on one image: none loses the change of another one.

Eight workers add, remove and list components of their own, some of their commands are killed, and
beside them are readers, locks of another program, full pipes, and `create` on another image. At the
end each component whose addition ended is there with its bytes and a valid digest, each one whose
removal ended is gone, and each one whose command was killed is as before or as after.

The variable TOGETHER_SEED repeats the choices of a run; a failure prints it.
"""

import concurrent.futures
import fcntl
import hashlib
import os
import pathlib
import random
import signal
import struct
import subprocess
import sys
import tempfile
import termios
import time
import unittest

from tests.image import Area, flash_map
from tests.programs import TIME_LIMIT, ProgramTest, program

SEED = int(os.environ.get("TOGETHER_SEED", random.SystemRandom().randrange(1 << 30)))
WORKERS, STEPS, SIDE = 8, 12, 60
MIB = 1 << 20
# The seconds of a command beside a listing whose pipe is full.
SOON = float(os.environ.get("TOGETHER_LIMIT", 20))
PIPE_SIZE = 4096
F_SETPIPE_SZ = 1031
# Holds a lock of the image for 50 milliseconds.
HOLD = """import fcntl, sys, time
with open("image.rom", "rb") as file:
    fcntl.flock(file, int(sys.argv[1]))
    time.sleep(0.05)"""

BOTH = flash_map(16 * MIB, [Area("FMAP", 0, 4096), Area("A", 4096, 8 * MIB),
                            Area("B", 4096 + 8 * MIB, MIB)], name=b"F")
OTHER = flash_map(MIB, [Area("FMAP", 0, 4096), Area("COREBOOT", 4096, MIB - 4096)], name=b"F")
# The number of bytes of free space: all but the header, and the last four bytes.
FRESH = f"(empty)\t0x0\tnull\t{MIB - 4096 - 32}\tnone\n"
SIDES = [f"side{number}" for number in range(SIDE)]


def content(number):
    """Returns bytes whose number and values follow from a number."""
    lines = b"".join(b"%d\n" % line for line in range(number, number + 2000))
    return lines[:number * 7919 % 9000]


def rows_of(name, data, algorithm):
    """Returns the three lines that `print -v` shows of a component, without its position."""
    digest = hashlib.new(algorithm, data).hexdigest()
    return [f"{name}\traw\t{len(data)}\tnone",
            f"\tattr\t0x68736148\t{12 + len(digest) // 2}",
            f"\thash\t{algorithm}\t{digest}\tvalid"]


class Refused(Exception):
    """A command that did not end as it should, or an image that changed when it should not."""


class Room:
    """A folder with an image, in which commands of many threads run."""

    def __init__(self, path):
        self.path = pathlib.Path(path)

    def start(self, command, **options):
        """Starts a command line."""
        name, *words = command.split()
        return subprocess.Popen([program(name), *words], cwd=self.path, stderr=subprocess.PIPE,
                                **{"stdout": subprocess.PIPE, **options})

    def run(self, command, limit=TIME_LIMIT):
        """Runs a command, which must succeed without a message, and returns its output."""
        return self.end(command, self.start(command), limit)

    def end(self, command, started, limit=TIME_LIMIT):
        """Waits for a command, which must succeed without a message, and returns its output."""
        try:
            output, message = started.communicate(timeout=limit)
        except subprocess.TimeoutExpired:
            started.kill()
            started.communicate()
            raise Refused(f"{command}: does not end in {limit} seconds") from None
        if started.returncode or message:
            raise Refused(f"{command}: status {started.returncode}, {message.decode()}")
        return output

    def is_ended(self, command, seconds):
        """Kills a command after some seconds, and returns whether it ended before."""
        started = self.start(command)
        time.sleep(seconds)
        started.kill()
        if started.wait() == -signal.SIGKILL:
            started.communicate()
            return False
        self.end(command, started)
        return True

    def add(self, number):
        """Adds one of the first components."""
        name = SIDES[number]
        (self.path / name).write_bytes(content(number))
        self.run(f"cbfstool image.rom add -r A -n {name} -f {name} -t raw -A sha256")

    def listing(self, region):
        """Returns the lines of the components of a region, without positions, by their names."""
        rows, found = self.run(f"cbfstool image.rom print -v -r {region}").decode(), {}
        for line in rows.splitlines():
            fields = line.split("\t")
            if fields[0] == "(empty)":
                continue
            if fields[0]:
                name = fields[0]
                if name in found:
                    raise Refused(f"{region} has {name} twice")
                found[name] = ["\t".join([name, *fields[2:]])]
            else:
                found[name].append(line)
        return found


class Worker:
    """One of several workers, which adds, removes and lists components of its own.

    `states` has `there`, `gone` or `either` for each component, by its region and name, and its
    content and algorithm.
    """

    def __init__(self, room, number):
        self.room, self.number = room, number
        self.chance = random.Random(f"{SEED} {number}")
        self.states = {}

    def works(self):
        """Makes all steps, and returns the states."""
        for number in range(STEPS):
            self.step(number)
        return self.states

    def ends(self, command):
        """Runs a command, or sometimes kills it. Returns whether it ended."""
        if self.chance.randrange(5) == 0:
            return self.room.is_ended(command, self.chance.randrange(10) / 1000)
        self.room.run(command)
        return True

    def step(self, number):
        """Adds a component, maybe removes it, and does something else."""
        name = f"w{self.number}-{number}"
        region, algorithm = self.chance.choice("AB"), self.chance.choice(["sha256", "sha512"])
        data = content(self.number * 100 + number)
        (self.room.path / name).write_bytes(data)
        has_ended = self.ends(
            f"cbfstool image.rom add -r {region} -n {name} -f {name} -t raw -A {algorithm}")
        state = "there" if has_ended else "either"
        if has_ended and self.chance.randrange(2):
            has_ended = self.ends(f"cbfstool image.rom remove -r {region} -n {name}")
            state = "gone" if has_ended else "either"
        self.states[region, name] = state, data, algorithm
        self.chance.choice([self.lists, self.creates, self.shares, self.excludes, self.pipes,
                            self.checks, self.extracts, lambda: None])()

    def lists(self):
        """Lists a region, in which no digest is invalid."""
        region = self.chance.choice("AB")
        if b"\tinvalid" in self.room.run(f"cbfstool image.rom print -v -r {region}"):
            raise Refused(f"{region} has an invalid digest")

    def creates(self):
        """Creates another image, or is killed."""
        self.ends("cbfstool other.rom create -M other.fmap")

    def checks(self):
        """Checks the image, in which nothing is bad."""
        self.room.run("cbfscheck -r A,B image.rom")

    def extracts(self):
        """Extracts one of the first components, or is killed."""
        name = self.chance.choice(SIDES)
        self.ends(f"cbfstool image.rom extract -r A -n {name} -f taken{self.number}")

    def shares(self):
        """Holds a shared lock."""
        self.locks(fcntl.LOCK_SH)

    def excludes(self):
        """Holds an exclusive lock."""
        self.locks(fcntl.LOCK_EX)

    def locks(self, how):
        """Holds a lock, under which the image does not change, or kills a process that has it."""
        if self.chance.randrange(3) == 0:
            holder = subprocess.Popen([sys.executable, "-IS", "-c", HOLD, str(how)],
                                      cwd=self.room.path)
            time.sleep(self.chance.randrange(100) / 1000)
            holder.kill()
            holder.wait()
            return
        with open(self.room.path / "image.rom", "rb") as file:
            fcntl.flock(file, how)
            before = os.pread(file.fileno(), MIB, 0)
            time.sleep(self.chance.randrange(50) / 1000)
            if os.pread(file.fileno(), MIB, 0) != before:
                raise Refused("the image changed under a lock")

    def pipes(self):
        """Changes the image below a listing, whose pipe is full."""
        reader, writer = os.pipe()
        fcntl.fcntl(reader, F_SETPIPE_SZ, PIPE_SIZE)
        command = "cbfstool image.rom print -v -r A"
        listing = self.room.start(command, stdout=writer)
        os.close(writer)
        with open(reader, "rb") as pipe:
            try:
                wait_until_full(pipe)
                self.edits()
            finally:
                rest = pipe.read()
        self.room.end(command, listing)
        if len(rest) <= PIPE_SIZE:
            raise Refused("the listing is not longer than its pipe")
        # (the reader of another listing goes away at once)
        short = self.room.start(command)
        short.stdout.readline()
        short.stdout.close()
        short.stderr.close()
        short.wait()

    def edits(self):
        """Extracts two components, and adds and removes one, each in a short time."""
        name = f"piped{self.number}"
        for side in self.chance.sample(range(SIDE), 2):
            self.room.run(f"cbfstool image.rom extract -r A -n {SIDES[side]} -f {name}", SOON)
            if (self.room.path / name).read_bytes() != content(side):
                raise Refused(f"{SIDES[side]} has other bytes")
        self.room.run(f"cbfstool image.rom add -r B -n {name} -t raw -f side1", SOON)
        self.room.run(f"cbfstool image.rom remove -r B -n {name}", SOON)


def wait_until_full(pipe):
    """Waits until a pipe is full."""
    last = time.monotonic() + TIME_LIMIT
    while struct.unpack("i", fcntl.ioctl(pipe, termios.FIONREAD, bytes(4)))[0] < PIPE_SIZE:
        if time.monotonic() > last:
            raise Refused("the listing does not fill its pipe")
        time.sleep(0.01)


class Together(ProgramTest):
    """Additions side by side, then eight workers, then all components in turn."""

    programs = ("cbfstool", "cbfscheck")

    def test_commands_of_eight_workers(self):
        with tempfile.TemporaryDirectory(prefix="together-") as path:
            try:
                self.together(Room(path))
            except Refused as refused:
                self.fail(f"seed {SEED}: {refused}")

    def together(self, room):
        """Makes the images, and runs all commands."""
        (room.path / "both.fmap").write_bytes(BOTH)
        (room.path / "other.fmap").write_bytes(OTHER)
        room.run("cbfstool image.rom create -M both.fmap -r A,B")
        with concurrent.futures.ThreadPoolExecutor(WORKERS) as pool:
            list(pool.map(room.add, range(SIDE)))
            sides = {name: rows_of(name, content(number), "sha256")
                     for number, name in enumerate(SIDES)}
            self.assertEqual(room.listing("A"), sides, f"seed {SEED}")
            workers = [Worker(room, number) for number in range(WORKERS)]
            states = {}
            for found in pool.map(Worker.works, workers):
                states.update(found)
        self.assertEqual(len(states), WORKERS * STEPS)
        self.compare_regions(room, sides, states)
        room.run("cbfstool other.rom create -M other.fmap")
        self.assertEqual(room.run("cbfstool other.rom print").decode(), FRESH)

    def compare_regions(self, room, sides, states):
        """Checks that each component is there or gone, as its commands require."""
        for region, expected in ("A", dict(sides)), ("B", {}):
            seen = room.listing(region)
            for (where, name), (state, data, algorithm) in states.items():
                if where == region and (state == "there" or (state == "either" and name in seen)):
                    expected[name] = rows_of(name, data, algorithm)
            self.assertEqual(seen, expected, f"seed {SEED}: {region}")
            for name in expected:
                room.run(f"cbfstool image.rom extract -r {region} -n {name} -f extracted")
                self.assertEqual((room.path / "extracted").read_bytes(),
                                 (room.path / name).read_bytes(), f"seed {SEED}: {name}")


if __name__ == "__main__":
    unittest.main()
