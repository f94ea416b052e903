"""A removal or an addition that stops at any of its calls, by an error or a kill.

Afterwards the region has the components from before the command or those after it. In between, the
space of the component is one empty entry, whose bytes after the header may have any value.
"""

import signal
import unittest

from tests.image import DELETED, SHA256, SHA512, Component, FreeEntry, hash_attribute
from tests.programs import HAS_COMPILER, Faults, ProgramTest
from tests.regions import free_bytes, listing, run_around, with_component, without_component
from tests.samples import Sample

KEEP = b"KEEP"
TEN = b"0123456789"
SOME = "".join(f"{number}\n" for number in range(1, 20001)).encode()[:5000]


@unittest.skipUnless(HAS_COMPILER, "cc")
class Stops(ProgramTest):
    programs = ("cbfstool",)

    def stop_at_each(self, before, after, emptied, free, words, file, change, result, files):
        """Changes each call in turn, and checks the region. Returns the number of stops.

        `emptied` is the region while the component is neither there nor not there; the bytes of
        the range `free` may have any value. `change` is a call and a way. A failed read of more
        bytes than are needed does not stop the command.
        """
        (call, way), number, spared = change, 0, 0
        while True:
            number += 1
            folder = self.folder({**files, "image.rom": before.image})
            fault = Faults(file, f"{call} {number} {number} {way}")
            done = folder.run(f"cbfstool image.rom {words}", faults=fault)
            if not fault.changed():
                break
            if call == "read" and done.status == 0:
                self.compare_run(folder, done, left={"image.rom": before.with_region(after)})
                spared += 1
                continue
            with self.subTest(words, file=file, call=call, way=way, number=number):
                image = done.after["image.rom"]
                self.compare_run(folder, done, *result, {"image.rom": image})
                start = before.region.offset
                seen = image[start : start + before.region.size]
                self.assertTrue(image == before.with_region(seen), "bytes outside have changed")
                if seen in (before.region_bytes(), after):
                    expected = seen
                else:
                    expected = emptied
                    first, end = free
                    masked = seen[:first] + emptied[first:end] + seen[end:]
                    self.compare(folder, done, "region", emptied, masked)
                self.check("cbfstool image.rom print", folder, output=listing(expected))
                if expected == emptied != after and words.startswith("add"):
                    self.check(f"cbfstool image.rom {words}", folder,
                               left={"image.rom": before.with_region(after)})
            folder.remove()
        self.compare_run(folder, done, left={"image.rom": before.with_region(after)})
        return number - 1 - spared

    FAULT = 1, b"", "cbfstool: device fault\n"
    SOURCE_FAULT = 1, b"", "cbfstool: source fault\n"
    KILLED = -signal.SIGKILL, b"", ""

    def test_removal(self):
        before = Sample("types", keep=KEEP)
        data = before.region_bytes()
        after = without_component(data, b"t/raw")
        for change, result in [(("write", "EIO"), self.FAULT), (("write", "kill"), self.KILLED)]:
            count = self.stop_at_each(before, after, after, (28, 64), "remove -n t/raw",
                                      "image.rom", change, result, {})
            self.assertGreater(count, 0)

    def two_free_cells(self):
        """Returns the sample with two adjacent free cells from 0x1c0 to 0x380."""
        sample = Sample("hashes", keep=KEEP)
        data = bytearray(sample.region_bytes())
        data[0x1C0:0x380] = FreeEntry(128).bytes + FreeEntry(320, type=DELETED).bytes
        sample.image = sample.with_region(bytes(data))
        return sample

    additions = [
        # position, content, algorithm, gap, arguments, the least number of writes
        (0x1C0, TEN, SHA256, 0, "-A sha256", 5),
        (0x200, TEN, SHA512, 24, "-A sha512 -a 128", 5),
        (0x880, SOME, SHA256, 56, "-A sha256 -b 0x900", 8),
        # (the content covers the last four bytes)
        (0x2C00, SOME, SHA256, 48, "-A sha256 -b 0x2c78", 8),
    ]

    def test_addition(self):
        before = self.two_free_cells()
        data = before.region_bytes()
        for position, content, algorithm, gap, words, least in self.additions:
            component = Component(b"s", content, attributes=[hash_attribute(algorithm, content)],
                                  gap=gap)
            after = with_component(data, position, component)
            start, end = (0x1C0, 0x380) if position < 0x380 else (0x440, len(data))
            self.assertEqual((start, end), run_around(data, start, end))
            emptied = data[:start] + free_bytes(data, start, end) + data[end:]
            covers = position + component.content_offset + len(content)
            free = start + 28, max(covers, end - 4) if end == len(data) else end
            for file, change, result in [
                ("source", ("read", "EIO"), self.SOURCE_FAULT),
                ("image.rom", ("read", "EIO"), self.FAULT),
                ("image.rom", ("write", "EIO"), self.FAULT),
                ("image.rom", ("write", "kill"), self.KILLED),
            ]:
                count = self.stop_at_each(before, after, emptied, free,
                                          f"add -n s -t raw -f source {words}", file, change,
                                          result, {"source": content})
                self.assertGreaterEqual(count, least if change[0] == "write" else 1)


if __name__ == "__main__":
    unittest.main()
