"""The lines that explain a refusal of cbfstool, on a terminal or on request."""

import os
import unittest

from tests.image import Area, Component, FreeEntry, Image, join
from tests.programs import ProgramTest, words_of
from tests.samples import Sample
from tests.screens import messages_on_screen

IMAGE = Sample("types").image
REFUSAL = "cbfstool: bad command line\n"
USAGES = {
    "": "COMMAND [OPTIONS]\ncommands: print layout extract add remove read write create",
    "print": "print [-r REGION] [-v]",
    "layout": "layout",
    "extract": "extract [-r REGION] -n NAME -f FILE",
    "add": "add [-r REGION] -n NAME -f FILE -t TYPE [-a ALIGNMENT | -b OFFSET] [-A HASH]",
    "remove": "remove [-r REGION] -n NAME",
    "read": "read [-r REGION] -f FILE",
    "write": "write [-r REGION] -f FILE",
    "create": "create -M FLASHMAP [-r REGION[,REGION ...]]",
}
NUMBER = "takes a number below 2^32 such as 4096 or 0x1000, not"
TYPES = (
    "bootblock, cbfs header, legacy stage, stage, simple elf, fit_payload, optionrom, bootsplash, "
    "raw, vsa, mbi, microcode, fsp, mrc, cmos_default, spd, mrc_cache, cmos_layout"
)
ADD = "image.rom add -n a -f unmade -t raw"

# the arguments, the command whose usage follows, the explanation, and the word that is meant, if
# the wrong word is near a known one
ROWS = [
    ("image.rom", "", "no command after the image 'image.rom'"),
    ("--help", "", "'--help' precedes the command: options follow it"),
    ("-r COREBOOT print", "", "'-r' precedes the command: options follow it"),
    ("image.rom --", "--", "no command after the image 'image.rom'"),
    ("print image.rom", "print", "the image comes before the command: cbfstool image.rom print"),
    ("extract image.rom -n a -f unmade", "extract",
     "the image comes before the command: cbfstool image.rom extract"),
    ("image.rom frobnicate", "", "'frobnicate' is no command"),
    ("image.rom Print", "", "'Print' is no command", "print"),
    ("image.rom prnt", "", "'prnt' is no command", "print"),
    ("image.rom pritn", "", "'pritn' is no command", "print"),
    ("image.rom removes", "", "'removes' is no command", "remove"),
    ("image.rom ad", "", "'ad' is no command", "add"),
    ("image.rom prn", "", "'prn' is no command"),
    ("image.rom ''", "", "'' is no command"),
    ("image.rom -r COREBOOT print", "", "'-r' precedes the command: options follow it"),
    ("image.rom help", "", "'help' is not supported: see the manual page cbfstool(1)"),
    ("image.rom --help", "", "'--help' is not supported: see the manual page cbfstool(1)"),
    ("image.rom print -h", "print", "'-h' is not supported: see the manual page cbfstool(1)"),
    ("image.rom print --version", "print", "'--version' is no option of this command"),
    ("image.rom layout -r A", "layout", "'-r' is no option of this command"),
    ("image.rom remove -n a -f unmade", "remove", "'-f' is no option of this command"),
    ("image.rom print -c lzma", "print", "'-c' is no option of this command"),
    (f"{ADD} -c lzma", "add", "'-c' is no option of this command"),
    ("image.rom print --region COREBOOT", "print", "'--region' is no option of this command", "-r"),
    ("image.rom print --regoin=A", "print", "'--regoin=A' is no option of this command", "-r"),
    ("image.rom add --hash-algorithm x", "add", "'--hash-algorithm' is no option of this command",
     "-A"),
    ("image.rom layout --region A", "layout", "'--region' is no option of this command"),
    ("image.rom print -r", "print", "option '-r' has no value"),
    ("image.rom extract -n -f unmade", "extract", "option '-n' has no value"),
    ("image.rom print -r A -r B", "print", "option '-r' is given twice"),
    ("image.rom print -v -v", "print", "option '-v' is given twice"),
    ("image.rom extract -n a -nb -f unmade", "extract", "option '-nb' is given twice"),
    ("image.rom print more", "print", "'more' is not expected"),
    ("image.rom print print", "print", "'print' is not expected"),
    ("image.rom read", "read", "read needs -f FILE"),
    ("image.rom read -r ABSENT", "read", "read needs -f FILE"),
    ("image.rom write -r A", "write", "write needs -f FILE"),
    ("image.rom remove", "remove", "remove needs -n NAME"),
    ("image.rom extract", "extract", "extract needs -n NAME -f FILE"),
    ("image.rom extract -n a", "extract", "extract needs -f FILE"),
    ("image.rom extract -f unmade", "extract", "extract needs -n NAME"),
    ("image.rom add", "add", "add needs -n NAME -f FILE -t TYPE"),
    ("image.rom add -n a -a 4K", "add", "add needs -f FILE -t TYPE"),
    ("image.rom create", "create", "create needs -M FLASHMAP"),
    (f"{ADD} -a 4K", "add", f"-a {NUMBER} '4K'"),
    (f"{ADD} -a 0X10", "add", f"-a {NUMBER} '0X10'"),
    (f"{ADD} -b=-4096", "add", f"-b {NUMBER} '-4096'"),
    (f"{ADD} -b -4096", "add", "'-4096' is no option of this command"),
    (f"{ADD} -b 4294967296", "add", f"-b {NUMBER} '4294967296'"),
    (f"{ADD} -a 64 -b 0", "add", "-a and -b exclude each other"),
    (f"{ADD} -a 4K -b 4K", "add", "-a and -b exclude each other"),
    ("image.rom add -n a -f unmade -t exe", "add",
     f"-t takes a number below 2^32 or one of these names, not 'exe': {TYPES}"),
    (f"{ADD} -A sha1", "add", "-A takes sha256 or sha512, not 'sha1'"),
    (f"{ADD} -A SHA256", "add", "-A takes sha256 or sha512, not 'SHA256'"),
    ("image.rom create -M unmade -r A,,B", "create", "-r has an empty name in 'A,,B'"),
    ("image.rom create -M unmade -r ''", "create", "-r has an empty name in ''"),
    ("image.rom create -M unmade -r A,B,C,D,E,F,G,H,I,J,K,L,M,N,O,P,Q", "create",
     "-r takes at most 16 names"),
    (["image.rom", os.fsdecode(b"\xff")], "", "an argument is not UTF-8"),
    # a control sequence, and a character that changes the direction of others
    (["image.rom", "\x1b[31mred\n"], "", r"'\x1b[31mred\x0a' is no command"),
    (["image.rom", "print", "a\u202eb"], "print", r"'a\xe2\x80\xaeb' is not expected"),
    (["print", "\x1b[2J"], "print",
     r"the image comes before the command: cbfstool \x1b[2J print"),
]

AREAS = (
    "cbfstool: its areas are: SI_ALL, SI_DESC, SI_ME, SI_BIOS, RW_MRC_CACHE, RW_SECTION_A, "
    "VBLOCK_A, FW_MAIN_A, RW_FWID_A, RO, FMAP, GBB, COREBOOT\n"
)

COMPONENTS = (
    "cbfstool: its components are: t/raw, t/spd, t/cmos_default, t/cmos_layout, t/microcode, "
    "t/bootsplash, t/mrc, t/mrc_cache, t/vsa, t/mbi, t/optionrom, t/bootblock, t/mma, t/efi, "
    "t/struct, t/stage and 4 more\n"
)

# the arguments, the refusal, and the lines that name its subject, and what could have been meant
SUBJECTS = [
    ("image.rom print -r coreboot", "no such region",
     "cbfstool: the flash map has no area 'coreboot'\n" + AREAS),
    (["image.rom", "print", "-r", "a\x07"], "no such region",
     "cbfstool: the flash map has no area 'a\\x07'\n" + AREAS),
    ("image.rom print -r FW_MAIN_B", "no such region",
     "cbfstool: the flash map has no area 'FW_MAIN_B'\n"
     "cbfstool: its areas are: FW_MAIN_A, SI_ALL, SI_DESC, SI_ME, SI_BIOS, RW_MRC_CACHE, "
     "RW_SECTION_A, VBLOCK_A, RW_FWID_A, RO, FMAP, GBB, COREBOOT\n"),
    ("image.rom remove -n absent", "no such component",
     "cbfstool: the region 'COREBOOT' has no component 'absent'\n" + COMPONENTS),
    ("image.rom extract -n absent -f made", "no such component",
     "cbfstool: the region 'COREBOOT' has no component 'absent'\n" + COMPONENTS),
    # (the last of 20 components is near)
    ("image.rom extract -n t/fps -f made", "no such component",
     "cbfstool: the region 'COREBOOT' has no component 't/fps'\n"
     + COMPONENTS.replace("are: ", "are: t/fsp, ").replace(", t/stage and", " and")),
    # (two names are near)
    ("image.rom remove -n t/mba", "no such component",
     "cbfstool: the region 'COREBOOT' has no component 't/mba'\n"
     + COMPONENTS.replace(", t/mbi", "").replace(", t/mma", "").replace("are: ",
                                                                       "are: t/mbi, t/mma, ")),
    # (the larger one of two places with room: in a free cell, and at the end of the region)
    ("image.rom add -n a -t raw -f large", "no space",
     "cbfstool: the content has 40865 bytes, and the largest that fits is 40864 bytes\n"),
    ("image.rom add -n a -t raw -A sha256 -f large", "no space",
     "cbfstool: the content has 40865 bytes, and the largest that fits is 40820 bytes\n"),
    ("image.rom add -n name -t raw -A sha512 -f large", "no space",
     "cbfstool: the content has 40865 bytes, and the largest that fits is 40784 bytes\n"),
    ("image.rom add -n a -t raw -a 4096 -f large", "no space",
     "cbfstool: the content has 40865 bytes, and the largest that fits is 38908 bytes\n"),
    ("image.rom add -n a -t raw -b 0x4dc -f large", "no space",
     "cbfstool: the content has 40865 bytes, and the largest that fits is 740 bytes\n"),
    ("image.rom add -n a -t raw -b 0xa800 -f source", "no space",
     "cbfstool: the content has 1 bytes, and the largest that fits is 0 bytes\n"),
    ("image.rom add -n a -t raw -b 0x4db -f source", "no space",
     "cbfstool: the content has 1 bytes, and not even an empty content fits\n"),
    ("image.rom add -n a -t raw -b 0xa801 -f empty", "no space",
     "cbfstool: the content has 0 bytes, and not even an empty content fits\n"),
    ("image.rom add -n t/raw -f source -t raw", "component exists",
     "cbfstool: the region 'COREBOOT' has a component 't/raw'\n"),
    ("absent.rom print", "device fault",
     "cbfstool: fault of the image 'absent.rom': No such file or directory\n"),
    ("folder print", "device fault",
     "cbfstool: fault of the image 'folder': Is a directory\n"),
    ("image.rom add -n a -f absent -t raw", "source fault",
     "cbfstool: fault of the file 'absent': No such file or directory\n"),
    ("source print", "no FMAP", ""),
    ("image.rom add -n '' -f source -t raw", "bad name", ""),
]


def explained(command, line, meant=None):
    """Returns the refusal and the lines that explain it."""
    usage = USAGES.get(command, USAGES[""])
    known = f"cbfstool: did you mean '{meant}'?\n" if meant else ""
    return f"{REFUSAL}cbfstool: {line}\n{known}usage: cbfstool IMAGE {usage}\n"


class Explanations(ProgramTest):
    programs = ("cbfstool",)

    @staticmethod
    def words(arguments):
        return ["cbfstool", *words_of(arguments)]

    def refused(self, arguments, message, **environment):
        return self.check(self.words(arguments), {"image.rom": IMAGE}, 2, message=message,
                          environment=environment)

    def test_with_the_variable(self):
        for arguments, command, *lines in ROWS:
            with self.subTest(arguments):
                self.refused(arguments, explained(command, *lines), CBFSTOOL_EXPLAIN="1")

    def test_without_a_terminal(self):
        for arguments, *_ in ROWS:
            with self.subTest(arguments):
                self.refused(arguments, REFUSAL)

    def test_other_values_of_the_variable(self):
        for value in ("", "0", "11", "yes"):
            with self.subTest(value):
                self.refused("image.rom frobnicate", REFUSAL, CBFSTOOL_EXPLAIN=value)

    def test_a_long_line(self):
        line = explained("print", "option '-v' is given twice")
        self.refused(["image.rom", "print", *["-v"] * 100], line, CBFSTOOL_EXPLAIN="1")

    def test_success(self):
        for environment in ({}, {"CBFSTOOL_EXPLAIN": "1"}):
            self.check("cbfstool image.rom print", {"image.rom": IMAGE},
                       output=Sample("types").listing, environment=environment)

    def test_subjects(self):
        files = {"image.rom": IMAGE, "source": b"x", "folder/file": b"", "empty": b"",
                 "large": bytes(40865)}
        for arguments, refusal, line in SUBJECTS:
            message = f"cbfstool: {refusal}\n"
            # (a refused extraction leaves an empty file)
            left = {"made": b""} if "extract" in arguments else {}
            with self.subTest(arguments):
                self.check(self.words(arguments), files, 1, message=message + line, left=left,
                           environment={"CBFSTOOL_EXPLAIN": "1"})
                self.check(self.words(arguments), files, 1, message=message, left=left)

    def test_no_component(self):
        """A region without a component has no line of components."""
        areas = [Area("FMAP", 0, 0x200), Area("COREBOOT", 0x1000, 0x1000)]
        image = Image(0x2000, areas).put("COREBOOT", FreeEntry(0x1000, keeps=b"last").bytes)
        self.check("cbfstool image.rom remove -n a", {"image.rom": image.data()}, 1,
                   message="cbfstool: no such component\n"
                   "cbfstool: the region 'COREBOOT' has no component 'a'\n",
                   environment={"CBFSTOOL_EXPLAIN": "1"})

    def test_components_of_another_region(self):
        areas = [Area("FMAP", 0, 0x200), Area("COREBOOT", 0x1000, 0x1000), Area("A", 0x2000, 128)]
        image = Image(0x3000, areas).put("A", join(Component(b"one", b"1"), Component(b"b b", b"2")))
        self.check("cbfstool image.rom remove -r A -n a", {"image.rom": image.data()}, 1,
                   message="cbfstool: no such component\n"
                   "cbfstool: the region 'A' has no component 'a'\n"
                   "cbfstool: its components are: one, b\\x20b\n",
                   environment={"CBFSTOOL_EXPLAIN": "1"})

    def test_areas_of_a_given_map(self):
        # `create` has filled the image when it finds no area
        files = {"given": IMAGE[Sample("types").map.position :]}
        self.check("cbfstool made.rom create -M given -r COREBOOT,absent", files, 1,
                   message="cbfstool: no such region\n"
                   "cbfstool: one of these is no area of the flash map: 'COREBOOT,absent'\n"
                   + AREAS, left={"made.rom": b"\xff" * len(IMAGE)},
                   environment={"CBFSTOOL_EXPLAIN": "1"})


class Terminals(ProgramTest):
    """Standard error is a pseudo-terminal, and the other streams are pipes."""

    programs = ("cbfstool",)

    def on_terminal(self, words):
        """Returns the status of a command, its output, and the bytes that the terminal got."""
        return messages_on_screen(["cbfstool", *words], self.folder({"image.rom": IMAGE}).path)

    def test_bad_command_lines(self):
        for arguments, command, *lines in ROWS:
            with self.subTest(arguments):
                self.assertEqual(self.on_terminal(words_of(arguments)),
                                 (2, b"", explained(command, *lines)))

    def test_other_refusals(self):
        self.assertEqual(self.on_terminal(["image.rom", "remove", "-n", "absent"]),
                         (1, b"", "cbfstool: no such component\n"
                                  "cbfstool: the region 'COREBOOT' has no component 'absent'\n"
                                  + COMPONENTS))
        self.assertEqual(self.on_terminal("image.rom add -n a -t raw -b 0 -f image.rom".split()),
                         (1, b"", "cbfstool: no space\ncbfstool: the content has 65536 bytes, "
                                  "and not even an empty content fits\n"))


if __name__ == "__main__":
    unittest.main()
