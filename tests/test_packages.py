"""Installs and packs the programs, and compares the results with literal values.

Copies of /bin/true stand in for the programs, so no program has to be built. Nothing is compared
with what the Makefile says of itself.
"""

import datetime
import os
import pathlib
import re
import shutil
import stat
import subprocess
import tarfile
import unittest

from tests.programs import TOP, Folder

PROGRAMS = ("cbfstool", "fmaptool", "cbfscheck", "cbfsseal")
HAS_DPKG = shutil.which("dpkg-deb") is not None
# The characters that make, the shell, or a pattern of sed treats specially.
SPECIAL = "\"'`\\$&;,*?[]#|<>() \t\n"


def text_of(name):
    """Returns the text of a file of the repository."""
    return (TOP / name).read_text(encoding="utf-8")


def release_time():
    """Returns the time of the newest release, which CHANGELOG.md has first."""
    day = re.search(r"^Released on (\w+ \d+, \d+)\.$", text_of("CHANGELOG.md"), re.MULTILINE)[1]
    return int(datetime.datetime.strptime(day + " +0000", "%B %d, %Y %z").timestamp())


def closure(program):
    """Returns the crates that a program is built from, by crates.txt."""
    uses = {}
    for line in text_of("crates.txt").splitlines():
        crate, names = line.split(":")
        uses[crate] = names.split()
    found, waiting = set(), [program]
    while waiting:
        crate = waiting.pop()
        if crate in uses and crate not in found:
            found.add(crate)
            waiting += uses[crate]
    return found


def source_files(program):
    """Returns the files that a proof or a build of the program reads."""
    return {
        str(path.relative_to(TOP))
        for crate in closure(program) for kind in ("src", "specs", "proofs")
        for path in (TOP / "crates" / crate / kind).rglob("*") if path.is_file()
    }


def setUpModule():
    """Makes the folder of archives and packages."""
    global PACKED
    for tool in ("make", "tar", "gzip", "strip", "objdump"):
        if not shutil.which(tool):
            raise unittest.SkipTest(f"{tool} is not installed")
    PACKED = Folder()


def tearDownModule():
    """Removes the folder of archives and packages."""
    PACKED.remove()


class MakeTest(unittest.TestCase):
    """A test that runs make in the repository, or in a copy of a part of it."""

    def setUp(self):
        self.folder = Folder()
        self.addCleanup(self.folder.remove)
        self.path = self.folder.path
        for program in PROGRAMS:
            shutil.copyfile("/bin/true", self.path / program)
            (self.path / program).chmod(0o755)

    def make(self, *words, top=TOP, umask=0o022, status=0, programs=True):
        """Runs make with the stand-ins, and returns what it prints."""
        given = [f"{name.upper()}={self.path / name}" for name in PROGRAMS] if programs else []
        environment = {
            name: value for name, value in os.environ.items()
            if not name.startswith(("MAKE", "MFLAGS")) and name != "SOURCE_DATE_EPOCH"
        }
        done = subprocess.run(
            ["make", "-s", "-C", top, *given, *words], stdout=subprocess.PIPE,
            stderr=subprocess.STDOUT, env=environment, umask=umask, text=True,
        )
        self.assertEqual(done.returncode, status, f"make {words}: {done.stdout}")
        return done.stdout

    def installed(self, **variables):
        """Installs to a new staging folder, and returns it."""
        stage = self.path / "stage"
        shutil.rmtree(stage, ignore_errors=True)
        self.make(
            "install", f"DESTDIR={stage}", *(f"{name}={value}" for name, value in variables.items())
        )
        return stage

    def packed(self, target, umask=0o077):
        """Packs an archive or a package, once for each umask, and returns its path."""
        folder = PACKED.path / f"{target}-{umask:o}"
        if not folder.exists():
            self.make(target, f"OUT={folder}", umask=umask)
        [made] = folder.iterdir()
        return made


class Sources(MakeTest):
    """A program that is older than one of its sources is built again."""

    def test_the_sources_of_each_program(self):
        for program in PROGRAMS:
            words = [TOP / "prove", "--sources", program]
            listed = subprocess.run(
                words, stdout=subprocess.PIPE, check=True, text=True
            ).stdout.split()
            self.assertEqual(sorted(listed), sorted(source_files(program)), program)

    def test_a_change_of_each_kind_of_source(self):
        copy = self.path / "copy"
        for name in ["Makefile", "prove", "VERSION", "CHANGELOG.md", "crates.txt"]:
            copy.mkdir(exist_ok=True)
            shutil.copy2(TOP / name, copy / name)
        shutil.copytree(TOP / "dist", copy / "dist")
        built = {}
        for program in PROGRAMS:
            for name in source_files(program):
                (copy / name).parent.mkdir(parents=True, exist_ok=True)
                (copy / name).touch()
                os.utime(copy / name, (1000, 1000))
            built[program] = f"crates/{program}/out/{program}"
            (copy / built[program]).parent.mkdir()
            (copy / built[program]).touch()
        os.utime(copy / "crates.txt", (1000, 1000))
        for program in PROGRAMS:
            own = closure(program).difference(
                *(closure(other) for other in PROGRAMS if other != program)
            )
            chosen = []
            for kind in ("src", "specs", "proofs"):
                names = [name for name in sorted(source_files(program)) if f"/{kind}/" in name]
                chosen += names[-1:] + [name for name in names if name.split("/")[1] in own][:1]
            self.assertGreaterEqual(len(set(chosen)), 3, program)
            for name in sorted(set(chosen)):
                os.utime(copy / name)
                self.make("-q", built[program], top=copy, status=1, programs=False)
                os.utime(copy / name, (1000, 1000))
            self.make("-q", built[program], top=copy, programs=False)


class Packages(MakeTest):
    """Archives and packages have the same bytes, whoever makes them."""

    def test_the_time_of_the_newest_release(self):
        times = {member.mtime for member in self.members(self.packed("dist"))}
        self.assertEqual(times, {release_time()})

    @unittest.skipUnless(HAS_DPKG, "dpkg-deb is not installed")
    def test_the_time_of_the_package(self):
        package = self.packed("deb").read_bytes()
        # (the header of a member of an ar archive has its name and its time, both in decimal)
        times = re.findall(rb"(?:debian-binary|control\.tar\.\w+|data\.tar\.\w+) *(\d+) ", package)
        self.assertEqual([int(time) for time in times], [release_time()] * 3)
        self.assertEqual(
            {member.mtime for member in self.members(self.packed("deb"))}, {release_time()}
        )

    def members(self, package):
        """Returns the files and folders of an archive or a package."""
        if package.suffix == ".deb":
            words = ["dpkg-deb", "--fsys-tarfile", package]
            data = subprocess.run(words, stdout=subprocess.PIPE, check=True).stdout
            package = self.path / "data.tar"
            package.write_bytes(data)
        with tarfile.open(package) as archive:
            return list(archive)

    def has_modes(self, rows):
        """Checks that programs, scripts and folders have mode 755, and all others 644."""
        for mode, name, is_folder in rows:
            runs = is_folder or "/bin/" in name or "/examples/" in name
            self.assertEqual(oct(mode), oct(0o755 if runs else 0o644), name)

    def test_the_modes_of_the_archive(self):
        for umask in (0o077, 0o002):
            members = self.members(self.packed("dist", umask))
            self.has_modes([(member.mode, member.name, member.isdir()) for member in members])

    @unittest.skipUnless(HAS_DPKG, "dpkg-deb is not installed")
    def test_the_modes_of_the_package(self):
        for umask in (0o077, 0o002):
            members = self.members(self.packed("deb", umask))
            self.has_modes([(member.mode, member.name, member.isdir()) for member in members])

    def test_the_modes_of_an_installation(self):
        stage = self.path / "stage"
        self.make("install", f"DESTDIR={stage}", umask=0o077)
        for path in (stage / "usr/local").rglob("*"):
            self.has_modes([(stat.S_IMODE(path.stat().st_mode), str(path), path.is_dir())])

    @unittest.skipUnless(HAS_DPKG, "dpkg-deb is not installed")
    def test_the_installed_size(self):
        """It is in KiB: each file rounded up, and at most one block of 4 KiB for each folder."""
        package = self.packed("deb")
        unpacked = self.path / "unpacked"
        subprocess.run(["dpkg-deb", "-x", package, unpacked], check=True)
        files = [path.stat().st_size for path in unpacked.rglob("*") if path.is_file()]
        folders = [path for path in unpacked.rglob("*") if path.is_dir()]
        words = ["dpkg-deb", "-f", package, "Installed-Size"]
        stated = int(subprocess.run(words, stdout=subprocess.PIPE, check=True).stdout)
        self.assertGreaterEqual(stated, sum(files) // 1024)
        self.assertLessEqual(stated, sum(-(-size // 1024) for size in files) + 4 * len(folders))


    @unittest.skipUnless(HAS_DPKG, "dpkg-deb is not installed")
    def test_the_control_file(self):
        """The fields are literal, except the size, which is that of the folder usr alone."""
        words = ["dpkg-deb", "-f", self.packed("deb")]
        text = subprocess.run(words, stdout=subprocess.PIPE, check=True, text=True).stdout
        fields = dict(line.split(": ", 1) for line in text.splitlines() if line[0] != " ")
        self.assertEqual(fields["Package"], "cbfstool-proved")
        self.assertEqual(fields["Version"], text_of("VERSION").strip())
        self.assertEqual(fields["Maintainer"], text_of("dist/maintainer").strip())
        self.assertRegex(fields["Depends"], r"^libc6 \(>= 2\.\d+\)$")
        unpacked = self.path / "fields"
        subprocess.run(["dpkg-deb", "-x", self.packed("deb"), unpacked], check=True)
        words = ["du", "-k", "-s", "--apparent-size", unpacked / "usr"]
        size = subprocess.run(words, stdout=subprocess.PIPE, check=True, text=True).stdout
        self.assertEqual(fields["Installed-Size"], size.split()[0])

    def test_the_changelog(self):
        """Each release has its version, changes, and the line of its maintainer and date."""
        words = [TOP / "dist" / "debian-changelog", "cbfstool-x", "A B <a@b.c>"]
        text = subprocess.run(words, stdout=subprocess.PIPE, check=True, text=True).stdout
        versions = re.findall(r"^## (.+)$", text_of("CHANGELOG.md"), re.MULTILINE)
        heads = re.findall(r"^cbfstool-x \((.+)\) unstable; urgency=medium$", text, re.MULTILINE)
        self.assertEqual(heads, versions)
        dates = re.findall(r"^ -- A B <a@b.c>  (.+)$", text, re.MULTILINE)
        self.assertEqual(len(dates), len(versions))
        newest = datetime.datetime.strptime(dates[0], "%a, %d %b %Y %H:%M:%S %z")
        self.assertEqual(int(newest.timestamp()), release_time())
        count = len(re.findall(r"^- ", text_of("CHANGELOG.md"), re.MULTILINE))
        self.assertEqual(len(re.findall(r"^  \* ", text, re.MULTILINE)), count)


class Contents(MakeTest):
    """An installation has all files that its pages and scripts name."""

    DOC = "usr/local/share/doc/cbfstool"

    def test_all_examples_are_installed(self):
        stage = self.installed()
        names = sorted(path.name for path in (TOP / "dist" / "examples").iterdir())
        self.assertEqual(sorted(os.listdir(stage / self.DOC / "examples")), names)

    def test_all_documents_are_installed(self):
        stage = self.installed()
        names = sorted(path.name for path in (TOP / "docs").iterdir())
        self.assertEqual(sorted(os.listdir(stage / self.DOC / "docs")), names)
        names = [f"docs/{name}" for name in names]
        for name in ["README.md", "CHANGELOG.md", "LICENSE", "bench/RESULTS.md", *names]:
            text = (stage / self.DOC / name).read_text(encoding="utf-8")
            if name.endswith(".md"):
                self.assertEqual(self.without_links(text), self.without_links(text_of(name)), name)
            else:
                self.assertEqual(text, text_of(name), name)

    def without_links(self, text):
        """Returns the text of a document without the targets of its links."""
        return re.sub(r"\[([^][]*)\]\([^)\s]+\)", r"\1", text)

    def follow_links(self, folder):
        """Checks that each link in the documents of a folder leads to a file of the folder."""
        count = 0
        for path in folder.rglob("*.md"):
            for target in re.findall(r"\]\(([^)\s]+)\)", path.read_text(encoding="utf-8")):
                name = target.partition("#")[0]
                if name and "://" not in target:
                    linked = (path.parent / name).resolve()
                    self.assertTrue(linked.exists(), f"{path.name}: {target}")
                    self.assertTrue(linked.is_relative_to(folder.resolve()), target)
                    count += 1
        self.assertGreater(count, 40)

    def test_links_of_installed_documents(self):
        """A link leads to an installed file, and those to the scripts of the examples stay."""
        folder = self.installed() / self.DOC
        self.follow_links(folder)
        readme = (folder / "README.md").read_text(encoding="utf-8")
        for name in ["edit-verified", "add-at-end"]:
            self.assertIn(f"[{name}](examples/{name})", readme)

    @unittest.skipUnless(HAS_DPKG, "dpkg-deb is not installed")
    def test_links_of_the_package(self):
        words = ["dpkg-deb", "-x", self.packed("deb"), self.path / "unpacked"]
        subprocess.run(words, check=True)
        self.follow_links(self.path / "unpacked/usr/share/doc/cbfstool-proved")

    def test_installed_scripts_call_the_installed_programs(self):
        stage = self.installed(SUFFIX="-x")
        for path in (stage / (self.DOC + "-x") / "examples").iterdir():
            for line in path.read_text(encoding="utf-8").splitlines():
                for name in re.findall(r":-(cbfs\w+|fmaptool)(-x)?\}", line):
                    self.assertEqual(name[1], "-x", f"{path.name}: {line}")

    def test_completions_of_the_installed_names(self):
        stage = self.installed(SUFFIX="-x") / "usr/local/share"
        for program in PROGRAMS:
            name = f"{program}-x"
            bash = (stage / "bash-completion/completions" / name).read_text(encoding="utf-8")
            self.assertRegex(bash, rf"(?m)^complete .* {name}$")
            zsh = (stage / "zsh/site-functions" / f"_{name}").read_text(encoding="utf-8")
            self.assertTrue(zsh.startswith(f"#compdef {name}\n"), zsh[:40])
            fish = (stage / "fish/vendor_completions.d" / f"{name}.fish").read_text("utf-8")
            self.assertIn(f"complete -c {name} ", fish)

    def test_the_session_of_the_archive(self):
        """Each file that the session of its README reads is in the archive or made before."""
        archive = self.packed("dist")
        subprocess.run(["tar", "-C", self.path, "-xf", archive], check=True)
        [folder] = [path for path in self.path.iterdir() if (path / "README.md").exists()]
        text = (folder / "README.md").read_text(encoding="utf-8")
        self.assertIn("$ fmaptool samples/board.fmd board.fmap", text)
        self.assertTrue((folder / "samples" / "board.fmd").exists())
        for name in re.findall(r"`(share/[^`]+)`", text):
            self.assertTrue((folder / name).exists(), name)
        for name in re.findall(r"`man (\w+)`", text):
            self.assertTrue(list((folder / "share/man").glob(f"man*/{name}.[15]")), name)

    def test_the_sample_stays(self):
        """`make` lists a copy of the sample, which may be read-only."""
        copy = self.path / "copy"
        for name in ["dist/show-sample", "samples/types.rom"]:
            (copy / name).parent.mkdir(parents=True)
            shutil.copy(TOP / name, copy / name)
        (copy / "samples/types.rom").chmod(0o444)
        tool = self.path / "tool"
        tool.write_text('#!/bin/sh\nprintf X > image.rom\nseq 9\n', encoding="utf-8")
        tool.chmod(0o755)
        words = [copy / "dist/show-sample", tool]
        text = subprocess.run(words, stdout=subprocess.PIPE, check=True, text=True).stdout
        self.assertIn("\n1\n2\n3\n4\n9\n", text)
        self.assertIn("(9 rows, of which 5 are shown)", text)
        sample = copy / "samples/types.rom"
        self.assertEqual(sample.read_bytes(), (TOP / "samples/types.rom").read_bytes())
        self.assertEqual(stat.S_IMODE(sample.stat().st_mode), 0o444)


class Names(MakeTest):
    """Pages and programs have the suffix, and other names are refused."""

    def test_the_pages_with_a_suffix(self):
        stage = self.installed(PREFIX="/usr", SUFFIX="-proved")
        for page, title in [
            ("man1/cbfstool-proved.1", "CBFSTOOL\\-PROVED 1"), (
                "man1/fmaptool-proved.1", "FMAPTOOL\\-PROVED 1"
            ),
            ("man1/cbfscheck-proved.1", "CBFSCHECK\\-PROVED 1"),
            ("man1/cbfsseal-proved.1", "CBFSSEAL\\-PROVED 1"),
            ("man5/fmd-proved.5", "FMD\\-PROVED 5"),
        ]:
            lines = (stage / "usr/share/man" / page).read_text(encoding="utf-8").splitlines()
            name = pathlib.Path(page).stem
            self.assertEqual(
                [line.replace("\\-", "-") for line in lines if line.startswith(".Dt")],
                [".Dt " + title.replace("\\-", "-")],
            )
            self.assertEqual(next(line for line in lines if line.startswith(".Nm")), f".Nm {name}")
            for line in lines:
                if not line.startswith('.\\"'):
                    plain = r"^\.(Xr|Nm) (cbfstool|fmaptool|cbfscheck|cbfsseal|fmd)( |$)"
                    self.assertNotRegex(line, plain)

    def test_a_prefix_with_a_special_character(self):
        for character in SPECIAL:
            prefix = f"/usr/a{character}b"
            words = [TOP / "dist" / "check-names", prefix, ""]
            said = subprocess.run(words, stdout=subprocess.PIPE, check=True, text=True).stdout
            self.assertRegex(said, "^PREFIX has a (blank|special character): ", repr(character))
        said = self.make("install", "PREFIX=/usr/a&b", f"DESTDIR={self.path}/stage", status=2)
        self.assertIn("PREFIX has a special character: /usr/a&b", said)
        self.assertFalse((self.path / "stage").exists())

    def test_a_prefix_of_other_characters(self):
        for prefix in ["/", "/usr/local", "/opt/a-b_c.d+e@f:g=h%i~j!k{l}m^n", "/usr/\u00e4"]:
            words = [TOP / "dist" / "check-names", prefix, "-a.b_c+1"]
            said = subprocess.run(words, stdout=subprocess.PIPE, check=True, text=True).stdout
            self.assertEqual(said, "")

    def test_a_relative_prefix(self):
        for prefix in ["usr/local", "./usr", "~/usr", ""]:
            words = [TOP / "dist" / "check-names", prefix, ""]
            said = subprocess.run(words, stdout=subprocess.PIPE, check=True, text=True).stdout
            self.assertEqual(said, f"PREFIX is not an absolute path: {prefix}\n")

    def test_a_suffix_with_another_character(self):
        for character in SPECIAL + "/=:@%~{}!^":
            words = [TOP / "dist" / "check-names", "/usr", f"-a{character}b"]
            said = subprocess.run(words, stdout=subprocess.PIPE, check=True, text=True).stdout
            wanted = "SUFFIX has other characters than letters, digits and . _ + -\n"
            self.assertEqual(said, wanted, character)

    def test_nothing_is_left_after_uninstall(self):
        for variables in [{}, {"PREFIX": "/opt/flash", "SUFFIX": "-proved"}]:
            stage = self.installed(**variables)
            place = stage / variables.get("PREFIX", "/usr/local")[1:]
            suffix = variables.get("SUFFIX", "")
            self.assertTrue((place / f"bin/cbfstool{suffix}").exists())
            self.assertTrue((place / f"share/man/man5/fmd{suffix}.5").exists())
            self.make(
                "uninstall",
                f"DESTDIR={stage}",
                *(f"{name}={value}" for name, value in variables.items()),
            )
            self.assertEqual(list(stage.rglob("*")), [])

    def test_the_folders_that_stay_after_uninstall(self):
        """Without DESTDIR the folders that other programs use stay, and no other one."""
        prefix = self.path / "prefix"
        self.make("install", f"PREFIX={prefix}", "SUFFIX=-x")
        self.make("uninstall", f"PREFIX={prefix}", "SUFFIX=-x")
        shared = [
            "share/man/man1", "share/man/man5", "share/doc", "share/zsh/site-functions", "bin"
        ]
        shared += ["share/bash-completion/completions", "share/fish/vendor_completions.d"]
        stays = {pathlib.Path(name) for name in shared}
        stays |= {parent for name in stays for parent in name.parents if str(parent) != "."}
        self.assertEqual({path.relative_to(prefix) for path in prefix.rglob("*")}, stays)


class Help(MakeTest):
    """`make help` says what a user can call."""

    TARGETS = [
        "all",
        "cbfstool",
        "fmaptool",
        "cbfscheck",
        "cbfsseal",
        "test",
        "check",
        "install",
        "uninstall",
        "dist",
        "deb",
        "clean",
    ]
    VARIABLES = {"PREFIX": "/usr/local", "DESTDIR": "", "SUFFIX": "", "OUT": "out"}

    def setUp(self):
        super().setUp()
        self.text = self.make("help")

    def test_each_target_is_listed_and_exists(self):
        listed = re.findall(r"\bmake ([a-z]+)", self.text)
        listed += [name for name in re.findall(r"\b(fmaptool|cbfscheck|cbfsseal)\b", self.text)]
        self.assertEqual(sorted(set(listed)), sorted(self.TARGETS))
        self.make("-n", *self.TARGETS)

    def test_each_variable_is_listed_with_its_default(self):
        for name, value in self.VARIABLES.items():
            self.assertRegex(self.text, rf"\b{name}={re.escape(value)}(\s|$)")
        for name in ("SOURCE_DATE_EPOCH", "MAINTAINER"):
            self.assertIn(name, self.text)

    def test_the_path_is_printed_last(self):
        """The last line of a target that packs is the path of the archive or package."""
        for target in ["dist"] + ["deb"] * HAS_DPKG:
            folder = self.path / target
            said = self.make(target, f"OUT={folder}")
            [made] = folder.iterdir()
            self.assertEqual(said.splitlines()[-1], str(made))

    @unittest.skipUnless(HAS_DPKG, "dpkg-deb is not installed")
    def test_the_package_has_the_suffix(self):
        self.assertIn("with the suffix -proved", self.text)
        self.assertRegex(self.packed("deb").name, r"^cbfstool-proved_[0-9.]+_\w+\.deb$")

    def test_the_programs_have_tools(self):
        """Each target names the tools that it runs."""
        for line, tool in [
            ("make, make all", "rt"), ("make test", "rt"), ("make check", "python3")
        ]:
            row = next(row for row in self.text.splitlines() if row.startswith(line))
            self.assertIn(tool, row)


if __name__ == "__main__":
    unittest.main()
