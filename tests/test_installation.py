"""Installs and packs the programs, and runs what was installed.

tests/test_packages.py compares the contents of archives and packages, with stand-ins for the
programs. Here the installed programs, scripts, pages and completions run, with and without a
suffix.
"""

import gzip
import os
import re
import shutil
import stat
import subprocess
import unittest

from tests.pages import FLASHROM, PAGES, examples, page_text, run_example, section
from tests.programs import IS_PROVED, NAMES, NOBODY, TOP, ProgramTest, difference, program
from tests.test_packages import HAS_DPKG, release_time, text_of

SYSTEM = "/usr/bin:/bin"
SUFFIXES = ("", "-proved", ".2")
VERSION = text_of("VERSION").strip()
# What an installation has below PREFIX: the mode and the path, with @ for the suffix.
FILES = """
755 bin/cbfstool@ fmaptool@ cbfscheck@ cbfsseal@
644 share/bash-completion/completions/cbfstool@ fmaptool@ cbfscheck@ cbfsseal@
644 share/doc/cbfstool@/CHANGELOG.md LICENSE README.md
644 share/doc/cbfstool@/bench/RESULTS.md
644 share/doc/cbfstool@/docs/addition.svg bench.svg growth.svg layers.svg overview.svg proved.svg
644 share/doc/cbfstool@/docs/region.svg cbfscheck.schema.json CLAUSES.md DECISIONS.md DEVELOPING.md
644 share/doc/cbfstool@/docs/EXAMPLES.md FORMAT.md MISTAKES.md MOVING.md PROMISES.md VERIFICATION.md
755 share/doc/cbfstool@/examples/add-aligned add-at-address add-at-end bad-digests cbfs-regions
755 share/doc/cbfstool@/examples/check-build component-digest component-place copy-preserved
755 share/doc/cbfstool@/examples/edit-verified extract-all flash-checked flashrom-layout fmap-config
755 share/doc/cbfstool@/examples/replace-component sbom sign-region undo-nested-map
644 share/fish/vendor_completions.d/cbfstool@.fish fmaptool@.fish cbfscheck@.fish cbfsseal@.fish
644 share/man/man1/cbfstool@.1 fmaptool@.1 cbfscheck@.1 cbfsseal@.1
644 share/man/man5/fmd@.5
644 share/zsh/site-functions/_cbfstool@ _fmaptool@ _cbfscheck@ _cbfsseal@
"""
# A stand-in for rt: it prints what it does, and copies a program in place of building it.
RT = """#!/bin/sh
name=${PWD##*/}
echo "rt: $1 of $name" >&2
mkdir -p out
case $1 in
    lib) : > out/rlib ;;
    run)
        [ ! -e ../../broken ] || exit 3
        cp "$STAND_IN/$name" out/ || exit
        echo "rt: running out/$name" >&2
        echo "usage: $name"
        ;;
esac
"""
LACKS = 'rt, of Rattle\'s kit, is not on PATH (README, "Building")'


def wanted_files(suffix):
    """Returns the modes of the files of an installation, by their paths below PREFIX."""
    modes = {}
    for line in FILES.strip().splitlines():
        mode, first, *names = line.replace("@", suffix).split()
        folder = first.rpartition("/")[0]
        for name in [first.rpartition("/")[2], *names]:
            modes[f"{folder}/{name}"] = mode
    return modes


def setUpModule():
    for tool in ("make", "tar", "gzip", "strip", "objdump"):
        if not shutil.which(tool):
            raise unittest.SkipTest(f"{tool} is not installed")


class InstallTest(ProgramTest):
    """A test that calls make in the repository or in a copy, with the built programs."""

    programs = NAMES

    def setUp(self):
        super().setUp()
        self.place = self.folder()
        self.path = self.place.path
        self.path.chmod(0o755)
        self.stage = self.path / "stage"

    def make(self, *words, top=TOP, status=0, given=True, **environment):
        """Runs make, and returns what it prints; `given` passes the built programs."""
        programs = [f"{name.upper()}={program(name)}" for name in NAMES] if given else []
        kept = {name: value for name, value in os.environ.items()
                if not name.startswith(("MAKE", "MFLAGS")) and name != "SOURCE_DATE_EPOCH"}
        done = subprocess.run(
            ["make", "-s", "-C", top, *programs, *words], stdout=subprocess.PIPE,
            stderr=subprocess.STDOUT, env={**kept, **environment}, umask=0o022, text=True)
        self.assertEqual(done.returncode, status, f"make {words}: {done.stdout}")
        return done.stdout

    def install(self, prefix="/usr/local", suffix="", target="install", **environment):
        """Installs to the staging folder, and returns what make prints."""
        words = [f"DESTDIR={self.stage}", f"PREFIX={prefix}", f"SUFFIX={suffix}", target]
        return self.make(*words, **environment)

    def staged(self, root=None):
        """Returns the modes of all files of the staging folder, by their paths."""
        root = root or self.stage
        return {str(path.relative_to(root)): f"{stat.S_IMODE(path.lstat().st_mode):o}"
                for path in root.rglob("*") if not path.is_dir()}

    def has_files(self, prefix, suffix):
        """Checks that the staging folder has the files of an installation, and no others."""
        wanted = {f"{prefix[1:]}/{name}": mode for name, mode in wanted_files(suffix).items()}
        self.assertEqual(self.staged(), wanted)

    def programs_run(self, root, suffix):
        """Checks that the programs below a folder run without any variable, and its scripts."""
        tools = root / "bin"
        board = (TOP / "samples" / "board.fmd").read_bytes()
        sample = (TOP / "samples" / "types.rom").read_bytes()
        folder = self.folder({"board.fmd": board, "image.rom": sample})
        for words, output in [
            ([f"fmaptool{suffix}", "board.fmd", "board.fmap"], b""),
            ([f"cbfstool{suffix}", "image.rom", "print"],
             (TOP / "samples" / "types.print").read_bytes()),
            ([f"cbfscheck{suffix}", "--help"], (TOP / "crates/cbfscheck/stdout").read_bytes()),
        ]:
            done = subprocess.run(["env", "-i", tools / words[0], *words[1:]], cwd=folder.path,
                                  stdout=subprocess.PIPE, stderr=subprocess.STDOUT)
            self.assertEqual(done.stdout, output, words)
        made = (folder.path / "board.fmap").read_bytes()
        self.assertEqual(made, (TOP / "samples" / "board.fmap").read_bytes())
        # (the scripts call the programs by the names that they have here)
        script = root / f"share/doc/cbfstool{suffix}/examples/extract-all"
        run = folder.run([script, "image.rom"], environment={"PATH": f"{tools}:{SYSTEM}"})
        self.assertEqual(len(run.after["out.COREBOOT/0x0-t+raw"]), 3, run.message)

    def pages_name_files(self, root, documents, suffix):
        """Checks that the pages below a folder name pages, documents and scripts that are there.

        The names of documents begin at the folder `documents`. No page names a program or a page
        without the suffix.
        """
        pages, count = root / "share/man", 0
        for name in PAGES:
            stem, number = name.split(".")
            page = pages / f"man{number}" / f"{stem}{suffix}.{number}"
            text = page.read_text(encoding="utf-8")
            named = re.findall(r"^\.(?:Pq see )?Xr (\S+) ([15])\b", text, re.MULTILINE)
            self.assertGreater(len(named), 1, page)
            for other, section_number in named:
                self.assertTrue((pages / f"man{section_number}/{other}.{section_number}").exists(),
                                f"{page} names {other}")
            files = re.findall(r"^\.Pa (\S*(?:docs|examples)(?:/\S*)?)", text, re.MULTILINE)
            examples_folder = next((one for one in files if one.endswith("examples")), None)
            if examples_folder:
                listed = re.findall(r"^\.It Ic (\S+) ", section(text, "RECIPES"), re.MULTILINE)
                files += [f"{examples_folder}/{one}" for one in listed]
            for file in files:
                path = documents / file.replace("\\-", "-").lstrip("/")
                self.assertTrue(path.exists(), f"{page} names {file}")
                count += 1
            if suffix:
                escaped = re.escape(suffix).replace("\\-", "\\\\?-")
                plain = "cbfstool|fmaptool|cbfscheck|cbfsseal"
                rest = re.sub(rf'(?m)^\.\\".*$', "", text)
                rest = re.sub(rf"({plain}){escaped}", "", rest)
                self.assertNotRegex(rest, rf"\b({plain})([^:]|$)")
        self.assertGreater(count, 3)

    def session_runs(self, readme, folder, path, root=""):
        """Checks that the session of a README prints what it shows, and that its files exist."""
        text = readme.read_text(encoding="utf-8").replace("/usr/share/", f"{root}/usr/share/")
        blocks = re.findall(r"^```\w*\n(.*?)^```$", text, re.MULTILINE | re.DOTALL)
        commands = re.findall(r"^\$ (.*)$", "".join(blocks), re.MULTILINE)
        wanted = "".join(line + "\n" for block in blocks for line in block.splitlines()
                         if not line.startswith("$ "))
        self.assertGreater(len(commands), 4)
        words = ["env", "-i", f"PATH={path}", "sh", "-e", "-c", "\n".join(commands)]
        done = subprocess.run(words, cwd=folder, stdout=subprocess.PIPE, stderr=subprocess.STDOUT)
        seen = done.stdout.decode()
        self.assertEqual((done.returncode, seen), (0, wanted), difference(wanted, seen))
        named = re.findall(r"`([^ `]*share/doc/[^ `]*)`", text)
        self.assertEqual(len(named), 4)
        for name in named:
            self.assertTrue((folder / name).exists(), name)

    def shells_complete(self, root, zsh, suffix):
        """Checks that each shell completes the installed name of a program."""
        text = (TOP / "crates/cbfstool/stdout").read_text(encoding="utf-8")
        commands = re.search("^commands: (.*)$", text, re.MULTILINE)[1].split()
        folder = self.folder({"image.rom": (TOP / "samples" / "types.rom").read_bytes()})
        made = self.folder()
        bash = root / "share/bash-completion/completions"
        for file in bash.iterdir():
            shutil.copy(file, made.path / f"{file.name}.bash")
        shells = TOP / "tests" / "shells"
        asked = {
            "bash": ["bash", "--norc", "--noprofile", shells / "complete.bash", made.path],
            "zsh": ["timeout", "60", "zsh", "-f", shells / "complete.zsh", zsh],
            "fish": ["timeout", "60", "fish", "--no-config", shells / "complete.fish",
                     root / "share/fish/vendor_completions.d"],
        }
        for shell, words in asked.items():
            if not shutil.which(shell):
                continue
            for typed, wanted in [(" ", commands), (" print -r COR", ["COREBOOT"]),
                                  (" print -rFW", ["FW_MAIN_A"])]:
                line = [*words, f"cbfstool{suffix} image.rom{typed}"]
                line += [made.path / f"dump{suffix}"] * (shell == "zsh")
                environment = {"PATH": f"{root}/bin:{os.environ['PATH']}", "HOME": str(made.path)}
                run = folder.run(line, environment=environment)
                offered = [one.removeprefix("-r") for one in run.output.decode().splitlines()]
                self.assertEqual(sorted(offered), sorted(wanted), f"{shell}: {typed}")


class Installations(InstallTest):
    """`make install` and `make uninstall`, with and without a suffix."""

    def test_all_files(self):
        """Nothing is left after an uninstallation."""
        for prefix in ("/usr/local", "/usr/local/flash"):
            for suffix in SUFFIXES:
                with self.subTest(prefix, suffix=suffix):
                    self.install(prefix, suffix)
                    self.has_files(prefix, suffix)
                    self.install(prefix, suffix, "uninstall")
                    self.assertEqual(list(self.stage.rglob("*")), [])

    def test_a_second_installation(self):
        """It replaces the first one, and an uninstallation leaves the files of other programs."""
        for _ in range(2):
            self.install()
            self.has_files("/usr/local", "")
        other = self.stage / "usr/local/share/man/man1/other.1"
        other.touch()
        self.install(target="uninstall")
        self.assertEqual(list(self.staged()), [str(other.relative_to(self.stage))])

    def test_programs_pages_and_scripts(self):
        for suffix in SUFFIXES:
            with self.subTest(suffix=suffix):
                self.install(suffix=suffix)
                self.programs_run(self.stage / "usr/local", suffix)
                self.pages_name_files(self.stage / "usr/local", self.stage, suffix)
                shutil.rmtree(self.stage)

    def test_completions(self):
        for suffix in ("", "-proved"):
            with self.subTest(suffix=suffix):
                self.install(suffix=suffix)
                root = self.stage / "usr/local"
                self.shells_complete(root, root / "share/zsh/site-functions", suffix)

    def test_with_a_suffix_beside_none(self):
        """Both installations share folders only."""
        self.install()
        before = {path: path.read_bytes() for path in self.stage.rglob("*") if path.is_file()}
        for name in PAGES:
            wanted = re.sub(r"(?m)^\.Pa (docs|examples)\b",
                            r".Pa /usr/local/share/doc/cbfstool/\1", page_text(name))
            page = self.stage / f"usr/local/share/man/man{name[-1]}/{name}"
            self.assertEqual(before[page].decode(), wanted)
        self.install(suffix="-proved")
        for path, content in before.items():
            self.assertEqual(path.read_bytes(), content, path)
        self.install(target="uninstall")
        self.has_files("/usr/local", "-proved")

    def test_examples_of_pages_with_a_suffix(self):
        self.install(suffix="-proved")
        root = self.stage / "usr/local"
        tools = self.folder({"flashrom": FLASHROM})
        (tools.path / "flashrom").chmod(0o755)
        scripts = root / "share/doc/cbfstool-proved/examples"
        environment = {"PATH": f"{root}/bin:{scripts}:{tools.path}:{SYSTEM}",
                       "CBFSCHECK": "cbfscheck-proved", "CBFSTOOL": "cbfstool-proved",
                       "CHIP": "image.rom", "WRITTEN": "written.rom"}
        for name in PAGES:
            stem, number = name.split(".")
            text = page_text(f"{stem}-proved.{number}", root / f"share/man/man{number}")
            found = examples(section(text, "EXAMPLES"))
            self.assertGreater(len(found), 6)
            folder = self.folder()
            for example in found:
                with self.subTest(name, line=example.line):
                    run_example(self, folder, example, environment, "fmaptool-proved")

    def test_programs_of_the_same_names(self):
        """Without a suffix make names the programs of the same names that PATH has."""
        other = self.folder({"fmaptool": "#!/bin/sh\n"})
        (other.path / "fmaptool").chmod(0o755)
        path = f"{SYSTEM}:{other.path}"
        said = self.install(PATH=path)
        self.assertEqual(said.count("\n"), 1)
        self.assertIn(f" {other.path}/fmaptool", said)
        self.assertEqual(self.install(suffix="-proved", PATH=path), "")
        self.assertEqual(self.install(PATH=SYSTEM), "")

    def test_refused_names(self):
        """Make refuses a name that it cannot install under, and writes nothing."""
        for word in ["PREFIX=usr", "PREFIX=/a b", "PREFIX=/a'b", "PREFIX=/a,b", "PREFIX=",
                     "SUFFIX=/x", "SUFFIX=a b"]:
            for target in ("install", "uninstall", "dist", "deb"):
                with self.subTest(word, target=target):
                    said = self.make(f"DESTDIR={self.stage}", f"OUT={self.path}/made", word, target,
                                     status=2)
                    self.assertRegex(said, r"(?m)^Makefile:\d+: \*\*\* (PREFIX|SUFFIX) (is|has) ")
                    self.assertEqual(os.listdir(self.path), [])


class Packages(InstallTest):
    """What `make dist` and `make deb` make runs where it is unpacked."""

    def packed(self, target, *words):
        made = self.path / target
        self.make(f"OUT={made}", target, *words)
        [path] = made.iterdir()
        return path

    def test_the_archive(self):
        for suffix in ("", "-proved"):
            with self.subTest(suffix=suffix):
                archive = self.packed("dist", f"SUFFIX={suffix}")
                place = self.path / f"unpacked{suffix}"
                place.mkdir()
                subprocess.run(["tar", "-xzf", archive, "-C", place], check=True)
                [root] = place.iterdir()
                machine = os.uname().machine
                self.assertEqual(root.name, f"cbfstool{suffix}-{VERSION}-{machine}")
                self.programs_run(root, suffix)
                self.pages_name_files(root, root, suffix)
                self.shells_complete(root, root / "share/zsh/site-functions", suffix)
                self.session_runs(root / "README.md", root, SYSTEM)
                readme = (root / "README.md").read_text(encoding="utf-8")
                if suffix:
                    plain = r"(?m)(cbfstool|fmaptool|cbfscheck|cbfsseal)($|[^-])"
                    self.assertNotRegex(readme, plain)
                archive.unlink()

    @unittest.skipUnless(shutil.which("manpath"), "manpath is not installed")
    def test_man_finds_the_pages_of_the_archive(self):
        """If the folder bin/ of the archive is on PATH, man-db finds its pages."""
        archive = self.packed("dist")
        subprocess.run(["tar", "-xzf", archive, "-C", self.path], check=True)
        [root] = [path for path in self.path.iterdir() if (path / "bin").exists()]
        environment = {name: value for name, value in os.environ.items() if name != "MANPATH"}
        environment["PATH"] = f"{root}/bin:{environment['PATH']}"
        done = subprocess.run(["manpath", "-q"], env=environment, stdout=subprocess.PIPE, text=True)
        self.assertIn(f"{root}/share/man", done.stdout.strip().split(":"))

    @unittest.skipUnless(HAS_DPKG, "dpkg-deb is not installed")
    def test_the_package(self):
        package = self.packed("deb")
        root = self.path / "unpacked"
        subprocess.run(["dpkg-deb", "-x", package, root], check=True)
        self.programs_run(root / "usr", "-proved")
        for page in (root / "usr/share/man").rglob("*.gz"):
            data = page.read_bytes()
            # (neither a time nor a name in the header, so that the bytes are always the same)
            self.assertEqual(data[3:8], bytes(5), page)
            page.with_suffix("").write_bytes(gzip.decompress(data))
            page.unlink()
        self.pages_name_files(root / "usr", root, "-proved")
        self.shells_complete(root / "usr", root / "usr/share/zsh/vendor-completions", "-proved")
        session = self.path / "session"
        session.mkdir()
        self.session_runs(root / "usr/share/doc/cbfstool-proved/README.Debian", session,
                          f"{root}/usr/bin:{SYSTEM}", str(root))
        for path in root.rglob("*"):
            if path.is_file():
                self.assertRegex(str(path.relative_to(root)), r"-proved(/|\.[15]$|\.fish$|$)")

    @unittest.skipUnless(HAS_DPKG, "dpkg-deb is not installed")
    def test_the_fields_of_the_package(self):
        """It depends on the newest C library that its programs name, and has owner root."""
        package = self.packed("deb")
        words = ["dpkg-deb", "-f", package, "Depends"]
        stated = subprocess.run(words, stdout=subprocess.PIPE, check=True, text=True).stdout
        self.assertEqual(stated.strip(), f"libc6 (>= {least_library()})")
        words = ["dpkg-deb", "-c", package]
        rows = subprocess.run(words, stdout=subprocess.PIPE, check=True, text=True).stdout
        self.assertEqual({row.split()[1] for row in rows.splitlines()}, {"root/root"})
        changelog = subprocess.run(
            f"dpkg-deb --fsys-tarfile {package} | tar -xO "
            "./usr/share/doc/cbfstool-proved/changelog.gz | gunzip",
            shell=True, stdout=subprocess.PIPE, check=True, text=True).stdout
        self.assertEqual(changelog.splitlines()[0],
                         f"cbfstool-proved ({VERSION}) unstable; urgency=medium")

    @unittest.skipUnless(HAS_DPKG and shutil.which("lintian"), "lintian is not installed")
    def test_lintian(self):
        package = self.packed("deb")
        words = ["lintian", "--no-cfg", "--tag-display-limit", "0", package]
        words += ["--allow-root"] * (os.getuid() == 0)
        done = subprocess.run(words, stdout=subprocess.PIPE, stderr=subprocess.STDOUT, text=True)
        self.assertEqual(done.returncode, 0, done.stdout)
        self.assertNotRegex(done.stdout, "(?m)^[EW]:")

    @unittest.skipUnless(HAS_DPKG, "dpkg-deb is not installed")
    def test_no_file_of_coreboot_utils(self):
        words = ["dpkg", "-L", "coreboot-utils"]
        theirs = subprocess.run(words, stdout=subprocess.PIPE, stderr=subprocess.DEVNULL, text=True)
        if theirs.returncode:
            self.skipTest("coreboot-utils is not installed")
        root = self.path / "unpacked"
        subprocess.run(["dpkg-deb", "-x", self.packed("deb"), root], check=True)
        ours = {f"/{path.relative_to(root)}" for path in root.rglob("*") if not path.is_dir()}
        self.assertFalse(ours & set(theirs.stdout.split("\n")))


def copied(folder):
    """Copies the repository without what was built, with the times of all files."""
    folder.mkdir(parents=True)
    subprocess.run(f"tar -C '{TOP}' --exclude=.git --exclude=out -cf - . | tar -xpf -",
                   shell=True, cwd=folder, check=True)
    return folder


class Reproducible(InstallTest):
    """An archive and a package have the same bytes, whoever makes them, and where."""

    def make_all(self, top, made, **run):
        """Makes an archive and a package, and returns their contents by their names."""
        made.mkdir()
        if run:
            os.chown(made, NOBODY, NOBODY)
        for target in ["dist"] + ["deb"] * HAS_DPKG:
            words = ["make", "-s", "-C", top, f"OUT={made}", target]
            words += [f"{name.upper()}={program(name)}" for name in NAMES]
            environment = {"PATH": os.environ["PATH"], "TMPDIR": str(made)}
            if run:
                environment.update(TZ="Asia/Tokyo", LC_ALL="C.UTF-8", HOME="/nowhere")
            done = subprocess.run(words, stdout=subprocess.PIPE, stderr=subprocess.STDOUT,
                                  env=environment, cwd="/", text=True, **run)
            self.assertEqual(done.returncode, 0, done.stdout)
        return {path.name: path.read_bytes() for path in made.iterdir()}

    def test_two_folders_and_two_users(self):
        copy = copied(self.path / "copy" / "another folder")
        first = self.make_all(TOP, self.path / "first")
        self.assertEqual(len(first), 1 + HAS_DPKG)
        user = {"user": NOBODY, "group": NOBODY, "extra_groups": []} if os.getuid() == 0 else {}
        self.assertEqual(self.make_all(copy, self.path / "second", umask=0o077, **user)
                         if user else self.make_all(copy, self.path / "second"), first)
        [archive] = (self.path / "first").glob("*.tar.gz")
        words = ["tar", "-tvzf", archive, "--utc", "--full-time"]
        rows = subprocess.run(words, stdout=subprocess.PIPE, check=True, text=True).stdout
        rows = [row.split() for row in rows.splitlines()]
        self.assertGreater(len(rows), 30)
        self.assertEqual({row[1] for row in rows}, {"0/0"})
        shown = subprocess.run(["date", "-u", "-d", f"@{release_time()}", "+%Y-%m-%d %H:%M:%S"],
                               stdout=subprocess.PIPE, text=True).stdout.strip()
        self.assertEqual({" ".join(row[3:5]) for row in rows}, {shown})
        # (without OUT, and with another page)
        self.make("dist", top=copy)
        [made] = (copy / "out").glob("*.tar.gz")
        self.assertEqual(made.read_bytes(), first[archive.name])
        with open(copy / "man" / "fmd.5", "a", encoding="utf-8") as page:
            page.write("\n")
        self.make("dist", f"OUT={self.path}/third", top=copy)
        self.assertNotEqual((self.path / "third" / archive.name).read_bytes(), first[archive.name])


class Builds(InstallTest):
    """Builds without rt and with a stand-in for it, and programs that are older than sources."""

    def setUp(self):
        super().setUp()
        self.copy = copied(self.path / "copy")
        self.kit = self.folder({"rt": RT})
        (self.kit.path / "rt").chmod(0o755)
        self.stand_in = self.folder()
        for name in NAMES:
            shutil.copy(program(name), self.stand_in.path / name)

    def build(self, *words, rt=True, status=0):
        """Runs make in the copy, with or without the stand-in for rt on PATH."""
        path = f"{self.kit.path}:{SYSTEM}" if rt else SYSTEM
        return self.make(*words, top=self.copy, status=status, given=False, PATH=path,
                         STAND_IN=str(self.stand_in.path))

    def built(self):
        """Returns the folders that a build has made."""
        return sorted(self.copy.glob("crates/*/out"))

    def test_without_rt(self):
        done = subprocess.run(["./prove", "cbfstool"], cwd=self.copy, env={"PATH": SYSTEM},
                              stdout=subprocess.PIPE, stderr=subprocess.STDOUT, text=True)
        self.assertEqual((done.returncode, done.stdout), (1, f"{LACKS}\n"))
        for target in ("all", "cbfstool", "fmaptool", "install"):
            said = self.build(f"DESTDIR={self.stage}", target, rt=False, status=2)
            self.assertEqual(said.splitlines()[0], LACKS, target)
            self.assertEqual(self.built(), [])
            self.assertFalse(self.stage.exists())

    def test_a_build(self):
        """Make prints what rt does, and a sample, but not what rt prints of a program that runs."""
        said = self.build("cbfstool")
        self.assertIn("rt: run of cbfstool\n", said)
        self.assertIn("t/raw\t0x0\traw\t3\tnone\n", said)
        self.assertIn("name, offset", said)
        self.assertNotRegex(said, "usage|running")

    def test_a_build_that_fails(self):
        (self.copy / "broken").touch()
        self.build("fmaptool", status=2)
        self.assertNotIn("t/raw", self.build("cbfstool", status=2))

    def test_old_programs(self):
        """A program that is older than a source is built again, or refused without rt."""
        self.build("all")
        for name in ("man/cbfstool.1", "README.md", "crates/flash_format/README.md"):
            os.utime(self.copy / name)
        destination = f"DESTDIR={self.stage}"
        self.assertEqual(self.build("install", destination, rt=False), "")
        self.programs_run(self.stage / "usr/local", "")
        shutil.rmtree(self.stage)
        for source in ("crates/flash_format/src/head.rt", "crates/cbfs_edit/specs/Removals.antt"):
            with self.subTest(source):
                os.utime(self.copy / source)
                said = self.build("install", destination, rt=False, status=2)
                self.assertEqual(said.splitlines()[0], "crates/cbfstool/out/cbfstool is older than "
                                 f"{source}: building it")
                self.assertIn(f"\n{LACKS}\n", said)
                self.assertFalse(self.stage.exists())
                self.assertIn("rt: run of cbfstool\n", self.build("install", destination))
                shutil.rmtree(self.stage)
                self.build("dist", rt=False)

    def test_a_library_that_fmaptool_does_not_use(self):
        self.build("all")
        os.utime(self.copy / "crates/cbfs_edit/src/lib.rt")
        said = self.build("install", f"DESTDIR={self.stage}", rt=False, status=2)
        self.assertNotIn("crates/fmaptool", said)
        self.build("clean")
        self.assertEqual(self.built(), [])

    def test_make_test_is_the_gate(self):
        self.assertEqual(self.build("-n", "test"), "checks/gate\n")


def least_library():
    """Returns the newest version of the C library that the programs name."""
    words = ["objdump", "-T", *(program(name) for name in NAMES)]
    text = subprocess.run(words, stdout=subprocess.PIPE, check=True, text=True).stdout
    versions = {tuple(map(int, found.split("."))) for found in
                re.findall(r"GLIBC_(\d[\d.]*)", text)}
    return ".".join(map(str, max(versions)))


class Machine(InstallTest):
    """What the programs need of the machine is what the READMEs state."""

    def test_the_c_library(self):
        for name in ("README.md", "dist/README.md"):
            stated = re.search(r"GNU C library (\d+\.\d+)", text_of(name))[1]
            self.assertEqual(stated, least_library(), name)

    @unittest.skipUnless(IS_PROVED, "a proved build")
    def test_no_other_library(self):
        words = ["objdump", "-p", *(program(name) for name in NAMES)]
        text = subprocess.run(words, stdout=subprocess.PIPE, check=True, text=True).stdout
        rows = re.findall(r"^ +(NEEDED|RPATH|RUNPATH) +(\S+)", text, re.MULTILINE)
        self.assertEqual(set(rows), {("NEEDED", "libc.so.6")})


if __name__ == "__main__":
    unittest.main()
