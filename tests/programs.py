"""Runs the programs under test.

The programs are those in the folder that the environment variable PROGRAMS names, or else those
that were built in crates/NAME/out/.

A test is a method of a `ProgramTest`. It runs a command line in a new folder with files, and
compares status, output, message and files with literal values:

    class Removal(ProgramTest):
        def test_no_such_component(self):
            self.check("cbfstool image.rom remove -n x", {"image.rom": IMAGE},
                       status=1, message="cbfstool: no such component\\n")

A failure prints the command, the expected and the seen values as a diff, and the path of the
folder, which is kept.

A command can also run under conditions that the system seldom makes, which are arguments of
`check`, `refuses` and `Folder.run`:

    closed=(0, 2)               standard descriptors that are closed
    file_limit=4096             bytes that a file of the command may have at most
    as_nobody=True              a user who owns nothing, if the test runs as root
    faults=Faults("image.rom", "write 1 1 EIO")      system calls that fail (tests/faults/calls.c)

`Folder.start` starts a command, and returns while it runs; `locked` holds the lock of a file.
"""

import collections
import concurrent.futures
import contextlib
import difflib
import errno
import fcntl
import itertools
import os
import pathlib
import re
import resource
import shlex
import shutil
import signal
import subprocess
import tempfile
import threading
import time
import unittest

# (unittest then leaves the frames of this file out of a traceback)
__unittest = True

TOP = pathlib.Path(__file__).resolve().parent.parent
NAMES = ("cbfstool", "fmaptool", "cbfscheck", "cbfsseal")


def program(name):
    """Returns the path of a program."""
    folder = os.environ.get("PROGRAMS")
    if folder:
        return os.path.join(os.path.abspath(folder), name)
    return str(TOP / "crates" / name / "out" / name)


def has_program(name):
    """Returns whether the program is built."""
    return os.access(program(name), os.X_OK)


def words_of(command):
    """Returns the arguments of a command line, which is a text as in a shell or a list."""
    if isinstance(command, str):
        return shlex.split(command)
    return [os.fspath(word) for word in command]


HAS_COMPILER = shutil.which("cc") is not None
# The variable UNPROVED says that the programs were built by `rt try`. They are slower, and take
# memory in another way, in which no request can be refused.
IS_PROVED = not os.environ.get("UNPROVED")
# The seconds after which a command is stopped, and in which a command waits for a lock. The tests
# of programs with mistakes, of which some never end, set a lower limit.
TIME_LIMIT = int(os.environ.get("TIME_LIMIT", 60))
if not IS_PROVED:
    TIME_LIMIT *= 10
LOCK_LIMIT = min(20, TIME_LIMIT)
if_memory_can_be_refused = unittest.skipUnless(
    HAS_COMPILER and IS_PROVED, "a proved build" if HAS_COMPILER else "cc"
)
ALWAYS = 10**9
NOBODY = 65534


LIBRARIES = {}
COMPILING = threading.Lock()


def library(name):
    """Compiles tests/faults/NAME.c once for a file of tests, and returns the path of the result."""
    with COMPILING:
        return compiled(name)


def compiled(name):
    """Returns the path of a library, which is compiled unless it was compiled before."""
    if name not in LIBRARIES:
        folder = tempfile.TemporaryDirectory(prefix="faults-")
        os.chmod(folder.name, 0o755)
        made = os.path.join(folder.name, f"{name}.so")
        source = TOP / "tests" / "faults" / f"{name}.c"
        subprocess.run(["cc", "-O1", "-shared", "-fPIC", "-o", made, source, "-ldl"], check=True)
        LIBRARIES[name] = folder, made
        unittest.addModuleCleanup(lambda: LIBRARIES.pop(name)[0].cleanup())
    return LIBRARIES[name][1]


# A system call on the file of `Faults`: `offset` and `length` are those of a read or a write, and
# `way` tells how the call was changed, or is empty.
Call = collections.namedtuple("Call", "name number offset length way")
# The calls that can be changed, each with the ways other than an error.
MOVING = {"short", "part", "none", "kill", "pause"}
CALLS = {
    "open": {"kill", "pause"}, "stat": {"other", "kill", "pause"}, "lock": {"kill", "pause"},
    "read": MOVING, "write": MOVING, "seek": {"kill", "pause"}, "sync": {"kill", "pause"},
    "close": {"kill", "pause"}, "memory": set(),
}


class Faults:
    """Changes of the system calls on a file, as tests/faults/calls.c states them.

    `file` is a path as it stands on the command line. A change is for example `write 1 1 EIO` or
    `read 2 always EINTR`: the call, the first and the last number, and an error or another way.
    After the command, `calls` has a `Call` for each call on the file. To see which number a call
    has, print `listing()` after a command with `Faults(file)`, which changes nothing. `check` fails
    if there are changes and no call was changed, unless `may_change_nothing` is true.
    """

    def __init__(self, file, *changes, pause="", may_change_nothing=False):
        self.file = file
        self.is_required = bool(changes) and not may_change_nothing
        self.changes = ",".join(map(self.numbered, changes))
        self.pause = pause
        self.calls = []

    @staticmethod
    def numbered(change):
        """Returns a change with numbers instead of the names of errors and of `always`."""
        words = change.split()
        if len(words) != 4 or not words[1].isdecimal():
            raise ValueError(f"{change}: a change has four words: the call, the first and the last"
                             " number, and the way")
        name, first, last, way = words
        if name not in CALLS:
            raise ValueError(f"{change}: the call is none of {', '.join(CALLS)}")
        number = str(ALWAYS) if last == "always" else last
        if not 1 <= int(first) <= int(number):
            raise ValueError(f"{change}: the numbers of the first and the last call are wrong")
        if way.startswith("E") and hasattr(errno, way):
            way = getattr(errno, way)
        elif way not in CALLS[name]:
            ways = ", ".join(sorted(CALLS[name]))
            raise ValueError(f"{change}: {way} is no error of errno, and none of: {ways}")
        return f"{name} {first} {number} {way}"

    def environment(self, listed):
        """Returns the environment of a command whose calls are listed in this file."""
        return {
            "LD_PRELOAD": library("calls"), "FAULT_FILE": self.file, "FAULTS": self.changes,
            "FAULT_LIST": os.fspath(listed), "FAULT_PAUSE": os.fspath(self.pause),
        }

    def read_calls(self, listed):
        """Reads the list of calls, and removes it."""
        lines = listed.read_text().splitlines() if listed.exists() else []
        rows = [line.split(" ") for line in lines]
        self.calls = [Call(name, *map(int, numbers), way) for name, *numbers, way in rows]
        listed.unlink(missing_ok=True)

    def listing(self, limit=40):
        """Returns a line for each call, as a text: its name, number, bytes and change."""
        lines = []
        for call in self.calls[:limit]:
            moved = f" of {call.length} bytes at {call.offset:#x}" if call.length else ""
            way = errno.errorcode.get(int(call.way)) if call.way.isdecimal() else call.way
            lines.append(f"{call.name} {call.number}{moved}{way and f': {way}'}")
        more = len(self.calls) - limit
        return "\n".join(lines + [f"({more} more calls)"] * (more > 0))

    def changed(self):
        """Returns how many calls were changed."""
        return sum(call.way != "" for call in self.calls)


@contextlib.contextmanager
def locked(path, how=fcntl.LOCK_EX):
    """Holds a lock of a file, which must be free."""
    with open(path, "rb") as file:
        fcntl.flock(file, how | fcntl.LOCK_NB)
        try:
            yield
        finally:
            # (a process that another thread starts may have the open file for a moment)
            fcntl.flock(file, fcntl.LOCK_UN)


def is_locked(path, how=fcntl.LOCK_EX):
    """Returns whether a lock of another process excludes this one."""
    try:
        with locked(path, how):
            return False
    except BlockingIOError:
        return True


def waits_for_lock(process, path):
    """Returns whether /proc/locks shows that a process waits for the lock of a file."""
    waiting = rf"-> FLOCK .* {process} [0-9a-f]+:[0-9a-f]+:{os.stat(path).st_ino} "
    return re.search(waiting, pathlib.Path("/proc/locks").read_text()) is not None


def preparation(closed, file_limit, as_nobody):
    """Returns a function that makes the conditions of a command, in its process, or None."""
    if not closed and file_limit is None and not as_nobody:
        return None

    def prepare():
        if file_limit is not None:
            # A write after the limit then fails with EFBIG.
            signal.signal(signal.SIGXFSZ, signal.SIG_IGN)
            resource.setrlimit(resource.RLIMIT_FSIZE, (file_limit, file_limit))
        if as_nobody and os.getuid() == 0:
            os.setgroups([])
            os.setgid(NOBODY)
            os.setuid(NOBODY)
        for number in closed:
            os.close(number)

    return prepare


class Run:
    """The result of a command: status, output, message, the files before and after it, and the
    changes of its system calls, or None."""

    def __init__(self, command, folder, status, output, message, before, after, faults=None):
        self.command = command
        self.folder = folder
        self.status = status
        self.output = output
        self.message = message
        self.before = before
        self.after = after
        self.faults = faults


class Folder:
    """A new folder with files, in which commands run.

    `notes` is the path of a file beside the folder, for what another program notes of a command.
    """

    def __init__(self, files=()):
        self.path = pathlib.Path(tempfile.mkdtemp(prefix="test-"))
        self.notes = self.path.with_name(f"{self.path.name}.notes")
        self.started = []
        for name, content in dict(files).items():
            self.put(name, content)

    def put(self, name, content):
        """Writes a file; a text is stored as UTF-8."""
        path = self.path / name
        path.parent.mkdir(parents=True, exist_ok=True)
        path.write_bytes(content if isinstance(content, bytes) else content.encode())

    def files(self):
        """Returns the contents of all regular files, by their names."""
        paths = sorted(path for path in self.path.rglob("*") if path.is_file())
        return {str(path.relative_to(self.path)): path.read_bytes() for path in paths}

    def remove(self):
        """Stops the commands, and removes the folder and the notes."""
        self.stop()
        shutil.rmtree(self.path, ignore_errors=True)
        self.notes.unlink(missing_ok=True)

    def stop(self):
        """Kills the commands that have been started and still run."""
        for one in self.started:
            one.kill()

    def start(self, command, environment=None, closed=(), file_limit=None, as_nobody=False,
              faults=None):
        """Starts a command line. The programs under test are the first on PATH."""
        folders = [os.path.dirname(program(name)) for name in NAMES]
        path = os.pathsep.join([*folders, os.environ.get("PATH", "")])
        listed = self.path.with_name(f"{self.path.name}.calls")
        changes = faults.environment(listed) if faults else {}
        before = self.files()
        process = subprocess.Popen(
            words_of(command), cwd=self.path,
            stdin=subprocess.PIPE, stdout=subprocess.PIPE, stderr=subprocess.PIPE,
            env={**os.environ, "PATH": path, **changes, **(environment or {})},
            preexec_fn=preparation(closed, file_limit, as_nobody), start_new_session=True,
        )
        self.started.append(Started(command, self, process, before, faults, listed))
        return self.started[-1]

    def run(self, command, stdin=b"", limit=TIME_LIMIT, **conditions):
        """Runs a command line and waits for it. The conditions are those of `start`."""
        return self.start(command, **conditions).end(stdin, limit)


class Started:
    """A command that was started in a folder."""

    def __init__(self, command, folder, process, before, faults, listed):
        self.command = command
        self.folder = folder
        self.process = process
        self.before = before
        self.faults = faults
        self.listed = listed

    def end(self, stdin=b"", limit=TIME_LIMIT):
        """Waits for the end, and returns the run.

        A command that a signal ends has the negative number of the signal as its status, as in
        `subprocess`. A command that exceeds the time limit is killed, and has the status None.
        """
        status = None
        try:
            output, message = self.process.communicate(stdin, limit)
            status = self.process.returncode
        except subprocess.TimeoutExpired:
            # (its own processes may have its output)
            self.kill()
            output, message = self.process.communicate()
        if self.faults:
            self.faults.read_calls(self.listed)
        after = self.folder.files()
        return Run(self.command, self.folder.path, status, output, message, self.before, after,
                   self.faults)

    def kill(self):
        """Kills the command, and the commands that it has started, unless it has ended."""
        if self.process.poll() is None:
            os.killpg(self.process.pid, signal.SIGKILL)
            self.process.wait()

    def waits_for_lock(self, path, limit=LOCK_LIMIT):
        """Waits until the command waits for the lock of a file, and returns False if it ends."""
        last = time.monotonic() + limit
        while self.process.poll() is None and time.monotonic() < last:
            if waits_for_lock(self.process.pid, path):
                return True
            time.sleep(0.002)
        return False


def as_lines(value):
    """Returns the lines of a value for a diff: those of a text, or else bytes in rows of 16."""
    if not isinstance(value, bytes):
        return str(value).splitlines() or [""]
    with contextlib.suppress(UnicodeDecodeError):
        text = value.decode()
        if text.isprintable() or all(c.isprintable() or c in "\t\n" for c in text):
            return text.splitlines() or ["(no bytes)"]
    rows = range(0, len(value), 16)
    return [f"{at:08x}: {value[at:at + 16].hex(' ', 4)}" for at in rows]


def difference(expected, seen):
    """Returns the diff of two values, as a text."""
    rows = difflib.unified_diff(
        as_lines(expected), as_lines(seen), "expected", "seen", lineterm="", n=1
    )
    lines = list(rows)
    if not lines:
        return f"expected {expected!r}\nseen     {seen!r}"
    return "\n".join(lines[:60] + [f"({len(lines) - 60} more lines)"] * (len(lines) > 60))


class ProgramTest(unittest.TestCase):
    """A test that runs programs. It fails if one of `programs` is not built."""

    programs = ("cbfstool", "fmaptool", "cbfscheck")
    maxDiff = None

    @classmethod
    def setUpClass(cls):
        super().setUpClass()
        missing = [name for name in cls.programs if not has_program(name)]
        if missing:
            raise FileNotFoundError(f"{', '.join(missing)}: build the programs, or set PROGRAMS")

    def folder(self, files=()):
        """Returns a new folder with files. It is removed after the test, unless the test fails."""
        made = Folder(files)
        self.__dict__.setdefault("_folders", []).append(made)
        return made

    def tearDown(self):
        for made in getattr(self, "_folders", []):
            made.stop()
            if not getattr(made, "kept", False):
                made.remove()
        super().tearDown()

    def check(self, command, files=(), status=0, output=b"", message="", left=None, **run):
        """Runs a command in a new folder with files, and compares all that it did.

        `left` has the contents of the files that the command makes or changes, or None for a file
        that it removes; all other files must stay as they were. Returns the run.
        """
        folder = files if isinstance(files, Folder) else self.folder(files)
        done = self.compare_run(folder, folder.run(command, **run), status, output, message, left)
        if done.faults and done.faults.is_required and not done.faults.changed():
            self.differs(folder, done, ["no system call was changed"])
        return done

    def compare_run(self, folder, done, status=0, output=b"", message="", left=None):
        """Compares all that a run did, as `check` does, and returns the run."""
        files = {**done.before, **{name: as_bytes(data) for name, data in (left or {}).items()}}
        files = {name: data for name, data in files.items() if data is not None}
        names = sorted({*files, *done.after})
        values = [
            ("status", status, done.status),
            ("message", as_bytes(message), done.message),
            ("output", as_bytes(output), done.output),
            *((name, files.get(name), done.after.get(name)) for name in names),
        ]
        wrong = [f"{what} of the command differs\n{difference(expected, seen)}"
                 for what, expected, seen in values if expected != seen]
        if wrong:
            self.differs(folder, done, wrong)
        return done

    def refuses(self, status, message, command, files=(), left=None, **run):
        """Checks that a command fails with this message, and changes no other file than `left`."""
        name = words_of(command)[0]
        return self.check(command, files, status, b"", f"{name}: {message}\n", left, **run)

    def refuse_memory(self, command, files, output=b"", left=None, made=(), status=1):
        """Refuses each request for memory of a command in turn.

        A run either reports that with `status`, and leaves at most empty files of the names `made`,
        or it does without the memory, and has the stated output and files. Returns the numbers of
        the requests whose refusal was reported, and of those that were spared.
        """
        name, reported, spared = words_of(command)[0], [], []
        for number in itertools.count(1):
            memory = Faults("", f"memory {number} {number} ENOMEM")
            folder = self.folder(files)
            done = folder.run(command, faults=memory)
            if memory.changed() and done.status:
                empty = {one: b"" for one in made if one in done.after}
                self.compare_run(folder, done, status, "", f"{name}: out of memory\n", empty)
                reported.append(number)
            else:
                self.compare_run(folder, done, output=output, left=left)
                if not memory.changed():
                    return reported, spared
                spared.append(number)
            folder.remove()

    def check_rows(self, check, rows, at_once=4):
        """Checks the rows of a table as subtests, several at once.

        `check` gets the fields of a row; the first one is the title of the subtest.
        """
        def outcome(row):
            try:
                return check(*row)
            except (self.failureException, unittest.SkipTest) as raised:
                return raised

        with concurrent.futures.ThreadPoolExecutor(at_once) as pool:
            try:
                for row, raised in zip(rows, pool.map(outcome, rows)):
                    with self.subTest(row[0]):
                        if raised is not None:
                            raise raised
            except BaseException:
                # (with the option -f the first failure ends the test)
                pool.shutdown(cancel_futures=True)
                raise

    def compare(self, folder, done, what, expected, seen):
        """Fails with the command, a diff and the folder if a value differs."""
        if expected != seen:
            shown = difference(expected, seen)
            self.differs(folder, done, [f"{what} of the command differs\n{shown}"])

    def differs(self, folder, done, wrong):
        """Fails with the command, all that is wrong, the system calls and the folder."""
        folder.kept = True
        words = shlex.join(map(os.fsdecode, words_of(done.command)))
        calls = []
        if done.faults:
            changed = "" if done.faults.changed() else ", of which none was changed"
            listing = done.faults.listing() or "(none: is the path that of the command line?)"
            calls = [f"calls on {done.faults.file}{changed}:\n{listing}"]
        self.fail("\n".join([f"command: {words}", *wrong, *calls, f"folder: {folder.path}"]))


def as_bytes(value):
    """Returns the bytes of a text; bytes and None stay."""
    return value.encode() if isinstance(value, str) else value
