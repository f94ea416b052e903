"""Interactive shells on a pseudo-terminal, with the completions of the programs.

A `Terminal` types a line and TAB as a user does, and returns the line that the shell makes of it.
It can also press Enter: then recorders stand in for the programs, and store their arguments.
"""

import fcntl
import os
import pathlib
import pty
import shutil
import signal
import struct
import termios
import threading
import time

from tests.programs import TOP, program

SHELLS = ("bash", "zsh", "fish")
# Keys: those that clear the line (end of line, kill), those that store it, and the interrupt.
CLEAR, STORE, CANCEL = b"\x05\x15", b"\x18\x0c", b"\x03"
LIMIT = 30

BASH_START = """
PS1='> ' HISTFILE=
for file in {completion}/*.bash; do . "$file"; done
store() {{ printf '%s' "$READLINE_LINE" > {state}/line.new && mv {state}/line.new {state}/line; }}
bind -x '"\\C-x\\C-l": store'
bind 'set page-completions off'
bind 'set completion-query-items 0'
PROMPT_COMMAND='printf . >> {state}/prompts'
"""

ZSH_START = """
PROMPT='> '
fpath=({completion} $fpath)
autoload -U compinit
compinit -u -d {dump}
store() {{ print -rn -- "$BUFFER" > {state}/line.new && mv {state}/line.new {state}/line }}
zle -N store
bindkey -e
bindkey '^X^L' store
LISTMAX=10000
precmd() {{ print -n . >> {state}/prompts }}
"""

FISH_START = """
function fish_prompt; echo '> '; end
function fish_greeting; end
for file in {completion}/*.fish; source $file; end
bind \\cx\\cl 'commandline > {state}/line.new; command mv {state}/line.new {state}/line'
function count_prompts --on-event fish_prompt; printf . >> {state}/prompts; end
"""

# Stores the arguments if somebody waits for them, and is the program otherwise.
RECORDER = """#!/bin/sh
[ -e {state}/recording ] || exec '{program}' "$@"
printf '%s\\0' "${{0##*/}}" "$@" > {state}/ran.new
mv {state}/ran.new {state}/ran
"""


def available():
    """Returns the shells that are installed."""
    return [shell for shell in SHELLS if shutil.which(shell)]


class Terminal:
    """A shell that waits for input in a folder, with recorders for the programs first on PATH."""

    def __init__(self, shell, folder, state, completion=TOP / "completion"):
        self.shell = shell
        self.folder = pathlib.Path(folder)
        self.state = pathlib.Path(state)
        self.transcript = b""
        self.home = self.state / "home"
        self.home.mkdir(parents=True)
        programs = self.state / "bin"
        programs.mkdir()
        for name in ("cbfstool", "fmaptool", "cbfscheck"):
            write_program(programs / name, RECORDER.format(state=self.state, program=program(name)))
        fields = {"completion": completion, "state": self.state, "dump": self.state / "dump"}
        environment = {
            "PATH": f"{programs}:/usr/bin:/bin", "HOME": str(self.home), "TERM": "xterm",
            "LC_ALL": "C.UTF-8", "ZDOTDIR": str(self.state),
            "XDG_CONFIG_HOME": str(self.state), "XDG_DATA_HOME": str(self.state),
        }
        start = self.state / ("start" if shell != "zsh" else ".zshrc")
        text = {"bash": BASH_START, "zsh": ZSH_START, "fish": FISH_START}[shell]
        start.write_text(text.format(**fields))
        words = {
            "bash": ["bash", "--noprofile", "--rcfile", str(start), "-i"],
            "zsh": ["zsh", "-d", "-i"],
            "fish": ["fish", "--no-config", "--private", "-i", "-C", f"source {start}"],
        }[shell]
        self.child, self.terminal = pty.fork()
        if self.child == 0:
            os.chdir(self.folder)
            os.execvpe(words[0], words, environment)
        fcntl.ioctl(self.terminal, termios.TIOCSWINSZ, struct.pack("HHHH", 400, 200, 0, 0))
        self.reader = threading.Thread(target=self.read, daemon=True)
        self.reader.start()
        self.wait(lambda: self.prompts(), "prints no prompt")

    def read(self):
        """Collects what the shell prints, until it ends."""
        while True:
            try:
                data = os.read(self.terminal, 65536)
            except OSError:
                return
            if not data:
                return
            self.transcript += data

    def wait(self, holds, fault):
        """Waits for a condition; fails with the end of the transcript if that takes too long."""
        end = time.monotonic() + LIMIT
        while not holds():
            if time.monotonic() > end:
                raise AssertionError(f"{self.shell} {fault}; printed: {self.transcript[-2000:]!r}")
            time.sleep(0.005)

    def prompts(self):
        """Returns the number of prompts up to now."""
        path = self.state / "prompts"
        return path.stat().st_size if path.exists() else 0

    def send(self, keys):
        """Presses keys."""
        keys = keys if isinstance(keys, bytes) else keys.encode()
        while keys:
            keys = keys[os.write(self.terminal, keys):]

    def line(self):
        """Returns the line as the shell has it now."""
        stored = self.state / "line"
        self.send(STORE)
        self.wait(stored.exists, "does not store its line")
        text = stored.read_text(errors="surrogateescape")
        stored.unlink()
        return text[:-1] if self.shell == "fish" and text.endswith("\n") else text

    def complete(self, text):
        """Types a text and TAB into an empty line, and returns the line."""
        self.send(CLEAR)
        self.send(text)
        self.send(b"\t")
        return self.line()

    def has_shown(self, text, *expected):
        """Types a text and TAB, and waits until the shell has printed the expected texts."""
        begun = len(self.transcript)
        self.complete(text)
        wanted = [one.encode() for one in expected]
        self.wait(
            lambda: all(one in self.transcript[begun:] for one in wanted),
            f"does not show {expected} after {text!r}",
        )

    def enter(self):
        """Presses Enter, and returns the program that runs, with its arguments, or None."""
        ran, recording = self.state / "ran", self.state / "recording"
        ran.unlink(missing_ok=True)
        recording.touch()
        before = self.prompts()
        self.send(b"\r")
        try:
            self.wait(lambda: self.prompts() > before, "does not end its command")
        except AssertionError:
            self.send(CANCEL)
            raise
        finally:
            recording.unlink()
        if not ran.exists():
            return None
        return [os.fsdecode(word) for word in ran.read_bytes().split(b"\0")[:-1]]

    def end(self):
        """Ends the shell."""
        try:
            os.kill(self.child, signal.SIGKILL)
        except ProcessLookupError:
            pass
        os.waitpid(self.child, 0)
        os.close(self.terminal)


def write_program(path, text):
    """Writes a script that can be run."""
    path.write_text(text)
    path.chmod(0o755)
