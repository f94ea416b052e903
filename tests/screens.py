"""Programs that write to a pseudo-terminal: to standard output, or to standard error."""

import errno
import os
import pty
import subprocess
import tty

from tests.programs import program


def read_terminal(master):
    """Returns further bytes of a terminal, or none after the last one."""
    try:
        return os.read(master, 65536)
    except OSError as error:
        if error.errno != errno.EIO:
            raise
        return b""


def run_on_terminal(words, folder, environment, stream):
    """Returns the result of a command with a terminal as `stream`, and the bytes that it got.

    The stream is `stdout` or `stderr`, and the other one is a pipe.
    """
    master, slave = pty.openpty()
    streams = {"stdout": subprocess.PIPE, "stderr": subprocess.PIPE, stream: slave}
    try:
        tty.setraw(slave)
        done = subprocess.run([program(words[0]), *words[1:]], cwd=folder, env=environment,
                              stdin=subprocess.DEVNULL, check=False, **streams)
    finally:
        os.close(slave)
    shown = b"".join(iter(lambda: read_terminal(master), b""))
    os.close(master)
    return done, shown


def on_screen(words, folder, environment):
    """Returns the status of a command, the text that its terminal got, and standard error."""
    done, shown = run_on_terminal(words, folder, environment, "stdout")
    return done.returncode, shown.decode(), done.stderr


def messages_on_screen(words, folder, environment=None):
    """Returns the status and the output of a command whose messages go to a terminal, and these
    messages."""
    done, shown = run_on_terminal(words, folder, environment, "stderr")
    return done.returncode, done.stdout, shown.decode()
