"""Runs commands under strace, which lists or changes their system calls."""

import functools
import shutil
import subprocess

STRACE = ["strace", "--quiet=path-resolution", "-o"]


@functools.lru_cache(None)
def traces():
    """Returns whether strace is installed and may trace."""
    words = [*STRACE, "/dev/null", "-e", "inject=pwrite64:error=EIO:when=1", "true"]
    return shutil.which("strace") and subprocess.run(words, capture_output=True).returncode == 0


def tracing(folder, calls, paths=(), change=None):
    """Returns the words that precede a command to run it under strace.

    The notes of the folder then have the calls of these names, separated by commas, on these paths
    or on any. A changed call has the mark INJECTED; the changes are those of strace's `inject`, for
    example `error=EINTR:when=2..5`.
    """
    # (a path counts as it stands on the command line, and as that of an open file)
    chosen = [word for path in paths for word in ("-P", path, "-P", str(folder.path / path))]
    changes = ["-e", f"inject={calls}:{change}"] if change else []
    return [*STRACE, str(folder.notes), *chosen, "-e", f"trace={calls}", *changes]
