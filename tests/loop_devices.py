"""Attaches files to loop devices, which are block devices, if the system and the user may do so."""

import shutil
import subprocess
import tempfile


def attach(path):
    """Attaches a file, and returns the path of the device, or None."""
    if shutil.which("losetup") is None:
        return None
    words = ["losetup", "-f", "--show", path]
    done = subprocess.run(words, stdout=subprocess.PIPE, stderr=subprocess.DEVNULL, text=True)
    return done.stdout.strip() if done.returncode == 0 else None


def detach(device):
    """Detaches the file of a device."""
    subprocess.run(["losetup", "-d", device], check=True)


def has_loop_devices():
    """Returns whether a file can be attached."""
    with tempfile.NamedTemporaryFile() as file:
        file.write(bytes(512))
        file.flush()
        device = attach(file.name)
        if device is not None:
            detach(device)
        return device is not None
