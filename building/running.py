"""Runs that build here, one at a time, and end cleanly."""
import contextlib
import fcntl
import os

from places import tell


@contextlib.contextmanager
def alone(folder, what):
    """Waits while another run builds the same in this folder."""
    os.makedirs(folder, exist_ok=True)
    with open(f"{folder}/build.lock", "w", encoding="ascii") as lock:
        try:
            fcntl.flock(lock, fcntl.LOCK_EX | fcntl.LOCK_NB)
        except BlockingIOError:
            tell(f"{what} already; waiting for that to end")
            fcntl.flock(lock, fcntl.LOCK_EX)
        yield
