"""A small file system in memory, which a test fills."""
import contextlib
import os
import subprocess

import needs
from serving import LONGEST

SIZE = "3m"


@contextlib.contextmanager
def small_disk(place):
    """A file system of a few megabytes; the test is skipped where it cannot be mounted."""
    place.mkdir()
    words = ["mount", "-t", "tmpfs", "-o", f"size={SIZE}", "tmpfs", place]
    found = subprocess.run(words, capture_output=True, timeout=LONGEST) if not os.getuid() else None
    needs.that(found and not found.returncode, "root, or no tmpfs")
    try:
        yield
    finally:
        subprocess.run(["umount", place], check=True, timeout=LONGEST)


def fill(path, how="wb"):
    """Fills the disk of a file, to its last byte."""
    with contextlib.suppress(OSError), open(path, how, buffering=0) as file:
        while file.write(b"x" * 4096):
            pass
