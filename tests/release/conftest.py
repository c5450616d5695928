"""The releases that the tests of this folder install, made by ./release of the program that is tried."""
import subprocess
import tempfile
from concurrent.futures import ThreadPoolExecutor
from pathlib import Path
from types import SimpleNamespace

import needs
import pytest
from releasing import ROOT, version
from serving import expect

# The release before is the same program under a lower version: what differs between two is tried where it stands.
BEFORE = "0.9.0"


def made(program, folder, *words):
    ended = subprocess.run([ROOT / "release", "--program", program, *words, folder], capture_output=True, text=True,
                           stdin=subprocess.DEVNULL, timeout=300)
    expect(ended.returncode == 0, "./release ended with", ended.returncode, ended.stderr)
    return folder


@pytest.fixture(scope="session")
def begun(program):
    """The making of two releases, which goes on while something else is done."""
    needs.command("dh", "dpkg-buildpackage", "git")
    with tempfile.TemporaryDirectory() as place, ThreadPoolExecutor(2) as them:
        Path(place).chmod(0o755)
        yield [them.submit(made, program, Path(place, "before"), "--as", BEFORE),
               them.submit(made, program, Path(place, "now"))]


@pytest.fixture(scope="session")
def releases(begun):
    """The folders of two releases: `before`, and `now`."""
    return SimpleNamespace(before=begun[0].result(), now=begun[1].result(), version=version())
