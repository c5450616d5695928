"""What all tests share: the programs that were built, and a line at the end that says how many passed."""
import contextlib
import signal
import sys
import tempfile
from pathlib import Path

import pytest

sys.dont_write_bytecode = True
# A shell that starts tests in the background has them ignore Ctrl-C, and so all that they start. (Only a main thread may change that.)
with contextlib.suppress(ValueError):
    signal.signal(signal.SIGINT, signal.default_int_handler)
CRATES = Path(__file__).resolve().parent.parent / "crates"
# Each program that tests run, where it was built, and what it is.
PROGRAMS = {"program": ("hq_main/out/hq_main", "the desk")}


def pytest_addoption(parser):
    for name, (path, what) in PROGRAMS.items():
        parser.addoption(f"--{name}", metavar="FILE", default=str(CRATES / path), help=f"{what} (crates/{path})")


def built(request, name):
    path = Path(request.config.getoption(name)).absolute()
    if not path.exists():
        pytest.fail(f"{path} is not built: tools/build {path.parts[-3]}", pytrace=False)
    return str(path)


@pytest.fixture(scope="session")
def program(request):
    """The desk."""
    return built(request, "--program")


@pytest.fixture
def folder():
    """A folder of the test's own, which processes of other users may enter."""
    with tempfile.TemporaryDirectory() as made:
        Path(made).chmod(0o755)
        yield Path(made)


@pytest.fixture(scope="session")
def library():
    """A library that has one call of a program fail; without a C compiler the test is skipped."""
    import needs
    from interposed import library_in
    needs.command("cc")
    with tempfile.TemporaryDirectory() as made:
        yield library_in(made)
