"""Two desks behind nginx, for the tests of a file."""
import tempfile
from pathlib import Path

import needs
import pytest
from deploying import OTHERS, ROWS, SESSIONS, Desk, Proxy


@pytest.fixture(scope="module")
def place():
    """A folder for what all tests of a file share. (nginx reads the page as nobody.)"""
    with tempfile.TemporaryDirectory() as made:
        Path(made).chmod(0o755)
        yield Path(made)


@pytest.fixture(scope="module")
def north(program, place):
    with Desk(place, program, "north", ROWS) as it:
        yield it


@pytest.fixture(scope="module")
def south(program, place):
    with Desk(place, program, "south", OTHERS) as it:
        yield it


@pytest.fixture(scope="module")
def proxy(place, north, south):
    needs.command("nginx", "openssl")
    with Proxy(place / "proxy", [north, south], sessions=SESSIONS) as it:
        yield it
