"""The relay's key, of which the worker has one for all desks: hq-customers gives a customer to no desk that has another one."""
import pytest
from customers_place import Place
from serving import RELAY, expect

CEDAR = "cedar,cedarkey00000001,1000,500000000,1000,1000,14400\n"


@pytest.fixture
def place(folder, program):
    """Two desks, of which the second was set up by the lines for the first."""
    it = Place(folder, program)
    it.desk("south", 826, CEDAR)
    (it.folder / "south.key").write_text("anotherkey000000001\n")
    return it


@pytest.mark.parametrize("words", [("add", "birch", "--desk", "south"), ("--files", "move", "acme", "--desk", "south")])
def test_refused(place, words):
    """Nobody comes to a desk that would refuse the worker; the line that is told mends it."""
    before = place.files()
    told = place.run(*words)
    expect(told.returncode == 1 and f"cat {place.folder}/relay.key >{place.folder}/south.key" in told.stderr, words, "ended with", told)
    expect(place.files() == before and RELAY not in told.stderr, words, "changed something, or shows the key", told.stderr)
    place.done("add", "elm", "--desk", "north")
    (place.folder / "south.key").write_bytes((place.folder / "relay.key").read_bytes())
    expect("another key" not in place.run(*words).stderr, words, "is still refused")


def test_without_a_worker(place):
    """Where no worker is set up beside the desks, each may have its own key."""
    (place.folder / "relay.key").unlink()
    (place.folder / "relay.ini").unlink()
    place.done("add", "birch", "--desk", "south")
