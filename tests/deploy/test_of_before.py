"""Settings that are older than the copy of a store, and customers whose records are given up: nobody reads what another firm of its name had.

The stores are those of the program.
"""
import re
import shutil
import time

import pytest
from serving import expect
from test_copies import with_lists
from test_erased import DAY, EMPTY, Stores


@pytest.fixture
def place(folder, program):
    return Stores(folder, program)


def test_a_name_of_before(place):
    """By settings of before an erasure the earlier firm has a name again. A copy in which that name is the next firm's is refused, and the
    lines that are printed keep the earlier one from what it has."""
    now = int(time.time())
    place.filled("acme", now - DAY)
    place.filled("birch", now - DAY)
    settings = shutil.copytree(place.folder, place.folder.parent / "settings")
    place.done("drop", "birch", "--queued")
    place.done("erase", "birch")
    key = place.done("add", "birch", "--history", "1000", "--notices", "100").strip()
    place.filled_as("birch", key, now)
    behind = with_lists(place, place.copy("behind"))
    shutil.rmtree(place.folder)
    shutil.copytree(settings, place.folder)
    ended = place.run("erase-again", "north", "--copy", behind)
    expect(ended.returncode == 1 and "it does not know that birch was erased" in ended.stderr, "it ended with", ended)
    expect(place.told("birchkey00000001", now)[4] != EMPTY[-1], "the earlier firm is told nothing anyway")
    typed(place, ended.stderr)
    place.put_back(behind)
    expect(" rows of birch\n" in place.done("erase-again", "north", "--copy", behind), "the copy keeps what the next firm had")
    key = place.done("add", "birch", "--history", "1000", "--notices", "100").strip()
    expect(place.told(key, now)[1:] == EMPTY, "the one that comes next is told", place.told(key, now))


def typed(place, told):
    """Does the lines of a refusal as they stand."""
    for line in re.search("`(.*)`", told)[1].split(" && "):
        place.done(*line.split()[1:])


def test_a_dropped_name_of_before(place):
    """So it is where the earlier firm was dropped by these settings: the lines name what is left to do, and no more."""
    now = int(time.time())
    place.filled("birch", now)
    copied = with_lists(place, place.copy("copied"))
    (copied / "north.erased.csv").write_text("name,moment,erasure\nbirch,2026-01-02T03:04:05Z,ab\n")
    place.done("drop", "birch", "--queued")
    ended = place.run("erase-again", "north", "--copy", copied)
    expect(ended.returncode == 1 and "`hq-customers erase birch` ends" in ended.stderr, "it ended with", ended)
    typed(place, ended.stderr)
    place.put_back(copied)
    expect(" rows of birch\n" in place.done("erase-again", "north", "--copy", copied), "the copy keeps what the next firm had")


def test_settings_of_before_a_move(place):
    """By settings of before a move its customer is at the first desk again, whose later copy has nothing of it: that there is no later copy, but
    later settings, is told."""
    copied = with_lists(place, place.copy("copied"))
    (copied / "north.desks.csv").write_text("customer,desk\nacme,north\nbirch,south\n")
    ended = place.run("erase-again", "north", "--copy", copied)
    expect(ended.returncode == 1 and f"or {place.folder} is of before they left" in ended.stderr and "--without birch" in ended.stderr, "it ended with", ended)


def test_given_up(place):
    """The records of a customer that are given up are in the store no more, as where the desk cannot read them; others keep theirs."""
    now = int(time.time())
    place.filled("acme", now)
    place.filled("birch", now)
    wanted = place.told("acmekey000000001", now)
    copied = with_lists(place, place.copy("copied"))
    # (who is at another desk has nothing here that is given up)
    ended = place.run("erase-again", "north", "--copy", copied, "--without", "birch", "--without", "dale")
    expect(ended.returncode == 0 and " rows of birch\n" in ended.stdout, "it ended with", ended)
    expect(place.told("birchkey00000001", now)[1:] == EMPTY and place.told("acmekey000000001", now) == wanted, "there are others")
    place.put_back(copied)
    for it in copied.glob("*.csv"):
        (place.stores / it.name).unlink()
    ended = place.run("erase-again", "north", "--copied", time.strftime("%Y-%m-%dT%H:%M:%SZ", time.gmtime(now)), "--without", "birch")
    expect(ended.returncode == 0 and " rows of birch\n" in ended.stdout, "by a moment it ended with", ended)
