"""What `hq-restore` goes by: the lists beside a copy, whatever moment is typed; settings that are older than a copy, which it refuses; and a
further copy in the place of one by which a desk has started, and to which the worker's book cannot be fitted.

Stores are files of text, as in test_restore.py.
"""
import shutil
import subprocess

import pytest
from deploying import DEPLOY
from serving import LONGEST, expect, listens
from test_restore import STORE, Place

COPIED = "2026-01-02T03:04:05Z"


@pytest.fixture
def place(folder):
    return Place(folder)



@pytest.mark.parametrize("word", ["--help", "--wrong"])
def test_words(word):
    """It shows its words, and refuses others."""
    ended = subprocess.run([DEPLOY / "hq-restore", word], capture_output=True, text=True, timeout=LONGEST, stdin=subprocess.DEVNULL)
    told = f"{ended.stdout}{ended.stderr}"
    expect(ended.returncode == (0 if word == "--help" else 2) and "date -u +%FT%TZ" in told and "Traceback" not in told, "it ended with", ended)


def test_lists_decide(place):
    """Lists that are beside a copy decide who is erased; a moment that is typed too is the worker's alone. One list of two is not enough."""
    place.steps()
    ended = place.run("hq-restore", "north", "--backup", place.backup, "--aside", place.folder / "aside", "--copied", COPIED)
    steps = place.steps()
    expect(ended.returncode == 0 and f"hq-customers erase-again north --copy {place.backup}" in steps, "it ended with", ended, steps)
    expect(any(it.endswith(f"restored north --copied {COPIED}") for it in steps), "the steps are", steps)
    (place.backup / "north.desks.csv").unlink()
    for more in ((), ("--copied", COPIED)):
        ended = place.run("hq-restore", "north", "--backup", place.backup, "--aside", place.folder / "second", *more)
        expect(ended.returncode == 1 and "north.desks.csv is missing" in ended.stderr and not place.marks(), more, "ended with", ended)


def test_settings_of_before(place):
    """Settings that do not know of an erasure which the copy has been through are refused: by them an earlier firm has the name."""
    (place.backup / "north.erased.csv").write_text(f"name,moment,erasure\nacme,{COPIED},ab\noak,{COPIED},cd\n")
    ended = place.restore()
    expect(ended.returncode == 1 and "is of before this copy of north" in ended.stderr and "that acme was erased" in ended.stderr
           and "hq-customers drop acme --queued && hq-customers erase acme" in ended.stderr, "it ended with", ended)
    expect(place.store().read_text() == f"{STORE} of now" and not place.marks(), "something was changed", place.marks())
    for row, status in (("acme,2026-01-01T03:04:05Z,of before", 1), (f"acme,{COPIED},ab", 0), ("acme,2026-01-03T03:04:05Z,of later", 0)):
        (place.folder / "erased.csv").write_text(f"name,moment,erasure\n{row}\n")
        ended = place.restore(aside=f"aside of {row.rpartition(',')[2]}")
        expect(ended.returncode == status, row, "ended with", ended)


def test_another_one_behind_a_start(place):
    """Where the book cannot be fitted to a copy by which the desk has started, a further copy takes its place, with what was there by then in
    another folder aside."""
    (place.folder / "fails").write_text("restored")
    place.restore()
    place.store().write_text(f"{STORE} of its customers")
    (place.folder / "fails").unlink()
    shutil.copytree(place.backup, place.folder / "earlier")
    ended = place.run("hq-restore", "north", "--backup", place.folder / "earlier", "--aside", place.folder / "aside")
    expect(ended.returncode == 1 and "aside is there already" in ended.stderr, "without a new folder", ended)
    ended = place.run("hq-restore", "north", "--backup", place.folder / "earlier", "--aside", place.folder / "second")
    expect(ended.returncode == 0, "it ended with", ended)
    place.is_done("by another copy")
    expect(f"{STORE} of its customers".encode() in (place.folder / "second/north.tar").read_bytes(), "what was there is in no copy")


def test_called_off_behind_a_start(place):
    """Where nothing can be copied aside for that, the desk runs on, and the earlier copy is the one that the book is still to be fitted to."""
    (place.folder / "fails").write_text("restored")
    place.run("hq-restore", "north", "--backup", place.backup, "--aside", place.folder / "aside", "--copied", COPIED)
    (place.folder / "fails").write_text("desk-backup --any")
    ended = place.restore(aside="second")
    expect(ended.returncode == 1 and "type `hq-restore` without words" in ended.stderr, "it ended with", ended)
    expect(listens(place.addresses["north"]) and {"north.fitting", "relay"} <= {*place.marks()}, "there are", place.marks())
    expect("north.restoring" not in place.marks() and place.store().read_text() == STORE, "a store was put back")
    (place.folder / "fails").unlink()
    place.steps()
    ended = place.run("hq-restore")
    expect(ended.returncode == 0 and any(it.endswith(f"restored north --copied {COPIED}") for it in place.steps()), "it ended with", ended)
    place.is_done("in the end")
