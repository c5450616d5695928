"""The move of a customer to another desk by `hq-customers move`: cut or failing at any step, the same command ends it, and nothing is lost."""
import os
import shutil
import signal
import subprocess
import sys

import needs
import pytest
from customers_place import STOPPED
from moving import Moves
from serving import LONGEST, expect


@pytest.fixture
def place(folder, program):
    needs.root()
    needs.command("flock")
    return Moves(folder, program)


def test_moved(place):
    """A customer is served whole at its new desk, with its named keys; typed again the command says that this is so."""
    place.done("set", "dale", "--domain", "d.example")
    place.done("add-key", "dale", "panel")
    before = place.told("north")
    ended = place.move()
    expect((ended.returncode, ended.stdout, ended.stderr) == (0, "dale is at south now\n", ""), "it ended with", ended)
    place.is_moved()
    expect(place.told("south") == before, "dale is told something else", place.told("south"))
    expect("dale south: " in place.done("list") and "domain d.example, key panel all" in place.done("list"), place.done("list"))
    expect("KEYS=" in (place.folder / "south.env").read_text() and "KEYS=" not in (place.folder / "north.env").read_text(), "the keys")
    called = (place.place / "called").read_text()
    ended = place.move()
    expect((ended.returncode, ended.stdout) == (0, "dale is at south already\n"), "again it ended with", ended)
    expect((place.place / "called").read_text() == called, "something was stopped")


def test_an_old_mark(place):
    """Settings come back from a copy of within the move, with its mark: typed again as they say, it ends, and destroys nothing."""
    kept = place.place / "settings"
    place.run("move", "dale", "--desk", "south", script=())
    place.is_moved()
    shutil.copytree(place.folder, kept)
    (kept / ".customers.moving").write_text("dale north south asked\n")
    shutil.rmtree(place.folder)
    shutil.copytree(kept, place.folder)
    ended = place.move()
    expect((ended.returncode, ended.stdout) == (0, "dale is at south now\n"), "it ended with", ended)
    place.is_moved()


def test_refused(place):
    """What is known to fail changes nothing, and stops no desk."""
    before = place.files()
    place.filled_as("acme", "acmekey000000001", place.now)
    place.batch((place.now, "POST", "/v1/line-put", "elmkey0000000001", {"class": "sender", "pattern": "b.example", "action": "HOLD"}), name="south")
    for words, why in ((("elm", "--desk", "north"), "elm is the last customer of south"), (("nobody", "--desk", "south"), "no customer nobody"),
                       (("dale", "--desk", "west"), "--desk has to be one of: north, south")):
        ended = place.run("move", *words)
        expect(ended.returncode == 1 and why in ended.stderr and place.files() == before, words, "ended with", ended)
    (place.place / "stopped/south").touch()
    expect("south is kept stopped" in place.move().stderr, "a desk that is kept stopped:", place.move())
    (place.place / "stopped/south").unlink()
    shutil.copytree(place.stores, place.place / "aside")
    (place.stores / "south.db").unlink()
    expect("south has no store" in place.move().stderr and place.files() == before, "without a store:", place.move())
    shutil.copy(place.place / "aside/north.db", place.stores / "south.db")
    expect("south has records of another dale" in place.move().stderr and place.files() == before, "with another:", place.move())
    expect("stop hq-desk" not in (place.place / "called").read_text(), "a desk was stopped")


FAILS = ("stop hq-desk@north", "stop hq-desk@south", "reload", "start hq-desk@north", "start hq-desk@south")


@pytest.mark.parametrize("fails", FAILS)
def test_a_step_fails(place, fails):
    """Where a step fails, that is told with what to type; the customer is served nowhere or whole, and the same command ends it."""
    (place.place / "fails").write_text(fails)
    for it in ("nginx", "hq-desk-workers"):
        (place.place / "runs" / it).touch()
    ended = place.move()
    expect(ended.returncode == 1 and "no such thing" in ended.stderr and "Traceback" not in ended.stderr, fails, "ended with", ended)
    place.is_sound(fails)
    (place.place / "fails").unlink()
    for it in ("nginx", "hq-desk-workers"):
        (place.place / "runs" / it).unlink()
    place.is_cut(fails)


@pytest.mark.parametrize("name", ["hq", "desk-maps", "hq-relay"])
def test_files_refused(place, name):
    """Files that are refused behind the move of the rows leave both desks stopped, and before it nothing is done."""
    where = place.scripts if name == "desk-maps" else place.bin
    good = place.place / name
    shutil.move(where / name, good)
    before = place.files()
    place.put(where / name, "#!/bin/sh\nexit 1\n")
    expect(place.move().returncode == 1 and place.files() == before and "stop hq-desk" not in (place.place / "called").read_text(), "before")
    # (it refuses once desks are stopped)
    place.put(where / name, f'#!/bin/sh\n[ ! -e {place.place}/stopped/north.moving ] || exit 1\nexec {good} "$@"\n')
    if name == "hq":
        place.put(where / name, f'#!/bin/sh\n[ "$1" != check ] || [ ! -e {place.place}/stopped/north.moving ] || exit 1\nexec {good} "$@"\n')
    if name == "desk-maps":
        shutil.copy(good, place.scripts / "good-maps")
        place.put(where / name, f'#!/bin/sh\n[ ! -e {place.place}/stopped/north.moving ] || exit 1\nexec {place.scripts}/good-maps "$@"\n')
    ended = place.move()
    expect(ended.returncode == 1 and "stay stopped until then" in ended.stderr, "behind it ended with", ended)
    place.boot()
    expect(not [*(place.place / "runs").iterdir()], "a desk starts")
    (where / name).unlink()
    shutil.move(good, where / name)
    place.is_cut(name)


@pytest.mark.parametrize("how", ["fault", "kill"])
def test_in_the_stores(place, how):
    """Each statement of each store fails, or is the last that is done: in the end dale is whole at south, nothing lost or doubled."""
    kept, number, is_over = place.kept(), 0, False
    while not is_over:
        number += 3
        (place.place / "left").write_text(f"{how} {number}")
        ended = place.move()
        is_over = ended.returncode == 0
        expect("Traceback" not in ended.stderr, how, number, ended)
        if how == "fault" and "stays at north" in ended.stderr:
            expect(place.has("north") == place.before and len([*(place.place / "runs").iterdir()]) == 2, number, "is not called off:", ended)
        (place.place / "left").unlink()
        place.is_cut(how, number)
        place.again(kept)
    expect(number > 60, "there were only", number, "statements")


def test_killed(place):
    """A kill at calls that change a folder, or sync: at a few before the mark of the move, and at each second one behind it."""
    kept, number, step, is_over, found = place.kept(), 0, 8, False, 0
    while not is_over:
        number += step
        ended = place.move(script=[sys.executable, "-c", STOPPED, str(number)])
        is_over = ended.returncode == 0
        if not is_over:
            expect(ended.returncode == 9, "at", number, "it ended with", ended)
        if (place.folder / ".customers.moving").exists():
            number, step, found = number - (step == 8) * 7, 2, found + 1
        place.is_cut("killed at", number)
        place.again(kept)
    expect(found > 10, "there were only", found, "calls behind the mark")


def test_a_terminal_that_is_closed(place):
    """Whoever closes the terminal in the middle does not keep the move from being ended."""
    ended = place.move(script=["sh", "-c", f'"$@" & while [ ! -e {place.place}/stopped/south.moving ]; do sleep 0.01; done; '
                                            "kill -HUP $! && kill -INT $! && kill -TERM $! && wait $!", "sh"])
    expect(ended.returncode == -signal.SIGHUP or ended.returncode == 0, "it ended with", ended)
    place.is_moved()


def test_asked_meanwhile(place):
    """hq-ask works at no store of a desk between which and another one a customer is half moved."""
    (place.folder / ".customers.moving").write_text("dale north south copied\n")
    words = [place.scripts / "hq-ask", "--folder", place.folder, "--store", place.stores, "--user", "root", "delete", "dale", "ALL"]
    told = subprocess.run(words, capture_output=True, text=True, timeout=LONGEST, env={**os.environ, "PATH": f"{place.bin}:{os.environ['PATH']}"})
    expect(told.returncode == 1 and "type `hq-customers move dale --desk south` again" in told.stderr, "it ended with", told)
    expect(place.has("north") == place.before, "something was deleted")
