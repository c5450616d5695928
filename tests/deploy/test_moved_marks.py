"""What a move leaves beside others: who stops a desk meanwhile, a store or settings of before that come back, and a mark that is over."""
import contextlib
import os
import shutil
import sqlite3
import subprocess

import needs
import pytest
from moving import TABLES, Moves
from serving import expect, until


@pytest.fixture
def place(folder, program):
    needs.root()
    needs.command("flock")
    return Moves(folder, program)


@pytest.mark.parametrize("fails", ["", "start hq-desk@south"])
def test_stopped_meanwhile(place, fails):
    """Who stops a desk while a customer moves finds it stopped when both are done, over a boot too; desk-start starts it."""
    place.put(place.scripts / "slow-rows", (place.scripts / "move-customer").read_text())
    place.put(place.scripts / "move-customer", f'#!/bin/sh\n: >{place.place}/moves\n[ "$1" != --take ] || sleep 2\nexec "$(dirname "$0")/slow-rows" "$@"\n')
    if fails:
        (place.place / "fails").write_text(fails)
    words = 'set -e; (while [ ! -e "$0/moves" ]; do sleep 0.05; done; "$0/scripts/desk-stop" north) & "$@" && status=$? || status=$?; wait $!; exit $status'
    ended = place.move(script=["bash", "-c", words, place.place])
    (place.place / "fails").unlink(missing_ok=True)
    expect(bool(ended.returncode) == bool(fails), fails, "it ended with", ended)
    place.boot()
    running = sorted(it.name for it in (place.place / "runs").iterdir())
    expect("hq-desk@north" not in running and (place.place / "stopped/north").exists(), "both done,", running, "run", ended)
    if ended.returncode:
        place.move()
    expect(place.desk_start("north").returncode == 0, "desk-start", place.desk_start("north"))
    place.is_moved()


@pytest.mark.parametrize("step", ["asked", "copied"])
def test_a_store_that_comes_back_meanwhile(place, step):
    """South's store comes back from before within a half move: whoever was erased since is erased there, dale is whole in the end, and a
    desk that was stopped for it starts by desk-start alone."""
    place.batch((place.now, "POST", "/v1/line-put", "elmkey0000000001", {"class": "sender", "pattern": "b.example", "action": "HOLD"}), name="south")
    copied = shutil.copytree(place.stores, place.place / "copied")
    for it, header in (("erased", "name,moment"), ("desks", "customer,desk")):
        (copied / f"south.{it}.csv").write_text(f"{header}\n")
    (place.folder / "erased.csv").write_text("name,moment,erasure\nelm,2026-01-02T03:04:05Z,ab\n")
    (place.folder / ".customers.moving").write_text(f"dale north south {step}\n")
    for it in ("north", "south"):
        (place.place / f"stopped/{it}.moving").touch()
    (place.place / "stopped/south").touch()
    place.boot()
    ended = place.run("erase-again", "south", "--copy", copied)
    expect(ended.returncode == 0 and " rows of elm\n" in ended.stdout, step, "within a move erase-again ended with", ended)
    expect(place.desk_start("south").returncode == 1, step, "south starts with dale half moved")
    ended = place.move()
    expect(ended.returncode == 0 and "south stays stopped" in ended.stderr, step, "it ended with", ended)
    expect([it.name for it in (place.place / "runs").iterdir()] == ["hq-desk@north"], step, "south runs")
    expect(place.desk_start("south").returncode == 0, step, "desk-start")
    place.is_moved(step)
    # (both stores are of a moment at which neither had dale)
    for it in ("north", "south"):
        with contextlib.closing(sqlite3.connect(place.stores / f"{it}.db", isolation_level=None)) as store:
            for table in TABLES:
                store.execute(f"DELETE FROM {table} WHERE customer = 'dale'")
    (place.folder / ".customers.moving").write_text("dale north south copied\n")
    ended = place.move()
    expect("no store has records of dale" in ended.stderr, step, "nothing is told of what is lost:", ended)


def test_a_desk_that_is_put_back(place):
    """Until the restore of a desk is done nobody is moved from it or to it, or dropped: the worker would not send again what the copy lacks."""
    for name, mark in (("north", "restoring"), ("south", "restoring"), ("north", "fitting"), ("south", "fitting")):
        (place.place / f"stopped/{name}.{mark}").touch()
        for words in (("move", "dale", "--desk", "south"), *([("drop", "dale")] if name == "north" else [])):
            ended = place.run(*words)
            expect(ended.returncode == 1 and f"the store of {name} is being put back" in ended.stderr, name, mark, words, "ended with", ended)
        ended = place.run("compare")
        expect(ended.returncode == (mark == "restoring"), name, mark, "compare ended with", ended)
        (place.place / f"stopped/{name}.{mark}").unlink()
    expect(place.has("north") == place.before, "dale has", place.has("north"))
    # (a half move goes on once the store is back, since the restore waits for that before its desk starts)
    (place.folder / ".customers.moving").write_text("dale north south asked desks\n")
    for it in ("north.moving", "south.moving", "south.restoring"):
        (place.place / f"stopped/{it}").touch()
    ended = place.move()
    expect(ended.returncode == 1 and "the store of south is being put back" in ended.stderr, "it ended with", ended)
    (place.place / "stopped/south.restoring").rename(place.place / "stopped/south.fitting")
    ended = place.move()
    expect(ended.returncode == 0 and any(place.has("south").values()), "a half move is held up:", ended)


def test_killed_while_rows_go(place):
    """hq-customers is killed while rows are copied, which goes on: the same line waits for that, and ends the move."""
    place.put(place.scripts / "slow-rows", (place.scripts / "move-customer").read_text())
    place.put(place.scripts / "move-customer", f'#!/bin/sh\n: >{place.place}/moves\n[ "$1" != --copy ] || sleep 3\nexec "$(dirname "$0")/slow-rows" "$@"\n')
    killed = subprocess.Popen(place.words("move", "dale", "--desk", "south"), stderr=subprocess.DEVNULL,
                              env={**os.environ, "PATH": f"{place.bin}:{os.environ['PATH']}"})
    until((place.place / "moves").exists, "no rows go")
    killed.kill()
    killed.wait()
    ended = place.move()
    expect(ended.returncode == 0 and "it waits for who works at the store of north" in ended.stderr, "it ended with", ended)
    place.is_moved()


def test_a_mark_from_a_copy(place):
    """Settings of before a move come back, with the mark of that move while it was cut: no desk is stopped for it, so it is none, and what
    the second desk has by then stays."""
    kept = place.place / "settings"
    shutil.copytree(place.folder, kept)
    (kept / ".customers.moving").write_text("dale north south asked desks\n")
    place.move()
    place.is_moved()
    shutil.rmtree(place.folder)
    shutil.copytree(kept, place.folder)
    # (mail comes in for dale at its earlier desk)
    place.batch((place.now, "POST", "/v1/line-put", "dalekey000000001", {"class": "sender", "pattern": "c.example", "action": "HOLD"}))
    ended = place.move()
    expect(ended.returncode == 1 and "south has records of another dale" in ended.stderr and place.has("south") == place.before, "it ended with", ended)
    for it in ("north", "south"):
        expect(place.desk_start(it).returncode == 0, it, "does not start:", place.desk_start(it))
    expect("south has records of dale, who is at north" in place.run("compare").stderr, "compare tells", place.run("compare"))
    (place.place / "runs/hq-relay-deliver").touch()
    ended = place.run("move", "dale", "--desk", "south", "--same-firm")
    expect(ended.returncode == 1 and "`desk-stop relay` comes first" in ended.stderr and place.has("south") == place.before, "beside the worker:", ended)
    (place.place / "runs/hq-relay-deliver").unlink()
    # (north was started by its directory, as compare has told)
    (place.place / "starts").write_text("")
    expect(place.run("move", "dale", "--desk", "south", "--same-firm").returncode == 0, "it is not moved")
    place.is_moved()


def test_records_in_the_way(place):
    """Within a half move the second store has records that are no copy of the first one's: they are kept until somebody erases them there."""
    place.batch((place.now, "POST", "/v1/line-put", "elmkey0000000001", {"class": "sender", "pattern": "b.example", "action": "HOLD"}), name="south")
    with contextlib.closing(sqlite3.connect(place.stores / "south.db", isolation_level=None)) as store:
        store.execute("UPDATE lines SET customer = 'dale' WHERE customer = 'elm'")
    (place.folder / ".customers.moving").write_text("dale north south asked desks\n")
    for it in ("north", "south"):
        (place.place / f"stopped/{it}.moving").touch()
    place.boot()
    ended = place.move()
    expect(ended.returncode == 1 and "has records of dale that the other store has not" in ended.stderr, "it ended with", ended)
    expect(place.has("north") == place.before and len(place.has("south")["lines"]) == 1, "something is gone")
    expect(place.run("erase", "dale").returncode == 1, "all of it may be erased")
    expect(place.run("erase", "dale", "--desk", "south").returncode == 0, "it stays in the way")
    expect(place.move().returncode == 0, "it does not go on")
    place.is_moved()


def test_cut_behind_the_last_step(place):
    """The mark is all that is left of a move: typed again, it starts both desks, and takes the mark away."""
    place.move()
    place.is_moved()
    (place.folder / ".customers.moving").write_text("dale north south copied desks\n")
    (place.place / "runs/hq-desk@south").unlink()
    ended = place.move()
    expect((ended.returncode, ended.stdout) == (0, "dale is at south already\n"), "it ended with", ended)
    place.is_moved()


def test_older_records_come_back(place):
    """South's store comes back within a half move from a time when dale was there: what dale has at north by now is what counts, also where
    it was copied before. Where dale is south's own, what south has counts."""
    copied = shutil.copytree(place.stores, place.place / "copied")
    with contextlib.closing(sqlite3.connect(copied / "south.db", isolation_level=None)) as store:
        store.execute("ATTACH ? AS north", (str(copied / "north.db"),))
        for table in TABLES:
            store.execute(f"INSERT INTO {table} SELECT * FROM north.{table} WHERE customer = 'dale'")
    for it, header in (("erased", "name,moment"), ("desks", "customer,desk")):
        (copied / f"south.{it}.csv").write_text(f"{header}\n")
    place.batch((place.now, "POST", "/v1/line-put", "dalekey000000001", {"class": "sender", "pattern": "new.example", "action": "HOLD"}))
    place.before = place.has("north")
    kept = place.kept()
    for step in ("asked", "copied", "own"):
        shutil.copy(copied / "south.db", place.stores)
        older = place.has("south")
        (place.folder / ".customers.moving").write_text(f"dale north south {step} desks\n")
        for it in ("north", "south"):
            (place.place / f"stopped/{it}.moving").touch()
        place.boot()
        ended = place.run("erase-again", "south", "--copy", copied)
        expect(ended.returncode == 0 and (" rows of dale\n" in ended.stdout) == (step != "own"), step, "erase-again ended with", ended)
        ended = place.move()
        expect(ended.returncode == 0, step, "it ended with", ended)
        expect(place.has("south") == (older if step == "own" else place.before), step, "dale has", place.has("south"))
        place.again(kept)


def test_written_down(place):
    """When somebody moved stands there before anything goes by the files: a fault behind that keeps no copy of before from being refused."""
    (place.place / "fails").write_text("reload nginx")
    (place.place / "runs/nginx").touch()
    ended = place.move()
    expect(ended.returncode == 1 and "dale is at south now, and not all of it runs" in ended.stderr, "it ended with", ended)
    (place.place / "runs/nginx").unlink()
    expect((place.folder / "moved.csv").read_text().splitlines()[1].startswith("dale,20"), "it is not written down")


def test_a_stop_of_a_desk_that_is_gone(place):
    """A desk that was stopped, and is gone for good, keeps no new one of its name from a start."""
    (place.place / "stopped/south").touch()
    for it in ("south.env", "south.csv"):
        (place.folder / it).unlink()
    ended = place.run("drop-desk", "south")
    expect(ended.returncode == 0 and not (place.place / "stopped/south").exists(), "it ended with", ended)
