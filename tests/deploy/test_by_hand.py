"""A customer whose row an administrator takes out by hand, or whose desk goes with its files, locks nobody: hq-customers goes on for all
others, and erases that one."""
import re
import subprocess

import needs
import pytest
from customers_place import ACME, Place
from moving import Moves
from serving import LONGEST, expect

BIRCH = ACME.replace("acme", "birch")


@pytest.fixture
def place(folder, program):
    """North has acme, and south birch, with a domain and a login; the worker has read its tables."""
    it = Place(folder, program)
    it.desk("south", 826, BIRCH)
    it.done("set", "birch", "--domain", "b.example", "--login", "bea")
    it.done("add", "dale", "--desk", "north", "--domain", "d.example")
    return it


def taken_out(place, how):
    if how == "a row":
        path = place.folder / "north.csv"
        path.write_text("".join(it for it in path.read_text().splitlines(keepends=True) if not it.startswith("dale,")))
        return "dale", "dale is in no directory, so the domain d.example is not its any more\n"
    for it in ("env", "key", "csv"):
        (place.folder / f"south.{it}").unlink()
    return "birch", ("birch is in no directory, so the domain b.example is not its any more\n"
                     "birch is in no directory, so the login bea is not its any more\n")


@pytest.mark.parametrize("how", ["a row", "a desk"])
@pytest.mark.parametrize("first", [("set", "acme", "--messages", "900"), ("key", "acme"), "erase"])
def test_by_hand(place, how, first):
    """Whatever comes first is done, and tells which logins and domains go; then the name is erased, and free."""
    name, told = taken_out(place, how)
    for at, words in enumerate(([*first] if first != "erase" else ["erase", name], ["key", "acme"], ["erase", name])):
        ended = place.run("--store", place.folder, *words)
        expect((ended.returncode, ended.stderr) == (0, "" if at else told), words, "ended with", ended)
        expect(place.rows("relay.csv").keys() == {"acme", "birch", "dale"} - {name}, "the worker knows", place.rows("relay.csv"))
        expect(f",{name},".encode() not in place.files()["senders.csv"], "its senders stay", place.files()["senders.csv"])
    place.done("add", name, "--desk", "north")


def test_settings_that_are_away(place):
    """Settings of a desk whose store is there may be away for a moment: nothing changes until they are back, or the desk is dropped."""
    (place.folder / "south.db").write_text("a store")
    (place.folder / "south.env").rename(place.folder / "aside")
    before = place.files()
    for words in (("set", "acme", "--messages", "900"), ("key", "acme"), ("add", "elm", "--desk", "north"), ("erase", "birch"), ("drop", "dale")):
        ended = place.run("--store", place.folder, *words)
        expect(ended.returncode == 1 and f"{place.folder}/south.env is missing, {place.folder}/south.db is there" in ended.stderr
               and "`hq-customers drop-desk south`" in ended.stderr and place.files() == before, words, "ended with", ended)
    expect("birch by hand" in place.done("--store", place.folder, "list"), "they are not listed")
    # (it may be at another machine, and desk-maps may have been given that file)
    ended = place.run("--store", place.folder, "drop-desk", "south")
    expect(ended.returncode == 1 and "south.csv is there" in ended.stderr and place.files() == before, "a directory that is there:", ended)
    (place.folder / "aside").rename(place.folder / "south.env")
    ended = place.run("--store", place.folder, "drop-desk", "south")
    expect(ended.returncode == 1 and "south.env is there" in ended.stderr, "a desk that is there:", ended)
    place.done("--store", place.folder, "set", "acme", "--messages", "900")
    expect("domain b.example, login bea" in place.done("list"), "birch has lost what it had:", place.done("list"))


def test_a_desk_that_is_gone(place):
    """A desk that is gone for good is dropped by name; then everything goes on, and its customers are erased like others."""
    (place.folder / "south.db").write_text("a store")
    place.systemctl('[ "$1" = disable ] || exit 3')
    name, told = taken_out(place, "a desk")
    ended = place.run("--store", place.folder, "drop-desk", "south", "west")
    expect(ended.returncode == 1 and "no customer is at a desk west" in ended.stderr, "another one:", ended)
    ended = place.run("--store", place.folder, "drop-desk", "south")
    expect((ended.returncode, ended.stderr) == (0, told), "it ended with", ended)
    # (it may run by the files that it read at its start)
    expect("disable --now hq-desk@south.service hq-desk-retain@south.timer hq-desk-check@south.timer" in (place.bin / "called").read_text(),
           "it runs on")
    place.done("--store", place.folder, "set", "acme", "--messages", "900")
    (place.folder / "south.db").unlink()
    place.done("--store", place.folder, "erase", name)


def test_a_gone_desk_that_runs(place):
    """It ends before anything is written; where that fails nothing changes, and a desk that still runs by then is ended by the same line."""
    (place.folder / "south.db").write_text("a store")
    place.systemctl('case $1 in disable) echo "no such unit" >&2; exit 1 ;; esac; exit 3')
    for it in ("south.env", "south.key", "south.csv"):
        (place.folder / it).unlink()
    before = place.files()
    ended = place.run("--store", place.folder, "drop-desk", "south")
    expect(ended.returncode == 1 and "nothing was changed, and a desk may still run" in ended.stderr and place.files() == before, "it ended with", ended)
    place.systemctl('case $1 in disable) exit 0 ;; esac; exit 3')
    expect(place.run("--store", place.folder, "drop-desk", "south").returncode == 0, "it is not dropped")
    # (files of before a cut have no customer of it any more)
    place.systemctl('case "$*" in *"is-active --quiet hq-desk@south"*|disable*) exit 0 ;; esac; exit 3')
    expect(place.run("--store", place.folder, "drop-desk", "south").returncode == 0, "a desk that runs is not ended")
    place.systemctl("exit 3")
    expect("no customer is at a desk south" in place.run("--store", place.folder, "drop-desk", "south").stderr, "one that does not run")


@pytest.mark.parametrize("step", ["asked", "copied"])
def test_a_row_of_who_is_half_moved(folder, program, step):
    """Somebody takes the row of who is half moved out of the first directory by hand: the line that is printed ends the move. Its records
    are whole in the second store, both desks run, and it counts as dropped, so that it can be erased."""
    needs.root()
    needs.command("flock")
    place = Moves(folder, program)
    place.done("set", "dale", "--domain", "d.example")
    stores, directory = [place.stores / f"{it}.db" for it in ("north", "south")], place.folder / "north.csv"
    if step == "copied":
        subprocess.run([place.scripts / "move-customer", "--copy", *stores, "dale"], check=True, stdout=subprocess.DEVNULL, timeout=LONGEST)
    (place.folder / ".customers.moving").write_text(f"dale north south {step} desks\n")
    for it in ("north", "south"):
        (place.place / f"stopped/{it}.moving").touch()
    place.boot()
    directory.write_text("".join(it for it in directory.read_text().splitlines(keepends=True) if not it.startswith("dale,")))
    told = place.run("set", "dale", "--messages", "9").stderr
    ended = place.run(*re.search(r"type `hq-customers (.*?)` again", told)[1].split())
    wanted = 0, "dale is at south now\n", "dale is in no directory, so the domain d.example is not its any more\n"
    expect((ended.returncode, ended.stdout, ended.stderr) == wanted, "it ended with", ended)
    expect(place.has("south") == place.before and not any(place.has("north").values()), "records are lost:", place.has("south"))
    running = sorted(it.name for it in (place.place / "runs").iterdir())
    left = [*(place.place / "stopped").iterdir(), *place.folder.glob(".customers.moving*")]
    expect(running == ["hq-desk@north", "hq-desk@south"] and not left, "there run", running, "and there is", left)
    expect("dale by hand: dropped on" in place.done("list"), "it is not dropped:", place.done("list"))
    place.done("erase", "dale")
    expect(not any(place.has("south").values()), "it is not erased:", place.has("south"))


def test_gone_within_a_move(place):
    """A desk to which somebody is half moved is not dropped, and the move goes on once its settings are there again."""
    (place.folder / ".customers.moving").write_text("dale north south copied\n")
    (place.folder / "south.env").rename(place.folder / "aside")
    for words in (("drop-desk", "south"), ("move", "dale", "--desk", "south")):
        ended = place.run("--store", place.folder, *words)
        expect(ended.returncode == 1 and f"again, once {place.folder}/south.env is there again" in ended.stderr, words, "ended with", ended)


def test_a_desk_that_is_back(place):
    """A desk that was dropped by name and is there again has its customers again: nobody is told of as dropped."""
    away = place.folder.parent / "away"
    away.mkdir()
    for it in ("south.env", "south.key", "south.csv"):
        (place.folder / it).rename(away / it)
    place.systemctl('[ "$1" = disable ] || exit 3')
    ended = place.run("drop-desk", "south")
    expect(ended.returncode == 0 and "dropped on" in place.done("list"), "it ended with", ended)
    for it in away.iterdir():
        it.rename(place.folder / it.name)
    place.done("set", "acme", "--messages", "901")
    expect("dropped on" not in place.done("list"), "it tells", place.done("list"))


def test_a_desk_without_a_row(place):
    """A directory that has its header alone keeps nobody from the others; once it has somebody, that file is named where it is refused."""
    place.desk("west", 827, "")
    place.done("add", "elm", "--desk", "north")
    place.done("add", "fir", "--desk", "west")
    (place.folder / "west.csv").write_text((place.folder / "west.csv").read_text().replace("fir,", "FIR,"))
    before = place.files()
    ended = place.run("add", "oak", "--desk", "north")
    expect(ended.returncode == 1 and f"{place.folder}/west.csv: hq refuses it" in ended.stderr and place.files() == before, "it tells", ended)


@pytest.mark.parametrize("name", ["s.outh", "söuth", "-south", "s" * 65, "events"])
def test_names_of_desks(place, name):
    """A desk's name is part of those of files, units and metrics: another one is refused, and nothing changes."""
    for end in ("env", "key", "csv"):
        (place.folder / f"south.{end}").rename(place.folder / f"{name}.{end}")
    before = place.files()
    ended = place.run("key", "acme")
    expect(ended.returncode == 1 and name in ended.stderr and place.files() == before, "it ended with", ended)


def test_erased_while_the_worker_knows_it(place):
    """The worker has tables without it before it is asked to erase it."""
    (place.bin / "hq-relay").unlink()
    (place.bin / "hq-relay").write_text(f'#!/bin/sh\n[ "$2" != erase ] || {{ grep "^$3," {place.folder}/relay.csv >&2 && exit 1; echo "$3: nothing"; }}\n')
    (place.bin / "hq-relay").chmod(0o755)
    name, _ = taken_out(place, "a desk")
    place.systemctl("exit 0")
    ended = place.run("--store", place.folder, "erase", name)
    expect(ended.returncode == 0 and "the worker: birch: nothing" in ended.stdout, "it ended with", ended)
    called = (place.bin / "called").read_text()
    expect("reload hq-relay-intake" in called and "reload hq-relay-deliver" in called, "called is", called)
