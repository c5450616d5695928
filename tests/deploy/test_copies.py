"""What `hq-customers` does with a store that came back from a copy, or with settings that did: whoever was erased since is erased again,
and records at a desk that is not the customer's are told, with the ways out.

The stores are those of the program.
"""
import contextlib
import os
import re
import shutil
import sqlite3
import subprocess
import time

import pytest
from deploying import DEPLOY
from serving import LONGEST, expect
from test_erased import DAY, EMPTY, WITH_HISTORY, Stores


@pytest.fixture
def place(folder, program):
    return Stores(folder, program)


def text_of(moment):
    return time.strftime("%Y-%m-%dT%H:%M:%SZ", time.gmtime(moment))


def test_restored(place):
    """In a store of before a moment, whoever was erased since is erased again, and nobody else; what a new firm of the name has stays in one
    of behind. Lines have no moment, and go too, whatever times files have."""
    now = int(time.time())
    wanted = place.told(place.filled("acme", now - DAY), now)
    place.filled("birch", now - DAY)
    place.batch((now, "POST", "/v1/line-put", "birchkey00000001", {"class": "sender", "pattern": "p.example", "action": "HOLD"}))
    before = place.copy("before")
    place.done("drop", "birch", "--queued")
    place.done("erase", "birch")
    moment, = [it[1] for it in place.table("erased.csv") if it[0] == "birch"]
    expect(moment.startswith("20") and moment.endswith("Z"), "erased was at", moment)
    key = place.done("add", "birch", "--history", "1000", "--notices", "100").strip()
    place.put_back(before)
    expect('"history":[{' in place.told(key, now)[4], "the copy has nothing of the earlier one")
    place.put_back(before)
    expect(" rows of birch\n" in place.done("erase-again", "north", "--copied", text_of(now - 2 * 3600)), "nothing is erased again")
    expect(place.told(key, now)[1:] == EMPTY, "the new one is told", place.told(key, now))
    expect(place.told("acmekey000000001", now) == wanted, "another customer is told", place.told("acmekey000000001", now))
    # (a backup from well behind the erase has the new firm's own)
    place.filled_as("birch", key, int(time.time()) + 1)
    its, behind = place.told(key, now), place.copy("behind")
    erased = (place.folder / "erased.csv").read_text()
    (place.folder / "erased.csv").write_text(erased.replace(moment, text_of(now - 2 * 3600)))
    place.put_back(behind)
    expect(place.done("erase-again", "north", "--copied", text_of(now)) == "the store of north: nothing of whoever was erased\n", "some of the new one")
    expect(place.told(key, now) == its, "the new one is told", place.told(key, now))
    # (within the hour, and by a clock that ran ahead, nobody is sure; of a name that nobody has again it does no harm)
    for at in (now - 60, now + DAY):
        (place.folder / "erased.csv").write_text(erased.replace(moment, text_of(at)))
        ended = place.run("erase-again", "north", "--copied", text_of(now))
        expect(ended.returncode == 1 and f"birch at {text_of(at)}" in ended.stderr and place.told(key, now) == its, at, "ended with", ended)
    place.done("drop", "birch", "--queued")
    place.done("erase", "birch")
    place.put_back(behind)
    expect(" rows of birch\n" in place.done("erase-again", "north", "--copied", text_of(int(time.time()))), "nobody's rows stay")


def with_lists(place, copied):
    """What desk-backup writes beside a copy, as long as it has the store."""
    for it, header in (("erased", "name,moment"), ("desks", "customer,desk")):
        path = place.folder / f"{it}.csv"
        (copied / f"north.{it}.csv").write_text(path.read_text() if path.exists() else f"{header}\n")
    return copied


def test_restored_by_its_list(place):
    """A copy of desk-backup knows which erasures it has been through: whatever clocks say, those since are done again, and no others."""
    now = int(time.time())
    place.filled("birch", now - DAY)
    before = with_lists(place, place.copy("before"))
    place.done("drop", "birch", "--queued")
    place.done("erase", "birch")
    # (a clock that ran ahead by a minute, when it was erased and came again)
    (place.folder / "erased.csv").write_text((place.folder / "erased.csv").read_text().replace(
        place.table("erased.csv")[0][1], time.strftime("%Y-%m-%dT%H:%M:%SZ", time.gmtime(now + 60))))
    key = place.done("add", "birch", "--history", "1000", "--notices", "100").strip()
    ahead = re.sub("birch,[^,]*", f"birch,{time.strftime('%Y-%m-%dT%H:%M:%SZ', time.gmtime(now + 60))}", (place.folder / "erased.csv").read_text())
    (place.folder / "erased.csv").write_text(ahead)
    place.filled_as("birch", key, now)
    its, behind = place.told(key, now), with_lists(place, place.copy("behind"))
    for moment in (now + 60, now - 1):
        # (the clock comes to that moment later, and the next call of `add` sets back what is ahead of it)
        (place.folder / "erased.csv").write_text(re.sub("birch,[^,]*", f"birch,{time.strftime('%Y-%m-%dT%H:%M:%SZ', time.gmtime(moment))}", ahead))
        place.put_back(behind)
        expect(place.done("erase-again", "north", "--copy", behind) == "the store of north: nothing of whoever was erased\n", moment, "of the new one")
        expect(place.told(key, now) == its, "the new one is told", place.told(key, now))
    place.put_back(before, now + DAY)
    expect(" rows of birch\n" in place.done("erase-again", "north", "--copy", before), "nothing is erased again")


@pytest.mark.parametrize("version", [1, 2])
def test_a_store_of_an_earlier_release(place, version):
    """It is erased in before it is migrated; whatever else works at a store refuses it, and tells why."""
    for end in ("", "-wal"):
        old = DEPLOY.parent / f"tests/examples/migration/version-{version}.db{end}"
        if old.exists():
            shutil.copy(old, place.stores / f"north.db{end}")
    with contextlib.closing(sqlite3.connect(place.stores / "north.db")) as store:
        names = sorted(name for name, in store.execute("SELECT customer FROM heads"))
    now = int(time.time())
    for it in place.stores.iterdir():
        os.utime(it, (now - DAY, now - DAY))
    (place.folder / "erased.csv").write_text(f"name,moment\n{names[0]},{time.strftime('%Y-%m-%dT%H:%M:%SZ', time.gmtime(now - 5))}\n")
    ended = place.run("retain", "90")
    expect(ended.returncode == 1 and "is a store of an earlier release: `hq migrate` comes first" in ended.stderr, "retain ended with", ended)
    told = subprocess.run([DEPLOY / "desk-store", "erase", place.stores / "north.db", names[-1]], capture_output=True, text=True, timeout=LONGEST)
    expect(told.returncode == 0 and told.stdout != "0 rows\n", "it is not erased in", told)
    ended = place.run("erase-again", "north", "--copied", text_of(now - DAY))
    expect(ended.returncode == 0 and f" rows of {names[0]}\n" in ended.stdout, "erase-again ended with", ended)
    told = subprocess.run([place.bin / "hq", "migrate", "--store", place.stores / "north.db"], capture_output=True, text=True, timeout=LONGEST)
    expect(told.returncode == 0, "it is not migrated:", told)
    with contextlib.closing(sqlite3.connect(place.stores / "north.db")) as store:
        expect(sorted(name for name, in store.execute("SELECT customer FROM heads")) == names[1:-1], "left are others")


def test_records_at_another_desk(place):
    """Settings come back from before a move, or a store does: it is told whose records are at which desk, and either way leads out."""
    now = int(time.time())
    place.filled("birch", now)
    place.desk("south", 826, "dogwood,dogwoodkey000001,1000,500000000,1000,100,14400,1000\n")
    (place.folder / "south.csv").write_text(WITH_HISTORY + "dogwood,dogwoodkey000001,1000,500000000,1000,100,14400,1000\n")
    place.batch((now, "GET", "/v1/usage", "dogwoodkey000001"), name="south")
    place.done("set", "acme", "--messages", "999")
    wanted = place.told("birchkey00000001", now)
    expect(place.done("compare") == "each store has records of its own customers alone\n", "at first")
    settings = shutil.copytree(place.folder, place.folder.parent / "settings")
    stores = with_lists(place, place.copy("copy"))
    shutil.copy(stores / "north.desks.csv", stores / "south.desks.csv")
    shutil.copy(stores / "north.erased.csv", stores / "south.erased.csv")
    place.done("--files", "move", "birch", "--desk", "south")
    # (the store of its new desk is one of before, and then that of its first one)
    ended = place.run("erase-again", "south", "--copy", stores)
    expect(ended.returncode == 1 and "from before birch moved there" in ended.stderr, "a copy of before", ended)
    after = place.copy("after")
    expect(" rows of birch\n" in place.done("erase-again", "south", "--copy", stores, "--without", "birch"), "what is given up stays")
    place.put_back(after)
    shutil.copy(stores / "north.db", place.stores)
    # (they are in nobody's way there, and settings may be those of before)
    for status, words in enumerate((("erase-again", "north", "--copy", stores), ("compare",))):
        ended = place.run(*words)
        expect(ended.returncode == status and "north has records of birch, who is at south" in ended.stderr
               and "`hq-customers erase birch --desk north`" in ended.stderr, words, "ended with", ended)
    expect("is a customer of south" in place.run("erase", "birch", "--desk", "south").stderr, "its own records")
    expect(" rows\n" in place.done("erase", "birch", "--desk", "north"), "the records of before")
    place.done("compare")
    # (settings of before, and its rows at the desk to which it had moved; mail came in meanwhile)
    place.put_back(after)
    shutil.rmtree(place.folder)
    shutil.copytree(settings, place.folder)
    place.filled("birch", now, many=1)
    expect("south has records of birch, who is at north" in place.run("compare").stderr, "settings of before", place.run("compare"))
    expect("with --same-firm they are its own" in place.run("--files", "move", "birch", "--desk", "south").stderr, "without a word")
    place.done("--files", "move", "birch", "--desk", "south", "--same-firm")
    place.done("compare")
    found = place.batch(*((now, "GET", f"/v1/{it}", "birchkey00000001") for it in ("usage", "messages", "lines", "notices", "history")), name="south")
    expect(found == wanted, "it is told", found)
    expect("leave out --same-firm" in place.run("--files", "move", "birch", "--desk", "north", "--same-firm").stderr, "no records")


def test_nobodys_records(place):
    """Settings of before somebody came: it is told that a store has records of nobody's, and that firm finds them again."""
    now = int(time.time())
    settings = shutil.copytree(place.folder, place.folder.parent / "settings")
    place.done("set", "acme", "--messages", "999")
    place.done("add", "fir", "--messages", "10")
    key = [it.split(",")[1] for it in (place.folder / "north.csv").read_text().splitlines() if it.startswith("fir,")][0]
    place.batch((now, "POST", "/v1/line-put", key, {"class": "sender", "pattern": "p.example", "action": "HOLD"}))
    shutil.rmtree(place.folder)
    shutil.copytree(settings, place.folder)
    ended = place.run("compare")
    expect(ended.returncode == 1 and "north has records of fir, who is no customer by" in ended.stderr
           and "`hq-customers add fir --desk north --same-firm`" in ended.stderr, "it ended with", ended)
    place.done("add", "fir", "--desk", "north", "--same-firm")
    place.done("compare")
    # (who has taken over the desks' user writes what root would type)
    with contextlib.closing(sqlite3.connect(place.stores / "north.db", isolation_level=None)) as store:
        store.execute("UPDATE lines SET customer = 'a;touch${IFS}/root/it;' WHERE customer = 'fir'")
    ended = place.run("compare")
    expect(ended.returncode == 0 and "hq-customers" not in ended.stderr and "which is nobody's name" in ended.stderr, "it ended with", ended)
