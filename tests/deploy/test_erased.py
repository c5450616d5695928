"""A customer's name is never somebody else's: hq-customers refuses one that is known, erases, and keeps nothing for longer than it is told.

The stores are those of the program. A stand-in of systemctl says that no desk runs; tests/release has desks that do.
"""
import os
import re
import shutil
import sqlite3
import subprocess
import time
from pathlib import Path

import pytest
from customers_place import Place
from deploying import DEPLOY, all_settings_of
from serving import HEADER, LONGEST, RELAY, batch_line, expect, submission

DAY = 86_400
# What a customer is told who has nothing, behind its usage.
EMPTY = [f"200 {it}" for it in ('{"messages":[],"more":false}', '{"lines":[],"more":false}', '{"more":false,"notices":[]}', '{"history":[],"more":false}')]
BOTH = "acme,acmekey000000001,1000,500000000,1000,100,14400,1000\nbirch,birchkey00000001,1000,500000000,1000,100,14400,1000\n"
WITH_HISTORY = HEADER.strip() + ",history\n"
SENDER = "someone@a.example"


class Stores(Place):
    """A folder of settings whose stores stand beside it."""

    def __init__(self, folder, program):
        super().__init__(folder, program)
        self.stores = folder / "stores"
        self.stores.mkdir()
        self.directory(BOTH)
        self.worker("echo nothing")

    def directory(self, rows):
        (self.folder / "north.csv").write_text(WITH_HISTORY + rows)

    def worker(self, erases, knows="exit 3"):
        """The worker takes its settings, and erases so; it knows a customer, or not."""
        (self.bin / "hq-relay").unlink()
        (self.bin / "hq-relay").write_text(f'#!/bin/sh\n[ "$2" != knows ] || {{ {knows}; }}\n[ "$2" != erase ] || {{ {erases}; }}\n')
        (self.bin / "hq-relay").chmod(0o755)

    def words(self, *given):
        first, *rest = super().words(*given)
        return [first, "--store", self.stores, *rest]

    def batch(self, *lines, name="north"):
        """The replies to lines, each a moment, a path, a key and a body."""
        text = "".join(f"{batch_line(at, method, path, key, *body)}\n" for at, method, path, key, *body in lines)
        words = [self.bin / "hq", "batch", "--directory", self.folder / f"{name}.csv", "--host", "relay.example", "--relay-key", RELAY,
                 "--store", self.stores / f"{name}.db"]
        told = subprocess.run(words, input=text, capture_output=True, text=True, timeout=LONGEST)
        expect((told.returncode, told.stderr) == (0, "") and all(it.startswith("200 ") for it in told.stdout.splitlines()), "a batch got", told)
        return told.stdout.splitlines()

    def filled(self, name, at, many=3):
        """Has a customer be what one can be: mail, a notice, an end of the history, a line and a label."""
        return self.filled_as(name, f"{name}key000000001" if name == "acme" else f"{name}key00000001", at, many)

    def filled_as(self, name, key, at, many=3):
        lines = [(at, "POST", f"/relay/submit/{name}", RELAY, {**submission(f"{name}-{at}-{it}"), "sender": SENDER}) for it in range(many)]
        ids = [it.split('"id":"')[1][:10] for it in self.batch(*lines)]
        outcome = {"attempt": 1, "outcomes": [{"recipient": "bob@far.example", "result": "failed", "status": "5.1.1", "text": "no"}]}
        self.batch(*((at, "POST", f"/relay/outcome/{name}", RELAY, {"id": it, **outcome}) for it in ids[:-1]))
        self.batch((at, "POST", "/v1/line-put", key, {"class": "sender", "pattern": f"p{at}.example", "action": "HOLD"}))
        return key

    def table(self, name):
        return [it.split(",") for it in (self.folder / name).read_text().splitlines()[1:]]

    def copy(self, name):
        """A copy of the stores, as `tar` keeps it."""
        return Path(shutil.copytree(self.stores, self.stores.parent / name))

    def put_back(self, copied, at=None):
        """The stores as they were, written when they were, or at this moment."""
        shutil.rmtree(self.stores)
        shutil.copytree(copied, self.stores)
        for it in self.stores.iterdir():
            os.utime(it, (at, at)) if at else None

    def told(self, key, at):
        """All that the desk replies of a customer."""
        return self.batch(*((at, "GET", f"/v1/{it}", key) for it in ("usage", "messages", "lines", "notices", "history")))

    def bytes_of(self, text):
        """Whether a store's files have these bytes."""
        return [it.name for it in self.stores.iterdir() if text.encode() in it.read_bytes()]


@pytest.fixture
def place(folder, program):
    return Stores(folder, program)


def test_a_name_again(place):
    """A name that was dropped is refused until it is erased; then the new customer has nothing of the old one."""
    now = int(time.time())
    place.filled("birch", now)
    place.done("drop", "birch", "--queued")
    before = place.files()
    expect("birch north: dropped on 20" in place.done("list"), "it is listed as", place.done("list"))
    ended = place.run("add", "birch")
    expect(ended.returncode == 1 and "birch was dropped on 20" in ended.stderr and "hq-customers erase birch" in ended.stderr
           and place.files() == before, "its name is given again:", ended)
    told = place.done("erase", "birch")
    expect("the store of north: " in told and "0 rows" not in told and "backups" in told, "erased is told as", told)
    key = place.done("add", "birch").strip()
    found = place.told(key, now)
    expect(found[1:] == EMPTY, "the new one is told", found)


def test_a_name_that_a_store_knows(place):
    """So is a name whose row was taken out by hand, in the store that the new one would have."""
    now = int(time.time())
    key = place.filled("birch", now)
    wanted = place.told(key, now)
    place.directory(BOTH.splitlines(True)[0])
    ended = place.run("add", "birch")
    expect(ended.returncode == 1 and "the desk north has records of an earlier birch" in ended.stderr, "it is given again:", ended)
    again = place.done("add", "birch", "--same-firm").strip()
    found = place.told(again, now)
    expect(found == wanted, "the same firm is told", found, "and not", wanted)
    place.done("add", "cedar")


def test_a_name_that_another_desk_knows(place):
    """So is one that a store of another desk has, and one of which the worker has something: both know customers by names alone."""
    place.filled("birch", int(time.time()))
    place.directory(BOTH.splitlines(True)[0])
    place.desk("south", 826, "dogwood,dogwoodkey000001,1000,500000000,1000,100,14400\n")
    ended = place.run("add", "birch", "--desk", "south")
    expect(ended.returncode == 1 and "the desk north has records of an earlier birch" in ended.stderr, "it is given again:", ended)
    place.directory(BOTH)
    place.done("set", "acme", "--messages", "999")
    place.worker("echo nothing", knows="exit 0")
    ended = place.run("add", "cedar", "--desk", "south")
    expect(ended.returncode == 1 and "the worker has records of an earlier cedar" in ended.stderr, "it is given again:", ended)
    place.worker("echo nothing", knows="echo broken >&2; exit 1")
    ended = place.run("add", "cedar", "--desk", "south")
    expect(ended.returncode == 1 and "the worker does not tell what it has: broken" in ended.stderr, "it is given:", ended)


def test_a_name_where_the_settings_are_gone(place):
    """The worker has mail, and nobody knows whose, as behind a purge: no name is given until the settings are back, or the mail is gone."""
    spool = place.folder / "spool"
    spool.mkdir()
    (spool / "book.db").write_bytes(b"")
    before = place.files()
    ended = place.run("add", "cedar")
    expect(ended.returncode == 1 and f"{spool} has mail of earlier customers" in ended.stderr and place.files() == before, "it is given:", ended)
    (spool / "book.db").unlink()
    place.done("add", "cedar")


def test_a_name_that_went_by_hand(place):
    """A row that somebody takes out of a directory is that of a customer who was dropped, until it is erased."""
    place.done("set", "acme", "--messages", "999")
    rows = (place.folder / "north.csv").read_text().splitlines(True)
    (place.folder / "north.csv").write_text("".join(it for it in rows if not it.startswith("birch")))
    expect("birch by hand: dropped on 20" in place.done("list"), "it is listed as", place.done("list"))
    place.done("set", "acme", "--messages", "998")
    ended = place.run("add", "birch")
    expect(ended.returncode == 1 and "birch was dropped on 20" in ended.stderr, "its name is given again:", ended)
    place.done("erase", "birch")
    place.done("add", "birch")


def test_store_of_a_desk_that_is_gone(place):
    """A desk whose settings go leaves its store: whoever was in it is erased there too, and what it keeps grows old there."""
    now = int(time.time())
    acme, birch = place.filled("acme", now), place.filled("birch", now)
    place.desk("south", 826, "dogwood,dogwoodkey000001,1000,500000000,1000,100,14400\n")
    for end in ("", "-wal"):
        for it in ("south", "north.old"):
            shutil.copy(place.stores / f"north.db{end}", place.stores / f"{it}.db{end}")
    for end in ("env", "key", "csv"):
        (place.folder / f"south.{end}").unlink()
    place.done("drop", "birch", "--queued")
    wanted = place.told(acme, now)
    told = place.done("erase", "birch")
    expect(all(re.search(rf"^the store of {it}: [1-9][0-9]* rows$", told, re.M) for it in ("north", "south")), "it prints", told)
    expect("north.old.db: its name is no desk's, so nothing was erased there\n" in told, "of a copy it prints", told)
    expect({*place.bytes_of("birch")} <= {"north.old.db", "north.old.db-wal"} and place.told(acme, now) == wanted, "left are bytes in", place.bytes_of("birch"))
    expect("south: 0 notices, 0 of the history\n" in place.done("retain", "90"), "retention passes it by")
    for end in ("db", "db-wal"):
        (place.stores / f"south.{end}").unlink(missing_ok=True)
    (place.stores / "a.db").write_text("none")
    for words in (("erase", "cedar"), ("retain", "90")):
        ended = place.run(*words)
        expect(ended.returncode == 1 and "the store of a: " in ended.stderr, "where it cannot be looked into:", ended, birch)
        expect("north: 0" in ended.stdout, "the others are not done:", ended)
    expect("cedar" not in (place.folder / "erased.csv").read_text(), "cedar counts as erased")


def test_same_firm(place):
    """The same firm finds its records again, behind a drop too."""
    now = int(time.time())
    wanted = place.told(place.filled("birch", now), now)
    place.done("drop", "birch", "--queued")
    key = place.done("add", "birch", "--same-firm", "--history", "1000", "--notices", "100").strip()
    expect(place.told(key, now) == wanted, "it is told", place.told(key, now))
    expect("dropped" not in place.done("list"), "it is listed as dropped")


def test_same_firm_at_another_desk(place):
    """It does not come back to a desk whose store has nothing of it, and is told which one has."""
    place.filled("birch", int(time.time()))
    place.desk("south", 826, "dogwood,dogwoodkey000001,1000,500000000,1000,100,14400\n")
    place.done("drop", "birch", "--queued")
    before = place.files()
    ended = place.run("add", "birch", "--same-firm", "--desk", "south")
    expect(ended.returncode == 1 and "are in the store of north: add it by --desk north" in ended.stderr, "it ended with", ended)
    expect(place.files() == before, "files were changed")
    place.done("add", "birch", "--same-firm", "--desk", "north")


def test_erased(place):
    """All of a customer goes from the store and its log, down to its bytes, and nothing of another's."""
    now = int(time.time())
    acme = place.filled("acme", now)
    place.batch((now, "POST", "/v1/import", "birchkey00000001", {"label": "birch-label-1", "csv": "class,pattern,action\nsender,q.example,HOLD\n"}))
    place.filled("birch", now, 30)
    (place.folder / "north.csv").write_text((place.folder / "north.csv").read_text())
    wanted = place.told(acme, now)
    expect(place.bytes_of("birch-label-1"), "nothing is there to be erased")
    ended = place.run("erase", "birch")
    expect(ended.returncode == 1 and "birch is a customer: `hq-customers drop birch` comes first" in ended.stderr, "one that is there:", ended)
    place.done("drop", "birch", "--queued")
    place.worker("echo 'birch: 3 contents' ; exit 0")
    told = place.done("erase", "birch")
    expect("the worker: birch: 3 contents\n" in told, "the worker is told as", told)
    expect(not place.bytes_of("birch-label-1") and not place.bytes_of("birch"), "left are bytes in", place.bytes_of("birch"))
    expect(place.told(acme, now) == wanted, "another customer is told", place.told(acme, now))
    expect("the store of north: 0 rows\n" in place.done("erase", "birch"), "a second time it erases something")
    for name in ("Birch", "../birch", "b" * 33):
        expect(place.run("erase", name).returncode == 1, name, "is a name")


def test_killed(place):
    """Killed at any moment, an erasing leaves a store that the desk opens, with all of others; run again it ends its work."""
    now = int(time.time())
    acme = place.filled("acme", now)
    place.filled("birch", now, 60)
    wanted = place.told(acme, now)
    words, left = [DEPLOY / "desk-store", "erase", place.stores / "north.db", "birch"], set()
    kept = {it.name: it.read_bytes() for it in place.stores.iterdir()}
    for step in range(40):
        process = subprocess.Popen(words, stdout=subprocess.PIPE)
        time.sleep(0.03 + 0.004 * step)
        process.kill()
        process.communicate(timeout=LONGEST)
        found = place.told(acme, now)
        expect(found == wanted, "killed after", step, "steps, another customer is told", found)
        left.add(bool(place.bytes_of("birch")))
        for name, text in kept.items():
            (place.stores / name).write_bytes(text)
        for it in place.stores.iterdir():
            it.unlink() if it.name not in kept else None
    subprocess.run(words, check=True, capture_output=True, timeout=LONGEST)
    expect(place.told(acme, now) == wanted and not place.bytes_of("birch") and True in left, "in the end it left", left)


def test_erased_in_part(place):
    """Where the worker erases nothing the name stays refused, and the next call ends what is left."""
    place.filled("birch", int(time.time()))
    place.done("drop", "birch", "--queued")
    place.worker("echo 'it is locked' >&2; exit 1")
    ended = place.run("erase", "birch")
    expect(ended.returncode == 1 and "the worker erases nothing: it is locked" in ended.stderr, "erased is", ended)
    expect("birch was dropped" in place.run("add", "birch").stderr, "its name is free")
    place.worker("true")
    place.done("erase", "birch")
    place.done("add", "birch")


def test_retained(place):
    """What is older goes, the oldest first; the newest notice, all mail, lines and counts stay, and the desk goes on from there."""
    now = int(time.time())
    old, new = now - 100 * DAY, now - 50 * DAY
    for at in (old, new):
        place.filled("acme", at)
    key = place.filled("birch", old)
    before = {it: place.told(k, now) for it, k in (("acme", "acmekey000000001"), ("birch", key))}
    expect(place.done("retain", "90") == "north: 3 notices, 4 of the history\n", "retained is told as", place.done("retain", "90"))
    with sqlite3.connect(place.stores / "north.db") as store:
        kept = store.execute("SELECT customer, number FROM notices ORDER BY 1, 2").fetchall()
        ends = store.execute("SELECT customer, number FROM ends ORDER BY 1, 2").fetchall()
    store.close()
    expect(kept == [("acme", 3), ("acme", 4), ("birch", 2)] and len(ends) == 2 and {it[0] for it in ends} == {"acme"}, "left are", kept, ends)
    for name, its in (("acme", "acmekey000000001"), ("birch", key)):
        found = place.told(its, now)
        expect(found[:3] == before[name][:3], name, "has other mail, lines or counts:", found[:3])
    expect(place.done("retain", "90") == "north: 0 notices, 0 of the history\n", "a second time something is old")
    place.filled("birch", now)
    told = place.batch((now, "GET", "/v1/notices", key))[0]
    expect('"number":3' in told and '"number":4' in told, "the next notices are", told)


def test_retained_by_portions(place):
    """A command erases a bounded number of rows, and says that more is left."""
    now = int(time.time())
    place.filled("acme", now - 100 * DAY, 40)
    words = [DEPLOY / "desk-store", "retain", place.stores / "north.db", "90"]
    script = (DEPLOY / "desk-store").read_text().replace("100_000", "25").replace("Path(__file__).resolve().parent", f"Path({str(DEPLOY)!r})")
    (place.bin / "bounded").write_text(script)
    (place.bin / "bounded").chmod(0o755)
    found = [subprocess.run([place.bin / "bounded", *words[1:]], capture_output=True, text=True, timeout=LONGEST) for _ in range(4)]
    expect([(it.returncode, it.stdout) for it in found] == [(4, "25 notices, 0 of the history\n"), (4, "13 notices, 12 of the history\n"),
                                                           (4, "0 notices, 25 of the history\n"), (0, "0 notices, 2 of the history\n")], "portions are", found)


def test_retained_for_seconds(place):
    """A command that has much to erase ends when its time is up, with what it has done by then, and the next one goes on."""
    place.filled("acme", int(time.time()) - 100 * DAY, 40)
    words = [DEPLOY / "desk-store", "retain", place.stores / "north.db", "90"]
    script = (DEPLOY / "desk-store").read_text().replace("MOST_SECONDS = 5", "MOST_SECONDS = 0")
    (place.bin / "timed").write_text(script.replace("Path(__file__).resolve().parent", f"Path({str(DEPLOY)!r})"))
    (place.bin / "timed").chmod(0o755)
    found = [subprocess.run([place.bin / "timed", *words[1:]], capture_output=True, text=True, timeout=LONGEST) for _ in range(3)]
    expect([(it.returncode, it.stdout) for it in found] == [(4, "38 notices, 0 of the history\n"), (4, "0 notices, 39 of the history\n"),
                                                           (0, "0 notices, 0 of the history\n")], "portions are", found)
    # (the unit has time to write what was erased)
    expect(all_settings_of(DEPLOY / "hq-desk-retain@.service")["TimeoutStartSec"] == ["5min"], "it is killed")


@pytest.mark.parametrize("days", ["6", "0", "-1", "36501", "9x", "", "1e3"])
def test_retained_too_shortly(place, days):
    """A notice waits five days for the worker, so that none of the last week goes."""
    place.filled("acme", int(time.time()))
    ended = place.run("retain", "--", days) if days.startswith("-") else place.run("retain", days)
    expect(ended.returncode == 1 and "is no number of days from 7 to 36500" in ended.stderr, days, "is told as", ended)


def test_other_stores(place):
    """What is no store of this release stays as it is."""
    path = place.stores / "north.db"
    with sqlite3.connect(path) as store:
        store.execute("CREATE TABLE other (x)")
    store.close()
    before = path.read_bytes()
    for words in (("add", "cedar"), ("erase", "cedar"), ("retain", "90")):
        ended = place.run(*words)
        expect(ended.returncode == 1 and "is no store of this release" in ended.stderr and path.read_bytes() == before, words, "got", ended)
        # (it is the store of a desk, which is not to be taken away)
        expect("move that file" not in ended.stderr, words, "got", ended)
