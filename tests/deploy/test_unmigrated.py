"""What the package says and starts behind an upgrade to another schema, however that came about. Its script runs in a folder here."""
import contextlib
import re
import shutil
import sqlite3
import subprocess
import time

import pytest
from deploying import DEPLOY
from serving import HEADER, LONGEST, expect

PACKAGING = DEPLOY.parent / "packaging"
OLD = DEPLOY.parent / "tests/examples/migration/version-2.db"
NOW = (PACKAGING / "schema").read_text()
STAND_INS = {"runuser": 'shift 3\nexec "$@"', "systemctl": "echo a-run-of-it", "deb-systemd-invoke": 'echo "$*" >>"$CALLED"', "mail-goes-on": "",
             "nginx": 'echo "nginx version: nginx/1.22.1" >&2'}


@pytest.fixture
def configured(folder):
    """Runs the configuration of the package over three desks: north has a store of an earlier release, south one of this, west none."""
    for it in ("etc/hq", "etc/systemd/system/multi-user.target.wants", "run/systemd/system", "stores", "bin"):
        (folder / it).mkdir(parents=True)
    for name, text in STAND_INS.items():
        (folder / "bin" / name).write_text(f"#!/bin/sh\n{text}\n")
        (folder / "bin" / name).chmod(0o755)
    for it in ("north", "south", "west"):
        (folder / f"etc/hq/{it}.env").write_text("")
        (folder / f"etc/systemd/system/multi-user.target.wants/hq-desk@{it}.service").write_text("")
    for it in ("sessions.map", "keys.map"):
        (folder / "etc/hq" / it).write_text("")
    (folder / "etc/hq/names.map").write_text("default 127.0.0.1:825;\n")
    shutil.copy(OLD, folder / "stores/north.db")
    with contextlib.closing(sqlite3.connect(folder / "stores/south.db")) as store, store:
        store.execute("PRAGMA journal_mode = WAL")
        store.execute("CREATE TABLE desk_schema (version INTEGER NOT NULL) STRICT")
        store.execute(f"INSERT INTO desk_schema VALUES ({NOW})")
    text = (PACKAGING / "debian/hq-desk.postinst").read_text()
    for it, here in (("/usr/libexec/hq-desk/mail-goes-on", "mail-goes-on"), ("/usr/libexec/hq-desk/desk-maps", f"{DEPLOY}/desk-maps"), ("/usr/libexec/hq-desk/hq-as", f"{DEPLOY}/hq-as"),
                     ("hq-as hqdesk /usr/libexec/hq-desk/desk-store", f"hq-as hqdesk {DEPLOY}/desk-store"), ("/etc/hq", f"{folder}/etc/hq"),
                     ("/var/lib/hq-desk-stopped", f"{folder}/stopped"), ("/etc/systemd", f"{folder}/etc/systemd"), ("/run/", f"{folder}/run/"), ("/usr/share/hq-desk/schema", f"{PACKAGING}/schema"),
                     ("schema \"/var/lib/hqdesk", f"schema \"{folder}/stores")):
        text = text.replace(it, here)

    def configure():
        (folder / "called").write_text("")
        ended = subprocess.run(["sh", "-c", text, "postinst", "configure", "0.9.0"], capture_output=True, text=True, timeout=LONGEST,
                               env={"PATH": f"{folder}/bin:/usr/bin:/bin:/usr/sbin", "CALLED": str(folder / "called")})
        expect((ended.returncode, ended.stderr) == (0, ""), "it ended with", ended)
        return ended.stdout, (folder / "called").read_text()
    return configure


def test_behind_a_boot(configured, folder):
    """An upgrade that a power loss cut is configured later, and again: a store of an earlier release is named each time with its lines,
    and its desk is not started; the others are."""
    for is_again in (False, True):
        if is_again:
            (folder / "run/hq-desk.again").touch()
        told, called = configured()
        expect("the desk north was not started again: its store has schema 2." in told and "south was" not in told and "west was" not in told,
               "it tells", told)
        expect(len(re.findall("(?m)^  .*north", told)) == 4, "its lines are", told)
        expect("north" not in called and "hq-desk@south.service" in called and "hq-desk@west.service" in called, "it starts", called)
        for it in folder.glob("run/hq-desk.*"):
            it.unlink()


def test_kept_stopped(configured, folder):
    """What desk-stop, a move or a restore keeps stopped is asked of nobody behind a removal, since systemd would refuse it without a reason."""
    (folder / "stopped").mkdir()
    (folder / "etc/systemd/system/multi-user.target.wants/hq-relay-intake.service").write_text("")
    for mark, unit in (("south", "hq-desk@south.service"), ("west.restoring", "hq-desk@west.service"), ("relay", "hq-relay-intake.service")):
        for is_there in (False, True):
            (folder / "run/hq-desk.again").touch()
            if is_there:
                (folder / "stopped" / mark).touch()
            _, called = configured()
            expect((f"start {unit}" in called.replace("try-restart", "again")) != is_there, mark, "is", is_there, "and it starts", called)
        (folder / "stopped" / mark).unlink()


def test_a_desk_that_runs(configured, folder):
    """Nobody reads the store of a desk that runs: that has the schema of the release before, as long as its process is the same."""
    with contextlib.closing(sqlite3.connect(folder / "stores/north.db")) as store:
        store.execute("PRAGMA locking_mode = EXCLUSIVE")
        store.execute("BEGIN EXCLUSIVE")
        (folder / "run/hq-desk.schema").write_text("2\n")
        for _ in range(2):
            told, called = configured()
            expect("the desk north was not started again: its store has schema 2." in told and "north" not in called, "it tells", told, called)
            (folder / "run/hq-desk.schema").write_text(NOW)
        (folder / "run/hq-desk.unmigrated.north").unlink()
        told, called = configured()
        expect("north was not" not in told and "hq-desk@north" in called, "a desk of this release:", told, called)


def test_a_later_schema(configured, folder):
    """A store of a later release is not migrated: its copy is named."""
    with contextlib.closing(sqlite3.connect(folder / "stores/south.db")) as store, store:
        store.execute("UPDATE desk_schema SET version = version + 1")
    told, called = configured()
    expect("the desk south was not started again" in told and "Restore its copy of before the upgrade" in told and "south" not in called,
           "it tells", told, called)


@pytest.mark.parametrize("what", ["VIEW desk_schema AS WITH RECURSIVE c(x) AS (SELECT 1 UNION ALL SELECT x + 1 FROM c) SELECT x AS version FROM c",
                                  "TABLE other (x)"])
def test_a_file_that_is_no_store(configured, folder, what):
    """Whatever the user of the desks has put in the place of a store, the configuration ends, soon."""
    (folder / "stores/south.db").unlink()
    with contextlib.closing(sqlite3.connect(folder / "stores/south.db")) as store, store:
        store.execute(f"CREATE {what}")
    begun = time.monotonic()
    told, _ = configured()
    expect(time.monotonic() - begun < 20 and "south was" not in told, "after", time.monotonic() - begun, "seconds it tells", told)


@pytest.mark.parametrize("beyond", ["", "farfirm 127.0.0.1:849;\n"])
def test_maps_of_an_earlier_release(configured, folder, beyond):
    """Where nginx has no limits of desks yet they are written, unless customers are at a desk beyond this machine: that is told."""
    place = folder / "etc/hq"
    (place / "north.env").write_text('HOST=relay.example\nLISTEN="127.0.0.1:825"\n')
    (place / "north.csv").write_text(HEADER + "acme,acmekey000000001,9,9,9,9,9\n")
    (place / "names.map").write_text(f"default 127.0.0.1:825;\nacme 127.0.0.1:825;\n{beyond}")
    printed, _ = configured()
    names, desks = ((place / it).read_text() for it in ("names.map", "desks.conf"))
    told = "customers are at desks beyond this machine: 127.0.0.1:849." in printed
    expect(told == bool(beyond) and names.endswith(f"acme 127.0.0.1:825;\n{beyond}"), "told is", printed, "and the map", names)
    expect(("server 127.0.0.1:825" in desks) != bool(beyond) and "$desk_with_room" in desks, "the limits are", desks)
