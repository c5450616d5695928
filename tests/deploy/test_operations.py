"""The procedures of docs/PROCEDURES.md with the compiled program, each by the very lines of that page.

Desks run by the unit of deploy/, behind its nginx. Meanwhile workers submit without a pause, and
customers look. What is 502 is asked again, as docs/API.md says. The tests of this file go on from
one another's desks, in their order."""
import contextlib
import shutil
import sqlite3
import stat
import subprocess
import tarfile
from pathlib import Path

import needs
import pytest
from deploying import DEPLOY, Desk, Proxy, done
from full_disk import full_disk
from load import Load, all_of, kept
from rate import rates
from steps import Place
from serving import HEADER, LONGEST, Wrong, expect

BACKUPS = 5


def key_of(name):
    return f"{name}key0000000001"


def row(name, key=None):
    return f"{name},{key or key_of(name)},1000,500000000,1000,1000,14400"


NORTH, SOUTH = ("acme", "birch", "cedar"), ("fir", "elm")


def customers(*names):
    return {it: key_of(it) for it in names}


def files(store):
    """A store is two files."""
    return [it for it in (store, Path(f"{store}-wal")) if it.exists()]


def copied(store, folder):
    folder.mkdir()
    for it in files(store):
        shutil.copy2(it, folder)


# ---- 1 and 2

def backups(place, north, folder):
    """Backups under load: nothing that was accepted is lost, and nothing is there twice."""
    took = []
    for number in range(BACKUPS):
        copy = north.folder / f"backup-{number}"
        before = {it: kept(north.address, it) for it in NORTH}
        with Load(place.proxy, customers(*NORTH), f"b{number}") as load:
            stopped, away = place.run("Backup", BACKUP=str(copy))
        for name in NORTH:
            found = kept(north.address, name) - before[name]
            expect(found == load.ids(name), name, "has", len(found), "of", len(load.ids(name)))
        took.append((away, len(load.others), len(load.accepted)))
        if number + 1 < BACKUPS:
            emptied(north)
    secret(place, north, folder)
    restored(place, north, copy, before, load, stopped, stopped + away)
    away, missed, accepted = zip(*took)
    expect(any(missed), "the load met no stop")
    return (f"backup: away {min(away) * 1000:.0f} to {max(away) * 1000:.0f} ms, "
            f"{min(missed)} to {max(missed)} calls got 502, {sum(accepted)} submissions kept")


def secret(place, north, folder):
    """The files with keys are copied, elsewhere than among them, for the owner of the key of backups alone."""
    made = ["openssl", "req", "-x509", "-newkey", "rsa:2048", "-nodes", "-subj", "/CN=backup", "-keyout",
            folder / "backup.key", "-out", folder / "backup.crt"]
    subprocess.run(made, check=True, capture_output=True, timeout=LONGEST)
    place.run("Backup of the keys", BACKUP=str(folder), OF_BACKUPS=str(folder / "backup.crt"))
    sealed = folder / "hq.cms"
    expect(stat.S_IMODE(sealed.stat().st_mode) == 0o600, "the keys may be read by others")
    expect(key_of("acme").encode() not in sealed.read_bytes(), "a key stands in the open")
    opened = subprocess.run(["sh", "-euc", "openssl cms -decrypt -inform DER -in $0 -inkey $1 | tar -t",
                             sealed, folder / "backup.key"], capture_output=True, text=True, timeout=LONGEST)
    for it in ("north.csv", "north.key", "keys.map", "tls.key"):
        expect(f"/{it}\n" in opened.stdout, "the copy of the keys lacks", it, opened.stderr)


def emptied(desk):
    for name in NORTH:
        done(desk.ask("POST", "/v1/delete-all", key_of(name)), "a deletion")


def restored(place, north, copy, before, load, stopped, there):
    """The copy in its place: what was answered before the stop, and nothing of later."""
    place.run("Restore", BACKUP=str(copy), ASIDE=str(copy.parent / "aside"))
    for name in NORTH:
        found = kept(north.address, name) - before[name]
        sure = load.ids(name, lambda it: it.answered < stopped)
        later = load.ids(name, lambda it: it.sent > there)
        expect(sure and later, "the load was too short")
        expect(sure <= found, "the copy of", name, "lacks", sure - found)
        expect(not found & later, "the copy of", name, "has", found & later)


# ---- 3

def new_key(place, north, proxy):
    """acme has another key from now on; its mail stays, and nobody else is troubled."""
    new, wanted = "acmekey0000000002", north.folder / "wanted"
    rows, good = [row("acme", new), *map(row, NORTH[1:])], north.directory.read_text()
    # (an editor writes into the file that it is given)
    editor = north.folder / "editor"
    editor.write_text(f'#!/bin/sh\ncat {wanted} >"$1"\n')
    editor.chmod(0o755)
    north.directory.chmod(0o600)
    wanted.write_text(HEADER + "\n".join([*rows, row("Bad")]) + "\n")
    try:
        place.run("A new directory", EDITOR=str(editor))
    except Wrong as wrong:
        why = "hq: row 4, column name: not 1 to 32 lower-case letters, digits and hyphens\n"
        told = 1, "hq: 53 BadDirectory row 4\n" + why
        expect(wrong.args[2:] == told, "a bad row is told as", *wrong.args)
    expect(north.directory.read_text() == good, "a bad directory is in its place")
    wanted.write_text(HEADER + "\n".join(rows) + "\n")
    before = kept(north.address, "acme")
    with Load(proxy, customers(*NORTH[1:]), "key") as load:
        _, took = place.run("A new directory", EDITOR=str(editor))
    expect(stat.S_IMODE(north.directory.stat().st_mode) == 0o640, "the directory may be read by others")
    expect(proxy.ask("GET", "/v1/usage", key_of("acme"))[0] == 401, "the old key is taken")
    found = done(proxy.ask("GET", "/v1/usage", new), "the new key")
    expect(before and found["messages"] == len(before), "of the mail there is", found)
    return f"a new key: {took:.1f} s, {len(load.others)} calls got 502"


# ---- 4

def filled(desk, name):
    """What a customer can have: messages in each state, lines, an import, notices."""
    recipients = ["p@far.example", "q@far.example"]
    submit = {"sender": "ann@a.example", "recipients": recipients, "size": 9}
    for number in range(40):
        done(desk.ask("POST", f"/relay/submit/{name}", body={**submit, "spool": f"m{number}"}))
    outcomes = [{"recipient": "p@far.example", "result": "failed", "status": "5.1.1", "text": "no"}]
    for number in range(1, 11):
        report = {"id": f"{number:010X}", "attempt": 1, "outcomes": outcomes}
        done(desk.ask("POST", f"/relay/outcome/{name}", body=report))
    key = key_of(name)
    done(desk.ask("POST", "/v1/hold/0000000020", key))
    line = {"class": "sender", "pattern": "b.example", "action": "REJECT no thanks"}
    done(desk.ask("POST", "/v1/line-put", key, line))
    table = {"label": "one", "csv": "class,pattern,action\nrecipient,c.example,HOLD\n"}
    done(desk.ask("POST", "/v1/import", key, table))
    return table


def unlabelled(place, north):
    """cedar's labels are free again; its lines, and the labels of others, are as they were."""
    tables = [{"label": "one", "csv": f"class,pattern,action\nrecipient,{it}.example,HOLD\n"} for it in "cd"]
    for name in ("birch", "cedar"):
        done(north.ask("POST", "/v1/import", key_of(name), tables[0]), "an import")
        found = north.ask("POST", "/v1/import", key_of(name), tables[1])
        expect(found == (409, {"error": 52, "name": "LabelUsed"}), "another file under its label got", found)
    before = [all_of(north.address, key_of(it)) for it in NORTH[1:]]
    place.run("Erasing labels of imports")
    found = [all_of(north.address, key_of(it)) for it in NORTH[1:]]
    expect(found == before, "without labels something else is told")
    done(north.ask("POST", "/v1/import", key_of("cedar"), tables[1]), "a label that was erased")
    found = north.ask("POST", "/v1/import", key_of("birch"), tables[1])
    expect(found[0] == 409, "another's label was erased too:", found)


def mover(*words):
    return subprocess.run([DEPLOY / "move-customer", *words], capture_output=True, text=True,
                          timeout=LONGEST)


def refused_moves(north, south, name):
    """What the script must not do, on desks that are stopped."""
    found = mover("--copy", north.directory, south.store, name)
    expect(found.returncode == 1, "from a file that is no store:", found)


def half_moved(folder, north, south, name):
    """A copy that was stopped, or made of earlier rows, is made again, on copies of both stores."""
    place = folder / "half"
    copied(north.store, place)
    copied(south.store, place / "south")
    source, target = place / north.store.name, place / "south" / south.store.name
    first = mover("--copy", source, target, name)
    with contextlib.closing(sqlite3.connect(target)) as store, store:
        store.execute("DELETE FROM messages WHERE customer = ? AND serial < 5", (name,))
    second = mover("--copy", source, target, name)
    expect(first.returncode == second.returncode == 0 and first.stdout == second.stdout, "again:", second)
    with contextlib.closing(sqlite3.connect(source)) as one, contextlib.closing(sqlite3.connect(target)) as other:
        for table in ("heads", "messages", "recipients", "lines", "marks", "notices", "holds", "ends"):
            both = [sorted(it.execute(f"SELECT * FROM {table} WHERE customer = ?", (name,))) for it in (one, other)]
            expect(both[0] == both[1], "the second store has another", table)
    third = mover("--take", source, target, name)
    expect(third.stdout == first.stdout and mover("--take", source, target, name).stdout == "0 rows, some there\n", "taken out:", third)


def move(place, north, south, proxy):
    """dale goes from north to south while others are served."""
    north.stop()
    north.has(map(row, [*NORTH[1:], "dale"]))
    north.start()
    proxy.maps()
    proxy.reload()
    table, before = filled(north, "dale"), all_of(north.address, key_of("dale"))
    others = {it: kept(north.address, it) for it in NORTH[1:]}
    found = mover("--copy", north.store, south.store, "dale")
    expect(found.returncode == 1 and "locked" in found.stderr, "desks that run:", found)
    def meanwhile():
        refused_moves(north, south, "dale")
        half_moved(north.folder, north, south, "dale")

    with Load(proxy, customers(*NORTH[1:], *SOUTH), "move") as load:
        _, took = place.run("Moving a customer", meanwhile, BACKUP=str(north.folder / "of-the-move"))
    expect(all_of(south.address, key_of("dale")) == before, "dale is told something else")
    expect("dale,south\n" in (north.folder / "desks.csv").read_text(), "the worker takes dale for one of north")
    expect(north.ask("GET", "/v1/usage", key_of("dale"))[0] == 401, "north has dale")
    found = done(proxy.relay("/relay/submit/dale", {"spool": "next", "sender": "", "size": 1,
                                                   "recipients": ["p@far.example"]}), "dale")
    expect(found["id"] == f"{41:010X}", "dale's next message is", found)
    done(proxy.ask("POST", "/v1/import", key_of("dale"), table), "the import once more")
    for name, desk in [(it, north) for it in NORTH[1:]] + [(it, south) for it in SOUTH]:
        found = kept(desk.address, name) - others.get(name, set())
        expect(found == load.ids(name), name, "has", len(found), "of", len(load.ids(name)))
    return f"a move: both desks away {took:.1f} s"


# ---- 6

def upgraded(place, program, used, proxy, served):
    """`used` is what the desks run, and `served` are customers with the desk that has each."""
    folder, before = used.parent, [all_of(desk.address, key_of(it)) for it, desk in served]
    old = used.read_bytes() + b"old"
    # (what runs cannot be written over)
    used.unlink()
    used.write_bytes(old)
    with Load(proxy, customers("birch", "fir"), "new", restarts=True):
        place.run("An upgrade", NEW=program, BACKUP=str(folder / "upgrade"))
    expect(used.read_bytes() == Path(program).read_bytes(), "the new program is not in its place")
    expect((folder / "upgrade" / used.name).read_bytes() == old, "the old program is not kept")
    copied = set()
    for name in ("north", "south"):
        with tarfile.open(folder / f"upgrade/{name}.tar") as copy:
            copied.update(copy.getnames())
    lacking = {f"{it}{end}" for it in ("north.db", "south.db") for end in ("", "-wal")} - copied
    expect(not lacking, "the copy of the stores lacks", lacking)
    found = [all_of(desk.address, key_of(it)) for it, desk in served]
    expect(found == before, "something else is told behind an upgrade")


@pytest.fixture(scope="module")
def used(program, place):
    """A copy of the program, since an upgrade writes over it."""
    (place / "bin").mkdir()
    return Path(shutil.copy2(program, place / "bin/hq"))


@pytest.fixture(scope="module")
def north(used, place):
    with Desk(place, used, "north", map(row, NORTH)) as it:
        yield it


@pytest.fixture(scope="module")
def south(used, place):
    with Desk(place, used, "south", map(row, SOUTH)) as it:
        yield it


@pytest.fixture(scope="module")
def proxy(place, north, south):
    needs.command("nginx", "openssl")
    with Proxy(place, [north, south]) as it:
        yield it


@pytest.fixture(scope="module")
def procedures(place, used, north, south, proxy):
    return Place(place, used, [north, south], proxy)


def test_procedures(procedures, folder, program, used, north, south, proxy):
    """Backup and restore, a new key, the erasing of labels, a move to another desk, and an upgrade."""
    backups(procedures, north, folder)
    new_key(procedures, north, proxy)
    if shutil.which("sqlite3"):
        unlabelled(procedures, north)
    move(procedures, north, south, proxy)
    upgraded(procedures, program, used, proxy, [("cedar", north), ("dale", south)])


def test_full_disk(folder, program):
    full_disk(folder, program)


def test_several_desks(folder, program):
    """Three desks of a thousand customers each beside one; `-s` shows the rates."""
    needs.command("nginx", "openssl")
    print(rates(folder, program))
