"""The files of /etc/hq that say who is a customer, for the scripts beside it: read, tried, and written all or none.

`NAME.csv` of each desk is the directory that it serves, `NAME.keys.csv` its named keys, where it has any,
`senders.csv` has the logins and domains of the worker, `dropped.csv` the customers that were dropped, whose
records are still there, and `erased.csv` since when those of a name are gone. Made of these are the worker's copy of the
directories, which has no key (`relay.csv`), its table of the desk of each customer (`desks.csv`), the maps of nginx, and the
line of `NAME.env` by which a desk gets its named keys.
What is to be written stands beside each file first, synced; a file `.customers.whole` then says that all of it
is there, and each takes its place. Whoever comes next ends what was stopped between.
"""
import contextlib
import csv
import fcntl
import grp
import http.client
import io
import json
import os
import re
import secrets
import shutil
import subprocess
import sys
import tempfile
import time
from datetime import datetime, timezone
from pathlib import Path
from typing import Callable, Dict, Iterator, List, NamedTuple, Optional, Set, Tuple

from desk_apart import LONGEST, client_of, recorded_in, settings_of

COLUMNS = ["name", "key", "messages", "bytes", "lines", "notices", "delay"]
FURTHER = "history"
# The end of the name of a file of named keys, and the name of the setting that has a desk read it.
KEYS, SETTING = ".keys.csv", "KEYS"
NAMED = ["customer", "name", "key", "right"]
SENDERS = ["kind", "name", "customer"]
# Since when a login or domain is the customer's: the worker takes no mail of it that came before.
SINCE = "since"
DROPPED = ["name", "desk", "day"]
ERASED = ["name", "moment"]
# The random name of an erasure: by it a copy of a store knows which ones it has been through.
ERASURE = "erasure"
MOMENT = "%Y-%m-%dT%H:%M:%SZ"
DESKS = ["customer", "desk"]
LOCK, WHOLE, BESIDE, GONE, TRIAL = ".customers.lock", ".customers.whole", ".customers-new", ".customers-gone", ".customers-trial-"
# What a desk may be called: its name is part of those of files, of units and of metrics.
DESK = re.compile(r"[0-9A-Za-z][0-9A-Za-z_-]{0,63}")
# Tables of this folder that are no directory.
OTHERS = ("relay", "senders", "dropped", "erased", "moved", "desks", "events", "up")
# In seconds: how long another one may have the lock.
PATIENCE = 60


class Refused(Exception):
    """Nothing was changed; the text says why."""


class Erased(NamedTuple):
    """Since when the records of a name are gone, and the name of that erasure (empty of an earlier release)."""

    moment: str
    erasure: str = ""


def erased_in(path: Path) -> Dict[str, Erased]:
    """Whose records are gone, by a table of it."""
    return {name: Erased(*row) for name, *row in table_of(path, ERASED, ERASURE)}


@contextlib.contextmanager
def locked(folder: Path) -> Iterator[None]:
    """Nobody else changes these files meanwhile. What an earlier one was stopped in is ended first."""
    end = time.monotonic() + PATIENCE
    with open(os.open(folder / LOCK, os.O_RDWR | os.O_CREAT, 0o600), "r+") as file:
        while True:
            try:
                fcntl.flock(file, fcntl.LOCK_EX | fcntl.LOCK_NB)
                break
            except BlockingIOError:
                if time.monotonic() > end:
                    raise Refused("another one has been at work for a minute") from None
                time.sleep(0.05)
        finish(folder)
        yield


def finish(folder: Path) -> None:
    """Puts what was written whole in its place, and removes what was not. A desk that starts meanwhile takes its files: no key
    stands there without its customer, and no settings name a file that is not there."""
    is_whole = (folder / WHOLE).exists()
    for it in sorted(folder.glob(f"*{BESIDE}"), key=lambda it: (not it.name.endswith(f"{KEYS}{BESIDE}"), it.name)):
        if is_whole:
            it.rename(it.with_name(it.name[:-len(BESIDE)]))
        else:
            it.unlink()
    for it in folder.glob(f"*{GONE}"):
        if is_whole:
            it.with_name(it.name[:-len(GONE)]).unlink(missing_ok=True)
        it.unlink()
    for it in folder.glob(f"{TRIAL}*/"):
        shutil.rmtree(it)
    sync(folder)
    (folder / WHOLE).unlink(missing_ok=True)


def sync(folder: Path) -> None:
    opened = os.open(folder, os.O_RDONLY)
    try:
        os.fsync(opened)
    finally:
        os.close(opened)


def put_beside(path: Path, text: str, mode: int, group: int, has_keys: bool = False) -> bool:
    """The text, synced, in a file beside this one, which has the owner and the mode of the one that is there. But one with keys that
    others could read is closed, as where somebody has moved a file of an editor into its place; whether it is so."""
    beside = path.with_name(path.name + BESIDE)
    with open(os.open(beside, os.O_WRONLY | os.O_CREAT | os.O_EXCL, 0o600), "w", encoding="utf-8", newline="") as file:
        file.write(text)
        before = path.stat() if path.exists() else None
        is_open = bool(has_keys and before and before.st_mode & 0o007)
        before = None if is_open else before
        os.fchown(file.fileno(), before.st_uid if before else -1, before.st_gid if before else group)
        os.fchmod(file.fileno(), before.st_mode & 0o777 if before else mode)
        file.flush()
        os.fsync(file.fileno())
    return is_open


def keys_beside(directory: Path) -> Path:
    """The file of the named keys of a directory: `north.keys.csv` beside `north.csv`, also where both are to be written."""
    name, _, rest = directory.name.partition(".csv")
    return directory.with_name(f"{name}{KEYS}{rest}")


def rows_of(path: Path) -> List[List[str]]:
    with open(path, encoding="utf-8-sig", newline="") as file:
        return [it for it in csv.reader(file) if it]


def table_of(path: Path, header: List[str], *further: str) -> List[List[str]]:
    """The rows of a table under its header, which may have further columns; none where there is no such file."""
    first, *rows = (rows_of(path) or [[]]) if path.exists() else [header]
    if first not in (header, [*header, *further]) or any(len(it) != len(first) for it in rows):
        raise Refused(f"{path} has not the header {','.join(header)}")
    return rows


def now() -> str:
    return datetime.now(timezone.utc).strftime(MOMENT)


def text_of(rows: List[List[str]]) -> str:
    made = io.StringIO()
    csv.writer(made, lineterminator="\n").writerows(rows)
    return made.getvalue()


class Desk:
    """A desk of this machine: its settings, and its customers."""

    def __init__(self, settings: Path):
        self.name, self.folder, self.place = settings.stem, settings.parent, settings
        if not DESK.fullmatch(self.name):
            raise Refused(f"{settings}: a desk's name has letters of ASCII, digits, - and _ alone, 64 at most, and no - or _ first")
        if self.name in OTHERS:
            raise Refused(f"{settings}: no desk is called {self.name}, since another file has that name")
        self.written = settings.read_bytes().decode()
        self.settings = settings_of(settings)
        if not {"HOST", "LISTEN"} <= self.settings.keys():
            raise Refused(f"{settings} has no line for HOST or LISTEN")
        self.path = self.folder / f"{self.name}.csv"
        if not self.path.exists():
            raise Refused(f"{self.path} is missing: copy /etc/hq/north.csv.example")
        header, *rows = rows_of(self.path) or [[]]
        if header not in (COLUMNS, [*COLUMNS, FURTHER]) or any(len(it) != len(header) for it in rows):
            raise Refused(f"{self.path} is no directory of customers: see `hq check`")
        self.columns = header
        self.rows = [dict(zip(header, it)) for it in rows]
        self.had_rows = bool(rows)
        self.keys_path = keys_beside(self.path)
        self.keys: List[Dict[str, str]] = []
        # (names that have keys and no row: `hq check` refuses these, unless somebody gets the name)
        self.keyed: Set[str] = set()

    def read_keys(self) -> None:
        """Its named keys, for who writes them. (Who asks a desk has other keys, so that a fault of this file is none to it.)"""
        header, *rows = (rows_of(self.keys_path) or [[]]) if self.keys_path.exists() else [NAMED]
        if header != NAMED or any(len(it) != len(NAMED) for it in rows):
            raise Refused(f"{self.keys_path} is no file of named keys: see `hq check`")
        self.keys = [dict(zip(NAMED, it)) for it in rows]
        self.keyed = {it["customer"] for it in self.keys} - {it["name"] for it in self.rows}

    def text(self) -> str:
        return text_of([self.columns, *([row[it] for it in self.columns] for row in self.rows)])

    def keys_text(self) -> str:
        return text_of([NAMED, *([row[it] for it in NAMED] for row in self.keys)])

    def settings_text(self) -> str:
        """Its settings as they stand, with the line by which its unit has named keys read, where there are any, or without it."""
        line = f"{SETTING}=--keys={self.keys_path.absolute()}"
        lines = self.written.splitlines(keepends=True)
        given = [it for it in lines if it.startswith(f"{SETTING}=")]
        if any(it.strip() != line for it in given):
            raise Refused(f"{self.place} has another line for {SETTING} than {line}")
        if bool(given) == bool(self.keys):
            return self.written
        kept = "".join(it for it in lines if it not in given)
        end = "" if kept.endswith("\n") else "\n"
        return f"{kept}{end}{line}\n" if self.keys else kept

    def queued(self, key: str) -> int:
        """How many messages of a customer are queued there."""
        client = client_of(self.settings["LISTEN"])
        try:
            client.request("GET", "/v1/usage", headers={"X-Desk-Key": key})
            response = client.getresponse()
            told = json.loads(response.read(65536))
        except (OSError, ValueError, http.client.HTTPException) as fault:
            raise Refused(f"the desk {self.name} does not tell what is queued: {fault}") from None
        finally:
            client.close()
        if response.status != 200:
            raise Refused(f"the desk {self.name} does not tell what is queued: {response.status}")
        return told["messages"]


class Folder:
    """The settings of all desks of a machine, as they are to be."""

    def __init__(self, path: Path):
        self.path = path
        self.desks = [Desk(it) for it in sorted(path.glob("*.env"))]
        for it in self.desks:
            it.read_keys()
        # what is printed once all is written: a key, and why something is left to do; and whether it is tried again
        self.told: Optional[str] = None
        self.left: Optional[str] = None
        self.is_again = False
        # (files with keys that others could read)
        self.closed: List[Path] = []
        # (a row that an administrator or an earlier release wrote has always been there)
        self.senders_before = {(row[0], row[1]): (row[2], *row[3:]) for row in table_of(path / "senders.csv", SENDERS, SINCE)}
        self.senders: Dict[Tuple[str, str], str] = {it: row[0] for it, row in self.senders_before.items()}
        self.dropped = {name: (desk, day) for name, desk, day in table_of(path / "dropped.csv", DROPPED)}
        self.erased = erased_in(path / "erased.csv")
        self.desks_before = table_of(path / "desks.csv", DESKS)
        self.beyond = self.of_others()
        # (a row that was taken out by hand is that of a customer who was dropped)
        self.is_first = not (path / "relay.csv").exists()
        before = [] if self.is_first else [it[0] for it in rows_of(path / "relay.csv")[1:]]
        known = {it["name"] for desk in self.desks for it in desk.rows}
        # (and one that was put back, as with the settings of a desk that was away, is nobody's any more)
        self.dropped = {name: told for name, told in self.dropped.items() if name not in known}
        self.by_hand = [it for it in before if it not in known]
        for name in self.by_hand:
            self.dropped.setdefault(name, ("by hand", datetime.now(timezone.utc).strftime("%Y-%m-%d")))
        # (its logins and domains go too: the worker refuses tables in which nobody has them)
        self.nobodys = {it: name for it, name in self.senders.items() if name not in known}
        self.senders = {it: name for it, name in self.senders.items() if name in known}

    def since(self, sender: Tuple[str, str]) -> str:
        """Since when a login or domain is its customer's; nothing where nobody knows."""
        customer, *moment = self.senders_before.get(sender, ("", now()))
        return (moment or [""])[0] if customer in (self.senders[sender], "") else now()

    def of_others(self) -> List[Tuple[str, Path]]:
        """The desks beyond this machine that desk-maps was given last. One whose settings were here before is none of them."""
        names = [*(it.name for it in self.desks), *(desk for _, desk in self.desks_before)]
        own, directories = {it.settings["LISTEN"].lower() for it in self.desks}, {self.path.absolute() / f"{it}.csv" for it in names}
        return [it for it in recorded_in(self.path / "desks.conf") if it[0].lower() not in own and it[1] not in directories]

    def new_key(self) -> str:
        """A key that nobody on this machine has."""
        known = {it["key"].lower() for desk in self.desks for it in [*desk.rows, *desk.keys]}
        return next(key for key in iter(lambda: secrets.token_hex(20), "") if key not in known)

    def of_worker(self) -> str:
        """The directories of all desks, without a key."""
        rows = [[it[name] if name != "key" else "" for name in COLUMNS] for desk in self.desks for it in desk.rows]
        return text_of([COLUMNS, *rows])

    def write(self, scripts: Path) -> None:
        """Tries all files, and puts all of them in their places, or none."""
        finish(self.path)
        try:
            self.put_all(scripts)
            sync(self.path)
            (self.path / WHOLE).touch(0o600)
            sync(self.path)
        except BaseException:
            (self.path / WHOLE).unlink(missing_ok=True)
            finish(self.path)
            raise
        finish(self.path)
        # (where nobody can be told, it is taken up all the same)
        with contextlib.suppress(OSError):
            for it in self.closed:
                print(f"{it} was open to others, who may know its keys; it is closed now", file=sys.stderr, flush=True)
            for (kind, sender), name in sorted(self.nobodys.items()):
                print(f"{name} is in no directory, so the {kind} {sender} is not its any more", file=sys.stderr, flush=True)
            for it in (it for _, it in self.beyond if not it.exists()):
                print(f"{it} is gone, so nginx knows none of its customers any more", file=sys.stderr, flush=True)
        self.closed, self.nobodys, self.beyond = [], {}, [it for it in self.beyond if it[1].exists()]

    def rehearse(self, scripts: Path) -> None:
        """Tries all files, and leaves everything as it is."""
        finish(self.path)
        try:
            self.put_all(scripts)
        finally:
            finish(self.path)
            self.closed = []

    def put_all(self, scripts: Path) -> None:
        desks, workers = group_of("hqdesk"), group_of("hqrelay")
        for it in self.desks:
            self.put_closed(it.path, it.text(), 0o640, desks)
            self.put_keys(it, desks)
            self.check(it)
        senders = [[*SENDERS, SINCE], *([*it, name, self.since(it)] for it, name in sorted(self.senders.items()))]
        put_beside(self.path / "senders.csv", text_of(senders), 0o640, workers)
        gone = [DROPPED, *([name, *row] for name, row in sorted(self.dropped.items()))]
        put_beside(self.path / "dropped.csv", text_of(gone), 0o640, desks)
        erased = [[*ERASED, ERASURE], *([name, *it] for name, it in sorted(self.erased.items()))]
        put_beside(self.path / "erased.csv", text_of(erased), 0o640, desks)
        put_beside(self.path / "relay.csv", self.of_worker(), 0o640, workers)
        desks_of = [DESKS, *([row["name"], desk.name] for desk in self.desks for row in desk.rows)]
        put_beside(self.path / "desks.csv", text_of(desks_of), 0o640, workers)
        with tempfile.TemporaryDirectory(dir=self.path, prefix=TRIAL) as made:
            given = [f"{it.settings['LISTEN']}={it.path}{BESIDE}" for it in self.desks]
            tried([scripts / "desk-maps", made, *given, *(f"{address}={it}" for address, it in self.beyond if it.exists())])
            maps: List[Tuple[str, int, Callable[[Path, str, int, int], object]]] = [
                ("keys.map", 0o600, self.put_closed), ("names.map", 0o640, put_beside),
                ("desks.conf", 0o644, put_beside)]
            for name, mode, put in maps:
                # (it names directories, which are in their places by then)
                put(self.path / name, Path(made, name).read_text().replace(f"{BESIDE}\n", "\n"), mode, desks)
            self.check_worker(Path(made))

    def put_closed(self, path: Path, text: str, mode: int, group: int) -> None:
        """A file with keys."""
        self.closed += [path] if put_beside(path, text, mode, group, True) else []

    def put_keys(self, desk: Desk, group: int) -> None:
        """Its named keys, and the setting that has it read them. Without any there is no file, and settings stay as they are."""
        if taken := sorted(desk.keyed & {it["name"] for it in desk.rows}):
            raise Refused(f"{desk.keys_path} has keys of an earlier {', '.join(taken)}, and nothing was changed: "
                          "take their rows out first")
        if desk.keys:
            self.put_closed(desk.keys_path, desk.keys_text(), 0o640, group)
        elif desk.keys_path.exists():
            desk.keys_path.with_name(desk.keys_path.name + GONE).touch(0o600)
        if desk.settings_text() != desk.written:
            put_beside(desk.place, desk.settings_text(), 0o644, group)

    def check(self, desk: Desk) -> None:
        """What a start of the desk would say of its new directory, and of its named keys. (One that nobody has filled yet is as it was.)"""
        if not desk.rows and not desk.had_rows:
            return
        keys = ["--keys", f"{desk.keys_path}{BESIDE}"] if desk.keys else []
        tried(["hq", "check", "--directory", f"{desk.path}{BESIDE}", "--host", desk.settings["HOST"], "--relay-key-file",
               self.path / f"{desk.name}.key", *keys], f"{desk.path}: ")

    def check_worker(self, made: Path) -> None:
        """What the worker would say of its settings, with the new tables beside them."""
        for name in ("relay.ini", "relay.key"):
            if not (self.path / name).exists():
                return
            shutil.copy(self.path / name, made)
        for name in ("relay.csv", "senders.csv", "desks.csv"):
            shutil.copy(self.path / f"{name}{BESIDE}", made / name)
        tried(["hq-relay", made / "relay.ini", "settings"])


def group_of(name: str) -> int:
    """The number of a group; none where there is no such group."""
    with contextlib.suppress(KeyError):
        return grp.getgrnam(name).gr_gid
    return -1


def tried(words: list, what: str = "") -> None:
    ended = subprocess.run(words, stdin=subprocess.DEVNULL, capture_output=True, text=True, timeout=LONGEST, start_new_session=True)
    if ended.returncode:
        told = " / ".join(ended.stderr.strip().splitlines()) or f"status {ended.returncode}"
        raise Refused(f"{what}{Path(words[0]).name} refuses it, and nothing was changed: {told}")
