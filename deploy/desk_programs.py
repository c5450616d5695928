"""What runs by the files of /etc/hq, for hq-customers: it is told of other files, and does what it does for a customer that is gone."""
import argparse
import configparser
import contextlib
import csv
import fcntl
import os
import re
import shutil
import signal
import subprocess
import time
from pathlib import Path
from typing import Dict, Iterator, List, Optional, Set, Tuple, Union

from desk_apart import STOPPED, run_apart
from desk_files import DESK, LONGEST, Desk, Folder, Refused

# The folder of the worker's mail in the settings that the package brings.
SPOOL = "/var/lib/hqrelay/spool"
# In seconds: what the worker may take, which waits until nobody works by earlier settings.
LONGEST_ERASING = 300
# What a customer may be called.
NAME = re.compile(r"[a-z0-9-]{1,32}")
# The begin of the name of a file that says which desks do not go by their files yet.
UNTAKEN = ".untaken-"
# What `desk-store` ends with where it did its work: wholly, where it knows no such customer, and where more is left.
DONE, UNKNOWN, MORE = 0, 3, 4
# So many seconds a `deliver` that has little under way takes to go by other tables, and nginx at most, whose processes of before take
# calls for a moment behind a reload.
SETTLES, RELOADS = 2, 0.5
# In this order, so that nobody brings mail of a customer to the nginx of workers before that knows its desk. nginx for customers
# comes last, since it serves other sites too, each of which may have a fault.
PROGRAMS = "hq-desk-workers", "hq-relay-intake", "hq-relay-deliver", "nginx"


def is_active(unit: str) -> bool:
    # (in a session of its own, as all that takes files up: what is sent to those of this terminal does not end it)
    return not subprocess.run(["systemctl", "is-active", "--quiet", unit], stdin=subprocess.DEVNULL, start_new_session=True).returncode


def is_wanted(unit: str) -> bool:
    """Whether a unit runs, or starts at a boot."""
    asked = ["systemctl", "--quiet", "is-enabled", unit]
    return is_active(unit) or not subprocess.run(asked, stdin=subprocess.DEVNULL, stderr=subprocess.DEVNULL).returncode


def go_on() -> None:
    """Whoever closes the terminal, or stops this, does not keep what is written from being taken up: an old key would go on."""
    # (what is begun here would inherit that signals are ignored, and so they are handled)
    for it in (signal.SIGHUP, signal.SIGINT, signal.SIGTERM):
        signal.signal(it, lambda *_: None)


@contextlib.contextmanager
def untaken(folder: Path, desks: List[Desk]) -> Iterator[None]:
    """Notes these desks as long as nothing goes by the files. A fault that is printed ends that too, and a kill does not."""
    note = folder / f"{UNTAKEN}{os.getpid()}"
    with open(os.open(note, os.O_WRONLY | os.O_CREAT | os.O_TRUNC, 0o600), "wb", 0) as file:
        try:
            fcntl.flock(file, fcntl.LOCK_EX)
            file.write("".join(f"{it.name}\n" for it in desks).encode())
            yield
        finally:
            note.unlink(missing_ok=True)


def take_up_left(scripts: Path, folder: Folder) -> None:
    """Has what runs go by the files of a call that was killed: a key that it has ended would go on, and is in no file."""
    left: List[str] = []
    with contextlib.ExitStack() as taken_up:
        for note in folder.path.glob(f"{UNTAKEN}*"):
            # (whoever is at work has the note, and may have removed it by now)
            with contextlib.suppress(BlockingIOError, FileNotFoundError):
                file = taken_up.enter_context(open(note))
                fcntl.flock(file, fcntl.LOCK_EX | fcntl.LOCK_NB)
                left += ["", *file.read().split()]
                taken_up.callback(note.unlink, missing_ok=True)
        if left:
            go_on()
            try:
                take_up(scripts, [it for it in folder.desks if it.name in left], True)
            except Refused as fault:
                raise Refused(f"nothing is done of this, since an earlier call was killed, and what is left of that fails: {fault}") from None


def take_up(scripts: Path, desks: List[Desk], is_gone: bool) -> None:
    """Has what runs go by the files: desks first, so that nobody speaks to them of a customer whom they do not know; and last
    where a customer is gone. A fault of one keeps none of the others from it; all are told in the end."""
    faults: List[str] = []

    def restart() -> None:
        for it in desks:
            if is_active(f"hq-desk@{it.name}"):
                faults.extend(fault_of([scripts / "desk-restart", it.name]))

    if not is_gone:
        restart()
    has_worker = is_gone and is_active("hq-relay-deliver")
    faults.extend(reload_all())
    if is_gone:
        time.sleep(SETTLES if has_worker else 0)
        restart()
    if faults:
        raise Refused(f"the files are written, and not taken up by all; mend this, and run these again: {' / '.join(faults)}")


def reload_all() -> List[str]:
    """Has all but the desks go by the files; the faults of that."""
    return [fault for it in PROGRAMS if is_active(it) for fault in fault_of(["systemctl", "reload", it])]


def fault_of(words: list) -> List[str]:
    """Runs a command; what is to be told where it fails."""
    told = " ".join(map(str, words))
    try:
        ended = subprocess.run(words, stdin=subprocess.DEVNULL, stderr=subprocess.PIPE, text=True, timeout=LONGEST, start_new_session=True)
    except (OSError, subprocess.SubprocessError) as fault:
        return [f"{told}: {fault}"]
    return [f"{told}: {' / '.join(ended.stderr.strip().splitlines()) or f'status {ended.returncode}'}"] if ended.returncode else []


def of_worker(folder: Path, name: str) -> str:
    """What the worker erases of a customer, as its user, in its own words."""
    if not (folder / "relay.ini").exists():
        return "it is not set up"
    ended = as_worker(folder, "erase", name)
    if ended.returncode:
        told = " / ".join(ended.stderr.strip().splitlines())
        raise Refused(f"the worker erases nothing: {told or f'status {ended.returncode}'}")
    return ended.stdout.strip()


def book_of(folder: Path) -> Path:
    """Where the worker of these settings remembers what it has; without settings, where that of the package does."""
    read = configparser.ConfigParser(interpolation=None, strict=False)
    try:
        read.read(folder / "relay.ini", encoding="utf-8")
        return folder / read.get("spool", "folder", fallback=SPOOL) / "book.db"
    except configparser.Error as fault:
        raise Refused(f"{folder / 'relay.ini'}: {fault}") from None


def is_known_to_worker(folder: Path, name: str) -> bool:
    """Whether the worker has anything of a customer. Before the first call of hq-customers it has no table, and nobody's mail. Where
    the settings are gone and its mail is not, as behind a purge, nobody knows whose that is."""
    if not all((folder / it).exists() for it in ("relay.ini", "relay.csv")):
        if os.path.lexists(book_of(folder)):
            raise Refused(f"{book_of(folder).parent} has mail of earlier customers, and {folder} no table of them: put {folder} back from "
                          "its backup; or, if nobody's mail of before is wanted, remove that folder")
        return False
    ended = as_worker(folder, "knows", name)
    if ended.returncode not in (DONE, UNKNOWN):
        told = " / ".join(ended.stderr.strip().splitlines())
        raise Refused(f"the worker does not tell what it has: {told or f'status {ended.returncode}'}")
    return ended.returncode == DONE


def as_worker(folder: Path, command: str, name: str) -> "subprocess.CompletedProcess[str]":
    words: List[Union[str, Path]] = ["hq-relay", folder.absolute() / "relay.ini", command, name]
    if os.geteuid() == 0:
        words = [Path(__file__).resolve().parent / "hq-as", "hqrelay", *words]
    return run_apart(words, longest=LONGEST_ERASING)


@contextlib.contextmanager
def printed_behind(key: Optional[str], is_of_files: bool) -> Iterator[None]:
    """Prints a key behind what is done meanwhile, so that it works once somebody has it. A fault of that keeps it from nobody, since
    it stands in the files."""
    faults: List[str] = []
    try:
        yield
    except (Refused, OSError, subprocess.SubprocessError) as fault:
        faults.append(str(fault))
    if key and not is_of_files and shutil.which("systemctl") and is_active("nginx"):
        time.sleep(RELOADS)
    if key and (unprinted := fault_of_printing(key)):
        faults.append(f"all was done, but the key could not be printed: {unprinted}; `hq-customers key` and `add-key` make others")
    if faults:
        raise Refused(" / ".join(faults))


def fault_of_printing(text: str) -> str:
    """Prints it; why that fails, where it does."""
    try:
        print(text, flush=True)
    except OSError as fault:
        # (else it is tried once more at the end)
        os.dup2(os.open(os.devnull, os.O_WRONLY), 1)
        return str(fault)
    return ""


def units_of(desk: str) -> List[str]:
    return [f"hq-desk@{desk}.service", f"hq-desk-retain@{desk}.timer", f"hq-desk-check@{desk}.timer"]


def has_unit(desk: str) -> bool:
    """Whether a unit of a desk runs, or starts at a boot."""
    # (that of the check is wanted by the desk alone, and systemd calls each such timer enabled)
    desk_and_retention, check = units_of(desk)[:2], units_of(desk)[2]
    return shutil.which("systemctl") is not None and (any(map(is_wanted, desk_and_retention)) or is_active(check))


def end(desks: List[str]) -> None:
    """Ends desks whose settings are gone, and by which they may still run."""
    if shutil.which("systemctl") and (faults := fault_of(["systemctl", "disable", "--now", *(unit for it in desks for unit in units_of(it))])):
        raise Refused(f"nothing was changed, and a desk may still run: {faults[0]}")


def forget_stop(desks: List[str]) -> None:
    """No mark of desk-stop is left of desks that are gone: a new one of that name starts."""
    for it in desks:
        with contextlib.suppress(FileNotFoundError):
            (STOPPED / it).unlink()


def count_again() -> None:
    """Has the counts for Prometheus made anew, without waiting, where they are made at all."""
    if shutil.which("systemctl") and is_active("hq-desk-metrics.timer"):
        subprocess.run(["systemctl", "start", "--no-block", "hq-desk-metrics.service"], stdin=subprocess.DEVNULL, check=False)


def stores_in(stores: Path, desks: List[Desk]) -> Tuple[List[str], List[str]]:
    """The names of all stores: those of the desks, and those whose desk's settings are gone; and the files that can be none's."""
    known = [it.name for it in desks]
    others = sorted({it.stem for it in stores.glob("*.db")} - {*known})
    return [*known, *(it for it in others if DESK.fullmatch(it))], [it for it in others if not DESK.fullmatch(it)]


def refuse_gone(folder: Folder, stores: Path, dropped: List[str]) -> None:
    """Refuses to take a desk for gone whose store is there, and whose settings may be away for a moment: its customers would lose
    their logins and domains. `dropped` are desks that are gone."""
    refuse_rows_beyond(folder)
    known = {*(it.name for it in folder.desks), *dropped}
    for desk in sorted({desk for name, desk in folder.desks_before if name in folder.by_hand} - known):
        if os.path.lexists(stores / f"{desk}.db"):
            raise Refused(f"{folder.path / desk}.env is missing, {stores / desk}.db is there, and nothing was changed: put that file back. "
                          f"Where {desk} is gone for good, type `hq-customers drop-desk {desk}`: its customers are dropped then")


def of_store(scripts: Path, desk: str, stores: Path, command: str, what: str, read: str = "") -> Optional[Tuple[int, str]]:
    """What `desk-store` does with the store of the desk of this name, as the user of the desks, while the desk is away for that
    moment: its status, and what it prints. `read` is what it reads. None where there is no store."""
    store = stores / f"{desk}.db"
    if not os.path.lexists(store):
        return None
    words: List[Union[str, Path]] = [scripts / "desk-store", command, store.absolute(), what]
    if os.geteuid() == 0 and shutil.which("systemctl"):
        words = [scripts / "desk-restart", desk, "--stopped", *(["--input"] if read else []), *words]
    # (it takes as long as it takes: who ends it would leave the desk stopped)
    ended = run_apart(words, read)
    if ended.returncode not in (DONE, UNKNOWN, MORE):
        told = " / ".join(ended.stderr.strip().splitlines())
        raise Refused(f"the store of {desk}: {told or f'status {ended.returncode}'}")
    return ended.returncode, ended.stdout.strip()


@contextlib.contextmanager
def kept_for_later(faults: List[str]) -> Iterator[None]:
    """A store at which nothing can be done keeps nobody from the others."""
    try:
        yield
    except (Refused, OSError) as fault:
        faults.append(str(fault))


def told_at_last(faults: List[str]) -> None:
    if faults:
        raise Refused("the others are done; mend this, and run it again (a store of no desk may go to another folder): "
                      f"{' / '.join(faults)}")


def names_in(directory: Path) -> Set[str]:
    with open(directory, encoding="utf-8-sig", newline="") as file:
        return {row.get("name") or "" for row in csv.DictReader(file)}


def customers_beyond(folder: Folder) -> Dict[str, Tuple[str, Path]]:
    """Who is a customer of a desk beyond this machine, with its address and its directory."""
    return {name: (address, path) for address, path in folder.beyond if path.exists() for name in names_in(path)}


def refuse_customer(folder: Folder, name: str) -> None:
    """Refuses to erase who is a customer, also of a desk beyond this machine, whose store is there."""
    if any(it["name"] == name for desk in folder.desks for it in desk.rows):
        raise Refused(f"{name} is a customer: `hq-customers drop {name}` comes first")
    address, path = customers_beyond(folder).get(name, ("", None))
    if path:
        raise Refused(f"{name} is a customer of the desk at {address}, which is at another machine, and nothing was erased: drop and erase it "
                      f"there; then take its row out of {path}, and type `desk-maps` with all desks")


def refuse_other_key(desk: Desk) -> None:
    """Refuses a desk for a customer where the worker, which has one key for all desks, has another one: its mail would wait, and bounce."""
    of_worker, of_desk = (desk.folder / f"{it}.key" for it in ("relay", desk.name))
    if of_worker.exists() and of_desk.exists() and of_worker.read_text().strip() != of_desk.read_text().strip():
        raise Refused(f"{of_desk} has another key than {of_worker}, by which the worker asks each desk: type `cat {of_worker} >{of_desk}`, and "
                      f"`systemctl try-restart hq-desk@{desk.name}`")


def refuse_rows_beyond(folder: Folder) -> None:
    """Refuses to take somebody for dropped who was put into the worker's table by hand, and whose desk is beyond this machine."""
    # (who was at a desk that was here before is dropped, wherever that desk is now)
    beyond = customers_beyond(folder)
    for name in sorted((beyond.keys() & {*folder.by_hand}) - {it[0] for it in folder.desks_before}):
        raise Refused(f"{folder.path / 'relay.csv'} has a row of {name}, a customer of the desk at {beyond[name][0]}, which is at another machine, and "
                      "nothing was changed. That table is of the desks of this machine alone, since two workers would send the mail of one "
                      "customer twice: take the row out, and those of its logins and domains out of senders.csv")


def left_of(name: str, beyond: List[Tuple[str, Path]]) -> str:
    """What there is of a customer behind its erasure."""
    others = "".join(f"; what the desk at {address} has, at another machine, until it is erased there" for address, _ in beyond)
    return (f"Of {name} there is left: backups from before now, until you delete them; lines of /var/log/hqdesk and "
            "/var/log/hq-nginx, for 90 days; the log of Postfix; what Prometheus has read, as long as it keeps that; and mail that waits "
            f"in the Postfix that takes mail in (postqueue -j), until its next try, at which it bounces whoever has the name by then{others}.")


def refuse_elsewhere(scripts: Path, folder: Folder, its_desk: Desk, given: argparse.Namespace) -> None:
    """Refuses a desk for a firm whose records are in another one's store, where it would not find them."""
    for desk in stores_in(given.store, folder.desks)[0]:
        found = None if desk == its_desk.name else of_store(scripts, desk, given.store, "knows", given.name)
        if found and found[0] != UNKNOWN:
            raise Refused(f"the records of {given.name} are in the store of {desk}: add it by --desk {desk}, and then type "
                          f"`hq-customers move {given.name} --desk {its_desk.name}`; or, if nobody wants those, `hq-customers erase "
                          f"{given.name} --desk {desk}` erases them")


def refuse_known(scripts: Path, folder: Folder, its_desk: Desk, given: argparse.Namespace) -> None:
    """Refuses a name under which a desk or the worker has records of somebody: who gets it would read them."""
    ways = f"`hq-customers erase {given.name}` erases them; with --same-firm that firm finds them again"
    if given.name in folder.dropped:
        raise Refused(f"{given.name} was dropped on {folder.dropped[given.name][1]}, and its records are still there: {ways}")
    if is_known_to_worker(given.folder, given.name):
        raise Refused(f"the worker has records of an earlier {given.name}: {ways}")
    # (a desk is away while it is asked: once there is a table of all names, who went from another desk's directory is known)
    for desk in stores_in(given.store, folder.desks)[0] if folder.is_first else [its_desk.name]:
        found = of_store(scripts, desk, given.store, "knows", given.name)
        if found and found[0] != UNKNOWN:
            raise Refused(f"the desk {desk} has records of an earlier {given.name}: {ways}")
