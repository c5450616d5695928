"""The move of a customer to another desk, for hq-customers: wherever it is cut, the same command goes on from there.

A mark in the folder of settings says who is moved, from where and to where. It stands there, synced, before the first change, and
goes behind the last. From then on marks of its own keep both desks from a start, that of a boot too. desk-start refuses both
desks while the mark is there, and hq-customers whatever else works at the customer or at stores. Where a step fails before a row
is in the second store, both desks start again and the mark goes. A desk that desk-stop has stopped meanwhile stays stopped.
"""
import argparse
import contextlib
import os
import subprocess
import sys
import time
from pathlib import Path
from typing import List, Optional

import desk_programs
from desk_apart import (IS_ASKED, IS_COPIED, IS_OWN, MOVED, MOVES, MOVING, OF_A_FIT, OF_A_MOVE, OF_DESKS, OF_FILES, STOPPED,
                        Move, alone, marked, restoring, run_apart, under_way)
from desk_files import BESIDE, FURTHER, Desk, Folder, Refused, now, put_beside, sync, table_of, text_of

# What works at stores, and would find the customer in both, or in none. (erase-again is for a store that comes back meanwhile.)
OF_STORES = "erase", "retain", "compare"
OF_WORKER = "hq-relay-intake", "hq-relay-deliver"


def refuse_meanwhile(folder: Path, command: str, name: Optional[str], desk: Optional[str]) -> None:
    """Refuses what would change the records of a customer whose move was stopped. (What keeps them from the second store may be erased
    there, as long as the first one counts.)"""
    going = under_way(folder)
    is_in_the_way = going and command == "erase" and (name, desk, going.step) == (going.customer, going.target, IS_ASKED)
    # (the name of erase-again is that of a desk)
    if going and not is_in_the_way and (command in OF_STORES or (name == going.customer and command != "erase-again")):
        raise Refused(going.told())


def refuse_restored(*desks: Desk, is_fit_too: bool = True) -> None:
    """Refuses to take a customer from a desk, or to one, whose store is being put back; and until the worker's book fits that store, since
    the worker would not send again what the copy lacks of the customer's mail."""
    if why := next(filter(None, (restoring(it.name, *([OF_A_FIT] if is_fit_too else [])) for it in desks)), None):
        raise Refused(why)


def refuse_without_settings(folder: Folder) -> None:
    """Refuses to go on with a move as long as a desk of it has no settings."""
    going, known = under_way(folder.path), {it.name for it in folder.desks}
    if going and (gone := [it for it in (going.source, going.target) if it not in known]):
        raise Refused(f"{going.told()}, once {folder.path / gone[0]}.env is there again")


def mark(folder: Path, going: Move) -> None:
    beside = folder / f"{MOVING}.new"
    with open(os.open(beside, os.O_WRONLY | os.O_CREAT | os.O_TRUNC, 0o644), "w") as file:
        file.write(f"{' '.join(going)}\n")
        file.flush()
        os.fsync(file.fileno())
    beside.rename(folder / MOVING)
    sync(folder)


def unmark(folder: Path) -> None:
    (folder / MOVING).unlink(missing_ok=True)
    sync(folder)


def write_down(folder: Path, name: str) -> None:
    """Writes down when somebody moved: a copy of before, which has no list of who was at which desk, has nothing of it."""
    moved = {**{it: moment for it, moment in table_of(folder / MOVED, MOVES)}, name: now()}
    put_beside(folder / MOVED, text_of([MOVES, *([it, moment] for it, moment in sorted(moved.items()))]), 0o640, -1)
    (folder / f"{MOVED}{BESIDE}").rename(folder / MOVED)


def move(scripts: Path, folder: Folder, given: argparse.Namespace, its_desk: Desk, target: Desk) -> None:
    """Moves a customer, or ends a move that was stopped."""
    going = under_way(folder.path)
    if going and (going.customer, going.target) != (given.name, target.name):
        raise Refused(going.told())
    if not going and its_desk is target:
        print(f"{given.name} is at {target.name} already")
        end(scripts, folder, given.name)
        return
    # (a restore waits for the end of a half move before its desk starts)
    refuse_restored(its_desk, target, is_fit_too=not going)
    is_new = going is None
    step, kind = IS_OWN if given.same_firm else IS_ASKED, OF_FILES if given.files else OF_DESKS
    going = going or Move(given.name, its_desk.name, target.name, step, kind)
    if is_new:
        desk_programs.refuse_other_key(target)
        refuse(folder, given, its_desk, target)
    carry(folder, going)
    if is_new:
        folder.rehearse(scripts)
        refuse_stores(scripts, given, going)
    desk_programs.go_on()
    mark(folder.path, going)
    do(scripts, folder, given, going)
    unmark(folder.path)
    print(f"{given.name} is at {target.name} now")


def copied_anew(scripts: Path, folder: Folder, store: Path, desk: Desk) -> List[str]:
    """The store of a desk has come back. Who is half moved there is copied anew, as long as the first store has the
    records: what the second one has of them is of before. Whose records go there for that."""
    going = under_way(folder.path)
    if not going or going.target != desk.name or going.step == IS_OWN:
        return []
    if not is_known(scripts, store, going.source, going.customer):
        return []
    mark(folder.path, going._replace(step=IS_ASKED))
    return [going.customer]


def end(scripts: Path, folder: Folder, name: str) -> None:
    """Ends what is left of a move that was stopped behind its last step: a mark, and desks that were to start."""
    left = marked(folder.path)
    if left and left.customer == name:
        faults = [*desk_programs.reload_all(), *start(scripts, [it.name for it in folder.desks if it.name in (left.source, left.target)])]
        unmark(folder.path)
        if faults:
            raise Refused(" / ".join(faults))


def refuse(folder: Folder, given: argparse.Namespace, source: Desk, target: Desk) -> None:
    """Refuses what is known to fail, by the files alone."""
    if len(source.rows) == 1:
        raise Refused(f"{given.name} is the last customer of {source.name}, and a desk wants one. Nothing was changed. Add one first "
                      f"that nobody uses, as by `hq-customers add placeholder --desk {source.name} >/dev/null`")
    for desk in (source, target):
        if not os.path.lexists(given.store / f"{desk.name}.db"):
            raise Refused(f"{desk.name} has no store, and nothing was changed: start it once")
        if not given.files and (STOPPED / desk.name).exists():
            raise Refused(f"{desk.name} is kept stopped, and nothing was changed: `desk-start {desk.name}` comes first")
    # (what becomes of mail under way would be told of another message, of that ID)
    if given.same_firm and not given.files and any(map(desk_programs.is_active, OF_WORKER)):
        raise Refused("the worker runs, and nothing was changed: `desk-stop relay` comes first; and `hq-as hqrelay hq-relay /etc/hq/relay.ini "
                      f"restored {target.name} --copied \"$(date -u +%FT%TZ)\"` and `desk-start relay` behind this")


def refuse_stores(scripts: Path, given: argparse.Namespace, going: Move) -> None:
    """Refuses a store that is no store of this release, and a second one that has records of that name, unless they are its own."""
    is_known(scripts, given.store, going.source, going.customer)
    found = is_known(scripts, given.store, going.target, going.customer)
    if given.same_firm and not found:
        raise Refused(f"the store of {going.target} has no records of {going.customer}, and nothing was changed: leave out --same-firm")
    if found and not given.same_firm:
        raise Refused(f"the store of {going.target} has records of another {going.customer}, and nothing was changed. `hq-customers erase "
                      f"{going.customer} --desk {going.target}` erases them; with --same-firm they are its own, and those at {going.source} are "
                      "erased")


def is_known(scripts: Path, store: Path, desk: str, name: str) -> bool:
    found = desk_programs.of_store(scripts, desk, store, "knows", name)
    return found is not None and found[0] != desk_programs.UNKNOWN


def carry(folder: Folder, going: Move) -> None:
    """Has the row and the named keys of the customer stand at the second desk. (They do already where the files are written.)"""
    known = {it.name: it for it in folder.desks}
    source, target = known[going.source], known[going.target]
    for row in [it for it in source.rows if it["name"] == going.customer]:
        source.rows.remove(row)
        target.rows.append(row)
    if FURTHER in source.columns and FURTHER not in target.columns:
        target.columns.append(FURTHER)
    for row in target.rows:
        row.setdefault(FURTHER, "0")
    target.keys += [it for it in source.keys if it["customer"] == going.customer]
    source.keys = [it for it in source.keys if it["customer"] != going.customer]


def do(scripts: Path, folder: Folder, given: argparse.Namespace, going: Move) -> None:
    """Stops both desks, moves the rows, writes the files, and starts both by them."""
    desks = [] if given.files else sorted((going.source, going.target))
    try:
        stop(desks)
        with contextlib.ExitStack() as locks:
            held = [locks.enter_context(alone(it, "hq-customers")) for it in desks]
            move_rows(scripts, folder.path, given.store, going, held)
            write_down(folder.path, going.customer)
            folder.write(scripts)
    except (Refused, OSError, ValueError, subprocess.SubprocessError) as fault:
        call_off(scripts, given, desks, going, str(fault))
    faults = [] if given.files else [*desk_programs.reload_all(), *start(scripts, desks)]
    if faults:
        raise Refused(f"{going.customer} is at {going.target} now, and not all of it runs. Mend this, and type the same again: "
                      f"{' / '.join(faults)}")


def call_off(scripts: Path, given: argparse.Namespace, desks: List[str], going: Move, fault: str) -> None:
    """Leaves the customer where it was, as long as the second store has nothing of it; and always says so by a Refused."""
    try:
        is_begun = is_known(scripts, given.store, going.target, going.customer) or has_row(given.folder, going.target, going.customer)
    except (Refused, OSError, ValueError) as another:
        is_begun, fault = True, f"{fault} / {another}"
    if is_begun:
        kept = f"{going.source} and {going.target} stay stopped" if desks else "it is half moved"
        raise Refused(f"{going.told()} once this is mended; {kept} until then: {fault}")
    faults = start(scripts, desks)
    unmark(given.folder)
    raise Refused(f"{going.customer} stays at {going.source}, and nothing was moved: {' / '.join([fault, *faults])}")


def has_row(folder: Path, desk: str, name: str) -> bool:
    return any(it["name"] == name for it in Desk(folder / f"{desk}.env").rows)


def stop(desks: List[str]) -> None:
    """Stops desks until they are started here, over a boot too: so it is on the disk before anything else is done."""
    if not desks:
        return
    STOPPED.mkdir(mode=0o700, exist_ok=True)
    for it in desks:
        (STOPPED / OF_A_MOVE.format(it)).touch()
    for folder in (STOPPED, STOPPED.parent):
        sync(folder)
    for it in desks:
        units = [f"hq-desk@{it}.service", f"hq-desk-retain@{it}.service"]
        if faults := desk_programs.fault_of(["systemctl", "stop", *units]):
            raise Refused(faults[0])
        if any(map(desk_programs.is_active, units)):
            raise Refused(f"{it} does not stop")


def start(scripts: Path, desks: List[str]) -> List[str]:
    """Starts desks but those that desk-stop keeps stopped; the faults of that."""
    faults: List[str] = []
    if desks:
        time.sleep(desk_programs.RELOADS)
    for it in desks:
        (STOPPED / OF_A_MOVE.format(it)).unlink(missing_ok=True)
        if (STOPPED / it).exists():
            print(f"{it} stays stopped, as desk-stop has left it", file=sys.stderr)
        else:
            faults += desk_programs.fault_of([scripts / "desk-restart", it, "systemctl", "start", f"hq-desk@{it}.service"])
    if desks and STOPPED.exists():
        sync(STOPPED)
    return faults


def move_rows(scripts: Path, folder: Path, store: Path, going: Move, locks: List[int]) -> None:
    """Moves all rows of the customer. What the first store has is all of it until the mark says that it is copied: then the copy is."""
    if going.step == IS_ASKED:
        rows(scripts, store, "--copy", going, locks)
        mark(folder, going._replace(step=IS_COPIED))
    if rows(scripts, store, "--take", going, locks).endswith("none there"):
        print(f"no store has records of {going.customer}: if it had some, restore {going.target} from a copy that has them", file=sys.stderr)


# It waits for a command, and has the locks meanwhile, which that command's user does not get.
WAITS = "sh", "-c", '"$@"; exit "$?"', "sh"


def rows(scripts: Path, store: Path, step: str, going: Move, locks: List[int]) -> str:
    """A step of move-customer, as the user of the desks."""
    paths = [store.absolute() / f"{it}.db" for it in (going.source, going.target)]
    words = [scripts / "move-customer", step, *paths, going.customer]
    # (what is sent to those of this terminal does not end it)
    as_desk = [*WAITS, scripts / "hq-as", "hqdesk", *words] if os.geteuid() == 0 else words
    ended = run_apart(as_desk, start_new_session=True, pass_fds=locks)
    if ended.returncode:
        told = " / ".join(ended.stderr.strip().splitlines())
        raise Refused(told or f"move-customer ended with {ended.returncode}")
    return ended.stdout.strip()
