"""The record of restores, for hq-restore: which desks' stores are being put back, from which copies, and how far each is.

One file has it, which changes in one step. Beside it each desk has a mark, by which scripts go without reading that file: one keeps
everybody from a store that is being put back, and the other the worker from a start until its book fits the store.
"""
import contextlib
import fcntl
import json
import os
from pathlib import Path
from typing import Dict, Iterator, List, NamedTuple

import desk_files
from desk_apart import OF_A_FIT, OF_A_RESTORE, STOPPED
from desk_files import Refused

RECORD = STOPPED / ".restore"
# The steps: nothing is changed yet, what was there is copied, and the desk may start by the copy; or it is given up, and the desk is to
# start as it was.
BEGUN, COPIED, BACK, OFF = "begun", "copied", "back", "off"


@contextlib.contextmanager
def alone() -> Iterator[None]:
    """Nobody else restores meanwhile."""
    STOPPED.mkdir(mode=0o700, exist_ok=True)
    opened = os.open(STOPPED, os.O_RDONLY)
    try:
        fcntl.flock(opened, fcntl.LOCK_EX | fcntl.LOCK_NB)
        yield
    except BlockingIOError:
        raise Refused("another hq-restore is at work") from None
    finally:
        os.close(opened)


class Restore(NamedTuple):
    """The restore of a desk: from a copy in `backup` that was made at `copied`, with what was there before in `aside`."""

    backup: str
    aside: str
    copied: str
    # customers whose records are given up
    without: List[str]
    # whether nothing is put back, and the desk begins anew
    is_empty: bool
    # whether the copy has its lists beside it; else the moment decides
    has_lists: bool
    # whether desk-stop had stopped the desk before
    was_stopped: bool
    step: str = BEGUN
    # when an earlier copy was made, by which the desk may have started, and to which the worker's book is not fitted yet
    unfitted: str = ""


class Restores:
    """All restores that are under way, by desk; and whether the worker starts after them."""

    def __init__(self) -> None:
        record = json.loads(RECORD.read_text(encoding="utf-8")) if RECORD.exists() else {"desks": {}, "has_worker": False}
        try:
            self.desks: Dict[str, Restore] = {desk: Restore(**it) for desk, it in record["desks"].items()}
            self.has_worker: bool = record["has_worker"]
        except (TypeError, KeyError):
            raise Refused(f"{RECORD} is none of this release: end that restore by the release that began it") from None

    def __bool__(self) -> bool:
        return bool(self.desks) or self.has_worker

    def at(self, *steps: str) -> Dict[str, Restore]:
        return {desk: it for desk, it in self.desks.items() if it.step in steps}

    def write(self) -> None:
        """Puts all of it on the disk, and then the marks."""
        beside = RECORD.with_name(f"{RECORD.name}.new")
        with open(beside, "w", encoding="utf-8") as file:
            json.dump({"desks": {desk: it._asdict() for desk, it in self.desks.items()}, "has_worker": self.has_worker}, file)
            file.flush()
            os.fsync(file.fileno())
        beside.rename(RECORD)
        desk_files.sync(STOPPED)
        self.mark()

    def mark(self) -> None:
        """Makes the marks those of what is written: whoever was stopped between has left others."""
        wanted = {Path(STOPPED, (OF_A_FIT if it.step == BACK else OF_A_RESTORE).format(desk)) for desk, it in self.desks.items() if it.step != OFF}
        found = {path for end in (OF_A_FIT, OF_A_RESTORE) for path in STOPPED.glob(end.format("*"))}
        for path in wanted - found:
            path.touch(0o600)
        for path in found - wanted:
            path.unlink()
        desk_files.sync(STOPPED)

    def put(self, desk: str, restore: Restore) -> None:
        self.desks[desk] = restore
        self.write()

    def done(self, *desks: str) -> None:
        """These are done, or given up."""
        for it in desks:
            self.desks.pop(it, None)
        self.write()

    def end(self) -> None:
        """Nothing is left."""
        RECORD.unlink(missing_ok=True)
        self.desks, self.has_worker = {}, False
        self.mark()


def give_up(desks: List[str]) -> None:
    """Gives up the restores of desks that are gone for good. (Nobody makes a folder for that.)"""
    if not RECORD.exists():
        return
    with alone():
        restores = Restores()
        given_up = [it for it in desks if it in restores.desks]
        restores.done(*given_up)
    for it in given_up:
        print(f"The store of {it} was being put back, and is half done: move it away before a desk of this name is set up again. Type `hq-restore` "
              "without words for what else is under way", flush=True)
