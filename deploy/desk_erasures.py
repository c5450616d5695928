"""Records in the stores of desks that are nobody's there any more, for hq-customers: of who was erased since a copy of a store was made,
or is a customer of another desk."""
import argparse
import sys
from datetime import datetime, timedelta, timezone
from pathlib import Path
from typing import Dict, List, NamedTuple, Optional, Tuple

import desk_programs
from desk_apart import MOVED, MOVES, restoring, under_way
from desk_files import DESKS, MOMENT, Desk, Erased, Folder, Refused, erased_in, now, table_of
from desk_programs import NAME


# So many names, and characters of each, are told that can be nobody's.
MOST_ODD = 40
# How long an erasure takes at most.
LONGEST_ERASURE = timedelta(hours=1)
# Where the lines are that an operator types.
PAGE = "/usr/share/doc/hq-desk/PROCEDURES.md.gz"


class Misplaced(NamedTuple):
    """A customer, a desk whose store has records of it, and the desk whose directory has it; empty, if it is nobody's."""

    name: str
    desk: str
    place: str


def erase_at(scripts: Path, folder: Folder, given: argparse.Namespace) -> None:
    """Erases the records of a name in one store, at whose desk nobody has it."""
    desks = desk_programs.stores_in(given.store, folder.desks)[0]
    if given.desk not in desks:
        raise Refused(f"--desk has to be one of: {', '.join(desks)}")
    if places_of(folder).get(given.name) == given.desk:
        raise Refused(f"{given.name} is a customer of {given.desk}: `hq-customers drop {given.name}` comes first")
    found = desk_programs.of_store(scripts, given.desk, given.store, "erase", given.name)
    print(f"the store of {given.desk}: {found[1] if found else 'there is none'}", flush=True)


def erase_again(scripts: Path, folder: Folder, desk: Desk, given: argparse.Namespace, more: List[str]) -> List[Desk]:
    """Erases in the store of a desk, which a backup of before has brought back, whoever was erased since then, and more."""
    if given.copy:
        refuse_unfit(folder, desk, given.copy, given.without)
    names = erased_since_copy(folder, desk, given.copy) if given.copy else erased_since(folder, given.copied)
    names += [*more, *(row["name"] for row in desk.rows if row["name"] in given.without)]
    found = desk_programs.of_store(scripts, desk.name, given.store, "erase-again", "-", "".join(f"{it}\n" for it in names))
    print(f"the store of {desk.name}: {found[1] if found else 'there is none'}", flush=True)
    # (they are in nobody's way, and whoever is at another desk by settings of before would lose them)
    if others := misplaced(scripts, folder, given.store, desk.name):
        print(f"This was left as it is: {ways_of(folder, others)}", file=sys.stderr, flush=True)
    return []


def compare(scripts: Path, folder: Folder, stores: Path) -> List[Desk]:
    """Refuses if a store has records of a customer of another desk. A desk is away while its store is looked into."""
    faults: List[str] = []
    found: List[Misplaced] = []
    for desk in desk_programs.stores_in(stores, folder.desks)[0]:
        with desk_programs.kept_for_later(faults):
            if why := restoring(desk):
                raise Refused(why)
            found += misplaced(scripts, folder, stores, desk)
    desk_programs.told_at_last(faults)
    if found:
        raise Refused(ways_of(folder, found))
    print("each store has records of its own customers alone")
    return []


def retain(scripts: Path, folder: Folder, given: argparse.Namespace) -> List[Desk]:
    """Erases what is older in each store, by portions, for each of which a desk is away."""
    faults: List[str] = []
    for desk in desk_programs.stores_in(given.store, folder.desks)[0]:
        found: Optional[Tuple[int, str]] = desk_programs.MORE, ""
        while found and found[0] == desk_programs.MORE:
            found = None
            with desk_programs.kept_for_later(faults):
                found = desk_programs.of_store(scripts, desk, given.store, "retain", given.days)
                print(f"{desk}: {found[1] if found else 'there is no store'}", flush=True)
    desk_programs.told_at_last(faults)
    return []


def erased_since_copy(folder: Folder, desk: Desk, copy: Path) -> List[str]:
    """Who was erased since desk-backup made a copy, by the list beside it."""
    before = erased_in(list_of(copy, desk.name, "erased"))
    return sorted(name for name, it in folder.erased.items() if not is_same(before.get(name), it))


def erased_since(folder: Folder, copied: str) -> List[str]:
    """Who was erased since a moment, for a copy without lists. Of somebody who has the name again it has to be sure."""
    # (an erasure takes a while, and a clock that ran ahead at it has its moment still to come)
    edge = (moment_of(copied) - LONGEST_ERASURE).strftime(MOMENT)
    there = {*places_of(folder), *folder.dropped}
    unsure = [f"{name} at {it.moment}" for name, it in sorted(folder.erased.items())
              if name in there and (edge <= it.moment < copied or it.moment > now())]
    if unsure:
        raise Refused(f"it is not sure that this copy is from before these were erased, whose names somebody has again: {', '.join(unsure)}. Take "
                      "a copy of desk-backup, or one of an hour later, or correct a row of erased.csv that is ahead of the clock")
    return sorted(name for name, it in folder.erased.items() if it.moment >= edge)


def is_same(before: Optional[Erased], after: Erased) -> bool:
    """Whether both are one erasure. (`add` sets back a moment that is ahead of its clock.)"""
    return before is not None and (before.erasure == after.erasure if after.erasure else before == after)


def list_of(copy: Path, desk: str, what: str) -> Path:
    """The table that desk-backup has written beside a copy. (A copy of an earlier release has none, nor has a snapshot.)"""
    return copy / f"{desk}.{what}.csv"


def refuse_unfit(folder: Folder, desk: Desk, copy: Path, given_up: List[str]) -> None:
    """Refuses a copy of a desk whose lists do not fit the settings: these are of before it, or somebody moved there since."""
    refuse_later(folder, desk, copy)
    refuse_earlier(folder, desk, copy, given_up)


def refuse_later(folder: Folder, desk: Desk, copy: Path) -> None:
    """Refuses a copy that has been through an erasure of which the settings know nothing: by them the earlier firm has the
    name, and would read what the copy has of the next one."""
    its, copied = {*places_of(folder), *folder.dropped}, erased_in(list_of(copy, desk.name, "erased"))
    later = sorted(name for name, it in copied.items() if name in its and is_later(it, folder.erased.get(name)))
    if later:
        # (a lost store has no desk that tells what is queued)
        ways = " && ".join(f"{f'hq-customers drop {it} --queued && ' if it not in folder.dropped else ''}hq-customers erase {it}" for it in later)
        raise Refused(f"{folder.path} is of before this copy of {desk.name}: it does not know that {', '.join(later)} was erased, "
                      "whose name may be another firm's in the copy. Put its newest copy back. If there is no newer one, "
                      f"`{ways}` ends the earlier firm first, and erases what the copy has of that name")


def is_later(copied: Erased, known: Optional[Erased]) -> bool:
    """Whether a copy has been through an erasure that is later than the one that is known of that name."""
    return known is None or (not is_same(copied, known) and copied.moment > known.moment)


def refuse_earlier(folder: Folder, desk: Desk, copy: Path, given_up: List[str]) -> None:
    """Refuses a copy of a desk from before somebody moved there: its records are in it no more."""
    at = dict(table_of(list_of(copy, desk.name, "desks"), DESKS))
    moved = sorted({row["name"] for row in desk.rows if at.get(row["name"], desk.name) != desk.name} - {*given_up})
    if moved:
        raise Refused(f"this copy of {desk.name} is from before {', '.join(moved)} moved there, or {folder.path} is of before they left again: the "
                      f"copy has nothing of them. Take a later copy, or put the newest one of {folder.path} back. If there is neither, "
                      f"{' '.join(f'--without {it}' for it in moved)} gives up what they had")


def refuse_moved(folder: Folder, desk: Desk, copied: str, given_up: List[str]) -> None:
    """Refuses a copy of a moment before somebody moved to the desk, by what moves have written down."""
    moved = {name: moment for name, moment in table_of(folder.path / MOVED, MOVES)}
    since = sorted({row["name"] for row in desk.rows if moved.get(row["name"], "") >= copied} - {*given_up})
    if since:
        raise Refused(f"this copy of {desk.name} is from before {', '.join(since)} moved there, and has nothing of them: take a later one. If there "
                      f"is none, {' '.join(f'--without {it}' for it in since)} gives up what they had")


def later(desk: Desk, copy: Path) -> List[str]:
    """The customers of a desk who came after a copy was made."""
    known = {it[0] for it in table_of(list_of(copy, desk.name, "desks"), DESKS)}
    return sorted(row["name"] for row in desk.rows if row["name"] not in known)


def places_of(folder: Folder) -> Dict[str, str]:
    """The desk of each customer."""
    return {row["name"]: desk.name for desk in folder.desks for row in desk.rows}


def misplaced(scripts: Path, folder: Folder, stores: Path, desk: str) -> List[Misplaced]:
    """Of whom the store of a desk has records, who are customers of another one, or of none. (Who is half moved may be in both, and who was
    dropped is known to have some.)"""
    its, going = places_of(folder), under_way(folder.path)
    found = desk_programs.of_store(scripts, desk, stores, "names", "-")
    there = found[1].split("\n") if found else []
    # (whoever has taken over the desks' user may write what root would type)
    for it in [it for it in there if it and not NAME.fullmatch(it)][:MOST_ODD]:
        print(f"{desk} has records of {ascii(it[:MOST_ODD])}, which is nobody's name: nobody reads them", file=sys.stderr, flush=True)
    names = [it for it in there if NAME.fullmatch(it) and it not in folder.dropped and (not going or it != going.customer)]
    return [Misplaced(name, desk, its.get(name, "")) for name in names if its.get(name) != desk]


def ways_of(folder: Folder, found: List[Misplaced]) -> str:
    """Whose records are at which desk, and the ways out for each."""
    told = ", ".join(f"{desk} has records of {name}, who is {f'at {place}' if place else 'no customer'} by {folder.path}" for name, desk, place in found)
    erases = " && ".join(f"hq-customers erase {name} --desk {desk}" for name, desk, _ in found)
    adds = [f"; `hq-customers add {name} --desk {desk} --same-firm` has {name} find them again" for name, desk, place in found if not place]
    moves = (f"; and `hq-customers move NAME --desk DESK --same-firm` moves one who is at another desk to the one that has these records, and "
             f"erases the others (\"Backup of the keys\" in {PAGE})" if any(it.place for it in found) else "")
    return f"{told}. If {folder.path} is of before, put its newest copy back. Else `{erases}` erases these{''.join(adds)}{moves}"


def moment_of(text: str) -> datetime:
    return datetime.strptime(text, MOMENT).replace(tzinfo=timezone.utc)
