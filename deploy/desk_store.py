"""The store of a desk that does not run, as its rows: for the scripts beside it, each of which runs as the user of the desks."""
import contextlib
import os
import sqlite3
import time
from typing import Dict, Iterator, List, Set, Tuple

VERSION = 3
SCHEMA = "desk_schema"
TABLES = ("heads", "messages", "recipients", "lines", "marks", "notices", "holds", "ends")

# In seconds: how long the look at a store of whatever release takes at most.
LONGEST_LOOK = 5

class Refused(Exception):
    """Nothing was changed; the text says why."""


def opened(path: str, is_earlier_too: bool = False) -> sqlite3.Connection:
    """A store that no desk has, by a connection whose commits are synced, and which overwrites what is deleted. One of an earlier
    release is refused, or has fewer tables."""
    if not os.path.isfile(path):
        raise Refused(f"{path} is no file")
    store = sqlite3.connect(path, timeout=0, isolation_level=None)
    store.execute("PRAGMA synchronous = FULL")
    store.execute("PRAGMA secure_delete = ON")
    names, version = tables_in(store), 0
    if {SCHEMA, "heads"} <= names <= {SCHEMA, *TABLES}:
        (version,), = store.execute(f"SELECT max(version) FROM {SCHEMA}")
    if version not in range(1, VERSION + 1) or (version == VERSION and len(names) <= len(TABLES)):
        raise Refused(f"{path} is no store of this release")
    if version < VERSION and not is_earlier_too:
        raise Refused(f"{path} is a store of an earlier release: `hq migrate` comes first")
    return store


def tables_in(store: sqlite3.Connection) -> Set[str]:
    return {it for it, in store.execute("SELECT name FROM sqlite_master WHERE type = 'table'")}


def tables_of(store: sqlite3.Connection) -> List[str]:
    """Those with rows of customers that this store has."""
    names = tables_in(store)
    return [it for it in TABLES if it in names]


def schema_of(path: str) -> int:
    """The schema of a store of whatever release. (It leaves no index of the log there, which a desk has in its memory.)"""
    if not os.path.isfile(path):
        raise Refused(f"{path} is no file")
    with contextlib.closing(sqlite3.connect(path, timeout=1, isolation_level=None)) as store:
        # (whoever writes the file may make a view of that name that never ends)
        end = time.monotonic() + LONGEST_LOOK
        store.set_progress_handler(lambda: time.monotonic() > end, 10_000)
        store.execute("PRAGMA locking_mode = EXCLUSIVE")
        if not store.execute("SELECT 1 FROM sqlite_master WHERE type = 'table' AND name = ?", (SCHEMA,)).fetchone():
            raise Refused(f"{path} is no store")
        (version,), = store.execute(f"SELECT version FROM {SCHEMA}").fetchmany(2)
    return int(version)


def rows(store: sqlite3.Connection, name: str) -> Dict[str, List[tuple]]:
    """What a store has of a customer, by table."""
    asked = "SELECT * FROM {} WHERE customer = ?"
    return {it: sorted(store.execute(asked.format(it), (name,))) for it in TABLES}


def has_any(store: sqlite3.Connection, name: str) -> bool:
    """Whether a store has a row of a customer."""
    return any(store.execute(f"SELECT 1 FROM {it} WHERE customer = ? LIMIT 1", (name,)).fetchone() for it in tables_of(store))


def names_in(store: sqlite3.Connection) -> List[str]:
    """Of whom a store has rows."""
    asked = " UNION ".join(f"SELECT customer FROM {it}" for it in tables_of(store))
    return sorted(name for name, in store.execute(asked))


@contextlib.contextmanager
def changing(store: sqlite3.Connection) -> Iterator[None]:
    """A transaction, undone where it is not whole."""
    store.execute("BEGIN IMMEDIATE")
    try:
        yield
    except BaseException:
        store.execute("ROLLBACK")
        raise
    store.execute("COMMIT")


def dropped(store: sqlite3.Connection, name: str) -> int:
    """Deletes all rows of a customer in the transaction under way; how many there were."""
    return sum(store.execute(f"DELETE FROM {it} WHERE customer = ?", (name,)).rowcount for it in tables_of(store))


# So many rows are deleted between two looks at the clock.
PIECE = 1_000
# What retention deletes: whatever is older, up to the last row in the order of the numbers that is. Of notices the newest stays: by
# it the worker knows whether the desk is the one that it mailed for.
OLD = {
    "notices": "SELECT customer, max(number) FROM notices AS it WHERE moment < :before AND number <"
               " (SELECT max(number) FROM notices WHERE customer = it.customer) GROUP BY customer",
    "ends": "SELECT customer, max(number) FROM ends WHERE moment < :before GROUP BY customer",
}


def aged(store: sqlite3.Connection, before: int, most: int, longest: float) -> Tuple[Dict[str, int], bool]:
    """Deletes notices and history from before a moment, the oldest first: so many at most, and for so many seconds. How many of
    each there were, and whether more may be left."""
    found, end = dict.fromkeys(OLD, 0), time.monotonic() + longest
    with changing(store):
        for table, asked in OLD.items():
            for customer, last in store.execute(asked, {"before": before}).fetchall():
                count = size = PIECE
                while count == size:
                    size = min(PIECE, most - sum(found.values()))
                    count = store.execute(
                        f"DELETE FROM {table} WHERE customer = ? AND number IN"
                        f" (SELECT number FROM {table} WHERE customer = ? AND number <= ? ORDER BY number LIMIT ?)",
                        (customer, customer, last, size)).rowcount
                    found[table] += count
                    if sum(found.values()) == most or time.monotonic() > end:
                        return found, True
    return found, False
