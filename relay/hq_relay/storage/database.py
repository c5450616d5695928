"""The database of the worker's book, one of SQLite in the spool's folder, and its tables.

`names` has the spool names that were taken, each with its answer; a record outlives the retries of
the MTA. Of a message that is `finished` the desk has all outcomes (2: its notices are still to be
mailed). `gone` is the moment from which on no list of the desk has it, and `size` the bytes of its
content.
`messages` has the spool name of each queue ID of the desk.
`journal` has the outcomes that the desk does not have yet.
`handed` has the attempts that were handed over to the Postfix that delivers (`attempts.py`).
`notices` has the number of the last notice of each customer that was mailed, or set aside.
`mailing` has the number of a notice of each customer whose mailing was begun.
`waiting` has the notices that were set aside, whole, because nobody takes them now.
`sums` has how many contents are kept of each customer that are queued, or gone without a last
outcome, and their bytes. Triggers keep it, so that no call counts rows.
"""
import fcntl
import sqlite3
import threading
from collections.abc import Iterator
from contextlib import contextmanager
from pathlib import Path
from typing import BinaryIO

# What a statement has in the place of a `?`.
Value = str | int | float | bytes | None

SCHEMA = """
CREATE TABLE IF NOT EXISTS names (
  spool TEXT PRIMARY KEY, customer TEXT NOT NULL, answer TEXT NOT NULL, at INTEGER NOT NULL,
  finished INTEGER NOT NULL DEFAULT 0, gone INTEGER, cleaned INTEGER NOT NULL DEFAULT 0,
  size INTEGER NOT NULL DEFAULT 0);
CREATE INDEX IF NOT EXISTS uncleaned ON names (customer) WHERE NOT cleaned;
CREATE INDEX IF NOT EXISTS failed ON names (customer) WHERE finished = 2;
CREATE INDEX IF NOT EXISTS cleaned ON names (customer, at) WHERE cleaned;
CREATE TABLE IF NOT EXISTS messages (
  customer TEXT NOT NULL, id TEXT NOT NULL, spool TEXT NOT NULL, at INTEGER NOT NULL,
  PRIMARY KEY (customer, id));
CREATE INDEX IF NOT EXISTS messages_at ON messages (customer, at);
CREATE INDEX IF NOT EXISTS messages_spool ON messages (customer, spool);
CREATE TABLE IF NOT EXISTS journal (
  number INTEGER PRIMARY KEY, customer TEXT NOT NULL, spool TEXT NOT NULL, id TEXT NOT NULL,
  attempt INTEGER NOT NULL, outcomes TEXT NOT NULL);
CREATE INDEX IF NOT EXISTS journal_spool ON journal (customer, spool);
CREATE TABLE IF NOT EXISTS handed (
  envelope TEXT PRIMARY KEY, customer TEXT NOT NULL, spool TEXT NOT NULL, id TEXT NOT NULL,
  attempt INTEGER NOT NULL, recipients TEXT NOT NULL, sender TEXT NOT NULL, at REAL NOT NULL,
  queue_id TEXT, outcomes TEXT NOT NULL DEFAULT '[]', done REAL,
  is_lost INTEGER NOT NULL DEFAULT 0);
CREATE UNIQUE INDEX IF NOT EXISTS under_way ON handed (customer, spool) WHERE done IS NULL;
CREATE INDEX IF NOT EXISTS handed_done ON handed (done) WHERE done IS NOT NULL;
CREATE INDEX IF NOT EXISTS handed_spool ON handed (spool);
CREATE INDEX IF NOT EXISTS handed_queue ON handed (queue_id) WHERE queue_id IS NOT NULL;
CREATE INDEX IF NOT EXISTS handed_of ON handed (customer) WHERE done IS NOT NULL;
CREATE TABLE IF NOT EXISTS notices (customer TEXT PRIMARY KEY, number INTEGER NOT NULL);
CREATE TABLE IF NOT EXISTS mailing (customer TEXT PRIMARY KEY, number INTEGER NOT NULL);
CREATE TABLE IF NOT EXISTS waiting (
  name TEXT PRIMARY KEY, customer TEXT NOT NULL, recipient TEXT NOT NULL, content BLOB NOT NULL,
  since REAL NOT NULL, tried REAL NOT NULL);
CREATE INDEX IF NOT EXISTS waiting_of ON waiting (customer);
"""
KEPT = ("CREATE INDEX IF NOT EXISTS kept ON names (customer, finished, size) "
        "WHERE NOT cleaned")
COUNTED = "{row}.finished = 0 AND NOT {row}.cleaned"
ADDED = ("INSERT INTO sums VALUES (NEW.customer, 1, NEW.size) ON CONFLICT (customer) DO UPDATE "
         "SET contents = contents + 1, bytes = bytes + excluded.bytes")
TAKEN_AWAY = ("UPDATE sums SET contents = contents - 1, bytes = bytes - OLD.size "
              "WHERE customer = OLD.customer; "
              "DELETE FROM sums WHERE customer = OLD.customer AND contents = 0")
SUMS = [
    "CREATE TABLE sums (customer TEXT PRIMARY KEY, contents INTEGER NOT NULL, "
    "bytes INTEGER NOT NULL)",
    "INSERT INTO sums SELECT customer, COUNT(*), SUM(size) FROM names "
    f"WHERE {COUNTED.format(row='names')} GROUP BY customer",
    *(f"CREATE TRIGGER {name} AFTER {change} ON names WHEN {COUNTED.format(row=row)} "
      f"BEGIN {action}; END"
      for name, change, row, action in (
          ("sums_insert", "INSERT", "NEW", ADDED), ("sums_delete", "DELETE", "OLD", TAKEN_AWAY),
          ("sums_before", "UPDATE", "OLD", TAKEN_AWAY), ("sums_after", "UPDATE", "NEW", ADDED)))]
# How many seconds a thread waits until another one has written.
LONGEST_WAIT = 60


class Connection(threading.local):
    """The connection of one thread to the database, and its file for turns at writing."""

    database: sqlite3.Connection | None = None
    turn: BinaryIO | None = None


class Database:
    """Each thread has a connection of its own. A transaction is synced to the disk when it ends.

    sqlite3.Error is raised if the database cannot be read or written.
    """

    def __init__(self, folder: Path):
        self.path, self.own = folder / "book.db", Connection()
        with self.writing() as database:
            for statement in SCHEMA.split(";"):
                database.execute(statement)
            columns = [row[1] for row in database.execute("PRAGMA table_info (names)")]
            if "size" not in columns:
                database.execute("ALTER TABLE names ADD COLUMN size INTEGER NOT NULL DEFAULT 0")
            database.execute(KEPT)
            if not database.execute("PRAGMA table_info (sums)").fetchone():
                for statement in SUMS:
                    database.execute(statement)

    def database(self) -> sqlite3.Connection:
        """The connection of this thread."""
        database = self.own.database
        if database is None:
            database = sqlite3.connect(str(self.path), timeout=LONGEST_WAIT, isolation_level=None)
            database.execute("PRAGMA journal_mode = WAL")
            database.execute("PRAGMA synchronous = FULL")
            # (what is deleted is mail of somebody)
            database.execute("PRAGMA secure_delete = ON")
            self.own.database = database
            self.own.turn = open(self.path.with_suffix(".turn"), "wb")
        return database

    def close(self) -> None:
        """Closes the connection of this thread; the next call opens a new one."""
        self.database().close()
        if self.own.turn:
            self.own.turn.close()
        self.own.database = self.own.turn = None

    @contextmanager
    def writing(self) -> Iterator[sqlite3.Connection]:
        """A transaction: all of it is done and synced, or nothing."""
        database, turn = self.database(), self.own.turn
        assert turn is not None
        # (a thread that waits for SQLite's own lock sleeps, and longer each time)
        fcntl.flock(turn, fcntl.LOCK_EX)
        try:
            database.execute("BEGIN IMMEDIATE")
            try:
                yield database
                database.execute("COMMIT")
            except BaseException:
                if database.in_transaction:
                    database.execute("ROLLBACK")
                raise
        finally:
            fcntl.flock(turn, fcntl.LOCK_UN)

    def rows(self, query: str, *values: Value) -> list[tuple[Value, ...]]:
        """All rows of a query."""
        return self.database().execute(query, values).fetchall()

    def first(self, query: str, *values: Value) -> Value:
        """The first value of the first row; None if there is none."""
        row = self.database().execute(query, values).fetchone()
        return None if row is None else row[0]

    def text(self, query: str, *values: Value) -> str | None:
        """The first value of the first row, as a text; None if there is none."""
        value = self.first(query, *values)
        return None if value is None else str(value)

    def number(self, query: str, *values: Value) -> int | None:
        """The first value of the first row, as a whole number; None if there is none."""
        value = self.first(query, *values)
        return None if value is None else int(value)

    def texts(self, query: str, *values: Value) -> list[str]:
        """The first value of each row, as a text."""
        return [str(row[0]) for row in self.rows(query, *values)]

    def overwrite(self) -> bool:
        """Overwrites deleted records, also in SQLite's log. False if somebody reads for long."""
        row = self.database().execute("PRAGMA wal_checkpoint(TRUNCATE)").fetchone()
        return not row[0]
