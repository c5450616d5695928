"""The worker's book: the messages that it took, and the outcomes that the desk does not have yet.

What a call has written is synced to the disk when it returns. `database.py` has the tables.
"""
import sqlite3
import time
from collections.abc import Collection, Iterable
from dataclasses import dataclass
from typing import NamedTuple

from hq_relay.outcome import Outcome, Result, desk_json, outcomes_of
from hq_relay.storage.notice_records import NoticeRecords, OwnNotice

# The rows of a customer in each table, by its indexes.
FORGET_CUSTOMER = [f"DELETE FROM {table} WHERE customer = ?{part}" for table, part in (
    ("names", " AND cleaned"), ("names", " AND NOT cleaned"), ("messages", ""), ("journal", ""),
    ("handed", " AND done IS NULL"), ("handed", " AND done IS NOT NULL"), ("notices", ""),
    ("mailing", ""), ("waiting", ""))]
OLD_MESSAGES = "SELECT id FROM messages WHERE customer = ? AND at < ?"
OLD_NAMES = (
    "SELECT spool FROM names WHERE customer = ? AND at < ? AND cleaned AND NOT EXISTS "
    "(SELECT 1 FROM messages "
    "WHERE messages.customer = names.customer AND messages.spool = names.spool)")


@dataclass(frozen=True, slots=True)
class Report:
    """The outcomes of an attempt, which the desk is to get."""

    customer: str
    spool: str
    id: str
    attempt: int
    outcomes: tuple[Outcome, ...]

    @property
    def is_failure(self) -> bool:
        """Whether a recipient failed, for whom the desk makes a notice."""
        return any(outcome.result == Result.FAILED for outcome in self.outcomes)


class Uncleaned(NamedTuple):
    """Whether a name is finished, since which moment it is gone, and the bytes of its content."""

    is_finished: bool
    gone: int | None
    size: int


class Kept(NamedTuple):
    """How many contents are kept, and their bytes."""

    contents: int
    bytes: int


class Book(NoticeRecords):
    """The tables `names`, `messages` and `journal`, and with them those of notices."""

    # ---- names and messages

    def answer(self, spool: str) -> str | None:
        """The answer that the MTA got for a name that was taken."""
        return self.text("SELECT answer FROM names WHERE spool = ?", spool)

    def taken(self, customer: str, spool: str, id: str | None, answer: str, size: int = 0) -> None:
        """A name was taken, under this ID if it was queued, else it is finished.

        The first answer stays.
        """
        with self.writing() as database:
            database.execute(
                "INSERT OR IGNORE INTO names (spool, customer, answer, at, finished, size) "
                "VALUES (?, ?, ?, ?, ?, ?)",
                (spool, customer, answer, int(time.time()), not id, size))
            if id:
                self.name(database, customer, id, spool)

    def named(self, customer: str, id: str, spool: str) -> None:
        """The name is queued under this ID."""
        with self.writing() as database:
            self.name(database, customer, id, spool)

    @staticmethod
    def name(database: sqlite3.Connection, customer: str, id: str, spool: str) -> None:
        database.execute(
            "INSERT OR REPLACE INTO messages (customer, id, spool, at) VALUES (?, ?, ?, ?)",
            (customer, id, spool, int(time.time())))

    def spool_of(self, customer: str, id: str, since: int = 0) -> str | None:
        """The name of an ID, if that was written down at this moment or later."""
        query = "SELECT spool FROM messages WHERE customer = ? AND id = ? AND at >= ?"
        return self.text(query, customer, id, since)

    def ids(self, customer: str) -> dict[str, str]:
        """The names of a customer's queue IDs, of messages that left too."""
        query = "SELECT id, spool FROM messages WHERE customer = ?"
        return dict(self.database().execute(query, (customer,)))

    def all_mailed(self, customer: str) -> None:
        """No notice of a customer waits: its messages that left by a failure are finished."""
        query = "SELECT 1 FROM names WHERE customer = ? AND finished = 2 LIMIT 1"
        if self.number(query, customer):
            with self.writing() as database:
                database.execute(
                    "UPDATE names SET finished = 1 WHERE customer = ? AND finished = 2",
                    (customer,))

    def is_finished(self, spool: str) -> bool:
        return bool(self.number("SELECT finished = 1 OR cleaned FROM names WHERE spool = ?", spool))

    def kept(self, customer: str) -> Kept:
        """How much is kept of contents that are queued, or gone without a last outcome."""
        return Kept(*(self.number(f"SELECT {sum_} FROM sums WHERE customer = ?", customer) or 0
                      for sum_ in Kept._fields))

    def uncleaned(self, customer: str) -> dict[str, Uncleaned]:
        """The customer's names whose content was not cleaned away."""
        query = ("SELECT spool, finished = 1, gone, size FROM names "
                 "WHERE customer = ? AND NOT cleaned")
        rows = self.database().execute(query, (customer,))
        return {spool: Uncleaned(bool(finished), gone, size)
                for spool, finished, gone, size in rows}

    def has_uncleaned(self, customer: str) -> bool:
        """Whether there is content of a customer that was not cleaned away."""
        query = "SELECT 1 FROM names WHERE customer = ? AND NOT cleaned LIMIT 1"
        return bool(self.number(query, customer))

    def gone(self, spools: list[str], since: int | None) -> None:
        """These are in no list of the desk since a moment; None for those that are again."""
        with self.writing() as database:
            database.executemany("UPDATE names SET gone = ? WHERE spool = ?",
                                 [(since, spool) for spool in spools])

    def cleaned(self, spools: list[str]) -> None:
        """The contents of these names were removed."""
        with self.writing() as database:
            database.executemany("UPDATE names SET cleaned = 1 WHERE spool = ?",
                                 [(spool,) for spool in spools])

    # ---- records that go

    def forget(self, customer: str, ids: set[str], before: float) -> None:
        """Drops records older than a moment, but those of messages queued under these IDs."""
        old = customer, int(before)
        # (read first, so that nobody waits for the lock if nothing is old)
        gone = [(customer, id) for id in self.texts(OLD_MESSAGES, *old) if id not in ids]
        if not gone and not self.text(OLD_NAMES, *old):
            return
        with self.writing() as database:
            database.executemany("DELETE FROM messages WHERE customer = ? AND id = ?", gone)
            database.execute(f"DELETE FROM names WHERE spool IN ({OLD_NAMES})", old)

    def forget_messages(self, customer: str, but: Collection[str]) -> None:
        """Drops the queue IDs of a customer but these."""
        dropped = [(customer, id) for id in self.ids(customer) if id not in but]
        with self.writing() as database:
            database.executemany("DELETE FROM messages WHERE customer = ? AND id = ?", dropped)

    def forget_customer(self, customer: str) -> int:
        """Drops all records of a customer; how many there were."""
        with self.writing() as database:
            return sum(database.execute(statement, (customer,)).rowcount
                       for statement in FORGET_CUSTOMER)

    def has_any(self, customer: str) -> bool:
        """Whether there is a record of a customer."""
        return any(self.number(statement.replace("DELETE", "SELECT 1", 1), customer)
                   for statement in FORGET_CUSTOMER)

    # ---- outcomes that the desk does not have yet

    def attempted(self, report: Report) -> None:
        """An attempt with one destination ended so; further destinations are added to it."""
        with self.writing() as database:
            self.journal(database, report)

    def moved(self, report: Report) -> None:
        """The desk is to get these outcomes of a name, and not those of before."""
        with self.writing() as database:
            self.forget_report(database, report)
            self.journal(database, report)

    def reported(self, report: Report) -> None:
        """The desk need not get the outcomes of a name any more."""
        with self.writing() as database:
            self.forget_report(database, report)

    def all_reported(self, reports: Iterable[tuple[Report, bool]]) -> None:
        """The desk has these outcomes; the second member says whether the message left by it."""
        with self.writing() as database:
            for report, is_last in reports:
                self.forget_report(database, report)
                if is_last:
                    database.execute("UPDATE names SET finished = ? WHERE spool = ?",
                                     (2 if report.is_failure else 1, report.spool))

    @classmethod
    def journal(cls, database: sqlite3.Connection, report: Report,
                success: OwnNotice | None = None) -> None:
        """The desk is to get this, and a sender a notice: both are written at one moment."""
        database.execute(
            "INSERT INTO journal (customer, spool, id, attempt, outcomes) VALUES (?, ?, ?, ?, ?)",
            (report.customer, report.spool, report.id, report.attempt, desk_json(report.outcomes)))
        if success:
            cls.wait_with(database, report.customer, success)

    @staticmethod
    def forget_report(database: sqlite3.Connection, report: Report) -> None:
        database.execute("DELETE FROM journal WHERE customer = ? AND spool = ?",
                         (report.customer, report.spool))

    def report(self, customer: str, spool: str) -> Report | None:
        """The outcomes of a name that the desk is to get."""
        query = ("SELECT id, attempt, outcomes FROM journal WHERE customer = ? AND spool = ? "
                 "ORDER BY number")
        rows = self.database().execute(query, (customer, spool)).fetchall()
        if not rows:
            return None
        id, attempt, _ = rows[0]
        outcomes: dict[str, Outcome] = {}
        for _, _, text in rows:
            for outcome in outcomes_of(text):
                outcomes.setdefault(outcome.name, outcome)
        return Report(customer, spool, id, attempt, tuple(outcomes.values()))

    def unreported(self, customer: str) -> list[str]:
        """The names with outcomes that the desk does not have."""
        return self.texts("SELECT DISTINCT spool FROM journal WHERE customer = ?", customer)

    def all_unreported(self) -> list[str]:
        """The customers with outcomes that the desk does not have."""
        return self.texts("SELECT DISTINCT customer FROM journal")
