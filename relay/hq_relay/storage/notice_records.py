"""The records of notices in the worker's book: which were mailed, and which wait to be mailed."""
import sqlite3
import time
from dataclasses import dataclass

from hq_relay import log
from hq_relay.storage.database import Database

# The most notices of deliveries that wait for each customer.
MOST_WAITING = 1000


@dataclass(frozen=True, slots=True)
class WaitingNotice:
    """A notice that was set aside: since which moment, and when it was tried last (0: never)."""

    name: str
    recipient: str
    since: float
    tried: float


@dataclass(frozen=True, slots=True)
class OwnNotice:
    """A notice that the worker makes itself, as a mail. The book has one of each name."""

    name: str
    recipient: str
    content: bytes


class NoticeRecords(Database):
    """The tables `notices`, `mailing` and `waiting`."""

    def last_notice(self, customer: str) -> int:
        """The number of the customer's last notice that was mailed or set aside; 0 if none was."""
        return self.number("SELECT number FROM notices WHERE customer = ?", customer) or 0

    def mailing(self, customer: str, number: int) -> None:
        """The mailing of this notice begins."""
        with self.writing() as database:
            database.execute("INSERT OR REPLACE INTO mailing (customer, number) VALUES (?, ?)",
                             (customer, number))

    def begun(self, customer: str) -> int | None:
        """The number of a notice whose mailing was begun, and nobody knows whether it was done."""
        return self.number("SELECT number FROM mailing WHERE customer = ?", customer)

    def mailed(self, customer: str, number: int) -> None:
        """The notices of a customer up to this number were mailed."""
        with self.writing() as database:
            self.pass_by(database, customer, number)

    def set_back(self, customer: str, number: int) -> None:
        """The desk numbers a customer's notices anew after this number."""
        with self.writing() as database:
            self.pass_by(database, customer, number)

    @staticmethod
    def pass_by(database: sqlite3.Connection, customer: str, number: int) -> None:
        database.execute("INSERT OR REPLACE INTO notices (customer, number) VALUES (?, ?)",
                         (customer, number))
        database.execute("DELETE FROM mailing WHERE customer = ?", (customer,))

    # ---- notices that wait

    def set_aside(self, customer: str, number: int, recipient: str, content: bytes) -> None:
        """This notice of the desk waits, and those after it go on."""
        now = time.time()
        notice = WaitingNotice(f"{customer}/{number}", recipient, now, now)
        with self.writing() as database:
            self.pass_by(database, customer, number)
            self.wait(database, customer, notice, content)

    @classmethod
    def wait_with(cls, database: sqlite3.Connection, customer: str, notice: OwnNotice) -> None:
        """A notice of the worker waits to be mailed, unless too many do."""
        count, = database.execute("SELECT COUNT(*) FROM waiting WHERE customer = ?",
                                  (customer,)).fetchone()
        if count < MOST_WAITING:
            waiting = WaitingNotice(notice.name, notice.recipient, time.time(), 0)
            cls.wait(database, customer, waiting, notice.content)
        else:
            log.error("notice given up", customer=customer, to=notice.recipient,
                      means="too many wait")

    @staticmethod
    def wait(database: sqlite3.Connection, customer: str, notice: WaitingNotice,
             content: bytes) -> None:
        database.execute(
            "INSERT OR IGNORE INTO waiting (name, customer, recipient, content, since, tried) "
            "VALUES (?, ?, ?, ?, ?, ?)",
            (notice.name, customer, notice.recipient, content, notice.since, notice.tried))

    def waiting(self, customer: str) -> list[WaitingNotice]:
        """The customer's notices that were set aside, the oldest first."""
        query = ("SELECT name, recipient, since, tried FROM waiting WHERE customer = ? "
                 "ORDER BY since, name")
        return [WaitingNotice(*row) for row in self.database().execute(query, (customer,))]

    def all_waiting(self) -> list[str]:
        """The customers with notices that were set aside."""
        return self.texts("SELECT DISTINCT customer FROM waiting")

    def content_of(self, name: str) -> bytes:
        """A notice that was set aside, as a mail; nothing if there is none of this name."""
        content = self.first("SELECT content FROM waiting WHERE name = ?", name)
        return content if isinstance(content, bytes) else b""

    def tried(self, name: str, at: float) -> None:
        """A notice that was set aside is tried at this moment; 0: it never was."""
        with self.writing() as database:
            database.execute("UPDATE waiting SET tried = ? WHERE name = ?", (at, name))

    def waited(self, name: str) -> None:
        """A notice that was set aside is done with."""
        with self.writing() as database:
            database.execute("DELETE FROM waiting WHERE name = ?", (name,))
