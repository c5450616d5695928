"""Attempts that were handed over to the Postfix that delivers: a table of the worker's book.

An attempt is written down before it is handed over, with an envelope ID of its own. The book gets
its queue ID when that Postfix has it, its outcomes when reports come, and then the moment when it
was done. It stays for a while, so that a late report finds it.
"""
import json
import sqlite3
import time
from collections.abc import Callable, Container, Iterable, Mapping
from dataclasses import dataclass, replace

from hq_relay.outcome import Outcome, book_json, for_desk, outcomes_of
from hq_relay.storage.book import Book, Report
from hq_relay.storage.database import Value
from hq_relay.storage.notice_records import OwnNotice

COLUMNS = ("envelope, customer, spool, id, attempt, recipients, sender, at, queue_id, outcomes, "
           "done, is_lost")


@dataclass(frozen=True, slots=True)
class Attempt:
    """An attempt that is handed over, or is about to be: then it has no queue ID.

    `at` and `done` are moments, in seconds since 1970. A lost attempt was given up, and its report
    may still come.
    """

    envelope: str
    customer: str
    spool: str
    id: str
    number: int
    recipients: list[str]
    sender: str
    at: float
    queue_id: str | None = None
    outcomes: tuple[Outcome, ...] = ()
    done: float | None = None
    is_lost: bool = False

    def report(self, outcomes: Iterable[Outcome]) -> Report:
        """What the desk gets of these outcomes."""
        return Report(self.customer, self.spool, self.id, self.number, for_desk(outcomes))

    def with_more(self, outcomes: Iterable[Outcome]) -> tuple[Outcome, ...]:
        """Its outcomes with further ones of its recipients, each of whom counts once."""
        wanted = {recipient.lower(): recipient for recipient in self.recipients}
        known = {outcome.name: outcome for outcome in self.outcomes}
        for outcome in outcomes:
            name = outcome.name
            # (a report goes before a line of the log)
            is_better = name not in known or (known[name].is_by_log and not outcome.is_by_log)
            if name in wanted and is_better:
                known[name] = outcome._replace(recipient=wanted[name])
        return tuple(known.values())

    def is_known(self, outcomes: Iterable[Outcome], is_gone: bool) -> bool:
        """Whether these are its last outcomes.

        Those of the log count when the message has left the queue.
        """
        found = [*outcomes]
        is_whole = len(found) == len({recipient.lower() for recipient in self.recipients})
        return is_whole and (is_gone or not any(outcome.is_by_log for outcome in found))


def success_of_nobody(report: Report, attempt: Attempt) -> OwnNotice | None:
    """No sender wants a notice of deliveries."""
    return None


class Attempts:
    """The table of attempts.

    `success_of` makes a notice of deliveries of what the desk gets, if their sender wants one.
    """

    def __init__(self, book: Book):
        self.book = book
        self.success_of: Callable[[Report, Attempt], OwnNotice | None] = success_of_nobody

    # ---- reads

    def find(self, condition: str, *values: Value) -> list[Attempt]:
        query = f"SELECT {COLUMNS} FROM handed WHERE {condition}"
        rows = self.book.database().execute(query, values).fetchall()
        return [Attempt(envelope, customer, spool, id, number, json.loads(recipients), sender, at,
                        queue_id, outcomes_of(outcomes), done, bool(is_lost))
                for (envelope, customer, spool, id, number, recipients, sender, at, queue_id,
                     outcomes, done, is_lost) in rows]

    def first(self, condition: str, *values: Value) -> Attempt | None:
        return next(iter(self.find(condition, *values)), None)

    def of(self, envelope: str) -> Attempt | None:
        return self.first("envelope = ?", envelope)

    def all_of(self, envelopes: Iterable[str]) -> dict[str, Attempt]:
        """The attempts of those envelope IDs that have one."""
        found = {envelope: self.of(envelope) for envelope in envelopes}
        return {envelope: attempt for envelope, attempt in found.items() if attempt}

    def of_queue_id(self, id: str) -> Attempt | None:
        """The attempt that is under way under a queue ID, or was given up as lost."""
        return self.first("queue_id = ? AND (done IS NULL OR is_lost)", id)

    def last_of(self, spool: str) -> Attempt | None:
        """The last attempt of a name."""
        return self.first("spool = ? ORDER BY at DESC LIMIT 1", spool)

    def lying(self, customer: str) -> list[Attempt]:
        """The customer's attempts that may lie in the queue of the Postfix that delivers."""
        return [*self.find("customer = ? AND done IS NULL", customer),
                *self.find("customer = ? AND done IS NOT NULL AND is_lost", customer)]

    def under_way(self) -> list[Attempt]:
        return self.find("done IS NULL")

    def spools_under_way(self, customer: str) -> set[str]:
        query = "SELECT spool FROM handed WHERE customer = ? AND done IS NULL"
        return {*self.book.texts(query, customer)}

    def is_under_way(self, customer: str, spool: str) -> bool:
        query = "SELECT 1 FROM handed WHERE customer = ? AND spool = ? AND done IS NULL"
        return bool(self.book.number(query, customer, spool))

    # ---- writes

    def about(self, attempts: list[Attempt]) -> None:
        """These are about to be handed over."""
        with self.book.writing() as database:
            database.executemany(
                "INSERT INTO handed (envelope, customer, spool, id, attempt, recipients, sender, "
                "at) VALUES (?, ?, ?, ?, ?, ?, ?, ?)",
                [(attempt.envelope, attempt.customer, attempt.spool, attempt.id, attempt.number,
                  json.dumps(attempt.recipients), attempt.sender, attempt.at)
                 for attempt in attempts])

    def over(self, taken: Mapping[str, str], not_begun: list[str]) -> None:
        """Some were taken, each under a queue ID; others certainly were not.

        (A report may have come before this is written down.)
        """
        with self.book.writing() as database:
            database.executemany("UPDATE handed SET queue_id = ? WHERE envelope = ?",
                                 [(id, envelope) for envelope, id in taken.items()])
            database.executemany("DELETE FROM handed WHERE envelope = ? AND done IS NULL",
                                 [(envelope,) for envelope in not_begun])

    def resolved(self, attempt: Attempt, outcomes: Iterable[Outcome],
                 is_lost: bool = False) -> None:
        """Nothing more is awaited of an attempt. The desk gets its outcomes, if there are any."""
        report = attempt.report(outcomes)
        success = self.success_of(report, attempt)
        with self.book.writing() as database:
            # (nothing if a report came meanwhile, or its customer was erased)
            is_there = self.end(database, attempt.envelope, attempt.outcomes, is_lost)
            if report.outcomes and is_there:
                self.book.journal(database, report, success)

    def moved(self, attempt: Attempt, id: str, number: int) -> None:
        """An attempt under way is that of a number of the message under this queue ID."""
        with self.book.writing() as database:
            database.execute("UPDATE handed SET id = ?, attempt = ? WHERE envelope = ?",
                             (id, number, attempt.envelope))

    def reported(self, reports: Mapping[str, Iterable[Outcome]], gone: Container[str] = (),
                 known: Mapping[str, Attempt] | None = None) -> list[Attempt]:
        """Adds outcomes of reports and of the log to the attempts under way, by envelope ID.

        Those with all outcomes are journaled, and returned. `gone` have left the queue; `known` are
        the attempts, as they were just now.
        """
        found = []
        before = self.all_of(reports) if known is None else known
        notices = {envelope: self.notice_of(attempt, reports[envelope])
                   for envelope, attempt in before.items() if not attempt.done}
        with self.book.writing() as database:
            for envelope, notice in notices.items():
                attempt = self.of(envelope)
                if not attempt or attempt.done:
                    continue  # (meanwhile)
                outcomes = attempt.with_more(reports[envelope])
                if not attempt.is_known(outcomes, envelope in gone):
                    database.execute("UPDATE handed SET outcomes = ? WHERE envelope = ?",
                                     (book_json(outcomes), envelope))
                    continue
                self.end(database, envelope, outcomes, False)
                self.book.journal(database, attempt.report(outcomes), notice)
                found.append(attempt)
        return found

    def notice_of(self, attempt: Attempt, outcomes: Iterable[Outcome]) -> OwnNotice | None:
        """The notice of deliveries, written before the lock is taken, for which others wait."""
        ended = replace(attempt, outcomes=attempt.with_more(outcomes), done=time.time())
        return self.success_of(ended.report(ended.outcomes), ended)

    @staticmethod
    def end(database: sqlite3.Connection, envelope: str, outcomes: Iterable[Outcome],
            is_lost: bool) -> bool:
        """Nothing more is awaited of an attempt; whether something was, or it was lost."""
        return database.execute(
            "UPDATE handed SET outcomes = ?, done = ?, is_lost = ? "
            "WHERE envelope = ? AND (done IS NULL OR is_lost)",
            (book_json(outcomes), time.time(), is_lost, envelope)).rowcount > 0

    def forget(self, before: float) -> None:
        """Drops attempts that were done before a moment."""
        with self.book.writing() as database:
            database.execute("DELETE FROM handed WHERE done < ?", (before,))
