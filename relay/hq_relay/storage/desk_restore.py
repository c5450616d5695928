"""The command `restored`, after the desk's store came back from a backup.

The book is fitted to the desk, and lost mail is submitted again.
"""
from collections.abc import Collection
from dataclasses import dataclass, replace

from hq_relay import log
from hq_relay.desk.client import Desk, Refused
from hq_relay.desk.replies import End
from hq_relay.outcome import Outcome, Result
from hq_relay.settings import Settings
from hq_relay.storage.attempts import Attempts
from hq_relay.storage.book import Book
from hq_relay.storage.spool import Envelope, Spool
from hq_relay.storage.spool_names import SpoolNames


@dataclass(frozen=True, slots=True)
class Departed:
    """A name that is in no list of the desk, with the last queue ID that the book has of it.

    Its content was written in the second `written`.
    """

    id: str
    spool: str
    envelope: Envelope
    written: int

    def fits(self, end: End) -> bool:
        """Whether this may be the end of its message: a rule may have sent that elsewhere."""
        if self.envelope.sender != end.sender:
            return False
        if self.envelope.recipient == end.recipient:
            return self.written <= end.at
        return self.written < end.at


class DeskRestore:
    """Intake and delivery are stopped meanwhile. It may be run again at any time.

    `copied` is when the store was copied: what was in no list before that had left the queue.
    """

    def __init__(self, settings: Settings, desk: Desk, spool: Spool, book: Book,
                 copied: float | None = None):
        self.desk, self.spool, self.book, self.copied = desk, spool, book, copied
        self.attempts = Attempts(book)
        self.names = SpoolNames(desk, spool, book)

    def restore(self, customers: list[str]) -> None:
        """Fits the book for these customers, who are those of the desk that came back."""
        for customer in customers:
            self.reset_notices(customer)
            left = self.left_before(customer)
            self.book.forget_messages(customer, left.values())
            queued = {spool: id for id, spool in self.names.queued(customer).items()}
            self.end_finished(customer, queued)
            self.submit_lost(customer, queued, left)
            self.move_reports(customer, queued)
            self.move_attempts(customer, queued)

    def reset_notices(self, customer: str) -> None:
        """Numbers go on from the last one that the desk has."""
        numbers = [*self.desk.notice_numbers(customer)]
        greatest, mailed = max(numbers, default=0), self.book.last_notice(customer)
        if mailed > greatest:
            self.book.set_back(customer, greatest)
            log.warning("notices numbered anew", customer=customer, mailed=mailed, now=greatest)

    def left_before(self, customer: str) -> dict[str, str]:
        """The queue IDs by name of what had left the queue before the backup, by the history.

        An end has the ID that the book has of a name. Or it has a greater one, which the book has
        not: then its customer had requeued the message. IDs come a second time after a restore. So
        an end is of a name only if it came after the content, and from its sender.
        """
        departed = self.departed(customer)
        names = {it.id: it for it in departed}
        left: dict[str, str] = {}
        of_requeued: list[End] = []
        for end in self.desk.history(customer):
            named = names.get(end.id)
            if named and named.fits(end):
                left[named.spool] = named.id
            else:
                of_requeued.append(end)
        left.update(requeued(departed, of_requeued, left))
        for spool, id in left.items():
            log.info("left before the backup", customer=customer, id=id, spool=spool)
        return left

    def departed(self, customer: str) -> list[Departed]:
        """The names of the book with content that are in no list, the greatest ID first."""
        known = self.book.ids(customer)
        listed = {entry.id for entry in self.desk.messages(customer)}
        queued = {known[id] for id in listed & known.keys()}
        for id in listed - known.keys():
            message = self.desk.message(customer, id)
            if message:
                queued.add(message.spool)
        found: dict[str, Departed] = {}
        for id in sorted(known, reverse=True):
            spool = known[id]
            if spool in queued or spool in found:
                continue
            with self.spool.opened(spool) as kept:
                if kept:
                    found[spool] = Departed(id, spool, kept.envelope, kept.written)
        return [*found.values()]

    def end_finished(self, customer: str, queued: dict[str, str]) -> None:
        """Ends messages that the desk has again, and that were finished since the backup."""
        for spool, id in queued.items():
            message = self.desk.message(customer, id)
            if message and self.book.is_finished(spool):
                outcomes = [Outcome(recipient, Result.DELIVERED) for recipient in message.pending]
                self.desk.outcome(customer, id, message.attempts + 1, outcomes).reply()
                log.warning("told as delivered", customer=customer, id=id, spool=spool,
                            means="it was finished since the backup")
            elif message:
                log.warning("may come twice", customer=customer, id=id, spool=spool,
                            sender=message.sender, means="if it was sent since the backup")

    def submit_lost(self, customer: str, queued: dict[str, str], left: Collection[str]) -> None:
        """Submits mail again that was taken, and that the desk lost with its newest records."""
        for spool, known in self.book.uncleaned(customer).items():
            if spool in queued or known.is_finished or spool in left:
                continue
            if self.copied is not None and known.gone and known.gone < self.copied:
                log.info("left before the backup", customer=customer, spool=spool)
                continue
            with self.spool.opened(spool) as kept:
                if not kept:
                    continue
            self.submit(customer, kept.envelope, spool, kept.size, queued)

    def submit(self, customer: str, envelope: Envelope, spool: str, size: int,
               queued: dict[str, str]) -> None:
        """Submits a message again, and adds its queue ID. If it gets none, it is put aside."""
        words = {"customer": customer, "spool": spool, "sender": envelope.sender,
                 "recipient": envelope.recipient}
        id = None
        try:
            reply = self.desk.submit(customer, spool, envelope.sender, envelope.recipient, size)
            id, why = reply.id, reply.verdict
        except Refused as refusal:
            why = str(refusal)
        if id:
            queued[spool] = id
            self.names.record(customer, id, spool)
            means = "comes back if it had been deleted or had expired in the last day"
            log.warning("submitted again", means=means, **words)
        else:
            self.spool.put_aside(spool)
            log.error("put aside", why=why, means="tell its sender", **words)

    def move_reports(self, customer: str, queued: dict[str, str]) -> None:
        """Outcomes that the desk lacks go to the message of their name, as its next attempt."""
        for spool in self.book.unreported(customer):
            report = self.book.report(customer, spool)
            if not report:
                continue
            message = self.desk.message(customer, queued[spool]) if spool in queued else None
            if message:
                moved = replace(report, id=message.id, attempt=message.attempts + 1)
                self.book.moved(moved)
            else:
                self.book.reported(report)
                log.warning("outcome dropped", customer=customer, id=report.id, spool=spool)

    def move_attempts(self, customer: str, queued: dict[str, str]) -> None:
        """Attempts under way go to the message of their name, as its next attempt."""
        for attempt in self.attempts.under_way():
            if attempt.customer != customer:
                continue
            id = queued.get(attempt.spool)
            message = self.desk.message(customer, id) if id else None
            if message:
                self.attempts.moved(attempt, message.id, message.attempts + 1)
            else:
                self.attempts.resolved(attempt, [])
                log.warning("attempt dropped", customer=customer, id=attempt.id,
                            spool=attempt.spool)


def requeued(departed: list[Departed], ends: list[End], left: Collection[str]) -> dict[str, str]:
    """The queue IDs by name of messages that ended under a greater ID, but for names that left.

    Each end is of one name: of one with its recipient, if there is any, and with the greatest ID.
    """
    found: dict[str, str] = {}
    by_sender: dict[str, list[Departed]] = {}
    for it in departed:
        if it.spool not in left:
            by_sender.setdefault(it.envelope.sender, []).append(it)
    for is_rewritten in (False, True):
        rest = []
        for end in ends:
            names = by_sender.get(end.sender, [])
            named = next((it for it in names if it.id < end.id and it.fits(end)
                          and (is_rewritten or it.envelope.recipient == end.recipient)), None)
            if named:
                names.remove(named)
                found[named.spool] = named.id
            else:
                rest.append(end)
        ends = rest
    return found
