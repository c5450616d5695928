"""Mails notices: the desk's, each once, in the order of their numbers; and the worker's own.

The worker makes its own of mail that was delivered, if the sender asked for them.
"""
import time

from hq_relay import log
from hq_relay.desk.client import Desk
from hq_relay.desk.replies import Notice
from hq_relay.notices.mail import Original, is_wanted, original_of, success, written
from hq_relay.notices.next_hop import Mailing, NextHop
from hq_relay.outcome import Result
from hq_relay.settings import Settings
from hq_relay.storage.attempts import Attempt, Attempts
from hq_relay.storage.book import Report
from hq_relay.storage.notice_records import OwnNotice, WaitingNotice
from hq_relay.storage.spool import Spool
from hq_relay.storage.spool_names import SpoolNames

# A notice that was set aside is tried again after its age, but after so many seconds at least and
# at most. It is given up at an age of five days, as the desk does with mail.
LEAST_WAIT, MOST_WAIT, LONGEST = 300, 4000, 432_000

# Words of a line of the log.
Words = dict[str, object]


class NoticeMailer:
    """Mails the notices of customers. Each call of the desk may raise Refused or Away."""

    def __init__(self, settings: Settings, desk: Desk, spool: Spool, attempts: Attempts,
                 names: SpoolNames):
        self.settings, self.desk, self.spool, self.attempts = settings, desk, spool, attempts
        self.book, self.names = attempts.book, names
        attempts.success_of = self.success_of
        # mailed, and not written down since the disk is full: the desk's, and those set aside
        self.mailed: dict[str, int] = {}
        self.waited: set[str] = set()
        self.begun: dict[str, int] = {}  # the notices whose mailing this process has begun
        self.until = 0.0  # the moment until which the next hop rests

    # ---- whether there is room on the desk

    def has_room_for(self, customer: str, more: int) -> bool:
        """Whether so many more notices push out none on the desk that waits."""
        waiting = self.unmailed(customer)
        if not waiting:
            return waiting is not None
        return len(waiting) + more <= self.settings.customers[customer].notices

    def takes(self, customer: str, more: int) -> bool:
        """Whether so many more notices push out none, and none of each other."""
        waiting = self.unmailed(customer)
        if waiting is None:
            return False
        return len(waiting) + more <= self.settings.customers[customer].notices

    def unmailed(self, customer: str) -> list[int] | None:
        """The numbers of notices that were not mailed; None if the desk is older than the book.

        The last notice that was mailed is asked for too: the desk drops it only for newer ones.
        """
        last = self.book.last_notice(customer)
        numbers = [*self.desk.notice_numbers(customer, last - 1 if last > 1 else None)]
        if last and not numbers:
            log.error("notices begin anew", customer=customer, mailed=last,
                      help="was the store restored? then run restored")
            return None
        return [number for number in numbers if number > last]

    # ---- mailing

    def send(self, customer: str) -> bool:
        """Mails the notices that were not mailed yet; whether none of the desk's waits."""
        if time.monotonic() < self.until:
            return self.unmailed(customer) == []
        with NextHop(self.settings) as hop:
            self.send_waiting(customer, hop)
            numbers = self.unmailed(customer)
            for number in numbers or ():
                last = self.book.last_notice(customer)
                if number > last + 1:
                    log.error("lost notices", customer=customer, first=last + 1, last=number - 1)
                if not self.send_one(customer, number, hop):
                    return False
        return numbers is not None

    def send_one(self, customer: str, number: int, hop: NextHop) -> bool:
        """Mails a notice of the desk; whether the next one may be."""
        if number <= self.mailed.get(customer, 0):
            self.book.mailed(customer, number)
            return True
        notice = self.desk.notice(customer, number)
        words: Words = {"customer": customer, "number": number, "kind": notice.kind,
                        "id": notice.id, "to": notice.to}
        self.begin(customer, number, words)
        spool = self.book.spool_of(customer, notice.id)
        attempt = self.attempts.last_of(spool) if spool else None
        original = self.original(customer, spool, attempt)
        if is_wanted(notice.kind, original.envelope):
            content = self.written(notice, original)
            result = self.mail(hop, notice.to, content, words)
            if result == Mailing.LATER:
                return False
            if result == Mailing.ASIDE:
                self.book.set_aside(customer, number, notice.to, content)
                return True
        else:
            log.info("notice not wanted", **words)
        self.mailed[customer] = number
        self.book.mailed(customer, number)
        return True

    def begin(self, customer: str, number: int, words: Words) -> None:
        """Writes down that a notice is about to be mailed.

        If the book cannot have this, it could not have either that the notice was mailed.
        """
        if self.begun.get(customer) == number:
            return
        if self.book.begun(customer) == number:
            log.warning("notice may come twice", means="a stop came as it was mailed", **words)
        self.book.mailing(customer, number)
        self.begun[customer] = number

    def written(self, notice: Notice, original: Original) -> bytes:
        """A notice as a mail; without its message if that is too strange to be quoted."""
        try:
            return written(self.settings, notice, original)
        except Exception as error:  # whatever a stranger wrote
            log.error("message not quoted", id=notice.id, why=repr(error))
            return written(self.settings, notice, Original())

    def mail(self, hop: NextHop, recipient: str, content: bytes, words: Words) -> Mailing:
        """Mails one notice, and logs what came of it."""
        result = hop.mail(recipient, content)
        if result == Mailing.DONE:
            log.info("notice mailed", **words)
        elif result == Mailing.REFUSED:
            log.error("notice refused", why=hop.why, **words)
        else:
            log.warning("notice waits", why=hop.why, **words)
        if result == Mailing.LATER:
            self.until = time.monotonic() + self.settings.pause
        return result

    # ---- notices that were set aside

    def send_waiting(self, customer: str, hop: NextHop) -> None:
        """Tries the notices that were set aside, and whose time has come."""
        now = time.time()
        for notice in self.book.waiting(customer):
            if notice.name not in self.waited:
                if now < next_try(notice):
                    continue
                is_done = self.try_waiting(customer, notice, hop, now)
                if is_done is None:
                    return
                if not is_done:
                    continue
                self.waited.add(notice.name)
            self.book.waited(notice.name)
            self.waited.discard(notice.name)

    def try_waiting(self, customer: str, notice: WaitingNotice, hop: NextHop,
                    now: float) -> bool | None:
        """Tries one; whether it is done with. None if nobody can be reached now."""
        words: Words = {"customer": customer, "notice": notice.name, "to": notice.recipient}
        # (if the book cannot have this, it could not have either that the notice was mailed)
        self.book.tried(notice.name, now)
        result = self.mail(hop, notice.recipient, self.book.content_of(notice.name), words)
        if result == Mailing.LATER:
            self.book.tried(notice.name, notice.tried)
            return None
        if result == Mailing.ASIDE and now < notice.since + LONGEST:
            return False
        if result == Mailing.ASIDE:
            log.error("notice given up", **words)
        return True

    # ---- the message of a notice

    def original(self, customer: str, spool: str | None, attempt: Attempt | None) -> Original:
        """The message of a notice, if its content is known."""
        if spool:
            with self.spool.opened(spool) as kept:
                if kept and kept.envelope.customer == customer:
                    return original_of(kept, attempt)
        return Original()

    # ---- of mail that was delivered

    def success_of(self, report: Report, attempt: Attempt) -> OwnNotice | None:
        """The notice of deliveries for a sender that asked for it (RFC 3461)."""
        delivered = [outcome for outcome in report.outcomes if outcome.result == Result.DELIVERED]
        try:
            envelope = self.spool.envelope(report.spool) if delivered else None
        except OSError as error:
            log.error("notice given up", customer=report.customer, spool=report.spool, why=error)
            return None
        if not (envelope and envelope.sender and is_wanted("SUCCESS", envelope)):
            return None
        notice = success(self.settings.host, report.id, envelope.sender, delivered)
        try:
            original = self.original(report.customer, report.spool, attempt)
        except OSError as error:
            log.error("message not quoted", id=report.id, why=error)
            original = Original()
        content = self.written(notice, original)
        name = f"{report.customer}/{report.spool}/{report.attempt}"
        return OwnNotice(name, envelope.sender, content)


def next_try(waiting: WaitingNotice) -> float:
    """The moment when a notice that was set aside is tried again; 0 if it never was tried."""
    age = waiting.tried - waiting.since
    return waiting.tried and waiting.tried + min(MOST_WAIT, max(LEAST_WAIT, age))
