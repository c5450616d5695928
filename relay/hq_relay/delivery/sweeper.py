"""Sweeps customers on the desk, unless that might do harm."""
import threading
import time
from collections.abc import Mapping

from hq_relay import log
from hq_relay.customers.activity import CustomerActivity
from hq_relay.desk.client import Desk
from hq_relay.desk.replies import ListedMessage
from hq_relay.notices.mailer import NoticeMailer
from hq_relay.storage.attempts import Attempts
from hq_relay.storage.spool import Spool
from hq_relay.storage.spool_names import SpoolNames

# At this age, in seconds, a sweep gives a message up. The most messages that a line of the log
# names.
GIVEN_UP, MOST_NAMED = 432_000, 20


class Sweeper:
    """`listing` has a lock of each customer: while a sweep holds it, no mail is handed over."""

    def __init__(self, desk: Desk, spool: Spool, attempts: Attempts, names: SpoolNames,
                 notices: NoticeMailer, activity: CustomerActivity,
                 listing: Mapping[str, threading.Lock]):
        self.desk, self.spool, self.attempts, self.names = desk, spool, attempts, names
        self.book, self.notices, self.activity = attempts.book, notices, activity
        self.listing = listing

    def spool_of(self, customer: str, entry: ListedMessage) -> str | None:
        """The name of a listed message."""
        spool = self.names.known(customer, entry)
        if spool:
            return spool
        message = self.names.shown(customer, entry.id)
        return message.spool if message else None

    def are_unknown(self, customer: str, late: list[ListedMessage]) -> bool:
        """Whether the content of some late message is missing, which is logged.

        Nobody knows whether it was delivered, so a sweep must not report to its sender that it was
        not.
        """
        spools = {entry.id: self.spool_of(customer, entry) for entry in late}
        missing = [id for id, spool in spools.items() if not (spool and self.spool.has(spool))]
        if missing:
            log.error("not given up: content is missing", customer=customer,
                      ids=",".join(missing[:MOST_NAMED]), count=len(missing),
                      help="were they delivered? hold or delete them, and the sweep goes on")
        return bool(missing)

    def sweep(self, customer: str) -> None:
        """Sweeps a customer, unless a sweep might do harm.

        It might push out notices that were not mailed. Or it might give up mail that was handed
        over, or was delivered and is still to be reported.
        """
        now = time.time()
        with self.listing[customer]:
            entries = list(self.desk.messages(customer))
            late = [entry for entry in entries
                    if entry.arrival <= now - GIVEN_UP and not entry.is_held]
            if self.are_unknown(customer, late):
                return
            busy = self.attempts.spools_under_way(customer)
            is_busy = any(self.names.known(customer, entry) in busy for entry in late)
            if (is_busy or self.book.unreported(customer)
                    or not self.notices.has_room_for(customer, len(entries))):
                log.error("not swept: notices or outcomes wait", customer=customer)
                return
            self.activity.notice(customer)
            swept = self.desk.sweep(customer)
        if any(swept):
            log.info("sweep", customer=customer, **swept._asdict())
