"""Clean-up of the spool: content of messages that have left the queue, and old records."""
import time

from hq_relay import log
from hq_relay.settings import Settings
from hq_relay.storage.book import Book, Uncleaned
from hq_relay.storage.spool import Spool
from hq_relay.storage.spool_names import SpoolNames

# How many seconds the content stays of a message that left the queue without a last outcome. It was
# deleted or has expired, or the desk has lost it by a restore of which the worker does not know. It
# stays for less time if a customer deletes more bytes than its quota has, or more messages than
# that with so many to spare.
KEPT_GONE = 86400
SPARE = 1_000
DAY = 86400


class SpoolCleaning:
    """Removes contents and records. Each call of the desk may raise Refused or Away."""

    def __init__(self, settings: Settings, spool: Spool, book: Book, names: SpoolNames):
        self.settings, self.spool, self.book, self.names = settings, spool, book, names

    def clean(self, customer: str, busy: set[str]) -> None:
        """Removes content of messages that left by a last outcome, or long ago; not of busy ones.

        The book is read first. A name in it was submitted before the list is made, so a name that
        is not in the list has left.
        """
        now = int(time.time())
        names, unreported = self.book.uncleaned(customer), self.book.unreported(customer)
        queued = self.names.queued(customer)
        kept = {*queued.values(), *unreported}
        left = [name for name in names if name not in kept and name not in busy]
        done = [name for name in left
                if names[name].is_finished or (names[name].gone or now) <= now - KEPT_GONE]
        done += self.beyond({name: names[name] for name in {*left}.difference(done)}, customer)
        for spool in done:
            self.spool.remove(spool)
            log.info("cleaned", customer=customer, spool=spool)
        self.book.cleaned(done)
        self.book.gone([name for name in left if not names[name].gone], now)
        self.book.gone([name for name in names if name in kept and names[name].gone], None)
        self.book.forget(customer, set(queued), now - self.settings.keep_days * DAY)

    def beyond(self, gone: dict[str, Uncleaned], customer: str) -> list[str]:
        """The names that left first: as many, and of as many bytes, as are beyond the quota."""
        quota = self.settings.customers[customer]
        bytes_beyond = sum(name.size for name in gone.values()) - quota.bytes
        beyond = len(gone) - quota.messages - SPARE
        now = time.time()
        first: list[str] = []
        for spool, name in sorted(gone.items(), key=lambda item: item[1].gone or now):
            if bytes_beyond <= 0 and beyond <= 0:
                break
            first.append(spool)
            bytes_beyond -= name.size
            beyond -= 1
        return first

    def clean_unknown(self, customers: list[str]) -> None:
        """Removes content that belongs to no message for so long that the MTA gave it up.

        Content of other customers of the settings than these stays.
        """
        now, longest = time.time(), self.settings.keep_days * DAY
        old = [name for name in self.spool.names()
               if self.spool.age(name, now) > longest and not self.book.answer(name)]
        envelopes = {name: self.spool.envelope(name) for name in old}
        owners = {name: envelope.customer if envelope else ""
                  for name, envelope in envelopes.items()}
        # (the book learns the names that are queued)
        for customer in sorted(set(customers).intersection(owners.values())):
            self.names.queued(customer)
        for spool, owner in owners.items():
            is_cleaned = owner in customers or owner not in self.settings.customers
            if is_cleaned and not self.book.answer(spool):
                self.spool.remove(spool)
                log.info("cleaned", spool=spool, means="the MTA gave it up")

    def unknown(self) -> list[str]:
        """The names whose content belongs to no message: none is queued, and none has a record."""
        names = self.spool.names()
        for customer in self.settings.customers:
            self.names.queued(customer)
        return [name for name in names if not self.book.answer(name)]
