"""A message that the MTA hands over is kept, submitted to the desk, and answered by its verdict.

The order makes that nothing is lost: the content is synced before the desk knows the name, and the
answer before the MTA gets it. A message that comes again has the same name, which the desk and the
book know.
"""
import sqlite3
import threading
import time
from collections.abc import Iterable
from contextlib import AbstractContextManager, nullcontext
from dataclasses import replace
from email.utils import formatdate
from typing import NamedTuple

from hq_relay import log
from hq_relay.desk import client
from hq_relay.desk.call_limits import CallLimits
from hq_relay.desk.client import Away, Desk, Refused
from hq_relay.desk.replies import Verdict
from hq_relay.intake.incoming import NotTaken, arrival_of, login_of
from hq_relay.postfix.lines import most_to_the_worker
from hq_relay.settings import Settings
from hq_relay.settings_tables import DOMAIN, LOGIN
from hq_relay.storage.book import Book
from hq_relay.storage.spool import Draft, Envelope, Spool
from hq_relay.storage.spool_cleaning import SPARE
from hq_relay.storage.spool_names import SpoolNames
from hq_relay.storage.wakeups import WakeupSender

# The spool keeps at most so many times the bytes of a customer's quota, and the messages with some
# to spare. Beside queued mail it has mail that is gone, and that may be wanted after a restore
# (`spool_cleaning.py`).
MOST_KEPT = 2
# For so many seconds a full quota counts as full, so that mail without room is not written first.
FULL_FOR = 1.0
NOBODY = "550 5.7.1 no customer sends as this"
# In seconds: as long as this Postfix keeps mail that is not on hold (maximal_queue_lifetime).
LONGEST_QUEUED = 5 * 86_400
REFUSALS = {client.BAD_ADDRESS: "553 5.1.3", client.QUOTA_MESSAGES: "452 4.2.2",
            client.QUOTA_BYTES: "452 4.2.2", client.SERIALS_SPENT: "452 4.3.1"}


class Full(NamedTuple):
    """The answer to mail of a customer until a moment: of `size` bytes or more, without room."""

    until: float
    size: int
    answer: str


def rejection_of(verdict: Verdict) -> str:
    """The answer if access tables reject the sender, or the one recipient."""
    rejection = verdict.rejections[0]
    return f"{rejection.code} {rejection.code // 100}.7.1 {rejection.text}"


def domain_of(sender: str) -> str:
    return sender.rpartition("@")[2].lower()


class Intake:
    """The intake of one process.

    `unsettled` are the customers with a submit that was begun, and nobody knows whether it was
    done.
    """

    def __init__(self, settings: Settings, desk: Desk, spool: Spool, book: Book,
                 unsettled: Iterable[str]):
        self.settings, self.desk, self.spool, self.book = settings, desk, spool, book
        self.names, self.guard = SpoolNames(desk, spool, book), threading.Lock()
        self.unsettled = {*unsettled}
        self.wakeups = WakeupSender(spool.locks)
        # the customers whose quota was full just now
        self.full: dict[str, Full] = {}
        # (each process has its part of those that bring mail)
        part = most_to_the_worker(settings) // 2 // settings.processes
        self.calls = CallLimits(max(1, part))

    def take_up(self, settings: Settings) -> Settings:
        """From now on mail is of these customers, logins and domains; all else stays."""
        self.settings = replace(
            self.settings, customers=settings.customers, desks=settings.desks,
            logins=settings.logins, domains=settings.domains, since=settings.since)
        return self.settings

    def answered(self, name: str) -> str | None:
        """The answer when this name was taken."""
        answer = self.book.answer(name)
        if answer:
            log.info("taken before", spool=name)
        return answer

    # ---- whose message it is

    def customer(self, ident: str, name: str, sender: str, field: bytes) -> str:
        """The customer of a message: that of an earlier try, the login, or the sender's domain.

        A login in no table is nobody's: its sender could name any domain. And mail that waited in
        Postfix since before a login or domain was the customer's is an earlier one's. Raises
        NotTaken.
        """
        before = self.spool.envelope(name)
        if before:
            return before.customer
        is_ours, login = login_of(field, ident)
        if self.settings.logins and not is_ours:
            log.error("no Received of Postfix", spool=name, sender=sender,
                      help="the first field has to be Postfix's own")
            raise NotTaken("451 4.3.5 the first field does not tell the login")
        customer, since = self.owner(login, sender), self.since(login, sender)
        if customer and arrival_of(ident) < since - LONGEST_QUEUED:
            log.error("no customer so long ago", spool=name, sender=sender, login=login,
                      help="was the clock wrong as Postfix took it, or was it on hold there?")
            raise NotTaken(NOBODY)
        if not customer or arrival_of(ident) < since:
            log.warning("no customer", spool=name, sender=sender, login=login)
            raise NotTaken(NOBODY)
        return customer

    def owner(self, login: str | None, sender: str) -> str | None:
        """The customer of a login; without a login that of the sender's domain."""
        if login is not None:
            return self.settings.logins.get(login)
        return self.settings.domains.get(domain_of(sender))

    def since(self, login: str | None, sender: str) -> float:
        """The moment from which on that is the customer's; 0 if no table has it.

        So it is if that moment is still to come, as after a clock was set back.
        """
        name = (DOMAIN, domain_of(sender)) if login is None else (LOGIN, login)
        since = self.settings.since.get(name, 0.0)
        return since if since <= time.time() else 0.0

    # ---- whether there is room

    def expect_room(self, customer: str, size: int) -> None:
        """Raises NotTaken if the customer's quota was full just now, or too much of it is kept."""
        full = self.full.get(customer)
        if full and time.monotonic() < full.until and size >= full.size:
            raise NotTaken(full.answer)
        self.expect_little_kept(customer)

    def expect_little_kept(self, customer: str) -> None:
        """Raises NotTaken if the spool keeps too much of a customer: bytes, or contents.

        Mail that a customer deletes stays for a while, and counts in no quota of the desk. Each
        content takes an inode of a disk, however small it is.
        """
        limits = self.settings.customers.get(customer)
        if not limits:
            return
        kept = self.book.kept(customer)
        if (kept.bytes > MOST_KEPT * limits.bytes
                or kept.contents > MOST_KEPT * (limits.messages + SPARE)):
            log.warning("too much is kept", customer=customer)
            raise NotTaken("452 4.2.2 too much deleted mail is kept, try later")

    # ---- the message

    def received(self, client_name: str, envelope: Envelope) -> bytes:
        """The field that the worker adds to the head of a message."""
        text = (f"Received: from {client_name}\r\n"
                f"\tby {self.settings.host} with LMTP id {envelope.spool}\r\n"
                f"\tfor <{envelope.recipient}>; {formatdate(localtime=True)}\r\n")
        return text.encode("utf-8" if envelope.is_utf8 else "latin-1", "replace")

    def take(self, envelope: Envelope, draft: Draft) -> str:
        """Keeps a message, submits it, and returns the answer by the desk's verdict."""
        # (the MTA may try again, over another process too, a message without an answer yet)
        with self.spool.alone_with(envelope.spool):
            answer = self.answered(envelope.spool)
            if answer:
                return answer
            self.keep(envelope, draft)
            try:
                with self.call_for(envelope.customer):
                    verdict = self.desk.submit(envelope.customer, envelope.spool, envelope.sender,
                                               envelope.recipient, draft.size)
            except Refused as refusal:
                return self.refused(envelope, refusal, draft.size)
            except Away as error:
                log.warning("desk away", spool=envelope.spool, why=error)
                with self.guard:
                    self.unsettled.add(envelope.customer)
                return "451 4.3.0 the desk is away"
            return self.judged(envelope, verdict, draft.size)

    def call_for(self, customer: str) -> AbstractContextManager[None]:
        """A call of its desk. If there are several, one that hangs leaves room for the others."""
        if not self.settings.has_several_desks:
            return nullcontext()
        return self.calls.one_of(self.settings.desks.get(customer, ""))

    def keep(self, envelope: Envelope, draft: Draft) -> None:
        """Keeps a message. Raises NotTaken if its customer was dropped since it was begun.

        (`erase` looks for contents when this process does not know the customer any more: it finds
        contents of before, and later ones go here.)
        """
        if envelope.customer in self.settings.customers:
            self.spool.keep(draft, envelope.spool)
            if envelope.customer in self.settings.customers:
                return
        self.spool.remove(envelope.spool)
        log.warning("customer dropped", customer=envelope.customer, spool=envelope.spool)
        raise NotTaken("451 4.3.0 its customer has just been dropped")

    # ---- the desk's reply

    def judged(self, envelope: Envelope, verdict: Verdict, size: int) -> str:
        """Keeps or drops a message by the desk's verdict, and returns the answer."""
        if verdict.is_rejected:
            self.spool.remove(envelope.spool)
            answer = rejection_of(verdict)
        elif verdict.is_discarded:
            answer = "250 2.0.0 discarded"
            self.book.taken(envelope.customer, envelope.spool, None, answer)
            self.spool.remove(envelope.spool)
        else:
            answer = f"250 2.0.0 queued as {verdict.queue_id}"
            self.book.taken(envelope.customer, envelope.spool, verdict.queue_id, answer, size)
            self.wakeups.send(envelope.customer)
        log.info(verdict.verdict, customer=envelope.customer, spool=envelope.spool, answer=answer)
        return answer

    def refused(self, envelope: Envelope, refusal: Refused, size: int) -> str:
        """The answer by a refusal. If no such mail is queued, the content goes; else it stays."""
        answer = self.refusal(envelope.customer, refusal, size)
        if not answer:
            log.error("submit refused", customer=envelope.customer, spool=envelope.spool,
                      why=refusal)
            return "451 4.3.5 the relay is not set up for this"
        self.spool.remove(envelope.spool)
        log.info("refused", customer=envelope.customer, spool=envelope.spool, why=refusal)
        return answer

    def refusal(self, customer: str, refusal: Refused, size: int) -> str | None:
        """The answer by a refusal of the desk; None by one that no mail of a customer has."""
        code = REFUSALS.get(refusal.number)
        if not code:
            return None
        answer = f"{code} {refusal.name}"
        if refusal.number in (client.QUOTA_MESSAGES, client.QUOTA_BYTES):
            least = size if refusal.number == client.QUOTA_BYTES else 0
            self.full[customer] = Full(time.monotonic() + FULL_FOR, least, answer)
        return answer

    # ---- submits without a reply

    def settle(self) -> None:
        """Learns which submits without a reply were done, before the MTA tries them again.

        A customer may have deleted them by then. While the desk is away they wait.
        """
        with self.guard:
            customers, self.unsettled = self.unsettled, set()
        away: set[str] = set()
        for customer in sorted(customers.intersection(self.settings.customers)):
            desk = self.settings.desks.get(customer)
            try:
                if desk in away:
                    raise Away("as for another customer of its desk")
                self.names.queued(customer)
            except (Away, Refused, OSError, sqlite3.Error) as error:
                log.warning("not settled", customer=customer, why=repr(error))
                if desk and isinstance(error, Away):
                    away.add(desk)
                with self.guard:
                    self.unsettled.add(customer)
            else:
                log.info("settled", customer=customer)
