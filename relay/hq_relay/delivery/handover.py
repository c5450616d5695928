"""Hands due mail over to the Postfix instance that delivers, many messages in a session.

An attempt is written down before its first byte goes, and its queue ID when the instance has it. A
stop between the two leaves an attempt of which nobody knows; `attempt_supervision.py` looks after
these.
"""
import queue
import secrets
import threading
import time
from collections.abc import Iterator
from contextlib import ExitStack
from typing import NamedTuple

from hq_relay import log
from hq_relay.customers.turns import CustomerTurns, threads_for
from hq_relay.delivery.delivery_log import DeliveryLog
from hq_relay.delivery.destinations import Destinations, domains_of
from hq_relay.desk.client import Away, Desk, Refused, has_no_call_of_all
from hq_relay.desk.replies import DueMessage, DuePage
from hq_relay.dsn import clean
from hq_relay.outcome import Outcome, Result
from hq_relay.postfix.delivering_instance import BROKEN, NotTaken, Session
from hq_relay.settings import Settings
from hq_relay.storage.attempts import Attempt, Attempts
from hq_relay.storage.book import Book
from hq_relay.storage.spool import Kept, Spool
from hq_relay.storage.spool_names import SpoolNames

# So many messages, and bytes, are handed over after one look at the desk's list. A session takes so
# many of them before the next one takes some.
BATCH, BATCH_BYTES, PART = 50, 20_000_000, 10
# A look at all customers waits so many seconds for each reply, and makes no further call once they
# have passed. After a look that failed, each customer is asked for by itself for so many rounds.
LOOK_SECONDS, ROUNDS_ALONE = 5.0, 6
# The random part of an envelope ID: IDs of the desk repeat after a restore, and nobody may guess
# one.
RANDOM_BYTES = 12


class OwnSession(threading.local):
    """The session of one thread, and the settings that it was opened by."""

    session: Session | None = None
    settings: Settings | None = None


class DueBatch(NamedTuple):
    """Attempts that may be handed over, and the queue ID after which the list goes on, if so."""

    attempts: list[Attempt]
    after: str | None


class Handover:
    """Customers have their turns, each for one batch.

    The parts of a batch go over as many sessions as the settings have, each with a thread.
    """

    def __init__(self, settings: Settings, desk: Desk, spool: Spool, attempts: Attempts,
                 names: SpoolNames, destinations: Destinations, delivery_log: DeliveryLog):
        self.settings, self.desk, self.spool, self.attempts = settings, desk, spool, attempts
        self.names, self.destinations, self.delivery_log = names, destinations, delivery_log
        self.book: Book = attempts.book
        self.turns = CustomerTurns(threads_for(settings, settings.sessions), settings.pause,
                                   self.turn, settings.desks)
        self.own = OwnSession()
        self.parts: queue.Queue[list[Attempt] | None] = queue.Queue(settings.sessions)
        self.threads = [threading.Thread(target=self.run, daemon=True)
                        for _ in range(settings.sessions)]
        self.guard = threading.Lock()
        # The queue ID after which the list of each customer goes on. Then the envelope IDs that are
        # just being handed over, and how many attempts were begun.
        self.after: dict[str, str] = {}
        self.busy: set[str] = set()
        self.begun = 0
        self.rounds_alone = 0
        # (a sweep must not come between the list of due mail and its record)
        self.listing = {customer: threading.Lock() for customer in settings.customers}

    def start(self) -> None:
        # (nobody knows whether an attempt without a queue ID lies there)
        self.destinations.resume(
            attempt for attempt in self.attempts.under_way()
            if attempt.queue_id and attempt.customer in self.listing)
        for thread in self.threads:
            thread.start()
        self.turns.start()

    def end(self) -> None:
        """Begins nothing more, and returns when all mail under way was handed over."""
        self.turns.end()
        for _ in self.threads:
            self.parts.put(None)
        for thread in self.threads:
            if thread.is_alive():
                thread.join()

    def is_working(self) -> bool:
        """Whether a customer waits for its turn, or something is being handed over."""
        with self.guard:
            return bool(self.turns.waiting or self.busy)

    def works_for(self, customers: set[str]) -> bool:
        """Whether one of these has a turn, or something of it is being handed over."""
        with self.guard:
            return bool(self.turns.waiting & customers) or any(
                envelope.partition(".")[0] in customers for envelope in self.busy)

    def is_busy(self, attempt: Attempt) -> bool:
        with self.guard:
            return attempt.envelope in self.busy

    # ---- whose turn it is

    def look(self, may: set[str] | None = None) -> None:
        """Gives each of these customers a turn, or everyone, but those without due mail.

        (A turn asks for its customer's own list: an earlier reply may be old by then.)
        """
        customers = [customer for customer in self.settings.customers
                     if may is None or customer in may]
        idle = self.idle(customers) - set(self.turns.rests)
        for customer in customers:
            if customer not in idle:
                self.turns.add(customer)

    def idle(self, customers: list[str]) -> set[str]:
        """The customers without due mail, as a call for each hundred of them finds."""
        if self.rounds_alone:
            self.rounds_alone -= 1
            return set()
        idle: set[str] = set()
        end = time.monotonic() + LOOK_SECONDS
        try:
            for page in self.due_pages(customers):
                idle.update(customer for customer, is_due in page.is_due.items() if not is_due)
                if page.stopped:
                    log.error("due of all stopped", **page.stopped._asdict())
                if time.monotonic() > end:
                    break
        except (Away, Refused, LookupError, TypeError) as error:
            self.rounds_alone = ROUNDS_ALONE
            if not has_no_call_of_all(error):
                log.error("due of all not told", why=repr(error))
        return idle

    def due_pages(self, customers: list[str]) -> Iterator[DuePage]:
        if len(customers) == len(self.settings.customers):
            return self.desk.due_of_all(LOOK_SECONDS)
        return self.desk.due_of(customers, LOOK_SECONDS)

    def end_attempt(self, attempt: Attempt) -> None:
        """An attempt has ended, or was not begun: mail that waited for its domain may go."""
        for customer in self.destinations.end(attempt):
            if customer in self.settings.customers:
                self.turns.add(customer)

    # ---- one turn

    def turn(self, customer: str) -> bool:
        """Hands over the next batch of a customer, and returns whether there is another one."""
        with self.listing[customer]:
            if customer not in self.settings.customers:
                return False
            batch = self.due(customer, self.after.pop(customer, None))
            if batch.attempts:
                self.begin(batch.attempts)
        for at in range(0, len(batch.attempts), PART):
            self.parts.put(batch.attempts[at:at + PART])
        if batch.after:
            self.after[customer] = batch.after
        return bool(batch.after)

    def due(self, customer: str, after: str | None) -> DueBatch:
        """The customer's next messages that may be handed over now."""
        found: list[Attempt] = []
        size = 0
        # (if one message to some domains may not go now, no other may: so a long list takes little)
        closed: set[tuple[str, ...]] = set()
        not_free = self.attempts.spools_under_way(customer) | set(self.book.unreported(customer))
        try:
            for message in self.desk.due(customer, after):
                domains = tuple(domains_of(message.recipients))
                if message.spool in not_free or domains in closed:
                    continue
                attempt = self.attempt(customer, message)
                if not self.destinations.begin(attempt):
                    closed.add(domains)
                    continue
                found.append(attempt)
                not_free.add(message.spool)  # (requeued meanwhile, it comes again under another ID)
                size += self.spool.size(message.spool)
                if len(found) >= BATCH or size >= BATCH_BYTES:
                    return DueBatch(found, message.id)
        except BaseException:
            for attempt in found:
                self.end_attempt(attempt)
            raise
        return DueBatch(found, None)

    def attempt(self, customer: str, due: DueMessage) -> Attempt:
        envelope = f"{customer}.{due.id}.{due.attempt}.{secrets.token_hex(RANDOM_BYTES)}"
        return Attempt(envelope, customer, due.spool, due.id, due.attempt, due.recipients,
                       due.sender, time.time())

    def begin(self, attempts: list[Attempt]) -> None:
        """Writes a batch down, before anything of it is handed over."""
        with self.guard:
            self.begun += len(attempts)
            self.busy.update(attempt.envelope for attempt in attempts)
        try:
            self.attempts.about(attempts)
        except BaseException:
            self.leave(attempts, attempts)
            raise

    def leave(self, attempts: list[Attempt], not_begun: list[Attempt]) -> None:
        """A batch is not being handed over any more; some of it was not begun."""
        with self.guard:
            self.busy.difference_update(attempt.envelope for attempt in attempts)
        for attempt in not_begun:
            self.end_attempt(attempt)

    # ---- the threads of sessions

    def run(self) -> None:
        """Hands over one part after the other. It rests while the instance is away."""
        while True:
            part = self.parts.get()
            if part is None:
                return
            try:
                self.hand_over(part)
                continue
            except NotTaken as error:
                log.error("the delivering instance takes nothing now", why=error)
            except Exception as error:
                log.error("hand-over broke", customer=part[0].customer, why=repr(error))
            self.turns.ending.wait(self.settings.pause)

    def hand_over(self, attempts: list[Attempt]) -> None:
        """Hands over a part. The book has those that were not begun no more."""
        taken: dict[str, str] = {}
        left = list(attempts)
        try:
            session = self.session()
            while left and not self.turns.ending.is_set():
                id = self.hand_over_one(left[0], session)
                if id:
                    taken[left[0].envelope] = id
                left.pop(0)
        except BROKEN:
            if self.break_off():
                left.pop(0)  # (nobody knows of this one)
            raise
        finally:
            try:
                self.attempts.over(taken, [attempt.envelope for attempt in left])
            finally:
                self.leave(attempts, left)

    def session(self) -> Session:
        """This thread's session. It is opened anew if it has ended, or settings were read since."""
        session = self.own.session
        if session and self.own.settings is not self.settings:
            session.close()
        elif session and session.is_alive():
            self.prove(session)
            return session
        self.own.session, self.own.settings = None, self.settings
        session = self.own.session = Session(self.settings)
        self.prove(session)
        return session

    def prove(self, session: Session) -> None:
        """Finds out whether the log has what is handed over, by a transaction that is not ended."""
        if session.has_ident and self.delivery_log.wants_probe():
            probe = self.delivery_log.probe()
            self.delivery_log.expect(probe)
            session.probe(probe)
            self.delivery_log.shows(probe)

    def break_off(self) -> bool:
        """Gives this thread's session up; whether the content of a message was begun in it."""
        session, self.own.session = self.own.session, None
        if session:
            session.close()
        return bool(session and session.is_content_begun)

    # ---- one message

    def hand_over_one(self, attempt: Attempt, session: Session) -> str | None:
        """The queue ID under which the instance took a message.

        None if it never will take it, and the outcome was journaled.
        """
        with ExitStack() as opened:
            kept = self.content(attempt, opened)
            id = self.send_or_refuse(attempt, kept, session) if kept else None
        return id

    def content(self, attempt: Attempt, opened: ExitStack) -> Kept | None:
        """The content of a message; None if it cannot be read, and the attempt is deferred."""
        try:
            if self.book.spool_of(attempt.customer, attempt.id) != attempt.spool:
                self.names.record(attempt.customer, attempt.id, attempt.spool)
            kept = opened.enter_context(self.spool.opened(attempt.spool))
        except OSError as error:  # (of this file, and not of the session)
            self.defer_without_content(attempt, error)
            return None
        if not kept or kept.envelope.customer != attempt.customer:
            self.defer_without_content(attempt, "there is no such file")
            return None
        return kept

    def send_or_refuse(self, attempt: Attempt, kept: Kept, session: Session) -> str | None:
        try:
            return self.send(attempt, kept, session)
        except NotTaken as error:
            if error.is_of_all:
                raise
            # (a customer can have any number of its mails refused for good, as by an address)
            told = log.warning if error.result is Result.FAILED else log.error
            told("refused by the delivering instance", customer=attempt.customer, id=attempt.id,
                 why=error)
            self.refuse(attempt, error.result, error.status, clean(error))
            return None

    def send(self, attempt: Attempt, kept: Kept, session: Session) -> str:
        """The queue ID of a message. A mail reports success unless the log is to be trusted."""
        is_by_log = session.has_ident and self.delivery_log.is_trusted(attempt)
        try:
            if session.has_ident:
                self.delivery_log.expect(attempt.envelope)
            return session.send(attempt, kept, is_by_log)
        except BaseException:
            self.delivery_log.forget(attempt.envelope)
            raise

    def defer_without_content(self, attempt: Attempt, why: object) -> None:
        log.error("content missing", customer=attempt.customer, id=attempt.id,
                  spool=attempt.spool, why=why)
        self.refuse(attempt, Result.DEFERRED, "4.3.0", "the content is missing")

    def refuse(self, attempt: Attempt, result: Result, status: str, text: str) -> None:
        """The outcome of an attempt that the instance does not take, for the journal."""
        self.attempts.resolved(attempt, [Outcome(recipient, result, status, text)
                                         for recipient in attempt.recipients])
        self.end_attempt(attempt)
