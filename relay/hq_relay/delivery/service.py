"""The delivery: due mail is handed over, its outcomes are reported, and customers are swept.

Customers have turns at the sessions with the instance that delivers, at the desk, and at the next
hop of notices, in some threads each. One thread reads the reports and the log of the instance. One
receives wake-ups for mail that was queued, and one for each desk sweeps and cleans. A customer for
which something hangs or fails holds up no other.
"""
import threading
import time
from collections.abc import Callable, Iterator
from contextlib import ExitStack, contextmanager

from hq_relay import log
from hq_relay.customers.activity import CustomerActivity
from hq_relay.customers.turns import CustomerTurns, threads_for
from hq_relay.delivery.attempt_supervision import AttemptSupervision
from hq_relay.delivery.delivery_log import DeliveryLog
from hq_relay.delivery.destinations import Capacity, Destinations
from hq_relay.delivery.handover import Handover
from hq_relay.delivery.outcome_collector import OutcomeCollector
from hq_relay.delivery.outcome_reporter import OutcomeReporter
from hq_relay.delivery.sweeper import Sweeper
from hq_relay.desk.client import Away, Desk
from hq_relay.notices.mailer import NoticeMailer
from hq_relay.outcome import Outcome
from hq_relay.settings import Settings
from hq_relay.storage.attempts import Attempt, Attempts
from hq_relay.storage.book import Book
from hq_relay.storage.spool import Spool
from hq_relay.storage.spool_cleaning import DAY, SpoolCleaning
from hq_relay.storage.spool_names import SpoolNames
from hq_relay.storage.wakeups import WakeupListener

# How many seconds lie between two looks at the reports.
BETWEEN_LOOKS = 0.1
# At this age, in seconds, a sweep gives a message up. The most messages that a line of the log
# names.
GIVEN_UP, MOST_NAMED = 432_000, 20
# Threads that mail notices, and that ask desks of mail under way.
MAILING, CATCHING_UP = 2, 2


class Delivery:
    """The whole delivery of a worker, with its threads."""

    def __init__(self, settings: Settings, desk: Desk, spool: Spool, book: Book,
                 capacity: Capacity = Capacity()):
        self.settings, self.desk, self.book = settings, desk, book
        self.attempts = Attempts(book)
        self.activity = CustomerActivity(desk, settings.customers)
        self.delivery_log = DeliveryLog(settings, self.attempts)
        self.destinations = Destinations(settings.rest, capacity)
        self.names = SpoolNames(desk, spool, book)
        self.notices = NoticeMailer(settings, desk, spool, self.attempts, self.names)
        self.reporter = OutcomeReporter(desk, book, self.names, self.notices)
        self.cleaning = SpoolCleaning(settings, spool, book, self.names)
        # Outcomes, notices, sweeps and clean-up of a customer wait for each other.
        self.locks = {customer: threading.Lock() for customer in settings.customers}
        # Customers whose outcomes wait for the lock, and whose failures want room for a notice.
        self.turned_away: set[str] = set()
        self.want_room: set[str] = set()
        self.ending = threading.Event()
        self.handover = Handover(settings, desk, spool, self.attempts, self.names,
                                 self.destinations, self.delivery_log)
        self.sweeper = Sweeper(desk, spool, self.attempts, self.names, self.notices, self.activity,
                               self.handover.listing)
        self.reporting = self.turns_of(settings.sessions, self.report)
        self.mailing = self.turns_of(MAILING, self.mail)
        self.catching_up = self.turns_of(CATCHING_UP, self.catch_up)
        self.turns = [self.reporting, self.mailing, self.catching_up]
        self.collector = OutcomeCollector(
            settings, self.attempts, self.names, self.delivery_log, self.reporting.add, self.ended,
            self.catching_up.add)
        self.supervision = AttemptSupervision(
            settings, desk, self.attempts, self.names, self.collector.read, self.collector.left,
            self.ended, self.catching_up.add, self.destinations.keep)
        # how often the reports were looked at
        self.looks = 0
        self.listener = WakeupListener(spool.locks, self.give_turn)
        self.threads = [
            *(threading.Thread(target=self.keep_house, args=[name], daemon=True)
              for name in settings.of_desks()),
            *(threading.Thread(target=work, daemon=True) for work in (self.watch, self.listen))]

    def turns_of(self, count: int, work: Callable[[str], bool]) -> CustomerTurns:
        return CustomerTurns(threads_for(self.settings, count), self.settings.pause, work,
                             self.settings.desks)

    def start(self) -> None:
        self.begin_turns()
        for thread in self.threads:
            thread.start()

    def begin_turns(self) -> None:
        self.handover.start()
        for turns in self.turns:
            turns.start()

    def is_well(self) -> bool:
        """Whether all threads are at work."""
        threads = [*self.threads, *self.handover.threads]
        for turns in (self.handover.turns, *self.turns):
            threads += turns.threads
        return all(thread.is_alive() for thread in threads)

    def end(self) -> None:
        """Begins nothing more, and returns when all work under way is done."""
        self.ending.set()
        self.handover.end()
        for turns in self.turns:
            turns.end()
        for thread in self.threads:
            if thread.is_alive():
                thread.join()
        self.delivery_log.end()

    # ---- rounds

    def once(self) -> bool:
        """One round of everything, up to the last report; whether the desk was there."""
        self.begin_turns()
        begun, looked = -1, time.monotonic()
        while self.handover.begun != begun and self.is_there():
            begun = self.handover.begun
            self.report_and_hand_over(None)
            self.wait()
            while self.attempts.under_way():
                looked = self.see_after(looked)
                self.wait()
        # (the journal has the known outcomes of lost attempts; each report gives a turn at mailing)
        for customer in self.settings.customers:
            self.reporting.add(customer)
        self.wait()
        everyone = self.settings.customers
        is_there = self.chores([*everyone], {*everyone}, {*everyone}, waits=True)
        if is_there:
            self.clean_up([*everyone])
        self.wait()
        self.end()
        return is_there and self.is_there()

    def wait(self) -> None:
        """Returns when no customer waits for a turn."""
        while self.handover.is_working() or self.is_working():
            for turns in self.turns:
                turns.wait()
            time.sleep(BETWEEN_LOOKS / 10)

    def is_working(self) -> bool:
        """Whether a customer waits for a turn of any kind, or has it."""
        # (all at one moment: before a turn ends it may give one of another kind)
        with ExitStack() as guards:
            for turns in self.turns:
                guards.enter_context(turns.guard)
            is_working = any(turns.waiting for turns in self.turns)
        return is_working

    def is_there(self) -> bool:
        """Whether no customer's last turn has failed."""
        return not any(turns.rests for turns in (self.handover.turns, *self.turns))

    def look(self) -> None:
        """Has the journal reported, and due mail handed over of customers that may have mail."""
        self.activity.count()
        self.report_and_hand_over(self.activity.may_have_mail())

    def report_and_hand_over(self, customers: set[str] | None) -> None:
        """Has the journal reported, and due mail of these handed over, or of everyone."""
        for customer in self.book.all_unreported():
            self.reporting.add(customer)
        self.handover.look(customers)

    # ---- customers that come and go

    def take_up(self, settings: Settings) -> None:
        """From now on these are the customers. Nothing is begun for one that is none of them."""
        for customer in settings.customers:
            self.locks.setdefault(customer, threading.Lock())
            self.handover.listing.setdefault(customer, threading.Lock())
        self.settings = self.handover.settings = self.notices.settings = settings
        self.cleaning.settings = self.collector.settings = self.supervision.settings = settings
        for turns in (self.handover.turns, *self.turns):
            turns.take_up(settings.desks)
        self.activity.take_up(settings.customers)

    def works_for(self, customers: set[str]) -> bool:
        """Whether something is under way for one of these."""
        return (self.handover.works_for(customers)
                or any(turns.waiting & customers for turns in self.turns)
                or any(self.locks[customer].locked() or self.handover.listing[customer].locked()
                       for customer in customers))

    # ---- the threads

    def keep_house(self, desk: str) -> None:
        """Sweeps and cleans the customers of a desk by the timers, until `end`.

        A customer that was passed over has its turn at each `pause`.
        """
        swept = cleaned = float("-inf")
        is_cleaning = False
        to_sweep: set[str] = set()
        to_clean: set[str] = set()
        while not self.ending.is_set():
            now, customers = time.monotonic(), self.settings.of_desks().get(desk, [])
            if now >= swept + self.settings.sweep_every:
                swept = now
                to_sweep.update(self.activity.may_have_mail().intersection(customers))
            if now >= cleaned + self.settings.clean_every:
                cleaned, is_cleaning = now, True
                to_clean.update(self.with_content(customers))
            is_there = self.chores(customers, to_sweep, to_clean, waits=False)
            if is_cleaning and not to_clean:
                is_cleaning = False
                if is_there:
                    self.clean_up(customers)
            self.ending.wait(self.settings.pause)

    def with_content(self, customers: list[str]) -> set[str]:
        """The customers that may have mail, or content to be cleaned away.

        The old records of others go.
        """
        found = {customer for customer in customers if self.book.has_uncleaned(customer)}
        found |= self.activity.may_have_mail().intersection(customers)
        for customer in customers:
            if customer not in found:
                self.book.forget(customer, set(), time.time() - self.settings.keep_days * DAY)
        return found

    def listen(self) -> None:
        """Receives wake-ups for mail that was queued, until `end`."""
        self.listener.listen(self.ending)

    def give_turn(self, customer: str) -> None:
        if customer in self.settings.customers:
            self.activity.stir(customer)
            self.handover.turns.add(customer)

    def watch(self) -> None:
        """Reads reports as they come, and looks after missing ones, until `end`."""
        looked = time.monotonic()
        while not self.ending.is_set():
            looked = self.see_after(looked)
            self.looks += 1

    def see_after(self, looked: float) -> float:
        """Reads the reports that have come. After each `pause` it looks after attempts without one.

        Returns when it did that last.
        """
        try:
            count = self.collector.read()
            if time.monotonic() >= looked + self.settings.pause:
                looked = time.monotonic()
                self.supervision.look(self.handover.is_busy)
                self.collector.ask_for_late()
            if not count:
                self.ending.wait(BETWEEN_LOOKS)
        except Exception as error:
            log.error("not looked after", why=repr(error))
            self.ending.wait(self.settings.pause)
        return looked

    # ---- turns of a customer

    def report(self, customer: str) -> bool:
        """Reports a customer's outcomes. If something else has its lock, that has them reported."""
        if customer not in self.settings.customers:
            return False  # (it was dropped since its mail was handed over)
        # (first, so that a lock that is let go of just now is not missed)
        self.turned_away.add(customer)
        if not self.locks[customer].acquire(blocking=False):
            return False
        self.turned_away.discard(customer)
        try:
            if customer in self.settings.customers:
                if not self.reporter.report(customer, self.book.unreported(customer)):
                    self.want_room.add(customer)
        finally:
            self.locks[customer].release()
            self.activity.notice(customer)
        self.mailing.add(customer)
        return False

    def mail(self, customer: str) -> bool:
        """Mails a customer's notices, and has outcomes reported that waited for their room."""
        are_mailed = False
        with self.locked(customer) as is_mine:
            if not is_mine:
                return False
            # (a notice that is made from now on is counted anew)
            self.activity.mail(customer)
            try:
                are_mailed = self.notices.send(customer)
            finally:
                if not are_mailed:
                    self.activity.notice(customer)
            if are_mailed:
                self.book.all_mailed(customer)
        if are_mailed and customer in self.want_room:
            self.want_room.discard(customer)
            self.reporting.add(customer)
        return False

    def catch_up(self, customer: str) -> bool:
        """Fits mail under way, and late reports, to what a customer did meanwhile on its desk."""
        if customer not in self.settings.customers:
            return False
        self.collector.take_late(customer)
        return self.supervision.take_back(customer)

    @contextmanager
    def locked(self, customer: str, waits: bool = True) -> Iterator[bool]:
        """Whether it has a customer's lock. If not, something else has it.

        Outcomes that came meanwhile are reported afterwards, whether or not the customer's notices
        could be mailed: these may be tried again and again.
        """
        if not self.locks[customer].acquire(blocking=waits):
            yield False
            return
        try:
            # (the customer may be dropped meanwhile)
            yield customer in self.settings.customers
        finally:
            self.locks[customer].release()
            if customer in self.turned_away:
                self.turned_away.discard(customer)
                self.reporting.add(customer)

    def ended(self, attempt: Attempt, outcomes: tuple[Outcome, ...]) -> None:
        """Nothing more is awaited of an attempt. Without outcome its message may be due again."""
        self.destinations.answered(attempt.customer, outcomes, attempt.envelope)
        self.handover.end_attempt(attempt)
        if not outcomes and attempt.customer in self.settings.customers:
            self.handover.turns.add(attempt.customer)

    # ---- sweeps and clean-up

    def chores(self, customers: list[str], to_sweep: set[str], to_clean: set[str],
               waits: bool) -> bool:
        """Cleans and sweeps some of these customers, and has everybody's notices mailed.

        Returns whether the desk was there. Unless it `waits`, it passes over a customer whose lock
        something else has: a mailing may hang.
        """
        is_there = True
        noticed = self.activity.may_have_notices().union(self.book.all_waiting())
        for customer in customers:
            # (after a sweep, its notices would hold up the clean-up)
            is_there = (self.do_for(customer, to_clean, self.clean, waits)
                        and self.do_for(customer, to_sweep, self.sweeper.sweep, waits) and is_there)
            # (by threads of their own, since the next hop may hang)
            if customer in noticed or customer in self.activity.may_have_notices():
                self.mailing.add(customer)
        return is_there

    def do_for(self, customer: str, wanted: set[str], work: Callable[[str], None],
               waits: bool) -> bool:
        """Does something for a customer that wants it; whether the desk was there.

        A customer that is passed over wants it still.
        """
        if customer not in wanted or self.ending.is_set():
            return True
        try:
            with self.locked(customer, waits) as is_mine:
                if is_mine:
                    wanted.discard(customer)
                    work(customer)
        except Away as error:
            log.error("desk away", customer=customer, why=error)
            return False
        except Exception as error:
            log.error("round failed", customer=customer, why=repr(error))
        return True

    def clean(self, customer: str) -> None:
        """Cleans a customer up, unless a notice waits: it wants the header of its message."""
        if self.notices.unmailed(customer) == []:
            self.book.all_mailed(customer)
            self.cleaning.clean(customer, self.attempts.spools_under_way(customer))

    def clean_up(self, customers: list[str]) -> None:
        """Removes content that belongs to no message of these customers any more."""
        try:
            self.attempts.forget(time.time() - self.settings.keep_days * DAY)
            self.cleaning.clean_unknown(customers)
        except Exception as error:
            log.error("not cleaned", why=repr(error))
