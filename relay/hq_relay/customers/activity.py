"""Which customers may have something new, so that the worker asks for nobody else's.

A desk of thousands has few customers with mail at a moment. A count of all of them, by hundreds and
every two minutes, finds these. Between two counts the intake and the worker's own calls add more.
"""
import threading
import time
from collections.abc import Iterable

from hq_relay import log
from hq_relay.desk.client import Away, Desk, Refused, has_no_call_of_all
from hq_relay.desk.replies import Usage

# So many seconds lie between two counts: for 8,000 customers a count is 80 calls.
BETWEEN_COUNTS = 120.0


def left_of(usage: Usage) -> tuple[int, ...]:
    """The counts of recipients that left the queue, for which the desk may have made a notice."""
    return usage.delivered, usage.failed, usage.expired, usage.deleted


class CustomerActivity:
    """Until a count has a customer, it may have mail and notices."""

    def __init__(self, desk: Desk, customers: Iterable[str]):
        self.desk, self.customers, self.guard = desk, set(customers), threading.Lock()
        self.counted = float("-inf")
        # the customers that may have mail, and those that may have notices that are not mailed
        self.with_mail, self.with_notices = set(self.customers), set(self.customers)
        # the customers whose mail was queued since the last count began, and what had left then
        self.stirred: set[str] = set()
        self.left: dict[str, tuple[int, ...]] = {}

    def take_up(self, customers: Iterable[str]) -> None:
        """From now on these are the customers. Of new ones nothing is known."""
        with self.guard:
            added, self.customers = set(customers).difference(self.customers), set(customers)
            self.with_mail = self.with_mail.union(added).intersection(self.customers)
            self.with_notices = self.with_notices.union(added).intersection(self.customers)

    def stir(self, customer: str) -> None:
        """Mail of a customer was queued."""
        with self.guard:
            self.stirred.add(customer)
            self.with_mail.add(customer)

    def notice(self, customer: str) -> None:
        """A notice may have been made, or could not be mailed."""
        with self.guard:
            self.with_notices.add(customer)

    def mail(self, customer: str) -> None:
        """All notices of a customer are about to be mailed."""
        with self.guard:
            self.with_notices.discard(customer)

    def may_have_mail(self) -> set[str]:
        with self.guard:
            return set(self.with_mail)

    def may_have_notices(self) -> set[str]:
        with self.guard:
            return set(self.with_notices)

    def count(self) -> None:
        """Counts what each customer has, unless that was done just now.

        If the desk has no count, everybody may have mail.
        """
        if time.monotonic() < self.counted + BETWEEN_COUNTS:
            return
        with self.guard:
            self.stirred = set()
        try:
            self.take(self.desk.usages())
            self.counted = time.monotonic()
        except (Away, Refused, LookupError, TypeError) as error:
            if not has_no_call_of_all(error):
                log.warning("not counted", why=repr(error))
            with self.guard:
                self.with_mail = set(self.customers)

    def take(self, usages: Iterable[Usage]) -> None:
        """Takes up a count."""
        with self.guard:
            for usage in usages:
                customer, left = usage.customer, left_of(usage)
                if usage.messages or customer in self.stirred:
                    self.with_mail.add(customer)
                else:
                    self.with_mail.discard(customer)
                # (somebody else's sweep may have warned of mail that waits)
                if usage.messages or self.left.get(customer) != left:
                    self.with_notices.add(customer)
                self.left[customer] = left
