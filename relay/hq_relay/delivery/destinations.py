"""What may be handed over now: which domains are tried, how much is under way, and of whom.

The instance that delivers reports each soft failure at once, and so it keeps no count of hosts
that are dead: here they rest. The answer of a host is no reason to rest. It may be of one sender,
and others' mail is taken. A session that the host cuts after its greeting is a rest for its
customer alone.

A host that hangs holds a process of that instance for each of its messages, as many as the
instance has for a domain. So that something is left for other customers, one takes no more of
anything than it leaves free. That is of the messages under way to a domain, of the processes for
slow and new domains, and of all processes.
"""
import threading
import time
from collections.abc import Iterable
from dataclasses import dataclass, field
from typing import NamedTuple

from hq_relay.outcome import Outcome, Unreached
from hq_relay.storage.attempts import Attempt

# The most messages under way to a domain: before the first answer, after it, and at last. Each
# answer that comes soon lets MORE in.
UNPROVEN, FIRST, PROVEN, MORE = 2, 10, 100, 2
# A domain is slow if its oldest message is under way for so many seconds.
SLOW = 5.0
# A domain that has answered rests after so many failures in a row, any other one after the first.
MOST_FAILURES = 10
# A rest doubles with each further failure, up to so many seconds: the desk's longest wait.
LONGEST = 4000.0
# Beyond so many domains the idle ones are forgotten.
MOST = 10_000
# A customer that waits for a domain goes on after so many ends, or if no more are under way. (A
# turn reads the list anew.)
AT_ONCE = 10
# The book has a message as under way so many seconds after its beginning.
WRITTEN_BY = 10.0
# A customer that waits for processes goes on after so many seconds at the earliest.
BETWEEN_TURNS = 1.0


@dataclass(frozen=True)
class Capacity:
    """The processes of the instance that send, and how many of them a domain may take."""

    processes: int = 100
    at_a_domain: int = 5


class UnderWay(NamedTuple):
    """A message under way: its customer, and the moment since when, by `time.monotonic`."""

    customer: str
    since: float


@dataclass(slots=True)
class Rest:
    """Failures in a row, and the rest after them: its length in seconds, and when it ends."""

    failures: int = 0
    seconds: float = 0.0
    until: float = 0.0

    def fail(self, now: float, most: int, first: float) -> bool:
        """One more failure, of which so many bring a rest; whether it does."""
        self.failures += 1
        if now < self.until or self.failures < most:
            return False
        self.seconds = min(LONGEST, max(first, 2 * self.seconds))
        self.failures, self.until = 0, now + self.seconds
        return True


@dataclass(slots=True)
class Domain:
    """A domain of recipients.

    `window` is how many messages may be under way to it, once it has answered. `under_way` has
    these by envelope ID, the oldest first, and `counts` how many each customer has. `cut` has the
    rest of each customer whose sessions the host cuts. `waiting` are the customers that wait for
    the end of a message, and `ends` counts these ends.
    """

    is_proven: bool = False
    window: int = FIRST
    rest: Rest = field(default_factory=Rest)
    cut: dict[str, Rest] = field(default_factory=dict)
    under_way: dict[str, UnderWay] = field(default_factory=dict)
    counts: dict[str, int] = field(default_factory=dict)
    waiting: set[str] = field(default_factory=set)
    ends: int = 0

    def count_of(self, customer: str) -> int:
        return self.counts.get(customer, 0)

    def add(self, envelope: str, customer: str, since: float) -> None:
        if envelope not in self.under_way:
            self.counts[customer] = self.count_of(customer) + 1
        self.under_way[envelope] = UnderWay(customer, since)

    def remove(self, envelope: str) -> bool:
        """A message is not under way any more; whether it was."""
        message = self.under_way.pop(envelope, None)
        if message:
            self.counts[message.customer] -= 1
            if not self.counts[message.customer]:
                del self.counts[message.customer]
        return bool(message)

    def is_slow(self, now: float) -> bool:
        """Whether each of its messages may hold a process for long, for all that is known."""
        oldest = next(iter(self.under_way.values()), None)
        return not self.is_proven or bool(oldest and now - oldest.since > SLOW)

    def rests(self, customer: str, now: float) -> bool:
        return now < self.rest.until or (customer in self.cut and now < self.cut[customer].until)

    def is_idle(self, now: float) -> bool:
        """Whether it makes no difference to forget it, but that it has answered once."""
        return not (self.under_way or now < self.rest.until
                    or any(now < rest.until for rest in self.cut.values()))

    def go_on(self) -> set[str]:
        """The customers that go on after the end of a message."""
        self.ends += 1
        if self.ends < AT_ONCE <= len(self.under_way):
            return set()
        customers, self.waiting, self.ends = self.waiting, set(), 0
        return customers


def domains_of(recipients: Iterable[str]) -> list[str]:
    return sorted({domain_of(recipient) for recipient in recipients})


def domain_of(recipient: str) -> str:
    return recipient.rpartition("@")[2].lower()


class Destinations:
    """All domains. `first` is the first rest of a domain, in seconds."""

    def __init__(self, first: float, capacity: Capacity = Capacity()):
        self.first, self.capacity, self.guard = first, capacity, threading.Lock()
        self.domains: dict[str, Domain] = {}
        # the customers that wait until processes are free, and when each of these went on last
        self.waiting: set[str] = set()
        self.went_on: dict[str, float] = {}

    # ---- messages

    def begin(self, attempt: Attempt) -> bool:
        """Whether a message may go to all its recipients now; then it is under way until `end`.

        Else its customer waits for what is missing, until `end` returns it.
        """
        now, customer = time.monotonic(), attempt.customer
        with self.guard:
            domains = [self.domain(name) for name in domains_of(attempt.recipients)]
            if any(domain.rests(customer, now) for domain in domains):
                return False
            full = [domain for domain in domains if not self.has_room(domain, customer, now)]
            for domain in full:
                domain.waiting.add(customer)
            if not full and not self.has_processes(domains, customer, now):
                self.waiting.add(customer)
                return False
            for domain in domains if not full else ():
                domain.add(attempt.envelope, customer, now)
            return not full

    def resume(self, attempts: Iterable[Attempt]) -> None:
        """These were under way when the worker began."""
        now, moment = time.monotonic(), time.time()
        with self.guard:
            for attempt in sorted(attempts, key=lambda attempt: attempt.at):
                since = now - max(0.0, moment - attempt.at)
                for name in domains_of(attempt.recipients):
                    self.domain(name).add(attempt.envelope, attempt.customer, since)

    def end(self, attempt: Attempt) -> set[str]:
        """A message is not under way any more. Returns the customers that waited for that."""
        now = time.monotonic()
        customers: set[str] = set()
        with self.guard:
            for name in domains_of(attempt.recipients):
                domain = self.domain(name)
                # (it may have been new, or slow, until now)
                if domain.remove(attempt.envelope):
                    customers |= self.free(now)
                customers |= domain.go_on()
                has_history = domain.is_proven or domain.rest.seconds or domain.cut
                if domain.is_idle(now) and not has_history:
                    del self.domains[name]
        return customers

    def keep(self, known: set[str]) -> None:
        """Of messages that began before WRITTEN_BY, these envelope IDs alone are still under way.

        Others were lost, or erased meanwhile.
        """
        now = time.monotonic()
        with self.guard:
            for domain in self.domains.values():
                gone = [envelope for envelope, message in domain.under_way.items()
                        if envelope not in known and now - message.since > WRITTEN_BY]
                for envelope in gone:
                    domain.remove(envelope)

    def free(self, now: float) -> set[str]:
        """Some processes are free; the customers that go on by that."""
        customers = {customer for customer in self.waiting
                     if now - self.went_on.get(customer, 0.0) >= BETWEEN_TURNS}
        self.waiting -= customers
        self.went_on = {customer: at for customer, at in self.went_on.items()
                        if now - at < BETWEEN_TURNS}
        self.went_on.update(dict.fromkeys(customers, now))
        return customers

    def answered(self, customer: str, outcomes: Iterable[Outcome], envelope: str = "") -> None:
        """Learns from the outcomes of a customer's message which domains answer, and how soon.

        A domain that does not answer rests for longer each time: for all, or for this customer if
        it cut the session.
        """
        now = time.monotonic()
        with self.guard:
            for outcome in outcomes:
                domain = self.domain(domain_of(outcome.recipient))
                most = MOST_FAILURES if domain.is_proven else 1
                if outcome.unreached == Unreached.DOMAIN:
                    rests = domain.rest.fail(now, most, self.first)
                    domain.is_proven = domain.is_proven and not rests
                elif outcome.unreached == Unreached.CUSTOMER_ALONE:
                    domain.cut.setdefault(customer, Rest()).fail(now, most, self.first)
                else:
                    domain.is_proven, domain.rest = True, Rest()
                    domain.cut.pop(customer, None)
                    message = domain.under_way.get(envelope)
                    if not message or now - message.since <= SLOW:
                        domain.window = min(PROVEN, domain.window + MORE)
            self.forget(now)

    # ---- what there is room for

    def domain(self, name: str) -> Domain:
        return self.domains.setdefault(name, Domain())

    def has_room(self, domain: Domain, customer: str, now: float) -> bool:
        """Whether one more message of a customer may be under way to a domain."""
        if domain.is_proven and domain.is_slow(now):
            domain.window = min(domain.window, 2 * self.capacity.at_a_domain)
        most = domain.window if domain.is_proven else UNPROVEN
        return domain.count_of(customer) < most - len(domain.under_way)

    def has_processes(self, domains: list[Domain], customer: str, now: float) -> bool:
        """Whether a customer leaves as many processes free as it has.

        That is of all processes, and of the half for slow domains.
        """
        under_way = [domain for domain in self.domains.values() if domain.under_way]
        if not self.leaves_enough(under_way, customer, self.capacity.processes):
            return False
        if not any(domain.is_slow(now) for domain in domains):
            return True
        slow = [domain for domain in under_way if domain.is_slow(now)]
        return self.leaves_enough(slow, customer, self.capacity.processes // 2)

    def leaves_enough(self, domains: list[Domain], customer: str, most: int) -> bool:
        longest = self.capacity.at_a_domain
        held = sum(min(len(domain.under_way), longest) for domain in domains)
        own = sum(min(domain.count_of(customer), longest) for domain in domains)
        return own < most - held

    def forget(self, now: float) -> None:
        """Drops the domains that are idle, once there are many."""
        if len(self.domains) > MOST:
            self.domains = {name: domain for name, domain in self.domains.items()
                            if not domain.is_idle(now)}
