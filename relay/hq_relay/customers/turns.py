"""Customers have their turns in some threads, each one at a time, so that none holds up another."""
import collections
import threading
import time
from collections.abc import Callable

from hq_relay import log
from hq_relay.desk.client import Away
from hq_relay.settings import Settings

# A customer whose turn failed rests for so many times as long as that took.
TIMES = 4


def threads_for(settings: Settings, count: int) -> int:
    """How many threads give turns at several desks, if so many do at one."""
    return 2 * count if settings.has_several_desks else count


class CustomerTurns:
    """`work` does something for a customer, and returns whether there is more of it to do.

    While its calls fail a customer rests; its threads go on with the others. `desk_of` has the
    desk of each customer, if there are several. Customers of one take no more threads than they
    leave free: so a desk that hangs does not hold up those of others. `pause` is the shortest
    rest, in seconds.
    """

    def __init__(self, count: int, pause: float, work: Callable[[str], bool],
                 desk_of: dict[str, str] | None = None):
        self.pause, self.work, self.desk_of = pause, work, desk_of or {}
        self.guard, self.ending = threading.Condition(), threading.Event()
        # the customers that wait for a turn, by desk, the first one first; and how many have it
        self.lines: dict[str, collections.deque[str]] = collections.defaultdict(collections.deque)
        self.working: dict[str, int] = collections.Counter()
        # the customers that wait for their turn or have it, and those that get another one after it
        self.waiting: set[str] = set()
        self.again: set[str] = set()
        # the moments until which those rest whose last turn failed
        self.rests: dict[str, float] = {}
        self.threads = [threading.Thread(target=self.run, daemon=True) for _ in range(count)]

    def start(self) -> None:
        for thread in self.threads:
            thread.start()

    def add(self, customer: str) -> None:
        """A customer is to have a turn, unless it rests."""
        with self.guard:
            if time.monotonic() < self.rests.get(customer, 0.0):
                return
            if customer in self.waiting:
                self.again.add(customer)
                return
            self.waiting.add(customer)
            self.line_up(customer)

    def take_up(self, desk_of: dict[str, str]) -> None:
        """From now on customers have these desks. A customer with a turn stays in its line."""
        with self.guard:
            self.desk_of = {**self.desk_of, **desk_of}

    def line_up(self, customer: str) -> None:
        self.lines[self.desk_of.get(customer, "")].append(customer)
        self.guard.notify_all()

    def wait(self) -> None:
        """Returns when no customer waits for its turn."""
        with self.guard:
            self.guard.wait_for(lambda: not self.waiting or self.ending.is_set())

    def end(self) -> None:
        """Begins no turn any more, and returns when those that were begun have ended."""
        with self.guard:
            self.ending.set()
            self.guard.notify_all()
        for thread in self.threads:
            if thread.is_alive():
                thread.join()

    # ---- the threads

    def run(self) -> None:
        """Gives one turn after the other, until the end."""
        while True:
            with self.guard:
                self.guard.wait_for(self.may_go_on)
                desk = self.desk_that_may()
                if self.ending.is_set() or desk is None:
                    return
                customer = self.begin_turn(desk)
            begun = time.monotonic()
            is_more = self.turn(customer)
            self.end_turn(customer, is_more, time.monotonic() - begun)

    def may_go_on(self) -> bool:
        return self.ending.is_set() or self.desk_that_may() is not None

    def desk_that_may(self) -> str | None:
        """The desk whose first customer has the next turn: that with the fewest turns under way.

        None if nobody waits, or that desk takes all threads that are left.
        """
        desks = [desk for desk, line in self.lines.items() if line]
        if not desks:
            return None
        desk = min(desks, key=lambda name: self.working[name])
        has_several = len(set(self.desk_of.values())) > 1
        free = len(self.threads) - sum(self.working.values())
        return desk if not has_several or self.working[desk] < free else None

    def begin_turn(self, desk: str) -> str:
        customer = self.lines[desk].popleft()
        self.working[desk] += 1
        self.again.discard(customer)
        return customer

    def turn(self, customer: str) -> bool | None:
        """Whether there is more to do; None if the turn failed."""
        try:
            return self.work(customer)
        except Away as error:
            log.error("desk away", customer=customer, why=error)
        except Exception as error:
            log.error("turn failed", customer=customer, why=repr(error))
        return None

    def end_turn(self, customer: str, is_more: bool | None, seconds: float) -> None:
        with self.guard:
            self.working[self.desk_of.get(customer, "")] -= 1
            if is_more is None:
                self.rests[customer] = time.monotonic() + max(self.pause, TIMES * seconds)
                self.again.discard(customer)
            else:
                self.rests.pop(customer, None)
            if (is_more or customer in self.again) and not self.ending.is_set():
                self.line_up(customer)
            else:
                self.waiting.discard(customer)
                self.guard.notify_all()
