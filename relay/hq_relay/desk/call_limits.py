"""Limits of calls to several desks at once: a desk that hangs leaves room for others' calls."""
import collections
import threading
import time
from collections.abc import Iterator
from contextlib import contextmanager

from hq_relay.desk.client import Away

# A desk hangs if its calls take longer than so many seconds.
LONGEST = 2.0


class CallLimits:
    """A desk has at most `most` calls under way."""

    def __init__(self, most: int):
        self.most, self.guard = most, threading.Condition()
        # the moments when the calls of each desk began that are under way
        self.begun: dict[str, list[float]] = collections.defaultdict(list)

    def has_room(self, desk: str) -> bool:
        """Whether a call of the desk would begin at once."""
        with self.guard:
            return len(self.begun[desk]) < self.most

    @contextmanager
    def one_of(self, desk: str) -> Iterator[None]:
        """A call of a desk is under way, once there is room for it. Raises Away after LONGEST."""
        end = time.monotonic() + LONGEST
        with self.guard:
            own = self.begun[desk]
            while len(own) >= self.most:
                left = min(min(own) + LONGEST, end) - time.monotonic()
                if left <= 0:
                    raise Away(f"desk {desk} hangs")
                self.guard.wait(left)
            begun = time.monotonic()
            own.append(begun)
        try:
            yield
        finally:
            with self.guard:
                own.remove(begun)
                self.guard.notify_all()
