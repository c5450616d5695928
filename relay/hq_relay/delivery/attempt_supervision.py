"""Looks after attempts that were handed over.

Some are lost, some were never taken, and some their customers do not want any more.
"""
import time
from collections.abc import Callable
from typing import NamedTuple

from hq_relay import log
from hq_relay.desk.client import Desk
from hq_relay.outcome import Outcome
from hq_relay.postfix import delivering_instance
from hq_relay.postfix.delivering_instance import Queue
from hq_relay.settings import Settings
from hq_relay.storage.attempts import Attempt, Attempts
from hq_relay.storage.spool_names import SpoolNames

# A hold does not take back mail that may just be being sent: nobody would know then whether it
# was. (A reload of Postfix moves that from `active` to `incoming`.)
TAKEN_BACK_ON_HOLD = "deferred"


class LyingAttempt(NamedTuple):
    """An attempt that lies in the queue of the instance, and the queue that it lies in."""

    attempt: Attempt
    queue: str


class AttemptSupervision:
    """Compares the attempts with the queue of the instance.

    The queue is read first, and then the reports and the log: a message that leaves the queue has
    put its report there before, and its lines. One look is not believed: it may miss
    a message that moves there.

    `read` reads reports and the log, and returns how many attempts had something. `left` is called
    with an attempt that has left the queue, and `ended` with one that has ended.
    `lies` is called with a customer whose mail lies in the queue, and `keep` with the envelope IDs
    of all mail under way.
    """

    def __init__(self, settings: Settings, desk: Desk, attempts: Attempts, names: SpoolNames,
                 read: Callable[[], int], left: Callable[[Attempt], None],
                 ended: Callable[[Attempt, tuple[Outcome, ...]], None],
                 lies: Callable[[str], None], keep: Callable[[set[str]], None]):
        self.settings, self.desk, self.attempts, self.names = settings, desk, attempts, names
        self.read, self.left, self.ended, self.lies, self.keep = read, left, ended, lies, keep
        # by customer the attempts that lie in the queue
        self.lying: dict[str, list[LyingAttempt]] = {}
        # by envelope ID since when an attempt is neither in the queue nor reported
        self.since: dict[str, float] = {}

    def look(self, is_busy: Callable[[Attempt], bool]) -> None:
        """Looks after all attempts that are not just being handed over, as `is_busy` says.

        Raises OSError if the queue cannot be read.
        """
        now = time.monotonic()
        old = [attempt for attempt in self.attempts.under_way() if not is_busy(attempt)]
        queue = delivering_instance.queue(self.settings) if old else Queue()
        while old and self.read():
            pass
        left = {attempt.envelope: attempt for attempt in self.attempts.under_way()}
        self.since = {envelope: at for envelope, at in self.since.items() if envelope in left}
        known = {attempt.queue_id for attempt in left.values() if attempt.queue_id}
        # (mail that is lost, or was deleted there by hand, takes no share of what may be under way)
        gone = {attempt.envelope for attempt in old if not queue.has(attempt, known)}
        self.keep({*left} - gone)
        lying: dict[str, list[LyingAttempt]] = {}
        for attempt in (left[attempt.envelope] for attempt in old if attempt.envelope in left):
            if not queue.has(attempt, known):
                self.miss(attempt, queue, now)
                continue
            self.since.pop(attempt.envelope, None)
            # (the desk knows nothing of a customer that was dropped)
            if attempt.queue_id and attempt.customer in self.settings.customers:
                lies = LyingAttempt(attempt, queue.ids[attempt.queue_id])
                lying.setdefault(attempt.customer, []).append(lies)
        self.lying = lying
        for customer in lying:
            self.lies(customer)

    def miss(self, attempt: Attempt, queue: Queue, now: float) -> None:
        """An attempt is not in the queue. It is given up after the times of the settings."""
        since = self.since.setdefault(attempt.envelope, now)
        wait = self.settings.lost_after if attempt.queue_id else self.settings.settle_after
        # A report that lies in the queue since before may be this one's.
        is_report_there = queue.oldest_report <= time.time() - (now - since) + 1
        if not is_report_there and attempt.is_known(attempt.outcomes, is_gone=True):
            # (the log has all its recipients, but not that it has left the queue)
            self.since.pop(attempt.envelope)
            self.left(attempt)
            return
        if is_report_there or since > now - wait:
            return
        self.since.pop(attempt.envelope)
        self.resolve(attempt, is_lost=True)
        words = {"customer": attempt.customer, "id": attempt.id, "spool": attempt.spool,
                 "envelope": attempt.envelope}
        if attempt.queue_id:
            log.error("no report", queue_id=attempt.queue_id,
                      means="it is tried again, and may come twice", **words)
        else:
            log.warning("was not handed over", **words)

    def resolve(self, attempt: Attempt, is_lost: bool) -> None:
        """Awaits nothing more of an attempt. The desk gets the outcomes that are known by now."""
        attempt = self.attempts.of(attempt.envelope) or attempt
        self.attempts.resolved(attempt, attempt.outcomes, is_lost)
        self.ended(attempt, ())

    # ---- taking back

    def take_back(self, customer: str) -> bool:
        """Takes back mail that a customer deleted meanwhile, and held mail that nobody sends yet.

        A turn: nothing is left to do.
        """
        lying = self.lying.pop(customer, [])
        entries = self.desk.messages(customer) if lying else ()
        states = {entry.id: entry for entry in entries}
        for attempt, queue in lying:
            entry = states.get(attempt.id)
            if entry and entry.is_held:
                # (it may be sent by now, so the queue is read once more)
                if queue == TAKEN_BACK_ON_HOLD and self.still_lies(attempt):
                    self.take_one_back(attempt)
            elif not entry and not self.names.anywhere(customer, attempt.spool, attempt.id):
                self.take_one_back(attempt)
        return False

    def still_lies(self, attempt: Attempt) -> bool:
        """Whether nobody sends it just now either."""
        ids = delivering_instance.queue(self.settings).ids
        return ids.get(attempt.queue_id or "") == TAKEN_BACK_ON_HOLD

    def take_one_back(self, attempt: Attempt) -> None:
        id = attempt.queue_id or ""
        words = {"customer": attempt.customer, "id": attempt.id, "queue_id": id}
        try:
            is_taken_back = delivering_instance.take_back(self.settings, id)
        except ConnectionResetError as error:
            log.warning("not taken back yet", why=error, **words)
            return
        except OSError as error:
            # (what its customer deleted is sent all the same)
            log.error("not taken back", why=error, **words)
            return
        if is_taken_back:
            self.resolve(attempt, is_lost=False)
            log.info("taken back", **words)
