"""What was delivered, as the log of the instance that delivers has it.

No mail reports it as long as that log can be trusted. A line of the log has a queue ID. It counts
for the attempt with which the instance logged that ID as the message came, or of which the book
has it. A message was delivered when the log says that of its recipients, and that it has left the
queue.

The log is trusted while each message that is handed over shows up there at once. Else mails report
successes, as they do failures.
"""
import secrets
import threading
import time
from collections.abc import Iterable
from dataclasses import dataclass, field
from typing import NamedTuple

from hq_relay import log
from hq_relay.outcome import Outcome
from hq_relay.postfix.log_follower import LogFollower, Position
from hq_relay.postfix.log_lines import (FAILED, PLAIN, REMOVED, TAKEN, LogLine, may_count,
                                        read_line)
from hq_relay.settings import Settings
from hq_relay.storage.attempts import Attempt, Attempts

# The file of the spool with the position in the log, and after how many seconds it is written anew.
POSITION, KEPT_EACH = "log-position", 5.0
# The log is not trusted while so many messages do not show up, or one for LATE seconds. It is
# trusted for FRESH seconds after the last one that did. It is silent if one does not for SILENT
# seconds.
MOST_UNSEEN, LATE, FRESH, SILENT = 50, 1.0, 5.0, 10.0
# In seconds: how long a probe may take, how long none is made after one that did not show up, and
# between two looks.
FOR_A_PROBE, NO_PROBE, BETWEEN_LOOKS = 2.0, 60.0, 0.02
# So many messages are remembered that the log has and the book has not.
MOST = 100_000


class Evidence(NamedTuple):
    """What the log has of a message by now, and whether that has left the queue.

    `lines` counts the lines that say so.
    """

    queue_id: str
    lines: int
    outcomes: list[Outcome]
    is_gone: bool


@dataclass
class LoggedMessage:
    """What the log has of a message, from a position on: who got it, and whose delivery failed.

    So many of its lines are `done`: what they say is in the book.
    """

    envelope: str
    at: Position
    sent: dict[str, Outcome] = field(default_factory=dict)
    failed: set[str] = field(default_factory=set)
    is_gone: bool = False
    count: int = 0
    done: int = 0

    def take(self, line: LogLine) -> None:
        """Takes up one more line."""
        name = line.recipient.lower()
        if line.kind == FAILED:
            self.failed.add(name)
            return
        if line.outcome:
            self.sent.setdefault(name, line.outcome)
        self.is_gone = self.is_gone or line.kind == REMOVED
        self.count += 1

    def evidence(self, queue_id: str) -> Evidence:
        """(Of a recipient with both a success and a failure the report decides.)"""
        outcomes = [outcome for name, outcome in self.sent.items() if name not in self.failed]
        is_gone = self.is_gone and len(outcomes) == len(self.sent)
        return Evidence(queue_id, self.count, outcomes, is_gone)


class DeliveryLog:
    """Reads the log, from any thread."""

    def __init__(self, settings: Settings, attempts: Attempts):
        self.attempts, self.guard = attempts, threading.RLock()
        self.follower = LogFollower(settings.log, settings.folder / POSITION)
        self.messages: dict[str, LoggedMessage] = {}  # by queue ID
        # by envelope ID since when a message was handed over, and does not show up yet
        self.unseen: dict[str, float] = {}
        # when a message showed up last, the position was kept, and the log was looked at
        self.proven_at, self.kept_at, self.looked = float("-inf"), time.monotonic(), 0.0
        self.no_probe_until = 0.0
        self.is_silent = False

    # ---- whether the log can be trusted

    def is_trusted(self, attempt: Attempt | None = None) -> bool:
        """Whether no mail need report a success; of an attempt, if its addresses are plain."""
        with self.guard:
            now = time.monotonic()
            if now > self.looked + BETWEEN_LOOKS:
                self.look()
            oldest = next(iter(self.unseen.values()), now)
            is_proven = (now - oldest <= LATE and len(self.unseen) <= MOST_UNSEEN
                         and now - self.proven_at <= FRESH)
            is_plain = not attempt or all(map(PLAIN.fullmatch, attempt.recipients))
            return is_proven and not self.follower.why and is_plain

    def listen(self, now: float) -> None:
        """Logs that the log is silent."""
        oldest = next(iter(self.unseen.values()), now)
        if now - oldest <= SILENT:
            return
        self.unseen.clear()
        if not self.is_silent:
            log.error("no log of the delivering instance",
                      why=self.follower.why or "it does not tell what was handed over",
                      file=self.follower.path, means="mails tell of successes meanwhile")
        self.is_silent, self.proven_at = True, float("-inf")

    def expect(self, envelope: str) -> None:
        """A message is about to be handed over, and has to show up."""
        with self.guard:
            self.unseen[envelope] = time.monotonic()

    def forget(self, envelope: str) -> None:
        """A message may not show up."""
        with self.guard:
            self.unseen.pop(envelope, None)

    def seen(self, envelope: str) -> None:
        """A message shows up."""
        if self.unseen.pop(envelope, None) is None:
            return
        self.proven_at, self.no_probe_until = time.monotonic(), 0.0
        if self.is_silent:
            self.is_silent = False
            log.info("the log of the delivering instance tells again")

    @staticmethod
    def probe() -> str:
        """An envelope ID that is no attempt's."""
        return f"probe.0.0.{secrets.token_hex(12)}"

    def wants_probe(self) -> bool:
        """Whether a probe may prove the log. (After one that showed nothing, mail itself may.)"""
        return not self.is_trusted() and time.monotonic() >= self.no_probe_until

    def shows(self, envelope: str) -> bool:
        """Waits for a moment until a probe has shown up; whether it has."""
        end = time.monotonic() + FOR_A_PROBE
        while time.monotonic() < end:
            with self.guard:
                self.look()
                if envelope not in self.unseen:
                    return True
            time.sleep(BETWEEN_LOOKS)
        self.no_probe_until = end + NO_PROBE
        return False

    # ---- what it says

    def look(self) -> None:
        """Reads the lines that have come."""
        with self.guard:
            self.looked = time.monotonic()
            try:
                for position, lines in self.follower.read():
                    for text in lines:
                        line = read_line(text) if may_count(text) else None
                        if line:
                            self.hear(line, position)
            except OSError as error:
                self.follower.why = str(error)
            self.listen(self.looked)
            if self.looked > self.kept_at + KEPT_EACH:
                self.keep()

    def hear(self, line: LogLine, position: Position) -> None:
        """Takes up one line, which is after a position."""
        if line.kind == TAKEN:
            self.seen(line.envelope)
            if len(self.messages) < MOST:
                self.messages[line.queue_id] = LoggedMessage(line.envelope, position)
            return
        message = self.messages.get(line.queue_id)
        if not message and line.kind != FAILED:
            # (a message that was handed over before this start, or long ago)
            attempt = self.attempts.of_queue_id(line.queue_id)
            if not attempt:
                return
            message = self.messages[line.queue_id] = LoggedMessage(attempt.envelope, position)
        if message:
            message.take(line)

    def take(self) -> dict[str, Evidence]:
        """By envelope ID what is new. It stays until it is `done`."""
        with self.guard:
            self.look()
            return {message.envelope: message.evidence(id)
                    for id, message in self.messages.items() if message.count > message.done}

    def done(self, evidence: Iterable[Evidence]) -> None:
        """This was journaled."""
        with self.guard:
            for part in evidence:
                message = self.messages.get(part.queue_id)
                if message and part.lines == message.count and message.is_gone:
                    del self.messages[part.queue_id]
                elif message:
                    message.done = part.lines

    # ---- the position

    def keep(self) -> None:
        """Keeps the position after which a new start loses nothing.

        It is before each message that is not in the book yet.
        """
        with self.guard:
            self.kept_at = time.monotonic()
            for id, message in [*self.messages.items()]:
                attempt = self.attempts.of(message.envelope)
                is_in_the_book = not attempt or attempt.done or attempt.queue_id
                if message.count == message.done and is_in_the_book:
                    del self.messages[id]
            position = self.follower.position()
            if position:
                positions = [position, *(message.at for message in self.messages.values())]
                first = min(positions, key=lambda place: (place.number, place.offset))
                self.follower.keep(first)

    def end(self) -> None:
        self.keep()
        self.follower.close()
