"""Outcomes of messages that were handed over, as they come back from the delivering instance.

They are in its reports (RFC 3464), and in its log (`delivery_log.py`). Reports lie in a Maildir. A
stranger may write all that is in one, such as the answer of a host. So a report counts only for an
attempt whose envelope ID it has, and nobody can guess that.
"""
import mailbox
import os
import threading
from collections.abc import Callable, Container, Mapping
from dataclasses import dataclass, field, replace

from hq_relay import log
from hq_relay.delivery.delivery_log import DeliveryLog, Evidence
from hq_relay.outcome import Outcome, Result, results_of
from hq_relay.postfix.report_reader import DeliveryReport, read_text
from hq_relay.settings import Settings
from hq_relay.settings_tables import CUSTOMER
from hq_relay.storage.attempts import Attempt, Attempts
from hq_relay.storage.spool import drop
from hq_relay.storage.spool_names import SpoolNames

# By envelope ID what reports and the log have.
Collected = dict[str, list[Outcome]]

# So many reports are read at once, and so many bytes of each.
BATCH, LARGEST = 200, 262_144
# The folder for foreign mail, and how many of these are kept.
ASIDE, MOST_ASIDE = "aside", 100
# The folders of a Maildir that have mail.
MAILDIR = ("new", "cur")


@dataclass
class LateOutcomes:
    """What came of an attempt that was given up: outcomes, reports, and lines of the log."""

    outcomes: list[Outcome] = field(default_factory=list)
    files: list[str] = field(default_factory=list)
    lines: Evidence | None = None


class OutcomeCollector:
    """Reads reports and the log, and journals what the desk is to get.

    `journaled` is called with each customer that has outcomes in the journal, and `ended` with each
    attempt that has ended. `comes_late` is called with each customer that has a report to be
    fitted, for which the worker asks its desk.
    """

    def __init__(self, settings: Settings, attempts: Attempts, names: SpoolNames,
                 delivery_log: DeliveryLog, journaled: Callable[[str], None],
                 ended: Callable[[Attempt, tuple[Outcome, ...]], None],
                 comes_late: Callable[[str], None]):
        self.settings, self.attempts, self.names = settings, attempts, names
        self.delivery_log = delivery_log
        self.journaled, self.ended, self.comes_late = journaled, ended, comes_late
        # by customer, and by envelope ID, what came of attempts that were given up
        self.late: dict[str, dict[str, LateOutcomes]] = {}
        self.guard = threading.Lock()  # of these

    def files(self) -> list[str]:
        """The reports that have come, each as its folder and its name there."""
        files: list[str] = []
        for folder in MAILDIR:
            try:
                with os.scandir(self.settings.reports / folder) as entries:
                    files += [f"{folder}/{entry.name}" for entry in entries
                              if not (entry.name.startswith(".") or entry.is_dir())]
            except FileNotFoundError:
                return []  # (there is no Maildir yet)
        return files

    def read(self) -> int:
        """Journals the outcomes of reports and of the log, and removes the reports.

        Returns of how many attempts there was something.
        """
        # (the log first: of a message that it has as gone a report is there by now)
        evidence = self.delivery_log.take()
        attempts = self.attempts.all_of(evidence)
        collected, files = self.read_reports(attempts)
        for envelope in self.of_attempts(evidence, attempts):
            collected.setdefault(envelope, []).extend(evidence[envelope].outcomes)
        late = {envelope: collected.pop(envelope) for envelope in [*collected]
                if attempts[envelope].is_lost}
        self.set_apart(late, files, evidence)
        if collected:
            self.take(collected, {envelope for envelope, part in evidence.items() if part.is_gone})
        for envelope in collected:
            for file in files.get(envelope, ()):
                self.discard(file)
        self.delivery_log.done(evidence[envelope] for envelope in collected
                               if envelope in evidence)
        return len(collected)

    def read_reports(self, attempts: dict[str, Attempt]) -> tuple[Collected, dict[str, list[str]]]:
        """The outcomes of reports, and their files, by envelope ID. Adds their attempts."""
        collected: Collected = {}
        files: dict[str, list[str]] = {}
        late = self.late_files()
        for file in [file for file in self.files() if file not in late][:BATCH]:
            report = self.read_one(file)
            envelope = report.envelope
            if envelope and envelope not in attempts:
                attempts.update(self.attempts.all_of([envelope]))
            if envelope in attempts:
                collected.setdefault(envelope, []).extend(report.outcomes)
                files.setdefault(envelope, []).append(file)
            elif self.is_of_dropped(envelope):
                log.warning("report of a dropped customer", file=file)
                self.discard(file)
            else:
                self.put_aside(file)
        return collected, files

    def of_attempts(self, evidence: Mapping[str, Evidence],
                    attempts: Mapping[str, Attempt]) -> list[str]:
        """The envelope IDs of attempts that are under way, or were given up and are delivered.

        The rest of the evidence is done with.
        """
        late = self.late_envelopes()
        found, rest = [], []
        for envelope, part in evidence.items():
            attempt = attempts.get(envelope)
            if attempt and (part.outcomes or not attempt.is_lost) and envelope not in late:
                found.append(envelope)
            elif envelope not in late:
                rest.append(part)
        self.delivery_log.done(rest)
        return found

    def discard(self, file: str) -> None:
        drop(self.settings.reports / file)

    def read_one(self, file: str) -> DeliveryReport:
        """The report of a file. (If it cannot be opened now it raises OSError, and stays.)"""
        with open(self.settings.reports / file, "rb") as opened:
            return read_text(opened.read(LARGEST), file)

    def is_of_dropped(self, envelope: str | None) -> bool:
        """Whether an envelope ID is of a customer that is not in the settings any more."""
        name, dot, _ = (envelope or "").partition(".")
        is_name = bool(dot and CUSTOMER.fullmatch(name))
        return is_name and name not in self.settings.customers

    def take(self, collected: Mapping[str, list[Outcome]], gone: Container[str] = ()) -> None:
        """Journals outcomes of reports and of the log; some messages are gone from the queue."""
        attempts = self.attempts.all_of(collected)
        for envelope, attempt in attempts.items():
            outcomes = collected[envelope]
            if outcomes and not attempt.with_more(outcomes):
                recipients = ",".join(outcome.recipient for outcome in outcomes)
                log.error("report of nobody", customer=attempt.customer, id=attempt.id,
                          envelope=envelope, recipients=recipients)
        done = self.attempts.reported(collected, gone, attempts)
        for attempt in done:
            self.ended(attempt, attempt.with_more(collected[attempt.envelope]))
        for customer in sorted({attempt.customer for attempt in done}):
            self.journaled(customer)

    def left(self, attempt: Attempt) -> None:
        """An attempt with all outcomes has left the queue."""
        self.take({attempt.envelope: []}, {attempt.envelope})

    # ---- attempts that were given up

    def late_files(self) -> set[str]:
        with self.guard:
            return {file for envelopes in self.late.values() for late in envelopes.values()
                    for file in late.files}

    def late_envelopes(self) -> set[str]:
        """The envelope IDs with lines of the log that wait to be fitted."""
        with self.guard:
            return {envelope for envelopes in self.late.values()
                    for envelope, late in envelopes.items() if late.lines is not None}

    def set_apart(self, collected: Mapping[str, list[Outcome]], files: Mapping[str, list[str]],
                  evidence: Mapping[str, Evidence]) -> None:
        """These are of attempts that were given up: each is fitted in a turn of its customer."""
        for envelope, outcomes in collected.items():
            attempt = self.attempts.of(envelope)
            if not attempt:
                continue
            with self.guard:
                late = self.late.setdefault(attempt.customer, {}).setdefault(
                    envelope, LateOutcomes())
                late.outcomes.extend(outcomes)
                late.files.extend(files.get(envelope, ()))
                late.lines = evidence.get(envelope, late.lines)
        if collected:
            self.ask_for_late()

    def ask_for_late(self) -> None:
        """Gives those customers a turn that have late reports."""
        with self.guard:
            customers = [customer for customer, envelopes in self.late.items() if envelopes]
        for customer in customers:
            self.comes_late(customer)

    def take_late(self, customer: str) -> bool:
        """Fits the late reports of a customer. A turn: nothing is left to do."""
        with self.guard:
            waiting = {envelope: replace(late, outcomes=[*late.outcomes], files=[*late.files])
                       for envelope, late in self.late.get(customer, {}).items()}
        for envelope, late in waiting.items():
            collected, attempt = {envelope: late.outcomes}, self.attempts.of(envelope)
            if customer not in self.settings.customers:
                log.warning("report of a dropped customer", envelope=envelope)
            elif attempt:
                self.move(attempt, collected)
                self.take(collected)
                self.journaled(customer)
            for file in late.files:
                self.discard(file)
            self.took(customer, envelope, len(late.outcomes), len(late.files))
        return False

    def took(self, customer: str, envelope: str, outcomes: int, files: int) -> None:
        """So much of the late reports of an attempt is done with; what came meanwhile waits."""
        with self.guard:
            late = self.late[customer][envelope]
            lines, late.lines = late.lines, None
            del late.outcomes[:outcomes]
            del late.files[:files]
            if not late.files:
                del self.late[customer][envelope]
        self.delivery_log.done([lines] if lines is not None else [])

    def move(self, lost: Attempt, collected: Collected) -> None:
        """A report came of an attempt that was given up as lost.

        If its message was delivered, or has failed, that counts: for the attempt that is under way
        now, or else by itself.
        """
        outcomes = lost.with_more(collected[lost.envelope])
        final = [outcome for outcome in outcomes if outcome.result != Result.DEFERRED]
        log.warning("late report", customer=lost.customer, id=lost.id, spool=lost.spool,
                    envelope=lost.envelope, outcomes=results_of(final))
        now = self.attempts.find("spool = ? AND customer = ? AND done IS NULL", lost.spool,
                                 lost.customer)
        for attempt in now:
            collected.setdefault(attempt.envelope, []).extend(final)
        is_alone = final and not now
        message = self.names.anywhere(lost.customer, lost.spool, lost.id) if is_alone else None
        if message:
            lost = replace(lost, id=message.id, number=message.attempts + 1)
        self.attempts.resolved(lost, final if message else [])

    def put_aside(self, file: str) -> None:
        """Keeps foreign mail apart, as long as there is little of it."""
        box = mailbox.Maildir(str(self.settings.reports), create=False)
        aside = box.get_folder(ASIDE) if ASIDE in box.list_folders() else box.add_folder(ASIDE)
        log.error("foreign mail among the reports", file=file)
        if len(aside) < MOST_ASIDE:
            with open(self.settings.reports / file, "rb") as opened:
                aside.add(opened.read(LARGEST))
        self.discard(file)
