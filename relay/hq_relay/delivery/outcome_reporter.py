"""Reports the outcomes of attempts to the desk: what is in the journal, until the desk has it."""
from dataclasses import replace

from hq_relay import log
from hq_relay.desk.client import (ATTEMPT_AHEAD, NO_MESSAGE, UNKNOWN_RECIPIENT, Desk, OutcomeCall,
                                  Refused)
from hq_relay.notices.mailer import NoticeMailer
from hq_relay.outcome import results_of
from hq_relay.storage.book import Book, Report
from hq_relay.storage.spool_names import SpoolNames

# So many outcomes of a customer are sent at once.
TOGETHER = 16

# The reports that the desk took, each with whether its message left the queue by it.
Taken = list[tuple[Report, bool]]


class OutcomeReporter:
    """Each call of the desk raises Away if the desk does not answer."""

    def __init__(self, desk: Desk, book: Book, names: SpoolNames, notices: NoticeMailer):
        self.desk, self.book, self.names, self.notices = desk, book, names, notices

    def report(self, customer: str, spools: list[str]) -> bool:
        """Reports the outcomes of names; whether none of them waits for room of a notice.

        Outcomes that the desk does not take stay in the journal, and until it does the message is
        not tried again.
        """
        taken: Taken = []
        has_room = True
        try:
            for at in range(0, len(spools), TOGETHER):
                found = (self.book.report(customer, spool) for spool in spools[at:at + TOGETHER])
                reports = [report for report in found if report]
                has_room = self.report_some(customer, reports, taken) and has_room
            return has_room
        finally:
            # (many are written down at once: the desk takes each again, and says so)
            if taken:
                self.book.all_reported(taken)

    def report_some(self, customer: str, reports: list[Report], taken: Taken) -> bool:
        """Reports these; whether no failure waits for room of its notice.

        Adds to `taken` what the desk took.
        """
        failures = [report for report in reports if report.is_failure]
        if not failures or self.notices.takes(customer, len(failures)):
            self.report_together(reports, taken)
            return True
        self.report_together([report for report in reports if not report.is_failure], taken)
        with_room = 0
        for report in failures:
            if self.has_room(report):
                self.report_together([report], taken)
                with_room += 1
        return with_room == len(failures)

    def report_together(self, reports: list[Report], taken: Taken) -> None:
        """Sends outcomes of different messages before the first reply: they share a commit."""
        calls: list[tuple[Report, OutcomeCall]] = []
        try:
            for report in reports:
                calls.append((report, self.send(report)))
            for report, call in calls:
                taken += self.finish(report, call)
        finally:
            for _, call in calls:
                call.close()

    def send(self, report: Report) -> OutcomeCall:
        return self.desk.outcome(report.customer, report.id, report.attempt, report.outcomes)

    def has_room(self, report: Report) -> bool:
        """Whether the notice of a failure pushes out none that waits; else that is logged."""
        has_room = self.notices.has_room_for(report.customer, 1)
        if not has_room:
            log.error("no room for a notice", customer=report.customer, id=report.id,
                      spool=report.spool)
        return has_room

    def finish(self, report: Report, call: OutcomeCall) -> Taken:
        """Reads the reply to a report, and sends it again as the desk takes it.

        Returns the report that the desk took, if it did.
        """
        while True:
            try:
                reply = call.reply()
            except Refused as refusal:
                mended = self.mended(report, refusal)
                if not mended:
                    return []
                report, call = mended, self.send(mended)
                continue
            log.info("outcome", customer=report.customer, id=report.id, spool=report.spool,
                     attempt=report.attempt, outcomes=results_of(report.outcomes),
                     result=reply.result)
            return [(report, reply.left == 0)]

    def mended(self, report: Report, refusal: Refused) -> Report | None:
        """The report as the desk may take it; None if the desk is not to get it, or not now."""
        if refusal.number == ATTEMPT_AHEAD and refusal.attempts is not None:
            mended: Report | None = replace(report, attempt=refusal.attempts + 1)
        elif refusal.number in (NO_MESSAGE, UNKNOWN_RECIPIENT):
            mended = self.fitted(report)
        else:
            log.error("outcome refused", customer=report.customer, id=report.id,
                      spool=report.spool, why=refusal)
            return None
        if mended:
            self.book.moved(mended)
            log.warning("outcome told anew", customer=report.customer, id=mended.id,
                        spool=report.spool, attempt=mended.attempt, why=refusal)
        else:
            self.book.reported(report)
            log.warning("gone in the middle", customer=report.customer, id=report.id,
                        spool=report.spool, outcomes=results_of(report.outcomes),
                        means="deleted or expired during the attempt, or told before a stop")
        return mended

    def fitted(self, report: Report) -> Report | None:
        """The report for the message as its customer has it now.

        It has a new ID if it was requeued, and the recipients alone that are still pending.
        """
        message = self.names.anywhere(report.customer, report.spool, report.id)
        if not message:
            return None
        pending = {recipient.lower() for recipient in message.pending}
        outcomes = tuple(outcome for outcome in report.outcomes if outcome.name in pending)
        if not outcomes:
            return None
        return replace(report, id=message.id, attempt=message.attempts + 1, outcomes=outcomes)
