"""What an attempt came to for one recipient, in the form of reports, of the log and of the desk."""
import json
from collections.abc import Iterable
from enum import StrEnum
from typing import NamedTuple

from hq_relay.json_members import Members, as_members, text_of


class Result(StrEnum):
    """The recipient has the message, is tried again, or has failed for good."""

    DELIVERED = "delivered"
    DEFERRED = "deferred"
    FAILED = "failed"


class Unreached(StrEnum):
    """What an attempt did not reach: the domain, or the domain for this customer alone."""

    NOTHING = ""
    DOMAIN = "domain"
    CUSTOMER_ALONE = "customer alone"


# (a search by value takes a tenth of the time of a call of the type)
RESULTS = {result.value: result for result in Result}
UNREACHED = {unreached.value: unreached for unreached in Unreached}


class Outcome(NamedTuple):
    """The outcome of an attempt for one recipient.

    `status` (RFC 3463) and `text` are None if nobody knows them; `remote` is the answering host.
    `is_by_log` marks an outcome of the log, which a report may replace.
    """

    recipient: str
    result: Result
    status: str | None = None
    text: str | None = None
    remote: str = ""
    unreached: Unreached = Unreached.NOTHING
    is_by_log: bool = False

    @property
    def name(self) -> str:
        """The recipient, as the desk compares it: without case."""
        return self.recipient.lower()

    def for_desk(self) -> "Outcome":
        """What the desk takes of it: not which host answered, and not who reported it."""
        return Outcome(self.recipient, self.result, self.status, self.text)

    def desk_members(self) -> Members:
        """The members that the desk takes."""
        members: Members = {"recipient": self.recipient, "result": self.result}
        if self.status is not None:
            members["status"] = self.status
        if self.text is not None:
            members["text"] = self.text
        return members

    def book_members(self) -> Members:
        """The members that the book keeps."""
        members = self.desk_members()
        members.update(remote=self.remote, unreached=self.unreached)
        if self.is_by_log:
            members["by"] = "log"
        return members


def outcome_of(members: Members) -> Outcome:
    """The outcome of the members that the book keeps. KeyError is raised for an unknown result."""
    status, text = members.get("status"), members.get("text")
    return Outcome(
        text_of(members, "recipient"), RESULTS[text_of(members, "result")],
        None if status is None else str(status), None if text is None else str(text),
        str(members.get("remote", "")), UNREACHED[str(members.get("unreached", ""))],
        "by" in members)


def desk_json(outcomes: Iterable[Outcome]) -> str:
    """Outcomes that the desk is to get, as the journal of the book keeps them."""
    return json.dumps([outcome.desk_members() for outcome in outcomes])


def book_json(outcomes: Iterable[Outcome]) -> str:
    """Outcomes as the table of attempts keeps them."""
    return json.dumps([outcome.book_members() for outcome in outcomes])


def outcomes_of(text: str) -> tuple[Outcome, ...]:
    """The outcomes of a text that the book keeps."""
    return tuple(outcome_of(as_members(value, "an outcome")) for value in json.loads(text))


def for_desk(outcomes: Iterable[Outcome]) -> tuple[Outcome, ...]:
    """What the desk takes of these outcomes."""
    return tuple(outcome.for_desk() for outcome in outcomes)


def results_of(outcomes: Iterable[Outcome]) -> str:
    """Outcomes as a word of the log: each recipient with its result."""
    return ",".join(f"{outcome.recipient}:{outcome.result}" for outcome in outcomes)
