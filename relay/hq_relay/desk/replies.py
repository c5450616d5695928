"""Replies of the desk, with the members that the worker uses (docs/API-RELAY.md).

A reply that lacks a member raises KeyError, and one with a member of another type TypeError.
"""
from dataclasses import dataclass
from typing import NamedTuple

from hq_relay.json_members import Members, as_members, number_of, objects_of, text_of, texts_of


class Rejection(NamedTuple):
    """Why access tables reject a recipient: a code of SMTP, and its text."""

    code: int
    text: str


@dataclass(frozen=True, slots=True)
class Verdict:
    """What the desk makes of a message. `id` is its queue ID, if it is queued."""

    verdict: str
    id: str | None
    rejections: tuple[Rejection, ...]

    @property
    def queue_id(self) -> str:
        """The queue ID. KeyError is raised if the desk gave none."""
        if self.id is None:
            raise KeyError("id")
        return self.id

    @property
    def is_rejected(self) -> bool:
        return self.verdict == "rejected"

    @property
    def is_discarded(self) -> bool:
        return self.verdict == "discarded"


def verdict_of(reply: Members) -> Verdict:
    """The verdict on a message that is submitted, or would be."""
    verdict, rejections = text_of(reply, "verdict"), []
    if verdict == "rejected":
        rejections = [Rejection(number_of(refused, "code"), text_of(refused, "text"))
                      for refused in objects_of(reply, "refused")]
    return Verdict(verdict, text_of(reply, "id") if "id" in reply else None, tuple(rejections))


class OutcomeReply(NamedTuple):
    """What the desk did with outcomes; `left` counts the pending recipients, if it says so."""

    result: str
    left: int | None


def outcome_reply_of(reply: Members) -> OutcomeReply:
    left = number_of(reply, "left") if "left" in reply else None
    return OutcomeReply(text_of(reply, "result"), left)


class Swept(NamedTuple):
    """How many messages a sweep gave up, how many notices it made, and of how many it warned."""

    expired: int
    notices: int
    warned: int


def swept_of(reply: Members) -> Swept:
    return Swept(*(number_of(reply, name) for name in Swept._fields))


# The members of a usage that count.
COUNTS = ("messages", "bytes", "lines", "pending", "accepted", "delivered", "failed", "deleted",
          "expired")


@dataclass(frozen=True, slots=True)
class Usage:
    """What a customer has on the desk, and how many of its recipients came to what end."""

    customer: str
    messages: int
    bytes: int
    lines: int
    pending: int
    accepted: int
    delivered: int
    failed: int
    deleted: int
    expired: int


def usage_of(usage: Members) -> Usage:
    counts = {name: number_of(usage, name) for name in COUNTS}
    return Usage(text_of(usage, "customer"), **counts)


class Message(NamedTuple):
    """A message that is shown whole, with its pending recipients.

    `attempts` counts the attempts that the desk has reports of.
    """

    id: str
    spool: str
    sender: str
    pending: tuple[str, ...]
    attempts: int


def message_of(message: Members) -> Message:
    pending = tuple(text_of(recipient, "address") for recipient in objects_of(message, "pending"))
    return Message(text_of(message, "id"), text_of(message, "spool"), text_of(message, "sender"),
                   pending, number_of(message, "attempts"))


class ListedMessage(NamedTuple):
    """An entry of a customer's list of messages. `arrival` is in seconds since 1970."""

    id: str
    arrival: int
    state: str

    @property
    def is_held(self) -> bool:
        return self.state == "hold"


def listed_message_of(entry: Members) -> ListedMessage:
    id, arrival, state = entry["id"], entry["arrival"], entry["state"]
    # (at once, since a list may have very many)
    if not (isinstance(id, str) and isinstance(arrival, int) and isinstance(state, str)):
        raise TypeError(f"no entry of messages: {entry}")
    return ListedMessage(id, arrival, state)


class End(NamedTuple):
    """What became of a recipient that left the queue: when, of which message, from whom to whom."""

    at: int
    id: str
    sender: str
    recipient: str


def end_of(entry: Members) -> End:
    return End(number_of(entry, "at"), text_of(entry, "id"), text_of(entry, "sender"),
               text_of(entry, "recipient"))


class DueMessage(NamedTuple):
    """A message that is due, and the number of its next attempt."""

    id: str
    attempt: int
    spool: str
    sender: str
    recipients: list[str]


def due_message_of(entry: Members) -> DueMessage:
    id, attempt, spool, sender = entry["id"], entry["attempt"], entry["spool"], entry["sender"]
    # (at once, since a list may have very many)
    if not (isinstance(id, str) and isinstance(attempt, int) and isinstance(spool, str)
            and isinstance(sender, str)):
        raise TypeError(f"no entry of due: {entry}")
    return DueMessage(id, attempt, spool, sender, texts_of(entry, "recipients"))


class Stop(NamedTuple):
    """The fault that stopped a call of several customers, and the customer at whom it did."""

    customer: str
    error: int
    name: str


def stop_of(reply: Members) -> Stop | None:
    """The fault that stopped a call; None if it was done."""
    stopped = reply["stopped"]
    if stopped is None:
        return None
    fault = as_members(stopped, "stopped")
    return Stop(text_of(fault, "customer"), number_of(fault, "error"), str(fault.get("name")))


class DuePage(NamedTuple):
    """For each customer of a call whether mail is due; and the fault that stopped the call."""

    is_due: dict[str, bool]
    stopped: Stop | None


def due_page_of(reply: Members) -> DuePage:
    is_due = {text_of(part, "customer"): bool(part["due"]) for part in objects_of(reply, "done")}
    return DuePage(is_due, stop_of(reply))


class UsagePage(NamedTuple):
    """The usage of the customers of a call, and the fault that stopped it."""

    usages: list[Usage]
    stopped: Stop | None


def usage_page_of(reply: Members) -> UsagePage:
    return UsagePage([usage_of(part) for part in objects_of(reply, "done")], stop_of(reply))


@dataclass(frozen=True, slots=True)
class Notice:
    """A notice to a sender: its kind, the queue ID of its message, and its texts.

    `at` is in seconds since 1970, `human` the text for people, and `status` the text for programs:
    groups of fields (RFC 3464).
    """

    kind: str
    id: str
    to: str
    at: int
    subject: str
    human: str
    status: str


def notice_of(notice: Members) -> Notice:
    return Notice(text_of(notice, "kind"), text_of(notice, "id"), text_of(notice, "to"),
                  number_of(notice, "at"), text_of(notice, "subject"), text_of(notice, "human"),
                  text_of(notice, "status"))
