"""What a report of the instance that delivers says (RFC 3464).

A stranger may write all that is in one, such as the answer of a host. Postfix's own form is read
by its fields, which takes a fortieth of the time of a reader of any mail. That one reads the rest,
and both find the same.
"""
import email
import email.policy
import re
from collections.abc import Callable, Iterable
from email.message import Message
from typing import NamedTuple

from hq_relay import log
from hq_relay.dsn import STATUS, clean
from hq_relay.outcome import Outcome, Result, Unreached
from hq_relay.postfix.lines import SOFT_MARK

# Finds a field of a group by its name.
Field = Callable[[str], object]

# The subject of a status that is of the connection (RFC 3463).
OF_THE_CONNECTION = 4
# Postfix's words for a session that was cut after its greeting: "lost connection with HOST while
# sending RCPT TO".
CUT = re.compile(r"(?:lost connection|conversation) with .* while sending ")
# The head of a report with its boundary; the head of the part for people; the part for programs;
# and a group of its fields.
TYPE = re.compile(rb"(?im)^content-type[ \t]*:")
HEAD = re.compile(rb"(?m)^Content-Type: multipart/report; report-type=delivery-status;\n"
                  rb'\tboundary="([0-9A-Za-z./_-]{1,200})"$(?!\n[ \t])')
NOTIFICATION = re.compile(rb"Content-Description: Notification\n"
                          rb"Content-Type: text/plain; charset=(?:us-ascii|utf-8)\n"
                          rb"(?:Content-Transfer-Encoding: [78]bit\n)?\n")
STATUS_PART = re.compile(rb"Content-Description: Delivery report\n"
                         rb"Content-Type: message/delivery-status\n\n([^\n].*)", re.DOTALL)
GROUP = re.compile(r"[!-9;-~]+:[^\n]*(?:\n(?:[ \t]|[!-9;-~]+:)[^\n]*)*\n?")


class DeliveryReport(NamedTuple):
    """The envelope ID of a report, None if it is no report, and its outcomes."""

    envelope: str | None
    outcomes: list[Outcome]


def outcome_of(field: Field) -> Outcome | None:
    """The outcome of a group of a report; None if its recipient is still being tried.

    A failure that would have been tried again has the mark of `lines.py` in its status. If the
    instance itself, and not a host, reports the connection, the domain was not reached; or this
    message alone, if its session was cut.
    """
    kind, _, text = (part.strip() for part in clean(field("Diagnostic-Code") or "").partition(";"))
    action = clean(field("Action") or "").lower()
    found = STATUS.fullmatch(clean(field("Status") or ""))
    digit, subject, detail = found.groups() if found else ("5", "0", "0")
    is_soft = digit == "4" or (len(subject) > 1 and subject.startswith(SOFT_MARK))
    if is_soft and digit != "4":
        subject = subject[len(SOFT_MARK):]
    if action in ("delivered", "relayed", "expanded"):
        result, digit = Result.DELIVERED, "2"
    elif action == "failed":
        result, digit = (Result.DEFERRED, "4") if is_soft else (Result.FAILED, "5")
    else:
        return None
    unreached = Unreached.NOTHING
    if is_soft and int(subject) == OF_THE_CONNECTION and kind.lower() != "smtp":
        unreached = Unreached.CUSTOMER_ALONE if CUT.match(text) else Unreached.DOMAIN
    remote = clean(field("Remote-MTA") or "").partition(";")[2].strip()
    return Outcome(recipient_of(field), result, f"{digit}.{int(subject)}.{int(detail)}", text,
                   remote, unreached)


def recipient_of(field: Field) -> str:
    named = field("Original-Recipient") or field("Final-Recipient") or ""
    return clean(named).partition(";")[2].strip()


def outcomes_in(groups: Iterable[Field]) -> list[Outcome]:
    """The outcomes of the groups that have one."""
    return [outcome for outcome in map(outcome_of, groups) if outcome]


# ---- by the reader of any mail

def parts_of(message: Message) -> list[Message]:
    """The parts of a message of several."""
    return [part for part in message.get_payload() if isinstance(part, Message)]


def read_report(message: Message) -> DeliveryReport:
    """What a report says, without an envelope ID if it has none.

    Only a part of the report itself is read, and none in a message that it returns.
    """
    if message.get_content_type() != "multipart/report" or not message.is_multipart():
        return DeliveryReport(None, [])
    for part in parts_of(message):
        if part.get_content_type() == "message/delivery-status" and part.is_multipart():
            whole, *groups = parts_of(part)
            envelope = clean(whole["Original-Envelope-Id"] or "")
            return DeliveryReport(envelope, outcomes_in(group.get for group in groups))
    return DeliveryReport(None, [])


# ---- by its fields, as Postfix writes it

def read_fields(text: bytes) -> DeliveryReport | None:
    """What a report of Postfix's own form says; None if it may be of another one."""
    head, _, body = text.partition(b"\n\n")
    found = HEAD.search(head)
    if not found or len(TYPE.findall(head)) != 1 or b"\r" in text or not text.isascii():
        return None
    if not GROUP.fullmatch(head.decode()):
        return None
    # (parts for people, for programs, and the message: a bound of a stranger makes another form)
    _, *parts = (b"\n" + body).split(b"\n--" + found[1])
    ends = [part[:1] for part in parts]
    if ends != [b"\n", b"\n", b"\n", b"-"] or parts[3].rstrip(b"\n") != b"--":
        return None
    status = STATUS_PART.fullmatch(parts[1][1:])
    if not status or not NOTIFICATION.match(parts[0][1:]):
        return None
    groups = [group for group in status[1].decode().split("\n\n") if group]
    if not all(GROUP.fullmatch(group) for group in groups):
        return None
    whole, *rest = map(fields_of, groups)
    return DeliveryReport(clean(whole("Original-Envelope-Id") or ""), outcomes_in(rest))


def fields_of(group: str) -> Field:
    """Finds a field of a group by its name: the first one if there are several."""
    fields: dict[str, str] = {}
    for field in re.split(r"\n(?![ \t])", group):
        name, _, value = field.partition(":")
        fields.setdefault(name.lower(), value.lstrip(" \t").rstrip("\n"))
    return lambda name: fields.get(name.lower())


def read_text(text: bytes, file: str) -> DeliveryReport:
    """What a file says that may be a report; without an envelope ID if it is none."""
    try:
        # (of mail with SMTPUTF8 it is the same by another name: RFC 6533)
        text = text.replace(b"message/global-delivery-status", b"message/delivery-status")
        return (read_fields(text)
                or read_report(email.message_from_bytes(text, policy=email.policy.compat32)))
    except Exception as error:  # whatever a stranger wrote
        log.error("report not read", file=file, why=repr(error))
        return DeliveryReport(None, [])
