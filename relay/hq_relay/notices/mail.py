"""A notice as a mail (RFC 3464, 6522)."""
import email
import email.policy
import re
import secrets
import textwrap
import time
from collections.abc import Iterable
from dataclasses import dataclass
from email.message import Message
from email.mime.base import MIMEBase
from email.mime.multipart import MIMEMultipart
from email.mime.text import MIMEText
from email.utils import formatdate, make_msgid

from hq_relay.desk.replies import Notice
from hq_relay.outcome import Outcome
from hq_relay.settings import Settings
from hq_relay.storage.attempts import Attempt
from hq_relay.storage.spool import Envelope, Kept

# No line of a mail may have more than 998 bytes.
LONGEST_LINE = 900
# A field that cannot be folded: so many bytes without a space.
UNBROKEN = re.compile(r"\S{%d}(?=\S)" % LONGEST_LINE)
POLICY = email.policy.compat32.clone(linesep="\r\n", max_line_length=LONGEST_LINE)
# A message of more bytes is not returned whole, as Postfix's `bounce_size_limit` has it.
LARGEST_RETURNED = 50_000


@dataclass(frozen=True, slots=True)
class Original:
    """The message of a notice, as far as it is known.

    `head` has its header fields, `whole` all of it if its sender asked for that, and `attempt` is
    its last attempt.
    """

    envelope: Envelope | None = None
    head: bytes | None = None
    whole: bytes | None = None
    attempt: Attempt | None = None


def original_of(kept: Kept, attempt: Attempt | None) -> Original:
    whole = None
    if kept.envelope.returned.upper() == "FULL" and kept.size <= LARGEST_RETURNED:
        kept.file.seek(kept.start)
        whole = kept.file.read(kept.size)
    return Original(kept.envelope, kept.head(), whole, attempt)


def is_wanted(kind: str, envelope: Envelope | None) -> bool:
    """Whether a sender wants notices of this kind (RFC 3461).

    A sender that asked for nothing wants those of failures and delays.
    """
    if not (envelope and envelope.notify):
        return kind.upper() != "SUCCESS"
    return kind.upper() in envelope.notify.upper().split(",")


def written(settings: Settings, notice: Notice, original: Original) -> bytes:
    """A notice of the desk, or one in the same form, as a mail."""
    report = MIMEMultipart("report", report_type="delivery-status")
    report["From"] = f"Mail Delivery System <{settings.notices_from}>"
    report["To"] = notice.to
    report["Subject"] = notice.subject
    report["Date"] = formatdate(notice.at)
    report["Message-ID"] = make_msgid(domain=settings.host)
    report["Auto-Submitted"] = "auto-replied"
    human = "\n".join(textwrap.fill(line, LONGEST_LINE) if len(line) > LONGEST_LINE else line
                      for line in notice.human.split("\r\n"))
    report.attach(MIMEText(human, "plain", "us-ascii"))
    report.attach(status_of(notice, original))
    # (a whole message goes in as it came: read and written anew it would be another)
    mark = secrets.token_hex(16)
    returned = returned_of(original, mark)
    if returned:
        report.attach(returned)
    return report.as_bytes(policy=POLICY).replace(mark.encode(), original.whole or b"", 1)


def success(host: str, id: str, sender: str, delivered: Iterable[Outcome]) -> Notice:
    """A notice of deliveries, in the form of the desk's."""
    lines = [f"This is the mail system at host {host}.", "",
             "Your message was taken by the mail system of each of these:", ""]
    groups = [f"Reporting-MTA: dns; {host}\r\nX-Desk-Queue-Id: {id}"]
    for outcome in delivered:
        status = "2.0.0" if outcome.status is None else outcome.status
        text = outcome.text or ""
        lines.append(f"{outcome.recipient}: {status} {text}".rstrip())
        diagnostic = f"\r\nDiagnostic-Code: x-desk; {text}" if text else ""
        groups.append(f"Final-Recipient: rfc822; {outcome.recipient}\r\nAction: relayed\r\n"
                      f"Status: {status}{diagnostic}")
    return Notice("success", id, sender, int(time.time()), "Successful Mail Delivery Report",
                  "\r\n".join([*lines, ""]), "\r\n\r\n".join([*groups, ""]))


def status_of(notice: Notice, original: Original) -> Message:
    """The desk's status text, with what only the worker knows.

    That is what the sender asked for, and which host answered last, and when.
    """
    text = notice.status.replace("\r\n", "\n")
    status = email.message_from_string(f"Content-Type: message/delivery-status\n\n{text}")
    whole, *groups = [part for part in status.get_payload() if isinstance(part, Message)]
    envelope, attempt = original.envelope, original.attempt
    if envelope and envelope.envelope_id:
        whole["Original-Envelope-Id"] = envelope.envelope_id
    outcomes = {outcome.name: outcome for outcome in attempt.outcomes} if attempt else {}
    for group in groups:
        if "Diagnostic-Code" in group:
            diagnostic = UNBROKEN.sub(r"\g<0> ", group["Diagnostic-Code"])
            group.replace_header("Diagnostic-Code", diagnostic)
        recipient = str(group["Final-Recipient"]).partition(";")[2].strip().lower()
        outcome = outcomes.get(recipient)
        if envelope and envelope.original:
            put_first(group, "Original-Recipient", envelope.original)
        if outcome and outcome.remote:
            group["Remote-MTA"] = f"dns; {outcome.remote}"
        if outcome and attempt:
            group["Last-Attempt-Date"] = formatdate(attempt.done or attempt.at)
    return status


def put_first(group: Message, name: str, value: str) -> None:
    """Puts a field before those that a group has."""
    fields = group.items()
    for field_name in group.keys():
        del group[field_name]
    group[name] = value
    for field_name, field_value in fields:
        group[field_name] = field_value


def returned_of(original: Original, mark: str) -> Message | None:
    """The header fields of the message; or a mark for all of it, if its sender asked for that."""
    if original.whole is not None:
        returned = MIMEBase("message", "rfc822")
        returned.set_payload(mark)
        text = original.whole
    elif original.head is not None:
        returned = MIMEBase("text", "rfc822-headers")
        returned.set_payload(original.head.decode("ascii", "surrogateescape") + "\n")
        text = original.head
    else:
        return None
    if not text.isascii():
        returned["Content-Transfer-Encoding"] = "8bit"
    return returned
