"""The lines of the log of the instance that delivers, as its postlogd writes them.

Hosts write into some of them: the answer of one is in parentheses after the status. So a line is
read from its left, where Postfix alone writes, and it counts only if each part is as Postfix has
it. A line that was cut before its status, or of two lines that ran into each other, does not
count.
"""
import re
from enum import Enum
from typing import NamedTuple

from hq_relay.dsn import clean
from hq_relay.outcome import Outcome, Result


class LineKind(Enum):
    """What a line says of a message: it was taken, delivered to a recipient, failed, or removed."""

    TAKEN = "taken"
    SENT = "sent"
    FAILED = "failed"
    REMOVED = "removed"


TAKEN, SENT, FAILED, REMOVED = LineKind.TAKEN, LineKind.SENT, LineKind.FAILED, LineKind.REMOVED
# The longest line that is looked at, in bytes; postlogd cuts longer ones.
LONGEST_LINE = 8192
# "Nov 30 02:59:03 relay postfix-desk/smtp[4691]: 4jd7yb2hywz1c3CP: ". (postlogd writes the first of
# a month as 01; syslog would write a blank and 1.)
HEAD = re.compile(rb"[A-Z][a-z]{2} [ 0-3][0-9] [0-2][0-9]:[0-5][0-9]:[0-6][0-9] [!-~]{1,255} "
                  rb"(?:[!-Z^-~]{1,255}/)?(smtpd|qmgr|smtp|lmtp|pipe|local|virtual|discard)"
                  rb"\[[0-9]{1,10}\]: ([0-9A-Za-z]{6,40}): ")
# The rest of a line, by the program. The worker gives each message the ID by XFORWARD.
ORIGIN = re.compile(rb"client=[^ ,<>]{1,255}, orig_queue_id="
                    rb"([a-z0-9-]{1,32}\.[0-9A-Za-z]{1,20}\.[0-9]{1,10}\.[0-9a-f]{24})")
# (a later release may have further fields between)
STATUS = re.compile(rb'to=<([^<> ,"]{1,320})>, (?:orig_to=<([^<> ,"]{1,320})>, )?'
                    rb"relay=([^ ,<>()]{1,300}), (?:[a-z_]{1,32}=[^ ,<>()]{1,300}, )*"
                    rb"dsn=([245]\.[0-9]{1,3}\.[0-9]{1,3}), status=(sent|bounced) \(")
# An address that the log has as it was handed over: Postfix quotes others, or reads a route in
# them.
PLAIN = re.compile(r"[A-Za-z0-9#$&'*+/=?^_`{|}~-]+(?:\.[A-Za-z0-9#$&'*+/=?^_`{|}~-]+)*"
                   r"@[A-Za-z0-9_-]+(?:\.[A-Za-z0-9_-]+)+")
# (so that other lines take no time)
KINDS = (b"orig_queue_id=", b", status=sent (", b", status=bounced (", b": removed")


class LogLine(NamedTuple):
    """What a line says of the message of a queue ID.

    `envelope` is the envelope ID of a message that was taken, `recipient` that of a delivery or a
    failure, and `outcome` that of a delivery.
    """

    kind: LineKind
    queue_id: str
    envelope: str = ""
    recipient: str = ""
    outcome: Outcome | None = None


def may_count(line: bytes) -> bool:
    """Whether `read_line` may find something in a line."""
    return len(line) <= LONGEST_LINE and any(mark in line for mark in KINDS)


def read_line(line: bytes) -> LogLine | None:
    """What a line says of a message; None if it says nothing."""
    head = HEAD.match(line)
    if not head:
        return None
    program, id, rest = head[1], head[2].decode(), line[head.end():]
    if program == b"qmgr":
        return LogLine(REMOVED, id) if rest == b"removed" else None
    if program == b"smtpd":
        origin = ORIGIN.fullmatch(rest.partition(b", orig_client=")[0])
        return LogLine(TAKEN, id, origin[1].decode()) if origin else None
    status = STATUS.match(rest)
    if not status:
        return None
    recipient = (status[2] or status[1]).decode("latin-1")
    if status[5] == b"bounced":
        return LogLine(FAILED, id, recipient=recipient)
    if not status[4].startswith(b"2"):
        return None
    host, bracket, _ = status[3].decode("latin-1").partition("[")
    text = rest[status.end():].removesuffix(b")")
    outcome = Outcome(recipient, Result.DELIVERED, status[4].decode(),
                      clean(text.decode("latin-1")), host if bracket else "", is_by_log=True)
    return LogLine(SENT, id, recipient=recipient, outcome=outcome)
