"""Reports of Postfix by their fields, beside a reader of any mail: both say the same of whatever a stranger may write into one."""
import email

import pytest
from hypothesis import example, given, settings, strategies
from hq_relay.postfix.report_reader import read_fields, read_report, read_text

BOUND = "4jd7yb2k31z1c3CQ.1796007543/relay.example"
HEAD = f"""\
Return-Path: <>
Delivered-To: outcome@desk.invalid
Received: by relay.example (Postfix)
	id 4jd7yb35MSz1c3Cf; Mon, 30 Nov 2026 02:59:03 +0000 (UTC)
Subject: Undelivered Mail Returned to Sender
To: ann@a.example
MIME-Version: 1.0
Content-Type: multipart/report; report-type=delivery-status;
	boundary="{BOUND}"
Content-Transfer-Encoding: 8bit
"""
HUMAN = """\
Content-Description: Notification
Content-Type: text/plain; charset=utf-8
Content-Transfer-Encoding: 8bit

This is the mail system at host relay.example.

<x@hard.example>: host 127.0.0.1[127.0.0.1] said: 550 5.1.1 no such user (in
    reply to RCPT TO command)
"""
STATUS = """\
Content-Description: Delivery report
Content-Type: message/delivery-status

Reporting-MTA: dns; relay.example
Original-Envelope-Id: acme.0000000001.1.abc
X-Postfix-Queue-ID: 4jd7yb2k31z1c3CQ

Final-Recipient: rfc822; x@hard.example
Original-Recipient: rfc822;x@hard.example
Action: failed
Status: 5.1.1
Remote-MTA: dns; 127.0.0.1
Diagnostic-Code: smtp; 550 5.1.1 no
    such user

Final-Recipient: rfc822; y@soft.example
Action: failed
Status: 5.92.0
Diagnostic-Code: X-Postfix; lost connection with far.example while sending MAIL FROM
"""
RETURNED = """\
Content-Description: Undelivered Message Headers
Content-Type: text/rfc822-headers

Subject: hi
"""
REPORT = "\n".join([HEAD, "This is a MIME-encapsulated message.\n", f"--{BOUND}", HUMAN, f"--{BOUND}", STATUS, f"--{BOUND}",
                    RETURNED, f"--{BOUND}--", ""]).encode()
# What a stranger may write, and what parts a report.
PIECES = [f"--{BOUND}\n", f"--{BOUND}--\n", f"\n--{BOUND}", "\n\n", "\n", "\r\n", "\r", " ", "\t", ":", "x: y\n", "\n    folded", "é", "\x0b",
          "\x00", "Content-Type: message/delivery-status\n\n", "Content-Type: multipart/report; boundary=x\n", "Action: delivered\n",
          "Original-Envelope-Id: acme.0000000002.1.def\n", "Status: 2.0.0\n", "no field\n", "\n\n\n", "Final-Recipient: rfc822; z@far.example\n"]


def by_email(text):
    return read_report(email.message_from_bytes(text, policy=email.policy.compat32))


def test_a_report_is_read():
    """Postfix's own form is read by its fields."""
    envelope, told = read_fields(REPORT)
    assert (envelope, told) == by_email(REPORT) == read_text(REPORT, "")
    assert envelope == "acme.0000000001.1.abc"
    assert [(it.recipient, it.result, it.status, it.text, it.unreached) for it in told] == [
        ("x@hard.example", "failed", "5.1.1", "550 5.1.1 no such user", ""),
        ("y@soft.example", "deferred", "4.2.0", "lost connection with far.example while sending MAIL FROM", "")]


@pytest.mark.parametrize("at", range(0, len(REPORT), 7))
def test_a_report_that_was_cut(at):
    assert read_fields(REPORT[:at]) in (None, by_email(REPORT[:at]))


@settings(max_examples=1500, deadline=None, database=None)
@given(strategies.lists(strategies.tuples(strategies.floats(0, 1), strategies.sampled_from(PIECES), strategies.integers(0, 40)),
                        min_size=1, max_size=4))
@example([(HEAD.index("Content-Transfer-Encoding") / len(REPORT), " ", 0)])  # (a boundary whose field goes on)
@example([(REPORT.index(b"This is a MIME") / len(REPORT), f"--{BOUND}--\n", 0)])  # (an end before the first part)
@example([(REPORT.index(b" rfc822;x@hard") / len(REPORT), "\t", 22)])  # (a field of blanks alone)
def test_strange_reports(edits):
    """Pieces are put in anywhere, in the place of some bytes."""
    text = REPORT.decode()
    for where, piece, dropped in edits:
        at = int(where * len(text))
        text = text[:at] + piece + text[at + dropped:]
    assert read_fields(text.encode()) in (None, by_email(text.encode()))
