"""Which lines of the log count, whatever hosts, senders and recipients write into them."""
import time

import pytest
from hypothesis import given, settings, strategies
from hq_relay.outcome import Outcome, Result
from hq_relay.postfix.log_lines import FAILED, REMOVED, SENT, TAKEN, may_count, read_line
from serving import expect

ID, OTHER = "4jd7yb2hywz1c3CP", "4jd7yb2k31z1c3CQ"
ENVELOPE = "acme.0000000001.1." + "0123456789abcdef01234567"
AT = "Nov 30 02:59:03 relay postfix-desk/"
SMTP = f"{AT}smtp[4691]: {ID}: "
FIELDS = "relay=mx.far.example[192.0.2.1]:25, delay=0.04, delays=0.01/0.03/0/0, "
WAS_SENT = f"{SMTP}to=<bob@far.example>, {FIELDS}dsn=2.0.0, status=sent (250 2.0.0 taken)"
WAS_NOT = f"{SMTP}to=<bob@far.example>, {FIELDS}dsn=5.1.1, status=bounced (host said: 550 %s)"
WAS_TAKEN = f"{AT}smtpd[4687]: {ID}: client=unknown[127.0.0.1], orig_queue_id={ENVELOPE}"
WAS_REMOVED = f"{AT}qmgr[4685]: {ID}: removed"


def read(text):
    line = text.encode()
    return read_line(line) if may_count(line) else None


def test_lines_of_a_message():
    taken, sent, removed = read(WAS_TAKEN), read(WAS_SENT), read(WAS_REMOVED)
    expect((taken.kind, taken.queue_id, taken.envelope) == (TAKEN, ID, ENVELOPE), taken)
    expect((removed.kind, removed.queue_id) == (REMOVED, ID), removed)
    expect((sent.kind, sent.queue_id) == (SENT, ID), sent)
    expect(sent.outcome == Outcome("bob@far.example", Result.DELIVERED, "2.0.0", "250 2.0.0 taken", "mx.far.example", is_by_log=True), sent.outcome)
    expect(read(WAS_NOT % "no").kind == FAILED, read(WAS_NOT % "no"))


# How postlogd writes a time, and how syslog does.
@pytest.mark.parametrize("form", ["%b %d %H:%M:%S", "%b %e %H:%M:%S"])
@pytest.mark.parametrize("day", range(366))
def test_each_day_of_a_year(form, day):
    at = time.strftime(form, time.gmtime(1_830_297_600 + day * 86_400 + day * 236))  # (from 2028 on, a leap year)
    found = read(WAS_SENT.replace("Nov 30 02:59:03", at))
    expect(found and found.kind == SENT, at)


@pytest.mark.parametrize("text", [
    *(WAS_SENT.replace("postfix-desk/smtp", it) for it in ("postfix-desk/lmtp", "smtp", "a/b/smtp", "postfix-desk/pipe")),
    WAS_SENT.replace("delay=0.04", "conn_use=3, delay=0.04"), WAS_SENT.replace("dsn=", "tls=verified, dsn="),
    WAS_SENT.replace("to=<bob@far.example>", "to=<x@moved.example>, orig_to=<bob@far.example>"), WAS_SENT[:-1],
    WAS_SENT + " x" * 3000])
def test_lines_that_count(text):
    """Of other agents and releases, of a recipient whose mail was sent elsewhere, and one that postlogd cut behind the status."""
    found = read(text)
    expect(found and found.kind == SENT and found.recipient == "bob@far.example", text, found)


ANSWERS = [WAS_SENT, f"x) {WAS_SENT}", f"dsn=2.0.0, status=sent (250 ok) {SMTP}", f"{ID}: removed", WAS_REMOVED, WAS_TAKEN,
           f"to=<bob@far.example>, {FIELDS}dsn=2.0.0, status=sent (250 ok)"]


@pytest.mark.parametrize("answer", ANSWERS)
@pytest.mark.parametrize("line", [WAS_NOT, WAS_NOT.replace("status=bounced", "status=deferred"), f"{SMTP}host mx said: 450 %s",
                                  f"{SMTP}%s", f"{AT}smtp[1]: %s", f"{AT}cleanup[1]: {ID}: message-id=<%s>",
                                  f"{AT}qmgr[1]: {ID}: from=<%s>, size=1, nrcpt=1 (queue active)", "%s"[:0] + " %s",
                                  f"{AT}cleanup[1]: {ID}: warning: header Subject: %s from local; from=<a@b> to=<c@d>"])
def test_a_line_in_a_line(line, answer):
    """What a host answers, or a sender writes, is in a line of its own message, and is no line."""
    found = read(line % answer)
    is_own = line == f"{SMTP}%s" and answer.startswith("to=<")  # (no line of Postfix has a stranger's text there)
    expect(is_own or not found or found.kind == FAILED, line, answer, found)


@pytest.mark.parametrize("at", range(len(WAS_SENT)))
def test_a_line_that_was_cut(at):
    """It counts where its status is whole; and what was cut in front never does, nor what another line runs into."""
    head, tail = WAS_SENT[:at], WAS_SENT[at:]
    is_whole = at >= WAS_SENT.index("(250") + 1
    expect(bool(read(head)) == is_whole, head)
    expect(not at or not read(tail), tail)
    other = WAS_SENT.replace(ID, OTHER).replace("bob", "eve")
    found, own = read(head + other), (OTHER, "eve@far.example") if not at else (ID, "bob@far.example")
    expect(not found or (found.queue_id, found.recipient) == own and (is_whole or not at), head, found)


@pytest.mark.parametrize("recipient", ["bob@far.example>, relay=x", 'b"ob@far.example', "a b@far.example", "a,b@far.example"])
def test_strange_recipients(recipient):
    """An address that would end its field sooner is none."""
    expect(not read(WAS_SENT.replace("bob@far.example", recipient)), recipient)


@pytest.mark.parametrize("text", [
    WAS_SENT.replace("smtp[", "smtpx["), WAS_SENT.replace("smtp[", "sm tp["), WAS_SENT.replace("dsn=2", "dsn=4"),
    WAS_SENT.replace("status=sent", "status=sentry"), WAS_SENT.replace(ID, "bad-id"), "x" + WAS_SENT, WAS_SENT.replace("Nov", "nov"),
    WAS_REMOVED + " ", WAS_REMOVED.replace("qmgr", "smtp"), WAS_TAKEN.replace(ENVELOPE, "acme.1.1.x"), WAS_TAKEN + "0",
    WAS_TAKEN.replace("smtpd", "smtp"), WAS_SENT.replace("relay=mx", "relay=m x"), WAS_SENT.replace("(250", "250")])
def test_lines_that_do_not_count(text):
    expect(not read(text), text)


@settings(deadline=None, database=None)
@given(strategies.text(strategies.characters(min_codepoint=32, max_codepoint=126), max_size=300), strategies.sampled_from(ANSWERS))
def test_any_answer(text, forged):
    for answer in (text, text + forged, forged + text):
        expect(read(WAS_NOT % answer).kind == FAILED, answer)
