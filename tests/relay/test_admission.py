"""What the desk would refuse is refused in the client's session, before its content comes.

Each takes the program of the desk and two instances of Postfix, of which the first asks the worker about each recipient.
"""
import os
import re
import signal
import tempfile
from pathlib import Path

import needs
import pytest
from machine import PYTHON, WIDE, Relay, Shared, contents
from serving import expect, until
from sinks import Lossy

NARROW = "2,10000,10,100,0"
LIMITS = {"acme": NARROW, "birch": WIDE}
LET_IN = "250"
# Calls that write to a file, or see to it that something is on a disk: those of a number above that of standard error.
WRITES = re.compile(r"(?m)^\d+ +((?:fsync|fdatasync|pwrite64|pwritev|ftruncate|fallocate|rename\w*|link\w*|unlink\w*|mkdir\w*)\(.*"
                    r"|writev?\((?:[3-9]|\d\d+),.*)$")


@pytest.fixture(scope="module")
def shared():
    needs.command("postfix")
    needs.root()
    needs.module(PYTHON, "aiosmtpd")
    with tempfile.TemporaryDirectory() as made, Shared(Path(made), has_policy=True) as it:
        yield it


def answers(it, *recipients, sender="ann@a.example", size=None):
    """What a client hears of each recipient, in a session that brings no content."""
    with it.postfix.session() as client:
        client.mail(sender, [f"size={size}"] if size else [])
        found = [client.rcpt(one) for one in recipients]
        client.rset()
    return [f"{code} {told.decode()}" for code, told in found]


def expect_answers(found, *wanted):
    """Each answer begins with a code, and ends with a text."""
    pairs = [one.split(" ", 1) if " " in one else (one, "") for one in wanted]
    expect(len(found) == len(pairs) and all(one.startswith(code) and one.endswith(text) for one, (code, text) in zip(found, pairs)),
           "heard was", found, "and not", wanted)


def fill(it):
    """The customer has two messages, and may have no more."""
    it.desk.line("acme", "recipient", "far.example", "HOLD")
    it.take("acme", "p@far.example", "q@far.example")
    until(lambda: it.desk.usage("acme")["messages"] == 2, "nothing is queued")
    it.postfix.empty()


def expect_nothing_left(it):
    expect(not it.postfix.queue(), "Postfix has", it.postfix.queue())
    expect(not it.bounces(), "bounced was", it.bounces())


def test_verdicts(program, shared):
    """A client hears for each recipient what the customer's tables say, and brings the content for the others alone."""
    with Relay(program, shared, LIMITS) as it:
        it.intake()
        for pattern, action in {"x@r.example": "REJECT no thanks", "y@r.example": "DEFER", "z@r.example": "HOLD look at it",
                                "w@r.example": "DISCARD"}.items():
            it.desk.line("acme", "recipient", pattern, action)
        found = answers(it, "x@r.example", "y@r.example", "z@r.example", "w@r.example", "X@R.example", '"a b"@r.example')
        expect_answers(found, "554 no thanks", "450 Try again later", LET_IN, LET_IN, "554 no thanks", "553 BadAddress")
        it.desk.line("acme", "sender", "ann@a.example", "REJECT not you")
        expect_answers(answers(it, "z@r.example"), "554 not you")
        expect_answers(answers(it, "z@r.example", sender="eve@a.example"), LET_IN)
        expect_answers(answers(it, "x@r.example", sender="ann@b.example"), LET_IN)
        expect_nothing_left(it)
        expect(it.desk.usage("acme")["accepted"] == 0 and not contents(it), "something was taken in")


def test_quota(program, shared):
    """A customer without room hears 452, by its messages and by its bytes; a neighbour's mail comes in, and so does its own as
    soon as there is room."""
    with Relay(program, shared, LIMITS) as it:
        it.intake()
        expect_answers(answers(it, "p@b.example", size=9_000), LET_IN)
        expect_answers(answers(it, "p@b.example", size=10_001), "452 QuotaBytes")
        expect_answers(answers(it, "p@b.example", "q@b.example", "r@b.example", size=4_000), LET_IN, LET_IN, "452 QuotaBytes")
        fill(it)
        expect_answers(answers(it, "p@b.example", "q@b.example"), "452 QuotaMessages", "452 QuotaMessages")
        expect_answers(answers(it, "p@b.example", sender="ann@b.example"), LET_IN)
        it.desk.own("acme", "DELETE", f"/v1/message/{it.desk.messages('acme')[0]['id']}")
        until(lambda: answers(it, "p@b.example")[0].startswith(LET_IN), "there is no room")
        expect_nothing_left(it)


def test_untold_sizes(program, shared):
    """What has no room does not stay in Postfix, also where its client names no size, or another one; what has room comes in."""
    with Relay(program, shared, LIMITS) as it:
        it.intake()
        for options in ([], ["size=10"]):
            for text, wanted in (("y" * 70 + "\r\n") * 300, 452), ("a few\r\n", 250):
                # (in the same session Postfix tells the size of the message before)
                with it.postfix.session() as client:
                    client.ehlo()
                    client.mail("ann@a.example", options)
                    told = client.rcpt("p@b.example")
                    expect(told[0] == 250, "before its content is told", told)
                    told = client.data(f"Subject: a mail\r\n\r\n{text}")
                    expect(told[0] == wanted, options, "is answered by", told)
            until(lambda: it.desk.usage("acme")["messages"] == 1, "nothing is queued")
            it.postfix.empty()
            it.desk.own("acme", "POST", "/v1/delete-all")
        expect("refused after its content" in it.told(), "nothing is logged")
        expect_nothing_left(it)


def test_nothing_is_written(program, shared):
    """Neither the worker nor the desk writes or syncs anything of what is refused."""
    needs.command("strace")
    with Relay(program, shared, LIMITS) as it:
        traced = it.folder / "intake.calls"
        intake = it.intake(under=("strace", "-f", "-qq", "-o", str(traced)))
        fill(it)
        expect(WRITES.search(traced.read_text()), "strace sees no mail that is taken in")
        it.desk.line("acme", "recipient", "x@r.example", "REJECT")
        expect_answers(answers(it, "p@b.example", "x@r.example"), "452", "554")
        before, store = len(traced.read_text()), stores(it)
        for _ in range(3):
            expect_answers(answers(it, "x@r.example", "p@b.example"), "554", "452")
        found = WRITES.findall(traced.read_text()[before:])
        expect(not found, "the worker writes", found)
        expect(stores(it) == store, "the desk writes")
        expect("refused before its content" in it.told(), "nothing is logged")
        # (strace hands no signal on)
        for number in intake.others():
            os.kill(number, signal.SIGTERM)
        intake.ends()


def stores(it):
    """The bytes of the desk's files."""
    return {one.name: one.read_bytes() for one in it.folder.glob("desk.db*") if not one.name.endswith("-shm")}


def test_a_desk_that_is_away(program, shared):
    """While the desk is away or hangs, mail comes in and waits in Postfix."""
    with Relay(program, shared, LIMITS) as it, Lossy(it.desk.address, b"/relay/admit/") as lossy:
        it.set(desk={"address": f"127.0.0.1:{lossy.server_address[1]}"})
        it.intake()
        it.take("acme", "p@far.example")
        until(lambda: it.desk.usage("acme")["messages"] == 1, "nothing is queued")
        it.desk.kill()
        it.take("acme", "q@far.example")
        it.desk.start()
        it.postfix.flush()
        until(lambda: it.desk.usage("acme")["messages"] == 2, "nothing is queued later")
