"""The worker kills itself before and behind each of its steps, and nothing is lost.

A step is killed at its first and at its second call. All mail goes to one destination by one
session. No message comes twice; only a notice does that was just being mailed.
"""
import os
import re
import signal

import needs
import pytest
from machine import WIDE, Relay
from serving import expect

from hq_relay.postfix import lines as postfix_lines

INTAKE = ["storage.spool.Spool.keep", "desk.client.Desk.submit", "storage.book.Book.taken",
          "intake.incoming.IncomingMessage.end"]
DELIVERY = ["storage.attempts.Attempts.about", "postfix.delivering_instance.Session.probe",
            "postfix.delivering_instance.Session.send", "storage.attempts.Attempts.over",
            "delivery.delivery_log.DeliveryLog.hear", "delivery.delivery_log.DeliveryLog.take",
            "storage.attempts.Attempts.reported", "delivery.delivery_log.DeliveryLog.done",
            "delivery.delivery_log.DeliveryLog.keep", "desk.client.Desk.outcome", "desk.client.Call.reply",
            "storage.book.Book.all_reported", "notices.next_hop.NextHop.mail", "storage.book.Book.mailed"]
MOMENTS = ["before", "behind"]
COUNTS = [1, 2]
# What a round does once.
ONCE = {"postfix.delivering_instance.Session.probe", "delivery.delivery_log.DeliveryLog.keep"}
# The next hop of notices has it, and nobody has written that down.
DOUBLES_A_NOTICE = {("notices.next_hop.NextHop.mail", "behind"), ("storage.book.Book.mailed", "before")}
ONE_SESSION, ONE_CUSTOMER = {"delivery": {"sessions": "1"}}, {"acme": WIDE}


def by_name(address):
    """The answer of the one destination to an address."""
    if address.startswith("x"):
        return "550 5.1.1 no such user"
    return "450 4.2.0 mailbox busy" if address.startswith("s") else "250 2.1.5 ok"


def at_one(*names):
    return [f"{it}@good.example" for it in names]


def expect_doubled(found, wanted, extra, told):
    """Each of these came, and so many of them came twice."""
    expect(set(found) == set(wanted), told, "came to", found, "and not to", wanted)
    expect(sum(found.values()) == len(wanted) + extra, told, "came as often as", found)


def at_intake(program, shared, step, when, count):
    """The intake dies; what was submitted by then is delivered before Postfix tries again."""
    with Relay(program, shared, ONE_CUSTOMER, ONE_SESSION) as it:
        shared.good.answer = by_name
        it.desk.line("acme", "recipient", "no@good.example", "REJECT not wanted here")
        first = it.intake((step, when, count))
        it.take("acme", *at_one("a", "no", "b", "x"))
        first.dies()
        it.deliver()
        it.intake()
        it.postfix.empty()
        it.deliver()
        it.expect_delivered(*at_one("a", "b"))
        expect(it.notices() == {"x@good.example": 1}, step, when, count, "notices were",
               it.notices())
        it.expect_bounced({"no@good.example": "554 5.7.1 not wanted here"})
        it.desk.expect_usage("acme", delivered=2, failed=1)


def at_delivery(program, shared, step, when, count):
    """A round of the delivery dies; the next ones do the rest. What was deferred goes at last."""
    told, names = f"killed {when} call {count} of {step}:", ("a", "b", "x1", "x2", "s")
    with Relay(program, shared, ONE_CUSTOMER, ONE_SESSION) as it:
        shared.good.answer = by_name
        it.intake()
        for one in at_one(*names):
            it.take("acme", one)
            it.postfix.empty()
        it.deliver((step, when, count))
        it.deliver()
        it.desk.expect_usage("acme", delivered=2, failed=2, pending=1)
        shared.good.answer = lambda _: "250 2.1.5 ok"
        it.again("acme")
        it.deliver()
        it.desk.expect_usage("acme", delivered=3, failed=2)
        it.expect_delivered(*at_one("a", "b", "s"))
        expect_doubled(it.notices(), at_one("x1", "x2"), (step, when) in DOUBLES_A_NOTICE,
                          f"{told} notices")
        expect(not it.bounces(), told, "Postfix bounced", it.bounces())


@pytest.mark.parametrize("step", [*INTAKE, *DELIVERY])
def test_killed(program, shared, step):
    """The worker dies before and behind a step, at its first and at its second call."""
    try_it = at_intake if step in INTAKE else at_delivery
    for when in MOMENTS:
        for count in COUNTS[:1] if step in ONCE else COUNTS:
            try_it(program, shared, step, when, count)


def test_waiting_clients_hear_of_a_kill(program, shared):
    """As many may wait at the intake's socket at each moment as Postfix can bring. One more would
    believe that it is connected, and hear nothing when the intake is killed."""
    needs.command("strace")
    with Relay(program, shared, ONE_CUSTOMER, ONE_SESSION) as it:
        calls = it.folder / "calls"
        begun = it.intake(under=("strace", "-f", "-qq", "-e", "trace=listen", "-o", str(calls)))
        it.take("acme", *at_one("a", "b"))
        it.postfix.empty()
        # (strace hands no signal on)
        for number in begun.others():
            os.kill(number, signal.SIGTERM)
        begun.ends()
        rooms = [int(one) for one in re.findall(r"listen\(\d+, (\d+)\)", calls.read_text())]
        most = postfix_lines.MOST_TO_THE_WORKER
        expect(rooms and min(rooms) >= most, "of", most, "clients might wait", rooms)
