"""Time: a destination that hangs, and mail that is late or too old."""
import time

from interposed import library_in
import needs
from machine import WIDE, Relay
from serving import expect, free_address, until

HOUR, DAY = 3600, 86_400
# a customer whose senders are warned after an hour
WARNED = f"1000,500000000,1000,1000,{HOUR}"


def test_hanging_holds_up_nobody(program, shared):
    """One customer's mail goes to a destination that says nothing: that of another one is delivered
    meanwhile."""
    settings = {"delivery": {"sessions": "2"}}
    slow, good = ([f"p{it}@{name}.example" for it in range(6)] for name in ("slow", "good"))
    with Relay(program, shared, settings=settings) as it:
        shared.slow.hangs = True
        shared.slow.gate.clear()
        it.intake()
        it.take("acme", *slow)
        it.postfix.empty()
        it.run("deliver")
        until(lambda: shared.slow.asked, "nothing is attempted")
        it.take("birch", *good)
        until(lambda: len(shared.good.mail) == len(good), "the mail of the other customer does not come", 15)
        expect(not shared.slow.mail, "the mail that hangs was delivered")
        expect(shared.slow.most <= 2, "sessions at once were", shared.slow.most)
        shared.slow.gate.set()
        until(lambda: len(shared.slow.mail) == len(slow), "the mail that hung does not come")
        until(lambda: not it.desk.usage("acme")["pending"], "its outcomes do not come")
        it.expect_delivered(*slow, *good)
        it.desk.expect_usage("acme", delivered=len(slow))


def clock(it, seconds):
    """The desk is started again, and its clock tells a later moment."""
    at = str(int(time.time()) + seconds)
    it.desk.kill()
    it.desk.environment = {"LD_PRELOAD": library_in(it.folder), "CLOCK_AT": at}
    it.desk.start()


def test_late_and_given_up(program, shared):
    """A sweep warns of late mail and gives old mail up; each is told to the sender once."""
    needs.command("cc")
    with Relay(program, shared, {"acme": WARNED, "birch": WIDE}) as it:
        it.intake()
        it.take("acme", "p@soft.example")
        it.take("birch", "q@soft.example")
        it.postfix.empty()
        it.deliver()
        expect(not it.notices(), "notices were", it.notices())
        clock(it, 2 * HOUR)
        it.deliver()
        it.deliver()
        expect(it.notices() == {"p@soft.example": 1}, "of late mail notices were", it.notices())
        expect(b"\nAction: delayed" in it.senders.mail[0][2], "the notice is", it.senders.mail)
        clock(it, 6 * DAY)
        it.deliver()
        it.deliver()
        expect(it.notices() == {"p@soft.example": 2, "q@soft.example": 1}, "at last notices were",
               it.notices())
        expect(b"\nStatus: 4.4.7" in it.senders.mail[-1][2], "the notice is", it.senders.mail)
        for customer in ("acme", "birch"):
            it.desk.expect_usage(customer, expired=1)


def test_next_hop_away(program, shared):
    """Nobody listens at a next hop: the mail is deferred with a status of the connection, and goes
    later. Its domain rests meanwhile: the rest of its mail is not tried, and that of others is."""
    away = [f"p{it}@away.example" for it in range(5)]
    shared.delivering.route({**shared.hops(), "away.example": free_address()})
    with Relay(program, shared, settings={"delivery": {"rest": "3600"}}) as it:
        it.intake()
        it.take("acme", *away)
        it.take("birch", "p@good.example")
        it.postfix.empty()
        it.deliver()
        shown = [it.desk.own("acme", "GET", f"/v1/message/{row['id']}")
                 for row in it.desk.messages("acme")]
        tried = [one for one in shown if one["attempts"]]
        expect(0 < len(tried) <= 2 and all(
            (one["attempts"], one["state"], one["pending"][0]["status"][:4]) == (1, "deferred", "4.4.")
            for one in tried), "of a domain that is away the messages are", shown)
        it.expect_delivered("p@good.example")
        shared.delivering.route({**shared.hops(), "away.example": shared.good.address})
        it.again("acme")
        it.deliver()
        it.expect_delivered("p@good.example", *away)
        it.desk.expect_usage("acme", delivered=len(away))
    shared.delivering.route(shared.hops())


def test_one_failure(program, shared):
    """A host that answers drops one connection: the rest of its domain's mail goes on."""
    def answer(to):
        if to.startswith("s"):
            raise ConnectionResetError("the host drops the connection")
        return "250 2.1.5 ok"
    with Relay(program, shared, settings={"delivery": {"rest": "3600"}}) as it:
        shared.good.answer = answer
        it.intake()
        it.run("deliver")
        for one in [f"{name}@good.example" for name in ("a", "b", "s", "c", "d")]:
            it.take("acme", one)
            it.postfix.empty()
            until(lambda: one in shared.good.asked, f"{one} is not tried")
        until(lambda: it.desk.usage("acme")["delivered"] == 4, "the mail of the domain does not go on")
