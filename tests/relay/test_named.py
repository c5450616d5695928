"""The ways in which a worker that is written without care loses or doubles mail, each tried by its
name.

Each takes the program of the desk and what all share.
"""
import contextlib
import os
import signal
from pathlib import Path

from machine import WIDE, Relay
from lmtp_client import LONG, TEXT, lmtp
from serving import KEYS, RELAY, expect, until
from tool import Workers

FAR = "good.example"
# (as /proc/net/tcp has it)
ESTABLISHED = "01"


def test_many_recipients(program, shared):
    """A message of 150 recipients comes in many transactions: each recipient gets it once."""
    recipients = [f"r{it}@{FAR}" for it in range(150)]
    with Relay(program, shared) as it:
        it.intake()
        it.take("acme", *recipients)
        it.postfix.empty()
        it.deliver()
        it.expect_delivered(*recipients)
        it.desk.expect_usage("acme", delivered=150)
        expect(not it.bounces() and not it.notices(), "a sender was told", it.bounces(),
               it.notices())


def test_death_before_the_answer(program, shared):
    """Of three recipients one is refused, and the intake dies before one of the answers: that one
    is told, the others get the message."""
    for at in (1, 2, 3):
        with Relay(program, shared) as it:
            it.desk.line("acme", "recipient", f"no@{FAR}", "REJECT not wanted here")
            first = it.intake(("intake.incoming.IncomingMessage.end", "behind", at))
            it.take("acme", f"yes@{FAR}", f"no@{FAR}", f"ok@{FAR}")
            first.dies()
            it.intake()
            it.postfix.empty()
            it.deliver()
            it.expect_delivered(f"yes@{FAR}", f"ok@{FAR}")
            it.expect_bounced({f"no@{FAR}": "554 5.7.1 not wanted here"})
            it.desk.expect_usage("acme", delivered=2)


def test_more_failures_than_notices(program, shared):
    """20 messages fail where 10 notices are kept: all are told in one round, and also where none
    can be mailed for a while. Where somebody else makes too many, those lost are told loudly."""
    limits = {"acme": WIDE, "birch": "1000,500000000,1000,10,0"}
    with Relay(program, shared, limits) as it:
        checked = it.run("check")
        checked.ends()
        warned = checked.log.read_text()
        expect("birch" in warned and "acme" not in warned, "the check tells", warned)
        it.intake()
        failed = [f"x{at}@hard.example" for at in range(20)]
        it.take("birch", *failed)
        it.postfix.empty()
        told = it.deliver()
        expect(it.notices() == {one: 1 for one in failed}, "notices were", it.notices())
        it.desk.expect_usage("birch", failed=20)
        told += notices_wait(it)
        expect("lost notices" not in told, "notices were lost", told)
        lost_and_told(it)


def notices_wait(it):
    """The next hop of notices is away for a round, in which 20 messages fail."""
    failed = [f"y{at}@hard.example" for at in range(20)]
    it.senders.answer = lambda _: "450 4.3.2 not now"
    it.take("birch", *failed)
    it.postfix.empty()
    told = it.deliver()
    it.senders.forget()
    it.senders.answer = lambda _: "250 2.1.5 ok"
    told += it.deliver()
    expect(it.notices() == {one: 1 for one in failed}, "after a wait notices were", it.notices())
    it.desk.expect_usage("birch", failed=40)
    return told


def lost_and_told(it):
    """Another worker, which mails no notices, tells of 15 failures."""
    it.senders.forget()
    for at in range(15):
        one = {"spool": f"o{at}", "sender": "ann@b.example", "recipients": [f"z{at}@hard.example"]}
        _, made = it.desk.ask("POST", "/relay/submit/birch", RELAY, {**one, "size": 1})
        outcome = {"recipient": f"z{at}@hard.example", "result": "failed", "status": "5.1.1",
                   "text": "no such user"}
        status, told = it.desk.ask("POST", "/relay/outcome/birch", RELAY,
                                   {"id": made["id"], "attempt": 1, "outcomes": [outcome]})
        expect(status == 200, "an outcome is", status, told)
    told = it.deliver()
    found = [one for one in told.splitlines() if "lost notices" in one]
    wanted = "customer=birch first=41 last=45"
    expect(len(found) == 1 and wanted in found[0], "lost notices are told as", found)
    expect(sorted(it.notices()) == sorted(f"z{at}@hard.example" for at in range(5, 15)),
           "told were", it.notices())


def test_the_relays_key_alone(program, shared):
    """The worker has no customer's key, and mails notices nevertheless."""
    with Relay(program, shared) as it:
        for made in it.folder.iterdir():
            known = made.name in ("customers.csv", "desk.db", "desk.db-wal")
            expect(known or not any(key in made.read_text() for key in KEYS.values()), made,
                   "has a customer's key")
        it.intake()
        it.take("acme", f"p@{FAR}", "x@hard.example")
        it.postfix.empty()
        told = it.deliver()
        it.expect_delivered(f"p@{FAR}")
        expect(it.notices() == {"x@hard.example": 1}, "notices were", it.notices())
        expect("relaykey00000001" not in told + it.told(), "the relay's key is told")


def test_death_behind_the_submit(program, shared):
    """The intake dies behind the submit, or before its record; the message is delivered and gone,
    and Postfix tries again."""
    for step, when in (("desk.client.Desk.submit", "behind"), ("storage.book.Book.taken", "before")):
        with Relay(program, shared) as it:
            first = it.intake((step, when, 1))
            it.take("acme", f"p@{FAR}")
            first.dies()
            it.desk.expect_usage("acme", pending=1)
            it.deliver()
            it.expect_delivered(f"p@{FAR}")
            it.intake()
            it.postfix.empty()
            it.deliver()
            it.expect_delivered(f"p@{FAR}")
            it.desk.expect_usage("acme", delivered=1)


def test_requeued_meanwhile(program, shared):
    """A customer requeues a message while an attempt is under way: it is delivered once, and counts
    so."""
    with Relay(program, shared) as it:
        it.intake()
        it.take("acme", f"p@{FAR}")
        it.postfix.empty()
        shared.good.gate.clear()
        running = it.run("deliver", "--once")
        shared.good.until_waiting()
        it.desk.own("acme", "POST", f"/v1/requeue/{it.desk.only('acme')}")
        shared.good.gate.set()
        running.ends()
        it.deliver()
        it.expect_delivered(f"p@{FAR}")
        it.desk.expect_usage("acme", delivered=1)


def test_two_workers(program, shared):
    """Two workers at once: the second says so, and does nothing."""
    recipients = [f"p{it}@{FAR}" for it in range(6)]
    with Relay(program, shared) as it:
        it.intake()
        it.take("acme", *recipients)
        it.postfix.empty()
        shared.good.gate.clear()
        first = it.run("deliver", "--once")
        shared.good.until_waiting()
        second = it.run("deliver", "--once")
        second.ends(1, longest=20)
        told = second.log.read_text()
        expect("another process" in told and "lock=deliver" in told, "the second worker tells", told)
        shared.good.gate.set()
        first.ends()
        it.expect_delivered(*recipients)
        it.desk.expect_usage("acme", delivered=6)


def test_retry_of_a_part(program, shared):
    """Postfix tries a part of a message again, under its queue ID: no other part comes twice."""
    for at in (1, 2):
        with Relay(program, shared) as it:
            it.desk.line("acme", "recipient", f"later@{FAR}", "DEFER not yet")
            first = it.intake(("desk.client.Desk.submit", "behind", at))
            it.take("acme", f"a@{FAR}", f"later@{FAR}", f"b@{FAR}")
            first.dies()
            second = it.intake()
            it.postfix.deferred("not yet")
            it.deliver()
            second.kill()
            it.desk.drop_line("acme", "recipient", f"later@{FAR}")
            it.intake()
            it.postfix.empty()
            it.deliver()
            it.expect_delivered(f"a@{FAR}", f"b@{FAR}", f"later@{FAR}")
            it.desk.expect_usage("acme", delivered=3)


def test_tried_at_once(program, shared):
    """Postfix tries a message again and again while its submit hangs, over each process of the
    intake: it is submitted once, and all tries are answered so."""
    with Relay(program, shared) as it, contextlib.ExitStack() as clients:
        intake = it.intake()
        others, port = intake.others(), shared.intake[1]
        tries = []
        while len(tries) < 6 or not all(sessions_of(one, port) for one in others):
            expect(len(tries) < 40, "one process takes all sessions")
            tries.append(clients.enter_context(lmtp(it, LONG)))
        desk = it.desk.server.process
        os.kill(desk.pid, signal.SIGSTOP)
        with Workers(len(tries)) as workers:
            try:
                jobs = [workers.submit(handed_over, one) for one in tries]
                until(lambda: len(os.listdir(it.folder / "spool/new")) == len(tries) - 1,
                      "not all tries wait for the first one")
            finally:
                os.kill(desk.pid, signal.SIGCONT)
            answers = {job.result() for job in jobs}
        told = intake.log.read_text()
        counts = told.count("event=queued"), told.count('event="taken before"')
        expect(answers == {(250, b"2.0.0 queued as 0000000001")} and counts == (1, len(tries) - 1),
               "tries at once were answered", answers, told)
        expect(not list((it.folder / "spool/locks").glob("name-*")), "a lock is left")
        it.deliver()
        it.expect_delivered("p@good.example")


def sessions_of(number, port):
    """How many connections of a port of loopback a process has."""
    rows = [it.split() for it in Path("/proc/net/tcp").read_text().splitlines()[1:]]
    found = {f"socket:[{it[9]}]" for it in rows if it[1].endswith(f":{port:04X}") and it[3] == ESTABLISHED}
    return sum(link_of(it) in found for it in Path(f"/proc/{number}/fd").iterdir())


def link_of(path):
    """Where a link leads; empty where it has gone meanwhile."""
    with contextlib.suppress(FileNotFoundError):
        return os.readlink(path)
    return ""


def handed_over(client):
    """What the intake answers at the end of a message."""
    client.mail("ann@a.example")
    client.rcpt("p@good.example")
    return client.data(TEXT)


def test_deleted_meanwhile(program, shared):
    """A customer deletes a message while it is being sent: it is delivered, counts as deleted, and
    that is told. (Nobody looks after what was handed over a moment ago.)"""
    with Relay(program, shared, settings={"delivery": {"settle-after": "60"}}) as it:
        it.intake()
        it.take("acme", f"p@{FAR}")
        it.postfix.empty()
        shared.good.gate.clear()
        running = it.run("deliver", "--once")
        shared.good.until_waiting()
        it.desk.own("acme", "DELETE", f"/v1/message/{it.desk.only('acme')}")
        shared.good.gate.set()
        running.ends()
        expect("delete" in running.log.read_text(), "the deletion is not told",
               running.log.read_text())
        it.deliver()
        it.expect_delivered(f"p@{FAR}")
        it.desk.expect_usage("acme", deleted=1)
