"""What one customer, a strange message, a host or a slow machine could do to the mail of others, each
tried by its name.

Each takes the program of the desk and what all share.
"""
import json
import socket
import time

from machine import FAR, Relay
from serving import RELAY, expect, named, until
from sinks import ACCEPTS, Lossy, Session, Sink

# So many seconds the mail of one customer may take while another one's does not go.
SOON = 20


def submitted(it, spool, *recipients):
    """A message of acme that another worker submitted: it has all these recipients. Its queue ID."""
    content = it.folder / "spool/content"
    content.mkdir(parents=True, exist_ok=True)
    envelope = {"customer": "acme", "spool": spool, "sender": "ann@a.example", "recipient": recipients[0]}
    (content / spool).write_bytes(json.dumps(envelope).encode() + b"\nSubject: two\r\n\r\nhi\r\n")
    status, made = it.desk.ask("POST", "/relay/submit/acme", RELAY, {
        "spool": spool, "sender": "ann@a.example", "recipients": list(recipients), "size": 60})
    expect(status == 200, "a submission is", status, made)
    return made["id"]


def test_plus_tags(program, shared):
    """What stands behind the plus of an address may look like a byte in hexadecimal digits."""
    recipients = [f"{one}@{FAR}" for one in ("bob+2024", "a+be", "c+0A", "plain")]
    with Relay(program, shared) as it:
        it.intake()
        it.take("acme", *recipients)
        it.postfix.empty()
        it.deliver()
        it.expect_delivered(*recipients)
        it.desk.expect_usage("acme", delivered=len(recipients))


def test_strange_messages(program, shared):
    """A message that a reader of mail chokes on comes back whole where its sender asked for that, and
    neither ends the worker nor keeps other notices back."""
    nested = "Content-Type: message/rfc822\r\n\r\n" * 1200
    strange = ["Subject: a\x0bEvil: b\r\n\r\nhi\r\n", nested,
               "Content-Type: multipart/mixed; boundary*=a%00b''xx\r\n\r\n--xx\r\n\r\nhi\r\n--xx--\r\n"]
    with Relay(program, shared) as it:
        it.intake()
        for at, text in enumerate(strange):
            with it.postfix.session("ann") as client:
                client.mail("ann@a.example", ["RET=FULL"])
                client.rcpt(f"x{at}@{'good' if at == 1 else 'hard'}.example", ["NOTIFY=SUCCESS,FAILURE"])
                client.data(text)
        it.take("acme", "y@hard.example")
        it.postfix.empty()
        running = it.run("deliver")
        until(lambda: len(it.notices()) == 4, f"notices were {it.notices()}")
        expect(running.process.poll() is None, "the delivery has ended")
        whole = [text for _, _, text in it.senders.mail
                 if b"\r\nSubject: a\x0bEvil: b\r\n" in text and b"\r\n\r\nhi\r\n" in text]
        expect(len(whole) == 1, "a message did not come back as it was")


def test_turned_away(program, shared):
    """A host turns one customer's mail away for now, by 421: that of others goes to it."""
    with Relay(program, shared, settings={"delivery": {"rest": "3600"}}) as it:
        shared.good.answer = lambda to: "421 4.7.28 too much of this sender" if to.startswith("a") else ACCEPTS
        it.intake()
        it.take("acme", *[f"a{at}@{FAR}" for at in range(15)])
        it.postfix.empty()
        it.run("deliver")
        until(lambda: len(set(shared.good.asked)) >= 2, "nothing is tried")
        it.take("birch", f"b@{FAR}")
        until(lambda: it.delivered() == {f"b@{FAR}": 1}, "another customer's mail waits", SOON)


class Greets(Session):
    """A host that takes nothing now, and says so by a code that means for ever."""

    async def _handle_client(self):
        await self.push("554 5.7.1 overloaded, come back later")
        self.transport.close()


def test_greeted_by_554(program, shared):
    """Postfix tries a host again that greets by a refusal, and so does the desk."""
    with Sink(ACCEPTS, session=Greets) as sink, Relay(program, shared) as it:
        shared.delivering.route({**shared.hops(), "greets.example": sink.address})
        it.intake()
        it.take("acme", "p@greets.example")
        it.postfix.empty()
        it.deliver()
        it.desk.expect_usage("acme", pending=1)
        expect(not it.notices(), "the sender was told", it.notices())
        shared.delivering.route(shared.hops())


def queues_of(postfix, address):
    """In which queues mail to an address is. (Mail of an earlier test may be in one, too.)"""
    return [it["queue_name"] for it in postfix.queue()
            if any(to["address"] == address for to in it["recipients"])]


def test_partly_delivered(program, shared):
    """Of two recipients of a message one is delivered, and the other one's copy is taken back: what
    was delivered is told, and does not come again."""
    with Relay(program, shared, settings={"delivery": {"settle-after": "1"}}) as it:
        transport = shared.delivering.conf / "transport"
        before = transport.read_text()
        transport.write_text(f"{before}later.example lmtp:[127.0.0.1]:{shared.good.address[1]}\n")
        shared.delivering.set(defer_transports="lmtp")
        try:
            id = submitted(it, "two-1", f"r1@{FAR}", "r2@later.example")
            running = it.run("deliver")
            until(lambda: it.delivered() == {f"r1@{FAR}": 1}, "nothing is delivered")
            until(lambda: "deferred" in queues_of(shared.delivering, "r2@later.example"),
                  f"the other one does not wait: {shared.delivering.queue()}")
            it.desk.own("acme", "POST", f"/v1/hold/{id}")
            until(lambda: "taken back" in running.log.read_text(), "the other one is not taken back")
            until(lambda: it.desk.usage("acme")["delivered"] == 1, "what was delivered is not told")
        finally:
            transport.write_text(before)
            shared.delivering.set(defer_transports="")
        it.desk.own("acme", "POST", f"/v1/release/{id}")
        it.again("acme")
        time.sleep(3)
        expect(it.delivered()[f"r1@{FAR}"] == 1, "delivered was", it.delivered())


def test_slow_queue(program, shared):
    """The delivering instance needs longer for a message than a step of a session may take."""
    with Relay(program, shared, settings={"delivery": {"timeout": "3"}}) as it:
        shared.delivering.set(smtpd_end_of_data_restrictions="sleep 8, permit")
        try:
            it.intake()
            it.take("acme", f"p@{FAR}")
            it.postfix.empty()
            it.deliver()
        finally:
            shared.delivering.set(smtpd_end_of_data_restrictions="")
        it.expect_delivered(f"p@{FAR}")
        it.desk.expect_usage("acme", delivered=1)


def test_hanging_hop(program, shared):
    """The next hop of notices takes a connection and says nothing: other customers' mail is handed
    over and told, and so is what fails."""
    with socket.create_server(("127.0.0.1", 0), backlog=64) as hop:
        settings = {"notices": {"next-hop": named(hop.getsockname())}, "delivery": {"timeout": "10"}}
        with Relay(program, shared, settings=settings) as it:
            it.intake()
            it.take("acme", *[f"x{at}@hard.example" for at in range(8)])
            it.postfix.empty()
            it.run("deliver")
            until(lambda: it.desk.usage("acme")["failed"], "no failure is told", SOON)
            it.take("birch", f"b@{FAR}")
            until(lambda: it.desk.usage("birch")["delivered"] == 1, "another customer's mail waits", SOON)
            until(lambda: it.desk.usage("acme")["failed"] == 8, "failures wait for a hop", SOON)


class Hung(Lossy):
    """Stands before a desk, and says nothing to those requests."""

    def finish_request(self, request, address):
        if self.text in request.recv(65536, socket.MSG_PEEK):
            time.sleep(SOON)
        super().finish_request(request, address)


def test_hanging_desk(program, shared):
    """The desk of one customer says nothing: the other customers' mail is handed over and told."""
    with Relay(program, shared) as it, Hung(it.desk.address, b"/acme HTTP/1.1") as hung:
        it.intake()
        it.take("acme", *[f"a{at}@{FAR}" for at in range(3)])
        it.postfix.empty()
        it.set(desk={"address": named(hung.address), "timeout": "30"})
        it.run("deliver")
        for at in range(3):
            it.take("birch", f"b{at}@{FAR}")
            until(lambda: it.desk.usage("birch")["delivered"] == at + 1, "another customer's mail waits", SOON)


def test_commands_that_hang(program, shared):
    """`postsuper` does not end, and a customer whose mail is under way leaves the directory: reports
    are read all the same."""
    with Relay(program, shared) as it:
        script = it.folder / "hangs"
        script.write_text("#!/bin/sh\nexec sleep 100\n")
        script.chmod(0o755)
        it.set(delivery={"postsuper": script, "timeout": "2", "settle-after": "1"})
        shared.delivering.set(defer_transports="smtp")
        it.intake()
        it.take("acme", f"gone@{FAR}")
        it.postfix.empty()
        running = it.run("deliver")
        until(lambda: len(shared.delivering.queue()) == 1, "the mail is not handed over")
        it.desk.own("acme", "DELETE", f"/v1/message/{it.desk.only('acme')}")
        until(lambda: "not taken back" in running.log.read_text(), "a hanging command is not told")
        running.kill()
        for name in ("names.csv", "relay.ini"):
            rows = (it.folder / name).read_text().splitlines()
            it.write(name, *[row for row in rows if not row.startswith("acme") and not row.endswith("= acme")])
        running = it.run("deliver")
        shared.delivering.set(defer_transports="")
        it.take("birch", f"b@{FAR}")
        until(lambda: it.desk.usage("birch")["delivered"] == 1, "another customer's mail waits")
        expect(running.process.poll() is None, "the delivery has ended")


def test_reported_twice(program, shared):
    """Two reports of one recipient are journaled: the desk is told one, and the customer is swept."""
    with Relay(program, shared) as it:
        id = submitted(it, "s1", f"p@{FAR}")
        it.run("check").ends()
        it.run("unknown").ends()
        script = ("import sys; sys.path.insert(0, sys.argv[1]); from pathlib import Path; from hq_relay.storage.book import Book, Report;"
                  "from hq_relay.outcome import Outcome, Result;"
                  "book = Book(Path('spool')); one = Outcome(sys.argv[3], Result.DELIVERED);"
                  "[book.attempted(Report('acme', 's1', sys.argv[2], 1, (one,))) for _ in 'ab']")
        it.python(script, id, f"p@{FAR}")
        told = it.deliver()
        it.desk.expect_usage("acme", delivered=1)
        expect("outcome refused" not in told and "not swept" not in told, "the worker tells", told)
