"""Faults that a worker may have, each tried by its name: what strangers and customers can do to it,
and what a machine that fails does.

Each takes the program of the desk and what all share.
"""
import contextlib
import os
import re
import signal
import time
from pathlib import Path

from small_disk import fill, small_disk
from postfix import text_of
from machine import FAR, Relay, contents
from lmtp_client import LONG, lmtp, received
from serving import LONGEST, expect, named, until
from sinks import Lossy

MEGABYTE = 1_000_000


def memory_of(running):
    """The greatest memory that its processes have had, in megabytes, each by itself."""
    found = (Path(f"/proc/{it}/status").read_text() for it in (running.process.pid, *running.others()))
    return sum(int(re.search(r"VmHWM:\s+([0-9]+) kB", it)[1]) for it in found) / 1024


def threads_of(running):
    return len(os.listdir(f"/proc/{running.process.pid}/task"))


def test_forged_helo(program, shared):
    """A client's HELO looks like the queue ID of another customer's mail. Its mail is its own all the
    same, and that of the other one is not taken for it."""
    with Relay(program, shared) as it:
        it.desk.kill()
        it.intake()
        it.take("birch", f"p@{FAR}", subject="of-the-victim", login="bea")
        it.postfix.deferred("451 4.3.0")
        ident = it.postfix.queue()[0]["queue_id"]
        it.desk.start()
        with it.postfix.session("ann") as client:
            client.ehlo_resp = client.helo_resp = None
            client.ehlo(f"x-IDENT={ident}")
            client.sendmail("eve@b.example", [f"p@{FAR}"], text_of("eve@b.example", [f"p@{FAR}"], "forged"))
        it.postfix.empty()
        it.deliver()
        found = sorted(b"of-the-victim" in text for _, _, text in shared.good.mail)
        expect(found == [False, True], "delivered was", shared.good.mail)
        for customer in ("acme", "birch"):
            it.desk.expect_usage(customer, delivered=1)


def test_foreign_first_field(program, shared):
    """Mail whose first field is not Postfix's own tells no login, and is not taken where logins are
    looked at; where they are not, the sender's domain decides."""
    text = b"Subject: x\r\n\r\nHello.\r\n"
    for logins, wanted in (({"ann": "acme"}, 451), ({}, 250)):
        with Relay(program, shared, settings={"logins": logins}) as it:
            if not logins:
                it.settings = {}
                it.set()
                lines = (it.folder / "relay.ini").read_text()
                it.write("relay.ini", re.sub(r"(?s)\[logins\].*?\n(?=\[)", "", lines).rstrip())
            it.intake()
            for head in (b"", received("4jZpsK03Zxz1c38f", "ann"), b"X-First: y\r\n" + received(LONG, "ann")):
                with lmtp(it, LONG) as client:
                    client.mail("eve@a.example")
                    client.rcpt(f"p{len(head)}@{FAR}")
                    code, words = client.data(head + text)
                expect(code == wanted, "with the logins", logins, head, "is", code, words)


def test_one_desk_down(program, shared):
    """The calls of one customer fail: the mail of the others goes on, and its own once they do."""
    settings = {"delivery": {"clean-every": "1"}}
    with Relay(program, shared, None, settings) as it, \
            Lossy(it.desk.address, b"/acme HTTP/1.1") as lossy:
        it.intake()
        it.take("acme", f"a@{FAR}")
        it.take("birch", f"b@{FAR}")
        it.postfix.empty()
        it.set(desk={"address": named(lossy.address)})
        running = it.run("deliver")
        until(lambda: it.delivered().get(f"b@{FAR}"), "one customer holds up another")
        until(lambda: it.desk.usage("birch")["delivered"] == 1, "an outcome is not told")
        until(lambda: len(contents(it)) == 1, "one customer holds up the clean-up of another")
        expect("desk away" in running.log.read_text(), "the fault is not told")
        lossy.loses = False
        until(lambda: it.desk.usage("acme")["delivered"] == 1, "the customer's mail does not go on")
        it.expect_delivered(f"a@{FAR}", f"b@{FAR}")


def test_full_disk_while_a_notice_is_mailed(program, shared):
    """The spool's disk is full when a notice was mailed: it is mailed once, and not each time that
    the worker looks; and the mail goes on when there is room."""
    disk = shared.postfix.folder / "disk-of-notices"
    with small_disk(disk), Relay(program, shared) as it:
        it.set(spool={"folder": disk / "spool"})
        it.intake()
        it.take("acme", "x@hard.example")
        it.postfix.empty()
        filler = disk / "filler"
        it.senders.answer = lambda _: fill(filler) or "250 2.1.5 ok"
        running = it.run("deliver")
        until(lambda: it.senders.mail, "no notice comes")
        time.sleep(5)
        expect(it.notices() == {"x@hard.example": 1}, "on a full disk notices were", it.notices())
        expect("full" in running.log.read_text(), "the full disk is not told")
        filler.unlink()
        it.senders.answer = lambda _: "250 2.1.5 ok"
        it.take("acme", f"p@{FAR}")
        it.postfix.empty()
        until(lambda: it.desk.usage("acme")["delivered"] == 1, "the mail does not go on")
        it.expect_delivered(f"p@{FAR}")
        expect(it.notices() == {"x@hard.example": 1}, "notices were", it.notices())


def test_standard_error_gone(program, shared):
    """Nobody reads what the worker prints any more: mail is delivered and told, and SIGTERM ends
    it."""
    with Relay(program, shared) as it:
        it.intake()
        it.take("acme", f"p@{FAR}", "x@hard.example")
        it.postfix.empty()
        reading, writing = os.pipe()
        running = it.run("deliver", errors=writing)
        os.close(writing)
        os.close(reading)
        until(lambda: it.desk.usage("acme")["pending"] == 0, "the outcomes are not told")
        until(it.notices, "no notice comes")
        running.process.send_signal(signal.SIGTERM)
        running.ends()
        it.expect_delivered(f"p@{FAR}")


def test_large_and_many(program, shared):
    """Messages of ten megabytes, whose heads are bombs, come and go over several sessions at once:
    neither process needs memory for them, nor a thread for each."""
    count, bomb = 8, received(LONG) + b"a: b\r\n" * (10 * MEGABYTE // 6) + b"\r\nHello.\r\n"
    with Relay(program, shared) as it, contextlib.ExitStack() as clients:
        intake = it.intake()
        before = memory_of(intake)
        open_ones = [clients.enter_context(lmtp(it, LONG)) for _ in range(count)]
        for at, client in enumerate(open_ones):
            client.mail("ann@a.example")
            client.rcpt(f"p{at}@{FAR}")
            client.docmd("DATA")
        for client in open_ones:
            client.sock.sendall(bomb + b".\r\n")
        for client in open_ones:
            code, words = client.getreply()
            expect(code == 250, "a large message is", code, words)
        more = memory_of(intake) - before
        expect(more < 40, count, "large messages took", more, "megabytes of the intake")
        running = it.run("deliver")
        # (the sink reads each of their many lines by itself)
        until(lambda: len(shared.good.mail) == count, "the large messages do not come", 4 * LONGEST)
        most, threads = memory_of(running), threads_of(running)
        # (four that list what is due, four for sessions, four that tell, and five more)
        expect(most < 120 and threads <= 20, "the delivery took", most, "megabytes,", threads, "threads")


def test_killed_process(program, shared):
    """One of the processes of the intake is killed: the others end with it, the worker says so, and
    the next one takes the mail. No other is left where the first one is killed."""
    with Relay(program, shared) as it:
        for kill in (lambda one: os.kill(one.others()[0], signal.SIGKILL), lambda one: one.process.kill()):
            running = it.intake()
            others = running.others()
            expect(len(others) == 2, "the intake has begun", others)
            kill(running)
            running.process.wait(LONGEST)
            until(lambda: not any(map(is_alive, others)), "a process of the intake is left")
        told = it.begun[0].log.read_text()
        expect(it.begun[0].process.returncode == 1 and 'a process has ended" by="signal 9"' in told,
               "of a killed process the intake tells", told)
        it.intake()
        it.take("acme", f"p@{FAR}")
        it.postfix.empty()
        it.deliver()
        it.expect_delivered(f"p@{FAR}")


def is_alive(number):
    """Whether a process is there, and not just one that nobody has waited for."""
    with contextlib.suppress(OSError):
        return Path(f"/proc/{number}/stat").read_text().rpartition(")")[2].split()[0] != "Z"
    return False


def test_refused_for_now(program, shared):
    """The next hop of notices cannot take one for its recipient: those behind it are mailed, and it
    waits."""
    with Relay(program, shared) as it:
        it.senders.answer = lambda to: ("450 4.2.2 mailbox full" if to.startswith("full")
                                        else "250 2.1.5 ok")
        it.intake()
        for sender in ("full@a.example", "ann@a.example", "bob@a.example"):
            it.postfix.take(sender, [f"x-{sender[:3]}@hard.example"])
            it.postfix.empty()
        it.deliver()
        told = it.deliver()
        expect(sorted(it.notices()) == ["x-ann@hard.example", "x-bob@hard.example"],
               "notices were", it.notices())
        expect("lost notices" not in told, "a notice that waits is told as lost", told)
        it.desk.expect_usage("acme", failed=3)


def test_left_over(program, shared):
    """What Postfix gave up before it was submitted goes from the spool, once Postfix would not try
    it any more."""
    with Relay(program, shared, settings={"spool": {"keep-days": "0"}}) as it:
        killed = it.intake(("desk.client.Desk.submit", "before", 1))
        it.take("acme", f"p@{FAR}")
        killed.dies()
        it.postfix.drop()
        left = list((it.folder / "spool/content").iterdir())
        expect(len(left) == 1, "the spool has", left)
        time.sleep(1.1)
        it.deliver()
        expect(not list((it.folder / "spool/content").iterdir()), "content is left over")


def test_what_senders_ask_for(program, shared):
    """NOTIFY, RET, ENVID and ORCPT of the sender come to its notices (RFC 3461)."""
    asked = {"never": "NOTIFY=NEVER", "delay": "NOTIFY=DELAY", "failure": "NOTIFY=FAILURE,DELAY",
             "success": "NOTIFY=SUCCESS"}
    with Relay(program, shared) as it:
        it.intake()
        for name, notify in asked.items():
            domain = "good" if name == "success" else "hard"
            with it.postfix.session("ann") as client:
                client.mail("ann@a.example", ["ENVID=abc+2B1", "RET=FULL"])
                client.rcpt(f"{name}@{domain}.example", [notify, f"ORCPT=rfc822;{name}+2Bx@a.example"])
                client.data(text_of("ann@a.example", [f"{name}@x"], f"asked-{name}"))
        it.postfix.empty()
        it.deliver()
        until(lambda: len(it.notices()) == 2, "notices were", 5)
        found = it.notices()
        expect(found == {"failure@hard.example": 1, "success@good.example": 1}, "notices were", found)
        for _, to, text in it.senders.mail:
            missing = [one for one in (b"Original-Envelope-Id: abc+1\r\n", b"+x@a.example\r\n",
                                       b"Remote-MTA: dns; ", b"Last-Attempt-Date: ",
                                       b"Content-Type: message/rfc822", b"\r\nHello.\r\n")
                       if one not in text]
            expect(to == ["ann@a.example"] and not missing, "a notice lacks", missing, text)
        actions = sorted(re.search(rb"Action: (\w+)", text)[1] for _, _, text in it.senders.mail)
        expect(actions == [b"failed", b"relayed"], "the actions are", actions)


def test_taken_back(program, shared):
    """Mail lies in the delivering instance when its customer deletes one message and holds another:
    both are taken back, the one that was held goes when it is released."""
    # (to a domain that has not answered yet one message of a customer goes at a time)
    held = "held@slow.example"
    with Relay(program, shared, settings={"delivery": {"settle-after": "1"}}) as it:
        shared.delivering.set(defer_transports="smtp")
        try:
            it.intake()
            it.take("acme", f"gone@{FAR}", held)
            it.postfix.empty()
            running = it.run("deliver")
            until(lambda: len(shared.delivering.queue()) == 2, "the mail is not handed over")
            ids = {it.desk.own("acme", "GET", f"/v1/message/{row['id']}")["pending"][0]["address"]:
                   row["id"] for row in it.desk.messages("acme")}
            it.desk.own("acme", "DELETE", f"/v1/message/{ids[f'gone@{FAR}']}")
            it.desk.own("acme", "POST", f"/v1/hold/{ids[held]}")
            until(lambda: not shared.delivering.queue(), "the mail is not taken back")
            until(lambda: running.log.read_text().count("taken back") == 2, "that is not told")
        finally:
            shared.delivering.set(defer_transports="")
        it.desk.own("acme", "POST", f"/v1/release/{ids[held]}")
        until(lambda: it.desk.usage("acme")["delivered"] == 1, "what was released does not come")
        it.expect_delivered(held)
        it.desk.expect_usage("acme", delivered=1, deleted=1)
