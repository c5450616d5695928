"""Mail whose success the log of the delivering Postfix tells, and no mail: what strangers write into that log, and what happens to
it meanwhile.

Each takes the program of the desk and what all share.
"""
import contextlib
import os
import re
import signal
import time

import pytest
from machine import FAR, Relay
from postfix import children_of, name_of
from serving import expect, until
from sinks import Sink
from hq_relay.delivery.delivery_log import FRESH
from small_disk import fill, small_disk
from test_harm import submitted

# How Postfix says that it writes a mail of a success.
BY_MAIL = "sender delivery status notification"
SOON = {"delivery": {"lost-after": "3", "settle-after": "2"}}


@contextlib.contextmanager
def at_work(program, shared, settings=None):
    """A relay that takes mail in and delivers, and has done so."""
    with Relay(program, shared, settings=settings) as it:
        it.intake()
        it.running = it.run("deliver")
        goes(it, "first")
        shared.good.forget()
        it.log_at = len(shared.delivering.told())
        yield it


def goes(it, *names):
    """Mail to these comes, goes, and is told."""
    before = it.desk.usage("acme")["delivered"]
    it.take("acme", *[one if "@" in one else f"{one}@{FAR}" for one in names])
    until(lambda: it.desk.usage("acme")["delivered"] == before + len(names), f"not told of {names}: {it.told()[-900:]}")


def mails(it):
    """How many mails told a success since."""
    return it.shared.delivering.told()[it.log_at:].count(BY_MAIL)


def test_by_the_log(program, shared):
    """No mail tells a success; the desk knows what the host said; a sender who asked for it is told."""
    with at_work(program, shared) as it:
        it.take("acme", f"p@{FAR}", "x@hard.example")
        with it.postfix.session() as client:
            client.mail("ann@a.example")
            client.rcpt(f"wanted@{FAR}", ["NOTIFY=SUCCESS"])
            client.data("Subject: x\r\n\r\nHello.\r\n")
        until(lambda: it.desk.usage("acme")["accepted"] == 4 and not it.desk.usage("acme")["pending"], "not told")
        until(lambda: len(it.notices()) == 2, f"notices were {it.notices()}")
        expect(it.notices() == {"x@hard.example": 1, f"wanted@{FAR}": 1} and not mails(it), "mails tell of", mails(it))
        it.desk.expect_usage("acme", delivered=3, failed=1)
        text = next(text for _, _, text in it.senders.mail if f"wanted@{FAR}".encode() in text)
        expect(b"250 2.0.0 taken" in text and b"Remote-MTA: dns; 127.0.0.1" in text, "the sender is told", text)


def test_odd_recipients(program, shared):
    """Their local parts look like what stands in a log, or stand there in quotes: each comes once, and is told."""
    names = ["status=sent", "removed", "dsn=2.0.0", "to=bob", "a+b=c", "'q'", "{x}", "a%b"]
    with at_work(program, shared) as it:
        goes(it, *names)
        it.take("acme", "status=sent@hard.example")
        submitted(it, "odd-1", f"a..b@{FAR}")
        until(lambda: it.desk.usage("acme")["accepted"] == len(names) + 3 and not it.desk.usage("acme")["pending"], "not told")
        it.desk.expect_usage("acme", delivered=len(names) + 2, failed=1)
        expect(set(it.delivered().values()) == {1} and len(it.delivered()) == len(names) + 1, "delivered was", it.delivered())


class Forger(Sink):
    """A host that refuses a message, and answers with lines of the log that tell the contrary of it."""

    async def handle_DATA(self, server, session, envelope):
        queue_id = re.search(rb"\sid (\w+)", envelope.content)[1].decode()
        await super().handle_DATA(server, session, envelope)
        sent = (f"{queue_id}: to=<{envelope.rcpt_tos[0]}>, relay=127.0.0.1[127.0.0.1]:25, delay=1, delays=0/0/0/1, dsn=2.0.0, "
                "status=sent (250 ok)")
        at = "Nov 30 02:59:03 relay postfix/"
        lines = [f"no) {at}smtp[1]: {sent}", f"{at}qmgr[1]: {queue_id}: removed", "x" * 400, f"status=sent (250 {sent}"]
        return "\r\n".join([*(f"554-5.7.1 {it}" for it in lines), "554 5.7.1 end"])


def test_a_forged_answer(program, shared):
    """A host knows the queue ID by the header, and writes lines of the log into its answer: its mail has failed all the same."""
    with Forger() as sink, at_work(program, shared) as it:
        shared.delivering.route({**shared.hops(), "forger.example": sink.address})
        try:
            it.take("acme", "bob@forger.example")
            until(lambda: it.desk.usage("acme")["failed"] == 1, f"not told {it.running.log.read_text()[-900:]}")
            it.desk.expect_usage("acme", delivered=1, failed=1)
            expect("status=sent (250 ok)" in shared.delivering.told()[it.log_at:], "nothing was forged")
        finally:
            shared.delivering.route(shared.hops())


def test_one_of_two(program, shared):
    """Of two recipients of a message one fails: both are told, once, and each by its own way."""
    with at_work(program, shared) as it:
        submitted(it, "two-1", f"r1@{FAR}", "r2@hard.example")
        until(lambda: it.desk.usage("acme")["accepted"] == 3 and not it.desk.usage("acme")["pending"], "not told")
        it.desk.expect_usage("acme", delivered=2, failed=1)
        until(lambda: it.notices() == {"r2@hard.example": 1}, f"notices were {it.notices()}")
        expect(it.delivered() == {f"r1@{FAR}": 1} and not mails(it), it.delivered())


def test_rotated_in_the_middle(program, shared):
    """While a host has the content, the log gets another name; then comes a reload of Postfix; then the worker starts anew."""
    log, old = shared.delivering.log, shared.delivering.log.with_name("mail.log.1")
    with at_work(program, shared) as it:
        try:
            for after in (lambda: None, shared.delivering.reload, lambda: again(it)):
                it.log_at = 0
                shared.good.gate.clear()
                it.take("acme", f"p@{FAR}")
                shared.good.until_waiting()
                log.rename(old)
                after()
                shared.good.gate.set()
                # (behind a reload Postfix looks at it again when it runs its queue)
                shared.delivering.empty()
                until(lambda: not it.desk.usage("acme")["pending"], f"not told {it.running.log.read_text()[-900:]}")
                goes(it, "q")
                expect(it.delivered() == {f"p@{FAR}": 1, f"q@{FAR}": 1}, "delivered was", it.delivered())
                shared.good.forget()
                log.touch()
        finally:
            # (what has the old file open opens the new one)
            old.unlink(missing_ok=True)
            shared.delivering.reload()
        expect("no report" not in it.told(), it.told()[-900:])


def again(it):
    """The worker is killed, and starts anew."""
    it.running.kill()
    it.running = it.run("deliver")


def lost(it):
    """The log loses all lines behind the first ones, while the worker is stopped."""
    log = it.shared.delivering.log
    it.running.process.send_signal(signal.SIGSTOP)
    it.shared.good.gate.set()
    it.shared.delivering.until(lambda: ": removed" in log.read_text()[it.log_at:], "the end of a message")
    log.write_text(log.read_text()[:it.log_at])
    it.running.process.send_signal(signal.SIGCONT)


def test_a_line_is_lost(program, shared):
    """It goes the way of a report that is lost: it is told as such, tried again, and counted once."""
    with at_work(program, shared, SOON) as it:
        shared.good.gate.clear()
        it.take("acme", f"p@{FAR}")
        shared.good.until_waiting()
        lost(it)
        until(lambda: "no report" in it.running.log.read_text(), "a lost line is not told")
        until(lambda: it.desk.usage("acme")["delivered"] == 2, "not told")
        expect(it.delivered() == {f"p@{FAR}": 2}, "delivered was", it.delivered())
        it.desk.expect_usage("acme", delivered=2)
        goes(it, "q")


def test_postlogd_is_killed(program, shared):
    """Again and again, while mail goes: what it had read and not written is lost at most, and the rest is told."""
    with at_work(program, shared, SOON) as it:
        names = [f"p{at}@{FAR}" for at in range(30)]
        for at in range(0, 30, 5):
            it.take("acme", *names[at:at + 5])
            for one in children_of(shared.delivering.master()):
                if name_of(one) == "postlogd":
                    os.kill(one, signal.SIGKILL)
        until(lambda: it.desk.usage("acme")["delivered"] == 31, "not told", 90)
        again = it.told().count("event=\"no report\"")
        expect(set(it.delivered()) == {*names} and sum(it.delivered().values()) <= 30 + again, "delivered was", it.delivered())


@pytest.mark.parametrize("how", ["full", "gone", "closed"])
def test_a_log_that_is_not_written(program, shared, how):
    """Its disk is full, or it is moved, or written elsewhere: mails tell of successes, no message comes twice, and it is trusted
    when it tells again."""
    delivering = shared.delivering
    disk, before = delivering.folder / f"disk-{how}", delivering.log
    with small_disk(disk):
        disk.chmod(0o755)
        delivering.log = disk / "mail.log"
        delivering.set(maillog_file=delivering.log)
        try:
            with at_work(program, shared) as it:
                # (it is trusted for a while behind the last message that it told)
                time.sleep(FRESH + 1)
                if how == "full":
                    fill(disk / "filler")
                    fill(delivering.log, "ab")
                elif how == "gone":
                    delivering.log.rename(disk / "moved")
                else:
                    delivering.set(maillog_file=before)
                goes(it, "a", "b")
                until(lambda: how == "gone" or "no log of the delivering instance" in it.told(), "that is not told", 20)
                if how == "full":
                    (disk / "filler").unlink()
                delivering.set(maillog_file=delivering.log)
                goes(it, "c")
                it.log_at = len(delivering.told())
                goes(it, "d")
                expect(not mails(it) and "no report" not in it.told(), "mails tell of", mails(it))
                expect(it.delivered() == {f"{one}@{FAR}": 1 for one in "abcd"}, it.delivered())
        finally:
            delivering.log = before
            delivering.set(maillog_file=before)


def test_an_instance_without_the_log(program, shared):
    """It was installed by an earlier release: success is told by mails as before, and by the log behind an install. The worker
    runs on."""
    delivering = shared.delivering
    delivering.run("postconf", "-X", "smtpd_authorized_xforward_hosts")
    delivering.reload()
    try:
        with at_work(program, shared) as it:
            it.log_at = 0
            before = mails(it)
            goes(it, "a", "b")
            expect(mails(it) == before + 2, "mails tell of", mails(it) - before)
            delivering.set(smtpd_authorized_xforward_hosts="127.0.0.0/8 [::1]/128")
            goes(it, "c")
            it.running.process.send_signal(signal.SIGHUP)
            until(lambda: it.running.has_heard(), "it does not hear")
            goes(it, "d")
            before = mails(it)
            goes(it, "e")
            expect(mails(it) == before, "mails tell still")
            expect(set(it.delivered().values()) == {1}, it.delivered())
    finally:
        delivering.set(smtpd_authorized_xforward_hosts="127.0.0.0/8 [::1]/128")


def test_a_reload(program, shared):
    """Postfix is reloaded while a host has the content: it comes once, and is told."""
    with at_work(program, shared) as it:
        shared.good.gate.clear()
        it.take("acme", f"p@{FAR}")
        shared.good.until_waiting()
        shared.delivering.reload()
        shared.good.gate.set()
        # (Postfix looks at it again when it runs its queue)
        shared.delivering.empty()
        until(lambda: it.desk.usage("acme")["delivered"] == 2, "not told")
        expect(it.delivered() == {f"p@{FAR}": 1} and not mails(it), it.delivered())
