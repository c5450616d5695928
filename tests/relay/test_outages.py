"""What the worker needs goes away, one after the other, and comes back: nothing is lost, and no
message comes twice.

Each takes the program of the desk and what all share.
"""
import os
import time

from small_disk import fill, small_disk
from machine import FAR, Relay
from serving import expect, until

# Messages of a customer: some are delivered, some fail.
NAMES = [f"p{it}@{FAR}" for it in range(6)] + [f"x{it}@hard.example" for it in range(2)]
GOOD, HARD = NAMES[:6], NAMES[6:]


def begun(it):
    """The intake has taken all messages, and the delivery runs."""
    it.intake()
    it.take("acme", *NAMES)
    it.postfix.empty()
    return it.run("deliver")


def all_came(it):
    """Each message was delivered once, or failed and was told once."""
    until(lambda: not it.desk.usage("acme")["pending"], f"pending is {it.desk.messages('acme')}")
    until(lambda: len(it.notices()) == len(HARD), "the notices do not come")
    it.expect_delivered(*GOOD)
    expect(it.notices() == {one: 1 for one in HARD}, "notices were", it.notices())
    it.desk.expect_usage("acme", delivered=len(GOOD), failed=len(HARD))


def test_instance_stopped(program, shared):
    """The delivering instance is stopped before it is handed anything, and again while it delivers."""
    with Relay(program, shared) as it:
        shared.delivering.stop()
        running = begun(it)
        until(lambda: "hand-over broke" in running.log.read_text(), "a stopped instance is not told")
        shared.good.gate.clear()
        shared.delivering.start()
        shared.good.until_waiting()
        shared.delivering.stop()
        shared.good.gate.set()
        time.sleep(2)
        shared.good.forget()  # (what it took as it was stopped, nobody at its side has seen)
        shared.delivering.start()
        until(lambda: not it.desk.usage("acme")["pending"], "the mail does not go on")
        twice = {one: count for one, count in it.delivered().items() if count != 1}
        expect(not twice, "twice came", twice)
        it.desk.expect_usage("acme", delivered=len(GOOD), failed=len(HARD))


def test_instance_killed(program, shared):
    """All processes of the delivering instance are killed, while nobody answers it: it begins its
    deliveries anew, and what it had not begun comes once."""
    with Relay(program, shared) as it:
        shared.good.hangs = True
        shared.good.gate.clear()
        begun(it)
        until(lambda: shared.good.asked, "nothing is attempted")
        shared.delivering.kill()
        shared.good.hangs = False
        shared.good.gate.set()
        shared.delivering.start()
        all_came(it)


def test_reports_closed(program, shared):
    """The folder of reports cannot be written: reports of failures wait in the instance, and no message is tried
    again meanwhile. What was delivered is told by the log."""
    with Relay(program, shared, settings={"delivery": {"lost-after": "3"}}) as it:
        os.chmod(shared.delivering.reports / "tmp", 0)
        os.chown(shared.delivering.reports / "tmp", 0, 0)
        try:
            begun(it)
            until(lambda: it.desk.usage("acme")["delivered"] == len(GOOD), "what was delivered is not told")
            time.sleep(8)
            expect(it.desk.usage("acme")["failed"] == 0, "a failure is told without a report")
            expect("no report" not in it.told(), "a report that waits is given up")
        finally:
            shared.delivering.open_reports()
        shared.delivering.flush()
        all_came(it)


def test_desk_away(program, shared):
    """The desk is away when mail was handed over, for as long as it takes: it is told when it is back."""
    with Relay(program, shared) as it:
        shared.good.gate.clear()
        begun(it)
        shared.good.until_waiting()
        it.desk.kill()
        shared.good.gate.set()
        until(it.delivered, "nothing is delivered")
        time.sleep(5)
        it.desk.start()
        all_came(it)


def test_report_lost(program, shared):
    """A report is lost on purpose, where there is no log: that is told as an error, and the message is tried again. It comes
    late all the same: it counts, and the message is not tried once more."""
    with Relay(program, shared, settings={"delivery": {"lost-after": "3"}}) as it:
        it.set(delivery={"log": it.folder / "no.log"})
        it.intake()
        it.take("acme", f"p@{FAR}")
        it.postfix.empty()
        killed = it.run("deliver", "--once", killed=("storage.attempts.Attempts.over", "behind", 1))
        killed.dies()
        box = shared.delivering.reports / "new"
        until(lambda: list(box.iterdir()), "no report comes")
        report = next(box.iterdir())
        kept = it.folder / "kept"
        os.rename(report, kept)
        shared.good.gate.clear()
        running = it.run("deliver")
        until(lambda: "no report" in running.log.read_text(), "a lost report is not told")
        shared.good.until_waiting()
        os.rename(kept, report)
        until(lambda: "late report" in running.log.read_text(), "a late report is not told")
        until(lambda: it.desk.usage("acme")["delivered"] == 1, "a late report does not count")
        shared.good.gate.set()
        time.sleep(3)
        it.desk.expect_usage("acme", delivered=1)
        expect(it.delivered() == {f"p@{FAR}": 2}, "delivered was", it.delivered())


def test_foreign_reports(program, shared):
    """Mail that is none of a report, or a report with an ID that nobody gave, is put aside, and
    changes nothing."""
    text = (b"Content-Type: multipart/report; report-type=delivery-status; boundary=b\r\n\r\n"
            b"--b\r\nContent-Type: message/delivery-status\r\n\r\nOriginal-Envelope-Id: %s\r\n\r\n"
            b"Final-Recipient: rfc822; p@good.example\r\nAction: failed\r\nStatus: 5.1.1\r\n\r\n--b--\r\n")
    with Relay(program, shared) as it:
        it.intake()
        it.take("acme", f"p@{FAR}")
        it.postfix.empty()
        new = shared.delivering.reports / "new"
        for at, one in enumerate((b"", b"\xff\x00", text % b"acme.0000000001.1.00", text % b"", text[:90],
                                  b"a: b\r\n" * 200_000)):
            (new / f"{at}.foreign").write_bytes(one)
        told = it.deliver()
        expect(told.count("foreign mail") == 6 and not list(new.iterdir()), "the worker tells", told)
        it.expect_delivered(f"p@{FAR}")
        it.desk.expect_usage("acme", delivered=1)


def test_full_disk(program, shared):
    """The spool's disk is full while mail is handed over and told: no message comes twice, and all
    goes on when there is room."""
    disk = shared.postfix.folder / "disk-of-mail"
    with small_disk(disk), Relay(program, shared) as it:
        it.set(spool={"folder": disk / "spool"})
        filler = disk / "filler"
        shared.good.answer = lambda _: fill(filler) or "250 2.1.5 ok"
        begun(it)
        until(lambda: it.delivered(), "nothing is delivered")
        time.sleep(4)
        expect(max(it.delivered().values()) == 1, "on a full disk came", it.delivered())
        shared.good.answer = lambda _: "250 2.1.5 ok"
        filler.unlink()
        all_came(it)
