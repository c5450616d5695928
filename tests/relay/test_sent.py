"""The log of the delivering instance as the worker follows it: rotated, emptied, cut, silent, and read again behind a stop.

A whole delivery reads it, with its book. No Postfix runs: the test writes the lines.
"""
import os
import time

import pytest
from hq_relay.delivery import delivery_log as sent
from hq_relay.desk.replies import Message
from hq_relay.outcome import Outcome, Result
from hq_relay.postfix.log_follower import PIECE, LogFollower
from hq_relay.storage.attempts import Attempt
from house import GOOD, Told
from serving import expect

HERE = "Nov 30 02:59:03 relay postfix-desk/"
OTHER = "q@far.example"


def envelope_of(id):
    return f"acme.{id}.1.{'0' * 23}{id.lower()}"


def taken(id):
    return f"{HERE}smtpd[1]: 4F0000{id}: client=unknown[127.0.0.1], orig_queue_id={envelope_of(id)}"


def was_sent(id, recipient=GOOD, status="sent", text="250 2.0.0 ok"):
    return (f"{HERE}smtp[2]: 4F0000{id}: to=<{recipient}>, relay=mx.far.example[192.0.2.1]:25, delay=1, delays=0/0/0/1, "
            f"dsn={'2.0.0' if status == 'sent' else '5.0.0'}, status={status} ({text})")


def removed(id):
    return f"{HERE}qmgr[3]: 4F0000{id}: removed"


class Log:
    """The log, a delivery that reads it, and one message for each letter, whose hand-over is in the book."""

    def __init__(self, delivering, folder, *ids, recipients=(GOOD,), is_over=True):
        self.path, self.make = folder / "mail.log", lambda: delivering(Told())
        self.start()
        for it in ids:
            attempt = Attempt(envelope_of(it), "acme", f"s{it}", it, 1, [*recipients], "ann@a.example", time.time())
            self.found.attempts.about([attempt])
        if is_over:
            self.found.attempts.over({envelope_of(it): f"4F0000{it}" for it in ids}, [])

    def start(self):
        """A new start of the worker."""
        self.found = self.make()

    def write(self, *lines):
        with open(self.path, "a") as file:
            file.write("".join(f"{it}\n" for it in lines))

    def read(self, *lines):
        """What is in the journal, when these lines were written and read."""
        self.write(*lines)
        self.found.collector.read()
        return [*self.found.book.unreported("acme")]


@pytest.fixture
def log_of(delivering, folder):
    return lambda *ids, **more: Log(delivering, folder, *ids, **more)


# ---- what counts

def test_sent_and_gone(log_of):
    """It is delivered when it has left the queue, and no sooner."""
    it = log_of("A", "B")
    expect(it.read(taken("A"), was_sent("A"), taken("B")) == [], "journaled before it left the queue")
    expect(it.read(removed("A"), removed("B")) == ["sA"], it.found.book.unreported("acme"))
    told = it.found.book.report("acme", "sA").outcomes
    expect(told == (Outcome(GOOD, Result.DELIVERED, "2.0.0", "250 2.0.0 ok"),), told)
    expect([one.id for one in it.found.attempts.under_way()] == ["B"], "what was removed and not sent is held")


def test_read_twice(log_of):
    """A line that is read twice is told once, also by a new start that knows no position."""
    it = log_of("A")
    lines = taken("A"), was_sent("A"), removed("A")
    it.read(*lines)
    it.found.book.reported(it.found.book.report("acme", "sA"))
    expect(it.read(*lines) == [], "journaled twice")
    it.start()
    expect(it.read() == [], "journaled twice behind a new start")


def test_a_failure_beside_a_success(log_of):
    """Of two recipients one got it: nothing is told before the report of the other one is there."""
    it = log_of("A", recipients=(GOOD, OTHER))
    expect(it.read(taken("A"), was_sent("A"), was_sent("A", OTHER, "bounced", "550 no"), removed("A")) == [], "a report is missing")
    report = [Outcome(OTHER, Result.FAILED, "5.0.0", "no")]
    it.found.collector.take({envelope_of("A"): report}, {envelope_of("A")})
    told = {one.recipient: one.result for one in it.found.book.report("acme", "sA").outcomes}
    expect(told == {GOOD: "delivered", OTHER: "failed"}, told)


def test_a_failure_of_the_same_recipient(log_of):
    """The log tells both of one recipient: the report decides."""
    it = log_of("A")
    expect(it.read(taken("A"), was_sent("A"), was_sent("A", status="bounced"), removed("A")) == [], "journaled")
    it.found.collector.take({envelope_of("A"): [Outcome(GOOD, Result.FAILED, "5.0.0", "no")]})
    expect([one.result for one in it.found.book.report("acme", "sA").outcomes] == ["failed"], it.found.book.report("acme", "sA"))


def test_a_report_behind_a_line(log_of):
    """The line is in the book when the report of a failure comes: the report decides."""
    it = log_of("A")
    it.read(taken("A"), was_sent("A"))
    expect([one.result for one in it.found.attempts.of(envelope_of("A")).outcomes] == ["delivered"], "not written down")
    it.found.collector.take({envelope_of("A"): [Outcome(GOOD, Result.FAILED, "5.0.0", "no")]})
    expect([one.result for one in it.found.book.report("acme", "sA").outcomes] == ["failed"], it.found.book.report("acme", "sA"))


def test_another_recipient(log_of, logged):
    """A line of somebody to whom the message did not go, or under another queue ID, tells nothing of it."""
    it = log_of("A")
    expect(it.read(taken("A"), was_sent("A", OTHER), removed("A")) == [] and logged == ["report of nobody"], logged)
    expect(it.read(was_sent("B"), removed("B")) == [], "journaled")


def test_not_written_down(log_of):
    """Its queue ID is not in the book, since a stop came: the log has its envelope ID."""
    it = log_of("A", is_over=False)
    it.write(taken("A"))
    it.found.collector.read()
    it.found.delivery_log.keep()
    it.start()
    expect(it.read(was_sent("A"), removed("A")) == ["sA"], "not attributed")


def test_in_the_book(log_of):
    """A new start goes on behind what it read, and knows a message by the book."""
    it = log_of("A")
    it.read(taken("A"), was_sent("A"))
    it.found.delivery_log.keep()
    position = it.found.delivery_log.follower.kept_position()
    expect(position[1] == len("".join(f"{one}\n" for one in (taken("A"), was_sent("A")))), "it would go on at", position)
    it.start()
    expect(it.read(removed("A")) == ["sA"], "not journaled")


def test_a_journal_that_cannot_be_written(log_of, monkeypatch):
    """What was read is told when it can be written down."""
    it = log_of("A")
    reported = it.found.attempts.reported
    monkeypatch.setattr(it.found.attempts, "reported", lambda *_: 1 / 0)
    with pytest.raises(ZeroDivisionError):
        it.read(taken("A"), was_sent("A"), removed("A"))
    monkeypatch.setattr(it.found.attempts, "reported", reported)
    expect(it.read() == ["sA"], "what was read is lost")


def test_a_late_line(log_of):
    """A line that comes when its attempt was given up counts still."""
    it = log_of("A")
    it.found.attempts.resolved(it.found.attempts.of(envelope_of("A")), [], is_lost=True)
    it.found.names.anywhere = lambda *_: Message("A", "sA", "ann@a.example", (GOOD,), 1)
    it.read(was_sent("A"), removed("A"))
    it.found.collector.take_late("acme")
    expect(it.found.book.unreported("acme") == ["sA"], "a late line is lost")


def test_a_line_is_lost(log_of, monkeypatch):
    """The log does not tell that it has left the queue, and the queue does."""
    it = log_of("A", "B")
    it.read(taken("A"), was_sent("A"), taken("B"))
    queue = type("Queue", (), {"has": lambda *_: False, "oldest_report": float("inf"), "ids": {}})()
    monkeypatch.setattr("hq_relay.postfix.delivering_instance.queue", lambda _: queue)
    monkeypatch.setattr(it.found.settings, "lost_after", 60.0)
    it.found.supervision.look(lambda _: False)
    expect(it.found.book.unreported("acme") == ["sA"], it.found.book.unreported("acme"))
    expect([one.id for one in it.found.attempts.under_way()] == ["B"], "what was not told is held")
    queue.oldest_report = 0.0
    it.read(was_sent("B"))
    it.found.supervision.look(lambda _: False)
    expect([one.id for one in it.found.attempts.under_way()] == ["B"], "a report may lie in the queue")


# ---- the file

LINES = [b"%d line" % it for it in range(20)]


def text_of(lines):
    return b"".join(it + b"\n" for it in lines)


@pytest.fixture
def follower(folder):
    made = []

    def make():
        made.append(LogFollower(folder / "mail.log", folder / "position"))
        return made[-1]
    yield make
    for it in made:
        it.close()


def lines_of(follower):
    return [it for _, some in follower.read() for it in some]


def test_rotated(folder, follower):
    """What comes into the file of the old name, and into the new one, is read once, in order, as it is rotated twice."""
    path, found = folder / "mail.log", follower()
    path.write_bytes(text_of(LINES[:3]) + LINES[3][:2])
    expect(lines_of(found) == LINES[:3], "a line that is not whole")
    os.rename(path, folder / "mail.log.1")
    with open(folder / "mail.log.1", "ab") as file:
        file.write(LINES[3][2:] + b"\n")
        file.flush()
        expect(lines_of(found) == LINES[3:4], "the old file is left too soon")
        path.write_bytes(text_of(LINES[4:5]))
        expect(lines_of(found) == LINES[4:5], "the new file")
        with open(path, "ab") as new:
            new.write(text_of(LINES[5:6]))
        file.write(text_of(LINES[6:7]))
    expect(lines_of(found) == [LINES[6], LINES[5]], "the old file, and then the new one")
    os.rename(folder / "mail.log.1", folder / "mail.log.2")
    os.rename(path, folder / "mail.log.1")
    path.write_bytes(text_of(LINES[7:9]))
    expect(lines_of(found) == LINES[7:9], "rotated twice")
    expect(lines_of(found) == [], "read twice")


def test_a_new_start_behind_a_rotation(folder, follower):
    """There is no file of the name yet: the one before it is read."""
    path = folder / "mail.log"
    path.write_bytes(text_of(LINES[:3]))
    os.rename(path, folder / "mail.log.1")
    found = follower()
    expect(lines_of(found) == LINES[:3] and found.why, "read was something else")
    path.write_bytes(text_of(LINES[3:4]))
    expect(lines_of(found) == LINES[3:4] and not found.why, "the new one is not read")


@pytest.mark.parametrize("rotations", [0, 1, 2])
def test_a_new_start(folder, follower, rotations):
    """It goes on where the last one ended, whatever name that file has by then."""
    path, found = folder / "mail.log", follower()
    path.write_bytes(text_of(LINES[:3]))
    lines_of(found)
    found.keep(found.position())
    with open(path, "ab") as file:
        file.write(text_of(LINES[3:4]))
    at = 4
    for it in range(rotations):
        for number in (2, 1):
            if (folder / f"mail.log.{number}").exists():
                os.rename(folder / f"mail.log.{number}", folder / f"mail.log.{number + 1}")
        os.rename(path, folder / "mail.log.1")
        time.sleep(0.02)
        path.write_bytes(text_of(LINES[at:at + 2]))
        at += 2
    (folder / "mail.log.9.gz").write_bytes(b"packed\n")
    expect(lines_of(follower()) == LINES[3:at], "a new start reads other lines")


def test_a_position_of_nowhere(folder, follower):
    """The file of the last start is gone: the new one is read from its beginning, whatever number it has."""
    path, found = folder / "mail.log", follower()
    path.write_bytes(text_of(LINES[:3]))
    lines_of(found)
    found.keep(found.position())
    path.write_bytes(text_of(LINES[5:7]))
    expect(lines_of(found) == LINES[5:7], "emptied meanwhile")
    expect(lines_of(follower()) == LINES[5:7], "emptied before a new start")
    (folder / "position").write_text("rubbish")
    expect(lines_of(follower()) == LINES[5:7], "without a position")


def test_emptied(folder, follower):
    """Cut back to its own beginning, it is read anew."""
    path, found = folder / "mail.log", follower()
    path.write_bytes(text_of(LINES[:9]))
    lines_of(found)
    path.write_bytes(text_of(LINES[:2]))
    expect(lines_of(found) == LINES[:2], "cut back")


def test_a_line_without_end(folder, follower):
    """It is passed over, in pieces, and the next one is read."""
    path, found = folder / "mail.log", follower()
    path.write_bytes(text_of(LINES[:1]) + b"x" * (3 * PIECE) + b"\n" + text_of(LINES[1:2]))
    expect([it for it in lines_of(found) if len(it) < 100] == LINES[:2], "not passed over")


# ---- whether it is trusted

def trusted(found):
    found.delivery_log.looked = 0.0
    return found.delivery_log.is_trusted()


def test_trust(log_of, logged, monkeypatch):
    """The log is trusted once what was handed over shows up in it, and as long as that does."""
    it = log_of("A")
    it.write(taken("A"))
    expect(not trusted(it.found), "trusted by a line of before")
    it.found.delivery_log.expect(envelope_of("B"))
    expect(not trusted(it.found), "trusted by nothing")
    it.write(taken("B"))
    expect(trusted(it.found), "not trusted")
    monkeypatch.setattr(sent, "LATE", 0.1)
    it.found.delivery_log.expect(envelope_of("C"))
    expect(trusted(it.found), "no patience")
    time.sleep(0.2)
    expect(not trusted(it.found) and not logged, "what is late is trusted", logged)
    it.write(taken("C"))
    expect(trusted(it.found), "not trusted again")
    monkeypatch.setattr(sent, "FRESH", 0.1)
    time.sleep(0.2)
    expect(not trusted(it.found), "trusted for ever")


def test_silence(log_of, logged, monkeypatch):
    """It is told once that the log is silent, and what shows up then proves it again."""
    monkeypatch.setattr(sent, "SILENT", 0.1)
    it = log_of("A")
    for id in "BC":
        it.found.delivery_log.expect(envelope_of(id))
        time.sleep(0.2)
        it.found.collector.read()
        expect(not trusted(it.found) and logged == ["no log of the delivering instance"], logged)
    it.write(taken("C"))
    expect(not trusted(it.found), "trusted by a line of before")
    it.found.delivery_log.expect(envelope_of("D"))
    it.write(taken("D"))
    expect(trusted(it.found), "not trusted again")


def test_a_probe_that_does_not_show_up(log_of, monkeypatch):
    """No other one holds up mail behind it, until mail has shown that the log is there."""
    monkeypatch.setattr(sent, "FOR_A_PROBE", 0.1)
    monkeypatch.setattr(sent, "FRESH", 0.2)
    it = log_of()
    it.found.delivery_log.expect(envelope_of("A"))
    expect(it.found.delivery_log.wants_probe() and not it.found.delivery_log.shows(envelope_of("A")), "no probe is wanted, or it shows up")
    expect(not it.found.delivery_log.wants_probe(), "a probe behind a probe")
    it.found.delivery_log.expect(envelope_of("B"))
    it.write(taken("B"))
    expect(trusted(it.found) and not it.found.delivery_log.wants_probe(), "not trusted")
    time.sleep(0.3)
    expect(it.found.delivery_log.wants_probe(), "what is old is not proved anew")


def test_many_that_do_not_show_up(log_of):
    it = log_of()
    it.found.delivery_log.expect(envelope_of("B"))
    it.write(taken("B"))
    expect(trusted(it.found), "not trusted")
    for at in range(sent.MOST_UNSEEN + 1):
        it.found.delivery_log.expect(f"acme.{at}.1.x")
    expect(not trusted(it.found), "trusted")


def test_no_file(log_of):
    """A log that cannot be read is not trusted, and reports are read all the same."""
    it = log_of("A")
    it.found.delivery_log.expect(envelope_of("B"))
    it.write(taken("B"))
    expect(trusted(it.found), "not trusted")
    it.path.rename(it.path.with_name("gone"))
    expect(not trusted(it.found) and it.found.collector.read() == 0, "trusted without a file")


@pytest.mark.parametrize("recipient, is_plain", [
    ("bob@far.example", True), ("a.b+c=d@far.example", True), ("a..b@far.example", False), (".a@far.example", False),
    ("a:b@far.example", False), ("a!b@far.example", False), ("a%b@far.example", False), ("[a]@far.example", False),
    ("a@far", False)])
def test_addresses(log_of, recipient, is_plain):
    """Postfix's log may have an odd address in another form: a mail tells its success."""
    it = log_of("A", recipients=(GOOD, recipient))
    it.found.delivery_log.expect(envelope_of("B"))
    it.write(taken("B"))
    expect(trusted(it.found) and it.found.delivery_log.is_trusted(it.found.attempts.of(envelope_of("A"))) == is_plain, recipient)
