"""The worker's book where it is large, where it cannot be written, and what stands in it at one moment."""
import sqlite3
import time
from types import SimpleNamespace

from hq_relay.notices import mailer as notices
import pytest
from hq_relay.storage.notice_records import MOST_WAITING, OwnNotice
from hq_relay.storage.book import OLD_NAMES, Book, Report
from hq_relay.storage.spool_cleaning import SPARE, SpoolCleaning
from hq_relay.desk.client import QUOTA_BYTES, QUOTA_MESSAGES, Refused
from hq_relay.desk.replies import ListedMessage, OutcomeReply
from hq_relay.storage.attempts import Attempt, Attempts
from house import Sent
from hq_relay.intake.submission import MOST_KEPT, Intake
from hq_relay.intake.incoming import NotTaken
from hq_relay.notices.next_hop import Mailing
from hq_relay.delivery.attempt_supervision import AttemptSupervision
from hq_relay.notices.mailer import NoticeMailer
from hq_relay.outcome import Outcome, Result
from hq_relay.postfix.report_reader import outcome_of
from hq_relay.delivery.outcome_reporter import OutcomeReporter
from serving import expect
from hq_relay.settings_tables import Customer
from hq_relay.storage.spool import Envelope, Spool

GONE = Report("acme", "s1", "1", 1, (Outcome("p@far.example", Result.DELIVERED),))
# Statements that may read all of a table: what the desk was not told yet is told, and goes.
SCANS = {"SELECT DISTINCT customer FROM journal"}


def attempt(customer="acme", number=1, **more):
    return Attempt(f"{customer}.{number}.1.x", customer, f"s{number}", str(number), 1, ["p@far.example"], "ann@a.example", 1.0, **more)


def used(book):
    """All that the worker asks of its book, once."""
    handed = Attempts(book)
    handed.about([attempt(), attempt(number=2), attempt(number=3)])
    handed.over({"acme.1.1.x": "4F"}, ["acme.3.1.x"])
    handed.moved(attempt(), "7", 2)
    handed.reported({"acme.1.1.x": [Outcome("p@far.example", Result.DELIVERED)]})
    handed.resolved(attempt(number=2), [Outcome("p@far.example", Result.FAILED)], True)
    for it in (handed.under_way, lambda: handed.lying("acme"), lambda: handed.of("x"), lambda: handed.last_of("s1"),
               lambda: handed.spools_under_way("acme"), lambda: handed.is_under_way("acme", "s1"),
               lambda: handed.find("spool = ? AND customer = ? AND done IS NULL", "s1", "acme"), lambda: handed.forget(0.0)):
        it()
    book.taken("acme", "s1", "1", "250", 100)
    book.named("acme", "1", "s1")
    book.all_reported([(GONE, True)])
    book.attempted(GONE)
    book.moved(GONE)
    for it in (lambda: book.answer("s1"), lambda: book.spool_of("acme", "1"), lambda: book.all_mailed("acme"), lambda: book.is_finished("s1"),
               lambda: book.uncleaned("acme"), lambda: book.kept("acme"), lambda: book.gone(["s1"], 5), lambda: book.cleaned(["s1"]),
               lambda: book.report("acme", "s1"), lambda: book.unreported("acme"), book.all_unreported, lambda: book.reported(GONE),
               lambda: book.last_notice("acme"), lambda: book.mailing("acme", 3), lambda: book.begun("acme"), lambda: book.mailed("acme", 3),
               lambda: book.set_aside("acme", 4, "q@a.example", b"x"), lambda: book.waiting("acme"), lambda: book.content_of("acme/4"),
               lambda: book.tried("acme/4", 5.0), lambda: book.waited("acme/4"), lambda: book.set_back("acme", 1),
               lambda: book.has_any("acme"), lambda: book.forget_messages("birch", []), lambda: book.forget("acme", set(), 1e12),
               lambda: book.forget_customer("acme")):
        it()


def test_no_scan(folder):
    """No statement reads all of a table that grows: SQLite says how it would do each, whatever stands in the tables."""
    book, statements = Book(folder), set()
    book.database().set_trace_callback(statements.add)
    used(book)
    book.database().set_trace_callback(None)
    asked = {it for it in statements if it.split()[0] in ("SELECT", "UPDATE", "DELETE", "INSERT")}
    expect(len(asked) > 40, "only these were asked:", asked)
    found = []
    for it in asked:
        plan = " / ".join(row[3] for row in book.database().execute(f"EXPLAIN QUERY PLAN {it}"))
        # (an index of what is under way alone has few rows, whatever the table has)
        if "SCAN" in plan and it not in SCANS and plan != "SCAN handed USING INDEX under_way":
            found.append((it, plan))
    expect(not found, "these scan:", found)
    plan = str(book.database().execute(f"EXPLAIN QUERY PLAN {OLD_NAMES}", ("acme", 1)).fetchall())
    expect("cleaned (customer=? AND at<?)" in plan and "SCAN" not in plan, plan)


def test_a_book_of_before(folder):
    """One without the bytes of contents gets them, and keeps what it has."""
    with sqlite3.connect(folder / "book.db") as old:
        old.execute("CREATE TABLE names (spool TEXT PRIMARY KEY, customer TEXT NOT NULL, answer TEXT NOT NULL, at INTEGER NOT NULL, "
                    "finished INTEGER NOT NULL DEFAULT 0, gone INTEGER, cleaned INTEGER NOT NULL DEFAULT 0)")
        old.execute("INSERT INTO names (spool, customer, answer, at) VALUES ('s1', 'acme', '250 ok', 7)")
    old.close()
    book = Book(folder)
    book.taken("acme", "s2", "2", "250", 40)
    expect(book.answer("s1") == "250 ok" and book.kept("acme").bytes == 40 and len(book.uncleaned("acme")) == 2, book.uncleaned("acme"))
    book.close()
    expect(Book(folder).kept("acme").bytes == 40, "a second start loses it")


# ---- what cannot be written is not mailed

class Hop:
    def __init__(self, answer=Mailing.DONE):
        self.mailed, self.why, self.answer = [], "", answer

    def mail(self, recipient, content):
        self.mailed.append(recipient)
        return self.answer


def noticing(folder):
    book = Book(folder)
    book.set_aside("acme", 1, "ann@a.example", b"content")
    settings = SimpleNamespace(host="relay.example", notices_from="M@relay.example", pause=0.0)
    return NoticeMailer(settings, None, Spool(folder), Attempts(book), None), book


def fails(*_):
    raise sqlite3.OperationalError("database or disk is full")


def waiting_is_due(monkeypatch):
    monkeypatch.setattr(notices, "next_try", lambda waiting: 0.0)


def test_a_notice_that_waits_while_the_book_is_full(folder, monkeypatch):
    """It is mailed once, though the book cannot say so for long; and not at all where it cannot say that it is tried."""
    found, book = noticing(folder)
    waiting_is_due(monkeypatch)
    hop = Hop()
    with monkeypatch.context() as full:
        full.setattr(book, "tried", fails)
        for _ in range(3):
            with pytest.raises(sqlite3.Error):
                found.send_waiting("acme", hop)
    expect(hop.mailed == [], "mailed was", hop.mailed)
    with monkeypatch.context() as full:
        full.setattr(book, "waited", fails)
        for _ in range(15):
            with pytest.raises(sqlite3.Error):
                found.send_waiting("acme", hop)
    expect(hop.mailed == ["ann@a.example"], "mailed was", hop.mailed)
    found.send_waiting("acme", hop)
    expect(hop.mailed == ["ann@a.example"] and not book.waiting("acme"), "mailed was", hop.mailed)


def test_a_notice_that_waits_and_is_refused_for_now(folder, monkeypatch):
    """It waits for its next time."""
    found, book = noticing(folder)
    waiting_is_due(monkeypatch)
    found.send_waiting("acme", Hop(Mailing.ASIDE))
    expect([it.tried > 0 for it in book.waiting("acme")] == [True], book.waiting("acme"))


# ---- notices of deliveries

def wanting(folder, spool="s1"):
    """A message whose sender wants to hear of its delivery."""
    kept = Spool(folder)
    draft = kept.draft(Envelope("acme", spool, "ann@a.example", "p@far.example", notify="SUCCESS"))
    draft.write(b"Subject: s\r\n\r\nhi\r\n")
    kept.keep(draft, spool)
    return kept


def test_a_notice_of_success_is_queued_with_its_outcome(folder):
    """At the moment at which the outcome is journaled, and once: whatever comes between that and the desk."""
    found, book = noticing(folder)
    wanting(folder)
    handed = found.attempts
    handed.about([attempt()])
    handed.over({"acme.1.1.x": "4F"}, [])
    told = [Outcome("p@far.example", Result.DELIVERED, "2.0.0", "ok", "mx.far.example")]
    for _ in range(2):
        handed.reported({"acme.1.1.x": told})
    names = [it.name for it in book.waiting("acme")]
    expect(names == ["acme/1", "acme/s1/1"] and book.unreported("acme") == ["s1"], "waiting are", names)
    text = book.content_of("acme/s1/1")
    expect(b"Action: relayed" in text and b"Remote-MTA: dns; mx.far.example" in text and b"Last-Attempt-Date: " in text, "it says", text)
    desk = SimpleNamespace(outcome=lambda *_: Sent(lambda: OutcomeReply("done", 0)))
    reports = OutcomeReporter(desk, book, None, found)
    for _ in range(2):
        reports.report("acme", ["s1"])
    expect([it.name for it in book.waiting("acme")] == names, "told again it is", book.waiting("acme"))


def test_too_many_wait(folder):
    """No more notices of deliveries wait than may; the outcome is told all the same."""
    book = Book(folder)
    with book.writing() as database:
        for it in range(MOST_WAITING + 1):
            book.wait_with(database, "acme", OwnNotice(f"n{it}", "ann@a.example", b""))
        book.journal(database, GONE, OwnNotice("last", "ann@a.example", b""))
    expect(len(book.waiting("acme")) == MOST_WAITING and book.unreported("acme") == ["s1"], len(book.waiting("acme")))


# ---- what is under way

class Names:
    def anywhere(self, customer, spool, id):
        return None


def looking(handed, states, taken_back, queue):
    desk = SimpleNamespace(messages=lambda customer: [ListedMessage(id, 0, state) for id, state in states.items()])
    settings = SimpleNamespace(customers={"acme": None}, lost_after=60.0, settle_after=60.0, pause=1.0)
    found = AttemptSupervision(settings, desk, handed, Names(), lambda: 0, lambda attempt: None, lambda attempt, outcomes: None,
                    lambda customer: None, lambda known: None)
    found.still_lies = lambda attempt: queue == "deferred"
    found.take_one_back = lambda it: taken_back.append((it.id, queue))
    return found


@pytest.mark.parametrize("queue, state, is_taken", [
    ("deferred", "hold", True), ("incoming", "hold", False), ("active", "hold", False), ("incoming", "incoming", False),
    ("deferred", None, True), ("incoming", None, True), ("active", None, True)])
def test_what_is_taken_back(folder, queue, state, is_taken):
    """What is held goes back from where nobody can be sending it, also where Postfix was told to read its files again just now;
    what is deleted goes from anywhere."""
    taken = []
    found = looking(Attempts(Book(folder)), {"1": state} if state else {}, taken, queue)
    found.lying = {"acme": [(attempt(queue_id="4F"), queue)]}
    found.take_back("acme")
    expect(taken == ([("1", queue)] if is_taken else []), "taken back was", taken)
    found.take_back("acme")
    expect(len(taken) == is_taken, "it is taken back twice")


def test_a_hold_behind_an_old_look(folder):
    """What was deferred as the queue was looked at, and is being sent as its customer's list is there, stays."""
    taken = []
    found = looking(Attempts(Book(folder)), {"1": "hold"}, taken, "deferred")
    found.lying, found.still_lies = {"acme": [(attempt(queue_id="4F"), "deferred")]}, lambda attempt: False
    found.take_back("acme")
    expect(not taken, "taken back was", taken)


def group(status, text="host mx.far.example[192.0.2.1] said: no", kind="smtp", action="failed"):
    return {"Action": action, "Status": status, "Diagnostic-Code": f"{kind}; {text}", "Final-Recipient": "rfc822; p@far.example"}


@pytest.mark.parametrize("status, kind, text, result, told, unreached", [
    ("5.92.1", "smtp", "450 4.2.1 later", "deferred", "4.2.1", ""),
    ("5.90.1", "smtp", "450 4.100.1 later", "deferred", "4.0.1", ""),
    ("5.0.1", "smtp", "550 5.90.1 no", "failed", "5.0.1", ""),
    ("5.94.1", "x-postfix", "connect to mx[192.0.2.1]:25: Connection refused", "deferred", "4.4.1", "domain"),
    ("5.94.2", "x-postfix", "lost connection with mx[192.0.2.1] while receiving the initial server greeting", "deferred", "4.4.2", "domain"),
    ("5.94.2", "x-postfix", "conversation with mx[192.0.2.1] timed out while performing the EHLO handshake", "deferred", "4.4.2", "domain"),
    ("5.94.2", "x-postfix", "lost connection with mx[192.0.2.1] while sending message body", "deferred", "4.4.2", "customer alone"),
    ("5.94.2", "x-postfix", "conversation with mx[192.0.2.1] timed out while sending RCPT TO", "deferred", "4.4.2", "customer alone"),
    ("5.94.2", "x-postfix", "lost connection with mx[192.0.2.1] while sending end of data -- message may be sent more than once", "deferred",
     "4.4.2", "customer alone"),
    ("5.94.2", "smtp", "421 4.4.2 idle", "deferred", "4.4.2", ""),
])
def test_what_a_report_says(status, kind, text, result, told, unreached):
    """Of a host that refuses for now, for good, or by a code of its own; and whom an attempt did not reach: the domain, or this
    customer's message alone, where its session was cut."""
    found = outcome_of(group(status, text, kind).get)
    expect((found.result, found.status, found.unreached) == (result, told, unreached), status, text, found)


# ---- what a customer deletes

class Queued:
    def __init__(self, *names):
        self.names = names

    def queued(self, customer):
        return {str(number): it for number, it in enumerate(self.names)}


def kept(folder, customer_bytes, **gone):
    """A spool that keeps 100 bytes of each of these, which are gone since a moment; and its book."""
    book, spool = Book(folder), Spool(folder)
    for name, since in gone.items():
        wanting(folder, name)
        book.taken("acme", name, "1", "250", 100)
        book.gone([name], since)
    settings = SimpleNamespace(customers={"acme": Customer("acme", 10, customer_bytes, 10)}, keep_days=7.0)
    return settings, book, spool


@pytest.mark.parametrize("customer_bytes, left", [(1000, "abcd"), (300, "bcd"), (250, "cd"), (100, "d"), (50, "")])
def test_what_is_deleted_and_kept(folder, customer_bytes, left):
    """Of what is gone as many bytes stay as the customer's quota has; what went first goes first. What is queued stays."""
    now = int(time.time())
    settings, book, spool = kept(folder, customer_bytes, a=now - 400, b=now - 300, c=now - 200, d=now - 100, queued=None)
    SpoolCleaning(settings, spool, book, Queued("queued")).clean("acme", set())
    expect(spool.names() == [*left, "queued"] and book.kept("acme") == (len(left) + 1, 100 * (len(left) + 1)), "left are", spool.names())


def test_too_much_is_kept(folder):
    """The intake takes no more of a customer of whom more than twice its quota is kept; others' mail comes in."""
    settings, book, spool = kept(folder, 100, a=1, b=2)
    settings.processes, settings.connections, settings.policy = 1, 50, None
    intake = Intake(settings, None, spool, book, set())
    intake.expect_room("acme", 100)
    book.taken("acme", "c", "3", "250", 100 * MOST_KEPT)
    with pytest.raises(NotTaken, match="^452 4.2.2 "):
        intake.expect_room("acme", 100)
    settings.customers["birch"] = Customer("birch", 10, 1, 10)
    intake.expect_room("birch", 100)


def test_too_many_are_kept(folder):
    """However small its mail is, the intake takes no more of a customer of whom more than twice its messages are kept, with some
    to spare; and a clean-up removes those that left first, down to once that."""
    settings, book, spool = kept(folder, 1_000_000)
    settings.processes, settings.connections, settings.policy = 1, 50, None
    settings.customers["acme"] = Customer("acme", 10, 1_000_000, 10)
    intake = Intake(settings, None, spool, book, set())
    for number in range(MOST_KEPT * (10 + SPARE)):
        book.taken("acme", f"s{number:05}", str(number), "250", 1)
    intake.expect_room("acme", 1)
    book.taken("acme", "one-more", "0", "250", 1)
    with pytest.raises(NotTaken, match="^452 4.2.2 "):
        intake.expect_room("acme", 1)
    cleaning = SpoolCleaning(settings, spool, book, Queued())
    cleaning.clean("acme", set())
    expect(book.kept("acme") == (10 + SPARE, 10 + SPARE), "kept are", book.kept("acme"))
    intake.expect_room("acme", 1)


def test_sums_of_what_is_kept(folder):
    """What is kept is added up, however names come and go, also of a book that was begun before there were sums."""
    book = Book(folder)
    for number in range(5):
        book.taken("acme", f"s{number}", str(number), "250", 10 + number)
    book.taken("acme", "s0", "0", "250", 999)
    book.taken("birch", "b", None, "550", 7)
    book.cleaned(["s1"])
    with book.writing() as database:
        database.execute("UPDATE names SET finished = 2 WHERE spool = 's2'")
    expect(book.kept("acme") == (3, 10 + 13 + 14) and book.kept("birch") == (0, 0), book.kept("acme"), book.kept("birch"))
    with book.writing() as database:
        for it in ("insert", "delete", "before", "after"):
            database.execute(f"DROP TRIGGER sums_{it}")
        database.execute("DROP TABLE sums")
    book.close()
    again = Book(folder)
    expect(again.kept("acme") == (3, 37), "a book of before has", again.kept("acme"))
    again.cleaned(["s0", "s3", "s4"])
    expect(again.kept("acme") == (0, 0), "then it has", again.kept("acme"))


@pytest.mark.parametrize("number, name, sizes", [(QUOTA_MESSAGES, "QuotaMessages", {0: False, 10: False, 500: False}),
                                                 (QUOTA_BYTES, "QuotaBytes", {0: True, 10: True, 99: True, 100: False, 500: False})])
def test_a_full_quota(folder, number, name, sizes):
    """For a moment what has no room in a quota is refused before it is written: all, or what is as large as that which had none.
    Others' mail comes in, and behind that moment its own."""
    settings, book, spool = kept(folder, 1000)
    settings.processes, settings.connections, settings.policy = 1, 50, None
    settings.customers["birch"] = settings.customers["acme"]
    intake = Intake(settings, None, spool, book, set())
    answer = intake.refused(Envelope("acme", "s", "ann@a.example", "p@far.example"), Refused({"error": number, "name": name}), 100)
    for size, may in sizes.items():
        intake.expect_room("birch", size)
        if may:
            intake.expect_room("acme", size)
        else:
            with pytest.raises(NotTaken, match=f"^{answer}$"):
                intake.expect_room("acme", size)
    intake.full["acme"] = intake.full["acme"]._replace(until=time.monotonic())
    intake.expect_room("acme", 500)
