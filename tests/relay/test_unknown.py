"""What the worker does with what nobody knows, or cannot be read now: a late message without its content, a desk that hangs, a broken file."""
import time
from types import SimpleNamespace

from hq_relay.postfix import delivering_instance as instance
import pytest
from hq_relay.storage.attempts import Attempt
from house import GOOD, SOON, Told
from serving import expect
from hq_relay.storage.spool import Envelope


class Late(Told):
    """A desk with a message that a sweep would give up, in this state."""

    def __init__(self, state):
        super().__init__()
        self.state, self.swept = state, 0

    def messages_asked(self, body):
        return {"messages": [] if body["after"] else [{"id": "A", "arrival": 1, "state": self.state}]}

    def message_asked(self, body):
        return {"id": "A", "spool": "sA", "sender": "ann@a.example", "arrival": 1, "pending": [], "attempts": 0}

    def sweep_asked(self, body):
        self.swept += 1
        return super().sweep_asked(body)


@pytest.mark.parametrize("state, is_kept, swept", [("deferred", True, 1), ("deferred", False, 0), ("incoming", False, 0), ("hold", False, 1)])
def test_late_mail_without_its_content(delivering, logged, state, is_kept, swept):
    """Nobody knows whether it was delivered: it is not given up, and that is told. What is on hold is given up by no sweep."""
    found = delivering(Late(state))
    if is_kept:
        found.cleaning.spool.keep(found.cleaning.spool.draft(Envelope("acme", "sA", "ann@a.example", GOOD)), "sA")
    found.sweeper.sweep("acme")
    expect(found.desk.swept == swept and logged == ["not given up: content is missing"] * (not swept), found.desk.swept, logged)


def test_a_late_report_behind_another(delivering, monkeypatch):
    """One that comes while another one of its customer is fitted is fitted too, and its file goes."""
    found = delivering(Told())
    discarded, moved = [], []
    monkeypatch.setattr(found.collector, "discard", discarded.append)
    for it in "AB":
        found.attempts.about([Attempt(f"acme.{it}.1.e", "acme", f"s{it}", it, 1, [GOOD], "ann@a.example", time.time())])
        found.attempts.resolved(found.attempts.of(f"acme.{it}.1.e"), [], is_lost=True)

    def move(lost, reports):
        moved.append(lost.id)
        if lost.id == "A":
            found.collector.set_apart({"acme.B.1.e": [], "acme.A.1.e": []}, {"acme.B.1.e": ["fileB"], "acme.A.1.e": ["fileC"]}, {})

    monkeypatch.setattr(found.collector, "move", move)
    found.collector.set_apart({"acme.A.1.e": []}, {"acme.A.1.e": ["fileA"]}, {})
    found.collector.take_late("acme")
    expect((moved, discarded, found.catching_up.waiting) == (["A"], ["fileA"], {"acme"}), moved, discarded)
    monkeypatch.setattr(found.collector, "move", lambda lost, reports: moved.append(lost.id))
    found.collector.take_late("acme")
    expect(sorted(moved) == ["A", "A", "B"] and sorted(discarded) == ["fileA", "fileB", "fileC"], moved, discarded)
    expect(not found.collector.late_files() and not found.collector.late["acme"], found.collector.late)


def test_reports_while_a_desk_hangs(delivering, monkeypatch):
    """What lies in the queue is compared with the desk's list in a turn of its own: reports are read meanwhile."""
    found = delivering(Told())
    found.desk.gate.clear()
    monkeypatch.setattr(instance, "queue", lambda _: SimpleNamespace(has=lambda *_: True, ids={"F00D": "active"}, oldest_report=0.0))
    found.attempts.about([Attempt("acme.A.1.e", "acme", "sA", "A", 1, [GOOD], "ann@a.example", time.time())])
    found.attempts.over({"acme.A.1.e": "F00D"}, [])
    found.begin_turns()
    begun = time.monotonic()
    found.see_after(0.0)
    expect(found.desk.is_listing.wait(SOON) and time.monotonic() - begun < SOON / 2, "reports wait for a desk")
    expect(found.catching_up.waiting == {"acme"}, found.catching_up.waiting)


class Sessions:
    """A session with the delivering instance, which takes all that is sent."""

    def __init__(self):
        self.sent, self.has_ident = [], False

    def send(self, attempt, kept, is_by_log):
        self.sent.append(attempt.id)
        return f"4F{attempt.id}"

    def is_alive(self):
        return True


def test_a_content_that_cannot_be_read(delivering, logged, monkeypatch):
    """Its message alone is deferred; those beside it are handed over."""
    found, session = delivering(Told()), Sessions()
    monkeypatch.setattr(found.handover, "session", lambda: session)
    due = [Attempt(f"acme.{it}.1.e", "acme", f"s{it}", it, 1, [GOOD], "ann@a.example", time.time()) for it in "ABC"]
    for it in due:
        draft = found.handover.spool.draft(Envelope("acme", it.spool, "ann@a.example", GOOD))
        found.handover.spool.keep(draft, it.spool)
    opened = found.handover.spool.opened

    def broken(spool):
        if spool == "sB":
            raise OSError(5, "Input/output error")
        return opened(spool)

    monkeypatch.setattr(found.handover.spool, "opened", broken)
    found.attempts.about(due)
    found.handover.hand_over(due)
    expect(session.sent == ["A", "C"] and logged == ["content missing"], session.sent, logged)
    expect(found.book.unreported("acme") == ["sB"] and [it.id for it in found.attempts.under_way()] == ["A", "C"], found.book.unreported("acme"))
