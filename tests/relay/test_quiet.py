"""Whom the worker asks, and that it asks nobody who has nothing new."""
import time
from collections import Counter

import pytest
from hq_relay.customers import activity as quiet
from hq_relay.desk.client import Away, Refused
from hq_relay.desk.replies import COUNTS, usage_of
from house import PAUSE, Told
from hq_relay.customers.activity import CustomerActivity
from serving import expect, until

# The counts of recipients that left the queue; and a usage without any.
LEFT = ("delivered", "failed", "expired", "deleted")
NOTHING = dict.fromkeys(COUNTS, 0)


class Desk:
    """Tells what each customer has; `during` is done while it counts."""

    def __init__(self, **customers):
        self.customers, self.counts, self.error, self.during = customers, 0, None, lambda: None

    def usages(self):
        self.counts += 1
        if self.error:
            raise self.error
        told = [usage_of({"customer": name, **NOTHING, **more}) for name, more in self.customers.items()]
        self.during()
        return told


def counted(monkeypatch, it):
    """Counts again, however short ago it did."""
    monkeypatch.setattr(it, "counted", float("-inf"))
    it.count()


def mailed(it):
    """All notices are mailed."""
    for name in it.may_have_notices():
        it.mail(name)


def test_first(monkeypatch):
    """Nobody is left out before a count; behind it those with mail may have mail, and all whose notices were never asked for may have
    some."""
    desk = Desk(acme={"messages": 1}, birch={}, cedar={"failed": 2})
    it = CustomerActivity(desk, desk.customers)
    expect(it.may_have_mail() == it.may_have_notices() == {*desk.customers}, "at first", it.may_have_mail(), it.may_have_notices())
    it.count()
    expect(it.may_have_mail() == {"acme"} and it.may_have_notices() == {*desk.customers}, "then", it.may_have_mail())
    it.count()
    expect(desk.counts == 1, "it counts at each look")


def test_notices(monkeypatch):
    """Whose recipients left the queue since the last count may have notices, and who has mail; and who was told of one meanwhile."""
    desk = Desk(acme={"messages": 1}, birch={}, cedar={})
    it = CustomerActivity(desk, desk.customers)
    counted(monkeypatch, it)
    mailed(it)
    it.notice("cedar")
    expect(it.may_have_notices() == {"cedar"}, "meanwhile", it.may_have_notices())
    mailed(it)
    counted(monkeypatch, it)
    expect(it.may_have_notices() == {"acme"}, "with mail", it.may_have_notices())
    for kind in LEFT:
        mailed(it)
        desk.customers["birch"] = {kind: 1}
        counted(monkeypatch, it)
        expect(it.may_have_notices() == {"acme", "birch"}, kind, it.may_have_notices())
    mailed(it)
    counted(monkeypatch, it)
    expect(it.may_have_notices() == {"acme"}, "nothing left the queue", it.may_have_notices())


def test_mail_that_comes_meanwhile(monkeypatch):
    """Mail that is queued while the desk counts is not forgotten, whether or not the count saw it."""
    desk = Desk(acme={}, birch={})
    it = CustomerActivity(desk, desk.customers)
    it.count()
    it.stir("acme")
    expect(it.may_have_mail() == {"acme"}, "behind a count", it.may_have_mail())
    desk.during = lambda: it.stir("birch")
    counted(monkeypatch, it)
    expect(it.may_have_mail() == {"birch"}, "during a count", it.may_have_mail())
    desk.during = lambda: None
    counted(monkeypatch, it)
    expect(not it.may_have_mail(), "behind another one", it.may_have_mail())


@pytest.mark.parametrize("error", [Away("no reply"), Away("no call of all", 404), Refused({"error": 4, "name": "NoRoute"}), KeyError("done")])
def test_a_desk_that_does_not_count(monkeypatch, error):
    """Where the desk does not tell, everybody may have mail, and it is asked again at the next look."""
    desk = Desk(acme={}, birch={})
    it = CustomerActivity(desk, desk.customers)
    it.count()
    desk.error = error
    counted(monkeypatch, it)
    expect(it.may_have_mail() == {"acme", "birch"}, "there may be mail of", it.may_have_mail())
    it.count()
    expect(desk.counts == 3, "it is not asked again")
    desk.error = None
    it.count()
    expect(desk.counts == 4 and not it.may_have_mail(), "it is never told")


def test_between_counts(monkeypatch):
    desk = Desk(acme={})
    it = CustomerActivity(desk, desk.customers)
    it.count()
    later = quiet.time.monotonic() + quiet.BETWEEN_COUNTS
    monkeypatch.setattr(quiet.time, "monotonic", lambda: later - 1)
    it.count()
    expect(desk.counts == 1, "it counts before its time")
    monkeypatch.setattr(quiet.time, "monotonic", lambda: later + 1)
    it.count()
    expect(desk.counts == 2, "it does not count again")


# ---- a whole delivery

class Idle(Told):
    """A desk of many customers, of whom these have mail that is not due. It counts what it is asked."""

    def __init__(self, names, busy=()):
        super().__init__()
        self.names, self.busy, self.asked = names, {*busy}, Counter()

    def ask(self, path, body=None, timeout=None):
        kind, customer = path.split("/")[2], path.rpartition("/")[2]
        self.asked[kind if customer == kind else f"{kind} {customer}"] += 1
        return super().ask(path, body, timeout)

    def hundred(self, body, told):
        at = self.names.index(body["from"]) if body["from"] else 0
        more = self.names[at + 100:]
        return {"done": [{"customer": it, **told(it)} for it in self.names[at:at + 100]], "next": more[0] if more else None, "stopped": None}

    def usage_from_asked(self, body):
        return self.hundred(body, lambda it: {**NOTHING, "messages": int(it in self.busy)})

    def due_from_asked(self, body):
        return self.hundred(body, lambda it: {"due": [], "more": False})


def rested(delivery, desk, seconds=1.5):
    """What the desk is asked while nothing happens, once all were asked of whom nothing was known."""
    until(lambda: desk.asked["notices c000"] and not delivery.activity.may_have_notices(), "notices are never asked for")
    until(lambda: not delivery.is_working(), "it never rests")
    desk.asked.clear()
    end = time.monotonic() + seconds
    while time.monotonic() < end:
        delivery.look()
        time.sleep(PAUSE)
    return Counter(desk.asked)


def begun(delivering, desk):
    it = delivering(desk, *desk.names)
    it.settings.sweep_every = it.settings.clean_every = 0.3
    it.handover.run = lambda: None
    it.look()
    it.begin_turns()
    for thread in it.threads:
        thread.start()
    return it


NAMES = [f"c{number:03}" for number in range(250)]


def test_idle_customers_cost_nothing(delivering):
    """Of customers without mail the desk is asked nothing but a count by hundreds: no list of what is due, no notices, no sweep."""
    desk = Idle(NAMES)
    found = rested(begun(delivering, desk), desk)
    expect(not found, "it was asked", found)


def test_few_with_mail(delivering, monkeypatch):
    """Of these a hundred are asked for what is due, and they alone are swept and cleaned."""
    desk = Idle(NAMES, busy=["c120", "c130"])
    found = rested(begun(delivering, desk), desk)
    expect(found["due-from"] and {it for it in found if it != "due-from"} <= {f"{kind} {name}" for kind in ("messages", "notices", "sweep")
           for name in desk.busy}, "it was asked", found)
    expect(found["sweep c120"] and found["messages c130"], "they are not swept and cleaned:", found)


def test_mail_that_is_queued(delivering):
    """Whose mail was just queued is asked for what is due until the next count, at each look."""
    desk = Idle(NAMES)
    it = begun(delivering, desk)
    rested(it, desk, 0.1)
    it.give_turn("c077")
    until(lambda: desk.asked["due c077"], "it is not asked")
    it.look()
    expect(desk.asked["due-from"] == 1, "it was asked", desk.asked)
