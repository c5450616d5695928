"""When outcomes are told that come while the customer's notices are mailed, that want room for a notice, or that the desk refuses;
and when customers are swept and cleaned while a mailing hangs.

A whole delivery works, with its threads and its book. The desk and the next hop of notices are the test's, and no Postfix runs.
"""
import threading
import time
from types import SimpleNamespace

from hq_relay.postfix import delivering_instance as instance
import pytest
from hq_relay.outcome import Outcome, Result
from hq_relay.storage.book import Report
from hq_relay.storage.attempts import Attempt
from house import BAD, GOOD, SOON, WHILE, House, Told
from hq_relay.notices.next_hop import Mailing
from serving import expect, until


@pytest.fixture
def keeping(delivering, monkeypatch):
    """Makes a delivery of three customers, each with a content to be cleaned up. `nobodys` are those whose content was left as
    what belongs to nobody was cleaned up."""
    def make(desk):
        found = delivering(desk, "acme", "birch", "cedar")
        for it in found.settings.customers:
            found.book.taken(it, f"s-{it}", None, "250 2.0.0 delivered")
        found.nobodys = []
        monkeypatch.setattr(found.cleaning, "clean_unknown", lambda customers: found.nobodys.append(left(found)))
        return found
    return make


def outcome(recipient, result):
    return Outcome(recipient, Result(result), "5.1.1", "no")


def comes(found, id, recipient, result):
    """An outcome is journaled, and a turn of telling it given, as when its report was read."""
    found.book.attempted(Report("acme", f"s{id}", id, 1, (outcome(recipient, result),)))
    found.reporting.add("acme")


def left(found):
    """The customers whose content was not cleaned up."""
    return [it for it in found.settings.customers if found.book.uncleaned(it)]


def kept(found):
    """Who was swept, whose content is left, and whose was as what belongs to nobody was cleaned up."""
    return found.desk.swept, left(found), found.nobodys


def begun(work):
    """A thread of the test's own, which does this."""
    thread = threading.Thread(target=work, daemon=True)
    thread.start()
    return thread


@pytest.mark.parametrize("answer, mailed", [(Mailing.LATER, 0), (OSError("disk full"), 0), (Mailing.DONE, 1)])
def test_an_outcome_that_comes_during_a_mailing(delivering, hops, answer, mailed):
    """It is told when that ends, whether or not the notice was mailed; no look comes between."""
    found = delivering(Told(1))
    hops.answer = answer
    found.begin_turns()
    found.mailing.add("acme")
    expect(hops.is_asked.wait(SOON), "no notice is mailed")
    comes(found, "A", GOOD, "delivered")
    found.reporting.wait()
    expect(not found.desk.told, "told beside a mailing", found.desk.told)
    hops.gate.set()
    until(lambda: found.desk.told, "not told behind a mailing", SOON)
    found.wait()
    expect((found.desk.told, found.book.unreported("acme"), found.book.last_notice("acme")) == (["A"], [], mailed), found.desk.told)


def test_an_outcome_that_comes_during_a_sweep(delivering):
    """It is told when that ends. (No notice is mailed meanwhile.)"""
    found = delivering(Told())
    found.desk.gate.clear()
    found.reporting.start()
    sweeping = begun(lambda: found.chores(["acme"], {"acme"}, set(), True))
    expect(found.desk.is_listing.wait(SOON), "nothing is swept")
    comes(found, "A", GOOD, "delivered")
    found.reporting.wait()
    expect(not found.desk.told, "told beside a sweep", found.desk.told)
    found.desk.gate.set()
    sweeping.join(SOON)
    until(lambda: found.desk.told, "not told behind a sweep", SOON)


def test_an_outcome_that_is_refused(delivering, logged):
    """It is told once for each turn that it is given: telling and mailing do not go round by themselves."""
    found = delivering(Told())
    found.desk.refuses = True
    found.begin_turns()
    for count in (1, 2):
        comes(found, "A", GOOD, "delivered")
        until(lambda: len(found.desk.told) >= count, "not told", SOON)
        time.sleep(WHILE)
        expect(found.desk.told == ["A"] * count and logged == ["outcome refused"] * count, len(found.desk.told), logged[:9])


def test_a_round_with_an_outcome_that_is_refused(delivering):
    """`deliver --once` has an end."""
    found = delivering(Told())
    found.desk.refuses = True
    comes(found, "A", GOOD, "delivered")
    round_of = begun(found.once)
    round_of.join(SOON)
    expect(not round_of.is_alive() and len(found.desk.told) < 5, "the round does not end", len(found.desk.told))


def test_a_failure_without_room_for_its_notice(delivering, hops, logged):
    """It is told when the notices before it were mailed, and its own is mailed then."""
    found = delivering(Told(1))
    found.begin_turns()
    comes(found, "A", BAD, "failed")
    expect(hops.is_asked.wait(SOON), "no notice is mailed")
    expect(not found.desk.told and logged == ["no room for a notice"], found.desk.told, logged)
    hops.gate.set()
    until(lambda: found.book.last_notice("acme") == 2, "not mailed", SOON)
    expect(found.desk.told == ["A"] and len(logged) == 1, found.desk.told, logged)


def test_a_failure_without_room_while_the_hop_is_away(delivering, hops, logged):
    """It has no turn until the next hop takes notices."""
    found = delivering(Told(1))
    hops.answer = Mailing.LATER
    hops.gate.set()
    found.begin_turns()
    comes(found, "A", BAD, "failed")
    expect(hops.is_asked.wait(SOON), "no notice is mailed")
    time.sleep(WHILE)
    expect(not found.desk.told and logged == ["no room for a notice"], found.desk.told, logged)
    hops.answer = Mailing.DONE
    found.mailing.add("acme")
    until(lambda: found.book.last_notice("acme") == 2, "not mailed", SOON)
    expect(found.desk.told == ["A"], found.desk.told)


def test_a_round_with_an_attempt_that_is_lost(delivering, hops, monkeypatch):
    """What was known of some of its recipients is told in that round."""
    found = delivering(Told())
    hops.gate.set()
    monkeypatch.setattr(instance, "queue", lambda _: SimpleNamespace(has=lambda *_: False, oldest_report=float("inf")))
    found.attempts.about([Attempt("acme.A.1.e", "acme", "sA", "A", 1, [GOOD, BAD], "ann@a.example", time.time())])
    found.attempts.over({"acme.A.1.e": "F00D"}, [])
    found.attempts.reported({"acme.A.1.e": [outcome(GOOD, "delivered")]})
    expect(found.once() and found.desk.told == ["A"] and not found.book.unreported("acme"), found.desk.told)


@pytest.mark.parametrize("answer, uncleaned", [(Mailing.DONE, []), (Mailing.LATER, ["acme"])])
def test_house_while_a_mailing_hangs(keeping, hops, answer, uncleaned):
    """The others are swept and cleaned meanwhile. That customer is soon behind it, without another sweep of the others, but its
    content stays where the notice still waits. What belongs to nobody is cleaned up at last."""
    found = keeping(House(1))
    hops.answer = answer
    found.begin_turns()
    found.mailing.add("acme")
    expect(hops.is_asked.wait(SOON), "no notice is mailed")
    for it in found.threads:
        it.start()
    meanwhile = ["birch", "cedar"], ["acme"], []
    until(lambda: kept(found) == meanwhile, "a mailing that hangs holds up the others", SOON / 2)
    time.sleep(WHILE)
    expect(kept(found) == meanwhile, kept(found))
    hops.gate.set()
    behind = ["birch", "cedar", "acme"], uncleaned, [uncleaned]
    until(lambda: kept(found) == behind, "who was passed over does not come again", SOON / 2)
    time.sleep(WHILE)
    expect(kept(found) == behind, kept(found))


def test_house_while_a_notice_of_a_sweep_hangs(keeping, hops):
    """The others are swept and cleaned meanwhile, and it is mailed at last."""
    found = keeping(House(makes=1))
    found.start()
    wanted = ["acme", "birch", "cedar"], [], [[]]
    until(lambda: kept(found) == wanted, "a notice of a sweep holds up the others", SOON / 2)
    expect(hops.is_asked.wait(SOON) and not found.book.last_notice("acme"), "the notice is not under way")
    hops.gate.set()
    until(lambda: found.book.last_notice("acme") == 1, "the notice is not mailed", SOON)
    expect(kept(found) == wanted, kept(found))


def test_house_while_notices_wait(keeping, hops, logged):
    """A sweep that would push them out, and clean-up, are tried once: their customer comes again by the timers alone."""
    found = keeping(House(1, 2))
    hops.answer = Mailing.LATER
    hops.gate.set()
    found.start()
    wanted = ["birch", "cedar"], ["acme"], [["acme"]]
    until(lambda: kept(found) == wanted, "the others are not kept", SOON)
    time.sleep(WHILE)
    expect(kept(found) == wanted and logged == ["not swept: notices or outcomes wait"], kept(found), logged)


def test_house_while_the_desk_is_away(keeping, logged):
    """A sweep that failed is tried again by the timers alone, and what belongs to nobody is not cleaned up."""
    found = keeping(House(is_away=True))
    found.start()
    wanted = ["acme", "birch", "cedar"], [], []
    until(lambda: kept(found) == wanted, "the others are not kept", SOON)
    time.sleep(WHILE)
    expect(kept(found) == wanted and logged == ["desk away"], kept(found), logged)


def test_a_round_with_a_lock_that_something_has(keeping):
    """`deliver --once` waits for it, and sweeps and cleans everybody."""
    found = keeping(House())
    with found.locks["birch"]:
        round_of = begun(found.once)
        until(lambda: found.desk.swept, "the round sweeps nobody", SOON)
        time.sleep(WHILE)
        expect(round_of.is_alive() and found.desk.swept == ["acme"], kept(found))
    round_of.join(SOON)
    expect(not round_of.is_alive() and kept(found) == (["acme", "birch", "cedar"], [], [[]]), kept(found))
