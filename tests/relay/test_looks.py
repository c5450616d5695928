"""Who gets a turn by a look at all customers, and what a turn leaves that fails behind its first page."""
import time
from types import SimpleNamespace

from hq_relay import log
import pytest
from hq_relay.desk.replies import due_message_of
from hq_relay.desk.client import NO_ROUTE, Away, Desk, Refused
from hq_relay.delivery.handover import LOOK_SECONDS, ROUNDS_ALONE, Handover
from hq_relay.delivery.destinations import UNPROVEN, Destinations
from serving import expect

NAMES = ["acme", "birch", "cedar"]
STOPPED, NOT_TOLD = "due of all stopped", "due of all not told"


def entry(number):
    return {"attempt": 1, "id": f"{number:010X}", "recipients": ["p@far.example"], "sender": "ann@a.example", "spool": f"s{number}"}


def part(name, *numbers):
    return {"customer": name, "due": [entry(it) for it in numbers], "more": False}


def told(*parts, next=None, stopped=None):
    return {"done": [*parts], "next": next, "stopped": stopped and {"customer": stopped, "error": 91, "name": "Disk"}}


class Told(Desk):
    """A desk that tells what it is told to, in turn, or fails so. `starts` has the customers from which it was asked."""

    def __init__(self, *answers):
        self.answers, self.starts = [*answers], []

    def ask(self, path, body=None, timeout=None):
        expect(path == "/relay/due-from" and timeout == LOOK_SECONDS, "asked was", path, timeout)
        self.starts.append(body["from"])
        answer = self.answers.pop(0)
        if isinstance(answer, Exception):
            raise answer
        return answer


class Turns:
    def __init__(self, rests=()):
        self.rests, self.added = dict.fromkeys(rests, 0.0), []

    def add(self, customer):
        self.added.append(customer)


def looking(desk, rests=()):
    settings = SimpleNamespace(customers=dict.fromkeys(NAMES), desks={}, has_several_desks=False, sessions=1, pause=1.0)
    found = Handover(settings, desk, None, SimpleNamespace(book=None), None, None, None)
    found.turns = Turns(rests)
    return found


def turns_of(found):
    found.turns.added = []
    found.look()
    return found.turns.added


@pytest.fixture
def logged(monkeypatch):
    """The events of the level error, as they are logged."""
    lines = []
    monkeypatch.setattr(log, "error", lambda event, **words: lines.append(event))
    return lines


@pytest.mark.parametrize("answer, rests, wanted", [
    (told(part("acme", 1), part("birch"), part("cedar", 7)), [], ["acme", "cedar"]),
    (told(part("acme"), part("birch"), part("cedar")), ["birch"], ["birch"]),
    (told(part("acme"), part("birch"), next="cedar", stopped="cedar"), [], ["cedar"]),
    (told(part("acme"), part("birch"), part("cedar"), part("dogwood", 1)), [], []),
    (Away("/relay/due-from"), [], NAMES),
    (Refused({"error": NO_ROUTE, "name": "NoRoute"}), [], NAMES),
    ({"done": [{"customer": "acme"}], "stopped": None}, [], NAMES),
    ({"done": [part("acme", 1), part("birch")], "stopped": None}, [], ["acme", "cedar"]),
    ([], [], NAMES),
])
def test_who_gets_a_turn(answer, rests, wanted):
    """All but those of whom nothing is due; those too who were not reached, or whose last turn failed. Behind a reply that tells
    no `next` nobody is reached."""
    desk = Told(answer)
    found = turns_of(looking(desk, rests))
    expect(found == wanted and desk.starts == [None], answer, found, desk.starts)


@pytest.mark.parametrize("answers, starts, wanted, events", [
    ([told(part("acme", 1), part("birch"), next="cedar"), told(part("cedar"))], [None, "cedar"], ["acme"], []),
    ([told(part("acme"), next="birch"), told(part("birch"), next="cedar", stopped="cedar")], [None, "birch"], ["cedar"], [STOPPED]),
    ([told(part("acme"), next="birch"), told(next="birch", stopped="birch")], [None, "birch"], ["birch", "cedar"], [STOPPED]),
    ([told(part("acme"), next="birch"), Away("/relay/due-from")], [None, "birch"], ["birch", "cedar"], [NOT_TOLD]),
    ([told(part("acme"), next="birch"), told(part("birch"), next="birch")], [None, "birch"], ["cedar"], [NOT_TOLD]),
    ([told(part("acme"), next="birch"), told(part("birch"), next="acme"), told(part("acme"), next="birch")],
     [None, "birch", "acme"], ["cedar"], [NOT_TOLD]),
])
def test_looks_by_hundreds(logged, answers, starts, wanted, events):
    """One call after another, from the customer on that the one before names; what was told before a fault counts. It has an end
    where these names have none."""
    desk = Told(*answers)
    found = turns_of(looking(desk))
    expect((found, desk.starts, logged) == (wanted, starts, events), answers, found, desk.starts, logged)


def test_the_round_behind_a_stop(logged):
    """It begins at the first customer again."""
    stop = told(part("acme"), part("birch"), next="cedar", stopped="cedar")
    desk = Told(stop, told(part("acme", 1), part("birch"), part("cedar")))
    found = looking(desk)
    rounds = [turns_of(found) for _ in range(2)]
    expect((rounds, desk.starts, logged) == ([["cedar"], ["acme"]], [None, None], [STOPPED]), rounds, desk.starts, logged)


def test_a_look_that_takes_long(monkeypatch, logged):
    """Of those behind it nothing is known, so they have their turns; and that is no error."""
    found = looking(Told(told(part("acme"), part("birch"), next="cedar")))
    monkeypatch.setattr(time, "monotonic", iter([0.0, LOOK_SECONDS + 1]).__next__)
    expect(turns_of(found) == ["cedar"] and not logged and not found.rounds_alone, logged)


def test_rounds_behind_a_look_that_failed():
    """Each customer has its turn for some rounds, without another look at all of them."""
    desk = Told(Away("/relay/due-from"), told(part("acme", 1), part("birch"), part("cedar")))
    found = looking(desk)
    rounds = [turns_of(found) for _ in range(1 + ROUNDS_ALONE + 1)]
    expect(rounds == [NAMES] * (1 + ROUNDS_ALONE) + [["acme"]] and desk.starts == [None, None], rounds, desk.starts)


@pytest.mark.parametrize("answer, is_told", [
    (Away("/relay/due-from"), True), (Away("/relay/due-from: 503 {}", 503), True), (Away("/relay/due-from: 404 {}", 404), False),
    (Refused({"error": NO_ROUTE, "name": "NoRoute"}), False), (Refused({"error": 3, "name": "WrongRole"}), True)])
def test_what_is_told_of_a_look_that_failed(logged, answer, is_told):
    """The log tells why, but nothing of a proxy that has no such call."""
    turns_of(looking(Told(answer)))
    expect(logged == [NOT_TOLD] * is_told, answer, logged)


def test_a_turn_that_fails_behind_its_first_page():
    """What it had found counts as under way to its domain no more."""
    def listed(customer, after):
        yield due_message_of(entry(1))
        raise Away("/relay/due/acme")

    found = looking(SimpleNamespace(due=listed))
    found.destinations = Destinations(1.0)
    found.spool = SimpleNamespace(size=lambda name: 900)
    found.attempts = SimpleNamespace(spools_under_way=lambda customer: set())
    found.book = SimpleNamespace(unreported=lambda customer: [])
    for _ in range(UNPROVEN + 1):
        with pytest.raises(Away):
            found.due("acme", None)
    expect(found.destinations.begin(found.attempt("acme", due_message_of(entry(2) | {"recipients": ["q@far.example"]}))), "the domain is held up")
