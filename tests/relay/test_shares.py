"""What one customer, or one desk, takes of what all share, and what it leaves: processes, threads, places of calls, rests."""
import threading
import time
from types import SimpleNamespace

import pytest
from hq_relay.storage.wakeups import WakeupSender, WakeupListener
from hq_relay.desk import call_limits as calls
from hq_relay.desk.call_limits import CallLimits
from hq_relay.desk.client import Away
from hq_relay.desk.replies import DueMessage
from hq_relay.delivery.destinations import AT_ONCE, BETWEEN_TURNS, FIRST, PROVEN, SLOW, UNPROVEN, WRITTEN_BY, Capacity, Destinations
from hq_relay.outcome import Outcome, Result, Unreached
from hq_relay.storage.attempts import Attempt
from hq_relay.delivery.handover import Handover
from serving import expect, until
from hq_relay.customers.turns import CustomerTurns

SOON, WHILE = 10, 0.3
CAPACITY = Capacity(100, 5)


class Clock:
    """The moments that the code under test sees."""

    def __init__(self, monkeypatch):
        self.now = 1000.0
        monkeypatch.setattr(time, "monotonic", lambda: self.now)


@pytest.fixture
def clock(monkeypatch):
    return Clock(monkeypatch)


class Mail:
    """What is handed over to these destinations."""

    def __init__(self, capacity=CAPACITY):
        self.to, self.count = Destinations(60.0, capacity), 0

    def attempt(self, customer, domain):
        self.count += 1
        return Attempt(f"{customer}.{self.count}", customer, f"s{self.count}", "1", 1, [f"p@{domain}"], "ann@a.example", 0.0)

    def begun(self, customer, domains, each):
        """The messages that may go of so many to each of these domains."""
        tried = [self.attempt(customer, it) for it in domains for _ in range(each)]
        return [it for it in tried if self.to.begin(it)]

    def may(self, customer, domain):
        """Whether a message may go; then it is delivered at once."""
        attempt = self.attempt(customer, domain)
        may = self.to.begin(attempt)
        self.to.end(attempt)
        return may

    def told(self, customer, domain, unreached=Unreached.NOTHING, count=1):
        for _ in range(count):
            self.to.answered(customer, [Outcome(f"p@{domain}", Result.DEFERRED, unreached=unreached)])


def domains(kind, count):
    return [f"{kind}{it}.example" for it in range(count)]


def test_silent_hosts(clock):
    """Messages to many new domains take a part of the processes that are for such, and each further customer who sends so a
    smaller one. Others' mail goes, to domains that have answered and to new ones."""
    mail = Mail()
    mail.told("birch", "good.example")
    for number, noisy in enumerate(("acme", "cedar", "dale"), 1):
        taken = len(mail.begun(noisy, domains(noisy, 60), 2))
        expect(1 <= taken <= 50 // (number + 1) + 1, noisy, "has", taken, "under way")
        clock.now += SLOW + 1
        expect(mail.may("birch", "good.example") and mail.may("birch", f"new{number}.example"), "with", noisy, "the mail of another waits")


def test_proven_hosts_that_hang(clock):
    """So it is where hosts of many domains have answered before, and then hang all at once."""
    mail = Mail()
    for it in [*domains("evil", 60), "good.example"]:
        mail.told("acme", it, count=PROVEN)
    taken = mail.begun("acme", domains("evil", 60), 60)
    held = {it: sum(one.recipients == [f"p@{it}"] for one in taken) for it in domains("evil", 60)}
    processes = sum(min(it, CAPACITY.at_a_domain) for it in held.values())
    expect(45 <= processes <= 55 and max(held.values()) <= PROVEN // 2, "it holds", processes, held)
    expect(mail.may("birch", "good.example"), "the mail of another waits")
    clock.now += SLOW + 1
    expect(mail.may("birch", "good.example"), "the mail of another waits")


def test_a_slow_domain(clock):
    """Of a domain that has become slow few messages lie in the instance at once, so that another customer's next one waits for few."""
    mail = Mail()
    mail.told("acme", "slow.example")
    few = mail.begun("acme", ["slow.example"], 200)
    expect(len(few) <= FIRST // 2 + 1, "to a domain that has answered once go", len(few))
    for it in few:
        mail.to.end(it)
    mail.told("acme", "slow.example", count=PROVEN)
    taken = mail.begun("acme", ["slow.example"], 200)
    expect(len(taken) == PROVEN // 2, "under way are", len(taken))
    for it in taken[:-2]:
        mail.to.end(it)
    clock.now += SLOW + 1
    expect(len(mail.begun("acme", ["slow.example"], 200)) == CAPACITY.at_a_domain - 2, "more go to a slow domain")
    expect(mail.may("birch", "slow.example"), "the mail of another waits")


def test_cuts_rest_for_their_customer(clock):
    """A host that answers cuts the sessions of one customer: its mail to that domain rests, and nobody else's."""
    mail = Mail()
    mail.told("birch", "good.example")
    mail.told("acme", "good.example", Unreached.CUSTOMER_ALONE, 12)
    expect(not mail.may("acme", "good.example") and mail.may("acme", "other.example"), "its mail does not rest there alone")
    expect(mail.may("birch", "good.example"), "the mail of another rests")
    clock.now += 61
    expect(mail.may("acme", "good.example"), "it rests for ever")


@pytest.mark.parametrize("is_proven, failures", [(False, 1), (True, 10)])
def test_domains_rest(clock, is_proven, failures):
    """A domain whose hosts cannot be reached rests for all: behind the first failure, or the tenth where it has answered."""
    mail = Mail()
    if is_proven:
        mail.told("birch", "away.example")
    for length in (60, 120, 240):
        mail.told("acme", "away.example", Unreached.DOMAIN, failures - 1)
        expect(mail.may("birch", "away.example"), "it rests too soon")
        mail.told("acme", "away.example", Unreached.DOMAIN)
        clock.now += length - 1
        expect(not mail.may("acme", "away.example") and not mail.may("birch", "away.example"), "it does not rest for", length)
        clock.now += 2
        failures = 1


def test_who_goes_on(clock):
    """The end of a message has those go on who wait for its domain, and no other; and those who wait for processes, now and then."""
    mail = Mail()
    first = [*mail.begun("acme", ["one.example"], 1), *mail.begun("birch", ["one.example"], 1)]
    expect(len(first) == UNPROVEN and not mail.to.begin(mail.attempt("acme", "one.example")), "a new domain has no bound")
    other = mail.begun("birch", ["two.example"], 1)
    expect(mail.to.end(other[0]) == set(), "who waits for another domain goes on")
    expect(mail.to.end(first[0]) == {"acme"} and mail.to.end(first[1]) == set(), "who waits does not go on")
    many = mail.begun("cedar", domains("many", 60), 1)
    expect(len(many) < 60, "there is no bound")
    expect(mail.to.end(many[0]) == {"cedar"}, "who waits for processes does not go on")
    mail.to.begin(mail.attempt("cedar", "next.example"))
    mail.begun("cedar", domains("more", 60), 1)
    expect(mail.to.end(many[1]) == set(), "it goes on without a pause")
    clock.now += BETWEEN_TURNS
    expect(mail.to.end(many[2]) == {"cedar"}, "it does not go on later")


def test_few_turns_for_many_ends(clock):
    """Who waits for a domain with much under way has one turn for several ends."""
    mail = Mail()
    mail.told("acme", "good.example", count=PROVEN)
    taken = mail.begun("acme", ["good.example"], 200)
    turns = 0
    for it in taken:
        if mail.to.end(it):
            turns += 1
            mail.begun("acme", ["good.example"], 200)
    expect(1 <= turns <= len(taken) / AT_ONCE + AT_ONCE, "for", len(taken), "ends there were", turns, "turns")


def test_what_was_under_way(clock):
    """What was handed over before a new start counts, with its age."""
    mail = Mail()
    mail.told("acme", "good.example")
    old = [mail.attempt("acme", "good.example") for _ in range(20)]
    mail.to.resume(old)
    expect(not mail.to.begin(mail.attempt("acme", "good.example")), "old messages to a slow domain do not count")
    for it in old:
        mail.to.end(it)
    expect(mail.to.begin(mail.attempt("acme", "good.example")), "it waits for ever")


def test_what_was_erased(clock):
    """What a customer had under way who was erased takes no share for ever; what was begun just now stays."""
    mail = Mail()
    old = mail.begun("acme", domains("old", 60), 2)
    clock.now += WRITTEN_BY + 1
    new = mail.begun("birch", ["new.example"], 2)
    mail.to.keep({old[0].envelope})
    left = {it for one in mail.to.domains.values() for it in one.under_way}
    expect(left == {old[0].envelope, *(it.envelope for it in new)}, "left are", left)


def test_counts(clock):
    """What each customer has under way is counted as it begins, ends, is resumed and is given up."""
    mail = Mail()
    mail.told("acme", "good.example")
    old = [mail.attempt("acme", "good.example") for _ in range(3)]
    mail.to.resume([*old, *old])
    mail.begun("birch", ["good.example", "other.example"], 3)
    mail.to.end(old[0])
    mail.to.end(old[0])
    clock.now += WRITTEN_BY + 1
    new = mail.begun("birch", ["good.example"], 1)
    mail.to.keep({old[1].envelope})
    for name, one in mail.to.domains.items():
        owners = [it for it, _ in one.under_way.values()]
        counted = {it: owners.count(it) for it in owners}
        expect(one.counts == counted, name, "has", one.counts, "and not", counted)
    expect({it for one in mail.to.domains.values() for it in one.under_way} == {old[1].envelope, *(it.envelope for it in new)}, "left")


def test_a_long_list(clock):
    """Of a list of mail to a domain that has no room, one message is tried, and those of others behind them go."""
    mail, tried = Mail(), []
    begin = mail.to.begin
    mail.to.begin = lambda attempt: tried.append(attempt) or begin(attempt)
    due = [DueMessage(f"{at:04}", 1, f"s{at}", "", [f"p{at}@{'other' if at == 400 else 'good'}.example"]) for at in range(500)]
    desk = SimpleNamespace(due=lambda customer, after: iter(due))
    handed = SimpleNamespace(book=SimpleNamespace(unreported=lambda customer: []), spools_under_way=lambda customer: set())
    settings = SimpleNamespace(sessions=1, pause=1.0, customers={"acme": None}, desks={}, has_several_desks=False)
    found = Handover(settings, desk, SimpleNamespace(size=lambda spool: 1), handed, None, mail.to, None)
    begun, _ = found.due("acme", None)
    expect([it.id for it in begun] == ["0000", "0400"] and len(tried) == 3, "begun are", [it.id for it in begun], "of", len(tried))


# ---- threads and calls, by desk

def test_turns_of_several_desks():
    """Customers of a desk that hangs take a part of the threads; those of others have their turns."""
    gate, done = threading.Event(), []

    def work(customer):
        if customer.startswith("n"):
            gate.wait(SOON)
        done.append(customer)

    names = [f"{desk}{it}" for it in range(30) for desk in "ns"]
    turns = CustomerTurns(4, 1.0, work, {it: it[0] for it in names})
    turns.start()
    for it in sorted(names):
        turns.add(it)
    until(lambda: len(done) == 30, f"done are {done}", SOON)
    expect(all(it.startswith("s") for it in done), "a desk that hangs did", done)
    gate.set()
    turns.wait()
    turns.end()
    expect(sorted(done) == sorted(names), "some had no turn:", set(names) - set(done))


def test_turns_of_one_desk():
    """Where there is one desk, or nobody tells which, its customers take all threads."""
    gate, begun = threading.Event(), []
    turns = CustomerTurns(4, 1.0, lambda customer: begun.append(customer) or not gate.wait(SOON))
    turns.start()
    for it in "abcdef":
        turns.add(it)
    until(lambda: len(begun) == 4, f"begun are {begun}", SOON)
    gate.set()
    turns.wait()
    turns.end()
    expect(sorted(begun) == [*"abcdef"], begun)


def test_calls_of_a_desk_that_hangs(clock):
    """So many calls of a desk are under way; once they take too long, further ones fail at once, and those of other desks go on."""
    found = CallLimits(2)
    with found.one_of("north"), found.one_of("north"):
        clock.now += 3
        with pytest.raises(Away):
            with found.one_of("north"):
                pass
        with found.one_of("south"):
            pass
    with found.one_of("north"):
        pass


def test_calls_wait_no_longer(monkeypatch):
    """Nor does a call wait for long where each of those before it is quick, but too many are."""
    monkeypatch.setattr(calls, "LONGEST", WHILE)
    found = calls.CallLimits(1)
    with found.one_of("north"):
        begun = time.monotonic()
        with pytest.raises(Away):
            with found.one_of("north"):
                pass
        expect(time.monotonic() - begun < 3 * WHILE, "it waits for", time.monotonic() - begun)


def test_calls_wait_for_their_turn():
    """A call waits while those before it are as quick as they should be."""
    found, entered = CallLimits(1), threading.Event()

    def call():
        with found.one_of("north"):
            entered.set()

    with found.one_of("north"):
        threading.Thread(target=call, daemon=True).start()
        expect(not entered.wait(WHILE), "two calls are under way")
    expect(entered.wait(SOON), "a call waits for ever")


def test_desks_of_customers():
    """Of a table the desks; customers of whom it tells nothing stand together."""
    from hq_relay.settings import Settings
    names = dict.fromkeys(("acme", "birch", "cedar", "dale"))
    told = SimpleNamespace(customers=names, desks={"acme": "north", "birch": "south", "cedar": "north"})
    expect([*Settings.of_desks(told).values()] == [["acme", "cedar"], ["birch"], ["dale"]], Settings.of_desks(told))


# ---- who rings, and who hears

@pytest.fixture
def heard(folder):
    """What a listener hears, in a folder whose path is longer than the address of a socket may be."""
    place = folder / ("long" * 40)
    place.mkdir()
    found, ending = [], threading.Event()
    thread = threading.Thread(target=lambda: WakeupListener(place, found.append).listen(ending), daemon=True)
    thread.start()
    until((place / "queued").is_socket, "nobody listens", SOON)
    yield place, found
    ending.set()
    thread.join(SOON)


def test_rings(heard):
    """Each customer for whom mail was queued has a turn soon, and few for many rings."""
    place, found = heard
    bell = WakeupSender(place)
    for _ in range(200):
        bell.send("acme")
    bell.send("birch")
    until(lambda: {*found} >= {"acme", "birch"}, f"heard is {found}", SOON)
    expect(found.count("acme") <= 10, "for many rings it has many turns", found)


def test_rings_that_nobody_hears(folder, heard):
    """They are no fault; a listener that begins anew hears those of later."""
    bell = WakeupSender(folder)
    for _ in range(3):
        bell.send("acme")
    found, ending = [], threading.Event()
    for _ in range(2):
        thread = threading.Thread(target=lambda: WakeupListener(folder, found.append).listen(ending), daemon=True)
        thread.start()
        until(lambda: bell.send("birch") or "birch" in found, "a new one does not hear", SOON)
        ending.set()
        thread.join(SOON)
        found.clear()
        ending.clear()
    full = WakeupSender(heard[0])
    for _ in range(20_000):
        full.send("x" * 60)
