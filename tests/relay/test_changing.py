"""Customers that come and go while mail is delivered: a reload holds up nobody, whatever hangs meanwhile."""
import signal
import time

import pytest
from hq_relay.customers.changes import CustomerChanges
from hq_relay.delivery.destinations import Capacity
from house import SOON, WHILE, House
from machine import FAR, HEADER, KEYS, WIDE, Relay
from hq_relay.customers.activity import CustomerActivity
from hq_relay.desk.replies import Usage
from serving import expect, until
from hq_relay.settings_tables import Customer
from hq_relay.settings import load

SETTINGS = """[desk]
address = 127.0.0.1:825
key-file = relay.key
directory = customers.csv
desks = desks.csv
[spool]
folder = spool
[intake]
listen = 127.0.0.1:10024
[domains]
a.example = acme
[delivery]
host = relay.example
{more}
[notices]
from = MAILER-DAEMON@relay.example
"""


def settings_of(folder, desks, more=""):
    """Settings of these customers, each with its desk."""
    folder.joinpath("relay.key").write_text("relaykey00000001\n")
    rows = [f"{name},{name}key000000000001,10,1000,10,10,0" for name in desks]
    folder.joinpath("customers.csv").write_text("\n".join(["name,key,messages,bytes,lines,notices,delay", *rows, ""]))
    folder.joinpath("desks.csv").write_text("\n".join(["customer,desk", *(f"{name},{desk}" for name, desk in desks.items()), ""]))
    folder.joinpath("relay.ini").write_text(SETTINGS.format(more=more))
    return load(str(folder / "relay.ini"))


class Delivery:
    """One that works by settings alone."""

    def __init__(self, settings):
        self.settings, self.looks, self.busy = settings, 0, set()

    def works_for(self, customers):
        return bool(self.busy & customers)


NOW = {"acme": "north", "birch": "north", "cedar": "south"}


@pytest.mark.parametrize("desks, more, wanted", [
    (NOW, "", True), ({**NOW, "dale": "south"}, "", True), ({"acme": "north", "cedar": "south"}, "", True),
    ({**NOW, "dale": "west"}, "", False), ({"acme": "north", "birch": "north"}, "", False), ({**NOW, "birch": "south"}, "", False),
    (NOW, "pause = 3", False), (NOW, "sessions = 9", False), ({**NOW, "dale": "south"}, "rest = 7", False)])
def test_what_is_taken_up(folder, desks, more, wanted):
    """Customers that come and go, and no other change: not one of timers, nor of desks, nor a customer's move."""
    now = settings_of(folder, NOW)
    found = CustomerChanges(Delivery(now)).may(settings_of(folder, desks, more))
    expect(found == wanted, desks, more, "are taken up" if found else "want a new start")


def test_who_left(folder):
    """Until nothing is done for a customer who was dropped, and a whole look at reports has passed, the change is not told."""
    it = Delivery(settings_of(folder, NOW))
    it.destinations, it.take_up = type("", (), {})(), lambda settings: setattr(it, "settings", settings)
    changing = CustomerChanges(it)
    expect(changing.is_done(), "something is under way at first")
    it.busy = {"birch"}
    changing.take_up(settings_of(folder, {"acme": "north", "cedar": "south"}), Capacity())
    it.looks = 5
    expect(not changing.is_done() and changing.leaving == {"birch"}, "it is told at once")
    changing.take_up(settings_of(folder, {"acme": "north"}), Capacity())
    it.busy, it.looks = {"cedar"}, 7
    expect(not changing.is_done() and changing.leaving == {"birch", "cedar"}, "left have", changing.leaving)
    it.busy = {"acme"}
    expect(changing.is_done() and not changing.leaving, "it is never told")
    changing.take_up(settings_of(folder, NOW), Capacity())
    expect(changing.is_done(), "who comes is waited for")
    changing.take_up(settings_of(folder, {"acme": "north", "cedar": "south"}), Capacity())
    changing.take_up(settings_of(folder, NOW), Capacity())
    expect(changing.is_done() and not changing.leaving, "who came back is waited for")


def test_new_and_dropped_customers_are_quiet():
    """Of a new customer there may be mail and notices; of one that was dropped nothing is asked any more."""
    it = CustomerActivity(None, ["acme", "birch"])
    it.take([Usage(name, *[0] * 9) for name in ("acme", "birch")])
    for name in ("acme", "birch"):
        it.mail(name)
    it.stir("birch")
    it.take_up(["acme", "cedar"])
    expect(it.may_have_mail() == it.may_have_notices() == {"cedar"}, it.may_have_mail(), it.may_have_notices())


def test_a_turn_that_hangs(delivering, hops):
    """While a notice of one customer hangs, a new one is swept and cleaned, and nothing is begun for one that was dropped."""
    found = delivering(House(1), "acme", "birch")
    found.settings.clean_every = found.settings.sweep_every = 0.1
    found.start()
    expect(hops.is_asked.wait(SOON), "no notice is mailed")
    before = found.settings
    names = ["acme", "cedar"]
    found.take_up(type(before)(**{**vars(before), "customers": {it: Customer(it, 10, 1000, 1) for it in names},
                                  "of_desks": lambda: {"": names}}))
    time.sleep(0.2)
    found.desk.swept.clear()
    until(lambda: "cedar" in found.desk.swept, "a new customer is not swept", SOON)
    time.sleep(WHILE)
    expect("birch" not in found.desk.swept, "who was dropped is swept")
    expect(found.works_for({"acme"}) and not found.works_for({"birch"}), "what is under way is not seen")
    found.take_up(type(before)(**{**vars(before), "customers": {"cedar": Customer("cedar", 10, 1000, 1)}, "of_desks": lambda: {"": ["cedar"]}}))
    expect(found.works_for({"acme"}), "its notice is under way")
    hops.gate.set()
    until(lambda: not found.works_for({"acme"}), "its notice is under way for ever", SOON)


def test_reload_while_notices_hang(program, shared):
    """The next hop of notices says nothing: a reload by which a customer comes is taken up at once, and all mail goes on."""
    limits = {"acme": WIDE, "birch": WIDE}
    with Relay(program, shared, limits, {"delivery": {"pause": "0.5"}}) as it:
        it.intake()
        shared.senders.hangs = True
        shared.senders.gate.clear()
        running = it.run("deliver")
        it.take("acme", "x@hard.example")
        until(lambda: it.desk.usage("acme")["failed"] == 1, "nothing fails")
        time.sleep(1)
        rows = {**limits, "birch": "7,500000000,1000,1000,0"}
        it.write("names.csv", HEADER.rstrip(), *(f"{name},{KEYS[name][::-1]},{of}" for name, of in rows.items()))
        running.process.send_signal(signal.SIGHUP)
        until(lambda: "settings taken" in running.log.read_text(), "they are not read", 10)
        it.take("birch", f"p@{FAR}")
        until(lambda: it.desk.usage("birch")["delivered"] == 1, "mail waits for the reload", 15)
        shared.senders.hangs = False
        shared.senders.gate.set()
        running.process.send_signal(signal.SIGTERM)
        running.ends(longest=70)
