"""Many messages of three customers at once, with all that customers do in the middle, and a desk
that is killed twice."""
import random
import threading
import time

from postfix import text_of
from machine import DOMAINS, Relay
from serving import KEYS, expect, until

CALLS_OF_A_ROUND = 4
CALLS = ["requeue", "requeue", "delete", "hold"]
# of ten messages in a row
DESTINATIONS = ["good"] * 6 + ["hard"] * 2 + ["soft", "slow"]
# one of so many messages is held by a line, and every other one of these is deleted
HELD_EACH = 25


class Mail:
    """The messages of the run: each has one recipient of its own."""

    def __init__(self, count):
        self.of = {name: [] for name in KEYS}
        for at in range(count):
            address = f"m{at:04}@{DESTINATIONS[at // 3 % 10]}.example"
            self.of[[*KEYS][at % 3]].append(address)
        self.all = [one for some in self.of.values() for one in some]
        self.held = {name: some[::HELD_EACH] for name, some in self.of.items()}
        # those that a customer deleted; and how often each call of a customer changed something
        self.deleted, self.done = set(), {it: 0 for it in [*CALLS, "release"]}

    def at(self, destination):
        return {it for it in self.all if it.endswith(f"@{destination}.example")}


def take_all(it, mail, customer):
    """A client of a customer sends its messages."""
    sender = f"ann@{DOMAINS[customer]}"
    with it.postfix.session() as client:
        for one in mail.of[customer]:
            client.sendmail(sender, [one], text_of(sender, [one], "long"))


def pending_of(it, customer, row):
    """The recipient of a message that a list shows, or none where it has gone."""
    status, told = it.desk.ask("GET", f"/v1/message/{row['id']}", KEYS[customer])
    return told["pending"][0]["address"] if status == 200 else None


def meddle(it, mail, chance):
    """What a customer does: some of its mail is held, released, queued anew or deleted."""
    customer = chance.choice([*KEYS])
    rows = it.desk.messages(customer)
    for row in chance.sample(rows, min(CALLS_OF_A_ROUND, len(rows))):
        address = pending_of(it, customer, row)
        call = "release" if row["state"] == "hold" else chance.choice(CALLS)
        if address is None or address in mail.held[customer]:
            continue
        path = f"/v1/message/{row['id']}" if call == "delete" else f"/v1/{call}/{row['id']}"
        method = "DELETE" if call == "delete" else "POST"
        status, told = it.desk.ask(method, path, KEYS[customer])
        if status == 200 and told.get("changed", 1):
            mail.done[call] += 1
            if call == "delete":
                mail.deleted.add(address)


def hold_some(it, mail):
    for customer, held in mail.held.items():
        for one in held:
            it.desk.line(customer, "recipient", one, "HOLD look at it first")


def settle_held(it, mail):
    """Of those that a line holds every other one is deleted, and the rest released."""
    for customer, held in mail.held.items():
        for row in it.desk.messages(customer):
            address = pending_of(it, customer, row)
            if address not in held or row["state"] != "hold":
                continue
            if held.index(address) % 2:
                it.desk.own(customer, "DELETE", f"/v1/message/{row['id']}")
                mail.deleted.add(address)
            else:
                it.desk.own(customer, "POST", f"/v1/release/{row['id']}")


def release_rest(it, mail):
    """What customers put on hold themselves, and have not released by chance, they release."""
    for customer, held in mail.held.items():
        for row in it.desk.messages(customer):
            if row["state"] == "hold" and pending_of(it, customer, row) not in held:
                status, told = it.desk.ask("POST", f"/v1/release/{row['id']}", KEYS[customer])
                mail.done["release"] += status == 200 and told["changed"]


def tried_again(it):
    """Waits until Postfix has tried again what the desk had no time to answer. (What a customer
    deletes before that comes back: nobody knows then that it was there.)"""
    def is_so():
        rows = it.postfix.queue()
        return not any("delay_reason" in one for row in rows for one in row["recipients"])
    it.postfix.run_until(is_so, "a second try")
    time.sleep(1)


def while_it_comes(it, mail, chance):
    """Mail comes in, customers meddle, and the desk is killed twice."""
    clients = [threading.Thread(target=take_all, args=(it, mail, name), daemon=True)
               for name in KEYS]
    for one in clients:
        one.start()
    kills = [len(mail.all) // 4, len(mail.all) // 2]
    while any(one.is_alive() for one in clients) or kills:
        if kills and sum(it.desk.usage(name)["accepted"] for name in KEYS) >= kills[0]:
            kills.pop(0)
            it.desk.kill()
            time.sleep(0.5)
            it.desk.start()
            tried_again(it)
        meddle(it, mail, chance)
        time.sleep(0.05)
    for one in clients:
        one.join()


def drain(it, mail, chance):
    """All sinks but one accept by now: what is deferred is made due until nothing is pending."""
    shared = it.shared
    shared.soft.answer = lambda _: "250 2.1.5 ok"
    shared.slow.hangs = False
    shared.slow.gate.set()
    end = time.monotonic() + 120
    while any(it.desk.usage(name)["pending"] for name in KEYS):
        expect(time.monotonic() < end, "pending is", [it.desk.messages(name) for name in KEYS],
               it.told()[-2000:])
        for name in KEYS:
            it.again(name)
        meddle(it, mail, chance)
        time.sleep(1)


def expect_conserved(it, mail):
    """Each message was delivered once, or failed and told once, or deleted; and the counts of the
    desk say the same."""
    delivered, notices = it.delivered(), it.notices()
    twice = {one: count for one, count in {**delivered, **notices}.items() if count != 1}
    expect(not twice, "more than once came", twice)
    failed = set(notices)
    lost = set(mail.all) - set(delivered) - failed - mail.deleted
    expect(not lost, len(lost), "messages were lost:", sorted(lost)[:9])
    expect(failed <= mail.at("hard") and not set(delivered) & mail.at("hard"),
           "the wrong ones failed", failed, delivered)
    held = {one for some in mail.held.values() for one in some}
    expect(not held & mail.deleted & set(delivered), "a deleted message on hold was delivered")
    usages = [it.desk.usage(name) for name in KEYS]
    for name, usage in zip(KEYS, usages):
        parts = sum(usage[one] for one in ("pending", "delivered", "failed", "deleted", "expired"))
        expect(usage["accepted"] == parts == len(mail.of[name]), name, "has", usage, "of",
               len(mail.of[name]))
    found = [sum(usage[one] for usage in usages)
             for one in ("delivered", "failed", "deleted", "pending", "expired")]
    wanted = [len(set(delivered) - mail.deleted), len(failed - mail.deleted), len(mail.deleted),
              0, 0]
    expect(found == wanted, "the desk counts", found, "and seen was", wanted)
    expect(not it.bounces(), "Postfix bounced", it.bounces()[:1])


def test_many_at_once(program, shared, count=1000, seed=1):
    """1,000 messages of three customers, with holds, releases, deletes and requeues in the middle and a
    desk that is killed twice: each is delivered once, or told as failed once, or deleted, and the
    counts of the desk say the same."""
    chance, mail = random.Random(seed), Mail(count)
    settings = {"delivery": {"timeout": "5", "pause": "1", "clean-every": "5", "sweep-every": "5"}}
    with Relay(program, shared, settings=settings) as it:
        shared.slow.hangs = True
        shared.slow.gate.clear()
        hold_some(it, mail)
        it.intake()
        it.run("deliver")
        while_it_comes(it, mail, chance)
        it.postfix.empty()
        release_rest(it, mail)
        settle_held(it, mail)
        drain(it, mail, chance)
        until(lambda: len(it.notices()) == sum(it.desk.usage(name)["failed"] for name in KEYS),
              "the last notices do not come")
        time.sleep(2)
        expect_conserved(it, mail)
    expect(all(mail.done.values()), "customers did", mail.done)
