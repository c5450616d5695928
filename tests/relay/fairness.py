"""How long a calm customer's mail takes while another one, or another desk, does its worst: for tests and bench/fairness.

The calm customer, birch, sends a mail a second to a host that answers. Each situation is begun, and then its mails are timed: from
the moment at which Postfix has one to that at which the host has it.
"""
import contextlib
import socket
import threading
import time
from concurrent.futures import ThreadPoolExecutor

from machine import DOMAINS, WIDE, Relay
from serving import LONGEST, Wrong, expect, free_address, named, until
from sinks import ACCEPTS, Lossy, Sink

CALM, GOOD = "birch", "good.example"
# So many mails of the calm customer are timed, one a second; none may take longer, in seconds, on the slowest machine of all.
MAILS, LONGEST_WAIT, NEVER = 6, 30.0, 60
SESSIONS, SILENT = 8, 60
NARROW = "50,500000000,1000,1000,0"
SETTINGS = {"delivery": {"pause": "1", "rest": "3600"}}


def send_many(it, count, domain_of, customer="acme", each=100):
    """A customer sends so many mails, over several sessions, a hundred recipients a message. What is refused is not sent."""
    names = [f"m{number}@{domain_of(number)}" for number in range(count)]
    parts = [names[at:at + each] for at in range(0, count, each)]
    with ThreadPoolExecutor(SESSIONS) as pool:
        list(pool.map(lambda part: it.postfix.offer(f"ann@{DOMAINS[customer]}", part), parts))


def wait_of_one(it, number):
    """The seconds until one mail of the calm customer is there."""
    recipient = f"calm{number}@{GOOD}"
    begun = time.monotonic()
    it.take(CALM, recipient, subject=f"calm{number}")
    while recipient not in it.shared.good.counts():
        if time.monotonic() > begun + NEVER:
            return float(NEVER)
        time.sleep(0.02)
    return time.monotonic() - begun


def worst_of(it, mails=MAILS):
    """The longest of so many waits, of mails that are sent one a second."""
    waits = []
    for number in range(mails):
        begun = time.monotonic()
        waits.append(wait_of_one(it, number))
        if waits[-1] >= NEVER:
            break
        time.sleep(max(0.0, begun + 1 - time.monotonic()))
    return max(waits)


# ---- what the other customer does

@contextlib.contextmanager
def nothing(it):
    yield


@contextlib.contextmanager
def many_mails(it):
    """2,400 mails at once, of which the desk takes a thousand."""
    send_many(it, 2400, lambda _: GOOD)
    yield


@contextlib.contextmanager
def silent_hosts(it):
    """Two mails to each of 60 domains whose host says nothing behind the dot."""
    it.silent.gate.clear()
    send_many(it, 2 * SILENT, lambda number: f"silent{number % SILENT}.example")
    until(lambda: it.silent.waiting >= 20, "no host is silent", LONGEST)
    time.sleep(2)
    try:
        yield
    finally:
        it.silent.gate.set()


@contextlib.contextmanager
def over_quota(it):
    """2,000 mails of a customer that may have 50, all of them on hold."""
    it.desk.line("acme", "recipient", "far.example", "HOLD")
    send_many(it, 2000, lambda _: "far.example")
    until(lambda: "refused" in it.told(), "nothing is refused", LONGEST)
    yield


@contextlib.contextmanager
def cut(it):
    """Twelve mails whose sessions a good host cuts behind the recipient."""
    def answer(to):
        if to.startswith("m"):
            raise ConnectionResetError("the host drops the connection")
        return ACCEPTS
    it.shared.good.answer = answer
    send_many(it, 12, lambda _: GOOD)
    until(lambda: sum(one.startswith("m") for one in it.shared.good.asked) >= 10, "nothing is cut", LONGEST)
    try:
        yield
    finally:
        it.shared.good.answer = lambda _: ACCEPTS


@contextlib.contextmanager
def resting(it):
    """600 mails to a domain whose host is away, and which rests."""
    send_many(it, 600, lambda _: "away.example")
    until(lambda: it.desk.usage("acme")["pending"] >= 500, "nothing is queued", LONGEST)
    yield


class Hangs(Lossy):
    """Stands before a desk, and says nothing to requests of a customer."""

    def finish_request(self, request, address):
        if self.text in request.recv(65536, socket.MSG_PEEK):
            threading.Event().wait(NEVER)
        super().finish_request(request, address)


@contextlib.contextmanager
def other_desk(it):
    """The desk of the other customer takes calls and answers none, while it has 40 mails to come in and 10 under way."""
    send_many(it, 10, lambda _: GOOD)
    until(lambda: it.desk.usage("acme")["accepted"] == 10, "nothing is queued", LONGEST)
    it.hung.text = b"/acme HTTP/1.1"
    send_many(it, 40, lambda _: GOOD)
    time.sleep(2)
    yield


SITUATIONS = {"alone": nothing, "2,400 mails": many_mails, "60 silent hosts": silent_hosts, "2,000 over quota": over_quota, "12 cut": cut,
              "600 to a resting domain": resting, "another desk hangs": other_desk}


@contextlib.contextmanager
def relay(program, shared, situation):
    """A relay in which a situation may come."""
    limits = {"acme": NARROW if situation == "2,000 over quota" else WIDE, CALM: WIDE}
    try:
        with Sink(ACCEPTS, ("0.0.0.0", 0)) as silent, Relay(program, shared, limits, SETTINGS) as it, \
                Hangs(it.desk.address, b"\0") as hung:
            it.hung, it.silent = hung, silent
            # (each domain is a destination of its own for Postfix by an address of its own)
            hops = {f"silent{number}.example": (f"127.0.1.{number + 1}", silent.port) for number in range(SILENT)}
            shared.delivering.route({**shared.hops(), **hops, "away.example": free_address()})
            it.write("desks.csv", "customer,desk", "acme,north", f"{CALM},south")
            several = {"desks": "desks.csv", "timeout": "10"} if situation == "another desk hangs" else {}
            it.set(desk={"address": named(hung.address), **several})
            it.intake()
            it.run("deliver")
            expect(wait_of_one(it, "first") < NEVER, "no mail is delivered at all")
            yield it
    finally:
        shared.delivering.route(shared.hops())


def measured(program, shared, situation):
    """The longest wait of the calm customer's mail in a situation, in seconds."""
    with relay(program, shared, situation) as it, SITUATIONS[situation](it):
        return worst_of(it)


def check(program, shared, situation):
    found = measured(program, shared, situation)
    if found > LONGEST_WAIT:
        raise Wrong(f"while there are {situation}, a calm customer's mail takes", found)
