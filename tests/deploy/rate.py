"""How many calls a second go through nginx to one desk, and to three beside each other."""
import contextlib
import multiprocessing
import re
import socket
import time

from deploying import Desk, Proxy
from serving import LONGEST, RELAY, Wrong, expect, request, submission

CUSTOMERS, CLIENTS, SECONDS = 1000, 16, 1.5


def rows(desk):
    return [f"c{desk}-{it},key{desk}customer{it:09d},1000,500000000,100,100,14400"
            for it in range(CUSTOMERS)]


class Connection:
    """A worker's connection to nginx that is kept, as bytes, so that a client costs little time."""

    def __init__(self, address):
        self.host, _, port = address.rpartition(":")
        self.port, self.client, self.left = int(port), None, 0

    def ask(self, path, body):
        """The status line and the body of a reply."""
        if not self.left:
            # (nginx closes a connection after a thousand requests)
            self.client = socket.create_connection((self.host, self.port), timeout=LONGEST)
            self.client.setsockopt(socket.IPPROTO_TCP, socket.TCP_NODELAY, 1)
            self.left = 900
        self.left -= 1
        self.client.sendall(request("POST", path, RELAY, body))
        told = b""
        while b"\r\n\r\n" not in told or len(told) < whole(told):
            more = self.client.recv(65536)
            expect(more, "nginx closed a connection behind", told)
            told += more
        return told.split(b"\r\n", 1)[0], told[told.index(b"\r\n\r\n") + 4:]


def whole(told):
    """How long a response is, by its head."""
    head = told[:told.index(b"\r\n\r\n") + 4]
    return len(head) + int(re.search(rb"(?i)content-length: (\d+)", head)[1])


def client(address, place, desks, end, told):
    """Submits for one customer after another, of each desk in turn; tells how many were taken."""
    number, wrong, connection = 0, None, Connection(address)
    try:
        while time.monotonic() < end and not wrong:
            name = f"c{number % desks}-{(place * 60 + number // desks) % CUSTOMERS}"
            asked = f"/relay/submit/{name}", submission(f"s{place}-{number}")
            status, reply = connection.ask(*asked)
            is_done = status == b"HTTP/1.1 200 OK" and b'"verdict":"queued"' in reply
            wrong = None if is_done else (status, reply)
            number += 1
    except (Wrong, OSError) as fault:
        wrong = repr(fault)
    told.put((number, wrong))


def rate(proxy, desks):
    """Calls a second of some clients at once."""
    told = multiprocessing.Queue()
    begun = time.monotonic()
    them = [multiprocessing.Process(target=client, daemon=True,
                                    args=(proxy.inner, it, desks, begun + SECONDS, told))
            for it in range(CLIENTS)]
    for it in them:
        it.start()
    found = [told.get(timeout=LONGEST) for _ in them]
    took = time.monotonic() - begun
    for it in them:
        it.join(LONGEST)
    for _, wrong in found:
        expect(not wrong, "a submission through nginx got", wrong)
    return sum(number for number, _ in found) / took


def rates(folder, program):
    """The greater of two rates of each, which take turns; all stores are empty at first."""
    found = {1: [], 3: []}
    for turn in range(2):
        for desks, them in found.items():
            place = folder / f"{desks}-desks-{turn}"
            place.mkdir()
            them.append(rate_of(place, program, desks))
    return (f"submissions a second through nginx of {CLIENTS} clients: {max(found[1]):.0f} to one "
            f"desk of {CUSTOMERS} customers, {max(found[3]):.0f} to three")


def rate_of(place, program, desks):
    """The rate of desks that are begun for it."""
    with contextlib.ExitStack() as kept:
        them = [Desk(place, program, f"d{it}", rows(it)) for it in range(desks)]
        for it in them:
            kept.enter_context(it)
        return rate(kept.enter_context(Proxy(place / "proxy", them)), desks)
