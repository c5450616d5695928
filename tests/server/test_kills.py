"""Kills a server under load, again and again.

Two clients of acme and two of birch ask a server at once, whose store is in a file: they submit messages, and hold, release,
requeue and delete their own; they put lines and drop them. Each reply is compared with what it must be. At a random moment
the server is killed (SIGKILL) and started again on the same store, COUNT times, 200 without it; now and then it is killed
while it starts, too. After each start, before anybody else asks:

1. What each customer has is what it was answered: its messages with their states, its lines, and its usage, in which all
   accepted and deleted recipients of all the time are counted. No queue ID was given twice.
2. Of the calls under way, at most one of each client, each is done or not. Several may be done, since they share a commit.
3. A third customer, cedar, that changes nothing, reads byte for byte what it read at first: under load, too.

The seed is told; without one the clock gives it.
"""
import json
import random
import socket
import subprocess
import threading
import time
from collections import Counter
from itertools import cycle

from serving import DIRECTORY, KEYS, LONGEST, RELAY, Server, Wrong, expect, request, response, submission, words
from tool import Workers

CLIENTS = ("acme", "birch", "acme", "birch")
MOST = 20  # messages of one client, and lines
CONNECTIONS = 1_000_000
CALLS = {"hold": ("POST", "hold"), "release": ("POST", "release"), "requeue": ("POST", "requeue"),
         "delete": ("DELETE", "message")}
READ_BY_CEDAR = ["messages", *(f"message/{it:010X}" for it in range(1, 5)), "lines", "notices", "usage", "report"]


def response_to(address, sent):
    """The response to a request, whole; None where none came, and False where nobody listened. One that came whole counts,
    whatever becomes of its connection then."""
    told = b""
    try:
        with socket.create_connection(address, timeout=LONGEST) as client:
            client.sendall(sent)
            while True:
                more = client.recv(65536)
                if not more:
                    break
                told += more
    except socket.timeout:
        raise Wrong(sent, "has no response") from None
    except ConnectionRefusedError:
        return False
    except OSError:
        pass
    head, _, body = told.partition(b"\r\n\r\n")
    return told if f"Content-Length: {len(body)}\r\n".encode() in head + b"\r\n" else None


class Customer:
    """What a customer's clients share."""

    def __init__(self, name):
        self.name, self.key, self.lock, self.given, self.clients = name, KEYS[name], threading.Lock(), set(), []
        self.accepted = self.deleted = 0

    def gives(self, serial):
        """A queue ID that was given now, and never before."""
        with self.lock:
            expect(serial not in self.given, self.name, "was given the queue ID", serial, "twice")
            self.given.add(serial)


class Client:
    """A client of a customer: what it was answered that it has, and its call under way, if there is one."""

    def __init__(self, customer, number, seed):
        self.customer, self.number, self.random = customer, number, random.Random(f"{seed}/{number}")
        # the spool name and the state of each message by its queue ID, and lines
        self.queued, self.lines, self.made, self.under_way, self.counts = {}, {}, 0, None, Counter()
        customer.clients.append(self)

    def draw(self):
        """A call that its customer can do now: its kind, and of what."""
        self.made += 1
        kinds = ["submit"] * 3 if len(self.queued) < MOST else []
        on_hold = [it for it, (_, state) in self.queued.items() if state == "hold"]
        others = [it for it in self.queued if it not in on_hold]
        kinds += ["hold", "delete", "delete", "requeue"] if others else []
        kinds += ["release"] if on_hold else []
        kinds += ["drop"] if self.lines else []
        kinds += ["put"] if len(self.lines) < MOST else []
        kind = self.random.choice(kinds)
        if kind in ("submit", "put"):
            return kind, f"c{self.number}-{self.made}"
        return kind, self.random.choice({"release": on_hold, "drop": [*self.lines]}.get(kind, others))

    def request_of(self, kind, what):
        if kind == "submit":
            return request("POST", f"/relay/submit/{self.customer.name}", RELAY, submission(what))
        line = {"class": "sender", "pattern": f"{what}.example"}
        if kind == "put":
            return request("POST", "/v1/line-put", self.customer.key, {**line, "action": "REJECT"})
        if kind == "drop":
            return request("POST", "/v1/line-drop", self.customer.key, line)
        method, path = CALLS[kind]
        return request(method, f"/v1/{path}/{what}", self.customer.key)

    def work(self, address):
        """Asks until the server is gone; what was under way then is left so."""
        while True:
            kind, what = self.under_way = self.draw()
            sent = self.request_of(kind, what)
            told = response_to(address, sent)
            if not told:
                self.under_way = self.under_way if told is None else None
                return
            body = {"put": '{"put":"added"}', "drop": '{"dropped":1}'}.get(kind, '{"changed":1}')
            serial = None
            if kind in ("submit", "requeue"):
                serial = json.loads(told.partition(b"\r\n\r\n")[2]).get("id")
                body = f'{{"id":"{serial}"}}'
                if kind == "submit":
                    rest = '"recipients":["bob@far.example"],"refused":[],"state":"incoming","verdict":"queued"'
                    body = f'{{"id":"{serial}",{rest}}}'
            expect(told == response(200, body), sent, "got", told)
            self.is_done(kind, what, serial)
            self.counts.update([kind])
            self.under_way = None

    def is_done(self, kind, what, serial):
        """A call is done: it was answered, or was under way and found done."""
        if kind == "submit":
            self.customer.gives(serial)
            self.queued[serial] = what, "incoming"
        elif kind == "requeue":
            self.customer.gives(serial)
            self.queued[serial] = self.queued.pop(what)[0], "incoming"
        elif kind == "delete":
            del self.queued[what]
        elif kind in ("hold", "release"):
            self.queued[what] = self.queued[what][0], "hold" if kind == "hold" else "deferred"
        elif kind == "put":
            self.lines[what] = "REJECT"
        else:
            del self.lines[what]
        with self.customer.lock:
            self.customer.accepted += kind == "submit"
            self.customer.deleted += kind == "delete"

    def settle(self, listed, lines, strange):
        """Whether the call under way was done, by what is found: the states by queue ID, the lines, and the queue IDs of
        messages that nobody was told of by their spool names."""
        kind, what = self.under_way
        self.under_way = None
        serial = None
        if kind in ("submit", "requeue"):
            serial = strange.pop(what if kind == "submit" else self.queued[what][0], None)
            found = serial is not None
        else:
            found = {"delete": what not in listed, "hold": listed.get(what) == "hold", "release": listed.get(what) == "deferred",
                     "put": what in lines, "drop": what not in lines}[kind]
        if found:
            self.is_done(kind, what, serial)
        return found


# ---- what is found after a start

def pages(server, path, key, member, after):
    """All entries of a list, page by page; `after` tells the request for the page after an entry."""
    told = json.loads(server.body_of(request("GET", path, key)))
    found = told[member]
    while told["more"]:
        told = json.loads(server.body_of(after(found[-1])))
        found += told[member]
    return found


def lines_of(server, key):
    def after(line):
        return request("POST", "/v1/lines-after", key, {"class": line["class"], "pattern": line["pattern"]})
    return {it["pattern"][:-len(".example")]: it["action"] for it in pages(server, "/v1/lines", key, "lines", after)}


def settled(server, customer):
    """What a customer has is what its clients were answered; answers how many calls were under way, and how many are done."""
    key, clients = customer.key, customer.clients
    after = lambda it: request("GET", f"/v1/messages-after/{it['id']}", key)
    listed = {it["id"]: it["state"] for it in pages(server, "/v1/messages", key, "messages", after)}
    lines = lines_of(server, key)
    known = {serial for client in clients for serial in client.queued}
    strange = {}
    for serial in listed.keys() - known:
        spool = json.loads(server.body_of(request("GET", f"/v1/message/{serial}", key)))["spool"]
        expect(spool not in strange, customer.name, "has two messages of the spool name", spool)
        strange[spool] = serial
    under_way = [it for it in clients if it.under_way]
    asked = [it.under_way for it in under_way]
    done = sum(it.settle(listed, lines, strange) for it in under_way)
    told = customer.name, "with the calls under way", asked
    states = {serial: state for client in clients for serial, (_, state) in client.queued.items()}
    expect(strange == {}, *told, "has messages that nobody submitted", strange)
    expect(listed == states, *told, "has the messages", listed, "and was answered that it has", states)
    kept = {name: action for client in clients for name, action in client.lines.items()}
    expect(lines == kept, *told, "has the lines", lines, "and was answered that it has", kept)
    usage = json.loads(server.body_of(request("GET", "/v1/usage", key)))
    wanted = {"accepted": customer.accepted, "bytes": 900 * len(states), "deleted": customer.deleted, "delivered": 0,
              "expired": 0, "failed": 0, "lines": len(kept), "messages": len(states), "pending": len(states)}
    expect(usage == wanted, *told, "has the usage", usage, "and not", wanted)
    return len(under_way), done


def read_by_cedar(server):
    """What cedar reads, byte for byte; the last of its messages is none."""
    told = []
    for path in READ_BY_CEDAR:
        with server.connect() as client:
            client.sendall(request("GET", f"/v1/{path}", KEYS["cedar"]))
            told.append(server.received(client))
    return told


def reads_on(address, wanted):
    """Cedar reads under load, until the server is gone."""
    for path, want in cycle(zip(READ_BY_CEDAR, wanted)):
        told = response_to(address, request("GET", f"/v1/{path}", KEYS["cedar"]))
        if not told:
            return
        expect(told == want, "under load cedar reads", told, "and not", want)


def filled(server):
    """Cedar has a few messages and lines."""
    key = KEYS["cedar"]
    for number in range(1, 4):
        server.body_of(request("POST", "/relay/submit/cedar", RELAY, submission(f"s{number}")))
    server.body_of(request("POST", "/v1/hold/0000000002", key))
    server.body_of(request("POST", "/v1/import", key, {"label": "jan", "csv": "class,pattern,action\nsender,a.example,HOLD\n"}))
    return read_by_cedar(server)


# ---- kills

def killed(server):
    """Kills a server, which told nothing more."""
    server.process.kill()
    told = server.process.communicate(timeout=LONGEST)
    server.stop()
    expect(told == (b"", b""), "a server that was killed had told", told)


def killed_at_its_start(asked, folder, seconds):
    with subprocess.Popen([*asked, "--listen", "127.0.0.1:0"], stdin=subprocess.DEVNULL, stdout=subprocess.DEVNULL,
                          stderr=subprocess.PIPE, cwd=folder) as process:
        time.sleep(seconds)
        process.kill()
        _, errors = process.communicate(timeout=LONGEST)
    expect(errors == b"" and process.returncode == -9, "a start ended with", process.returncode, errors)


class Kills:
    """A store, the clients that use it, and what was counted of them; `wanted` is what cedar read at first."""

    def __init__(self, program, folder, seed):
        self.asked, self.folder, self.drawn = words(program, "serve", "desk.db"), folder, random.Random(seed)
        self.customers = [Customer(it) for it in dict.fromkeys(CLIENTS)]
        by_name = {it.name: it for it in self.customers}
        self.clients = [Client(by_name[name], number, seed) for number, name in enumerate(CLIENTS)]
        self.counts, self.wanted = Counter(), None

    def is_found(self, server):
        """Nobody has asked since the start: each customer has what it was answered, and cedar what it had."""
        self.wanted = self.wanted or filled(server)
        found = [settled(server, it) for it in self.customers]
        under_way, done = (sum(it) for it in zip(*found))
        told = read_by_cedar(server)
        expect(told == self.wanted, "cedar reads", told, "and not", self.wanted)
        self.counts.update(under_way=under_way, done=done)

    def kill(self, workers):
        """A server is started, looked at, and killed while all clients ask it."""
        begun = time.monotonic()
        server = Server(self.asked, self.folder, CONNECTIONS)
        taken = time.monotonic() - begun
        try:
            self.is_found(server)
            jobs = [workers.submit(it.work, server.address) for it in self.clients]
            jobs.append(workers.submit(reads_on, server.address, self.wanted))
            time.sleep(self.drawn.uniform(0, 0.06))
            killed(server)
            for job in jobs:
                job.result(LONGEST)
        finally:
            server.stop()
        if self.drawn.random() < 0.1:
            killed_at_its_start(self.asked, self.folder, self.drawn.uniform(0, taken * 1.2))
            self.counts.update(starts=1)

    def end(self):
        """What the last kill left is looked at, too."""
        server = Server(self.asked, self.folder, CONNECTIONS)
        try:
            self.is_found(server)
        finally:
            server.stop()


def test_kills(program, folder, count=200):
    """A server is killed under load; the seed is the clock's, and is told."""
    seed = str(int(time.time()))
    print("the seed is", seed)
    (folder / "customers.csv").write_text(DIRECTORY + f"cedar,{KEYS['cedar']},100,1000000,100,10,0\n")
    with Workers(len(CLIENTS) + 1) as workers:
        them = Kills(program, str(folder), seed)
        for kill in range(count + 1):
            them.kill(workers) if kill < count else them.end()
    calls = sum((it.counts for it in them.clients), Counter())
    expect(calls["submit"] >= count / 10 and calls["delete"] >= count / 20, "only so much was answered:", dict(calls))
