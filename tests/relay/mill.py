"""A mill: mail of three customers under kills, hangs and full disks that a seed draws, and then what became of each recipient.

Hosts accept, refuse, defer, hang, drip, and cut behind RCPT or behind the dot; customers hold, release, queue anew and delete; desks,
intake, delivery and both instances of Postfix are killed, reloaded or hang. Then all is started again and left to settle. Each
recipient that Postfix took must have been delivered once, or told as failed once, or deleted by its customer.
"""
import asyncio
import contextlib
import json
import random
import re
import signal
import smtplib
import socket
import socketserver
import sqlite3
import threading
import time

import small_disk
from hq_relay.intake.incoming import spool_name
from machine import DOMAINS, WIDE, Desk, Relay
from serving import HEADER, KEYS, Wrong, expect, free_address, named
from sinks import ACCEPTS, DEFERS, REFUSES, Sink, whole

HOSTS = ["good"] * 6 + ["hard"] * 2 + ["soft", "hang", "drip", "cutr", "cutd", "dead"]
# So many seconds all goes wrong, and so many it may take to settle; the size of the spool's disk; messages of each client.
CHAOS, LONGEST_SETTLING, DISK, MESSAGES = 25.0, 240.0, "24m", 12
# So many times a host says no before it takes mail; and how near a kill of the delivering Postfix a doubled mail may be.
TRIES, NEAR = 2, 6.0
SETTINGS = {"desk": {"timeout": "8"},
            "delivery": {"timeout": "4", "settle-after": "3", "lost-after": "12", "clean-every": "5", "sweep-every": "5"}}
NARROW = "30,500000000,1000,1000,0"
KINDS = (["kill intake", "kill desk"] * 3 + ["kill deliver"] * 9 + ["kill front", "kill delivering", "reload delivering", "desk hangs"] * 2
         + ["reload front", "signal intake", "signal deliver", "full disk", "replies lost"])
CALLS = ["requeue", "delete", "hold", "requeue"]
STRANGE = [b".", b"..", b".x", b"", b"From x", b"\xff\xfe\x80", b" ", b"\t.", b"x" * 990, b"=20", b"." * 900, b"--b", b"QUIT"]
# What the worker tells of a fault of its own.
FAULTS = re.compile(r"turn failed|round failed|not looked after|session failed|report of nobody|message not quoted|report not read|"
                    r"foreign mail|lost notices|begin anew")


def host_of(recipient):
    return recipient.partition("@")[2].partition(".")[0]


class Host(Sink):
    """A sink of many hosts, told apart by the recipient's domain; it knows when it took what, and is benign in the end."""

    def __init__(self):
        super().__init__(self.by_host)
        self.is_benign, self.chance, self.taken, self.tried = False, random.Random(0), [], {}

    def says_no(self, recipient):
        self.tried[recipient] = self.tried.get(recipient, 0) + 1
        return not self.is_benign and self.tried[recipient] <= TRIES

    def by_host(self, recipient):
        host = host_of(recipient)
        if host == "cutr" and self.says_no(recipient):
            raise ConnectionResetError("the host drops the connection")
        return REFUSES if host == "hard" else DEFERS if host == "soft" and self.says_no(recipient) else ACCEPTS

    async def handle_DATA(self, server, session, envelope):
        host = host_of(envelope.rcpt_tos[0])
        while host == "hang" and not self.is_benign:
            await asyncio.sleep(0.05)
        if host == "drip" and not self.is_benign:
            await asyncio.sleep(self.chance.uniform(0.2, 7.0))
        if host == "cutd" and self.says_no(envelope.rcpt_tos[0]):
            raise ConnectionResetError("the host drops the connection")
        self.taken += [(time.monotonic(), it, envelope.mail_from, envelope.content) for it in envelope.rcpt_tos]
        return "250 2.0.0 taken"


class Proxy(socketserver.ThreadingTCPServer):
    """Stands before the desks: a request goes to that of the customer in its path. A desk may hang, or its replies are lost."""
    allow_reuse_address, daemon_threads, block_on_close, request_queue_size = True, True, False, 200

    def __init__(self, desks):
        super().__init__(("127.0.0.1", 0), Passed)
        self.desks, self.hung, self.loses, self.address = desks, set(), set(), self.server_address

    def __enter__(self):
        threading.Thread(target=self.serve_forever, daemon=True).start()
        return self

    def __exit__(self, *_):
        self.shutdown()
        self.server_close()

    def handle_error(self, *_):
        """A desk or a client that goes away is no error."""

    def desk_of(self, path):
        """The desk of a path; of a call of all customers none where there are several."""
        return self.desks.get(path.rpartition("/")[2]) or (self.desks["acme"] if len(set(self.desks.values())) == 1 else None)


class Passed(socketserver.BaseRequestHandler):
    def handle(self):
        proxy, asked = self.server, b""
        while not whole(asked):
            piece = self.request.recv(65536)
            if not piece:
                return
            asked += piece
        desk = proxy.desk_of(asked.split(b" ", 2)[1].decode())
        if not desk:
            self.request.sendall(b"HTTP/1.1 404 Not Found\r\nContent-Length: 2\r\nConnection: close\r\n\r\n{}")
            return
        while desk in proxy.hung:
            time.sleep(0.05)
        with socket.create_connection(desk.address, timeout=30) as client:
            client.sendall(asked)
            reply = b"".join(iter(lambda: client.recv(65536), b""))
        if desk not in proxy.loses:
            self.request.sendall(reply)


def text_of(chance, customer, token):
    """A message with strange lines, as bytes."""
    lines = [f"From: <ann@{DOMAINS[customer]}>", "To: <x@y.example>", f"Subject: {token}", "Date: Mon, 30 Nov 2026 00:00:00 +0000",
             f"Message-ID: <{token}>", ""]
    body = [chance.choice(STRANGE) if chance.random() < 0.5 else bytes(chance.choices(range(33, 127), k=chance.randrange(70)))
            for _ in range(chance.choice([0, 1, 5, 60, 900]))]
    return b"\r\n".join([*(it.encode() for it in lines), *body, b""])


class Mill:
    """`customer` and `content` are by recipient; `accepted` whom Postfix took for sure, and `unsure` whom it may have; `deleted` has
    since when, and in which state."""

    def __init__(self, relay, host, proxy, disk, seed):
        self.it, self.host, self.proxy, self.desks, self.disk, self.seed = relay, host, proxy, proxy.desks, disk, seed
        self.postfix, self.delivering = relay.postfix, relay.shared.delivering
        self.chance, self.meddling = random.Random(seed), random.Random(seed + 0.5)
        self.customer, self.content, self.accepted, self.unsure, self.wants, self.deleted = {}, {}, set(), set(), set(), {}
        self.events, self.is_over, self.begun = [], threading.Event(), time.monotonic()
        self.start_intake()
        self.start_delivery()

    def note(self, what):
        self.events.append((time.monotonic(), what))

    # ---- clients and customers

    def send_all(self, customer, number):
        chance = random.Random(f"{self.seed}.{customer}.{number}")
        for at in range(MESSAGES):
            names = [f"{customer[0]}{number}x{at}r{one}@{chance.choice(HOSTS)}.example" for one in range(chance.choice([1, 1, 1, 2, 4]))]
            text, wants = text_of(chance, customer, names[0]), chance.random() < 0.2
            self.customer.update(dict.fromkeys(names, customer))
            self.content.update(dict.fromkeys(names, text))
            with contextlib.suppress(OSError, smtplib.SMTPException):
                self.send(customer, names, text, wants)
            self.is_over.wait(chance.uniform(0.0, 1.4 * CHAOS / MESSAGES))

    def send(self, customer, names, text, wants):
        with smtplib.SMTP(*self.postfix.address, timeout=60) as client:
            client.ehlo("client.example")
            client.mail(f"ann@{DOMAINS[customer]}", ["BODY=8BITMIME"])
            taken = [it for it in names if client.rcpt(it, ["NOTIFY=SUCCESS,FAILURE"] if wants else ())[0] == 250]
            if taken:
                self.unsure.update(taken)
                code, _ = client.data(text)
                self.unsure.difference_update(taken)
                self.accepted.update(taken if code == 250 else ())
                self.wants.update(taken if wants else ())

    def meddle_on(self):
        while not self.is_over.wait(self.meddling.uniform(0.0, 0.5)):
            with contextlib.suppress(OSError, Wrong, ValueError):
                customer = self.meddling.choice([*KEYS])
                rows = self.desks[customer].messages(customer)
                for row in self.meddling.sample(rows, min(2, len(rows))):
                    self.meddle(customer, row)

    def meddle(self, customer, row):
        desk, key = self.desks[customer], KEYS[customer]
        status, told = desk.ask("GET", f"/v1/message/{row['id']}", key)
        if status != 200:
            return
        call = "release" if row["state"] == "hold" else self.meddling.choice(CALLS)
        if call != "delete":
            desk.ask("POST", f"/v1/{call}/{row['id']}", key)
            return
        # (a desk that is killed may have done it)
        address = told["pending"][0]["address"]
        self.deleted[address] = time.monotonic(), row["state"]
        status, _ = desk.ask("DELETE", f"/v1/message/{row['id']}", key)
        if status != 200:
            del self.deleted[address]

    # ---- what goes wrong

    def start_intake(self):
        for _ in range(50):
            with contextlib.suppress(Wrong):
                self.intake = self.it.intake()
                return
            time.sleep(0.3)
        raise Wrong("the intake does not start")

    def start_delivery(self):
        self.delivery = self.it.run("deliver")

    def go_wrong(self, kind):
        self.note(kind)
        how, what = kind.split()
        pause, desk = self.chance.uniform(0.0, 1.5), self.chance.choice([*self.desks.values()])
        parts = {"intake": (lambda: self.intake.kill(), self.start_intake), "deliver": (lambda: self.delivery.kill(), self.start_delivery),
                 "desk": (desk.kill, desk.start), "front": (self.postfix.kill, self.postfix.start),
                 "delivering": (self.delivering.kill, self.delivering.start)}
        if how == "kill":
            stop, start = parts[what]
            stop()
            time.sleep(pause)
            start()
        elif how == "reload":
            (self.postfix if what == "front" else self.delivering).run("postfix", "reload")
        elif how == "signal":
            (self.intake if what == "intake" else self.delivery).process.send_signal(signal.SIGHUP)
        elif kind == "full disk":
            small_disk.fill(self.disk / "filler")
            time.sleep(1 + pause)
            (self.disk / "filler").unlink()
        else:
            those = self.proxy.hung if kind == "desk hangs" else self.proxy.loses
            those.add(desk)
            time.sleep(1 + 2 * pause)
            those.discard(desk)

    def grind(self):
        clients = [threading.Thread(target=self.send_all, args=(name, number), daemon=True) for name in KEYS for number in range(2)]
        clients.append(threading.Thread(target=self.meddle_on, daemon=True))
        for one in clients:
            one.start()
        end = time.monotonic() + CHAOS
        while time.monotonic() < end:
            self.go_wrong(self.chance.choice(KINDS))
            time.sleep(self.chance.uniform(0.0, 1.0))
        self.is_over.set()
        for one in clients:
            one.join(90)
            expect(not one.is_alive(), "a client hangs")

    # ---- the end

    def is_quiet(self):
        is_pending = any(desk.usage(name)["pending"] for name, desk in self.desks.items())
        return not (is_pending or self.postfix.queue() or self.delivering.queue())

    def settle(self):
        """Everybody is well again; whether nothing is under way any more."""
        self.note("settling")
        self.host.is_benign = True
        self.delivery.kill()
        self.start_delivery()
        end, quiet, rounds = time.monotonic() + LONGEST_SETTLING, 0, 0
        while quiet < 3 and time.monotonic() < end:
            rounds += 1
            for name, desk in self.desks.items() if rounds % 5 == 1 else ():
                desk.own(name, "POST", "/v1/hold-all")
                desk.own(name, "POST", "/v1/release-all")
            if rounds % 10 == 0:
                # (what Postfix finds locked lies there until its queue manager wakes up, behind 300 s)
                self.postfix.flush()
                self.delivering.flush()
            time.sleep(1)
            quiet = quiet + 1 if self.is_quiet() else 0
        time.sleep(2)
        return quiet >= 3

    def queued(self):
        """Who lies in a queue of the front, or of a desk."""
        found = {it["address"] for one in self.postfix.queue() for it in one["recipients"]}
        for name, desk in self.desks.items():
            shown = (desk.ask("GET", f"/v1/message/{row['id']}", KEYS[name]) for row in desk.messages(name))
            found.update(it["address"] for status, told in shown if status == 200 for it in told["pending"])
        return found

    def notices(self, action):
        """How often senders are told of each recipient by a notice of this action, also by those that still wait."""
        with contextlib.closing(sqlite3.connect(self.disk / "spool/book.db")) as book:
            texts = [text for text, in book.execute("SELECT content FROM waiting")]
        found = {}
        for text in [*texts, *(it[2] for it in list(self.it.senders.mail))]:
            own = text.split(b"text/rfc822-headers")[0]
            if b"X-Desk-Queue-Id: " in own and b"Action: " + action in own:
                for one in re.findall(rb"Final-Recipient: rfc822; ?(\S+)", own):
                    found[one.decode()] = found.get(one.decode(), 0) + 1
        return found

    def judge(self, is_settled):
        """What is wrong; and what came twice or late as docs/RELAY-STOPS.md has it."""
        told, wrong, known, times = self.it.told(), [], [], {}
        failures, success, bounces = self.notices(b"failed"), self.notices(b"relayed"), [it for it, _ in self.it.bounces()]
        for at, to, sender, content in list(self.host.taken):
            times.setdefault(to, []).append(at)
            if sender != f"ann@{DOMAINS[self.customer[to]]}" or to not in self.accepted | self.unsure:
                wrong.append(f"crossed {to} from {sender}")
            if not content.endswith(b"\r\n" + self.content[to]):
                wrong.append(f"changed {to}: {content[-300:]!r}")
        # (a notice may wait on the desk when the time is over)
        queued = set() if is_settled else self.queued() | set(re.findall(r"outcomes=(\S+):failed", told))
        if not is_settled:
            wrong.append(f"not settled: {sorted(queued)[:9]}, {len(self.delivering.queue())} in the delivering Postfix")
        kills = [at for at, what in self.events if what == "kill delivering"]
        lost = re.findall(r'"no report".*? spool=(\S+)', told)
        for to in sorted(self.accepted):
            count, failed, deleted = len(times.get(to, [])), failures.get(to, 0) + bounces.count(to), self.deleted.get(to)
            if not (count or failed or deleted or to in queued):
                wrong.append(f"lost {to}")
            if count and failed:
                wrong.append(f"delivered and failed {to}")
            if count > 1:
                is_near = any(abs(kill - at) < NEAR for kill in kills for at in times[to][:-1])
                is_known = is_near or deleted or any(spool_name(it.partition("-")[0], to) == it for it in lost)
                (known if is_known else wrong).append(f"doubled {to} at {[round(it - self.begun, 1) for it in times[to]]}")
            if failed > 1:
                (known if "notice may come twice" in told else wrong).append(f"told twice {to}")
            if count and to in self.wants and to not in success:
                wrong.append(f"delivered without a notice of it {to}")
        known += [it for it in told.splitlines() if FAULTS.search(it) and "disk" not in it]
        return wrong, known


@contextlib.contextmanager
def mill(program, shared, seed):
    """A mill that is ready to grind: of two desks, or of one; and with a customer of few messages."""
    limits = {**dict.fromkeys(KEYS, WIDE), **({"cedar": NARROW} if seed % 4 == 1 else {})}
    disk, small_disk.SIZE = shared.postfix.folder / f"disk{seed}", DISK
    with contextlib.ExitStack() as entered:
        host = entered.enter_context(Host())
        entered.enter_context(small_disk.small_disk(disk))
        it = entered.enter_context(Relay(program, shared, limits))
        desks, several = dict.fromkeys(KEYS, it.desk), {}
        if seed % 3:
            (it.folder / "south").mkdir()
            rows = (f"{name},{KEYS[name]},{limits[name]}\n" for name in ("birch", "cedar"))
            (it.folder / "south/customers.csv").write_text(HEADER + "".join(rows))
            south = Desk(program, it.folder / "south")
            entered.callback(south.kill)
            south.start()
            desks.update(birch=south, cedar=south)
            it.write("desks.csv", "customer,desk", "acme,north", "birch,south", "cedar,south")
            several = {"desks": "desks.csv"}
        proxy = entered.enter_context(Proxy(desks))
        hops = {f"{name}.example": host.address for name in HOSTS}
        shared.delivering.route({**hops, "dead.example": free_address()})
        it.set(desk={"address": named(proxy.address), **several, **SETTINGS["desk"]}, spool={"folder": disk / "spool"},
               delivery=SETTINGS["delivery"])
        ground = Mill(it, host, proxy, disk, seed)
        yield ground
        shared.delivering.route(shared.hops())


def ground(program, shared, seed, keep=None):
    """What was wrong behind a seed, what was as the documents have it, and numbers; `keep` is a folder for its logs."""
    with mill(program, shared, seed) as it:
        it.grind()
        shared.delivering.route({f"{name}.example": it.host.address for name in HOSTS})
        wrong, known = it.judge(it.settle())
        kills = [what for _, what in it.events]
        numbers = {"seed": seed, "accepted": len(it.accepted), "delivered": len(it.host.taken), "failed": len(it.notices(b"failed")),
                   "deleted": len(it.deleted), "kills": {what: kills.count(what) for what in sorted(set(kills)) if what != "settling"},
                   "seconds": round(time.monotonic() - it.begun)}
        if keep and (wrong or known):
            keep.mkdir(parents=True, exist_ok=True)
            for name, text in (("worker", it.it.told()), ("front", it.postfix.told()), ("delivering", it.delivering.told()),
                               ("judged", "\n".join([json.dumps(numbers), *wrong, "--", *known])),
                               ("events", "".join(f"{at - it.begun:.2f} {what}\n" for at, what in it.events))):
                (keep / name).write_text(text)
        return wrong, known, numbers
