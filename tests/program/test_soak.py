"""Random lines over each store.

20,000 lines of some customers and of the relay are made from a seed while the program replies to them over a store in memory:
calls of each kind, on what is there and on what is not, and lines that are refused. They are lines of five customers with room
for much, and others of the two built-in customers, who have room for little. They are replied to again over a file that is
closed and opened again nine times, and those of the built-in customers over plain lists too:

1. All these tell the same, byte for byte.
2. The lines of one customer alone, those of the relay for it among them, are told the same as among all the others'.
3. Each kind of call was answered 200, and each refusal that such lines can meet was told. The same seed makes the same lines on
one version of Python.
"""
import json
import random
import re
import subprocess

import pytest
from serving import ACME, BIRCH, HEADER, LONGEST, RELAY, Wrong, words
from stores_files import DIRECTORY

START = 1767225600
# The customers of a run: each of five has room for 1,000 messages, and the built-in ones for 2 and for 100.
FIVE = {"acme": ACME, **{f"birch{it}": f"birchkey{it:08}" for it in range(2, 6)}}
BUILT_IN = {"acme": ACME, "birch": BIRCH}
SENDERS = ["", "ann@a.example", "Ann+news@b.a.example", "eve@c.example"]
ADDRESSES = ["p@far.example", "P@FAR.example", "q@far.example", "r+s@near.example", "t@near.example", "u@x.near.example"]
PATTERNS = ["ann@", ".c.example", "eve@c.example", "q@far.example", "r@near.example", ".near.example", "t@", "<>"]
ACTIONS = ["OK", "ok  later", "REJECT", "reject no thanks", "DEFER", "defer  not now", "HOLD", "hold  check with sales",
           "DISCARD", "DUNNO", "REDIRECT one@r.example"]
BAD = [
    ("GET", "/v1/messages?x", ""),
    ("PUT", "/v1/messages", ""),
    ("GET", "/v1/message/0", ""),
    ("GET", "/v1/notice/01", ""),
    ("GET", "/v1/hold-all", ""),
    ("POST", "/v1/hold/1", ""),
    ("POST", "/v1/check", "{"),
    ("POST", "/v1/check", "[]"),
    ("POST", "/v1/check", '{"class":"sender","address":"a@b@c"}'),
    ("POST", "/v1/line-put", '{"class":"sender","pattern":"@","action":"OK"}'),
    ("POST", "/v1/line-put", '{"class":"sender","pattern":"a.example","action":"BOUNCE"}'),
    ("POST", "/v1/import", '{"label":"a b","csv":""}'),
]
# The refusals of random lines: all but those of what is spent, of directories and of the longest bodies; and those of quotas.
QUOTAS = {40, 41, 42}
REFUSALS = {1, 2, 3, 4, 5, 7, 8, 10, 11, 12, 13, 20, 23, 24, 25, 26, 27, 28, 30, 31, 32, 33, 50, 51, 52}


class Desk:
    """A program that is asked line by line."""

    def __init__(self, asked):
        self.process = subprocess.Popen(asked, stdin=subprocess.PIPE, stdout=subprocess.PIPE, stderr=subprocess.PIPE)

    def ask(self, line):
        self.process.stdin.write(line + b"\n")
        self.process.stdin.flush()
        reply = self.process.stdout.readline()
        if not reply.endswith(b"\n"):
            raise Wrong(f"no reply to {line.decode(errors='replace')}")
        return reply[:-1]

    def end(self):
        _, errors = self.process.communicate(timeout=LONGEST)
        if (self.process.returncode, errors) != (0, b""):
            raise Wrong("the program ended with", self.process.returncode, errors)


class Lines:
    """Random lines and their replies, each with the customer that it asks for, if any, and its kind."""

    def __init__(self, seed, desk, customers):
        self.random, self.desk, self.customers, self.at = random.Random(seed), desk, customers, START
        self.made, self.told = [], []
        # for each customer its queue IDs, each with the recipients that it was told for
        self.queued = {customer: {} for customer in customers}

    def tell(self, kind, customer, line):
        reply = self.desk.ask(line)
        self.made.append((kind, customer, line))
        self.told.append(reply)
        return json.loads(reply[4:]) if reply.startswith(b"200 ") else {}

    def add(self, kind, customer, method, path, key, body=""):
        return self.tell(kind, customer, f"{self.at} {method} {path} {key} {body}".rstrip(" ").encode())

    def own(self, kind, customer, method, path, body=None):
        return self.add(kind, customer, method, path, self.customers[customer], "" if body is None else json.dumps(body))

    def relay(self, kind, customer, body=None):
        body = "" if body is None else json.dumps(body)
        return self.add(kind, customer, "POST", f"/relay/{kind}/{customer}", RELAY, body)

    def pick(self, of, most=1):
        return [self.random.choice(of) for _ in range(self.random.randint(1, most))]

    def one(self, of):
        return self.random.choice(of)

    def serial(self, customer):
        """A queue ID: mostly one that the customer had of late."""
        late = [*self.queued[customer]][-20:]
        return self.one(late) if late and self.one(range(9)) else f"{self.random.randint(1, len(late) + 2):010X}"

    def pattern(self):
        return {"class": self.one(["sender", "recipient"]), "pattern": self.one(PATTERNS)}

    def submit(self, customer):
        spool = self.one([f"s{len(self.made)}"] * 9 + [f"s{self.random.randint(1, len(self.made) + 1)}", "no name"])
        told = self.relay("submit", customer, {
            "spool": spool, "sender": self.one(SENDERS), "recipients": self.pick(ADDRESSES, 4),
            "size": self.random.randint(0, 9999)})
        if told.get("verdict") == "queued":
            self.queued[customer][told["id"]] = told["recipients"]

    def outcome(self, customer):
        serial = self.serial(customer)
        recipients = self.queued[customer].get(serial, []) * 2 + ADDRESSES[:1]

        def told():
            result = self.one(["delivered", "deferred", "deferred", "failed"])
            status = {"deferred": "4.2.0", "failed": "5.1.1"}.get(result, "") if self.one(range(30)) else "5.02.0"
            text = self.one(["no", "", "mailbox busy"]) if self.one(range(30)) else "\t"
            return {"recipient": self.one(recipients), "result": result, "status": status, "text": text}
        self.relay("outcome", customer, {
            "id": serial, "attempt": self.one([1, 1, 1, 2, 3]),
            "outcomes": [told() for _ in range(self.one([0, 1, 1, 1, 2]))]})

    def requeue(self, customer):
        serial = self.serial(customer)
        told = self.own("requeue", customer, "POST", f"/v1/requeue/{serial}")
        if told:
            self.queued[customer][told["id"]] = self.queued[customer].get(serial, [])

    def import_(self, customer):
        lines = [self.pattern() for _ in range(3)]
        rows = "".join(f"{it['class']},{it['pattern']},{self.one(ACTIONS)}\n" for it in lines)
        head = self.one(["class,pattern,action\n"] * 9 + ["class,pattern\n"])
        label = f"l{self.random.randint(1, 60)}"
        self.own("import", customer, "POST", "/v1/import", {"label": label, "csv": head + rows})

    def bad(self, customer):
        method, path, body = self.one(BAD)
        own = self.customers[customer]
        key = self.one([own] * 3 + [RELAY, "-", "nobodyskey000001"])
        self.add("bad", customer if key == own else None, method, path, key, body)

    def no_line(self, customer):
        line = self.one([b"x", b"1 2 3", b"99999999999 GET /v1/messages -", b"\xff GET / -", b"1767225600  GET / -"])
        self.tell("no line", None, line)

    def foreign(self, customer):
        self.add("submit", None, "POST", "/relay/submit/cedar", RELAY)

    def call(self, customer):
        """One call that needs no more than a queue ID, a number, a pattern or an address."""
        serial, number = self.serial(customer), self.random.randint(1, 40)
        class_, address = self.one(["sender", "recipient"]), self.one(ADDRESSES)
        kind, method, path, body = self.one([
            ("list", "GET", "/v1/messages", None), ("list", "GET", f"/v1/messages-after/{serial}", None),
            ("show", "GET", f"/v1/message/{serial}", None), ("delete", "DELETE", f"/v1/message/{serial}", None),
            ("hold", "POST", f"/v1/hold/{serial}", None), ("release", "POST", f"/v1/release/{serial}", None),
            ("usage", "GET", "/v1/usage", None),
            ("lines", "GET", "/v1/lines", None), ("lines", "POST", "/v1/lines-after", self.pattern()),
            ("put", "POST", "/v1/line-put", {**self.pattern(), "action": self.one(ACTIONS)}),
            ("drop", "POST", "/v1/line-drop", self.pattern()), ("notices", "GET", "/v1/notices", None),
            ("check", "POST", "/v1/check", {"class": class_, "address": address}),
            ("notices", "GET", f"/v1/notices-after/{number}", None), ("notice", "GET", f"/v1/notice/{number}", None),
        ])
        self.own(kind, customer, method, path, body)

    def read_by_the_relay(self, customer):
        """What the customer may read itself, asked by the relay."""
        serial, number = self.serial(customer), self.random.randint(1, 40)
        kind, body = self.one([
            ("messages", {"after": None}), ("messages", {"after": serial}), ("message", {"id": serial}),
            ("notices", {"after": None}), ("notices", {"after": number}), ("notice", {"number": number}),
        ])
        self.relay(kind, customer, body)

    def all(self, customer):
        kind = self.one(["hold", "hold", "release", "release", "delete"])
        self.own(f"{kind}-all", customer, "POST", f"/v1/{kind}-all")

    def make(self, count):
        kinds = [
            (self.submit, 30), (self.outcome, 16), (self.call, 35), (self.requeue, 3), (self.all, 2),
            (self.import_, 3), (self.bad, 3), (self.no_line, 1), (self.foreign, 1),
            (lambda it: self.own("report", it, "GET", "/v1/report"), 1),
            (lambda it: self.relay("sweep", it), 1), (lambda it: self.relay("due", it, {"after": None}), 1),
            (self.read_by_the_relay, 2),
        ]
        asked = self.random.choices([it for it, _ in kinds], [weight for _, weight in kinds], k=count)
        for ask in asked:
            self.at += self.one([0, 0, 1, 10, 300, 1000])
            ask(self.one([*self.customers]))


def replies_of(asked, lines):
    """The replies of a run over these lines, one for each."""
    ended = subprocess.run(asked, input=b"".join(it + b"\n" for it in lines), capture_output=True, timeout=1800)
    told = ended.stdout.split(b"\n")[:-1]
    if (ended.returncode, ended.stderr, len(told)) != (0, b"", len(lines)):
        raise Wrong(asked, ended.returncode, ended.stderr, f"{len(lines)} lines", f"{len(told)} replies")
    return told


def batch(program, directory, store=None):
    return words(program, "batch", store, directory=directory)


def expect_same(how, lines, wanted, told):
    for line, want, got in zip(lines, wanted, told):
        if want != got:
            raise Wrong(f"{how}: {line.decode(errors='replace')}\n  told {got[:300]}\n  and not {want[:300]}")


def over_file(program, directory, store, lines, pieces=10):
    """The replies over a file that is closed and opened again between the pieces."""
    size = -(-len(lines) // pieces)
    parts = [lines[at:at + size] for at in range(0, len(lines), size)]
    return [reply for part in parts for reply in replies_of(batch(program, directory, store), part)]


def expect_of_each_kind(made, told, refusals):
    """That the lines were no idle ones."""
    answered = {kind for (kind, _, _), reply in zip(made, told) if reply.startswith(b"200 ")}
    kinds = {kind for kind, _, _ in made} - {"bad", "no line"}
    refused = {int(it) for reply in told for it in re.findall(rb'^[45]\d\d .*"error":(\d+)', reply)}
    if not answered >= kinds or not refused >= refusals:
        raise Wrong(f"never answered: {sorted(kinds - answered)}; never refused: {sorted(refusals - refused)}")


@pytest.fixture
def five(folder):
    """The directory of five customers."""
    rows = "".join(f"{name},{key},1000,1000000000,5000,1000,0\n" for name, key in FIVE.items())
    (folder / "directory").write_text(HEADER + rows)
    return folder / "directory"


def soak(program, folder, directory, customers, seed=1, count=20000):
    """Random lines and their replies: over memory and over a file they are the same, and those of each customer alone."""
    desk = Desk(batch(program, directory))
    drawn = Lines(seed, desk, customers)
    drawn.make(count)
    desk.end()
    made, told, lines = drawn.made, drawn.told, [line for _, _, line in drawn.made]
    expect_same("over a file", lines, told, over_file(program, directory, folder / "store", lines))
    for customer in customers:
        own = [at for at, (_, whose, _) in enumerate(made) if whose == customer]
        alone = replies_of(batch(program, directory), [lines[at] for at in own])
        expect_same(f"{customer} alone", [lines[at] for at in own], [told[at] for at in own], alone)
    return made, told


def test_soak(program, folder, five):
    """Customers with room for much, over memory and over a file."""
    expect_of_each_kind(*soak(program, folder, five, FIVE), REFUSALS)


def test_built_in(program, folder):
    """The built-in customers, over memory, over a file and over plain lists."""
    made, told = soak(program, folder, DIRECTORY, BUILT_IN)
    lines = [line for _, _, line in made]
    expect_same("over lists", lines, told, replies_of([program], lines))
    expect_of_each_kind(made, told, REFUSALS | QUOTAS)
