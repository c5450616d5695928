"""Random batch lines of two customers and of the relay, for tests of histories."""
from collections import Counter
from typing import Dict, NamedTuple

from serving import ACME, BIRCH, RELAY, batch_line

START = 1767225600
# in the order of the directory
KEYS = {"acme": ACME, "birch": BIRCH}
SENDERS = ["", "ann@a.example", "eve@c.example"]
ADDRESSES = ["p@far.example", "q@far.example", "r+s@near.example", "t@near.example"]
PATTERNS = ["ann@", ".c.example", "far.example", "q@far.example", "near.example", "t@"]
ACTIONS = ["OK", "REJECT", "DEFER not now", "HOLD", "HOLD check with sales", "DISCARD", "REDIRECT one@r.example"]
LABELS = ["l1", "l2", "l3"]
# lines that are refused before they are the call of any customer
NOBODYS = ["GET /v1/usage -", "GET /v1/usage nobodyskey000001", f"POST /relay/sweep {KEYS['acme']}",
           f"POST /relay/submit/cedar {RELAY}", f"PUT /v1/messages {KEYS['birch']}", "x"]


class Line(NamedTuple):
    """A line as it is sent, what it asks the machine of each customer that it is a call of, and whether it may change any."""
    text: bytes
    own: Dict[str, bytes]
    changes: bool


def text_of(at, method, path, key, body=None):
    return f"{batch_line(at, method, path, key, body)}\n".encode()


class Lines:
    """Random lines, at moments that never go back."""

    def __init__(self, drawn):
        self.random, self.at, self.submitted, self.kinds = drawn, START, Counter(), [
            (self.submit, 30), (self.move, 24), (self.move_all, 4), (self.move_matching, 4), (self.outcome, 12), (self.put, 8),
            (self.drop, 4), (self.load, 4), (self.sweep, 3), (self.sweep_all, 4), (self.read, 14), (self.usage_all, 2), (self.nobodys, 2)]

    def one(self, of):
        return self.random.choice(of)

    def own(self, customer, method, path, body=None, changes=True):
        text = text_of(self.at, method, path, KEYS[customer], body)
        return Line(text, {customer: text}, changes)

    def relay(self, customer, kind, body=None, changes=True):
        text = text_of(self.at, "POST", f"/relay/{kind}/{customer}", RELAY, body)
        return Line(text, {customer: text}, changes)

    def serial(self, customer):
        """A queue ID: mostly one of those that the customer may have had of late."""
        last = self.submitted[customer]
        return f"{self.random.randint(max(1, last - self.one([3, 3, 9])), last + 1):010X}"

    def submit(self, customer):
        self.submitted[customer] += 1
        number = self.one([self.submitted[customer]] * 7 + [self.random.randint(1, self.submitted[customer])])
        recipients = [self.one(ADDRESSES) for _ in range(self.random.randint(1, 3))]
        return self.relay(customer, "submit", {
            "spool": f"s{number}", "sender": self.one(SENDERS), "recipients": recipients, "size": self.random.randint(0, 999)})

    def move(self, customer):
        method, path = self.one([("POST", "hold"), ("POST", "release"), ("POST", "requeue"), ("DELETE", "message")])
        return self.own(customer, method, f"/v1/{path}/{self.serial(customer)}")

    def move_all(self, customer):
        return self.own(customer, "POST", f"/v1/{self.one(['hold', 'release', 'release', 'delete'])}-all")

    def move_matching(self, customer):
        return self.own(customer, "POST", f"/v1/{self.one(['hold', 'release', 'release', 'delete'])}-matching", self.pattern())

    def outcome(self, customer):
        outcomes = []
        for address in self.random.sample(ADDRESSES, self.random.randint(1, 2)):
            result = self.one(["delivered", "deferred", "failed"])
            status = {"deferred": {"status": "4.2.0", "text": "busy"}, "failed": {"status": "5.1.1", "text": "no"}}
            outcomes.append({"recipient": address, "result": result, **status.get(result, {})})
        return self.relay(customer, "outcome", {"id": self.serial(customer), "attempt": self.one([1, 1, 1, 2]), "outcomes": outcomes})

    def pattern(self):
        return {"class": self.one(["sender", "recipient"]), "pattern": self.one(PATTERNS)}

    def put(self, customer):
        return self.own(customer, "POST", "/v1/line-put", {**self.pattern(), "action": self.one(ACTIONS)})

    def drop(self, customer):
        return self.own(customer, "POST", "/v1/line-drop", self.pattern())

    def load(self, customer):
        rows = "".join(f"{self.one(['sender', 'recipient'])},{it},{self.one(ACTIONS)}\n" for it in self.random.sample(PATTERNS, 2))
        return self.own(customer, "POST", "/v1/import", {"label": self.one(LABELS), "csv": f"class,pattern,action\n{rows}"})

    def sweep(self, customer):
        return self.relay(customer, "sweep")

    def sweep_all(self, _=None):
        self.at += self.one([3600, 3600, 432000])
        text = text_of(self.at, "POST", "/relay/sweep", RELAY)
        return Line(text, {it: text_of(self.at, "POST", f"/relay/sweep/{it}", RELAY) for it in KEYS}, True)

    def usage_all(self, _):
        text = text_of(self.at, "POST", "/relay/usage", RELAY)
        return Line(text, {it: text_of(self.at, "GET", "/v1/usage", key) for it, key in KEYS.items()}, False)

    def nobodys(self, _):
        asked = self.one(NOBODYS)
        return Line(asked.encode() + b"\n" if asked == "x" else f"{self.at} {asked}\n".encode(), {}, False)

    def read(self, customer):
        if self.one(range(5)) == 0:
            return self.relay(customer, "due", {"after": None}, changes=False)
        if self.one(range(5)) == 0:
            return self.own(customer, "POST", "/v1/find", {**self.pattern(), "after": None}, changes=False)
        path = self.one(["messages", "lines", "notices", "notice/1", "usage", "report", f"message/{self.serial(customer)}"])
        return self.own(customer, "GET", f"/v1/{path}", changes=False)

    def session(self):
        """The lines of one session; those of every third end with a sweep of all, so that many are cut in one."""
        lines = []
        for ask in self.random.choices(*zip(*self.kinds), k=self.random.randint(8, 16)):
            self.at += self.one([0, 0, 1, 10, 300])
            lines.append(ask(self.one([*KEYS])))
        return lines + ([self.sweep_all()] if self.one(range(3)) == 0 else [])

    def readings(self):
        """What reads all that is kept of each customer; an import that is no file tells whether its label was used."""
        for it in KEYS:
            last = self.submitted[it] + 12  # (there are queue IDs of requeues too)
            paths = ["messages", "lines", "notices", "usage", "report"]
            paths += [f"message/{number:010X}" for number in range(1, last)] + [f"notice/{number}" for number in range(1, 13)]
            yield from (self.own(it, "GET", f"/v1/{path}", changes=False) for path in paths)
            yield self.relay(it, "due", {"after": None}, changes=False)
            yield from (self.own(it, "POST", "/v1/import", {"label": label, "csv": "x"}, changes=False) for label in LABELS)
