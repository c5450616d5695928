"""A desk and a next hop of notices that are a test's, for a whole delivery with its threads and its book. No Postfix runs."""
import threading

from hq_relay.desk.client import Away, Desk, Refused
from serving import expect

# In seconds: the longest that is waited for what comes at once, how long it is seen that nothing comes, and the worker's pause.
SOON, WHILE, PAUSE = 10, 0.5, 0.05
REFUSED = {"error": 44, "name": "NoticesSpent"}
GOOD, BAD = "p@far.example", "x@hard.example"


class Sent:
    """A call of a test's desk, which answers as its reply is asked for."""

    def __init__(self, reply):
        self.reply = reply

    def close(self):
        """Nothing is open."""


class Told(Desk):
    """A desk of one customer, with notices of these numbers. It makes one of each failure that it is told, or refuses all outcomes.
    The list of messages, with which a sweep begins, waits at `gate`."""

    def __init__(self, *notices):
        self.notices_of, self.refuses, self.told, self.gate = [*notices], False, [], threading.Event()
        self.gate.set()
        self.is_listing = threading.Event()

    def begin(self, path, body=None, timeout=None):
        return Sent(lambda: self.answer(path, body))

    def answer(self, path, body):
        return getattr(self, path.split("/")[2].replace("-", "_") + "_asked")(body)

    def outcome_asked(self, body):
        self.told.append(body["id"])
        if self.refuses:
            raise Refused(REFUSED)
        failures = [it for it in body["outcomes"] if it["result"] == "failed"]
        self.notices_of += [len(self.notices_of) + 1] * len(failures)
        return {"result": "done", "left": 0}

    def notices_asked(self, body):
        return {"notices": [{"number": it} for it in self.notices_of if it > int(body["after"] or 0)]}

    def notice_asked(self, body):
        return {"kind": "failure", "to": "ann@a.example", "id": "0000000001", "at": 0, "subject": "s", "human": "h",
                "status": f"Reporting-MTA: dns; h\r\n\r\nFinal-Recipient: rfc822; {BAD}\r\nAction: failed\r\nStatus: 5.1.1\r\n\r\n"}

    def messages_asked(self, body):
        self.is_listing.set()
        expect(self.gate.wait(SOON), "nobody opens the gate")
        return {"messages": []}

    def due_asked(self, body):
        return {"due": []}

    def due_from_asked(self, body):
        return {"done": [], "next": None, "stopped": None}

    def usage_from_asked(self, body):
        """(each customer has mail at all times)"""
        return {"done": [], "next": None, "stopped": None}

    def sweep_asked(self, body):
        return {"expired": 0, "notices": 0, "warned": 0}


class House(Told):
    """A desk of several customers, of whom acme has the notices. It knows whom it was to sweep. As it sweeps acme, it makes so many
    more notices, or is away."""

    def __init__(self, *notices, makes=0, is_away=False):
        super().__init__(*notices)
        self.makes, self.is_away, self.swept = makes, is_away, []

    def answer(self, path, body):
        kind, customer = path.split("/")[2], path.rpartition("/")[2]
        if kind == "notices" and customer != "acme":
            return {"notices": []}
        if kind == "sweep":
            self.swept.append(customer)
            self.notices_of += range(1, self.makes + 1) if customer == "acme" else []
            if self.is_away and customer == "acme":
                raise Away(path)
        return super().answer(path, body)


class Hops:
    """All sessions with the next hop: a mail waits at the gate, and is answered so."""

    def __init__(self, answer):
        self.answer, self.gate, self.is_asked = answer, threading.Event(), threading.Event()

    def mail(self, recipient, content):
        self.is_asked.set()
        expect(self.gate.wait(SOON), "nobody opens the gate")
        if isinstance(self.answer, Exception):
            raise self.answer
        return self.answer
