"""What workers and customers ask through nginx while something is done to the desks behind it."""
import http.client
import json
import ssl
import threading
import time
from typing import Dict, List, NamedTuple, Set

from deploying import done
from serving import LONGEST, RELAY, Wrong, asked, expect, until

# A customer asks so often, well within its limits; a worker without a pause.
PAUSE = 0.1


class Accepted(NamedTuple):
    """A submission that was answered 200: when it was first sent, and when it was answered."""
    customer: str
    id: str
    sent: float
    answered: float


class Load:
    """A worker and a customer for each of these, given as key by name, until the block ends. Where
    nginx `restarts`, connections may be cut."""

    def __init__(self, proxy, customers: Dict[str, str], mark: str, restarts=False):
        self.proxy, self.customers, self.mark = proxy, customers, mark
        self.cut = (ConnectionError, ssl.SSLError, http.client.HTTPException) if restarts else ()
        self.runs, self.wrong = True, []
        self.accepted: List[Accepted] = []
        # (status and moment of each reply that was not 200)
        self.others: List[tuple] = []
        self.threads = [threading.Thread(target=self.guarded, args=(each, name), daemon=True)
                        for name in customers for each in (self.submit, self.look)]

    def __enter__(self):
        for it in self.threads:
            it.start()
        self.goes_on(float("-inf"))
        return self

    def __exit__(self, kind, *_):
        if not kind:
            self.goes_on(time.monotonic())
        self.runs = False
        for it in self.threads:
            it.join(LONGEST)
        if not kind:
            expect(not self.wrong, *self.wrong[:1])
            expect(self.accepted, "nothing was accepted")

    def goes_on(self, since):
        """Waits until each had a submission accepted that was sent since then."""
        until(lambda: self.wrong or all(self.ids(name, lambda it: it.sent > since)
                                        for name in self.customers), "the load does not go on")

    def guarded(self, each, name):
        try:
            each(name)
        except (Wrong, OSError, ValueError) as fault:
            self.wrong.append(f"the load of {name}: {fault!r}")

    def answered(self, ask, pause):
        """The body of a reply; what is 502 or cut is asked again, since nobody knows if it was done."""
        while True:
            try:
                status, body = ask()
            except self.cut:
                status, body = None, None
            if status == 200:
                return body
            expect(status in (502, None) and body in ({"name": "DeskAway", "proxy": 502}, None),
                   status, body)
            self.others.append((status, time.monotonic()))
            time.sleep(pause)

    def submit(self, name):
        """A worker submits one message after another, each until it is accepted."""
        number = 0
        while self.runs and number < 900:
            number += 1
            body = {"spool": f"{self.mark}-{number}", "sender": "ann@a.example", "size": 9,
                    "recipients": ["bob@far.example"]}
            sent = time.monotonic()
            told = self.answered(lambda: self.proxy.relay(f"/relay/submit/{name}", body), 0.01)
            expect(told["verdict"] in ("queued", "repeat"), "a submission got", told)
            self.accepted.append(Accepted(name, told["id"], sent, time.monotonic()))
            time.sleep(0.004)

    def look(self, name):
        """A customer looks, over TLS."""
        while self.runs:
            self.answered(lambda: self.proxy.ask("GET", "/v1/usage", self.customers[name]), PAUSE)
            time.sleep(PAUSE)

    def ids(self, name, holds=lambda it: True) -> Set[str]:
        """The queue IDs that were told for a customer."""
        return {it.id for it in self.accepted if it.customer == name and holds(it)}


def kept(address, name) -> Set[str]:
    """The queue IDs of all messages of a customer."""
    found, after, more = set(), None, True
    while more:
        reply = asked(address, "POST", f"/relay/messages/{name}", RELAY, {"after": after})
        page = done(reply, "the messages of", name)
        found |= {it["id"] for it in page["messages"]}
        after, more = page["messages"][-1]["id"] if found else None, page["more"]
    return found


def all_of(address, key):
    """All that a customer is told of what it has, byte for byte."""
    told = {}
    for path in ("messages", "lines", "notices", "usage", "report"):
        told[path] = json.dumps(done(asked(address, "GET", f"/v1/{path}", key), path))
    ids = [it["id"] for it in json.loads(told["messages"])["messages"]]
    for it in ids:
        told[it] = json.dumps(done(asked(address, "GET", f"/v1/message/{it}", key), it))
    return told
