"""A desk of paper: a stand-in that answers by a queue in memory, and any path as it was told. It has the
10,000 messages that the page must bear, which no customer of the desk may keep, and the faults that
the desk has seldom."""
import http.server
import json
import threading
import time
from email.utils import formatdate

LIMITS = {"bytes": 500_000_000, "delay": 14_400, "history": 1000, "lines": 1000, "messages": 1000, "notices": 100}
HOUR, PAGE = 3600, 100
HELD = "held by customer"


def message(number, sender="ann@a.example", pending=(("bob@far.example", "", ""),), **more):
    """A message as `GET /v1/message` has it, an hour old."""
    arrival = more.pop("arrival", int(time.time()) - HOUR)
    tried = any(status for _, status, _ in pending)
    return {"arrival": arrival, "attempts": int(tried), "id": f"{number:010X}", "next_try": arrival, "reason": "",
            "pending": [dict(zip(("address", "status", "text"), it)) for it in pending], "sender": sender, "size": 900,
            "spool": f"s{number}", "state": "deferred" if tried else "incoming", "warned": False, **more}


def lines_of(it):
    """The lines of a message in a report."""
    mark = "!" if it["state"] == "hold" else " "
    yield f"{it['id']}{mark} {it['size']:>10} {formatdate(it['arrival']).replace('-0000', '+0000')} {it['sender'] or '<>'}"
    if mark == "!":
        yield f"    (hold: {it['reason']})"
    for one in it["pending"]:
        if one["status"]:
            yield f"    ({' '.join([one['status'], one['text']]).strip()})"
        yield f"    {one['address']}"


def fits(pattern, address):
    """Whether a pattern is for an address: itself, its domain, one above it, or its name."""
    pattern, (name, _, domain) = pattern.lower(), address.lower().rpartition("@")
    above = pattern.startswith(".") and domain.endswith(pattern)
    return above or pattern in ((address.lower(), domain, f"{name}@") if address else ("<>",))


class Paper(http.server.ThreadingHTTPServer):
    """A stand-in for the desk, with one message until it is told more. `asked` is what it was asked, and `slow` has the seconds
    that a path takes."""

    daemon_threads = True
    request_queue_size = 64

    def __init__(self, address=("127.0.0.1", 0)):
        super().__init__(address, Answers)
        self.reset()
        self.thread = threading.Thread(target=self.serve_forever, args=(0.05,))
        self.thread.start()

    def reset(self):
        self.slow, self.told, self.asked, self.limits = {}, {}, [], dict(LIMITS)
        self.history, self.lines, self.notices, self.customer, self.counts = [], [], {}, "", {}
        self.lock = threading.Lock()
        self.queue([message(1)])

    def queue(self, messages):
        self.messages = {it["id"]: it for it in messages}
        self.last = max((int(it, 16) for it in self.messages), default=0)
        self.text = None

    def handle_error(self, *_):
        """A client that has gone is nothing."""

    def __exit__(self, *_):
        self.end()

    def end(self):
        """Nobody listens at its address any more."""
        if self.thread:
            self.shutdown()
            self.thread.join()
            self.server_close()
            self.thread = None

    # ---- what is answered

    def report(self):
        if self.text is None:
            lines = [line for it in self.messages.values() for line in lines_of(it)]
            self.text = "".join(f"{it}\n" for it in ["Queue ID", *lines, f"-- {len(self.messages)} queued"])
        return {"report": self.text}

    def usage(self):
        some = self.messages.values()
        counts = {"delivered": 0, "failed": 0, "deleted": 0, "expired": 0, **self.counts}
        pending = sum(len(it["pending"]) for it in some)
        return {"accepted": pending + sum(counts.values()), "bytes": sum(it["size"] for it in some), "lines": len(self.lines),
                "messages": len(self.messages), "pending": pending, **counts}

    def matching(self, body):
        if body["class"] == "sender":
            return [it for it in self.messages.values() if fits(body["pattern"], it["sender"])]
        return [it for it in self.messages.values() if any(fits(body["pattern"], one["address"]) for one in it["pending"])]

    def find(self, body):
        some = [it for it in self.matching(body) if it["id"] > (body["after"] or "")]
        listed = [{**{name: it[name] for name in ("arrival", "id", "reason", "sender", "size", "state")},
                   "recipients": len(it["pending"])} for it in some[:PAGE]]
        return {"messages": listed, "more": len(some) > PAGE}

    def history_page(self, ends):
        return {"history": ends[:PAGE], "more": len(ends) > PAGE}

    def history_find(self, body):
        side = "sender" if body["class"] == "sender" else "recipient"
        return {"history": [it for it in self.history if fits(body["pattern"], it[side])][:PAGE], "next": None}

    def move(self, name, some):
        """Holds, releases or deletes messages, and answers how many it changed."""
        self.text, changed = None, 0
        for it in list(some):
            was = it["state"] == "hold"
            if name == "delete":
                del self.messages[it["id"]]
            elif name == "hold" and not was:
                it.update(state="hold", reason=HELD)
            elif name == "release" and was:
                it.update(state="deferred", reason="")
            else:
                continue
            changed += 1
        return {"changed": changed}

    def requeue(self, one):
        self.last += 1
        del self.messages[one["id"]]
        made = {**one, "id": f"{self.last:010X}", "state": "incoming", "reason": "", "attempts": 0, "arrival": int(time.time())}
        made["pending"] = [{**it, "status": "", "text": ""} for it in made["pending"]]
        self.messages[made["id"]], self.text = made, None
        return {"id": made["id"]}

    def by_path(self, method, path, body):
        name, _, last = path[len("/v1/"):].partition("/")
        lists = {"report": self.report, "usage": self.usage, "limits": lambda: self.limits,
                 "history": lambda: self.history_page(self.history),
                 "lines": lambda: {"lines": self.lines, "more": False},
                 "notices": lambda: {"more": False, "notices": [
                     {it: one[it] for it in ("at", "id", "kind", "number", "to")} for one in self.notices.values()]},
                 "find": lambda: self.find(body), "history-find": lambda: self.history_find(body)}
        if not last and name in lists:
            return 200, lists[name]()
        if name == "history-before":
            return 200, self.history_page([it for it in self.history if it["number"] < int(last)])
        if name == "notice" and int(last) in self.notices:
            return 200, self.notices[int(last)]
        word, _, kind = name.partition("-")
        if kind in ("all", "matching"):
            return 200, self.move(word, self.messages.values() if kind == "all" else self.matching(body))
        one = self.messages.get(last)
        if name in ("message", "hold", "release", "requeue") and not one:
            return 404, {"error": 10, "name": "NoMessage"}
        if name in ("hold", "release"):
            return 200, self.move(name, [one])
        if name == "requeue":
            return 200, self.requeue(one)
        if name == "message":
            return 200, self.move("delete", [one]) if method == "DELETE" else one
        return 404, {"error": 4, "name": "NoRoute"}


class Answers(http.server.BaseHTTPRequestHandler):
    """Answers any key: as its server was told for a path, else by its queue."""

    def answer(self):
        server = self.server
        sent = self.rfile.read(int(self.headers.get("Content-Length") or 0))
        body = json.loads(sent) if sent else None
        with server.lock:
            server.asked.append((self.command, self.path, body))
            if self.path in server.told:
                status, told = server.told[self.path]
            elif "*" in server.told:
                status, told = server.told["*"]
            else:
                status, told = server.by_path(self.command, self.path, body)
        time.sleep(server.slow.get(self.path, 0))
        if "X-Desk-Key" not in self.headers and "*" not in server.told:
            status, told = 401, {"error": 2, "name": "NoKey"}
        text = told if isinstance(told, str) else json.dumps(told)
        self.send_response(status)
        self.send_header("Content-Type", "text/html" if isinstance(told, str) else "application/json")
        self.send_header("Content-Length", str(len(text.encode())))
        if server.customer:
            self.send_header("X-Desk-Customer", server.customer)
        self.end_headers()
        self.wfile.write(text.encode())

    do_GET = do_POST = do_DELETE = answer

    def log_message(self, *_):
        """Nothing is logged."""
