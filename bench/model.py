"""What the desk must reply to the lines of bench/measure, told by a plain model; and the texts that it must write."""
import json

from serving import RELAY, Wrong

START = 1767225600
# why a message is on hold
REASONS = {"hold": "held by customer"}


class Customer:
    """What one customer must see. Each call answers a line and the reply that it must get."""

    def __init__(self, name, key):
        self.name = name
        self.key = key
        self.messages = {}
        self.serial = 0
        self.deleted = 0

    def line(self, method, path):
        return f"{START} {method} {path} {self.key}"

    def reply(self, body):
        return "200 " + json.dumps(body, separators=(",", ":"), sort_keys=True)

    def changed(self, applies):
        return self.reply({"changed": 1 if applies else 0})

    def submit(self):
        self.serial += 1
        queue_id = f"{self.serial:010X}"
        recipients = ["bob@far.example"]
        asked = {"spool": f"s{self.serial}", "sender": "ann@a.example", "recipients": recipients, "size": 900}
        self.messages[queue_id] = "incoming"
        text = json.dumps(asked, separators=(",", ":"))
        line = f"{START} POST /relay/submit/{self.name} {RELAY} {text}"
        told = {"id": queue_id, "recipients": recipients, "refused": [], "state": "incoming", "verdict": "queued"}
        return line, self.reply(told)

    def list(self):
        entries = [
            {"arrival": START, "id": queue_id, "reason": REASONS.get(state, ""), "recipients": 1, "sender": "ann@a.example",
             "size": 900, "state": state}
            for queue_id, state in self.messages.items()
        ]
        return self.line("GET", "/v1/messages"), self.reply({"messages": entries[:100], "more": len(entries) > 100})

    def show(self, queue_id):
        shown = {
            "arrival": START,
            "attempts": 0,
            "id": queue_id,
            "next_try": START,
            "pending": [{"address": "bob@far.example", "status": "", "text": ""}],
            "reason": REASONS.get(self.messages[queue_id], ""),
            "sender": "ann@a.example",
            "size": 900,
            "spool": f"s{int(queue_id, 16)}",
            "state": self.messages[queue_id],
            "warned": False,
        }
        return self.line("GET", f"/v1/message/{queue_id}"), self.reply(shown)

    def hold(self, queue_id):
        applies = self.messages[queue_id] != "hold"
        self.messages[queue_id] = "hold"
        return self.line("POST", f"/v1/hold/{queue_id}"), self.changed(applies)

    def release(self, queue_id):
        applies = self.messages[queue_id] == "hold"
        if applies:
            self.messages[queue_id] = "deferred"
        return self.line("POST", f"/v1/release/{queue_id}"), self.changed(applies)

    def due(self):
        due = [
            {
                "attempt": 1,
                "id": queue_id,
                "recipients": ["bob@far.example"],
                "sender": "ann@a.example",
                "spool": f"s{int(queue_id, 16)}",
            }
            for queue_id, state in self.messages.items()
            if state != "hold"
        ]
        line = f'{START} POST /relay/due/{self.name} {RELAY} {{"after":null}}'
        return line, self.reply({"due": due[:100], "more": len(due) > 100})

    def sweep(self):
        """Nothing is old."""
        told = {"expired": 0, "notices": 0, "warned": 0}
        return f"{START} POST /relay/sweep/{self.name} {RELAY}", self.reply(told)

    def outcome(self, queue_id):
        """The first attempt defers the recipient."""
        outcome = {"recipient": "bob@far.example", "result": "deferred", "status": "4.2.0", "text": "mailbox busy"}
        asked = json.dumps({"id": queue_id, "attempt": 1, "outcomes": [outcome]}, separators=(",", ":"))
        told = {"deferred": 1, "delivered": 0, "failed": 0, "left": 1, "result": "done"}
        return f"{START} POST /relay/outcome/{self.name} {RELAY} {asked}", self.reply(told)

    def put_line(self, pattern):
        asked = json.dumps({"class": "sender", "pattern": pattern, "action": "REJECT"}, separators=(",", ":"))
        return self.line("POST", "/v1/line-put") + " " + asked, self.reply({"put": "added"})

    def check(self):
        asked = json.dumps({"class": "sender", "address": "ann@a.example"}, separators=(",", ":"))
        keys = ["ann@a.example", "a.example", ".example", "ann@"]
        return self.line("POST", "/v1/check") + " " + asked, self.reply({"action": None, "keys": keys, "pattern": None})

    def delete(self, queue_id):
        del self.messages[queue_id]
        self.deleted += 1
        return self.line("DELETE", f"/v1/message/{queue_id}"), self.changed(True)

    def move_all(self, path, applies, state):
        """The messages of which `applies` is true of the state get the new one."""
        moved = [queue_id for queue_id, was in self.messages.items() if applies(was)]
        self.messages.update(dict.fromkeys(moved, state))
        return self.line("POST", path), self.reply({"changed": len(moved)})

    def hold_all(self):
        return self.move_all("/v1/hold-all", lambda was: was != "hold", "hold")

    def release_all(self):
        return self.move_all("/v1/release-all", lambda was: was == "hold", "deferred")

    def delete_all(self):
        count = len(self.messages)
        self.messages.clear()
        self.deleted += count
        return self.line("POST", "/v1/delete-all"), self.reply({"changed": count})

    def usage(self):
        count = len(self.messages)
        told = {"accepted": self.serial, "bytes": 900 * count, "deleted": self.deleted, "messages": count, "pending": count}
        return self.line("GET", "/v1/usage"), self.reply({**told, "delivered": 0, "expired": 0, "failed": 0, "lines": 0})

    def report(self):
        rows = ["Queue ID          Size Arrival                         Sender/Recipient"]
        for queue_id, state in self.messages.items():
            mark = "!" if state == "hold" else " "
            rows.append(f"{queue_id}{mark}        900 Thu, 01 Jan 2026 00:00:00 +0000 ann@a.example")
            if state in REASONS:
                rows.append(f"    (hold: {REASONS[state]})")
            rows.append("    bob@far.example")
        count, held = len(self.messages), [*self.messages.values()].count("hold")
        rows.append(f"-- {count} queued, {900 * count} bytes, {held} on hold")
        return self.line("GET", "/v1/report"), self.reply({"report": "".join(f"{row}\n" for row in rows)})


class Script:
    """Calls as the lines that the program reads, and the replies that it must write."""

    def __init__(self, calls):
        self.count = len(calls)
        self.lines = "".join(f"{line}\n" for line, _ in calls).encode()
        self.replies = "".join(f"{reply}\n" for _, reply in calls).encode()

    def expect(self, written):
        """Each line got one reply, and the one that it must get."""
        if written == self.replies:
            return
        lines = self.lines.decode().splitlines()
        wanted = self.replies.decode().splitlines()
        told = written.decode("utf-8", "replace").splitlines()
        for number, (line, want, got) in enumerate(zip(lines, wanted, told), 1):
            if got != want:
                raise Wrong(f"line {number} is\n  {line}\nits reply is\n  {got}\nand must be\n  {want}")
        raise Wrong(f"{len(lines)} lines have {len(told)} replies, or the last one has no line feed")


def customers():
    return Customer("acme", "acmekey000000001"), Customer("birch", "birchkey00000001")


def import_of(key, rows):
    """An import of so many lines of new patterns, and what it is replied to, now and again."""
    file = "class,pattern,action\n" + "".join(f"sender,d{it}.example,REJECT no mail from here\n" for it in range(rows))
    body = json.dumps({"label": "first", "csv": file}, separators=(",", ":"))
    counts = json.dumps({"added": rows, "changed": 0, "same": 0}, separators=(",", ":"))
    return f"{START} POST /v1/import {key} {body}", f"200 {counts}"
