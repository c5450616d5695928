#!/usr/bin/env python3
"""A plain desk to compare with: bench/plain_desk.py DIRECTORY [STORE] < LINES

It has the calls that bench/beside measures, as one writes them in an afternoon over the sqlite3 of Python: the lines,
replies and tables are those of the desk, and each call is one transaction, in memory or in the file STORE. Of what the
desk refuses it refuses the common things, and nothing of it is proved.
"""
import csv
import hashlib
import io
import json
import re
import sqlite3
import sys
from email.utils import formatdate

RELAY = "relaykey00000001"
TABLES = """
CREATE TABLE heads (customer TEXT NOT NULL, next_serial INTEGER NOT NULL, next_notice INTEGER NOT NULL,
  accepted INTEGER NOT NULL, delivered INTEGER NOT NULL, failed INTEGER NOT NULL, deleted INTEGER NOT NULL,
  expired INTEGER NOT NULL, messages INTEGER NOT NULL, bytes INTEGER NOT NULL, lines INTEGER NOT NULL,
  PRIMARY KEY (customer)) STRICT;
CREATE TABLE messages (customer TEXT NOT NULL, serial INTEGER NOT NULL, sender TEXT NOT NULL, spool TEXT NOT NULL,
  size INTEGER NOT NULL, arrival INTEGER NOT NULL, state INTEGER NOT NULL, next_try INTEGER NOT NULL,
  attempts INTEGER NOT NULL, warned INTEGER NOT NULL, PRIMARY KEY (customer, serial), UNIQUE (customer, spool)) STRICT;
CREATE TABLE recipients (customer TEXT NOT NULL, serial INTEGER NOT NULL, place INTEGER NOT NULL, address TEXT NOT NULL,
  status TEXT NOT NULL, reason TEXT NOT NULL, PRIMARY KEY (customer, serial, place)) STRICT;
CREATE TABLE lines (customer TEXT NOT NULL, class TEXT NOT NULL, pattern TEXT NOT NULL, action TEXT NOT NULL,
  PRIMARY KEY (customer, class, pattern)) STRICT;
CREATE TABLE marks (customer TEXT NOT NULL, label TEXT NOT NULL, digest BLOB NOT NULL, added INTEGER NOT NULL,
  changed INTEGER NOT NULL, same INTEGER NOT NULL, PRIMARY KEY (customer, label)) STRICT;
CREATE TABLE holds (customer TEXT NOT NULL, serial INTEGER NOT NULL, hold_reason TEXT NOT NULL,
  PRIMARY KEY (customer, serial)) STRICT;
"""
INCOMING, DEFERRED, HOLD = 0, 1, 2
STATES = "incoming", "deferred", "hold"
ADDRESS = re.compile(r"(?=.{1,254}\Z)[^\x00- \x7f-\uffff\"\\<>(),;@]+@[\w-]+(\.[\w-]+)*", re.A)
NAME = re.compile(r"[A-Za-z0-9._-]{1,64}")
ACTION = re.compile(r"(OK|REJECT|DEFER|DUNNO|DISCARD|HOLD|REDIRECT)( .*)?", re.I)
NAMES = {1: "BadRequest", 2: "NoKey", 3: "WrongRole", 4: "NoRoute", 8: "BadField", 10: "NoMessage", 20: "BadAddress",
         23: "BadSpool", 25: "BadAction", 27: "BadLabel", 40: "QuotaMessages", 41: "QuotaBytes", 42: "QuotaLines",
         50: "BadCsv", 52: "LabelUsed"}
STATUSES = {2: 401, 3: 403, 4: 404, 10: 404, 40: 409, 41: 409, 42: 409, 52: 409}


class Refused(Exception):
    """A call is refused by this number."""


def refuse_if(holds, number):
    if holds:
        raise Refused(number)


def keys_of(address):
    """What is looked for, for an address, the most specific first."""
    if not address:
        return ["<>"]
    local, _, domain = address.lower().rpartition("@")
    names = list(dict.fromkeys([local, local.partition("+")[0] or local]))
    labels = domain.split(".")
    above = ["." + ".".join(labels[at:]) for at in range(1, len(labels))]
    return [f"{it}@{domain}" for it in names] + [domain, *above] + [f"{it}@" for it in names]


class Desk:
    def __init__(self, rows, store):
        self.customers = {row["key"]: row for row in rows}
        self.named = {row["name"]: row for row in rows}
        self.base = sqlite3.connect(store or ":memory:", isolation_level=None)
        if store:
            self.base.execute("PRAGMA journal_mode = WAL")
        self.base.execute("PRAGMA synchronous = FULL")
        self.base.executescript(TABLES)

    def one(self, text, *values):
        return self.base.execute(text, values).fetchone()

    def head(self, name):
        """What the customer may have: the next queue ID, messages, bytes and lines."""
        return self.one("SELECT next_serial, messages, bytes, lines FROM heads WHERE customer = ?", name) or (1, 0, 0, 0)

    def count(self, name, **changes):
        """Adds to the counts of the customer."""
        self.base.execute("INSERT INTO heads VALUES (?, 1, 1, 0, 0, 0, 0, 0, 0, 0, 0) ON CONFLICT DO NOTHING", (name,))
        sets = ", ".join(f"{it} = {it} + ?" for it in changes)
        self.base.execute(f"UPDATE heads SET {sets} WHERE customer = ?", (*changes.values(), name))

    def found(self, name, kind, address):
        """The first key of an address that has a line, and its action."""
        keys = keys_of(address)
        places = ", ".join("?" * len(keys))
        rows = dict(self.base.execute(f"SELECT pattern, action FROM lines WHERE customer = ? AND class = ? AND pattern IN"
                                      f" ({places})", (name, kind, *keys)))
        return next(((it, rows[it]) for it in keys if it in rows), (None, None))

    def submit(self, customer, at, asked):
        name, spool, sender = customer["name"], asked["spool"], asked["sender"]
        recipients = list({it.lower(): it for it in reversed(asked["recipients"])}.values())[::-1]
        refuse_if(not NAME.fullmatch(spool), 23)
        refuse_if(sender and not ADDRESS.fullmatch(sender), 20)
        refuse_if(not all(map(ADDRESS.fullmatch, recipients)), 20)
        again = self.one("SELECT serial FROM messages WHERE customer = ? AND spool = ?", name, spool)
        if again:
            return {"id": f"{again[0]:010X}", "verdict": "repeat"}
        serial, messages, size, lines = self.head(name)
        action = lambda kind, it: (self.found(name, kind, it)[1] or "OK").partition(" ") if lines else ("OK", "", "")
        first, actions = action("sender", sender), {it: action("recipient", it) for it in recipients}
        codes = {"REJECT": (554, "Access denied"), "DEFER": (450, "Try again later")}
        told = lambda it, by: {"address": it, "code": codes[by[0]][0], "text": by[2] or codes[by[0]][1]}
        if first[0] in codes:
            return {"refused": [told(sender, first)], "verdict": "rejected"}
        refused = [told(it, by) for it, by in actions.items() if by[0] in codes]
        kept = [it for it, by in actions.items() if by[0] not in codes]
        seen = [first, *(actions[it] for it in kept)]
        if not kept:
            return {"refused": refused, "verdict": "rejected"}
        if any(it[0] == "DISCARD" for it in seen):
            return {"refused": refused, "verdict": "discarded"}
        kept = ([[it[2]] for it in seen if it[0] == "REDIRECT"] or [kept])[-1]
        reason = next((it[2] or "held by access table" for it in seen if it[0] == "HOLD"), None)
        refuse_if(messages >= int(customer["messages"]), 40)
        refuse_if(size + asked["size"] > int(customer["bytes"]), 41)
        state = HOLD if reason else INCOMING
        self.base.execute("INSERT INTO messages VALUES (?, ?, ?, ?, ?, ?, ?, ?, 0, 0)",
                          (name, serial, sender, spool, asked["size"], at, state, at))
        self.base.executemany("INSERT INTO recipients VALUES (?, ?, ?, ?, '', '')",
                              [(name, serial, *it) for it in enumerate(kept)])
        if reason:
            self.base.execute("INSERT INTO holds VALUES (?, ?, ?)", (name, serial, reason))
        self.count(name, next_serial=1, accepted=len(kept), messages=1, bytes=asked["size"])
        return {"id": f"{serial:010X}", "recipients": kept, "refused": refused, "state": STATES[state],
                "verdict": "queued"}

    def hold(self, name, serial):
        state = self.one("SELECT state FROM messages WHERE customer = ? AND serial = ?", name, serial)
        refuse_if(not state, 10)
        if state[0] == HOLD:
            return {"changed": 0}
        self.base.execute("UPDATE messages SET state = 2 WHERE customer = ? AND serial = ?", (name, serial))
        self.base.execute("INSERT INTO holds VALUES (?, ?, 'held by customer')", (name, serial))
        return {"changed": 1}

    def release(self, name, serial, at):
        state = self.one("SELECT state FROM messages WHERE customer = ? AND serial = ?", name, serial)
        refuse_if(not state, 10)
        if state[0] != HOLD:
            return {"changed": 0}
        self.base.execute("UPDATE messages SET state = 1, next_try = ? WHERE customer = ? AND serial = ?",
                          (at, name, serial))
        self.base.execute("DELETE FROM holds WHERE customer = ? AND serial = ?", (name, serial))
        return {"changed": 1}

    def hold_all(self, name):
        self.base.execute("INSERT INTO holds SELECT customer, serial, 'held by customer' FROM messages"
                          " WHERE customer = ? AND state <> 2", (name,))
        held = self.base.execute("UPDATE messages SET state = 2 WHERE customer = ? AND state <> 2", (name,))
        return {"changed": held.rowcount}

    def release_all(self, name, at):
        self.base.execute("DELETE FROM holds WHERE customer = ?", (name,))
        released = self.base.execute("UPDATE messages SET state = 1, next_try = ? WHERE customer = ? AND state = 2",
                                     (at, name))
        return {"changed": released.rowcount}

    def delete(self, name, serial):
        size = self.one("SELECT size FROM messages WHERE customer = ? AND serial = ?", name, serial)
        refuse_if(not size, 10)
        self.base.execute("DELETE FROM messages WHERE customer = ? AND serial = ?", (name, serial))
        gone = self.base.execute("DELETE FROM recipients WHERE customer = ? AND serial = ?", (name, serial)).rowcount
        self.base.execute("DELETE FROM holds WHERE customer = ? AND serial = ?", (name, serial))
        self.count(name, deleted=gone, messages=-1, bytes=-size[0])
        return {"changed": 1}

    def check(self, name, asked):
        kind, address = asked["class"], asked["address"]
        refuse_if(kind not in ("sender", "recipient"), 8)
        refuse_if(not ADDRESS.fullmatch(address) and (address or kind == "recipient"), 20)
        pattern, action = self.found(name, kind, address)
        return {"action": action, "keys": keys_of(address), "pattern": pattern}

    def queue(self, name, limit):
        return self.base.execute(
            "SELECT serial, sender, size, arrival, state, hold_reason, (SELECT count(*) FROM recipients r WHERE r.customer ="
            " m.customer AND r.serial = m.serial) FROM messages m LEFT JOIN holds USING (customer, serial)"
            " WHERE customer = ? ORDER BY serial LIMIT ?", (name, limit)).fetchall()

    def list(self, name):
        rows = self.queue(name, 101)
        return {"more": len(rows) > 100, "messages": [
            {"arrival": arrival, "id": f"{serial:010X}", "reason": reason or "", "recipients": count, "sender": sender,
             "size": size, "state": STATES[state]} for serial, sender, size, arrival, state, reason, count in rows[:100]]}

    def report(self, name):
        rows, by_serial = self.queue(name, -1), {}
        for serial, *rest in self.base.execute("SELECT serial, address, status, reason FROM recipients WHERE customer = ?"
                                               " ORDER BY serial, place", (name,)):
            by_serial.setdefault(serial, []).append(rest)
        told = ["Queue ID          Size Arrival                         Sender/Recipient"]
        for serial, sender, size, arrival, state, reason, _ in rows:
            date = formatdate(arrival).replace("-0000", "+0000")
            told.append(f"{serial:010X}{'!' if state == HOLD else ' '}{size:>11} {date} {sender or 'MAILER-DAEMON'}")
            told += [f"    (hold: {reason})"] if reason else []
            for address, status, text in by_serial.get(serial, []):
                told += [f"    ({status} {text})"] if status else []
                told.append(f"    {address}")
        held = sum(it[4] == HOLD for it in rows)
        told.append(f"-- {len(rows)} queued, {sum(it[2] for it in rows)} bytes, {held} on hold")
        return {"report": "".join(f"{it}\n" for it in told) if rows else "Mail queue is empty\n"}

    def load(self, customer, asked):
        name, label, text = customer["name"], asked["label"], asked["csv"]
        refuse_if(not NAME.fullmatch(label), 27)
        digest, counts = hashlib.sha256(text.encode()).digest(), {"added": 0, "changed": 0, "same": 0}
        mark = self.one("SELECT digest, added, changed, same FROM marks WHERE customer = ? AND label = ?", name, label)
        if mark:
            refuse_if(mark[0] != digest, 52)
            return dict(zip(counts, mark[1:]))
        header, *rows = filter(None, csv.reader(io.StringIO(text)))
        refuse_if(header != ["class", "pattern", "action"], 50)
        for row in rows:
            refuse_if(len(row) != 3 or row[0] not in ("sender", "recipient") or not ACTION.fullmatch(row[2]), 50)
            key = name, row[0], row[1].lower()
            was = self.one("SELECT action FROM lines WHERE customer = ? AND class = ? AND pattern = ?", *key)
            counts["added" if not was else "same" if was[0] == row[2] else "changed"] += 1
            self.base.execute("INSERT OR REPLACE INTO lines VALUES (?, ?, ?, ?)", (*key, row[2]))
        refuse_if(self.head(name)[3] + counts["added"] > int(customer["lines"]), 42)
        self.base.execute("INSERT INTO marks VALUES (?, ?, ?, ?, ?, ?)", (name, label, digest, *counts.values()))
        self.count(name, lines=counts["added"])
        return counts

    def call(self, at, path, key, body):
        _, role, word, *rest = path.split("/")
        customer = self.customers.get(key)
        if role == "relay":
            refuse_if(key != RELAY, 3 if customer else 2)
            return self.submit(self.named[rest[0]], at, json.loads(body))
        refuse_if(not customer, 2)
        name, serial = customer["name"], int(rest[0], 16) if rest else 0
        calls = {"messages": lambda: self.list(name), "report": lambda: self.report(name),
                 "hold": lambda: self.hold(name, serial), "release": lambda: self.release(name, serial, at),
                 "hold-all": lambda: self.hold_all(name), "release-all": lambda: self.release_all(name, at),
                 "message": lambda: self.delete(name, serial), "check": lambda: self.check(name, json.loads(body)),
                 "import": lambda: self.load(customer, json.loads(body))}
        refuse_if(word not in calls, 4)
        return calls[word]()

    def reply(self, line):
        at, _, path, key, *body = line.split(" ", 4)
        self.base.execute("BEGIN")
        try:
            told = self.call(int(at), path, key, *body or [""])
            self.base.execute("COMMIT")
            return 200, told
        except Refused as refused:
            self.base.execute("ROLLBACK")
            number = refused.args[0]
            return STATUSES.get(number, 400), {"error": number, "name": NAMES[number]}


def main(directory, store=None):
    with open(directory, newline="", encoding="utf-8") as rows:
        desk = Desk([*csv.DictReader(rows)], store)
    for line in sys.stdin:
        status, told = desk.reply(line.rstrip("\n"))
        print(status, json.dumps(told, separators=(",", ":"), sort_keys=True), flush=True)


if __name__ == "__main__":
    main(*sys.argv[1:])
