"""Of tests/program/test_words.py: the words of an administrator, over stores that a batch has filled and that sqlite3 has changed."""
import os
import subprocess

from serving import HEADER, LONGEST, Wrong
from words_runs import (ACME, BIRCH, IMPORT, LISTED, MOVE, ONE_REPORT, QUEUE, QUEUED, SUBMIT, SWEEP, SWEEP_ALL, USAGE, asked,
                        batch, output_is_full, serve, sqlite3)

LINES = "class,pattern,action\nsender,spam.example,REJECT\nrecipient,far.example,HOLD\nrecipient,near.example,OK\n"
REPORT = b"""\
Queue ID          Size Arrival                         Sender/Recipient
0000000001         900 Thu, 01 Jan 2026 00:00:00 +0000 ann@a.example
    bob@b.example
0000000002         900 Mon, 05 Jan 2026 23:00:01 +0000 ann@a.example
    bob@b.example
-- 2 queued, 1800 bytes, 0 on hold
"""
SWEPT_REPORT = b"""\
Queue ID          Size Arrival                         Sender/Recipient
0000000002         900 Mon, 05 Jan 2026 23:00:01 +0000 ann@a.example
    bob@b.example
-- 1 queued, 900 bytes, 0 on hold
"""
EMPTY = b"Mail queue is empty\n"


def administrators_checks_come_in_order(runs):
    """Relay's name, directory, customer, label, file, store, and then the call's own refusals."""
    (runs.folder / "lines.csv").write_text(LINES)
    wrong = {"directory": "none.csv", "customer": "ACME", "label": "a label", "file": "none.csv", "store": "."}
    for host in ("", "relay..example"):
        for given in (SWEEP, SWEEP_ALL):
            runs.expect(asked("sweep", given, **{**wrong, "host": host}), 1, b"", b"hq: 56 BadHost\n")
    for word, given in (("queue", QUEUE), ("import", IMPORT), ("sweep", SWEEP)):
        runs.expect(asked(word, given, **wrong), 1, b"", b"hq: file\n")
        runs.expect(asked(word, given, **{**wrong, "directory": "bad.csv"}), 1, b"", b"hq: 54 DoubledName row 2\n")
        for customer in ("ACME", "acm", "acme ", ""):
            other = {**wrong, "directory": "customers.csv", "customer": customer}
            runs.expect(asked(word, given, **other), 1, b"", b"hq: 13 NoCustomer\n")
        runs.expect(asked(word, given, store="."), 1, b"", b"hq: 91 Disk\n")
    runs.expect(asked("sweep", SWEEP_ALL, **wrong), 1, b"", b"hq: file\n")
    runs.expect(asked("sweep", SWEEP_ALL, **{**wrong, "directory": "bad.csv"}), 1, b"", b"hq: 54 DoubledName row 2\n")
    runs.expect(asked("sweep", SWEEP_ALL, store="."), 1, b"", b"hq: 91 Disk\n")
    for label in ("", "a label", "l" * 65):
        runs.expect(asked("import", IMPORT, label=label, file="none.csv", store="."), 1, b"", b"hq: 27 BadLabel\n")
    for unread in ("none.csv", ".", ""):
        runs.expect(asked("import", IMPORT, file=unread, store="."), 1, b"", b"hq: file\n")


def administrators_words_are_done(runs):
    """One store through all three words, beside a batch."""
    store = "admin.db"

    def imports(label, file, output=b"", errors=b"", **other):
        (runs.folder / "lines.csv").write_text(file)
        words = asked("import", IMPORT, store=store, label=label, **other)
        runs.expect(words, 1 if errors else 0, output, errors)

    three = b"added 3, changed 0, same 0\n"
    imports("january", LINES, three)
    imports("january", LINES, three)
    imports("january", LINES + "\n", errors=b"hq: 52 LabelUsed\n")
    imports("february", LINES.replace("HOLD", "DISCARD"), b"added 0, changed 1, same 2\n")
    imports("january", LINES, three, customer="birch")
    imports("march", LINES + "sender,SPAM.example,OK\n", errors=b"hq: 51 DoubledPattern row 4\n")
    imports("march", LINES + "sender,b.example,WARN\n", errors=b"hq: 50 BadCsv row 4\n")
    imports("march", "", errors=b"hq: 50 BadCsv row 0\n")
    more = "".join(f"sender,s{it}.example,OK\n" for it in range(8))
    imports("march", LINES + more, errors=b"hq: 42 QuotaLines\n")
    first, later, aged = 1767225600, 1767225600 + 428401, 1767225600 + 432000
    runs.expect(asked("queue", QUEUE, store=store), 0, EMPTY)
    lines = SUBMIT.format(first, "s1") + SUBMIT.format(later, "s2")
    replies = QUEUED.format("0000000001") + QUEUED.format("0000000002")
    runs.expect(batch(store=store), 0, replies.encode(), b"", lines.encode())
    runs.expect(asked("queue", QUEUE, store=store), 0, REPORT)
    runs.expect(asked("queue", QUEUE, store=store, customer="birch"), 0, EMPTY)

    def sweeps(at, output, **other):
        runs.expect(asked("sweep", SWEEP, store=store, at=str(at), **other), 0, output)

    sweeps(first, b"expired 0, warned 0, notices 0\n")
    sweeps(aged, b"expired 0, warned 0, notices 0\n", customer="birch")
    sweeps(aged, b"expired 1, warned 0, notices 1\n")
    sweeps(aged, b"expired 0, warned 0, notices 0\n")
    sweeps(aged + 1, b"expired 0, warned 1, notices 1\n")
    runs.expect(asked("queue", QUEUE, store=store), 0, SWEPT_REPORT)
    runs.expect(asked("queue", QUEUE, store="new.db"), 0, EMPTY)
    runs.expect(asked("queue", QUEUE, store="lines.csv"), 1, b"", b"hq: 91 Disk\n")


USED = "{}: messages {}, bytes {}, lines {}, accepted {}, pending {}, delivered 0, failed 0, deleted {}, expired {}\n"


def usages_are_told(runs):
    """Each customer of the directory, in its order, has a line; nothing is changed; a fault ends it."""
    def uses(store, lines, errors=b"", **other):
        words = asked("usage", USAGE, store=store, **other)
        runs.expect(words, 1 if errors else 0, lines.encode(), errors)

    none = {name: USED.format(name, 0, 0, 0, 0, 0, 0, 0) for name in ("acme", "birch")}
    for unread in ("none.csv", ""):
        uses(".", "", b"hq: file\n", directory=unread)
    uses(".", "", b"hq: 54 DoubledName row 2\n", directory="bad.csv")
    uses(".", "", b"hq: 91 Disk\n")
    uses("used.db", none["acme"] + none["birch"])
    lines = (SUBMIT.format(1767225600, "s1") + SUBMIT.format(1767225600, "s2").replace("900", "1100")
             + '1767225601 DELETE /v1/message/0000000001 acmekey000000001\n')
    replies = QUEUED.format("0000000001") + QUEUED.format("0000000002") + '200 {"changed":1}\n'
    runs.expect(batch(store="used.db"), 0, replies.encode(), b"", lines.encode())
    (runs.folder / "lines.csv").write_text(LINES)
    runs.expect(asked("import", IMPORT, store="used.db", customer="birch"), 0, b"added 3, changed 0, same 0\n")
    acme, birch = USED.format("acme", 1, 1100, 0, 2, 1, 1, 0), USED.format("birch", 0, 0, 3, 0, 0, 0, 0)
    for _ in range(2):
        uses("used.db", acme + birch)
    uses("used.db", birch + acme, directory="turned.csv")
    uses("used.db", birch, directory="birch.csv")
    store_is_changed(runs, "used.db", "UPDATE heads SET messages = -1 WHERE customer = 'birch'")
    uses("used.db", "", b"hq: 91 Disk\n", directory="turned.csv")
    uses("used.db", acme, b"hq: 91 Disk\n")
    output_is_full(runs, asked("usage", USAGE, store="used.db"), b"hq: output\nhq: 91 Disk\n")


def stores_are_their_owners(runs):
    """A store that is made, and its log, are for the owner alone, whatever the umask; one that is there stays as it is."""
    def modes(store):
        return [oct((runs.folder / f"{store}{end}").stat().st_mode & 0o777) for end in ("", "-wal")]

    def expect(store, mode):
        if modes(store) != [mode, mode]:
            raise Wrong(store, "and its log have the modes", modes(store), "and not", mode)
        runs.count += 1

    before = os.umask(0)
    try:
        for number, words in enumerate((batch(), serve(), asked("queue", QUEUE[:1] + QUEUE[2:]), asked("usage", USAGE[:1]))):
            store = f"owned-{number}.db"
            ended = subprocess.run([runs.program, *words, "--store", store], input=b"", capture_output=True, cwd=runs.folder,
                                   timeout=LONGEST)
            if ended.returncode not in (0, 1) or ended.stderr not in (b"", b"hq: network\n"):
                raise Wrong(words, "gave", ended)
            expect(store, "0o600")
        (runs.folder / "shared.db").touch(0o640)
        runs.expect(batch(store="shared.db"), 0, LISTED)
        expect("shared.db", "0o640")
    finally:
        os.umask(before)
    for path in (":memory:", "file:made.db"):
        runs.expect(batch(store=path), 1, b"", b"hq: 91 Disk\n")
        if (runs.folder / path).exists():
            raise Wrong("a refused run left", path)


def store_is_changed(runs, store, change):
    """A row of a store is changed as no call does it."""
    with sqlite3.connect(runs.folder / store) as base:
        base.execute(change)
    base.close()


def submitted(runs, store, at):
    """A message of acme and one of birch, in a store that is new."""
    lines = SUBMIT.format(at, "s1") + SUBMIT.format(at, "s1").replace("acme", "birch")
    runs.expect(batch(store=store), 0, QUEUED.format("0000000001").encode() * 2, b"", lines.encode())


def all_customers_are_swept(runs):
    """Each customer of the directory, in its order, has a line; a refusal is told and the next one swept; a fault ends it."""
    first, late, aged = 1767225600, 1767225600 + 3600, 1767225600 + 432000
    (runs.folder / "turned.csv").write_text(HEADER + BIRCH + ACME)
    (runs.folder / "birch.csv").write_text(HEADER + BIRCH)

    def sweeps(store, at, lines, errors=b"", **other):
        words = asked("sweep", SWEEP_ALL, store=store, at=str(at), **other)
        runs.expect(words, 1 if errors else 0, lines, errors)

    sweeps("all.db", first, b"acme: expired 0, warned 0, notices 0\nbirch: expired 0, warned 0, notices 0\n")
    submitted(runs, "all.db", first)
    sweeps("all.db", late, b"acme: expired 0, warned 1, notices 1\nbirch: expired 0, warned 0, notices 0\n")
    turned = b"birch: expired 0, warned 0, notices 0\nacme: expired 0, warned 0, notices 0\n"
    sweeps("all.db", late, turned, directory="turned.csv")
    sweeps("all.db", aged, b"birch: expired 1, warned 0, notices 1\n", directory="birch.csv")
    sweeps("all.db", aged, b"acme: expired 1, warned 0, notices 1\nbirch: expired 0, warned 0, notices 0\n")
    for customer in ("acme", "birch"):
        runs.expect(asked("queue", QUEUE, store="all.db", customer=customer), 0, EMPTY)

    submitted(runs, "spent.db", first)
    store_is_changed(runs, "spent.db", "UPDATE heads SET next_notice = 1099511627776 WHERE customer = 'acme'")
    spent = b"hq: 44 NoticesSpent customer acme\n"
    runs.expect(asked("sweep", SWEEP, store="spent.db", at=str(aged)), 1, b"", b"hq: 44 NoticesSpent\n")
    sweeps("spent.db", first, b"acme: expired 0, warned 0, notices 0\nbirch: expired 0, warned 0, notices 0\n")
    sweeps("spent.db", aged, b"birch: expired 1, warned 0, notices 1\n", spent)
    sweeps("spent.db", aged, b"birch: expired 0, warned 0, notices 0\n", spent, directory="turned.csv")
    runs.expect(asked("queue", QUEUE, store="spent.db"), 0, ONE_REPORT)
    output_is_full(runs, asked("sweep", SWEEP_ALL, store="spent.db", at=str(aged)), spent + b"hq: output\n")

    submitted(runs, "failing.db", first)
    store_is_changed(runs, "failing.db", "UPDATE messages SET state = 9 WHERE customer = 'birch'")
    sweeps("failing.db", aged, b"", b"hq: 91 Disk\n", directory="turned.csv")
    runs.expect(asked("queue", QUEUE, store="failing.db"), 0, ONE_REPORT)
    sweeps("failing.db", aged, b"acme: expired 1, warned 0, notices 1\n", b"hq: 91 Disk\n")
    runs.expect(asked("queue", QUEUE, store="failing.db"), 0, EMPTY)
    output_is_full(runs, asked("sweep", SWEEP_ALL, store="failing.db", at=str(aged)), b"hq: output\nhq: 91 Disk\n")


ON_HOLD = b"""\
Queue ID          Size Arrival                         Sender/Recipient
0000000001!        900 Thu, 01 Jan 2026 00:00:00 +0000 ann@a.example
    (hold: held by customer)
    bob@b.example
-- 1 queued, 900 bytes, 1 on hold
"""


def patterns_choose(runs):
    """What a pattern is for is listed, held, released and deleted, of one customer; and its end is in the history."""
    (runs.folder / "keeping.csv").write_text(f"{HEADER.strip()},history\n{ACME.strip()},1\n{BIRCH.strip()},0\n")

    def expect(word, given, output, *more, **other):
        runs.expect([*asked(word, given, **{"store": "some.db", "directory": "keeping.csv", **other}), *more], 0, output)

    lines = "".join(SUBMIT.format(1767225600, spool) for spool in ("s1", "s2")).replace("ann@a", "cat@a", 1)
    lines = "".join(reversed(lines.splitlines(True))) + SUBMIT.format(1767225600, "s1").replace("acme", "birch")
    replies = QUEUED.format("0000000001") + QUEUED.format("0000000002") + QUEUED.format("0000000001")
    runs.expect(batch("keeping.csv", store="some.db"), 0, replies.encode(), b"", lines.encode())
    ann, here, nobody = ("--sender", "ann@a.example"), ("--recipient", "b.example"), ("--sender", "<>")
    expect("queue", QUEUE, ONE_REPORT, *ann)
    expect("queue", QUEUE, EMPTY, *nobody)
    for pattern, changed in ((nobody, b"changed 0\n"), (ann, b"changed 1\n"), (ann, b"changed 0\n")):
        expect("hold", MOVE, changed, *pattern)
    expect("queue", QUEUE, ON_HOLD, *ann)
    expect("release", MOVE, b"changed 1\n", *here)
    expect("queue", QUEUE, ONE_REPORT, *ann)
    expect("history", QUEUE, b"")
    expect("delete", MOVE, b"changed 1\n", *ann)
    end = b"1 1767225700 0000000001 deleted ann@a.example bob@b.example - \n"
    for pattern, ends in (((), end), (here, end), (nobody, b"")):
        expect("history", QUEUE, ends, *pattern)
    expect("delete", MOVE, b"changed 1\n", *here)
    expect("history", QUEUE, b"2 1767225700 0000000002 deleted cat@a.example bob@b.example - \n")
    expect("queue", QUEUE, ONE_REPORT, *here, customer="birch")
    expect("history", QUEUE, b"", customer="birch")


DONE = [administrators_words_are_done, patterns_choose, all_customers_are_swept, usages_are_told, stores_are_their_owners]
