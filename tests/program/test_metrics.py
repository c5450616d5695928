"""Tries relay/metrics.

1. Of a desk with two customers, one of which has mail and a line, it prints just the lines that are written here.
2. A desk in whose place a stub of Python answers is asked by one POST with the relay's key. Texts that no name has are
   escaped; a fault, a body that is no JSON, and a reply of nginx are told in one line, with status 1, and nothing else is
   printed. So are a desk that is away and a key that the desk does not know.
3. Where it has more than a hundred customers it is asked again, from the customer on that it names. A stop at a customer, of
   whichever hundred, is told as a fault is; and so is a name from which it was asked before.
4. Bad settings and bad words are told with status 2.
"""
import json
import re
import subprocess
import time
from pathlib import Path

from serving import ACME, BIRCH, DIRECTORY, LONGEST, RELAY, Server, expect, request, words
from stand_in import StandIn, by_hundreds
import pytest

METRICS = Path(__file__).resolve().parents[2] / "relay/metrics"
SETTINGS = """\
[desk]
address = {}:{}
key-file = relay.key
directory = customers.csv
timeout = 5
[spool]
folder = spool
[intake]
listen = 127.0.0.1:0
[delivery]
host = relay.example
[notices]
next-hop = 127.0.0.1:25
from = MAILER-DAEMON@relay.example
"""
TOLD = """\
# HELP desk_messages Queued messages.
# TYPE desk_messages gauge
desk_messages{customer="acme"} 2
desk_messages{customer="birch"} 0
# HELP desk_bytes Bytes of the queued messages.
# TYPE desk_bytes gauge
desk_bytes{customer="acme"} 1200
desk_bytes{customer="birch"} 0
# HELP desk_lines Lines of the access tables.
# TYPE desk_lines gauge
desk_lines{customer="acme"} 1
desk_lines{customer="birch"} 0
# HELP desk_recipients_pending Recipients that are pending.
# TYPE desk_recipients_pending gauge
desk_recipients_pending{customer="acme"} 3
desk_recipients_pending{customer="birch"} 0
# HELP desk_recipients_accepted_total Recipients that were accepted.
# TYPE desk_recipients_accepted_total counter
desk_recipients_accepted_total{customer="acme"} 7
desk_recipients_accepted_total{customer="birch"} 1
# HELP desk_recipients_delivered_total Recipients that were delivered.
# TYPE desk_recipients_delivered_total counter
desk_recipients_delivered_total{customer="acme"} 1
desk_recipients_delivered_total{customer="birch"} 0
# HELP desk_recipients_failed_total Recipients that failed.
# TYPE desk_recipients_failed_total counter
desk_recipients_failed_total{customer="acme"} 2
desk_recipients_failed_total{customer="birch"} 0
# HELP desk_recipients_deleted_total Recipients that were deleted.
# TYPE desk_recipients_deleted_total counter
desk_recipients_deleted_total{customer="acme"} 1
desk_recipients_deleted_total{customer="birch"} 1
# HELP desk_recipients_expired_total Recipients that expired.
# TYPE desk_recipients_expired_total counter
desk_recipients_expired_total{customer="acme"} 0
desk_recipients_expired_total{customer="birch"} 0
# HELP desk_messages_limit Messages that may be queued.
# TYPE desk_messages_limit gauge
desk_messages_limit{customer="acme"} 1000
desk_messages_limit{customer="birch"} 100
# HELP desk_bytes_limit Bytes that queued messages may have together.
# TYPE desk_bytes_limit gauge
desk_bytes_limit{customer="acme"} 500000000
desk_bytes_limit{customer="birch"} 1000000
# HELP desk_oldest_message_seconds Age of the first message of the queue that is not on hold.
# TYPE desk_oldest_message_seconds gauge
desk_oldest_message_seconds{customer="acme"} AGE
desk_oldest_message_seconds{customer="birch"} 0
"""
EVENTS = """\
level=info event=queued customer=acme
level=error event="lost notices" customer=acme numbers=1-3
level=error event="desk away" customer=acme why="a \\"level=error event=none\\" b"
level=error event="lost notices" customer=birch numbers=4
level=info event=refused sender="level=error event=forged "
level=error event=plain
level=error event="a \\" quote"
level=error event=%s
""" + "level=info event=refused why=".ljust(4096, "x") + "level=error event=forged\n"
OF_EVENTS = """\
# HELP desk_worker_errors Lines of the level error that the worker wrote, by event.
# TYPE desk_worker_errors gauge
desk_worker_errors{event="desk away"} 1
desk_worker_errors{event="lost notices"} 2
desk_worker_errors{event="plain"} 1
"""
COUNTS = ("accepted", "bytes", "deleted", "delivered", "expired", "failed", "lines", "messages", "pending")
MANY = [f"c{number:03}" for number in range(201)]
USED = {name: number for number, name in enumerate(COUNTS)}


def run(folder, address, *words_of, lines=""):
    """The script over the settings of a desk at this address: its status, output and errors."""
    (folder / "relay.ini").write_text(SETTINGS.format(*address))
    ended = subprocess.run([METRICS, *(words_of or ("relay.ini",))], cwd=folder, input=lines.encode(),
                           stdout=subprocess.PIPE, stderr=subprocess.PIPE, timeout=LONGEST)
    return ended.returncode, ended.stdout.decode(), ended.stderr.decode()


def expect_refusal(folder, address, reason):
    status, printed, told = run(folder, address)
    expect((status, printed, told.count("\n")) == (1, "", 1) and told.startswith("relay: the desk does not tell: ")
           and reason in told, reason, "is told as", status, printed, told)


# ---- the desk

def mail(spool, recipients, size):
    return {"spool": spool, "sender": "ann@a.example", "recipients": [f"{it}@far.example" for it in recipients], "size": size}


def outcome(id, results):
    outcomes = [{"recipient": f"{name}@far.example", "result": it, "status": "5.1.1", "text": "no such user"}
                for name, it in results.items()]
    return {"id": id, "attempt": 1, "outcomes": outcomes}


CALLS = [("POST", "/v1/line-put", ACME, {"class": "sender", "pattern": "b.example", "action": "REJECT"}),
         ("POST", "/relay/submit/acme", RELAY, mail("s1", "abcde", 700)),
         ("POST", "/relay/submit/acme", RELAY, mail("s2", "a", 500)),
         ("POST", "/relay/submit/acme", RELAY, mail("s3", "a", 300)),
         ("POST", "/relay/submit/birch", RELAY, mail("s1", "a", 100)),
         ("POST", "/relay/outcome/acme", RELAY, outcome("0000000001", {"a": "delivered", "b": "failed", "c": "failed"})),
         ("DELETE", "/v1/message/0000000003", ACME, b""),
         ("DELETE", "/v1/message/0000000001", BIRCH, b"")]


def of_a_desk(program, folder):
    with Server(words(program, "serve", "desk.db"), folder, len(CALLS) + 8) as server:
        for method, path, key, body in CALLS:
            server.body_of(request(method, path, key, body))
        time.sleep(1.1)
        # (a usage and a page of acme's each of three times, and a usage that is refused; a hold counts itself)
        server.made += 7
        at = "{}:{}".format(*server.address)
        for address, more in ((server.address, ()), (("127.0.0.1", 1), ("relay.ini", at))):
            status, printed, errors = run(folder, address, *more)
            age = re.search(r'desk_oldest_message_seconds{customer="acme"} (\d+)\n', printed)
            expect(age and 0 < int(age[1]) < LONGEST, "the age is", age)
            expect((status, printed, errors) == (0, TOLD.replace("AGE", age[1]), ""), "of a desk it tells", status, printed, errors)
        server.body_of(request("POST", "/v1/hold-all", ACME))
        status, printed, _ = run(folder, server.address)
        expect('desk_oldest_message_seconds{customer="acme"} 0\n' in printed and status == 0, "with all on hold it tells", printed)
        (folder / "relay.key").write_text(RELAY[::-1])
        expect_refusal(folder, server.address, "2 NoKey")
    expect_refusal(folder, server.address, "ConnectionRefusedError")


# ---- a stub

def of_a_stub(folder):
    """What is told of one customer, and how what is no usage is."""
    usage = {"customer": 'a"b\\c\nd', **USED, "later": "a member"}
    with StandIn() as desk:
        def replies(status, told):
            desk.reply = lambda body: (status, told if isinstance(told, str) else json.dumps(told))

        replies(200, {"done": [usage], "next": None, "stopped": None})
        status, printed, told = run(folder, desk.server_address)
        expect((status, told) == (0, "") and r'desk_messages{customer="a\"b\\c\nd"} 7' in printed.split("\n"),
               "escaped", status, printed, told)
        expect(printed.count("\n") == 9 * 3 + 2 * 2 + 3, "lines", printed)
        for reply, reason in (((503, {"error": 90, "name": "WantOfMemory"}), "WantOfMemory"),
                              ((404, {"name": "NoRoute", "proxy": 404}), "404"),
                              ((200, "<html>"), "JSONDecodeError")):
            replies(*reply)
            expect_refusal(folder, desk.server_address, reason)
        expect(desk.asked == asked_from(None) * 4, "asked was", desk.asked)


def asked_from(*names):
    """What is asked of the customers from each of these on, or from the first."""
    return [("/relay/usage-from", RELAY, json.dumps({"from": it}).encode()) for it in names]


def of_words(folder):
    told = run(folder, ("127.0.0.1", 1), "--events", lines=EVENTS % ("x" * 9000))
    expect(told == (0, OF_EVENTS, ""), "of events it tells", told)
    for asked, reason in ((("relay.ini", "more"), "more is not HOST:PORT"), (("relay.ini", "127.0.0.1:1", "x"), "Prometheus"),
                          (("nowhere.ini",), "nowhere.ini")):
        status, printed, told = run(folder, ("127.0.0.1", 1), *asked)
        expect((status, printed) == (2, "") and reason in told, asked, status, printed, told)


@pytest.fixture
def customers(folder):
    (folder / "customers.csv").write_text(DIRECTORY)
    (folder / "relay.key").write_text(RELAY)
    return folder


def test_of_a_stub(customers):
    of_a_stub(customers)


def test_of_hundreds(customers):
    with StandIn(by_hundreds(MANY, USED)) as desk:
        status, printed, _ = run(customers, desk.server_address)
        told = re.findall(r'^desk_messages{customer="(\w+)"} 7$', printed, re.M)
        expect(status == 0 and told == MANY, "of these it tells", status, told)
        expect(desk.asked == asked_from(None, "c100", "c200"), "asked was", desk.asked)


@pytest.mark.parametrize("fault, starts", [("c000", [None]), ("c150", [None, "c100"]), ("c200", [None, "c100", "c200"])])
def test_of_a_stop(customers, fault, starts):
    with StandIn(by_hundreds(MANY, USED, fault)) as desk:
        expect_refusal(customers, desk.server_address, "'Disk'")
        expect(desk.asked == asked_from(*starts), "asked was", desk.asked)


def test_of_no_end(customers):
    with StandIn(lambda body: (200, json.dumps({"done": [], "next": "c000", "stopped": None}))) as desk:
        expect_refusal(customers, desk.server_address, "goes on at c000 again")
        expect(desk.asked == asked_from(None, "c000"), "asked was", desk.asked)


def test_of_words(customers):
    of_words(customers)


def test_of_a_desk(program, customers):
    of_a_desk(program, customers)
