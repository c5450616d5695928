"""Counts the commits of a server whose clients ask at once.

The server is stopped (SIGSTOP) until each client has sent its whole request, so that all of them have come when it goes on.
How often it syncs its file, beside a server of one call, tells how many commits there were: each further one takes one sync. A
library counts the syncs (tests/support/interpose.c).

1. 64 calls that change something share one commit, and 65 take two.
2. Calls that only read take none.
3. A report, or a call of a hundred customers, among calls that change something is done alone, between two commits.
4. Each client gets the response to its own request: it moves a message, or reads one whose spool name is its own.
5. Clients that ask again as soon as they have their responses share commits with those that asked meanwhile, where a sync takes
   long: a round is delayed for them. A client that asks alone waits for its sync alone.
"""
import json
import signal
import subprocess
import time
from concurrent.futures import ThreadPoolExecutor

import pytest
from serving import ACME, HEADER, RELAY, Server, batch_line, expect, request, submission, words

ROWS = f"acme,{ACME},1000,500000000,2000,1000,14400\n"
MESSAGES, TOGETHER = 70, 64
HOLD, SHOW, REPORT = "hold", "show", "report"
# Calls of a hundred customers.
HUNDREDS = USAGE, DUE = "usage-from", "due-from"
# As many clients that ask again, so often each, and how many commits that may take: without a delay it is two for each turn.
CLIENTS, TURNS, MOST_COMMITS = 8, 10, 15
# How long a sync takes in milliseconds, and how many more a client may wait that asks alone: a delay would be ten.
SYNC, MORE = 30, 9


@pytest.fixture
def filled(program, folder):
    """A folder with a store of so many messages, each with a spool name of its own."""
    (folder / "customers.csv").write_text(HEADER + ROWS)
    lines = [batch_line(int(time.time()), "POST", "/relay/submit/acme", RELAY, submission(f"spool-{it + 1}"))
             for it in range(MESSAGES)]
    ended = subprocess.run(words(program, "batch", "store"), input="".join(f"{it}\n" for it in lines).encode(),
                           capture_output=True, cwd=folder, check=True)
    expect(ended.stdout.count(b"200 ") == MESSAGES, "submissions gave", ended.stdout[:300])
    return folder


def sent(kind, number):
    """The request of a client, for the message of its number."""
    if kind == REPORT:
        return request("GET", "/v1/report", ACME)
    if kind in HUNDREDS:
        return request("POST", f"/relay/{kind}", RELAY, {"from": None})
    method, path = ("POST", "hold") if kind == HOLD else ("GET", "message")
    return request(method, f"/v1/{path}/{number:010X}", ACME)


def is_its_own(kind, number, told):
    """Whether a response is that of the request of this client."""
    head, _, body = told.partition(b"\r\n\r\n")
    found = json.loads(body)
    if not head.startswith(b"HTTP/1.1 200 OK\r\n"):
        return False
    if kind == SHOW:
        return (found["id"], found["spool"]) == (f"{number:010X}", f"spool-{number}")
    if kind in HUNDREDS:
        return [it["customer"] for it in found["done"]] == ["acme"]
    return "changed" not in found if kind == REPORT else found == {"changed": 1}


def syncs_of(program, folder, library, kinds, first=1):
    """How often a server syncs whose clients ask these at once, each for a message: the first, and those behind it."""
    counts = folder / "counts"
    more = {"LD_PRELOAD": library, "CALLS": str(counts)}
    with Server(words(program, "serve", "store"), folder, len(kinds), **more) as server:
        server.process.send_signal(signal.SIGSTOP)
        clients = [(kind, number, server.connect()) for number, kind in enumerate(kinds, first)]
        for kind, number, client in clients:
            client.sendall(sent(kind, number))
        server.process.send_signal(signal.SIGCONT)
        for kind, number, client in clients:
            told = server.received(client)
            expect(is_its_own(kind, number, told), kind, number, "got", told[:300])
    return int(counts.read_text().split()[1])


@pytest.mark.parametrize("kinds, commits", [
    ([SHOW] * 2, 0),
    ([SHOW, HOLD], 1),
    ([HOLD, SHOW] * (TOGETHER // 2), 1),
    ([HOLD] * TOGETHER, 1),
    ([HOLD] * (TOGETHER + 1), 2),
    ([HOLD] * 3 + [REPORT] + [HOLD] * 3, 2),
    ([REPORT, HOLD, HOLD], 1),
    ([HOLD] * 3 + [USAGE] + [HOLD] * 3, 2),
    ([HOLD] * 3 + [DUE] + [HOLD] * 3, 2),
], ids=["reads", "two", "mixed", "as-many-as-share", "one-more", "a-report-between", "a-report-first", "a-usage-between", "a-due-between"])
def test_commits(program, filled, library, kinds, commits):
    none = syncs_of(program, filled, library, [SHOW])
    one = syncs_of(program, filled, library, [HOLD], MESSAGES)
    expect(none < one, "a call that changes something takes", one, "syncs, and one that reads", none)
    wanted = one + commits - 1 if commits else none
    found = syncs_of(program, filled, library, kinds)
    expect(found == wanted, len(kinds), "calls took", found, "syncs, and not", wanted)


def moves(server, number, times, waits):
    """Holds and releases a message by turns, each time as soon as the response to the one before is there."""
    for turn in range(times):
        begun = time.monotonic()
        with server.connect() as client:
            client.sendall(request("POST", f"/v1/{('hold', 'release')[turn % 2]}/{number:010X}", ACME))
            told = server.received(client)
        expect(is_its_own(HOLD, number, told), number, turn, "got", told[:300])
        waits.append((time.monotonic() - begun) * 1000)


def commits_of(program, folder, library, one, times, milliseconds, later=(), first=1):
    """How many commits a server makes whose clients move a message so often each, some later; and how long each call waited."""
    counts, waits = folder / "counts", []
    more = {"LD_PRELOAD": library, "CALLS": str(counts), "SYNC_TAKES": str(milliseconds)}
    with Server(words(program, "serve", "store"), folder, sum(times), **more) as server:
        with ThreadPoolExecutor(len(times)) as clients:
            asked = []
            for number, count in enumerate(times, first):
                if number - first in later:
                    time.sleep(milliseconds / 4000)
                asked.append(clients.submit(moves, server, number, count, waits))
            for it in asked:
                it.result()
    return int(counts.read_text().split()[1]) - one + 1, waits


def test_clients_that_ask_again_share_commits(program, filled, library):
    one = syncs_of(program, filled, library, [HOLD], MESSAGES)
    # (a machine that is busy for ten milliseconds parts some of them once)
    tried = [commits_of(program, filled, library, one, [TURNS] * CLIENTS, SYNC)[0] for _ in range(3)]
    expect(TURNS <= min(tried) <= MOST_COMMITS, CLIENTS * TURNS, "calls took", tried, "commits")


def test_clients_that_ask_again_share_the_commit_of_those_that_asked_meanwhile(program, filled, library):
    one = syncs_of(program, filled, library, [HOLD], MESSAGES)
    # (as above)
    tried = [commits_of(program, filled, library, one, [2, 1], 10 * SYNC, [1], first)[0] for first in (1, 3, 5)]
    expect(2 in tried, "two calls of one client, and one of another meanwhile, took", tried, "commits")


def test_a_client_alone_waits_for_its_sync_alone(program, filled, library):
    one = syncs_of(program, filled, library, [HOLD], MESSAGES)
    tried = [commits_of(program, filled, library, one, [TURNS], SYNC) for _ in range(3)]
    expect(tried[0][0] == TURNS, TURNS, "calls took", tried[0][0], "commits")
    # (two calls may take longer: the first, which makes the log, and one on a busy machine)
    waits = [sorted(waits)[-3] for _, waits in tried]
    expect(min(waits) < SYNC + MORE, "all but two calls of a client alone waited up to", waits, "milliseconds")
