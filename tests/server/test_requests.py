"""Requests in whichever pieces they come, requests at their limits, and connections that fail.

Sockets give and take little, are interrupted and fail, as a library has them (tests/support/interpose.c), or as their clients
have them. Expected are the form of a request (docs/API.md, refusals 1 and 6), that of a response, and the replies of the desk's
calls: a head of version 1.0 or 1.1, with 16,384 bytes and 64 fields at most, its length and its key at most once each, no
`Transfer-Encoding`, and a body of that length, of 262,144 bytes at most. Who fails before the request is whole has asked for
nothing, and gets nothing; who fails behind it has asked. Requests by which somebody means to be taken for another are in
hostile.py.
"""
import socket
import struct
import time

import pytest
from serving import ACME, DIRECTORY, Server, expect, request, response, submission, words
from stores_files import replies_of
from tool import Workers

EMPTY = response(200, '{"accepted":0,"bytes":0,"deleted":0,"delivered":0,"expired":0,"failed":0,"lines":0,"messages":0,"pending":0}')
REFUSED = response(400, '{"error":1,"name":"BadRequest"}')
NO_KEY = response(401, '{"error":2,"name":"NoKey"}')
NO_ROUTE = response(404, '{"error":4,"name":"NoRoute"}')
TOO_LONG = response(413, '{"error":6,"name":"BodyTooLong"}')
BAD_JSON = response(400, '{"error":7,"name":"BadJson"}')
BAD_FIELD = response(400, '{"error":8,"name":"BadField"}')
CHECKED = response(200, '{"action":null,"keys":["<>"],"pattern":null}')
DISK, CLOSED = response(503, '{"error":91,"name":"Disk"}'), response(503, '{"error":93,"name":"Closed"}')
# The most bytes of one read or write, and whether each other one is interrupted.
MANNERS = [{}, {"READ_MOST": "1"}, {"READ_MOST": "2", "FLICKERS": "1"}, {"READ_MOST": "7", "WRITE_MOST": "1"},
           {"FLICKERS": "1", "WRITE_MOST": "3"}, {"READ_MOST": "1000"}]
MANNER_NAMES = ["-".join(f"{name}-{it}" for name, it in manner.items()) or "whole" for manner in MANNERS]

USAGE = b"GET /v1/usage HTTP/1.1\r\nX-Desk-Key: acmekey000000001\r\n\r\n"
FRONT = USAGE[:-2]
NULL_SENDER = b'{"class":"sender","address":""}'
CHECK = b"POST /v1/check HTTP/1.1\r\nX-Desk-Key: acmekey000000001\r\n"
WHOLE = b"PUT /v1/x HTTP/1.1\r\nX-Desk-Key: k\r\nContent-Length: 3\r\n\r\nabc"

# Requests that are whole by themselves, or can be none however they go on, and their responses.
OPEN = [
    (b"GET / HTTP/1.1\r\n\r\n", NO_ROUTE),
    (b"GET / HTTP/1.0\n\n", NO_ROUTE),
    (b"\r\n\n\r\nGET / HTTP/1.1\r\n\r\n", NO_ROUTE),
    (b"GET / HTTP/1.2\r\n\r\n", REFUSED),
    (b"GET / HTTP/2.0\r\n\r\n", REFUSED),
    (b"GET /\r\n\r\n", REFUSED),
    (b"G@T / HTTP/1.1\r\n\r\n", REFUSED),
    (b"GET /\xff HTTP/1.1\r\n\r\n", REFUSED),
    (b"GET /a?b HTTP/1.1\r\nHost: x\r\n\r\n", NO_ROUTE),
    (b"GET / HTTP/1.1\r\nX-Desk-Key: k1\r\n\r\n", NO_ROUTE),
    (b"GET / HTTP/1.1\r\nX-Desk-Key: k\xe9\r\n\r\n", REFUSED),
    (b"GET / HTTP/1.1\r\nX-Desk-Key: k\r\nx-desk-key: k\r\n\r\n", REFUSED),
    (b"PUT / HTTP/1.1\r\nContent-Length: 5\r\n\r\nhello", NO_ROUTE),
    (b"PUT / HTTP/1.1\r\nContent-Length: 5\r\n\r\nhello, you", NO_ROUTE),
    (b"PUT / HTTP/1.1\r\nContent-Length: 0000000005\r\n\r\nhello", NO_ROUTE),
    (b"PUT / HTTP/1.1\r\nContent-Length: 00000000005\r\n\r\nhello", REFUSED),
    (b"PUT / HTTP/1.1\r\nContent-Length: +5\r\n\r\nhello", REFUSED),
    (b"PUT / HTTP/1.1\r\nContent-Length: 5,5\r\n\r\nhello", REFUSED),
    (b"PUT / HTTP/1.1\r\nContent-Length:\r\n\r\n", REFUSED),
    (b"PUT / HTTP/1.1\r\nContent-Length: 0\r\nContent-Length: 0\r\n\r\n", REFUSED),
    (b"PUT / HTTP/1.1\r\nTransfer-Encoding: chunked\r\n\r\n0\r\n\r\n", REFUSED),
    (b"PUT / HTTP/1.1\r\nTransfer-Encoding:\r\n\r\n", REFUSED),
    (b"PUT / HTTP/1.1\r\nContent-Length: 262145\r\n\r\n", TOO_LONG),
    (b"PUT / HTTP/1.1\r\nContent-Length: 262145\r\nX-Desk-Key: \xe9\r\n\r\n", REFUSED),
    (b"PUT / HTTP/1.1\r\nContent-Length: 262145\r\nContent-Length: 1\r\n\r\n", REFUSED),
    (USAGE, EMPTY),
    (WHOLE, NO_ROUTE),
    (FRONT + b"Content-Length: 0\r\nContent-Length: 0\r\n\r\n", REFUSED),
    (b"GET /v1/usage HTTP/1.0\r\nx-desk-key: acmekey000000001\r\nHost: desk\r\n\r\nmore", EMPTY),
    (b"GET /v1/usage HTTP/1.1\r\nx-DESK-key:acmekey000000001  \r\n\r\n", EMPTY),
    (b"GET /v1/usage HTTP/1.1\r\nX-Desk-Key: -\r\n\r\n", NO_KEY),
    (b"GET /v1/usage HTTP/1.1\r\n\r\n", NO_KEY),
    (b"GET /v1/usage HTTP/1.1\r\nX-Desk-Key: acmekey000000002\r\n\r\n", NO_KEY),
    # (what is sent of a body that is too long is not waited for)
    (CHECK + b"Content-Length: 262145\r\n\r\n{", TOO_LONG),
    (FRONT + b'Content-Length: 262145\r\n\r\n{"class":"sender"', TOO_LONG),
    (FRONT + b"Content-Length: +5\r\n\r\nhello", REFUSED),
    (FRONT + b"Transfer-Encoding: chunked\r\n\r\n0\r\n\r\n", REFUSED),
    # (a body is not looked at where a call has none)
    (FRONT + b"Content-Length: 5\r\n\r\nhello", EMPTY),
    (CHECK + b"Content-Length: 0000000031\r\n\r\n" + NULL_SENDER, CHECKED),
    (CHECK + b"Content-Length: 31\r\n\r\n" + NULL_SENDER + b"}", CHECKED),
    *((CHECK + b"Content-Length: %d\r\n\r\n" % (2 * depth) + b"[" * depth + b"]" * depth, told)
      for depth, told in ((127, BAD_FIELD), (128, BAD_JSON))),
]
# What comes from a client that then ends its side, and what it is told.
ENDED = [
    (b"", b""),
    (b"\r\n", REFUSED),
    (b"GET /v1/usage HT", REFUSED),
    (b"GET / HTTP/1.1\r\n\r", REFUSED),
    (b"PUT / HTTP/1.1\r\nContent-Length: 5\r\n\r\nhell", REFUSED),
    (FRONT + b"Content-Length: 5\r\n\r\nhell", REFUSED),
    (b"PUT / HTTP/1.1\r\nContent-Length: 262144\r\n\r\n", REFUSED),
]


def head(front, size, fields):
    """A head of so many bytes, with one field more than so many, that begins with these bytes."""
    text = front + b"PUT / HTTP/1.1\r\n" + b"A:b\r\n" * (fields - 1) + b"Content-Length:262144\r\nC:"
    return text.ljust(size - 4, b"d") + b"\r\n\r\n"


def usage_of(size, fields):
    """So many bytes of a request for what a customer uses, with so many fields."""
    return (FRONT + b"A: b\r\n" * (fields - 2) + b"B: ").ljust(size - 4, b"c") + b"\r\n\r\n"


# Heads, and what is told of them where a body of 262,144 bytes follows.
HEADS = [(head(b"", 60, 1), NO_ROUTE), (head(b"", 16_384, 63), NO_ROUTE), (head(b"", 16_385, 63), REFUSED),
         (head(b"", 1_000, 64), REFUSED), (head(b"\r\n", 16_384, 1), NO_ROUTE), (head(b"\n", 16_385, 1), REFUSED)]
USAGES = [(usage_of(16_384, 2), EMPTY), (usage_of(16_385, 2), REFUSED), (usage_of(1_000, 64), EMPTY), (usage_of(1_000, 65), REFUSED)]
LONG = [(sent + b" " * 262_144, told) for sent, told in HEADS] + USAGES

SUBMIT = request("POST", "/relay/submit/acme", "relaykey00000001", submission("s1"))
QUEUED = response(200, '{"id":"0000000001","recipients":["bob@far.example"],"refused":[],"state":"incoming","verdict":"queued"}')
PUT = request("POST", "/v1/line-put", ACME, {"class": "sender", "pattern": "a.example", "action": "OK"})
ADDED, SAME = response(200, '{"put":"added"}'), response(200, '{"put":"same"}')
# What a customer has: its usage without a message and a line, and with one.
HAS = b"1767225600 GET /v1/usage acmekey000000001\n"


@pytest.fixture
def customers(folder):
    (folder / "customers.csv").write_text(DIRECTORY)
    return folder


def ask(server, sent):
    """A client that has sent this."""
    client = server.connect()
    client.sendall(sent)
    return client


def sent_and_ended(server, sent, told, ends=True):
    """Sends this, ends its side if it is so, and is to receive just that."""
    client = ask(server, sent)
    if ends:
        client.shutdown(socket.SHUT_WR)
    found = server.received(client)
    expect(found == told, sent[:200], len(sent), "bytes got", found[:600], "and not", told[:600])


@pytest.mark.parametrize("manner", MANNERS, ids=MANNER_NAMES)
def test_requests_in_pieces(program, customers, library, manner):
    """A whole request is responded to while its client still may send; one that is not, where its client ends its side."""
    count = 2 * len(OPEN) + len(ENDED)
    with Server(words(program, "serve"), customers, count, SOCKETS="1", LD_PRELOAD=library, **manner) as server:
        for sent, told in OPEN:
            sent_and_ended(server, sent, told, False)
            sent_and_ended(server, sent, told)
        for sent, told in ENDED:
            sent_and_ended(server, sent, told)


@pytest.mark.parametrize("manner", [{}, {"READ_MOST": "4095", "FLICKERS": "1"}], ids=["whole", "4095-flickers"])
def test_limits(program, customers, library, manner):
    """Heads at their limits, with the longest body and without it."""
    count = len(LONG) + len(HEADS)
    with Server(words(program, "serve"), customers, count, SOCKETS="1", LD_PRELOAD=library, **manner) as server:
        for sent, told in LONG:
            sent_and_ended(server, sent, told, False)
        for sent, _ in HEADS:
            sent_and_ended(server, sent, REFUSED)


def test_cut_at_every_place(program, customers):
    """A request that ends before it is whole is none; one whose rest comes later is."""
    cuts = [(whole, told, cut) for whole, told in ((USAGE, EMPTY), (WHOLE, NO_ROUTE)) for cut in range(1, len(whole))]
    with Server(words(program, "serve"), customers, 2 * len(cuts)) as server:
        for whole, told, cut in cuts:
            sent_and_ended(server, whole[:cut], REFUSED)
            client = server.connect()
            client.sendall(whole[:cut])
            time.sleep(0.001)
            client.sendall(whole[cut:])
            found = server.received(client)
            expect(found == told, "cut at", cut, "of", whole, "got", found)


# ---- connections that fail

def has(program, folder, store):
    """How many messages and lines a customer has, as a batch over the store tells it."""
    told = replies_of(words(program, "batch", str(store), directory=folder / "customers.csv"), HAS)
    return int(b'"messages":1' in told), int(b'"lines":1' in told)


def test_resets_at_every_place(program, customers):
    """A client that is gone before its request is whole gets nothing, and nothing is done."""
    cuts = [(whole, cut) for whole in (SUBMIT, PUT) for cut in range(len(whole))]
    with Server(words(program, "serve", "store"), customers, len(cuts) + 1) as server:
        for whole, cut in cuts:
            client = server.connect()
            client.sendall(whole[:cut])
            # (it is closed by a reset)
            client.setsockopt(socket.SOL_SOCKET, socket.SO_LINGER, struct.pack("ii", 1, 0))
            client.close()
            server.told("hq: input")
        sent_and_ended(server, USAGE, EMPTY)
    expect(has(program, customers, customers / "store") == (0, 0), "something was done of a request that was cut")


def failing_server(program, folder, library, sent, store, is_told, **how):
    """What a client gets of a server whose sockets fail so, and what the customer has then."""
    with Server(words(program, "serve", store), folder, 1, SOCKETS="1", LD_PRELOAD=library, **how) as server:
        client = ask(server, sent)
        try:
            found = server.received(client)
        except ConnectionResetError:
            # (it is closed before all was read)
            found = b""
        if is_told:
            server.told(is_told)
    return found, has(program, folder, folder / store)


@pytest.mark.parametrize("sent", [SUBMIT, PUT], ids=["submission", "line"])
def test_sockets_that_cannot_be_read(program, customers, library, sent):
    """After each so manieth byte a read fails: nothing is told to the client, and nothing is done."""
    with Workers() as workers:
        jobs = [workers.submit(failing_server, program, customers, library, sent, f"store-{at}", "hq: input",
                               READ_MOST="1", INPUT_FAILS_AT=str(at + 1)) for at in (*range(0, len(sent), 7), len(sent) - 1)]
        for job in jobs:
            expect(job.result() == (b"", (0, 0)), "a request that could not be read got", job.result())


@pytest.mark.parametrize("how", ["OUTPUT_TAKES", "OUTPUT_FILLS"])
@pytest.mark.parametrize("sent, told, kept", [(SUBMIT, QUEUED, (1, 0)), (PUT, ADDED, (0, 1))], ids=["submission", "line"])
def test_sockets_that_cannot_be_written(program, customers, library, sent, told, kept, how):
    """After each byte of a response a write fails, or takes nothing: what was asked is done, and the client has the beginning."""
    step = 1 if how == "OUTPUT_TAKES" else 13
    with Workers() as workers:
        jobs = {room: workers.submit(failing_server, program, customers, library, sent, f"store-{room}",
                                     "hq: output" if room < len(told) else None, **{how: str(room)})
                for room in (*range(0, len(told), step), len(told))}
        for room, job in jobs.items():
            expect(job.result() == (told[:room], kept), "a socket that took", room, "bytes left", job.result())


def calls_of(program, folder, library, sent, told, **how):
    """How many calls of files a server makes that is asked this, over a store that is there."""
    calls = folder / "calls"
    with Server(words(program, "serve", "store"), folder, len(sent), LD_PRELOAD=library, CALLS=str(calls), **how) as server:
        for one, wanted in zip(sent, told):
            sent_and_ended(server, one, wanted)
    return int(calls.read_text().split()[0])


def test_a_store_that_fails(program, customers, library):
    """A fault of the store is told by 503, and the same may be asked again."""
    lines = (PUT.replace(b"a.example", b"%c.example" % letter) for letter in b"abcdefghijklmnopqrstuvwxyz")
    calls_of(program, customers, library, [USAGE], [EMPTY])
    begun, failed = calls_of(program, customers, library, [USAGE], [EMPTY]), 0
    asked = calls_of(program, customers, library, [next(lines)], [ADDED])
    for at in range(begun + 1, asked + 1):
        line = next(lines)
        with Server(words(program, "serve", "store"), customers, 2, LD_PRELOAD=library, FAIL_AT=str(at)) as server:
            told = [server.received(ask(server, line)) for _ in range(2)]
        expect(told in ([DISK, ADDED], [ADDED, SAME], [CLOSED, CLOSED]), "at call", at, "told", told)
        failed += told[0] == DISK
    expect(failed, "no fault was told")
