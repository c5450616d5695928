"""Calls of the desk over sockets, and outcomes that are told together. The desk is the test's own."""
import json
import socket
import threading
from types import SimpleNamespace

import pytest
from hq_relay.storage.book import Book, Report
from hq_relay.desk.client import Away, Desk, Refused
from hq_relay.outcome import Outcome, Result
from hq_relay.delivery.handover import Handover
from hq_relay.delivery.outcome_reporter import TOGETHER, OutcomeReporter
from hq_relay.postfix.delivering_instance import NotTaken
from serving import expect
from sinks import whole

LONGEST = 10
DONE = {"result": "done", "left": 0}


def reply_of(status, body, head="Content-Length: {}\r\n"):
    text = json.dumps(body).encode()
    return f"HTTP/1.1 {status} x\r\nContent-Type: application/json\r\n{head.format(len(text))}\r\n".encode() + text


class Answering:
    """A desk that takes connections, and answers none before so many have asked. `answer` makes a reply of a body."""

    def __init__(self, count, answer):
        self.count, self.answer, self.asked = count, answer, []
        self.listening = socket.create_server(("127.0.0.1", 0), backlog=64)
        self.listening.settimeout(LONGEST)
        self.thread = threading.Thread(target=self.serve, daemon=True)

    def __enter__(self):
        self.thread.start()
        return Desk(self.listening.getsockname(), "relaykey00000001", LONGEST / 2)

    def __exit__(self, *_):
        # (else the thread waits on for a client)
        self.listening.shutdown(socket.SHUT_RDWR)
        self.listening.close()
        self.thread.join(LONGEST)

    def serve(self):
        try:
            while True:
                clients = [self.read() for _ in range(self.count)]
                for client, body in clients:
                    client.sendall(self.answer(body))
                    client.close()
        except OSError:
            pass  # (the test has ended)

    def read(self):
        client, _ = self.listening.accept()
        client.settimeout(LONGEST)
        text = b""
        while not whole(text):
            text += client.recv(65536)
        self.asked.append(json.loads(text.partition(b"\r\n\r\n")[2]))
        return client, self.asked[-1]


class Room:
    """Notices of a customer for which there is so much room. It is asked for one, or for all of some failures."""

    def __init__(self, room):
        self.room = room

    def takes(self, customer, more):
        return more <= self.room

    def has_room_for(self, customer, more):
        self.room -= more
        return self.room >= 0


WHOLE = reply_of(200, {"result": "done"})


@pytest.mark.parametrize("text, wanted", [
    (WHOLE, {"result": "done"}), (reply_of(200, {"a": "x" * 300_000}), {"a": "x" * 300_000}),
    (reply_of(200, {"a": 1}, ""), {"a": 1}), (reply_of(400, {"error": 30, "attempts": 2}), Refused),
    (reply_of(503, {"error": 91}), Away), (reply_of(502, {"proxy": "away"}), Away), (reply_of(404, "no"), Away),
    (b"", Away), (WHOLE[:12], Away), (WHOLE[:40], Away), (WHOLE[:-1], Away), (WHOLE + b" ", Away), (b"<html>" * 20, Away),
    (b"HTTP/1.1 200 x\r\nContent-Length: 2\r\n\r\n{", Away)])
def test_replies(text, wanted):
    """What is cut, or none of a desk's, is no reply: nobody knows whether the call was done."""
    with Answering(1, lambda body: text) as desk:
        if isinstance(wanted, dict):
            assert desk.ask("/relay/x/acme", {}) == wanted
        else:
            with pytest.raises(wanted):
                desk.ask("/relay/x/acme", {})


def test_nobody_listens():
    with socket.create_server(("127.0.0.1", 0)) as listening:
        address = listening.getsockname()
    with pytest.raises(Away):
        Desk(address, "relaykey00000001", 1).ask("/relay/x/acme")


def journaled(folder, count, result="delivered"):
    book = Book(folder)
    for at in range(count):
        book.attempted(Report("acme", f"s{at:03}", f"{at:010}", 1, (Outcome("p@far.example", Result(result)),)))
    return book


def test_told_together(folder):
    """So many outcomes are sent before the first reply comes. A message with two rows in the journal is told once."""
    book = journaled(folder, TOGETHER)
    book.attempted(Report("acme", "s000", "0000000000", 1, (Outcome("q@far.example", Result.DELIVERED),)))
    answering = Answering(TOGETHER, lambda body: reply_of(200, DONE))
    with answering as desk:
        assert OutcomeReporter(desk, book, None, Room(9)).report("acme", book.unreported("acme"))
    ids = [it["id"] for it in answering.asked]
    expect(sorted(ids) == [f"{at:010}" for at in range(TOGETHER)] and not book.unreported("acme"), "told was", ids)
    both = next(it["outcomes"] for it in answering.asked if it["id"] == "0000000000")
    expect([it["recipient"] for it in both] == ["p@far.example", "q@far.example"], "of both recipients", both)


@pytest.mark.parametrize("status, body", [(503, {"error": 91}), (400, {"error": 99})])
def test_one_of_several_is_not_taken(folder, status, body):
    """Those before it are written down as told; it stays in the journal, and so does what was not heard of."""
    book = journaled(folder, 4)

    def answer(asked):
        return reply_of(status, body) if asked["id"] == "0000000002" else reply_of(200, DONE)
    with Answering(4, answer) as desk:
        try:
            OutcomeReporter(desk, book, None, Room(9)).report("acme", book.unreported("acme"))
        except Away:
            expect(status == 503, "the desk was away")
    left = book.unreported("acme")
    expect("s002" in left and "s000" not in left and "s001" not in left, "left are", left)
    expect(("s003" in left) == (status == 503), "left are", left)


def test_failures_without_room(folder, logged):
    """No more failures are told than there is room for their notices; what was delivered is."""
    book = journaled(folder, 5, "failed")
    book.attempted(Report("acme", "t", "0000000009", 1, (Outcome("p@far.example", Result.DELIVERED),)))
    answering = Answering(1, lambda body: reply_of(200, DONE))
    with answering as desk:
        assert not OutcomeReporter(desk, book, None, Room(2)).report("acme", book.unreported("acme"))
    told = [it["id"] for it in answering.asked]
    expect(told == ["0000000009", "0000000000", "0000000001"] and len(book.unreported("acme")) == 3, "told was", told)
    expect(logged == ["no room for a notice"] * 3, "it tells", logged)


@pytest.mark.parametrize("answer, wanted", [
    ((554, b"5.1.2 <outcome@desk.invalid>: Recipient address rejected: no such domain"), []),
    ((554, b"5.4.0 Error: too many hops"), []),
    ((554, b"5.7.1 <ann@a.example>: Relay access denied"), ["refused by the delivering instance"]),
    ((451, b"4.7.1 Service unavailable - try again later"), ["refused by the delivering instance"])])
def test_refused_for_good(answer, wanted, logged):
    """A mail that the delivering instance refuses for good is no error: a customer can write any number of these. What its own policy
    refuses is one."""
    def send(*_):
        raise NotTaken(*answer)
    told = []
    handover = SimpleNamespace(send=send, refuse=lambda _, *words: told.append(words))
    expect(Handover.send_or_refuse(handover, SimpleNamespace(customer="acme", id="1"), None, None) is None and len(told) == 1, "told is", told)
    expect(logged == wanted and told[0][0] == (Result.DEFERRED if wanted else Result.FAILED), "logged is", logged, told)
