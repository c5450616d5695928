"""Of tests/server/test_clients.py: clients that are too slow, with their request or with its response, and others beside them."""
import array
import fcntl
import select
import socket
import termios
import time

from serving import ACME, BIRCH, LONGEST, RELAY, Server, expect, request, submission, words

USED = '{"accepted":0,"bytes":0,"deleted":0,"delivered":0,"expired":0,"failed":0,"lines":0,"messages":0,"pending":0}'
# Messages and their recipients, whose report is longer than the system keeps for a client that takes nothing.
MESSAGES, RECIPIENTS = 400, [f"{it:0100}@{'d' * 60}.example" for it in range(100)]
# In seconds: from byte to byte, a whole request or response, and how much more a busy machine may take.
IDLE, WHOLE, BUSY = 2, 4, 20
# Clients that begin a request at once, and go no further.
HALVES = 20
# Bytes of responses from which on no more requests are taken, and clients whose reports are as many.
MOST_HELD, HOLDERS = 67_108_864, 10


def cut(server, least, dribble):
    """A client that is too slow gets nothing, and its connection is closed; it took at least so many seconds."""
    begun, told = time.monotonic(), b""
    sent = iter(request("GET", "/v1/usage", ACME, b"", "X: " + "x" * 1000))
    with server.connect() as client:
        client.settimeout(dribble or LONGEST)
        while time.monotonic() < begun + LONGEST:
            try:
                if dribble:
                    client.send(bytes([next(sent)]))
                told = client.recv(4096)
                break
            except socket.timeout:
                expect(dribble, "a client that says nothing is not cut")
            except OSError:
                break
    taken = time.monotonic() - begun
    expect(told == b"", "a client that was too slow got", told)
    expect(least - 0.1 <= taken < least + 20, "a client that was too slow was cut after", taken, "seconds")
    server.told("hq: input")


def wait_of_another(server):
    """How long another client waits for its response, in seconds, that asks now."""
    begun, other = time.monotonic(), server.connect()
    sent = request("GET", "/v1/usage", BIRCH)
    other.sendall(sent)
    expect(select.select([other], [], [], LONGEST)[0], "nobody is served beside a client that is too slow")
    taken = time.monotonic() - begun
    server.receive(other, 200, USED, sent)
    return taken


def is_served_at_once(server):
    """Another client that asks now has its response before a slow one is cut, which would be told."""
    wait_of_another(server)
    expect(unread_errors(server) == sum(len(line) + 1 for line in server.errors), "another waited until a slow client was cut")


def begin_a_request(server):
    """Clients that begin a request keep no other waiting; those that leave it so are refused."""
    clients = [server.connect() for _ in range(HALVES)]
    for client in clients:
        client.sendall(b"GET /v1/usage HTTP/1.1\r\nHost: desk")
    is_served_at_once(server)
    for client in clients:
        client.shutdown(socket.SHUT_WR)
        told = server.received(client)
        expect(told.startswith(b"HTTP/1.1 400 "), "half a request got", told)


def takes_nothing(server):
    """A client that takes nothing of a long response is cut, and keeps no other waiting."""
    for number in range(MESSAGES):
        server.body_of(request("POST", "/relay/submit/acme", RELAY, {**submission(f"s{number}"), "recipients": RECIPIENTS}))
    with server.connect() as client:
        client.sendall(request("GET", "/v1/report", ACME))
        expect(select.select([client], [], [], LONGEST)[0], "a report does not begin")
        is_served_at_once(server)
        server.told("hq: output")


def unread_errors(server):
    """How many bytes stand on standard error that nobody has read."""
    unread = array.array("i", [0])
    fcntl.ioctl(server.process.stderr, termios.FIONREAD, unread)
    return unread[0]


def hold_what_may_be_held(server):
    """While clients that take nothing hold so many bytes, no more requests are taken; with one client fewer they are."""
    sent = request("GET", "/v1/report", ACME)
    length = len(server.body_of(sent))
    expect((HOLDERS - 1) * (length + 200) < MOST_HELD <= HOLDERS * length, "a report has", length, "bytes")
    clients = []
    for number in range(HOLDERS):
        if number == HOLDERS - 1:
            is_served_at_once(server)
        clients.append(server.connect())
        clients[-1].sendall(sent)
        expect(select.select([clients[-1]], [], [], LONGEST)[0], "a report does not begin")
    told = unread_errors(server)
    wait_of_another(server)
    expect(unread_errors(server) > told, "a request was taken before a client that takes nothing was cut")
    for client in clients:
        client.close()
        server.told("hq: output")


def keeps_its_connection(server):
    """A client that has its response, and does not end its side, keeps no other waiting."""
    with server.connect() as client:
        client.sendall(request("GET", "/v1/usage", BIRCH))
        expect(client.recv(4096).endswith(USED.encode()) and client.recv(4096) == b"", "a usage is not told whole")
        taken = wait_of_another(server)
    expect(taken < 1 + BUSY, "behind a client that keeps its connection another waited", taken, "seconds")
    server.answered += 1


def slow_clients(program, folder, listen):
    """Each of them, at an address or at a path."""
    asked = words(program, "serve", None, "--idle-timeout", str(IDLE), "--request-timeout", str(WHOLE))
    with Server(asked, folder, MESSAGES + HALVES + HOLDERS + 13, listen) as server:
        cut(server, IDLE, None)
        server.ask(request("GET", "/v1/usage", ACME), 200, USED)
        cut(server, WHOLE, 0.3)
        server.ask(request("GET", "/v1/usage", ACME), 200, USED)
        keeps_its_connection(server)
        begin_a_request(server)
        takes_nothing(server)
        hold_what_may_be_held(server)
        server.ask(request("GET", "/v1/usage", BIRCH), 200, USED)
    return server.answered
