"""Tries the server of the compiled program over loopback.

Over a store in memory and over one in a file, each response compared whole with what is written here:

1. curl, where it is installed (else its requests come from here, and it is told as left out): a line put, listed, checked
   and dropped, a message submitted, held and deleted, errors, and a body that is too long.
2. 200 requests of a client that asks to keep its connection: each is answered, and the server closes.
3. Requests in two parts a second apart, byte by byte, of the longest body, two at once on one connection (the second is
   dropped), bad ones of each kind, those that are to be read in two ways (hostile.py), and 1,000,000 bytes of body, all of
   them sent, which get their 413.
4. Clients that go away: with no byte, in the middle of a request with its side ended (400) or reset (`hq: input`), and
   behind a whole request before its response (`hq: output`; what it asked for is done). The next one is served.
5. At the end what is kept is what was answered; the server ends with 0 after as many connections as there were to be,
   its lines on standard error are just these, and nobody listens there any more.

Over the file a second process is refused meanwhile, and afterwards a second server, at once on the same address, and a
batch show what the first one kept. A server with limits of 2 and 4 seconds cuts a client that says nothing, one that sends a
byte now and then, and one that takes nothing of a long response. Meanwhile it serves others, also beside half a request of
each of 20 clients, until responses hold 64 MB (slow.py). An address that cannot be printed is `hq: output`. A clock that
tells no moment of the desk, and a connection that cannot be accepted, end the server with `hq: clock` and `hq: network`
(tests/support/interpose.c makes both so). What comes through a proxy is for tests/server/test_proxy.py.
"""
import json
import shutil
import signal
import socket
import struct
import subprocess
import time

from hostile import BAD_REQUEST, ROWS, TOO_LONG, hostile, waits_to_be_asked
import pytest
from serving import ACME, BIRCH, DIRECTORY, LONGEST, RELAY, Server, expect, listens, request, submission, words
from slow import USED, slow_clients

TAKEN = b"hq: another process has the store\nhq: 91 Disk\n"
QUEUED = '{{"id":"{:010X}","recipients":["bob@far.example"],"refused":[],"state":"incoming","verdict":"queued"}}'


def put(pattern, action="REJECT"):
    return {"class": "sender", "pattern": pattern, "action": action}


# ---- clients, each with the connections that it makes

def by_curl(server, method, path, key, body, status, told):
    """One request of curl, or without it one from here."""
    sent = body if isinstance(body, bytes) else json.dumps(body).encode() if body else b""
    if not shutil.which("curl"):
        server.ask(request(method, path, key, sent), status, told)
        return
    server.made += 1
    host, port = server.address
    asked = ["curl", "-q", "-sS", "--noproxy", "*", "--max-time", str(LONGEST), "-X", method, "-w", "\n%{http_code}"]
    asked += ["-H", f"X-Desk-Key: {key}"] if key else []
    asked += ["--data-binary", "@-"] if sent else []
    ended = subprocess.run([*asked, f"http://{host}:{port}{path}"], input=sent, capture_output=True, timeout=LONGEST + 5)
    wanted = 0, f"{told}\n{status}".encode(), b""
    found = ended.returncode, ended.stdout, ended.stderr
    expect(found == wanted, "curl", method, path, "gave", found, "and not", wanted)
    server.answered += 1


def curl(server):
    line = {"class": "sender", "pattern": "spam.example"}
    for asked in (
        ("GET", "/v1/usage", ACME, None, 200, USED),
        ("POST", "/v1/line-put", ACME, put("Spam.Example"), 200, '{"put":"added"}'),
        ("POST", "/v1/line-put", ACME, put("spam.example"), 200, '{"put":"same"}'),
        ("GET", "/v1/lines", ACME, None, 200,
         '{"lines":[{"action":"REJECT","class":"sender","pattern":"spam.example"}],"more":false}'),
        ("GET", "/v1/lines", BIRCH, None, 200, '{"lines":[],"more":false}'),
        ("POST", "/v1/check", ACME, {"class": "sender", "address": "a@spam.example"}, 200,
         '{"action":"REJECT","keys":["a@spam.example","spam.example",".example","a@"],"pattern":"spam.example"}'),
        ("POST", "/v1/line-drop", ACME, line, 200, '{"dropped":1}'),
        ("POST", "/v1/line-drop", ACME, line, 404, '{"error":11,"name":"NoLine"}'),
        ("POST", "/relay/submit/acme", RELAY, submission("s1"), 200, QUEUED.format(1)),
        ("POST", "/v1/hold/0000000001", ACME, None, 200, '{"changed":1}'),
        ("DELETE", "/v1/message/0000000001", BIRCH, None, 404, '{"error":10,"name":"NoMessage"}'),
        ("DELETE", "/v1/message/0000000001", ACME, None, 200, '{"changed":1}'),
        ("GET", "/v1/usage", None, None, 401, '{"error":2,"name":"NoKey"}'),
        ("GET", "/v1/usage?x", ACME, None, 404, '{"error":4,"name":"NoRoute"}'),
        ("POST", "/v1/import", ACME, b"x" * 300_000, *TOO_LONG),
    ):
        by_curl(server, *asked)


def keeps_alive(server):
    usage = USED.replace('"accepted":0', '"accepted":1').replace('"deleted":0', '"deleted":1')
    for turn in range(100):
        server.ask(request("GET", "/v1/usage", ACME, b"", "Connection: keep-alive", "Keep-Alive: timeout=60"), 200, usage)
        pattern = f"k{turn}.example"
        server.ask(request("POST", "/v1/line-put", BIRCH, put(pattern), "Connection: keep-alive"), 200, '{"put":"added"}')


def two_parts(server):
    sent = request("POST", "/v1/line-put", ACME, put("parts.example"))
    for place in (20, len(sent) - 10):
        client = server.connect()
        client.sendall(sent[:place])
        time.sleep(1)
        client.sendall(sent[place:])
        server.receive(client, 200, '{"put":"added"}' if place == 20 else '{"put":"same"}', sent)


def byte_by_byte(server):
    sent = request("POST", "/relay/submit/acme", RELAY, submission("bytes"))
    client = server.connect()
    for at in range(len(sent)):
        client.sendall(sent[at:at + 1])
        time.sleep(0.001)
    server.receive(client, 200, QUEUED.format(2), sent)


def longest_body(server):
    """262,144 bytes are taken, and no more; of 1,000,000 all are sent before the response is looked at."""
    body = b'{"class":"sender","address":""}'
    told = '{"action":null,"keys":["<>"],"pattern":null}'
    server.ask(request("POST", "/v1/check", ACME, body.ljust(262_144)), 200, told)
    server.ask(request("POST", "/v1/check", ACME, body.ljust(262_145)), *TOO_LONG)
    server.ask(request("POST", "/v1/check", ACME, body.ljust(1_000_000)), *TOO_LONG)


def two_at_once(server):
    """A connection has one request: the second is dropped."""
    first, second = (request("POST", "/v1/line-put", ACME, put(f"{it}.example")) for it in ("first", "second"))
    server.ask(first + second, 200, '{"put":"added"}')


def bad_requests(server):
    for sent in (
        b"hello\r\n\r\n",
        b"1767225600 GET /v1/usage acmekey000000001\n\n",
        request("GET", "/v1/usage", ACME, b"", f"X-Desk-Key: {ACME}"),
        request("POST", "/v1/check", ACME, b"{}", "Content-Length: 2"),
        request("POST", "/v1/check", ACME, b"", "Content-Length: -1"),
        request("POST", "/v1/check", ACME, b"", "Transfer-Encoding: chunked") + b"0\r\n\r\n",
        request("GET", "/v1/usage", ACME, b"", "X: " + "x" * 16_384),
        request("GET", "/v1/usage", ACME, b"", *(f"X-{it}: x" for it in range(64))),
    ):
        server.ask(sent, *BAD_REQUEST)
    server.ask(request("PUT", "/v1/usage", ACME), 405, '{"error":5,"name":"WrongMethod"}')
    server.ask(request("GET", "/v1/usage", RELAY), 403, '{"error":3,"name":"WrongRole"}')


def half_a_request(pattern):
    sent = request("POST", "/v1/line-put", ACME, put(pattern))
    return sent[:-10], sent[-10:]


def reset(client):
    """Closes a connection by a reset."""
    client.setsockopt(socket.SOL_SOCKET, socket.SO_LINGER, struct.pack("ii", 1, 0))
    client.close()


def gone_before_a_byte(server):
    server.connect().close()
    client = server.connect()
    client.shutdown(socket.SHUT_WR)
    expect(server.received(client) == b"", "a connection without a byte was answered")


def gone_in_the_middle(server):
    """One that ends its side has asked for something that is no request; one that is reset has asked for nothing."""
    half, _ = half_a_request("half.example")
    client = server.connect()
    client.sendall(half)
    client.shutdown(socket.SHUT_WR)
    server.receive(client, *BAD_REQUEST, half)
    client = server.connect()
    client.sendall(half)
    client.close()
    server.ask(request("POST", "/v1/line-drop", ACME, {"class": "sender", "pattern": "half.example"}), 404,
               '{"error":11,"name":"NoLine"}')
    client = server.connect()
    client.sendall(half)
    reset(client)
    server.told("hq: input")
    server.ask(request("POST", "/v1/line-drop", ACME, {"class": "sender", "pattern": "half.example"}), 404,
               '{"error":11,"name":"NoLine"}')


def gone_before_its_response(server):
    """While the server stands still, so that it is gone before its request is looked at: what it asked for is done."""
    half, rest = half_a_request("slow.example")
    other = server.connect()
    other.sendall(half)
    server.process.send_signal(signal.SIGSTOP)
    client = server.connect()
    client.sendall(request("POST", "/v1/line-put", ACME, put("gone.example")))
    reset(client)
    server.process.send_signal(signal.SIGCONT)
    server.told("hq: output")
    other.sendall(rest)
    server.receive(other, 200, '{"put":"added"}', half)
    server.ask(request("POST", "/v1/line-put", ACME, put("gone.example")), 200, '{"put":"same"}')


KEPT = ["/v1/messages", "/v1/lines", "/v1/usage", "/v1/notices"]


def kept(server):
    """What the two customers have, as it is told."""
    return [server.body_of(request("GET", path, key)) for path in KEPT for key in (ACME, BIRCH)]


def is_kept(server, begun):
    told = kept(server)
    messages, none, lines, others = (json.loads(it) for it in told[:4])
    arrival = messages["messages"][0].pop("arrival") if messages["messages"] else 0
    expect(int(begun) <= arrival <= time.time(), "the message arrived at", arrival)
    message = {"id": "0000000002", "reason": "", "recipients": 1, "sender": "ann@a.example", "size": 900, "state": "incoming"}
    expect(messages == {"messages": [message], "more": False}, "acme has the messages", messages)
    expect(none == {"messages": [], "more": False}, "birch has the messages", none)
    patterns = [it["pattern"] for it in lines["lines"]]
    expect(patterns == [f"{it}.example" for it in ("first", "gone", "parts", "slow")], "acme has the lines", patterns)
    patterns = [it["pattern"] for it in others["lines"]]
    expect(patterns == sorted(f"k{it}.example" for it in range(100)), "birch has the lines", patterns)
    usage = json.loads(told[4])
    counts = usage["accepted"], usage["pending"], usage["deleted"], usage["lines"]
    expect(counts == (2, 1, 1, 4), "acme has the usage", usage)
    return told


# ---- what is tried

# Each client with the connections that it makes, in their order.
CLIENTS = [(curl, 15), (keeps_alive, 200), (two_parts, 2), (byte_by_byte, 1), (longest_body, 3), (two_at_once, 1),
           (bad_requests, 10), (hostile, len(ROWS)), (waits_to_be_asked, 1),
           (gone_before_a_byte, 2), (gone_in_the_middle, 5), (gone_before_its_response, 3)]
COUNT = sum(count for _, count in CLIENTS) + 2 * len(KEPT)


def run(program, folder, asked, lines=b""):
    ended = subprocess.run(asked, input=lines, capture_output=True, cwd=folder, timeout=LONGEST)
    return ended.returncode, ended.stdout, ended.stderr


def all_clients(program, folder, store=None):
    begun = time.time()
    with Server(words(program, "serve", store), folder, COUNT) as server:
        for client, count in CLIENTS:
            before = server.made
            client(server)
            expect(server.made == before + count, client.__name__, "made", server.made - before, "connections")
        if store:
            told = run(program, folder, words(program, "batch", store))
            expect(told == (1, b"", TAKEN), "beside the server a batch gave", told)
        told = is_kept(server, begun)
    return server.answered, told, server.address


def over_a_file(program, folder):
    """What one server keeps the next one shows, at once and on the same address, and a batch after it, byte for byte."""
    store = "desk.db"
    answered, wanted, (host, port) = all_clients(program, folder, store)
    with Server(words(program, "serve", store), folder, 2 * len(KEPT), f"{host}:{port}") as server:
        told = kept(server)
    expect(told == wanted, "another server showed", told, "and not", wanted)
    lines = "".join(f"{int(time.time())} GET {path} {key}\n" for path in KEPT for key in (ACME, BIRCH))
    found = run(program, folder, words(program, "batch", store), lines.encode())
    wanted = 0, "".join(f"200 {it}\n" for it in told).encode(), b""
    expect(found == wanted, "a batch gave", found, "and not", wanted)
    return answered + server.answered


def other_addresses(program, folder):
    """IPv6, where the machine has it; nobody at another address of the machine; one that cannot be printed."""
    with open("/dev/full", "wb") as full:
        asked = words(program, "serve", None, "--listen", "127.0.0.1:0", "--count", "1")
        ended = subprocess.run(
            asked, stdin=subprocess.DEVNULL, stdout=full, stderr=subprocess.PIPE, cwd=folder, timeout=LONGEST)
    expect((ended.returncode, ended.stderr) == (1, b"hq: output\n"), "with a full output it gave", ended)
    with Server(words(program, "serve"), folder, 1) as here:
        expect(not listens(("127.0.0.2", here.address[1])), "it listens at an address that was not asked for")
        here.ask(request("GET", "/v1/usage", ACME), 200, USED)
    try:
        socket.create_server(("::1", 0), family=socket.AF_INET6).close()
    except OSError:
        return
    with Server(words(program, "serve"), folder, 1, "[::1]:0") as server:
        server.ask(request("GET", "/v1/usage", ACME), 200, USED)


def failing_machine(program, folder, library):
    """The clock tells the last moment, one behind it, or one before the first; or a second connection is not accepted."""
    asked, answered = words(program, "serve"), 0
    with Server(asked, folder, 2, LD_PRELOAD=library, CLOCK_AT="4102444799") as server:
        server.ask(request("POST", "/relay/submit/acme", RELAY, submission("last")), 200, QUEUED.format(1))
        listed = server.body_of(request("GET", "/v1/messages", ACME))
        expect('"arrival":4102444799,' in listed, "at the last moment acme has", listed)
        answered += server.answered
    for seconds in ("4102444800", "-1"):
        with Server(asked, folder, 2, LD_PRELOAD=library, CLOCK_AT=seconds) as server:
            client = server.connect()
            client.sendall(request("GET", "/v1/usage", ACME))
            told = server.received(client)
            expect(told == b"", "at", seconds, "seconds a request got", told)
            server.stops("hq: clock")
    with Server(asked, folder, 2, LD_PRELOAD=library, ACCEPT_FAILS_AT="2") as server:
        server.ask(request("GET", "/v1/usage", ACME), 200, USED)
        server.connect()
        server.stops("hq: network")
    return answered + server.answered


@pytest.fixture
def customers(folder):
    (folder / "customers.csv").write_text(DIRECTORY)
    return folder


def test_over_memory(program, customers):
    """Clients that are whole, slow, cut and gone, over a server in memory, which leaves no file."""
    all_clients(program, customers)
    expect(sorted(it.name for it in customers.iterdir()) == ["customers.csv"], "a server in memory left files")


def test_over_a_file(program, customers):
    over_a_file(program, customers)


@pytest.mark.parametrize("kind", ["address", "path"])
def test_slow_clients(program, customers, kind):
    slow_clients(program, customers, {"address": "127.0.0.1:0", "path": f"unix:{customers}/desk.sock"}[kind])


def test_other_addresses(program, customers):
    other_addresses(program, customers)


def test_failing_machine(program, customers, library):
    """A clock and a network that fail."""
    failing_machine(program, customers, library)
