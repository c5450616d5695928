"""Tries the server of the compiled program behind nginx, where that is installed.

nginx has the very lines of docs/OPERATIONS.md. It keeps its clients' connections; a body that comes in chunks has its length
when it is handed on; a path is handed on as it is; and a body that is longer than any, and a path of the relay, are refused
by nginx itself. Requests of two customers that come at once on one connection are each answered to their own key, also
where another one stands in a trailer of the body; two keys in one head are refused. Of each response the status and the
body are compared, since nginx writes the head.
"""
import http.client
import json
import re
import socket
from pathlib import Path

import needs
from serving import ACME, BIRCH, DIRECTORY, LONGEST, RELAY, Nginx, Server, expect, named, request, words

PAGE = Path(__file__).resolve().parents[2] / "docs/OPERATIONS.md"
SERVES = re.search(r"(?ms)^```\n(location / .*?)^```$", PAGE.read_text())[1]
LINE = json.dumps({"class": "sender", "pattern": "proxy.example", "action": "REJECT"}).encode()
LONGEST_BODY = b'{"class":"sender","address":""}'.ljust(262_144)

# A body that is a list comes in chunks.
ASKED = [
    ("POST", "/v1/line-put", ACME, LINE, 200, '{"put":"added"}'),
    ("POST", "/v1/line-put", ACME, [LINE[:9], LINE[9:]], 200, '{"put":"same"}'),
    ("POST", "/v1/check", ACME, LONGEST_BODY, 200, '{"action":null,"keys":["<>"],"pattern":null}'),
    ("GET", "/v1/lines", BIRCH, None, 200, '{"lines":[],"more":false}'),
    ("GET", "/v1/usage?x", ACME, None, 404, '{"error":4,"name":"NoRoute"}'),
    ("GET", "/v1/message/0000000001", ACME, None, 404, '{"error":10,"name":"NoMessage"}'),
    ("DELETE", "/v1/message/0000000001", RELAY, None, 403, '{"error":3,"name":"WrongRole"}'),
]

# Requests that are sent at once on one connection.
CHUNKS = b"%x;x=y\r\n%s\r\n0\r\nX-Desk-Key: %s\r\nContent-Length: 0\r\n\r\n" % (len(LINE), LINE, ACME.encode())
AT_ONCE = [
    (request("GET", "/v1/lines", ACME), 200,
     '{"lines":[{"action":"REJECT","class":"sender","pattern":"proxy.example"}],"more":false}'),
    (request("GET", "/v1/lines", BIRCH), 200, '{"lines":[],"more":false}'),
    (request("POST", "/v1/line-put", BIRCH, b"", "Transfer-Encoding: chunked", "Trailer: X-Desk-Key") + CHUNKS, 200,
     '{"put":"added"}'),
    (request("GET", "/v1/lines", ACME, b"", f"X-Desk-Key: {BIRCH}", "Connection: close"), 400,
     '{"error":1,"name":"BadRequest"}'),
]


def response(client, method, path, key, body):
    client.request(method, path, iter(body) if isinstance(body, list) else body, {"X-Desk-Key": key})
    got = client.getresponse()
    return got.status, got.read().decode()


def through(proxy, server):
    """All requests on one connection of the proxy, each on one of its own to the server; and one that is not handed on."""
    client = http.client.HTTPConnection(*proxy.address, timeout=LONGEST)
    for method, path, key, body, *wanted in ASKED:
        found = response(client, method, path, key, body)
        expect([*found] == wanted, "through nginx", method, path, "gave", found, "and not", wanted)
        server.made, server.answered = server.made + 1, server.answered + 1
    status, _ = response(client, "POST", "/v1/check", ACME, LONGEST_BODY + b" ")
    expect(status == 413, "a body that is too long for nginx got", status)
    status, _ = response(client, "POST", "/relay/sweep", RELAY, None)
    expect(status == 404, "a path of the relay got", status)
    client.close()


def responses(told):
    """The status and the body of each response of a connection."""
    while told:
        head, _, rest = told.partition(b"\r\n\r\n")
        length = int(re.search(rb"(?i)\ncontent-length: *(\d+)", head)[1])
        yield int(head.split(b" ")[1]), rest[:length].decode()
        told = rest[length:]


def at_once(proxy, server):
    with socket.create_connection(proxy.address, timeout=LONGEST) as client:
        client.sendall(b"".join(sent for sent, _, _ in AT_ONCE))
        told = b"".join(iter(lambda: client.recv(65536), b""))
    found, wanted = [*responses(told)], [(status, body) for _, status, body in AT_ONCE]
    expect(found == wanted, "at once on one connection of nginx came", found, "and not", wanted)
    server.made, server.answered = server.made + len(AT_ONCE), server.answered + len(AT_ONCE)


def test_proxy(program, folder):
    """The server behind nginx, by the lines of docs/OPERATIONS.md."""
    needs.command("nginx")
    (folder / "customers.csv").write_text(DIRECTORY)
    with Server(words(program, "serve"), folder, len(ASKED) + len(AT_ONCE)) as server:
        serves = SERVES.replace("127.0.0.1:825", named(server.address))
        with Nginx(folder, serves, keeps_alive=True) as proxy:
            through(proxy, server)
            at_once(proxy, server)
