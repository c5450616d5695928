"""Of tests/server/test_clients.py: requests by which somebody means to be taken for another, to ask twice, or to be read in two ways.

What each is answered by follows from docs/API.md ("What to send", "The order of refusals", refusal 1) and from the form of a
head in RFC 9112: a name and a colon without a space between them, no line that goes on in the next one, no control byte but
a tab in a value, and a target that is UTF-8 without spaces. Each has one response, compared whole with all that comes until
the server closes, so that a second response, or one in between, is told.
"""
import time

from serving import ACME, BIRCH, RELAY, request, submission

BAD_REQUEST = 400, '{"error":1,"name":"BadRequest"}'
NO_KEY = 401, '{"error":2,"name":"NoKey"}'
NO_ROUTE = 404, '{"error":4,"name":"NoRoute"}'
WRONG_METHOD = 405, '{"error":5,"name":"WrongMethod"}'
TOO_LONG = 413, '{"error":6,"name":"BodyTooLong"}'
BAD_JSON = 400, '{"error":7,"name":"BadJson"}'
BAD_FIELD = 400, '{"error":8,"name":"BadField"}'
NO_CUSTOMER = 404, '{"error":13,"name":"NoCustomer"}'
BAD_ADDRESS = 400, '{"error":20,"name":"BadAddress"}'
BAD_ACTION = 400, '{"error":25,"name":"BadAction"}'
CHECKED = 200, '{"action":null,"keys":["<>"],"pattern":null}'
NULL_SENDER = b'{"class":"sender","address":""}'
# What a second reader might take for a request of its own. (tests/server/test_clients.py sees at its end that birch has no message.)
SMUGGLED = request("POST", "/relay/submit/birch", RELAY, submission("smuggled"))


def raw(*lines, body=b""):
    """A head of just these lines, and bytes behind it."""
    return b"".join(it.encode("latin-1") + b"\r\n" for it in [*lines, ""]) + body


def usage(*fields):
    """A head that asks for a usage, with these fields before a good key."""
    return raw("GET /v1/usage HTTP/1.1", *fields, f"X-Desk-Key: {ACME}")


def check(*fields, body=NULL_SENDER, behind=b""):
    """The check of an address, with some fields more, and bytes behind its body."""
    return request("POST", "/v1/check", ACME, body, *fields) + behind


def at(path, method="GET", key=ACME):
    """A request at a path, whose letters stand for bytes."""
    return raw(f"{method} {path} HTTP/1.1", f"X-Desk-Key: {key}")


# Two lengths, or a length that not all read alike; each with a request behind it.
TWO_LENGTHS = [
    (check("Transfer-Encoding: chunked", body=b"0\r\n\r\n", behind=SMUGGLED), *BAD_REQUEST),
    (check("Transfer-Encoding: chunked", body=b"1f\r\n" + NULL_SENDER + b"\r\n0\r\nX-Desk-Key: " + BIRCH.encode() + b"\r\n\r\n"),
     *BAD_REQUEST),
    *((check(field, behind=SMUGGLED), *BAD_REQUEST) for field in (
        "Transfer-Encoding: identity", "TRANSFER-ENCODING:\tchunked", "Transfer-Encoding : chunked",
        "Transfer-Encoding\t: chunked", "Transfer-Encoding", " Transfer-Encoding: chunked",
        "X: y\r\n Transfer-Encoding: chunked", "X: y\rTransfer-Encoding: chunked", "\x0bTransfer-Encoding: chunked",
        "Transfer-Encoding:\x00chunked", "Content-Length: 31", "Content-Length : 0", ": 31")),
    *((raw("POST /v1/check HTTP/1.1", f"X-Desk-Key: {ACME}", f"Content-Length:{it}", body=NULL_SENDER + SMUGGLED), *BAD_REQUEST)
      for it in ("31, 31", "31,31", "31 31", "31;", "0x1f", "1f", "-31", "3 1", "", "\xb3\xb1")),
    (raw("POST /v1/check HTTP/1.1", f"X-Desk-Key: {ACME}", "Content-Length:\t 31 \t", body=NULL_SENDER + SMUGGLED), *CHECKED),
    (check(behind=b"\r\n\r\n" + SMUGGLED), *CHECKED),
    (raw("POST /v1/check HTTP/1.1", f"X-Desk-Key: {ACME}", "Content-Length: 9999999999"), *TOO_LONG),
    (raw("TRACE /none HTTP/1.1", "Content-Length: 262145"), *TOO_LONG),
]

# Fields that others look at, and the desk does not.
NOT_LOOKED_AT = [
    (check(*fields), *CHECKED) for fields in (
        ["Expect: 100-continue"], ["Connection: Upgrade, HTTP2-Settings", "Upgrade: h2c", "HTTP2-Settings: AAMAAABk"],
        ["Connection: keep-alive, X-Desk-Key"], ["X-HTTP-Method-Override: DELETE"], ["X-Original-URL: /relay/sweep"],
        ["Host: a.example", "Host: b.example"], ["Trailer: X-Desk-Key"], ["Content-Encoding: gzip"], [f"X_Desk_Key: {BIRCH}"],
        ["Content_Length: 5"], [f"Cookie: X-Desk-Key={BIRCH}"], ["X-Y: \xe4\xff"])
]

# Keys that are none, or more than one.
KEYS = [
    (raw("GET /v1/usage HTTP/1.1", field), *wanted) for field, wanted in (
        (f"X_Desk_Key: {ACME}", NO_KEY), (f"Authorization: Bearer {ACME}", NO_KEY), ("X-Desk-Key:", NO_KEY),
        (f"X-Desk-Key: {ACME}, {BIRCH}", NO_KEY), (f'X-Desk-Key: "{ACME}"', NO_KEY), (f"X-Desk-Key: {ACME.upper()}", NO_KEY),
        (f"X-Desk-Key: {ACME}0", NO_KEY), (f"X-Desk-Key: {ACME[:-1]}", NO_KEY), (f"X-Desk-Key: {ACME} {RELAY}", NO_KEY),
        (f"X-Desk-Key: {ACME}\x00", BAD_REQUEST), (f"X-Desk-Key: {ACME}\x7f", BAD_REQUEST),
        (f"X-Desk-Key: {ACME}\r", BAD_REQUEST), (f"X-Desk-Key: {ACME}\r\n {BIRCH}", BAD_REQUEST),
        (f"X-Desk-Key : {ACME}", BAD_REQUEST), (f"X-Desk-Key: {ACME}\xff", BAD_REQUEST),
        (f"X-Desk-Key: {ACME}\r\nx-desk-KEY: {BIRCH}", BAD_REQUEST), (f"X-Desk-Key: {ACME}\r\nX-Desk-Key:", BAD_REQUEST))
]

# Paths that others make into one of the desk's; and lines that are no request's.
PATHS = [
    *((at(it), *NO_ROUTE) for it in (
        "//v1/usage", "/v1//usage", "/v1/usage/", "/v1/usage?", "/v1/usage#x", "/v1/usage;x", "/V1/usage", "/v1/%75sage",
        "/v1/./usage", "/v1/../v1/usage", "/relay/../v1/usage", "\\v1\\usage", "v1/usage", "/", "*", "http://desk.example/v1/usage",
        "/v1/message/", "/v1/message/0000000001/", "/v1/message/0000000001/x", "/v1/usage\xc2\xa0")),
    *((at(f"/v1/message/{it}"), *BAD_FIELD) for it in (
        "..", "%30000000001", "0000000000", "000000000a", "00000000001", "0000000001?", "-000000001", "\xc2\xb2000000001",
        "*")),
    *((at(f"/relay/due/{it}", "POST", RELAY), *NO_CUSTOMER) for it in ("..", "ACME", "acme%00", "acme;x", "acme\xc2\xa0")),
    *((at("/v1/usage", it), *WRONG_METHOD) for it in ("get", "HEAD", "OPTIONS", "TRACE", "PATCH", "GETS")),
    (at("desk.example:443", "CONNECT"), *NO_ROUTE),
    *((raw(line, f"X-Desk-Key: {ACME}"), *BAD_REQUEST) for line in (
        "GET /v1/usage", "GET /v1/usage HTTP/0.9", "GET /v1/usage HTTP/1.2", "GET /v1/usage HTTP/1.10",
        "GET /v1/usage HTTP/2.0", "GET /v1/usage http/1.1", "GET /v1/usage HTTP/1.1 ", "GET  /v1/usage HTTP/1.1",
        "GET /v1/usage  HTTP/1.1", " GET /v1/usage HTTP/1.1", "GET\t/v1/usage\tHTTP/1.1", "GET /v1/usage x HTTP/1.1",
        "GET HTTP/1.1", "G(T /v1/usage HTTP/1.1", "G\xcbT /v1/usage HTTP/1.1", "GET /v1/us\x00age HTTP/1.1",
        "GET /v1/us\x7fage HTTP/1.1", "GET /v1/us\rage HTTP/1.1", "GET /v1/message/\xff HTTP/1.1",
        "GET /v1/message/\xc0\xae HTTP/1.1")),
    (b"PRI * HTTP/2.0\r\n\r\nSM\r\n\r\n", *BAD_REQUEST),
    (b"\x16\x03\x01\x00\xc8\x01\x00\x00\xc4\x03\x03\r\n\r\n", *BAD_REQUEST),
    (usage("X y"), *BAD_REQUEST),
    (usage("X\x00: y"), *BAD_REQUEST),
]

# Bodies that are no text, and texts that would be a field of a reply if it had them in its head.
BODIES = [
    (check(body=b'{"class":"sender","address":"a\xff@b.example"}'), *BAD_JSON),
    (check(body=b'{"class":"sender","address":"a\x00@b.example"}'), *BAD_JSON),
    (check(body=b'{"class":"sender","address":"\xed\xa0\x80"}'), *BAD_JSON),
    (check(body=b"\xef\xbb\xbf" + NULL_SENDER), *BAD_JSON),
    (check(body=NULL_SENDER + b"\x00"), *BAD_JSON),
    (check(body=b'{"class":"sender","address":"a\\u0000@b.example"}'), *BAD_ADDRESS),
    (check(body=b'{"class":"sender","address":"a\\r\\nX-Desk: y@b.example"}'), *BAD_ADDRESS),
    (request("POST", "/v1/line-put", ACME, {"class": "sender", "pattern": "a.example", "action": "REJECT a\r\nSet-Cookie: b"}),
     *BAD_ACTION),
]

ROWS = [*TWO_LENGTHS, *NOT_LOOKED_AT, *KEYS, *PATHS, *BODIES]


def hostile(server):
    for sent, status, body in ROWS:
        server.ask(sent, status, body)


def waits_to_be_asked(server):
    """A client that asks whether it may send its body, and sends it after a while: nothing is told before the response."""
    head = check("Expect: 100-continue")[:-len(NULL_SENDER)]
    client = server.connect()
    client.sendall(head)
    time.sleep(0.5)
    client.sendall(NULL_SENDER)
    server.receive(client, *CHECKED, head)
