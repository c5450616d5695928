"""What strangers do to nginx by the files of deploy/, and what it costs customers: for tests/deploy.

A stranger has no customer's key. Its addresses are those of loopback.
"""
import json
import re
import resource
import socket
import subprocess
import time
from contextlib import ExitStack
from concurrent.futures import ThreadPoolExecutor

from deploying import DEPLOY, HAS_IPV6, done
import needs
import pytest
from serving import ACME, BIRCH, LONGEST, RELAY, answered, expect, until

USAGE = "GET", "/v1/usage"
NO_KEY = 401, {"error": 2, "name": "NoKey"}
# A read, a body or a head that takes longer is cut; and some seconds for a machine that does other work.
CUT, LATER = 10, 8
HALF_HEADS = 2_000


# ---- connections as bytes

def connection(proxy, source="127.0.0.1", tls=True):
    host, _, port = proxy.public.rpartition(":")
    made = socket.create_connection((host, int(port)), LONGEST, source_address=(source, 0))
    return proxy.context.wrap_socket(made, server_hostname=host) if tls else made


def head(line, *fields):
    return "".join(f"{it}\r\n" for it in (line, "Host: desk.example", *fields)).encode()


def told(proxy, sent, tls=True):
    """The status, the fields and the body that bytes are answered by."""
    with connection(proxy, tls=tls) as client:
        client.sendall(sent)
        found = b"".join(iter(lambda: client.recv(65536), b""))
    first, _, body = found.partition(b"\r\n\r\n")
    expect(first.startswith(b"HTTP/1.1 "), sent[:60], "is answered by", found[:200])
    return int(first[9:12]), first.decode().lower(), body.decode()


def ask(proxy, line, *fields):
    return told(proxy, head(line, *fields, "Connection: close") + b"\r\n")


def ask_anew(proxy, line, *fields):
    """The answer to a stranger that waits where it was too often."""
    end = time.monotonic() + LONGEST / 4
    while True:
        found = ask(proxy, line, *fields)
        if found[0] != 429 or time.monotonic() > end:
            return found
        time.sleep(0.3)


def is_cut(client):
    """Whether the other side has ended a connection."""
    client.settimeout(0.01)
    try:
        return not client.recv(4096)
    except (ConnectionError, OSError) as fault:
        return not isinstance(fault, TimeoutError) and "timed out" not in str(fault)


def expect_served(proxy, *what):
    """Both customers and the workers are answered, and soon."""
    begun = time.monotonic()
    for key in (ACME, BIRCH):
        for _ in range(5):
            done(proxy.ask(*USAGE, key), *what)
    done(proxy.relay("/relay/due/acme", {"after": None}), *what)
    took = time.monotonic() - begun
    expect(took < 5, *what, "customers waited for", took, "seconds")


# ---- what fills a disk

def test_long_requests(proxy, north):
    """No log gets more than a short line of a request, however long it is."""
    files = [north.folder / f"{north.name}.log", proxy.folder / "error.log"]
    before = [it.stat().st_size if it.exists() else 0 for it in files]
    for line in (f"GET /v1/{'%5c' * 2_600} HTTP/1.1", "GET /v1/" + "\\" * 7_900 + " HTTP/1.1",
                 f"{'A' * 7_000} /v1/usage HTTP/1.1", f"GET /{'x' * 7_900} HTTP/1.1"):
        status, _, body = ask(proxy, line)
        expect((status, body) == (414, '{"name":"PathTooLong","proxy":414}'), line[:30], status, body)
    for number in range(20):
        expect(ask(proxy, f"GET /none-{number}-{'x' * 60} HTTP/1.1")[0] in (404, 429), "no file")
    grown = [it.stat().st_size - size for it, size in zip(files, before) if it.exists()]
    expect(max(grown, default=0) < 1_000, "logs grew by", grown, "bytes")
    expect(ask(proxy, "GET /v1/message/" + "\\" * 90 + " HTTP/1.1", f"X-Desk-Key: {ACME}")[0] == 400, "no ID")
    lines = (proxy.folder / "hq-desk.log").read_text().splitlines()
    expect(lines and max(map(len, lines)) < 450, "nginx's log has", max(lines, key=len)[:600])


def test_often_at_the_page(proxy):
    """The page has a limit by address, and its calls and other addresses none of that."""
    with connection(proxy) as client:
        client.sendall((head("HEAD /style.css HTTP/1.1") + b"\r\n") * 900
                       + head("HEAD / HTTP/1.1", "Connection: close") + b"\r\n")
        text = b"".join(iter(lambda: client.recv(65536), b""))
    found = re.findall(rb"HTTP/1.1 (\d+)", text)
    expect(len(found) == 901 and set(found) == {b"200", b"429"}, "901 times the page is", set(found))
    done(proxy.ask(*USAGE, ACME), "a call beside the page")
    time.sleep(1)
    expect(ask(proxy, "GET / HTTP/1.1")[0] == 200, "the page, a second later")


# ---- what is slow

def test_slow_bodies(proxy):
    """Bodies of strangers that never end take no customer's place, and are cut."""
    sent = head("POST /v1/check HTTP/1.1", "Content-Length: 200") + b"\r\n{"
    with ExitStack() as kept:
        them = [kept.enter_context(connection(proxy, f"127.0.0.{it // 8 + 2}")) for it in range(104)]
        for it in them:
            it.sendall(sent)
        time.sleep(0.5)
        expect_served(proxy, "beside 104 slow bodies")
        until(lambda: all(map(is_cut, them)), "slow bodies are not cut", CUT + LATER)


@pytest.mark.parametrize("addresses", [1, 100])
def test_slow_heads(proxy, addresses):
    """Half heads, over TLS and before it, keep no customer and no worker out, and are cut."""
    most = resource.getrlimit(resource.RLIMIT_NOFILE)[1]
    if most != resource.RLIM_INFINITY and most < 3 * HALF_HEADS:
        pytest.skip(f"no {3 * HALF_HEADS} files that a process may have")
    resource.setrlimit(resource.RLIMIT_NOFILE, (most, most))
    with ExitStack() as kept:
        them = []
        for number in range(HALF_HEADS):
            source, tls = f"127.0.1.{number % addresses + 1}", number % 8 == 0
            them.append(kept.enter_context(connection(proxy, source, tls)))
            them[-1].sendall(head("GET /v1/usage HTTP/1.1") if tls else b"\x16\x03\x01")
        expect_served(proxy, "beside half heads from", addresses, "addresses")
        until(lambda: all(map(is_cut, them[-400:])), "slow heads are not cut", CUT + LATER)


# ---- keys

def test_keys(proxy):
    """A key counts in its form alone, and the relay's for none at all."""
    for key in (f"{ACME}\t", f"\t{ACME}", f"{ACME} \t ", "-", "k" * 65, f"{ACME},{ACME}", RELAY):
        status, _, body = ask_anew(proxy, "GET /v1/usage HTTP/1.1", f"X-Desk-Key:{key}")
        expect((status, json.loads(body)) == NO_KEY, "the key", repr(key), "gets", status, body)
    with ThreadPoolExecutor(8) as them:
        found = [it[0] for it in them.map(lambda _: ask(
            proxy, "POST /v1/hold-all HTTP/1.1", f"X-Desk-Key: {ACME}\t"), range(16))]
    expect(200 not in found, "a tab behind a key evades the limits:", found)
    # (of two fields the first counts here, or none, by the release of nginx; never the second)
    two = f"X-Desk-Key: {'k' * 16}", f"X-Desk-Key: {ACME}"
    status, _, body = ask_anew(proxy, "GET /v1/usage HTTP/1.1", *two)
    expect(status == 401, "two keys get", status, body)


def test_strangers(proxy):
    """Who tries keys is refused soon, costs no customer anything, and is told by the log."""
    time.sleep(1)
    before, begun = len(proxy.logged()), time.monotonic()
    with ThreadPoolExecutor(8) as them:
        jobs = [them.submit(proxy.ask, *USAGE, f"wrongkey{it:08d}") for it in range(300)]
        expect_served(proxy, "beside who tries keys")
        found = [it.result()[0] for it in jobs]
    # (twenty at once and two a second)
    most = 25 + 2 * (time.monotonic() - begun)
    expect(set(found) == {401, 429} and found.count(401) < most, "of 300 wrong keys got 401", found.count(401))
    until(lambda: len(proxy.logged()) >= before + 11, "the log of nginx is not written")
    of_them = [it for it in proxy.logged()[before:] if it["uri"] == "/v1/usage"]
    wrong = [it for it in of_them if not it["customer"]]
    expect(len(wrong) >= found.count(401) - 1 and {it["address"] for it in wrong} == {"127.0.0.1"},
           "of 300 wrong keys the log tells", wrong[:3])
    known = [it for it in of_them if it["customer"]]
    expect({it["customer"] for it in known} == {"acme", "birch"}, "of customers the log tells", known[:3])
    text = (proxy.folder / "hq-desk.log").read_text()
    for secret in (ACME, BIRCH, RELAY, "wrongkey"):
        expect(secret not in text, "the log of nginx has", secret)


# ---- what is told

REFUSED = [
    (400, "GET /%00 HTTP/1.1", ()),
    (400, "GET * HTTP/1.1", ()),
    (400, "get / HTTP/1.1", ()),
    (400, "GET /../etc/passwd HTTP/1.1", ()),
    (400, "GET /v1/usage HTTP/1.1", ("Content-Length: x",)),
    (400, "GET /v1/usage HTTP/1.1", (f"X-Desk-Key: {'k' * 40_000}",)),
    (404, "GET /v1 HTTP/1.1", ()),
    (404, "GET /relay HTTP/1.1", ()),
    (404, "GET /hq-refused HTTP/1.1", ()),
    (405, "TRACE / HTTP/1.1", ()),
    (405, "POST /index.html HTTP/1.1", ("Content-Length: 0",)),
    (412, "GET /index.html HTTP/1.1", ('If-Match: "none"',)),
    (413, "POST /v1/check HTTP/1.1", ("Content-Length: 999999",)),
    (414, f"GET /{'x' * 30_000} HTTP/1.1", ()),
    (416, "GET /index.html HTTP/1.1", ("Range: bytes=999999-",)),
    (501, "POST /v1/check HTTP/1.1", ("Transfer-Encoding: none",)),
    (505, "GET / HTTP/3.0", ()),
]


def test_refusals(proxy):
    """Whatever nginx refuses itself is JSON, and tells no host that was sent."""
    for status, line, fields in REFUSED:
        found, fields_told, body = ask(proxy, line, *fields)
        what = line[:40], fields[:1], "gets", found, fields_told, body[:200]
        expect(found == status and "content-type: application/json" in fields_told, *what)
        expect(json.loads(body)["proxy"] == status and "error" not in json.loads(body), *what)
        expect("location:" not in fields_told, *what)
    status, fields, body = told(proxy, head("GET / HTTP/1.1") + b"\r\n", tls=False)
    expect(status == 400 and json.loads(body) == {"name": "BadRequest", "proxy": 400}, "HTTP to TLS", body)


def test_headers(proxy):
    """Browsers are told to come by TLS alone, and to show the page in no frame."""
    for path, wanted in (("/v1/usage", ("Strict-Transport-Security", "Cache-Control")),
                         ("/", ("Strict-Transport-Security", "X-Frame-Options",
                                "Cross-Origin-Opener-Policy", "Content-Security-Policy"))):
        _, response = answered(proxy.public, "GET", path, ACME, context=proxy.context)
        for it in wanted:
            expect(response.getheader(it), path, "has no", it)
        expect(not re.search("nginx/", str(response.getheader("Server"))), "nginx tells its release")


def test_ways_in(proxy):
    """IPv6, HTTP/2, and the port without TLS, which sends browsers to the page at its own name, and refuses calls."""
    needs.command("curl")
    _, _, port = proxy.public.rpartition(":")
    curl = ["curl", "-sS", "--noproxy", "*", "--cacert", proxy.folder / "tls.crt", "-H", f"X-Desk-Key: {ACME}"]
    hosts = [f"127.0.0.1:{port}", *([f"desk.example:{port}"] if HAS_IPV6 else [])]
    for host in hosts:
        more = ["--connect-to", f"{host}:[::1]:{port}", "-k"] if "desk" in host else []
        found = subprocess.run([*curl, *more, "--http2", "-w", " %{http_version} %{http_code}", f"https://{host}/v1/usage"],
                               capture_output=True, text=True, timeout=LONGEST)
        expect(found.stdout.endswith(" 2 200"), "over HTTP/2 at", host, "got", found.stdout, found.stderr)
    expect(len(hosts) == 2 or not HAS_IPV6, "IPv6 was not tried")
    for line, status, location in (("GET /any/thing?x HTTP/1.1", 308, "location: https://desk.example/\r\n"),
                                   ("GET /v1/usage HTTP/1.1", 403, ""), ("GET /relay/sweep HTTP/1.1", 404, "")):
        with socket.create_connection(proxy.plain.split(":"), LONGEST) as client:
            client.sendall(f"{line}\r\nHost: evil.example\r\nX-Desk-Key: {ACME}\r\nConnection: close\r\n\r\n".encode())
            text = b"".join(iter(lambda: client.recv(65536), b"")).decode()
        fields, _, body = text.partition("\r\n\r\n")
        expect(f" {status} " in fields.split("\r\n")[0] and location in fields.lower() + "\r\n", line, "without TLS gets", text)
        expect("evil" not in text and (status == 308 or json.loads(body)["proxy"] == status), line, "without TLS gets", text)


def without_tls(proxy, path):
    """The status, the fields and the body that a path gets at the port without TLS."""
    with socket.create_connection(proxy.plain.split(":"), LONGEST) as client:
        client.sendall(head(f"GET {path} HTTP/1.1", "Connection: close") + b"\r\n")
        fields, _, body = b"".join(iter(lambda: client.recv(65536), b"")).decode().partition("\r\n\r\n")
    return int(fields[9:12]), fields.lower(), body


def test_proof_of_a_name(proxy):
    """What certbot puts into its folder is shown without TLS, and nothing else beside it: so the certificate is renewed while nginx runs."""
    place = proxy.folder / "www/.well-known/acme-challenge"
    place.mkdir(parents=True)
    (place / "token-1_x").write_text("token-1_x.of-the-account")
    (proxy.folder / "www/index.html").write_text("of Debian")
    (place / "link").symlink_to(proxy.folder / "www/index.html")
    for it in (place, proxy.folder / "www"):
        it.chmod(0o755)
    status, fields, body = without_tls(proxy, "/.well-known/acme-challenge/token-1_x")
    expect((status, body) == (200, "token-1_x.of-the-account") and "content-type: text/plain" in fields, "the file is answered by", status, fields)
    for path, wanted in (("", 403), ("link", 403), ("none", 404), ("../../index.html", 308), ("%2e%2e/%2e%2e/index.html", 308), ("token-1_x/", 404)):
        status, _, body = without_tls(proxy, f"/.well-known/acme-challenge/{path}")
        expect(status == wanted and "of Debian" not in body, path, "is answered by", status, body)


def test_networks(proxy):
    """Strangers of one network of IPv6 share its limit, however many of its addresses they take; those of others do not."""
    proxy.with_text("server_tokens off;\n  access_log", "server_tokens off;\n  set_real_ip_from 127.0.0.1;\n"
                    "  real_ip_header X-From;\n  access_log")
    try:
        for network, alone in (("2001:db8:1:2:{:x}::7", True), ("2001:db8::a:{:x}:c:d", True), ("2001:db8:1:{:x}::7", False)):
            found = [ask(proxy, "GET /v1/usage HTTP/1.1", f"X-From: {network.format(it + 0x100)}")[0] for it in range(40)]
            expect((found.count(429) > 10) == alone, network, "gets", found)
    finally:
        proxy.with_text("  set_real_ip_from 127.0.0.1;\n  real_ip_header X-From;\n", "")


# ---- what stands beside nginx

def test_alerted(proxy):
    """fail2ban finds in the log of nginx who tried keys, and none of a customer."""
    needs.command("fail2ban-regex")
    test_strangers(proxy)
    log = proxy.folder / "hq-desk.log"
    wrong = [it for it in proxy.logged() if it["status"] == 401 and not it["customer"]]
    jail = (DEPLOY / "hq-desk-strangers-jail.conf").read_text()
    most = int(re.search(r"(?m)^maxretry = (\d+)$", jail)[1])
    expect(len(wrong) >= most, "of who tries keys the log has only", len(wrong), "lines")
    found = subprocess.run(["fail2ban-regex", log, DEPLOY / "hq-desk-strangers.conf"],
                           capture_output=True, text=True, timeout=LONGEST)
    count = re.search(r"Lines: \d+ lines, \d+ ignored, (\d+) matched", found.stdout)
    expect(count and int(count[1]) == len(wrong), "fail2ban finds", found.stdout[-300:], found.stderr)
