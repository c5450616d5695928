"""Who is limited by nginx, as what, and what strangers write into its logs: by the files of deploy/, before two desks."""
import http.client
import ipaddress
import json
import random
import re
import socket
import ssl
import subprocess
import time
from concurrent.futures import ThreadPoolExecutor
from contextlib import ExitStack
from types import SimpleNamespace

import needs
import pytest
from deploying import DEPLOY, OTHERS, ROWS, Desk, Proxy, done
from serving import ACME, BIRCH, HEADER, LONGEST, RELAY, asked, expect, until

USAGE = "GET", "/v1/usage"
READING, NAMED_READ = "acmereading00001", "acmenamedread001"
OFTEN = 429, {"name": "TooOften", "proxy": 429}
# What comes to a port of TLS and is none, or is one that breaks off.
RUBBISH = [bytes.fromhex(it) for it in ("160301ffff", "16030100050100000100", "1603010000", "80030000", "ff", "0000", "16030100", "1503010002022a",
                                        "1703030001aa", "160303000401ffffff", "474554202f20485454502f312e300d0a0d0a", "1603010200" + "01" * 600)]
SENT = 300


@pytest.fixture(scope="module")
def keyed(program, place):
    """acme has a key beside its own that may only read, and one of all rights that is called `read`."""
    with Desk(place, program, "north", ROWS, keys=[f"acme,reading,{READING},read", f"acme,read,{NAMED_READ},all"]) as it:
        yield it


@pytest.fixture(scope="module")
def front(place, keyed, program):
    needs.command("nginx", "openssl")
    with Desk(place, program, "south", OTHERS) as south, Proxy(place / "proxy", [keyed, south]) as it:
        yield it


def test_no_warning(front):
    """nginx of this machine takes the files without a warning."""
    for name in ("nginx.conf", "nginx-workers.conf"):
        told = subprocess.run(["nginx", "-t", "-e", "stderr", "-p", front.folder, "-c", front.folder / name], capture_output=True, text=True,
                              timeout=LONGEST)
        expect(told.returncode == 0 and "[warn]" not in told.stderr and "[emerg]" not in told.stderr, name, "is told as", told.stderr)


# ---- what fills a disk

def rubbish(front, number):
    host, _, port = front.public.rpartition(":")
    with socket.create_connection((host, int(port)), LONGEST) as client:
        client.sendall(RUBBISH[number % len(RUBBISH)])
        client.shutdown(socket.SHUT_WR)
        try:
            while client.recv(4096):
                pass
        except OSError:
            pass


def test_rubbish(front):
    """What is no handshake has no line in a log, at either port."""
    before = {it: it.stat().st_size for it in front.folder.glob("*.log")}
    with ThreadPoolExecutor(8) as them:
        [*them.map(lambda it: rubbish(front, it), range(SENT))]
    done(front.ask(*USAGE, ACME), "behind rubbish")
    time.sleep(0.5)
    grown = {it.name: it.stat().st_size - before.get(it, 0) for it in front.folder.glob("*.log")}
    expect(sum(grown.values()) < 2_000, SENT, "handshakes of rubbish wrote", grown)


def test_log_levels():
    """Each server that strangers reach logs alerts alone, and its logs are rotated at a size."""
    text = (DEPLOY / "nginx.conf").read_text()
    servers = text.count("\nserver {")
    expect(servers == 2 and text.count("error_log /var/log/hq-nginx/error.log alert;") == servers, "some server logs more")
    # (the machine's own nginx.conf may log each request of a server that says nothing)
    logs = [re.findall(r"\n  access_log ([^;]+);", it) for it in text.split("\nserver {")[1:]]
    expect(logs == [["off"], ["/var/log/hq-nginx/hq-desk.log hq if=$is_logged"]], "requests are logged by", logs)
    rules = (DEPLOY / "hq-desk.logrotate").read_text().partition("\n/var/log/hq-nginx/*.log {")[2]
    expect("\n  maxsize 200M\n" in rules and "create 0640 hqproxy adm" in rules, "its logs grow without an end:", rules)


# ---- who is one

def random_addresses():
    """Addresses of IPv6, of which many have groups of zeros wherever they may stand; with some of each one's network."""
    drawn = random.Random(82)
    for _ in range(120):
        groups = [drawn.choice((0, 0, 1, 0xabcd, drawn.randrange(0x10000))) for _ in range(4)]
        for _ in range(4):
            host = [drawn.choice((0, 0, 1, drawn.randrange(0x10000))) for _ in range(4)]
            yield ipaddress.IPv6Address(":".join(f"{it:x}" for it in groups + host))


def test_networks(front):
    """Of IPv6 all addresses of 64 bits are one, whatever zeros they have, and two such networks are two."""
    shows = ("location = /v1 {", "location = /network {\n    default_type text/plain;\n    return 200 $network;\n  }\n  location = /v1 {")
    real = ("  server_tokens off;\n  access_log", "  server_tokens off;\n  set_real_ip_from 127.0.0.1;\n  real_ip_header X-From;\n  access_log")
    path = front.folder / "hq-desk.conf"
    before, text = path.read_text(), path.read_text()
    for old, new in (shows, real, ("limit_req zone=hq_page burst=600 nodelay;\n  # Who asks some", "# Who asks some")):
        expect(text.count(old) == 1, "nginx.conf has no", old)
        text = text.replace(old, new)
    path.write_text(text)
    front.reload()
    try:
        networks, names = {}, {}
        for it in random_addresses():
            told, _ = shown(front, str(it))
            network = ipaddress.IPv6Network((int(it) >> 64 << 64, 64))
            expect(networks.setdefault(told, network) == network, it, "shares the limit of", networks[told], "by", told)
            expect(names.setdefault(network, told) == told, it, "has a limit of its own, by", told, "and not", names[network])
        expect(len(networks) > 60, "of networks there are", len(networks))
    finally:
        path.write_text(before)
        front.reload()


def shown(front, address):
    client = http.client.HTTPSConnection(front.public, timeout=LONGEST, context=front.context)
    client.request("GET", "/network", headers={"X-From": address})
    response = client.getresponse()
    text = response.read().decode()
    client.close()
    return text, response.status


# ---- what a customer may

def slow_bodies(front, kept, key, count):
    """Bodies of a key that never end."""
    host, _, port = front.public.rpartition(":")
    for _ in range(count):
        made = socket.create_connection((host, int(port)), LONGEST)
        client = kept.enter_context(front.context.wrap_socket(made, server_hostname=host))
        client.sendall(f"POST /v1/check HTTP/1.1\r\nHost: desk.example\r\nX-Desk-Key: {key}\r\nContent-Length: 200\r\n\r\n{{".encode())


def test_slow_bodies_of_one_key(front):
    """A key that may only read takes its own eight places, and not those that its customer's own key needs."""
    with ExitStack() as kept:
        slow_bodies(front, kept, READING, 8)
        until(lambda: front.ask(*USAGE, READING) == OFTEN, "a ninth call of the reading key is taken", 5)
        for _ in range(4):
            done(front.ask(*USAGE, ACME), "the customer's own key")
        with ThreadPoolExecutor(4) as them:
            for it in them.map(lambda _: front.ask(*USAGE, ACME), range(8)):
                done(it, "four at once of the customer's own key")


CROWD = [f"crowdkey000000{it:02d}" for it in range(13)]
WHOLE = "GET /v1/usage HTTP/1.1\r\nHost: desk.example\r\nX-Desk-Key: {}\r\nConnection: close\r\n\r\n"


def crowd(place, name):
    """The directory of acme and thirteen others, each of whom may ask eight calls at once."""
    path = place / f"{name}.csv"
    path.write_text(HEADER + "".join(f"{it}\n" for it in crowd_rows()))
    return path


def crowd_rows():
    return [*ROWS, *(f"crowd-{number},{key},100,1000000,100,10,0" for number, key in enumerate(CROWD))]


def test_slow_bodies_of_many(place, program):
    """However many customers are slow in their bodies, none of these is at the desk yet: others find room there."""
    needs.command("nginx", "openssl")
    with Desk(place, program, "crowd", crowd_rows()) as desk, Proxy(place / "crowd", [desk]) as front, ExitStack() as kept:
        for key in CROWD:
            slow_bodies(front, kept, key, 8)
        until(lambda: front.ask(*USAGE, CROWD[0]) == OFTEN, "the bodies are not there", 5)
        for _ in range(20):
            done(front.ask(*USAGE, ACME), "beside a hundred slow bodies")


def replies(clients):
    """What came for those of these that were replied to by now."""
    found = []
    for it in clients:
        try:
            found.append(it.recv(4096).decode())
        except ssl.SSLWantReadError:
            continue
    return [it for it in found if it]


def test_room_at_a_desk(place):
    """A desk has a hundred calls of customers at once. Who comes behind them is told to ask again, and nothing was done; a desk
    that is away is told as that."""
    needs.command("nginx", "openssl")
    with socket.create_server(("127.0.0.1", 0), backlog=200) as hangs:
        desk = SimpleNamespace(address="127.0.0.1:{}".format(hangs.getsockname()[1]), directory=crowd(place, "hangs"))
        with Proxy(place / "hangs", [desk]) as front, ExitStack() as kept:
            host, _, port = front.public.rpartition(":")
            asked_for = []
            for key in CROWD:
                for _ in range(8):
                    made = socket.create_connection((host, int(port)), LONGEST)
                    client = kept.enter_context(front.context.wrap_socket(made, server_hostname=host))
                    client.sendall(WHOLE.format(key).encode())
                    client.setblocking(False)
                    asked_for.append(client)
            told = []
            until(lambda: told.extend(replies(asked_for)) or len(told) >= len(asked_for) - 100, "too few calls are refused")
            time.sleep(1)
            told += replies(asked_for)
            expect(len(told) == len(asked_for) - 100, "of", len(asked_for), "calls refused are", len(told))
            told = told[0]
            expect(told.startswith("HTTP/1.1 429 ") and "Retry-After: 1\r\n" in told and told.endswith('{"name":"TooOften","proxy":429}'),
                   "the last ones are told", told)
            expect(front.ask(*USAGE, ACME) == OFTEN, "another one is let in")
            hangs.close()
    with Proxy(place / "hangs", [desk]) as front:
        expect(front.ask(*USAGE, ACME) == (502, {"name": "DeskAway", "proxy": 502}), "a desk that is away is told as", front.ask(*USAGE, ACME))


def test_long_calls_of_a_reading_key(front):
    """A key that may only read has no place of the lists and the long calls of its customer, however slow its bodies are."""
    host, _, port = front.public.rpartition(":")
    with ExitStack() as kept:
        for line in ("POST /v1/import", "GET /v1/messages", "GET /v1/messages"):
            made = socket.create_connection((host, int(port)), LONGEST)
            client = kept.enter_context(front.context.wrap_socket(made, server_hostname=host))
            client.sendall(f"{line} HTTP/1.1\r\nHost: desk.example\r\nX-Desk-Key: {READING}\r\nContent-Length: 200000\r\n\r\n{{".encode())
        until(lambda: front.ask("GET", "/v1/report", READING) == OFTEN, "a second long call of the reading key is taken", 5)
        for method, path in (("GET", "/v1/report"), ("POST", "/v1/hold-all"), ("GET", "/v1/messages")):
            done(front.ask(method, path, ACME), path, "of the customer's own key")
            time.sleep(0.5)


def test_a_key_called_read(front):
    """A key of all rights counts with its customer's own, whatever its name is: a long call of the one keeps out one of the other."""
    host, _, port = front.public.rpartition(":")
    until(lambda: front.ask("GET", "/v1/report", ACME)[0] == 200, "a report of the customer's own key is refused")
    with front.context.wrap_socket(socket.create_connection((host, int(port)), LONGEST), server_hostname=host) as client:
        client.sendall(f"POST /v1/import HTTP/1.1\r\nHost: desk.example\r\nX-Desk-Key: {NAMED_READ}\r\nContent-Length: 200000\r\n\r\n{{".encode())
        until(lambda: front.ask("GET", "/v1/report", ACME) == OFTEN, "a second long call of the customer is taken", 5)
        time.sleep(0.5)
        done(front.ask("GET", "/v1/report", READING), "a long call of the key that may only read")


def test_lists(front):
    """A customer that floods lists is held to ten a second, two at once; its other calls and other customers are served."""
    bodies = {"/v1/lines-after": {"class": "sender", "pattern": "a.example"}, "/v1/history-find": {"class": "sender", "pattern": "a.example", "before": None}}
    paths = ["/v1/messages", "/v1/messages-after/0000000001", "/v1/lines", "/v1/lines-after", "/v1/notices", "/v1/notices-after/1", "/v1/history",
             "/v1/history-before/9", "/v1/history-find"]
    for path in paths:
        done(front.ask("POST" if path in bodies else "GET", path, ACME, bodies.get(path)), path)
        time.sleep(0.1)
    begun = time.monotonic()
    with ThreadPoolExecutor(6) as them:
        jobs = [them.submit(front.ask, "GET", paths[it % 2], ACME) for it in range(240)]
        done(front.ask(*USAGE, ACME), "another call of who floods lists")
        done(front.ask("GET", "/v1/messages", BIRCH), "a list of another customer")
        found = [it.result() for it in jobs]
    took = time.monotonic() - begun
    good = sum(it[0] == 200 for it in found)
    expect(all(it[0] == 200 or it == OFTEN for it in found), "lists get", {it[0] for it in found})
    expect(10 <= good <= 22 + 11 * took and good < 240, "of 240 lists in", took, "seconds", good, "were answered")


def test_strangers_together(front):
    """All strangers together reach a desk five times a second after the first hundred, so that they do not use up its connections."""
    rate = re.search(r"zone=hq_strangers:1m rate=(\d+)r/s", (DEPLOY / "nginx.conf").read_text())
    count = re.search(r"default is ([0-9,]+)", (DEPLOY.parent / "docs/OPERATIONS.md").read_text().partition("| `--count N` |")[2])[1]
    expect(int(count.replace(",", "")) / int(rate[1]) > 48 * 3600, "strangers use up a desk's connections within two days")


# ---- workers

def test_each_route_of_workers(front):
    """Each call of the relay that names a customer reaches that customer's desk through the nginx of workers."""
    spec = json.loads((DEPLOY.parent / "docs/openapi.json").read_text())
    paths = [it for it in spec["paths"] if re.fullmatch(r"/relay/[a-z-]+/\{customer\}", it)]
    expect(len(paths) > 12 and any("-" in it for it in paths), "the calls of the relay are", paths)
    for path in paths:
        found = asked(front.inner, "POST", path.replace("{customer}", "birch"), RELAY, {"none": 1})
        expect(found[0] != 404 and "proxy" not in found[1], path, "of a customer at the second desk gets", found)
    log = [json.loads(it) for it in (front.folder.parent / "south.log").read_text().splitlines()]
    expect({it["path"] for it in log} >= {it.replace("{customer}", "birch") for it in paths}, "the second desk was asked", log)
