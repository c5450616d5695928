"""A server of the compiled program, and what its clients send and receive: for the tools that try and measure it."""
import contextlib
import http.client
import json
import os
import random
import select
import socket
import subprocess
import time
from typing import Set

ACME, BIRCH, RELAY = "acmekey000000001", "birchkey00000001", "relaykey00000001"
KEYS = {"acme": ACME, "birch": BIRCH, "cedar": "cedarkey00000001"}
HEADER = "name,key,messages,bytes,lines,notices,delay\n"
DIRECTORY = HEADER + """\
acme,acmekey000000001,1000,500000000,1000,100,14400
birch,birchkey00000001,100,1000000,100,10,0
"""
# No single wait takes longer, in seconds.
LONGEST = 120
PHRASES = {200: "OK", 400: "Bad Request", 401: "Unauthorized", 403: "Forbidden", 404: "Not Found", 405: "Method Not Allowed",
           413: "Payload Too Large", 503: "Service Unavailable"}


class Wrong(Exception):
    """The program did not do what it must."""


def expect(holds, *told):
    if not holds:
        raise Wrong(*told)


def until(holds, told, longest=LONGEST):
    """Waits until something holds, and no longer than so many seconds; `told` says what is wrong else."""
    end = time.monotonic() + longest
    while not holds():
        expect(time.monotonic() < end, told)
        time.sleep(0.005)


# Files of tests that run side by side have ports of their own, and none is given twice in a while:
# nobody listens there until its server has started.
WORKER = int(os.environ.get("PYTEST_XDIST_WORKER", "gw0")[2:])
WORKERS = int(os.environ.get("PYTEST_XDIST_WORKER_COUNT", "1"))
GIVEN: Set[int] = set()
MOST_GIVEN = 1_000


def free_address():
    """An address of loopback on which nobody listens. Its port is none that the system hands out
    by itself, so that it is free again whenever its server is stopped."""
    if len(GIVEN) >= MOST_GIVEN:
        GIVEN.clear()
    while True:
        port = random.SystemRandom().randrange(10_240, 32_700) // WORKERS * WORKERS + WORKER
        if port in GIVEN:
            continue
        with contextlib.suppress(OSError), socket.create_server(("127.0.0.1", port)):
            GIVEN.add(port)
            return "127.0.0.1", port


def connected(address):
    """A connection to a host and a port, or to a path."""
    if isinstance(address, str):
        client = socket.socket(socket.AF_UNIX)
        client.settimeout(LONGEST)
        client.connect(address)
        return client
    client = socket.create_connection(address, timeout=LONGEST)
    client.setsockopt(socket.IPPROTO_TCP, socket.TCP_NODELAY, 1)
    return client


def listens(address):
    """Whether somebody listens at an address, or at a path."""
    with contextlib.suppress(ConnectionRefusedError):
        connected(address).close()
        return True
    return False


def named(address):
    return "{}:{}".format(*address)


def words(program, word, store=None, *more, directory="customers.csv"):
    """The words by which the customers of a directory are served."""
    asked = [program, word, "--directory", directory, "--host", "relay.example", "--relay-key", RELAY]
    return [*asked, *(["--store", store] if store else []), *more]


def batch_line(at, method, path, key, body=None):
    """A line of a batch, without its end."""
    rest = [] if body is None else [json.dumps(body, separators=(",", ":"))]
    return " ".join([str(at), method, path, key, *rest])


def one_by_one(asked, lines, folder, more=None):
    """The replies of a batch whose lines come one by one, each behind the reply before; it must end well."""
    replies = []
    with subprocess.Popen(asked, stdin=subprocess.PIPE, stdout=subprocess.PIPE, cwd=folder,
                          env={**os.environ, **(more or {})}) as batch:
        for line in lines:
            batch.stdin.write(f"{line}\n".encode())
            batch.stdin.flush()
            replies.append(batch.stdout.readline().decode().rstrip("\n"))
        batch.stdin.close()
        expect(batch.wait(LONGEST) == 0, "the batch ended by", batch.returncode)
    return replies


# ---- requests and responses as bytes

def request(method, path, key=None, body=b"", *fields):
    body = body if isinstance(body, bytes) else json.dumps(body).encode()
    head = [f"{method} {path} HTTP/1.1", "Host: desk.example", *fields]
    head += [f"X-Desk-Key: {key}"] if key else []
    head += [f"Content-Length: {len(body)}"] if body else []
    return "".join(f"{it}\r\n" for it in [*head, ""]).encode() + body


def submission(spool):
    return {"spool": spool, "sender": "ann@a.example", "recipients": ["bob@far.example"], "size": 900}


def response(status, body):
    fields = f"Content-Type: application/json\r\nContent-Length: {len(body)}\r\nConnection: close\r\n\r\n"
    return f"HTTP/1.1 {status} {PHRASES[status]}\r\n{fields}{body}".encode()


def answered(address, method, path, key=None, body=None, context=None, **more):
    """The text of a response, and the response, of HOST:PORT over a connection of its own; `more` is fields of the request."""
    kind = {"context": context} if context else {}
    made = http.client.HTTPSConnection if context else http.client.HTTPConnection
    client = made(address, timeout=LONGEST, **kind)
    with contextlib.closing(client):
        sent = body if isinstance(body, (bytes, type(None))) else json.dumps(body).encode()
        client.request(method, path, sent, {**({"X-Desk-Key": key} if key else {}), **more})
        response = client.getresponse()
        return response.read(), response


def asked(address, method, path, key=None, body=None, context=None, **more):
    """The status and the body of a reply of HOST:PORT, over a connection of its own."""
    text, response = answered(address, method, path, key, body, context, **more)
    try:
        return response.status, json.loads(text)
    except ValueError:
        raise Wrong(method, path, "got", response.status, text[:200]) from None


# ---- a server

class Server:
    """A server in a folder, by these words: it is to serve so many connections. `more` is added to its environment."""

    def __init__(self, asked, folder, count, listen="127.0.0.1:0", **more):
        self.count, self.made, self.answered, self.errors, self.status = count, 0, 0, [], 0
        self.process = subprocess.Popen(
            [*asked, "--listen", listen, "--count", str(count)], stdin=subprocess.DEVNULL,
            stdout=subprocess.PIPE, stderr=subprocess.PIPE, cwd=folder, env={**os.environ, **more})
        try:
            self.address = self.listening(listen)
        except BaseException:
            self.stop()
            raise

    def __enter__(self):
        return self

    def __exit__(self, kind, *_):
        try:
            if kind is None:
                self.end()
        finally:
            self.stop()

    def stop(self):
        """Ends the process, if it has not ended."""
        self.process.kill()
        self.process.wait(LONGEST)
        self.process.stdout.close()
        self.process.stderr.close()

    def listening(self, listen):
        """The address, or the path, that the first line tells."""
        line, until = b"", time.monotonic() + LONGEST
        while not line.endswith(b"\n"):
            ready, _, _ = select.select([self.process.stdout], [], [], max(0, until - time.monotonic()))
            more = os.read(self.process.stdout.fileno(), 4096) if ready else b""
            expect(more, "no address is told, but", line)
            line += more
        if listen.startswith("unix:"):
            expect(line == f"listening on {listen}\n".encode(), "the path is told as", line)
            return listen[len("unix:"):]
        host, _, wanted = listen.rpartition(":")
        told, _, port = line.decode().rstrip("\n").rpartition(":")
        expect(told == f"listening on {host}" and port.isdecimal() and 0 < int(port) < 65536 and wanted in ("0", port),
               "the address is told as", line)
        return host.strip("[]"), int(port)

    def connect(self):
        self.made += 1
        return connected(self.address)

    def received(self, client):
        """What a client receives until the server has closed its side; the client then closes its own."""
        told, until = b"", time.monotonic() + LONGEST
        with client:
            while True:
                more = client.recv(65536)
                expect(time.monotonic() < until, "a response has no end", told[:300])
                if not more:
                    return told
                told += more

    def receive(self, client, status, body, asked):
        """What a client receives is this response, and nothing else."""
        told, wanted = self.received(client), response(status, body)
        expect(told == wanted, asked[:200], "got", told[:600], "and not", wanted[:600])
        self.answered += 1

    def ask(self, sent, status, body):
        """A request is sent at once, and has this response."""
        client = self.connect()
        client.sendall(sent)
        self.receive(client, status, body, sent)

    def body_of(self, sent):
        """The body that a request is answered with by 200."""
        client = self.connect()
        client.sendall(sent)
        head, _, body = self.received(client).partition(b"\r\n\r\n")
        expect(head.startswith(b"HTTP/1.1 200 OK\r\n") and f"Content-Length: {len(body)}".encode() in head, sent, "got", head, body)
        self.answered += 1
        return body.decode()

    def told(self, line):
        """A line that is told on standard error."""
        self.errors.append(line)

    def stops(self, line):
        """It is to end by itself before as many connections are made as were asked for, and to tell why."""
        self.count, self.status = self.made, 1
        self.told(line)

    def end(self):
        """All connections are made: the server has ended, and told what it had to."""
        expect(self.made == self.count, self.made, "connections were made, and", self.count, "asked for")
        try:
            rest, errors = self.process.communicate(timeout=LONGEST)
        except subprocess.TimeoutExpired:
            raise Wrong("the server has not ended after its", self.count, "connections") from None
        wanted = "".join(f"{it}\n" for it in self.errors).encode()
        expect((self.process.returncode, rest, errors) == (self.status, b"", wanted), "the server ended with", self.process.returncode,
               "and told", rest, errors, "and not", wanted)
        expect(not listens(self.address), "somebody listens on", self.address, "when the server has ended")


# ---- nginx, where it is installed

NGINX = """\
worker_processes 1;
pid {folder}/nginx.pid;
error_log {folder}/error.log;
events {{ worker_connections 64; }}
http {{
  access_log off;
  keepalive_timeout {seconds};
  default_type application/json;
  client_body_temp_path {folder}/t1;
  proxy_temp_path {folder}/t2;
  fastcgi_temp_path {folder}/t3;
  uwsgi_temp_path {folder}/t4;
  scgi_temp_path {folder}/t5;
  {before}
  server {{ listen 127.0.0.1:{port}; {serves} }}
}}
"""


class Nginx:
    """nginx with one worker on a free port, its files in a folder; `serves` is what its configuration has of its server, and
    `before` what it has before that."""

    def __init__(self, folder, serves, keeps_alive, before=""):
        self.address = free_address()
        seconds = 60 if keeps_alive else 0
        text = NGINX.format(folder=folder, port=self.address[1], seconds=seconds, serves=serves, before=before)
        (folder / "nginx.conf").write_text(text)
        # its worker is nobody where it is begun by root
        folder.chmod(0o755)
        asked = ["nginx", "-p", folder, "-c", folder / "nginx.conf", "-g", "daemon off;"]
        self.process = subprocess.Popen(asked, stdin=subprocess.DEVNULL, stdout=subprocess.DEVNULL, stderr=subprocess.DEVNULL)
        try:
            until(lambda: listens(self.address) or self.process.poll() is not None, f"nginx does not listen at {self.address}")
            expect(self.process.poll() is None, "nginx ended with", self.process.returncode)
        except BaseException:
            self.stop()
            raise

    def __enter__(self):
        return self

    def __exit__(self, *_):
        self.stop()

    def stop(self):
        self.process.terminate()
        self.process.wait(LONGEST)
