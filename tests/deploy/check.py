"""What the check of deploy/ does with replies that no desk makes: for tests/deploy."""
import contextlib
import socket
import subprocess
import threading

from deploying import DEPLOY, settings_of
from serving import LONGEST, expect, named

# A check may have so much memory, in bytes. (Python itself takes a third of it.)
MEMORY = 192 << 20
FIELDS = b"HTTP/1.1 503 Service Unavailable\r\nContent-Type: application/json\r\n\r\n"
BLOCK = b" " * 1_048_576
REPLIES = [
    ("without an end", [FIELDS, *[BLOCK] * 700], "more than 65536 bytes"),
    ("that is nested deep", [FIELDS, b"[" * 60_000], "RecursionError"),
    ("that is a list", [FIELDS, b"[93]"], "none of a desk"),
    ("that is none", [b"x\r\n"], "BadStatusLine"),
]


def answer(listener, parts):
    """One connection is answered by these bytes, as far as its client takes them."""
    with contextlib.suppress(OSError), listener.accept()[0] as client:
        client.recv(65536)
        for it in parts:
            client.sendall(it)


def bounded(desk):
    """A check reads no more than a reply may have, ends with a line, and starts nothing again."""
    words = settings_of(DEPLOY / "hq-desk-check@.service")["ExecStart"]
    expect(" try-restart " in words, "a check starts a desk that was stopped:", words)
    for what, parts, told in REPLIES:
        with socket.create_server(("127.0.0.1", 0)) as listener:
            server = threading.Thread(target=answer, args=(listener, parts), daemon=True)
            server.start()
            limited = ["prlimit", f"--as={MEMORY}", DEPLOY / "desk-check"]
            asked = [*limited, named(listener.getsockname()), desk.directory, "touch", "/nowhere/none"]
            found = subprocess.run(asked, capture_output=True, text=True, timeout=LONGEST)
            server.join(LONGEST)
        lines = found.stderr.splitlines()
        expect(found.returncode == 1 and len(lines) == 1 and told in lines[0], "a reply", what,
               "makes of a check", found.returncode, found.stderr[-300:])
