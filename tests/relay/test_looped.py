"""The Postfix that delivers comes to no listener of its own machine by a name in DNS, where it would be trusted: in a machine of a
test's own (tests/support/private.py).

As a script it is what runs in such a machine.
"""
import os
import smtplib
import socket
import struct
import subprocess
import threading
from pathlib import Path

from private import enter, inside, want
from serving import LONGEST, expect, listens, until
from sinks import ACCEPTS, Sink
from test_install import FRONT, HERE, PATH, WORKER, run, set_main, settings

# What a stranger's zone says: for each name the kind of a record, and its value.
A, MX, AAAA = 1, 15, 28
OWN = {"a.own.example": (A, "127.0.0.2"), "last.own.example": (A, "127.255.255.254"), "none.own.example": (A, "0.0.0.0"),
       "six.own.example": (AAAA, "::1"), "mapped.own.example": (AAAA, "::ffff:127.0.0.2"), "mx.own.example": (MX, "a.own.example")}
ELSEWHERE = "fd00::7"
ZONE = {**{name: [it] for name, it in OWN.items()}, "far.example": [(AAAA, ELSEWHERE)],
        "both.example": [(A, "127.0.0.2"), (AAAA, "::ffff:127.0.0.3"), (AAAA, ELSEWHERE)]}
REPLY, NO_NAME = 0x8580, 0x8583


# ---- in the machine

def written(name):
    return b"".join(bytes([len(it)]) + it.encode() for it in name.split(".")) + b"\0"


def answer(question):
    """The reply to a question of DNS, by the zone."""
    at, labels = 12, []
    while question[at]:
        labels.append(question[at + 1:at + 1 + question[at]].decode().lower())
        at += 1 + question[at]
    name, (kind,), end = ".".join(labels), struct.unpack("!H", question[at + 1:at + 3]), at + 5
    found = [value for of, value in ZONE.get(name, []) if of == kind]
    family = socket.AF_INET if kind == A else socket.AF_INET6
    made = [struct.pack("!H", 10) + written(it) if kind == MX else socket.inet_pton(family, it) for it in found]
    head = struct.pack("!2s5H", question[:2], REPLY if name in ZONE else NO_NAME, 1, len(made), 0, 0)
    return head + question[12:end] + b"".join(b"\xc0\x0c" + struct.pack("!HHIH", kind, 1, 60, len(it)) + it for it in made)


def serve_names():
    with socket.socket(socket.AF_INET, socket.SOCK_DGRAM) as it:
        it.bind(("127.0.0.1", 53))
        while True:
            question, client = it.recvfrom(512)
            it.sendto(answer(question), client)


def status_of(recipient):
    """How the delivering instance tells of a recipient in its log."""
    log = Path("/var/log/postfix-desk/mail.log")

    def lines():
        return [it for it in log.read_text().splitlines() if f"to=<{recipient}>" in it and "status=" in it and "/smtp[" in it]
    until(lines, f"nothing is told of {recipient}")
    return lines()[-1]


def names():
    """Each name of this machine is refused for good, and what has another address too is reached by that."""
    settings()
    (Path("/etc/resolv.conf")).unlink(missing_ok=True)
    Path("/etc/resolv.conf").write_text("nameserver 127.0.0.1\n")
    threading.Thread(target=serve_names, daemon=True).start()
    subprocess.run(["ip", "address", "add", f"{ELSEWHERE}/128", "dev", "lo", "nodad"], check=True)
    # (as Debian sets up an Internet site, but for IPv6, of which the far host has the port)
    set_main(FRONT, inet_protocols="ipv4", mynetworks="127.0.0.0/8 [::ffff:127.0.0.0]/104 [::1]/128", myhostname="front.example")
    run(WORKER, "relay.ini", "install")
    until(lambda: listens(("127.0.0.1", 25)), "the front does not listen")
    with Sink(ACCEPTS, address=(ELSEWHERE, 25)) as far:
        for name in ("far.example", "both.example", *OWN):
            with smtplib.SMTP("127.0.0.1", 10026, "worker", LONGEST) as client:
                client.sendmail("ann@b.example", [f"x@{name}"], "Subject: tried\r\n\r\nhi\r\n")
            told = status_of(f"x@{name}")
            wanted = "dsn=5.4.6, status=bounced (mail for " if name in OWN else "status=sent"
            also = "loops back to this machine)" if name in OWN else f"[{ELSEWHERE}]:25"
            expect(wanted in told and also in told, name, "is told as", told)
        expect([to for _, to, _ in far.mail] == [["x@far.example"], ["x@both.example"]], "elsewhere came", far.mail)
    logged = Path("/var/log/mail.log").read_text(errors="replace").splitlines()
    came = [it for it in logged if "postfix/smtpd" in it and "client=" in it]
    expect(not came, "to the front came", came)


# ---- outside of it

def test_names_of_this_machine():
    """By DNS the delivering instance reaches no address of loopback: such mail fails at once, and an address elsewhere is used."""
    want()
    inside(os.path.realpath(__file__))


if __name__ == "__main__":
    os.environ["PATH"] = PATH
    enter()
    HERE.mkdir(exist_ok=True)
    names()
