"""The table of logins and domains that hq-customers writes: what is wrong in one, and that SIGHUP has it read again."""
import os
import signal
import subprocess
import time
from pathlib import Path
from types import SimpleNamespace

import needs
import pytest
from hq_relay.intake import submission
from hq_relay.intake.submission import Intake, NotTaken
from lmtp_client import LONG, answer_to, received
from private import PYTHON
from serving import LONGEST, RELAY, expect, free_address, named, until

WORKER = Path(__file__).resolve().parents[2] / "relay/worker"
DIRECTORY = "name,key,messages,bytes,lines,notices,delay\nacme,,10,1000,10,10,0\nbirch,,10,1000,10,10,0\n"
SETTINGS = """\
[desk]
address = {desk}
key-file = relay.key
directory = relay.csv
timeout = 5
[spool]
folder = spool
[intake]
listen = {intake}
senders = senders.csv
[logins]
ann = acme
[domains]
a.example = acme
[delivery]
host = relay.example
[notices]
from = MAILER-DAEMON@relay.example
"""
HEADER = "kind,name,customer\n"
WITH_SINCE = "kind,name,customer,since\n"
# (when Postfix took in what has the identity LONG)
CAME, LATER = "2026-11-26T08:01:25Z", "2026-11-26T08:01:26Z"
BAD = [("", "has not the header"), ("name,kind,customer\n", "has not the header"), (HEADER + "user,ann,acme\n", "row 1"),
       (HEADER + "login,b,acme\nlogin,ann\n", "row 2"), (HEADER + "domain,b.example,gone\n", "gone is not in the directory"),
       (HEADER + "domain,b.example,acme\ndomain,B.example,birch\n", "row 2"), (HEADER + "login,,acme\n", "row 1"),
       (WITH_SINCE + "domain,b.example,acme,yesterday\n", "yesterday"), (WITH_SINCE + "domain,b.example\n", "row 1"),
       (HEADER + "domain,A.example,birch\n", "stands in the file of `senders` too"),
       (HEADER + "login,ann,birch\n", "stands in the file of `senders` too"), ("\udcff", "cannot be read"), (None, "cannot be read")]


@pytest.fixture
def place(folder):
    needs.module(PYTHON, "aiosmtpd")
    address = free_address()
    (folder / "relay.ini").write_text(SETTINGS.format(desk=named(free_address()), intake=named(address)))
    (folder / "relay.key").write_text(RELAY)
    (folder / "relay.csv").write_text(DIRECTORY)
    (folder / "senders.csv").write_text(HEADER)
    return SimpleNamespace(folder=folder, shared=SimpleNamespace(intake=address))


def settings(place):
    return subprocess.run([WORKER, place.folder / "relay.ini", "settings"], capture_output=True, text=True, timeout=LONGEST)


@pytest.mark.parametrize("text, told", BAD, ids=range(len(BAD)))
def test_bad_tables(place, text, told):
    expect(settings(place).returncode == 0, "a good table is refused")
    table = place.folder / "senders.csv"
    table.unlink()
    if text is not None:
        table.write_bytes(text.encode(errors="surrogateescape"))
    found = settings(place)
    expect(found.returncode == 2 and told in found.stderr and "Traceback" not in found.stderr, text, "is told as", found)


def answer(place, sender):
    """What mail of this sender is answered; 451 where a customer was found, since the desk is away."""
    place.count = getattr(place, "count", 0) + 1
    ident = f"{LONG[:-1]}{'BCDFGHJKLMNPQRSTVWXY'[place.count]}"
    return answer_to(place, ident, "p@good.example", received(ident) + b"Subject: x\r\n\r\nHello.\r\n", sender)


def test_read_again(place):
    """At SIGHUP each process of the intake takes customers up; a faulty table changes nothing, and is told."""
    (place.folder / "relay.ini").write_text((place.folder / "relay.ini").read_text().replace("[logins]\nann = acme\n", ""))
    with open(place.folder / "log", "w") as log:
        it = subprocess.Popen([WORKER, place.folder / "relay.ini", "intake"], stdout=subprocess.PIPE, stderr=log,
                              stdin=subprocess.DEVNULL, env={**os.environ, "PYTHONUNBUFFERED": "1"})
    told = place.folder / "log"
    try:
        expect(it.stdout.readline().startswith(b"listening"), "the intake does not listen")
        expect(answer(place, "ann@b.example").startswith("550"), "mail of nobody is taken")
        for text, event, wanted in ((HEADER + "domain,b.example,birch\n", "settings taken", "451 4.3.0"),
                                    (HEADER + "domain,b.example,gone\n", "settings not taken", "451 4.3.0"),
                                    # (mail from before is an earlier customer's of this domain)
                                    (WITH_SINCE + f"domain,b.example,birch,{LATER}\n", "settings taken", "550 5.7.1"),
                                    (WITH_SINCE + f"domain,b.example,birch,{CAME}\n", "settings taken", "451 4.3.0"),
                                    (WITH_SINCE + "domain,b.example,birch,\n", "settings taken", "451 4.3.0"),
                                    (HEADER, "settings taken", "550 5.7.1")):
            (place.folder / "senders.csv").write_text(text)
            before = told.read_text().count(f'"{event}"')
            it.send_signal(signal.SIGHUP)
            until(lambda: told.read_text().count(f'"{event}"') == before + 2, f"not both processes tell {event}")
            for _ in range(2):
                expect(answer(place, "ann@b.example") == wanted, "with", text, "it is not", wanted)
        expect(answer(place, "ann@a.example") == "451 4.3.0", "acme's mail is not taken any more")
    finally:
        it.terminate()
        expect(it.wait(LONGEST) == 0, "the intake ended with", it.returncode)
        it.stdout.close()


@pytest.mark.parametrize("before, told", [(3600, "no customer"), (5 * 86_400 - 60, "no customer"), (6 * 86_400, "no customer so long ago"),
                                          (400 * 86_400, "no customer so long ago")])
def test_a_clock_that_was_wrong(monkeypatch, capfd, before, told):
    """Mail of before its sender was the customer's bounces; where it is older than what Postfix keeps, the log asks for the clock."""
    since = int(time.time()) - 3600
    intake = Intake.__new__(Intake)
    intake.settings = SimpleNamespace(logins={}, domains={"a.example": "acme"}, since={("domain", "a.example"): since})
    intake.spool = SimpleNamespace(envelope=lambda _: None)
    monkeypatch.setattr(submission, "arrival_of", lambda _: since - before)
    with pytest.raises(NotTaken, match="^550 5.7.1 "):
        intake.customer(LONG, "s1", "ann@a.example", received(LONG))
    lines = [it for it in capfd.readouterr().err.splitlines() if f'event="{told}"' in it]
    expect(len(lines) == 1 and ("was the clock wrong" in lines[0]) == ("long ago" in told), "logged is", lines)
    monkeypatch.setattr(submission, "arrival_of", lambda _: since)
    expect(intake.customer(LONG, "s1", "ann@a.example", received(LONG)) == "acme", "its own mail is not taken")
