"""The instance that delivers, as `relay/worker install` sets it up: what it makes of TLS, signing,
other ways and other addresses; and what its reports say, as the worker reads them.

Mail is handed over here without a worker.
"""
import base64
import hashlib
import mailbox
import re
import smtplib
import socket
import ssl
import subprocess
import tempfile
from pathlib import Path

import needs
import pytest
from postfix import Delivering
from serving import LONGEST, expect, free_address, listens, until
from sinks import DEFERS, REFUSES, Sink

# (the worker's own reading of reports)
from hq_relay.postfix.report_reader import read_text

CONTENT = b"From: <ann@a.example>\r\nSubject: tried\r\n\r\nhello\r\n"
UTF8 = "j\N{LATIN SMALL LETTER O WITH DIAERESIS}rg"
SIGNING = """\
Socket inet:{port}@127.0.0.1
Domain a.example
Selector desk
KeyFile {folder}/desk.key
PidFile {folder}/opendkim.pid
Mode s
Canonicalization simple/simple
Background no
RequireSafeKeys no
"""
# So many messages that sessions are kept.
MANY = 30
# An address of the reports' domain, as a stranger may write it.
SPELLED = ["outcome@desk.invalid", "outcome@desk.invalid.", "OUTCOME@Desk.Invalid",
           "a@desk.invalid", '"outcome"@desk.invalid', "@x.example:outcome@desk.invalid", "desk.invalid!outcome",
           "outcome%desk.invalid", "outcome@[desk.invalid]", "a@b.desk.invalid"]


class Host(Sink):
    """A host that offers STARTTLS, SMTPUTF8 and DSN, and refuses mail with a parameter of DSN, as
    aiosmtpd does. It keeps of each mail whether it came over TLS."""

    def __init__(self, context):
        self.over_tls = []
        super().__init__(tls_context=context, enable_SMTPUTF8=True)

    async def handle_EHLO(self, server, session, envelope, name, answers):
        first, *rest = await super().handle_EHLO(server, session, envelope, name, answers)
        return [first, "250-DSN", *rest]

    async def handle_MAIL(self, server, session, envelope, address, options):
        self.over_tls.append(session.ssl is not None)
        envelope.mail_from = address
        return "250 2.1.0 ok"


def context_of(folder):
    """The server's side of TLS, with a certificate made for it."""
    subprocess.run(["openssl", "req", "-x509", "-newkey", "rsa:2048", "-nodes", "-days", "2",
                    "-subj", "/CN=host.example", "-keyout", "host.key", "-out", "host.crt"],
                   cwd=folder, check=True, stdin=subprocess.DEVNULL, stderr=subprocess.DEVNULL)
    made = ssl.SSLContext(ssl.PROTOCOL_TLS_SERVER)
    made.load_cert_chain(folder / "host.crt", folder / "host.key")
    return made


class Tried:
    """A delivering instance, with hosts by their domains."""

    def __init__(self, folder):
        self.folder, self.count = folder, 0
        (folder / "delivering").mkdir()
        self.instance = Delivering(folder / "delivering")
        self.hosts = {
            "secure.example": Host(context_of(folder)),
            # (without a certificate no handshake succeeds)
            "broken.example": Host(ssl.SSLContext(ssl.PROTOCOL_TLS_SERVER)),
            "moved.example": Sink(), "plain.example": Sink(), "soft.example": Sink(DEFERS),
            "hard.example": Sink(REFUSES), "wrong.example": Sink(f"{REFUSES} (deferred)")}
        if socket.has_ipv6:
            self.hosts["six.example"] = Sink(address=("::1", 0))
        self.instance.route({domain: it.address for domain, it in self.hosts.items()})

    def __enter__(self):
        self.instance.start()
        return self

    def __exit__(self, *_):
        self.instance.stop()
        for it in self.hosts.values():
            it.__exit__()

    def session(self):
        client = smtplib.SMTP(*self.instance.address, timeout=LONGEST)
        client.ehlo()
        return client

    def hand_over(self, *recipients, sender="ann@a.example", content=CONTENT, utf8=False):
        """Hands one message over as the worker does; returns its envelope ID."""
        self.count += 1
        envelope = f"acme.{self.count}"
        with self.session() as client:
            options = ["BODY=8BITMIME", "RET=HDRS", f"ENVID={envelope}", *["SMTPUTF8"] * utf8]
            if utf8:
                client.command_encoding = "utf-8"
            answers = [client.mail(sender, options)]
            answers += [client.rcpt(it, ["NOTIFY=SUCCESS,FAILURE"]) for it in recipients]
            client.putcmd(f"BDAT {len(content)} LAST")
            client.send(content)
            answers.append(client.getreply())
        expect(all(code == 250 for code, _ in answers), recipients, "got", answers)
        return envelope

    def outcomes(self, envelope, count=1):
        """What the reports say of an attempt, when so many recipients are reported."""
        self.instance.until(lambda: len(self.read(envelope)) >= count, f"a report of {envelope}")
        return self.read(envelope)

    def read(self, envelope):
        found, box = [], mailbox.Maildir(str(self.instance.reports), create=False)
        for key in box.keys():
            if f"Original-Envelope-Id: {envelope}\n".encode() in box.get_bytes(key):
                of, outcomes = read_text(box.get_bytes(key), key)
                expect(of == envelope and outcomes, "the worker does not read", box.get_bytes(key))
                found += outcomes
        return found

    def expect_outcome(self, envelope, result, text=""):
        found = self.outcomes(envelope)
        is_so = len(found) == 1 and found[0].result == result and text in found[0].text
        expect(is_so, "the outcome is not", result, text, "but", found)

    def arrived(self, domain):
        """The one message that a host has got, behind the header of the instance."""
        mail = self.hosts[domain].mail
        expect(len(mail) == 1, domain, "has got", mail)
        return re.sub(rb"\AReceived: .*\r\n([ \t].*\r\n)*", b"", mail[0][2])


# ---- parts

@pytest.fixture(scope="module")
def tried():
    """The instance, with its hosts."""
    needs.command("postfix", "openssl")
    needs.root()
    with tempfile.TemporaryDirectory() as made:
        folder = Path(made)
        folder.chmod(0o755)
        with Tried(folder) as it:
            yield it


def test_over_tls(tried):
    """A host that offers STARTTLS gets the mail over TLS alone, and much of it in a session that
    is kept."""
    secure = tried.hosts["secure.example"]
    # (Postfix keeps a session only while more mail waits for its host)
    secure.gate.clear()
    envelopes = [tried.hand_over("bob@secure.example") for _ in range(MANY)]
    secure.gate.set()
    for it in envelopes:
        tried.expect_outcome(it, "delivered", "taken")
    expect(secure.over_tls == [True] * MANY, "over TLS came", secure.over_tls)
    told = tried.instance.told()
    for how in ("established", "reused"):
        expect(f"TLS connection {how} to 127.0.0.1[" in told, "no session is", how, told[-3000:])


def test_falls_back(tried):
    """A host whose STARTTLS fails gets the mail in plain text, at the second attempt, with one
    report; nothing comes back before."""
    # (Postfix sends in plain text at once what waited for so long before its first attempt, as mail
    # may on a machine that has much to do)
    tried.instance.set(minimal_backoff_time="10s")
    envelope = tried.hand_over("bob@broken.example")
    tried.expect_outcome(envelope, "delivered", "taken")
    expect(tried.arrived("broken.example") == CONTENT, "it got", tried.hosts["broken.example"].mail)
    over_tls = tried.hosts["broken.example"].over_tls
    expect(over_tls == [False], "over TLS came", over_tls)
    expect("status=deferred (Cannot start TLS" in tried.instance.told(), "no attempt was by TLS")
    tried.instance.set(minimal_backoff_time="1s")


def test_wanted_by_policy(tried):
    """Where the firm's line wants TLS of a host that has none, nothing is sent, and the attempt
    comes back as deferred."""
    tried.instance.set(smtp_tls_policy_maps="inline:{[127.0.0.1]:%d=encrypt}"
                       % tried.hosts["plain.example"].address[1])
    envelope = tried.hand_over("bob@plain.example")
    tried.expect_outcome(envelope, "deferred", "TLS is required, but was not offered")
    expect(not tried.hosts["plain.example"].mail, "it was sent in plain text")
    tried.instance.set(smtp_tls_policy_maps="")
    tried.expect_outcome(tried.hand_over("bob@plain.example"), "delivered")


def test_one_attempt(tried):
    """What is deferred or refused comes back at once, of several recipients each by itself, of mail
    without a sender too. A host whose refusal ends as a deferral does is believed its code."""
    for sender in ("ann@a.example", ""):
        hosts = ("moved", "soft", "hard", "wrong")
        envelope = tried.hand_over(*(f"bob@{it}.example" for it in hosts), sender=sender)
        found = {it.recipient: (it.result, it.status[0])
                 for it in tried.outcomes(envelope, 4)}
        wanted = {"bob@moved.example": ("delivered", "2"), "bob@soft.example": ("deferred", "4"),
                  "bob@hard.example": ("failed", "5"), "bob@wrong.example": ("failed", "5")}
        expect(found == wanted, "of", sender, "is reported", found)
    tried.instance.empty()
    asked = tried.hosts["soft.example"].asked
    expect(asked == ["bob@soft.example"] * 2, "the host that defers was asked", asked)


def test_as_it_came(tried):
    """The message goes out as it came, and the next host is not asked for reports, which it would
    refuse."""
    content = (b"x: no From, no Date\r\nReceived: by me\r\n\r\n.dot\r\n..\r\n\xff\xfe\r\n"
               + b"long " * 199 + b"\r\n\r\n")
    tried.hosts["secure.example"].forget()
    tried.expect_outcome(tried.hand_over("bob@secure.example", content=content), "delivered")
    expect(tried.arrived("secure.example") == content, "it came as",
           tried.arrived("secure.example")[:900])


def test_beyond_ascii(tried):
    """An address past ASCII goes to a host that takes it, and comes back from one that does not."""
    tried.hosts["secure.example"].forget()
    for it in ("bob", UTF8):
        envelope = tried.hand_over(f"{it}@secure.example", utf8=True)
        tried.expect_outcome(envelope, "delivered")
    asked = tried.hosts["secure.example"].asked
    expect(asked == ["bob@secure.example", f"{UTF8}@secure.example"], "asked was", asked)
    envelope = tried.hand_over(f"{UTF8}@plain.example", utf8=True)
    tried.expect_outcome(envelope, "failed", "SMTPUTF8 is required")


def test_over_ipv6(tried):
    """A host with an address of IPv6 is reached by it."""
    if "six.example" not in tried.hosts:
        pytest.skip("no IPv6")
    tried.expect_outcome(tried.hand_over("bob@six.example"), "delivered")
    expect("relay=::1[::1]:" in tried.instance.told(), "the log tells no IPv6")


def test_closed_folder(tried):
    """While the Maildir takes no report, it waits in the queue, and comes when it does."""
    folders = [tried.instance.reports / it for it in ("new", "tmp")]
    for it in folders:
        it.chmod(0o500)
    envelope = tried.hand_over("bob@moved.example")
    tried.instance.until(lambda: "maildir delivery failed" in str(tried.instance.queue()), "a wait")
    for it in folders:
        it.chmod(0o700)
    tried.expect_outcome(envelope, "delivered")


def test_no_forged_report(tried):
    """Nobody writes to the address of reports, however it is spelled."""
    before = len([*tried.instance.reports.glob("new/*")])
    with tried.session() as client:
        for it in SPELLED:
            client.docmd("MAIL FROM:<eve@b.example>")
            code, told = client.docmd(f"RCPT TO:<{it}>")
            if code == 250:
                code, told = client.data(b"Content-Type: multipart/report\r\n\r\n")
            expect(code // 100 == 5, it, "got", code, told)
            client.rset()
    tried.instance.empty()
    after = len([*tried.instance.reports.glob("new/*")])
    expect(after == before, after - before, "reports were made")


def test_signed(tried):
    """A milter of the firm signs what goes out."""
    needs.command("opendkim")
    at, folder = free_address(), tried.folder
    subprocess.run(["openssl", "genrsa", "-out", folder / "desk.key", "2048"], check=True,
                   stdin=subprocess.DEVNULL, stderr=subprocess.DEVNULL)
    (folder / "opendkim.conf").write_text(SIGNING.format(port=at[1], folder=folder))
    milter = subprocess.Popen(["opendkim", "-f", "-x", folder / "opendkim.conf"],
                              stdin=subprocess.DEVNULL)
    try:
        until(lambda: listens(at), "opendkim does not listen")
        tried.instance.set(smtpd_milters=f"inet:127.0.0.1:{at[1]}",
                           milter_default_action="tempfail")
        tried.hosts["moved.example"].forget()
        tried.expect_outcome(tried.hand_over("bob@moved.example"), "delivered")
        text = tried.hosts["moved.example"].mail[0][2]
        wanted = base64.b64encode(hashlib.sha256(b"hello\r\n").digest())
        found = re.search(rb"(?s)\r\nDKIM-Signature: (.*?)\r\n\S", b"\r\n" + text)
        flat = re.sub(rb"\s", b"", found[1]) if found else b""
        expect(b"d=a.example;" in flat and b"bh=" + wanted in flat, "no signature is in", text)
        tried.instance.set(smtpd_milters="")
    finally:
        milter.terminate()
        milter.wait(LONGEST)
