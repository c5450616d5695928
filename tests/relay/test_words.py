"""What the worker says and hears: LMTP as Postfix speaks it and as it does not, and what remote
servers answer."""
import socket

from lmtp_client import LONG, answer_to, lmtp, received
from machine import Relay
from serving import LONGEST, expect, named, until
from sinks import Lossy

# an answer of a remote server, and with what status and text it is told (Postfix reads it first)
ANSWERS = {
    "x1": ("550 no such user", "5.0.0", "no such user"),
    "x2": ("550-5.1.1 first line\n550 5.1.1 and second", "5.1.1", "and second"),
    "x3": ("554 4.7.1 of the other class", "5.0.0", "of the other class"),
    "x4": ("550 5.07.001 with zeros", "5.", "with zeros"),
    "x5": ("550 5.1.1 gr\u00fc\u00dfe \u2028", "5.1.1", "5.1.1 gr"),
    "x6": ("550-5.1.1 " + "\n550-5.1.1 ".join(["long " * 90] * 4) + "\n550 5.1.1 end", "5.1.1",
           "long"),
    "s1": ("450 later", "4.0.0", "later"),
    "s2": ("450 5.2.2 of the other class", "4.0.0", "of the other class"),
    "s3": ("421 4.3.2 going down", "4.3.2", "going down"),
    "s4": ("452-4.2.2 full\n452 4.2.2 still full", "4.2.2", "still full"),
}


def test_strange_clients(program, shared):
    """Without Postfix's long identity nothing is taken; a name that was taken is answered as then,
    and nothing else is done; a client that goes away in the middle leaves nothing."""
    with Relay(program, shared) as it:
        it.intake()
        for identity in (None, "9F3A21C04D", "[UNAVAILABLE]", "../../etc/passwd"):
            told = answer_to(it, identity, "p@good.example")
            expect(told == "451 4.3.5", "with the identity", identity, "it is", told)
        told = answer_to(it, LONG, '"john doe"@good.example')
        expect(told.startswith("553 5.1.3"), "a quoted address is", told)
        for recipient in ("p@good.example", "p@Good.Example", "p@good.example"):
            told = answer_to(it, LONG, recipient)
            expect(told.startswith("250"), recipient, "is", told)
        it.desk.expect_usage("acme", pending=1)
        told = answer_to(it, LONG, "P@good.example")
        expect(told.startswith("250"), "another local part is", told)
        with lmtp(it, LONG) as client:
            client.mail("ann@a.example")
            client.rcpt("q@good.example")
            code, words = client.rcpt("r@good.example")
            expect(code == 452 and words.startswith(b"4.5.3"), "a second recipient is", code, words)
            client.docmd("DATA")
            client.send("Subject: cut\r\n\r\nin the mid")
        it.desk.expect_usage("acme", pending=2)
        it.deliver()
        it.expect_delivered("p@good.example", "P@good.example")


def test_long_lines(program, shared):
    """A line of 4,096 bytes has one answer, and so have a longer one, which is refused, and one that
    is longer than all that is read at once."""
    with Relay(program, shared) as it:
        it.intake()
        for bytes_of, wanted in ((4096, b"250 "), (4097, b"500 "), (200_000, b"500 ")):
            with socket.create_connection(it.shared.intake, timeout=LONGEST) as client:
                client.sendall(b"NOOP ".ljust(bytes_of, b"x") + b"\r\nQUIT\r\n")
                told = b"".join(iter(lambda: client.recv(4096), b"")).split(b"\r\n")
            expect(len(told) == 4 and told[1].startswith(wanted) and told[2].startswith(b"221 "),
                   "a line of", bytes_of, "bytes is answered", told)


def test_lost_replies(program, shared):
    """The reply to a submit is lost. What its customer deletes then does not come back when the
    message is tried again; what it leaves is queued once."""
    with Relay(program, shared) as it, Lossy(it.desk.address, b" /relay/submit/") as lossy:
        it.set(desk={"address": named(lossy.address)})
        begun = it.intake()
        for count, recipient in enumerate(("gone@good.example", "left@good.example"), 1):
            told = answer_to(it, LONG, recipient)
            expect(told == "451 4.3.0", "a lost reply is answered", told)
            until(lambda: begun.log.read_text().count("event=settled") == count, "no submit is settled")
            if count == 1:
                it.desk.own("acme", "DELETE", f"/v1/message/{it.desk.only('acme')}")
            told = answer_to(it, LONG, recipient)
            expect(told.startswith("250"), "what was submitted is answered", told)
        it.desk.expect_usage("acme", deleted=1, pending=1)
        it.deliver()
        it.expect_delivered("left@good.example")


def test_as_it_came(program, shared):
    """What was taken in is delivered byte for byte, below the lines of those that took it: dots,
    bytes past ASCII, many lines. Of the login nothing is left."""
    texts = [b"Subject: 1\r\n\r\n.\r\n..\r\n.dot\r\n",
             b"Subject: 2\r\n\r\n" + b"x" * 990 + b"\r\n",
             b"Subject: 3\r\nMIME-Version: 1.0\r\nContent-Transfer-Encoding: 8bit\r\n\r\n\xff \xc3\xbc\r\n",
             b"Subject: 4\r\n\r\n",
             b"Subject: 5\r\n\r\n" + b"12345678\r\n" * 100_000,
             # (so that a piece that is read may end before, within and behind each line's end)
             b"Subject: 6\r\n\r\n" + b".\r\n..\r\n" * 100_000]
    with Relay(program, shared) as it:
        it.intake()
        for at, text in enumerate(texts):
            with lmtp(it, LONG) as client:
                client.mail("ann@a.example")
                client.rcpt(f"p{at}@good.example")
                client.docmd("DATA")
                text = received(LONG, "ann") + text
                client.sock.sendall(text.replace(b"\r\n.", b"\r\n..") + b".\r\n")
                code, words = client.getreply()
                expect(code == 250, "text", at, "is", code, words)
        it.deliver()
        found = {recipients[0]: text for _, recipients, text in shared.good.mail}
        for at, text in enumerate(texts):
            got, wanted = found.get(f"p{at}@good.example", b""), received(LONG) + text
            expect(got.endswith(b"\r\n" + wanted), "text", at, "came as", got[:900])
            lines = got[:len(got) - len(wanted)].split(b"\r\n")[:-1]
            expect(all(line[:1] in b"\t " or line.startswith(b"Received: ") for line in lines),
                   "before the text stands", lines)


def test_remote_answers(program, shared):
    """The answers of remote servers come to the desk in its form: each is taken, and the class is
    that of the code."""
    with Relay(program, shared) as it:
        shared.good.answer = lambda address: ANSWERS[address.partition("@")[0]][0]
        it.intake()
        for name in ANSWERS:
            it.take("acme", f"{name}@good.example")
        it.postfix.empty()
        it.deliver()
        failed = [one for one in ANSWERS if one.startswith("x")]
        it.desk.expect_usage("acme", failed=len(failed), pending=len(ANSWERS) - len(failed))
        told = {}
        for _, _, text in it.senders.mail:
            name = text.split(b"Final-Recipient: rfc822; ")[1].split(b"@")[0].decode()
            status = text.split(b"\r\nStatus: ")[1].split(b"\r\n")[0].decode()
            told[name] = status, text.split(b"\r\nDiagnostic-Code: ")[1].decode()
        for row in it.desk.messages("acme"):
            one = it.desk.own("acme", "GET", f"/v1/message/{row['id']}")["pending"][0]
            told[one["address"].partition("@")[0]] = one["status"], one["text"]
        for name, (_, status, text) in ANSWERS.items():
            got = told.get(name, ("", ""))
            expect(got[0].startswith(status) and text in got[1], name, "is told as", got)
