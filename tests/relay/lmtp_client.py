"""A client of the intake, which stands for Postfix."""
import contextlib
import smtplib

from serving import LONGEST, expect

LONG = "4jZpsK03Zxz1c38d"


def received(identity, login=None):
    """The field that Postfix writes before a message, of this queue ID and login."""
    by_login = f"\t(Authenticated sender: {login})\r\n" if login else ""
    return (f"Received: from client.example (client.example [192.0.2.1])\r\n{by_login}"
            f"\tby mta.relay.example (Postfix) with ESMTPA id {identity}\r\n"
            "\tfor <p@good.example>; Thu, 01 Jan 2026 00:00:00 +0000 (UTC)\r\n").encode()


TEXT = received(LONG) + b"Subject: x\r\n\r\nHello.\r\n"

class Client(smtplib.SMTP):
    """A client of LMTP. (The one of smtplib takes no limit of time in Python 3.8.)"""
    ehlo_msg = "lhlo"


@contextlib.contextmanager
def lmtp(it, identity):
    """A client of the intake, which stands for Postfix; the identity is that of its queue."""
    client = Client(*it.shared.intake, timeout=LONGEST)
    with contextlib.closing(client):
        client.ehlo("mta.relay.example")
        expect("IDENT" in client.esmtp_features.get("xforward", ""), "LHLO got", client.ehlo_resp)
        if identity is not None:
            expect(client.docmd("XFORWARD", f"IDENT={identity}")[0] == 250, "XFORWARD is refused")
        yield client


def answer_to(it, identity, recipient, text=TEXT, sender="ann@a.example"):
    """The code and the status of the first refusal on the way of one message, or of its end."""
    with lmtp(it, identity) as client:
        for told in (lambda: client.mail(sender), lambda: client.rcpt(recipient),
                     lambda: client.data(text)):
            code, words = told()
            if code >= 400:
                break
        return f"{code} {words.decode().split(' ')[0]}"
