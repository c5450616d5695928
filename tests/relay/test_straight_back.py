"""The intake takes no mail that the delivering instance has given straight to the front, whose client it trusts."""
import pytest
from lmtp_client import LONG, answer_to, received
from machine import FAR, Relay
from serving import expect


def fields(*hosts):
    """The fields that these hosts have written."""
    field = "Received: from x (y [192.0.2.1])\r\n\tby {}; Thu, 01 Jan 2026 00:00:00 +0000\r\n"
    return b"".join(field.format(host).encode() for host in hosts)


BY_DELIVERING = "relay.example (Postfix) with ESMTP id 4jZpsK03Zxz1c38f"
BY_WORKER = "relay.example with LMTP id 4jZpsK03Zxz1c38d-0123456789abcdef"
# What stands below Postfix's own field, and whether it came straight from the delivering instance.
BELOW = {"straight": ((BY_DELIVERING, BY_WORKER), True),
         "in capitals": ((BY_DELIVERING.replace("relay", "RELAY"), BY_WORKER), True),
         "by another host": (("far.example (Postfix) with ESMTP id 4jZ", BY_DELIVERING, BY_WORKER), False),
         "of another relay": (("other.example (Postfix) with ESMTP id 4jZ", "other.example with LMTP id 4jZ-0"), False),
         "of the same name": ((BY_DELIVERING,), False), "of the same name twice": ((BY_DELIVERING, BY_DELIVERING), False)}


@pytest.mark.parametrize("login", [None, "bea"])
def test_straight_back(program, shared, login):
    """The intake takes no mail that the delivering instance has given to its own front, whosever sender it has; what came back
    over another host is taken."""
    with Relay(program, shared) as it:
        it.intake()
        for at, (name, (hosts, is_refused)) in enumerate(BELOW.items()):
            ident = f"{LONG[:-1]}{at}"
            text = received(ident, login) + fields(*hosts) + b"Subject: x\r\n\r\nHello.\r\n"
            found = answer_to(it, ident, f"p{at}@{FAR}", text, "bob@b.example")
            expect(found == ("550 5.4.6" if is_refused else "250 2.0.0"), name, "is answered", found)
        expect(len(it.desk.messages("birch")) == 4, "the desk has", it.desk.messages("birch"))
        expect("comes straight back" in it.told(), "nothing is told of it:", it.told())
