"""What the intake answers Postfix, when it asks whose mail comes."""
import asyncio
import socket
import threading
import time
from types import SimpleNamespace

from hq_relay.intake import admission
import pytest
from hq_relay.desk.call_limits import CallLimits
from hq_relay.desk.client import Away, Refused
from hq_relay.desk.replies import verdict_of
from hq_relay.intake.submission import Intake
from hq_relay.intake.incoming import NotTaken
from hq_relay.intake.policy_server import LARGEST, PolicyServer, way_of
from serving import expect

AT = ("127.0.0.1", 823)
# The first port that any user may listen at.
FIRST_OF_ALL = 1024
NOBODY = "action=550 5.7.1 no customer sends as this"


class Desk:
    """Answers each recipient by its local part, and keeps what was asked."""

    REPLIES = {"refused": {"refused": [{"address": "", "code": 554, "text": "no thanks"}], "verdict": "rejected"},
               "later": {"refused": [{"address": "", "code": 450, "text": "Try again later"}], "verdict": "rejected"},
               "dropped": {"refused": [], "verdict": "discarded"}}
    ERRORS = {"full": (40, "QuotaMessages"), "odd": (20, "BadAddress"), "spent": (43, "SerialsSpent"), "strange": (3, "WrongRole")}

    def __init__(self, room=10_000):
        self.room, self.asked = room, []

    def admit(self, customer, sender, recipient, size, timeout):
        self.asked.append((customer, sender, recipient, size))
        name = recipient.partition("@")[0]
        if name == "away":
            raise Away("no reply")
        if name in self.ERRORS or size > self.room:
            number, told = self.ERRORS.get(name, (41, "QuotaBytes"))
            raise Refused({"error": number, "name": told})
        return verdict_of(self.REPLIES.get(name, {"recipients": [recipient], "refused": [], "state": "incoming", "verdict": "queued"}))


def intake():
    found = Intake.__new__(Intake)
    found.settings = SimpleNamespace(listen=AT, logins={"ann": "acme", "bea@b.example": "birch"}, domains={"a.example": "acme", "c.example": "cedar"},
                                     desks={"acme": "north", "birch": "north", "cedar": "south"}, has_several_desks=True, customers={})
    found.desk, found.full, found.calls = Desk(), {}, CallLimits(2)
    return found


def way(customer):
    return f"action=FILTER desk:{way_of(customer, AT)}"


def request(**told):
    lines = {"request": "smtpd_access_policy", "protocol_state": "RCPT", **told}
    return "".join(f"{name}={value}\n" for name, value in lines.items()).encode() + b"\n"


async def ended(policy):
    """Waits until no client is served any more."""
    policy.close()
    others = asyncio.all_tasks() - {asyncio.current_task()}
    for it in others:
        it.cancel()
    await asyncio.gather(*others, return_exceptions=True)


@pytest.fixture
def answered():
    """Sends bytes to a policy service, over one connection, and returns what it answers until it closes, or nothing comes."""
    listening = socket.create_server(("127.0.0.1", 0))
    loop = asyncio.new_event_loop()
    behind = intake()
    policy = PolicyServer(behind, [listening])
    loop.run_until_complete(policy.start())
    thread = threading.Thread(target=loop.run_forever, daemon=True)
    thread.start()

    def ask(*pieces, wants):
        with socket.create_connection(listening.getsockname(), timeout=5) as client:
            for it in pieces:
                client.sendall(it)
            told = b""
            while told.count(b"\n\n") < wants:
                piece = client.recv(65536)
                if not piece:
                    break
                told += piece
        return told.decode().split("\n\n")[:-1]

    ask.intake = behind
    yield ask
    asyncio.run_coroutine_threadsafe(ended(policy), loop).result(5)
    loop.call_soon_threadsafe(loop.stop)
    thread.join(5)
    loop.close()


@pytest.mark.parametrize("told, wanted", [
    ({"sender": "x@a.example", "sasl_username": ""}, way("acme")), ({"sender": "x@A.Example"}, way("acme")),
    ({"sender": "x@c.example"}, way("cedar")), ({"sender": "x@a.example", "sasl_username": "bea@b.example"}, way("birch")),
    ({"sender": "x@a.example", "sasl_username": "nobody"}, NOBODY), ({"sender": "x@far.example"}, NOBODY), ({"sender": ""}, NOBODY),
    ({"sender": "", "sasl_username": "ann"}, way("acme")), ({}, NOBODY), ({"sender": "x@a.example", "request": "other"}, "action=DUNNO"),
    ({"sender": "a=b@a.example"}, way("acme")), ({"sender": "\xff\xfe@a.example"}, way("acme"))])
def test_actions(answered, told, wanted):
    """A login decides alone, as it does behind the content; without one the sender's domain decides."""
    expect(answered(request(**told), wants=1) == [wanted], told, "is answered by", answered(request(**told), wants=1))


def test_many_requests(answered):
    """A connection has one request after another, however they are cut."""
    text = request(sender="x@a.example") + request(sender="x@far.example") + request(sender="x@c.example")
    wanted = [way("acme"), NOBODY, way("cedar")]
    expect(answered(text, wants=3) == wanted, "at once:", answered(text, wants=3))
    expect(answered(*(text[at:at + 7] for at in range(0, len(text), 7)), wants=3) == wanted, "in pieces it is another one")


# ---- what the desk would answer

def recipient(name, instance="1.1", sender="x@a.example", **told):
    return request(sender=sender, recipient=name, instance=instance, **told)


@pytest.mark.parametrize("name, wanted", [
    ("bob@far.example", way("acme")), ("dropped@far.example", way("acme")), ("refused@far.example", "action=554 5.7.1 no thanks"),
    ("later@far.example", "action=450 4.7.1 Try again later"), ("full@far.example", "action=452 4.2.2 QuotaMessages"),
    ("odd@far.example", "action=553 5.1.3 BadAddress"), ("spent@far.example", "action=452 4.3.1 SerialsSpent"), ("odd", way("acme")),
    ("strange@far.example", way("acme")), ("away@far.example", way("acme"))])
def test_as_the_desk_would(answered, name, wanted):
    """A recipient gets the answer that it would get behind the content. What nobody knows yet comes in."""
    found = answered(recipient(name, size="900"), wants=1)
    expect(found == [wanted], name, "is answered by", found)
    expect(answered.intake.desk.asked == [("acme", "x@a.example", name, 900)], "asked was", answered.intake.desk.asked)


def test_of_another_domain(answered):
    """Postfix adds a domain to a sender that has none: the desk sees another address than the client's."""
    found = answered(recipient("odd@far.example", sender="root", sasl_username="ann"), wants=1)
    expect(found == [way("acme")], "it is answered by", found)


def test_many_recipients(answered):
    """Each recipient of a message takes its size again, and those of the next message begin anew."""
    answered.intake.desk.room = 1000
    asked = [recipient(name, instance, size="400") for name, instance in
             [("refused@b", "1.1"), ("p@b", "1.1"), ("q@b", "1.1"), ("r@b", "1.1"), ("p@b", "1.2"), ("q@b", "1.2")]]
    found = answered(*asked, wants=6)
    full = "action=452 4.2.2 QuotaBytes"
    expect(found == ["action=554 5.7.1 no thanks", way("acme"), way("acme"), full, way("acme"), way("acme")], "the answers are", found)
    sizes = [size for *_, size in answered.intake.desk.asked]
    expect(sizes == [400, 400, 800, 1200, 400, 800], "asked was of", sizes)


def test_full(answered):
    """Where a quota was full just now, each further recipient still has the answer of its own; its content is not written."""
    found = answered(recipient("full@b"), recipient("refused@b"), wants=2)
    expect(found == ["action=452 4.2.2 QuotaMessages", "action=554 5.7.1 no thanks"], "the answers are", found)
    with pytest.raises(NotTaken):
        answered.intake.expect_room("acme", 1)


def whole(size, instance="1.1", **told):
    return request(sender="x@a.example", protocol_state="END-OF-MESSAGE", instance=instance, size=size, **told)


@pytest.mark.parametrize("name, size, wanted", [
    ("p@b", "5900", "action=DUNNO"), ("p@b", "5910", "action=452 4.2.2 QuotaBytes"), ("p@b", "9999999999", "action=452 4.2.2 QuotaBytes"),
    ("away@b", "20000", "action=DUNNO"), ("dropped@b", "900", "action=DUNNO")])
def test_whole(answered, name, size, wanted):
    """A message whose content came is asked for by its size, with what is added to it, and not by the one that its client named."""
    found = answered(recipient(name, size="10"), whole(size), wants=2)
    expect(found == [way("acme"), wanted], "the answers are", found)


def test_whole_of_several(answered):
    """One of the recipients who were let in is asked for, by one size; without any there is nothing to ask, and a refusal for good is not told."""
    found = answered(recipient("refused@b"), recipient("p@b"), recipient("q@b"), whole("5000"), whole("900", "1.2"), whole("900", "1.3", recipient="refused@b"),
                     wants=6)
    expect(found[3:] == ["action=DUNNO"] * 3, "the answers are", found)
    expect([it[2:] for it in answered.intake.desk.asked[3:]] == [("p@b", 9096), ("x@a.example", 4996), ("refused@b", 4996)], "asked was", answered.intake.desk.asked)


@pytest.mark.parametrize("size, wanted", [("", 1), ("0", 1), ("x", 1), ("-5", 1), ("9" * 11, 1), ("2147483647", 2147483647),
                                          ("9999999999", 2147483647)])
def test_sizes(answered, size, wanted):
    """A client that names no size, or none that is a number, asks for one byte; no more is asked than the desk takes."""
    answered.intake.desk.room = 2**31
    answered(recipient("p@b", size=size), wants=1)
    expect([it[3] for it in answered.intake.desk.asked] == [wanted], "asked was", answered.intake.desk.asked)


def test_a_desk_that_does_not_answer(answered, monkeypatch):
    """It is not asked again for a while, and mail goes on; another desk is asked meanwhile."""
    found = answered(recipient("away@b"), recipient("refused@b"), recipient("refused@b", sender="x@c.example"), wants=3)
    expect(found == [way("acme"), way("acme"), "action=554 5.7.1 no thanks"], "the answers are", found)
    later = time.monotonic() + admission.REST + 1
    monkeypatch.setattr(admission.time, "monotonic", lambda: later)
    expect(answered(recipient("refused@b"), wants=1) == ["action=554 5.7.1 no thanks"], "it is never asked again")


def test_a_desk_that_hangs(answered):
    """No more of its calls are under way than it may have: further mail goes on at once."""
    calls = answered.intake.calls
    with calls.one_of("north"), calls.one_of("north"):
        begun = time.monotonic()
        expect(answered(recipient("refused@b"), wants=1) == [way("acme")], "it is asked")
        expect(time.monotonic() < begun + 1, "that took", time.monotonic() - begun)


@pytest.mark.parametrize("text", [b"x" * (LARGEST * 2), b"name=" + b"y" * LARGEST * 3 + b"\n\n"])
def test_too_long(answered, text):
    """A request of more bytes than Postfix ever sends ends its connection."""
    try:
        expect(answered(text, wants=1) == [], "it is answered")
    except ConnectionError:
        pass  # (it is closed before all is read)


def test_ways():
    """Each customer has a destination of its own, the same at all times. At its first address nobody but root may listen."""
    names = [f"customer-{it}" for it in range(3000)]
    ways = {way_of(it, AT) for it in names}
    expect(len(ways) >= len(names) - 5, "ways are", len(ways))
    expect(way_of("acme", AT) == way_of("acme", AT), "a way changes")
    for it in ways:
        first, second = it.split(",")
        port = int(first.rpartition(":")[2])
        expect(second == "[127.0.0.1]:823" and first.startswith("[127.") and port < FIRST_OF_ALL and second != first, it)
    port = int(way_of("acme", ("127.0.0.1", 10024)).partition(",")[0].rpartition(":")[2])
    expect(port < FIRST_OF_ALL, "any user may listen at port", port)
