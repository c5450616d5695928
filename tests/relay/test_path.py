"""Mail on its way through Postfix, a worker, a desk and sinks, while nothing is killed."""
import email
import email.policy

from machine import FAR, REMEMBERED, WIDE, Relay, contents
from serving import expect, named



def test_held_released_delivered(program, shared):
    """A customer's line holds a message; it is released, and delivered as it came."""
    with Relay(program, shared) as it:
        it.desk.line("acme", "recipient", f"held@{FAR}", "HOLD look at it first")
        it.intake()
        it.take("acme", f"held@{FAR}", subject="held")
        it.postfix.empty()
        it.deliver()
        found = it.desk.messages("acme")
        states = [(one["state"], one["reason"]) for one in found]
        expect(states == [("hold", "look at it first")] and not it.delivered(), "the queue has",
               found, it.delivered())
        it.desk.own("acme", "POST", f"/v1/release/{found[0]['id']}")
        it.deliver()
        it.expect_delivered(f"held@{FAR}")
        sender, _, text = shared.good.mail[0]
        head, _, body = text.partition(b"\r\n\r\n")
        expect(sender == "ann@a.example" and body == b"Hello.\r\n.dot\r\n", "delivered was", sender,
               text)
        expect(b"\r\nMessage-ID: <held.1@client.example>\r\n" in head + b"\r\n", "the head is",
               head)
        # (above the worker's own line stands that of the instance that delivers)
        handed = text[text.index(b"Received: from mta.relay.example\r\n"):]
        expect(found[0]["size"] == len(handed), "the size is", found[0]["size"], len(handed))
        it.desk.expect_usage("acme", delivered=1)


def test_judged(program, shared):
    """REJECT is bounced by Postfix with its text, DEFER stays in its queue until the line goes;
    DISCARD is taken and goes nowhere, REDIRECT goes to another address."""
    lines = {"no": "REJECT not wanted here", "later": "DEFER come back", "gone": "DISCARD",
             "moved": f"REDIRECT other@{FAR}"}
    with Relay(program, shared) as it:
        for name, action in lines.items():
            it.desk.line("acme", "recipient", f"{name}@{FAR}", action)
        it.intake()
        it.take("acme", *(f"{one}@{FAR}" for one in ("yes", *lines)))
        it.postfix.deferred("450 4.7.1 come back")
        it.postfix.until(it.bounces, "a bounce")
        it.desk.drop_line("acme", "recipient", f"later@{FAR}")
        it.postfix.empty()
        it.deliver()
        it.expect_delivered(f"later@{FAR}", f"yes@{FAR}", f"other@{FAR}")
        it.expect_bounced({f"no@{FAR}": "554 5.7.1 not wanted here"})
        it.desk.expect_usage("acme", delivered=3)


def test_full_and_away(program, shared):
    """A full quota is 452, a desk that is away 451, also for an intake that begins then; both go
    through later, and once."""
    with Relay(program, shared, {"acme": WIDE, "birch": "1,1000000,10,10,0"}) as it:
        intake = it.intake()
        it.take("birch", f"first@{FAR}")
        it.postfix.empty()
        it.take("birch", f"second@{FAR}")
        it.postfix.deferred("452 4.2.2")
        it.deliver()
        it.postfix.empty()
        it.deliver()
        it.desk.expect_usage("birch", delivered=2)
        it.desk.kill()
        intake.kill()
        it.intake()
        it.take("acme", f"third@{FAR}")
        it.postfix.deferred("451 4.3.0")
        it.desk.start()
        it.postfix.empty()
        it.deliver()
        it.expect_delivered(f"first@{FAR}", f"second@{FAR}", f"third@{FAR}")
        it.desk.expect_usage("acme", delivered=1)


def test_the_history_tells_the_other_side(program, shared):
    """What a host answered when it took a message, and when it refused one, stands in the customer's
    history."""
    with Relay(program, shared, {"acme": REMEMBERED}) as it:
        it.intake()
        it.take("acme", f"taken@{FAR}", "x@hard.example")
        it.postfix.empty()
        it.deliver()
        told = it.desk.own("acme", "GET", "/v1/history")["history"]
        found = {one["recipient"]: (one["result"], one["status"], one["text"]) for one in told}
        result, status, text = found[f"taken@{FAR}"]
        expect((result, status[:2]) == ("delivered", "2.") and text.startswith("250 "), "of taken mail", found)
        result, status, text = found["x@hard.example"]
        expect((result, status) == ("failed", "5.1.1") and "no such user" in text, "of refused mail", found)


def test_login_and_domain(program, shared):
    """A login decides whose the mail is; without one the sender's domain does. A login that stands in
    no table is nobody's, whichever domain its sender names. What a client wrote into the head decides
    nothing, and no recipient reads a login."""
    forged = ("Received: from x (x [192.0.2.1])\r\n\t(Authenticated sender: ann)\r\n"
              "\tby mta.relay.example (Postfix) with ESMTPA id ")
    with Relay(program, shared) as it:
        it.intake()
        it.take("birch", f"by-login@{FAR}", login="ann")
        it.take("birch", f"by-domain@{FAR}")
        it.take("birch", f"of-nobody@{FAR}", login="nobody")
        with it.postfix.session() as client:
            client.sendmail("eve@c.example", [f"forged@{FAR}"],
                            f"{forged}4jZpsK03Zxz1c38d; today\r\nSubject: x\r\n\r\nx\r\n")
        it.postfix.take("", [f"null@{FAR}"], login="cay")
        it.postfix.take("eve@nobody.example", [f"stranger@{FAR}"])
        it.postfix.empty()
        it.deliver()
        it.expect_delivered(*(f"{one}@{FAR}" for one in ("by-login", "by-domain", "forged", "null")))
        for customer, count in (("acme", 1), ("birch", 1), ("cedar", 2)):
            it.desk.expect_usage(customer, delivered=count)
        it.expect_bounced({f"{one}@{FAR}": "550 5.7.1" for one in ("of-nobody", "stranger")})
        logins = [text for _, [to], text in shared.good.mail
                  if b"Authenticated sender" in text and to != f"forged@{FAR}"]
        expect(not logins, "a login is delivered", logins)


def test_notice_through_postfix(program, shared):
    """A failure is told to the sender by a mail in the form of RFC 3464, which goes out through
    Postfix, not by the desk."""
    settings = {"notices": {"next-hop": named(shared.postfix.plain)}}
    with Relay(program, shared, settings=settings) as it:
        it.intake()
        it.take("acme", "x@hard.example", subject="a-failure")
        it.postfix.empty()
        it.deliver()
        it.postfix.until(lambda: it.senders.mail, "a notice")
        it.postfix.empty()
        it.deliver()
        expect(len(it.senders.mail) == 1, "the sender was told", it.senders.mail)
        expect_report(*it.senders.mail[0])
        it.desk.expect_usage("acme", failed=1)


def expect_report(sender, recipients, text):
    """A mail is a notice of a failure, whole."""
    expect((sender, recipients) == ("", ["ann@a.example"]), "a notice goes from", sender, "to",
           recipients)
    found = email.message_from_bytes(text, policy=email.policy.default)
    kinds = (found.get_content_type(), found.get_param("report-type"), str(found["Auto-Submitted"]))
    expect(kinds == ("multipart/report", "delivery-status", "auto-replied"), "a notice is of",
           kinds)
    missing = [it for it in ("From", "To", "Subject", "Date", "Message-ID", "MIME-Version")
               if not found[it]]
    expect(not missing and "MAILER-DAEMON@relay.example" in found["From"], "the head is",
           text[:900])
    parts = list(found.iter_parts())
    kinds = [it.get_content_type() for it in parts]
    expect(kinds == ["text/plain", "message/delivery-status", "text/rfc822-headers"],
           "the parts are", kinds)
    expect("x@hard.example: 5.1.1" in parts[0].get_content(), "the text is", parts[0].get_content())
    whole, one = parts[1].get_payload()
    expect(whole["Reporting-MTA"] == "dns; relay.example", "the status is", whole.items())
    told = [one[it] for it in ("Final-Recipient", "Action", "Status")]
    expect(told == ["rfc822; x@hard.example", "failed", "5.1.1"]
           and "no such user" in one["Diagnostic-Code"],
           "the status is", one.items())
    expect("\nSubject: a-failure\n" in parts[2].as_string().replace("\r\n", "\n"),
           "the headers are", parts[2].as_string())


def test_nothing_is_left(program, shared):
    """The content of what left the queue goes; what nobody knows is listed, and stays until it is
    removed."""
    with Relay(program, shared, settings={"delivery": {"clean-every": "1"}}) as it:
        intake = it.intake()
        it.desk.line("acme", "recipient", f"held@{FAR}", "HOLD")
        it.desk.line("acme", "recipient", f"no@{FAR}", "REJECT")
        it.take("acme", f"p@{FAR}", "x@hard.example", f"gone@{FAR}", f"held@{FAR}", f"no@{FAR}")
        it.postfix.empty()
        expect(len(contents(it)) == 4, "the spool has", contents(it))
        it.deliver()
        intake.kill()
        killed = it.intake(("desk.client.Desk.submit", "before", 1))
        it.take("acme", f"unknown@{FAR}")
        killed.dies()
        it.postfix.drop()
        cleaner = it.run("deliver")
        it.postfix.until(lambda: len(contents(it)) == 2, "two contents")
        cleaner.kill()
        listed = it.run("unknown")
        listed.ends()
        names = [one.name for one in contents(it)]
        told = listed.log.read_text()
        spool, _, envelope = told.partition(" ")
        expect(spool in names and envelope == f"acme <ann@a.example> <unknown@{FAR}>\n",
               "unknown lists", told, "of", names)
        it.run("unknown", "--remove").ends()
        expect(len(contents(it)) == 1, "the spool has", contents(it))
        it.again("acme")
        it.deliver()
        it.expect_delivered(f"p@{FAR}", f"gone@{FAR}", f"held@{FAR}")
