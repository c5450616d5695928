"""A queue as a firm of some size has it: for pictures of the page, and for tests that want much."""
import random
import time

from paper import HOUR, message

PEOPLE = ["anna.berg", "j.okafor", "news", "invoices", "marta", "no-reply", "li.wei", "support"]
NAMES = ["peter", "office", "buchhaltung", "m.rossi", "sara.lind", "info", "einkauf", "k.tanaka", "orders"]
GREYLISTED = "host mx1.partner.example[192.0.2.{0}] said: 451 4.7.1 <{1}>: Recipient address rejected: Greylisted, " \
    "see http://help.partner.example/greylisting.html?{0} (in reply to RCPT TO command)"
# How much of each, the domain, the status and what its host says.
SAYS = [
    (38, "partner.example", "4.7.1", GREYLISTED),
    (20, "bigmail.example", "4.7.28",
     "host gmail-smtp-in.bigmail.example[203.0.113.{0}] said: 421-4.7.28 Our system has detected "
     "an unusual rate of unsolicited mail originating from your IP address. To protect our users from spam, mail sent from "
     "your IP address has been temporarily rate limited. Please visit https://support.bigmail.example/answer/{0}"),
    (12, "far.example", "4.4.1", "connect to mx.far.example[198.51.100.{0}]:25: Connection timed out"),
    (8, "old-school.example", "4.2.2", "mailbox {1} is full: 52428800 bytes used of 52428800"),
    (4, "northwind.example", "4.4.3", "Host or domain name not found. Name service error for name=northwind.example type=MX: "
     "Host not found, try again"),
    (2, "kunde.example", "4.3.2", "system not accepting network messages"),
    (12, "bigmail.example", "", ""),
    (4, "partner.example", "", ""),
]


def queue(count, now=None, seed=7):
    """So many messages, the oldest first, of the last days."""
    some, made = random.Random(seed), []
    now = int(now or time.time())
    for number in range(1, count + 1):
        _, domain, status, text = some.choices(SAYS, [it[0] for it in SAYS])[0]
        age = int(some.expovariate(1 / 9) * HOUR * (1 if status else 0.03)) + 40
        to = f"{some.choice(NAMES)}@{domain}"
        pending = [(to, status, text.format(some.randrange(2, 250), to))]
        if some.random() < 0.15:
            pending.append((f"{some.choice(NAMES)}{some.randrange(9)}@{domain}", "", ""))
        sender = "" if some.random() < 0.03 else f"{some.choice(PEOPLE)}@{some.choice(['acme.example', 'shop.acme.example'])}"
        more = {"state": "hold", "reason": "look at it: bulk mail"} if some.random() < 0.06 else {}
        made.append((min(age, 118 * HOUR), sender, pending, int(some.lognormvariate(10, 1.5)), more))
    made.sort(key=lambda it: -it[0])
    return [message(0x2A0 + at, sender, pending, arrival=now - age, size=size, attempts=1 + age // HOUR if pending[0][1] else 0,
                    next_try=now + 900 - age % 900, spool=f"4XkQ{0x2A0 + at:06x}", **more)
            for at, (age, sender, pending, size, more) in enumerate(made)]
