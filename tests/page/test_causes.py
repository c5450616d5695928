"""Of tests/page: plain causes: what happened, who has to act, and what to do, above what the other side said."""
import re
import time

from page_desk import CEDAR, ROOT
from paper import HOUR, message
from serving import expect
from visit import TOO_WIDE

TEXTS = "import('/texts/' + arguments[0] + '.js').then((it) => it.default)"
# What the page says of each answer of a list.
SAYS = "import('/causes.js').then(({ whatHappened }) => arguments[0].map(([status, words]) => whatHappened(status, words)))"
ROW = re.compile(r'(?m)^  \["(\w+)", "(\w+)", "([^"]*)"')
# Answers as mail servers give them, and the cause that each is of.
ANSWERS = [
    ("4.7.1", "<bob@far.example>: Recipient address rejected: Greylisted, see http://help.far.example", "greylisted"),
    ("4.2.0", "Greylisting in action, please come back later", "greylisted"),
    ("5.7.1", "Service unavailable; Client host [192.0.2.1] blocked using zen.spamhaus.org", "blockList"),
    ("5.7.0", "Your IP is on our blocklist", "blockList"),
    ("4.7.28", "Our system has detected an unusual rate of unsolicited mail originating from your IP address", "tooMuch"),
    ("4.4.5", "too many connections from your host", "tooMuch"), ("4.7.28", "", "tooMuch"),
    ("5.7.23", "SPF validation failed", "spf"), ("5.7.1", "rejected by SPF: -all", "spf"),
    ("5.7.20", "No passing DKIM signature found", "dkim"), ("5.7.26", "Multiple authentication checks failed", "dmarc"),
    ("5.7.1", "Unauthenticated email from a.example is not accepted due to domain's DMARC policy", "dmarc"),
    ("5.7.25", "Reverse DNS validation failed", "reverseName"),
    ("5.7.1", "Message rejected as spam by content filtering", "spam"), ("5.6.0", "Virus found: Eicar", "spam"),
    ("4.2.2", "mailbox r1@near.example is full", "mailboxFull"), ("5.0.0", "user is over quota", "mailboxFull"),
    ("5.2.1", "", "disabled"), ("5.5.0", "This account has been disabled", "disabled"),
    ("5.1.1", "no such user", "noMailbox"), ("5.0.0", "Unknown user", "noMailbox"), ("5.1.6", "", "moved"),
    ("5.1.10", "Domain far.example does not accept mail (nullMX)", "noMail"),
    ("4.4.3", "Host or domain name not found. Name service error for name=northwind.example type=MX: try again", "domainLookup"),
    ("5.4.4", "Host or domain name not found. Name service error for name=nowhere.example type=AAAA", "noDomain"),
    ("5.1.3", "bad destination mailbox address syntax", "badAddress"),
    ("5.1.8", "<ann@a.example>: Sender address rejected: Domain not found", "badSender"),
    ("5.3.4", "Message size exceeds fixed limit", "tooLarge"), ("5.7.2", "", "listClosed"), ("5.4.6", "Too many hops", "loop"),
    ("4.7.5", "Server certificate not trusted", "encryption"), ("5.7.8", "Authentication credentials invalid", "login"),
    ("4.4.1", "connect to mx.far.example[198.51.100.7]:25: Connection timed out", "noAnswer"), ("4.3.2", "", "busy"),
    ("4.3.1", "Insufficient system storage", "busy"), ("5.3.5", "", "misconfigured"), ("4.4.7", "", "givenUp"),
    ("5.6.7", "", "form"), ("5.5.4", "", "protocol"), ("5.7.1", "Access denied", "policy"), ("4.9.9", "", "later"), ("5.0.0", "no", "never"),
]
GREY = ("4.7.1", "Greylisted, come back in 300 seconds")
NOWHERE = ("5.1.1", "no such user")


def test_answers_have_causes(visit, paper):
    """Each answer has the cause that it is of; mail that was taken, and what was not tried, has none."""
    browser = visit.browser
    visit.on_paper()
    english = browser.run(TEXTS, "en")
    found = browser.run(SAYS, [it[:2] for it in ANSWERS])
    wrong = [(*it, one) for it, one in zip(ANSWERS, found) if one != english[f"cause_{it[2]}"]]
    expect(not wrong, "of another cause are", wrong)
    expect(browser.run(SAYS, [["2.0.0", "queued as spam"], ["", ""]]) == ["", ""], "what is no trouble has a cause")


def test_each_cause_is_told_whole(visit, paper):
    """Each row of the table has its texts in each language, is one that an answer here is of, and names statuses of RFC 3463."""
    visit.on_paper()
    rows = ROW.findall((ROOT / "web/causes.js").read_text())
    expect(len(rows) >= 25, "the table has", rows)
    for language in ("en", "de"):
        texts = visit.browser.run(TEXTS, language)
        missing = [it for name, who, _ in rows for it in (f"cause_{name}", f"todo_{name}", f"who_{who}") if not texts.get(it)]
        expect(not missing, language, "lacks", missing)
        over = {it for it in texts if it.startswith("todo_")} - {f"todo_{name}{end}" for name, _, _ in rows for end in ("", "_failed")}
        expect(not over, "of no row are", over)
    expect({name for name, _, _ in rows} == {it[2] for it in ANSWERS}, "no answer here is of", {it[0] for it in rows} ^ {it[2] for it in ANSWERS})
    odd = [it for _, _, statuses in rows for it in statuses.split() if not re.fullmatch(r"[X45]\.(?:[0-7]\.\d\d?)?", it)]
    expect(not odd, "no statuses are", odd)


def filled(paper):
    """A message that is greylisted, ends that failed, and notices of both kinds."""
    now = int(time.time())
    paper.queue([message(1, "ann@a.example", [("bob@far.example", *GREY), ("cat@near.example", "", "")]),
                 message(2, "eve@a.example", state="hold", reason="look at it")])
    paper.history = [{"at": now - HOUR, "id": "0000000001", "number": 2, "recipient": "gus@far.example", "result": "failed",
                      "sender": "ann@a.example", "status": NOWHERE[0], "text": NOWHERE[1]},
                     {"at": now - HOUR, "id": "0000000001", "number": 1, "recipient": "hal@far.example", "result": "expired",
                      "sender": "ann@a.example", "status": "4.4.1", "text": "Connection timed out"}]
    paper.notices = {1: {"at": now, "id": "0000000001", "kind": "failure", "number": 1, "to": "ann@a.example", "human": "It failed.\r\n",
                         "status": "Reporting-MTA: dns; relay.example\r\n\r\nFinal-Recipient: rfc822; gus@far.example\r\nAction: failed\r\n"
                         "Status: 5.0.0\r\nDiagnostic-Code: x-desk; user\r\n unknown\r\n", "subject": "Failed"}}


def test_causes_are_above_answers(visit, paper):
    """In rows, groups, the detail, what left and notices; with what to do where there is room for it."""
    browser = visit.browser
    filled(paper)
    visit.on_paper()
    grey, nobody = "Greylisted: it is taken only at a second try.", "There is no such mailbox."
    acts = "Nobody has to act: The relay tries again by itself. Mostly it is taken within the hour."
    expect(browser.texts("#reasons li:nth-child(2) .cause, #reasons li:nth-child(1) .cause")[0] == grey
           or grey in browser.texts("#reasons .cause"), "the groups say", browser.texts("#reasons .cause"))
    look_at(visit, "overview")
    visit.turn_to("queue")
    # (a row has its lines as soon as it is painted)
    browser.until(lambda: browser.text(f"{visit.row('0000000001')} .said").split("\n") == [grey, f"4.7.1 {GREY[1]}"], "the row says",
                  browser.text(f"{visit.row('0000000001')} .said"))
    expect(browser.run("document.querySelector(arguments[0] + ' .cause').innerText", visit.row("0000000002")) == "", "what is on hold has a cause")
    visit.open("0000000001")
    browser.until(lambda: browser.count("#detail-ends li") == 2, "the detail has no history")
    expect([*filter(None, browser.text("#detail-recipients li:nth-child(1)").split("\n"))]
           == ["bob@far.example", grey, acts, f"4.7.1 {GREY[1]}"], "the detail says", browser.text("#detail-recipients"))
    ends = browser.text("#detail-ends")
    expect(nobody in ends and "You have to act: Correct the address, or ask the recipient for the right one." in ends
           and "and send it again later." in ends and "tries again" not in ends, "of what left the detail says", ends)
    look_at(visit, "detail")
    visit.turn_to("sent")
    browser.until(lambda: browser.texts("#ends .cause") == [nobody, "No answer from the mail server of the other side."], "sent says",
                  browser.texts("#ends .cause"))
    visit.turn_to("find")
    browser.click("#find-form [type=submit]")
    browser.until(lambda: browser.count("#found tbody tr") == 4, "nothing is found")
    browser.until(lambda: nobody in browser.texts("#found .cause") and grey in browser.texts("#found .cause"), "the search says",
                  browser.texts("#found .cause"))
    visit.turn_to("notices")
    browser.click("#notice-list tbody tr:nth-child(1) button")
    browser.until(lambda: browser.text("#notice-causes"), "the notice has no cause")
    expect(browser.text("#notice-causes").split("\n")[:2] == ["gus@far.example", nobody], "the notice says", browser.text("#notice-causes"))
    look_at(visit, "notice")


def look_at(visit, name):
    """A picture of it, wide and narrow, light and dark: it needs no scrolling aside."""
    for scheme, width in (("light", 1280), ("dark", 1280), ("light", 360)):
        visit.browser.scheme(scheme)
        visit.browser.size(width)
        expect(visit.browser.run(TOO_WIDE) <= 0, name, "is too wide at", width)
        visit.picture(f"cause-{name}-{scheme}-{width}")
    visit.browser.size(1280)


def test_the_desk_itself(visit):
    """What the program says of a failure in a notice has its cause."""
    browser, desk = visit.browser, visit.desk
    one = desk.submit("cedar", "ann@a.example", "bob@far.example")
    desk.report("cedar", one, failed=["bob@far.example"])
    visit.use(CEDAR)
    visit.turn_to("notices")
    browser.click("#notice-list tbody tr:nth-child(1) button")
    browser.until(lambda: (browser.text("#notice-causes") or "").split("\n")[:2] == ["bob@far.example", "There is no such mailbox."],
                  "the notice says", browser.text("#notice-causes"))
