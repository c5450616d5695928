"""Of tests/page: who sends what is queued, and how a sender is stopped: refused, held, and then deleted by what was seen."""
from paper import message
from serving import ACME, expect
from test_overview import GROUPS, group
from visit import TOO_WIDE

SPAM = "spam@a.example"
READS = "This key may only read: nothing was changed. (3 WrongRole)"


def ids(*numbers):
    return [f"{it:010X}" for it in numbers]


def burst(paper, rule=None):
    """Twelve messages of one sender, two of another, and one without any."""
    paper.queue([*(message(it, "Spam@a.example", [(f"r{it}@far.example", "", "")]) for it in range(1, 13)), message(13, "ann@a.example"),
                 message(14, "ann@a.example"), message(15, "")])
    action, pattern = (None, None) if rule is None else rule
    paper.told["/v1/check"] = (200, {"action": action, "keys": [SPAM], "pattern": pattern})
    paper.told["/v1/line-put"] = (200, {"put": "added"})


def come_in(paper, number):
    """One more of the sender comes in behind what the page knows."""
    paper.messages[f"{number:010X}"], paper.text = message(number, SPAM, [("late@far.example", "", "")]), None


def stop(visit, name=SPAM):
    item = group(visit, "#senders", name)
    visit.browser.click(f"{item} summary")
    visit.browser.click(f"{item} [data-group=stop]")


def changes(paper):
    return [it[:2] for it in paper.asked if it[0] != "GET" and it[1] != "/v1/check"]


def asks(visit, title, yes=True):
    """Waits for a question, and answers it."""
    visit.browser.until(lambda: visit.browser.text("#question-title") == title, "the page asks", visit.browser.text("#question-title"),
                        "and not", title)
    visit.answer(yes)


def test_who_sends(visit, paper):
    """Each sender with how much of it is queued; its group is shown, held by one call, and of the null sender nothing is stopped."""
    browser = visit.browser
    burst(paper)
    visit.on_paper()
    expect(browser.run(GROUPS, "#senders") == [[12, SPAM], [2, "ann@a.example"], [1, "null sender"]], "the senders are",
           browser.run(GROUPS, "#senders"))
    for scheme, width in (("light", 1280), ("dark", 1280), ("light", 360)):
        browser.scheme(scheme)
        browser.size(width)
        expect(browser.run(TOO_WIDE) <= 0, "the senders are too wide at", width)
        browser.run("document.querySelector('#senders').scrollIntoView({ block: 'center' })")
        visit.picture(f"senders-{scheme}-{width}")
    browser.size(1280)
    item = group(visit, "#senders", "null sender")
    expect(browser.count(f"{item} [data-group]") == 2 and browser.count(f"{item} [data-group=stop]") == 0, "the null sender may be stopped")
    paper.asked.clear()
    browser.click(f"{group(visit, '#senders', 'ann@a.example')} summary")
    browser.click(f"{group(visit, '#senders', 'ann@a.example')} [data-group=hold]")
    visit.answer(True, "Hold 2 messages: ann@a.example?")
    browser.tells("2 held.")
    visit.settled()
    held = [it for it in paper.asked if it[0] == "POST"]
    expect(held == [("POST", "/v1/hold-matching", {"class": "sender", "pattern": "ann@a.example"})], "asked was", held)
    browser.click(f"{group(visit, '#senders', 'ann@a.example')} .group-name")
    visit.rows_are(ids(14, 13))
    expect("ann@a.example" in browser.text("#only-group"), "the group is not named")


def test_a_sender_is_stopped(visit, paper):
    """A rule, a hold, then a deletion of what was seen; what came meanwhile is named, asked for, and stays on hold where not wanted."""
    browser = visit.browser
    burst(paper)
    visit.on_paper()
    come_in(paper, 0xF0)
    paper.asked.clear()
    stop(visit)
    browser.one("#question")
    expect("12 messages in the queue" in browser.text("#question-text") and "REJECT" in browser.text("#question-text"), "asked is",
           browser.text("#question-text"))
    visit.picture("stop-question")
    asks(visit, f"Stop {SPAM}?")
    asks(visit, f"Delete the 12 messages of {SPAM} that you saw?")
    browser.until(lambda: "late@far.example" in (browser.text("#question-facts") or ""), "what came in is not named")
    visit.picture("stop-late")
    asks(visit, "Delete also the 1 message that came in meanwhile?", False)
    visit.delete_now()
    browser.tells("12 deleted.")
    browser.tells(f"{SPAM} is stopped: a rule refuses its new mail.")
    visit.settled()
    put = [it[2] for it in paper.asked if it[1] == "/v1/line-put"]
    expect(put == [{"class": "sender", "pattern": SPAM, "action": "REJECT"}], "the rule is", put)
    wanted = [("POST", "/v1/line-put"), ("POST", "/v1/hold-matching"), *(("DELETE", f"/v1/message/{it}") for it in ids(*range(1, 13)))]
    expect(changes(paper)[:2] == wanted[:2] and sorted(changes(paper)) == sorted(wanted), "asked was", changes(paper))
    expect(paper.messages[ids(0xF0)[0]]["state"] == "hold" and len(paper.messages) == 4, "left are", paper.messages)
    come_in(paper, 0xF1)
    stop(visit)
    asks(visit, f"Stop {SPAM}?")
    asks(visit, f"Delete the 1 message of {SPAM} that you saw?")
    asks(visit, "Delete also the 1 message that came in meanwhile?")
    visit.delete_now()
    browser.tells("2 deleted.")
    expect(sorted(paper.messages) == ids(13, 14, 15), "left are", [*paper.messages])


def test_a_stop_that_is_cancelled(visit, paper):
    """At the first question nothing is done; at the next ones and at Undo all of it stays on hold."""
    browser = visit.browser
    burst(paper, rule=("OK", SPAM))
    visit.on_paper()
    paper.asked.clear()
    stop(visit)
    browser.one("#question")
    expect(browser.texts("#question-facts dd") == ["OK", "REJECT"], "old and new are", browser.texts("#question-facts dd"))
    asks(visit, f"Stop {SPAM}?", False)
    visit.settled()
    expect(changes(paper) == [], "asked was", changes(paper))
    for undoes in (False, True):
        paper.asked.clear()
        stop(visit)
        asks(visit, f"Stop {SPAM}?")
        asks(visit, f"Delete the 12 messages of {SPAM} that you saw?", undoes)
        if undoes:
            browser.click("#undo")
        browser.tells("What is queued of it is on hold.")
        visit.settled()
        expect(changes(paper) == [("POST", "/v1/line-put"), ("POST", "/v1/hold-matching")], "asked was", changes(paper))
    expect(sum(it["state"] == "hold" for it in paper.messages.values()) == 12, "on hold are", paper.messages)


def test_what_goes_wrong_with_a_stop(visit, paper):
    """A key that may only read changes nothing; a hold that fails is told beside the rule that is set."""
    browser = visit.browser
    burst(paper)
    paper.told["/v1/line-put"] = (403, {"error": 3, "name": "WrongRole"})
    visit.on_paper()
    stop(visit)
    asks(visit, f"Stop {SPAM}?")
    browser.until(lambda: visit.told() == [READS], "told is", visit.told())
    visit.settled()
    paper.told["/v1/line-put"] = (200, {"put": "added"})
    paper.told["/v1/hold-matching"] = (503, {"error": 91, "name": "Disk"})
    stop(visit)
    asks(visit, f"Stop {SPAM}?")
    browser.until(lambda: len(visit.told()) == 2 and visit.told()[1].startswith("What is queued of it is not on hold: "), "told is", visit.told())
    expect(visit.told()[0].startswith(f"{SPAM} is stopped"), "the rule is not told", visit.told())


def test_the_desk_itself(visit):
    """From a message: the program refuses the sender from then on, and nothing of it is queued."""
    browser, desk = visit.browser, visit.desk
    made = [desk.submit("acme", "bad@a.example", f"r{it}@far.example") for it in range(3)]
    left = desk.submit("acme", "ann@a.example", "bob@far.example")
    visit.use(ACME)
    visit.turn_to("queue")
    visit.open(made[1])
    browser.click("[data-does=stop]")
    asks(visit, "Stop bad@a.example?")
    asks(visit, "Delete the 3 messages of bad@a.example that you saw?")
    visit.delete_now()
    browser.tells("3 deleted.")
    expect([*desk.states(ACME)] == [left], "left are", desk.states(ACME))
    told = desk.ask("POST", "/v1/check", ACME, {"class": "sender", "address": "bad@a.example"})
    expect((told["action"], told["pattern"]) == ("REJECT", "bad@a.example"), "its rule is", told)
