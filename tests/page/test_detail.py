"""Of tests/page: one message whole, beside the list: what it shows, and that it goes along with what is done and shown."""
from browser import ESCAPE
from paper import HOUR
from serving import expect
from test_queue import CELLS, FOCUSED, LONG, ids, mixed


def test_the_detail(visit, paper):
    """Each recipient with its last answer whole, the next try, when it expires, and its history."""
    browser = visit.browser
    mixed(paper)
    arrival = paper.messages[ids(1)[0]]["arrival"]
    paper.messages[ids(1)[0]].update(next_try=arrival + 60 * HOUR, attempts=7, warned=True)
    paper.history = [{"at": arrival + 60, "id": ids(1)[0], "number": 1, "recipient": "gone@far.example", "result": "delivered",
                      "sender": "ann@a.example", "status": "2.0.0", "text": "queued"}]
    visit.on_paper("queue")
    visit.open(ids(1)[0])
    facts = dict(zip(browser.texts("#detail-facts dt"), browser.texts("#detail-facts dd")))

    def shown(seconds):
        script = "new Intl.DateTimeFormat('en-GB', { dateStyle: 'medium', timeStyle: 'short' }).format(arguments[0] * 1000)"
        return browser.run(script, seconds)

    expect(facts["Next try"] == shown(arrival + 60 * HOUR) and facts["Expires"].startswith(shown(arrival + 120 * HOUR))
           and facts["Attempts"] == "7 attempts" and facts["Sender"] == "was told that it is late"
           and facts["Queue ID"] == ids(1)[0],
           "the facts are", facts)
    recipients = [[*filter(None, it.split("\n"))] for it in browser.texts("#detail-recipients li")]
    expect(recipients == [["bob@far.example", "Busy or out of order: the mail server of the other side.",
                           "Nobody has to act: The relay tries again by itself.", f"4.2.0 {LONG}".strip()]], "the recipients are",
           recipients)
    browser.until(lambda: "gone@far.example" in (browser.text("#detail-ends") or ""), "the history is missing")
    expect("delivered" in browser.text("#detail-ends"), "the history is", browser.text("#detail-ends"))
    visit.picture("detail")
    both = browser.run("[...document.querySelectorAll('#list, #detail')].map((it) => it.getBoundingClientRect().left)")
    expect(both[1] > both[0] + 300, "the detail is not beside the list, but at", both)
    browser.keys(ESCAPE)
    expect(browser.run(FOCUSED) == ids(1)[0] and not browser.run("document.querySelector('#detail').checkVisibility()"),
           "Escape leads to", browser.run(FOCUSED))
    visit.open(ids(4)[0])
    facts = dict(zip(browser.texts("#detail-facts dt"), browser.texts("#detail-facts dd")))
    expect(facts["Next try"] == facts["Expires"] == "not while on hold", "one on hold has", facts)


def test_the_detail_goes_along(visit, paper):
    """With what is done to its message, and when that has left."""
    browser = visit.browser
    mixed(paper)
    visit.on_paper("queue")
    visit.open(ids(4)[0])
    browser.click("#detail [data-does=release]")
    browser.tells(f"{ids(4)[0]} is released.")
    browser.until(lambda: browser.text("#detail-tools button") == "Hold", "the buttons stay as they were")
    visit.settled()
    states = [browser.text("#detail-facts .chip"), browser.run(CELLS, visit.row(ids(4)[0]))[2]]
    expect(states == ["waiting", "waiting"], "the list and the detail say", states)
    del paper.messages[ids(4)[0]]
    paper.text = None
    visit.refresh()
    browser.until(lambda: browser.text("#detail-gone"), "that it has left is not told")


def test_a_new_try(visit, paper):
    """Of a message on hold it is asked for, since that sends it; and the detail follows its new ID."""
    browser = visit.browser
    mixed(paper)
    visit.on_paper("queue")
    visit.open(ids(4)[0])
    expect(browser.texts("#detail-tools button") == ["Release", "Try now", "Delete", "Stop this sender"], "offered are", browser.texts("#detail-tools button"))
    for yes in (False, True):
        browser.click("#detail [data-does=requeue]")
        visit.answer(yes, "Release 1 message that is on hold, and try it now?")
        visit.settled()
        expect((ids(4)[0] in paper.messages) is not yes, "the desk has", [*paper.messages])
    browser.tells(f"{ids(4)[0]} is tried now, as {ids(6)[0]}.")
    browser.until(lambda: ids(6)[0] in browser.texts("#detail-facts dd"), "the detail is of", browser.texts("#detail-facts dd"))
    expect(not browser.text("#detail-gone"), "it is told that it has left")
    browser.click("#detail [data-does=requeue]")
    browser.tells(f"{ids(6)[0]} is tried now, as {ids(7)[0]}.")


def test_the_detail_is_of_what_is_shown(visit, paper):
    """It is closed with the row that a filter leaves out: its buttons would do something to what is not seen."""
    browser = visit.browser
    mixed(paper)
    visit.on_paper("queue")
    visit.open(ids(4)[0])
    browser.choose("#only-state", "deferred")
    browser.until(lambda: not browser.run("document.querySelector('#detail').checkVisibility()"), "the detail stays")
    browser.choose("#only-state", "")
    visit.open(ids(4)[0])
    browser.write("#search", "max@")
    visit.says("#shown", "1 of 5 messages")
    expect(browser.run("document.querySelector('#detail').checkVisibility()"), "the detail is closed for nothing")
