"""Of tests/page: the one search, over the queue and the history, and the ways that lead to it."""
import re
import time

from page_desk import CEDAR
from paper import HOUR, message
from serving import expect
from visit import TOO_WIDE

DAY = 24 * HOUR
# To and from of each row, the state and the answer.
FOUND = """[...document.querySelectorAll('#found tbody tr')].map((it) => [it.cells[4].innerText.trim(),
  it.cells[1].innerText.trim().replace(/\\s*\\n\\s*/, ' | '), it.cells[2].innerText, it.cells[3].innerText])"""
IDS = "[...document.querySelectorAll('#found tbody tr')].map((it) => it.dataset.id)"
# A day of this device, so many days ago.
AGO = "((it) => { it.setDate(it.getDate() - arguments[0]); return it.toLocaleDateString('sv'); })(new Date())"


def end(number, recipient, result="delivered", at=None, said="", sender="ann@a.example"):
    """An end of the history; its message has the same number."""
    status, _, text = said.partition(" ")
    return {"at": at or int(time.time()) - HOUR, "id": f"{number:010X}", "number": number, "recipient": recipient, "result": result,
            "sender": sender, "status": status, "text": text}


def many(count, now):
    """So many ends, the newest first: one in ten failed, a minute apart."""
    return [end(number, f"r{number}@far.example", "failed" if number % 10 == 0 else "delivered", now - 60 * (count - number))
            for number in range(count, 0, -1)]


def look(visit, words="", state="", begin="", until=""):
    browser = visit.browser
    browser.write("#find-words", words)
    browser.choose("#find-state", state)
    for field, day in (("from", begin), ("to", until)):
        browser.choose(f"#find-{field}", day)
    browser.click("#find-form [type=submit]")


def says(visit, pattern):
    visit.browser.until(lambda: re.fullmatch(pattern, visit.browser.text("#find-shown") or ""), "the search says",
                        visit.browser.text("#find-shown"), "and not", pattern)


def test_all_mail_is_found_at_one_place(visit, paper):
    """By a part of an address, an ID, words of an answer and a state, in the queue and in the history; and both open."""
    browser, now = visit.browser, int(time.time())
    paper.queue([message(0x501, "ann@a.example", [("buchhaltung@far.example", "4.2.2", "mailbox is full")], arrival=now - 60),
                 message(0x502, "eve@a.example", [("bob@near.example", "", "")], arrival=now - 50, state="hold", reason="look at it")])
    paper.history = [end(9, "Buchhaltung@near.example", "failed", said="5.1.1 no such user"),
                     end(8, "cat@far.example"), end(7, "dan@far.example", "expired", said="4.2.2 mailbox full")]
    visit.on_paper("find")
    visit.says("#find-shown", "Searches the queue, and then the history, the newest first.")
    for words, state, wanted in (
            ("buchhalt", "", ["0000000501", "0000000009"]), ("0000000008", "", ["0000000008"]), ("full mailbox", "", ["0000000501", "0000000007"]),
            ("", "hold", ["0000000502"]), ("", "undelivered", ["0000000009", "0000000007"]), ("far.example", "deferred", ["0000000501"]),
            ("", "", ["0000000502", "0000000501", "0000000009", "0000000008", "0000000007"]), ("EVE@", "", ["0000000502"])):
        look(visit, words, state)
        browser.until(lambda: browser.run(IDS) == wanted, "for", words, state, "found are", browser.run(IDS))
        said = r"Searched the queue\." if state in ("hold", "deferred") else r"Searched everything, back to .+\."
        says(visit, rf"{len(wanted)} found\. {said}")
    look(visit, "buchhalt")
    # (a row has its lines as soon as it is painted)
    browser.until(lambda: browser.run(FOUND) == [
        ["0000000501", "buchhaltung@far.example | From ann@a.example", "deferred", "The mailbox is full.\n4.2.2 mailbox is full"],
        ["0000000009", "Buchhaltung@near.example | From ann@a.example", "failed", "There is no such mailbox.\n5.1.1 no such user"]], "found are", browser.run(FOUND))
    for scheme, width in (("light", 1280), ("dark", 1280), ("light", 360)):
        browser.scheme(scheme)
        browser.size(width)
        expect(browser.run(TOO_WIDE) <= 0, "the search is too wide at", width)
        visit.picture(f"find-{scheme}-{width}")
    browser.size(1280)
    look(visit, "nobody")
    browser.one("#find-none")
    look(visit, "buchhalt")
    browser.click("#found tbody tr:nth-child(1) button")
    visit.says("#detail-title", "ann@a.example")


def test_it_looks_on_and_says_how_far(visit, paper):
    """Until a hundred are found, somebody stops it, or the history ends; what it has found stays, and it goes on from there."""
    browser, now = visit.browser, int(time.time())
    paper.queue([])
    paper.history = many(1500, now)
    visit.on_paper("find")
    look(visit, "far.example", "failed")
    says(visit, r"100 found\. Searched back to .+, and not further\.")
    expect(browser.run(IDS) == [f"{it:010X}" for it in range(1500, 500, -10)], "found are", browser.run(IDS))
    browser.click("#find-more")
    says(visit, r"150 found\. Searched everything, back to .+\.")
    expect(browser.count("#find-more:not([hidden])") == 0, "it wants to look further than all")
    paper.slow["/v1/history-before/901"] = 3
    look(visit, "r3@far.example")
    says(visit, r"0 found, searching back to .+ …")
    expect(browser.text("#find-more") == "Stop", "it cannot be stopped")
    browser.click("#find-more")
    says(visit, r"0 found\. Searched back to .+, and not further\.")
    asked = [path for _, path, _ in paper.asked if "history" in path]
    time.sleep(0.5)
    expect(asked == [path for _, path, _ in paper.asked if "history" in path], "it looks on though it was stopped")
    browser.click("#find-more")
    browser.until(lambda: browser.run(IDS) == [f"{3:010X}"], "found are", browser.run(IDS))


def test_days(visit, paper):
    """From and to a day of this device, both with their whole days; it looks no further back than the first."""
    browser, now = visit.browser, int(time.time())
    paper.queue([message(0x2000 + it, arrival=now - it * DAY) for it in range(5, -1, -1)])
    paper.history = [end(1000 - it, f"r{it}@far.example", at=now - it * DAY // 20) for it in range(900)]
    visit.on_paper("find")
    paper.asked.clear()
    look(visit, begin=browser.run(AGO, 2), until=browser.run(AGO, 1))
    says(visit, r"\d+ found\. Searched everything, back to .+\.")
    expect(browser.run(IDS)[:2] == ["0000002001", "0000002002"] and "0000002003" not in browser.run(IDS)
           and "0000002000" not in browser.run(IDS), "found are", browser.run(IDS)[:4])
    days = {browser.run("new Date(arguments[0]).toLocaleDateString('sv')", it) for it in
            browser.run("[...document.querySelectorAll('#found time')].map((it) => it.dateTime)")}
    expect(days == {browser.run(AGO, it) for it in (1, 2)}, "of these days are found", days)
    # (forty within two days, and so many of today before them: the first page has all)
    expect(sum("history-before" in path for _, path, _ in paper.asked) == 0, "it looks further back:", paper.asked)


def test_it_has_an_address(visit, paper):
    """A reload and Back come to the same search; what failed and a notice lead to it."""
    browser, now = visit.browser, int(time.time())
    paper.queue([])
    paper.history = [end(it, f"r{it}@far.example", "failed") for it in range(8, 0, -1)]
    paper.notices = {1: {"at": now, "id": "0000000003", "kind": "failure", "number": 1, "to": "ann@a.example", "human": "x",
                         "status": "y", "subject": "z"}}
    visit.on_paper("find")
    look(visit, "r5@far")
    browser.until(lambda: browser.run(IDS) == ["0000000005"], "found are", browser.run(IDS))
    look(visit, "r6@far", "failed")
    browser.until(lambda: browser.run(IDS) == ["0000000006"], "found are", browser.run(IDS))
    browser.refresh()
    visit.settled()
    browser.until(lambda: browser.run(IDS) == ["0000000006"], "behind a reload found are", browser.run(IDS))
    browser.driver.back()
    browser.until(lambda: browser.run(IDS) == ["0000000005"], "behind Back found are", browser.run(IDS))
    expect(browser.run("document.querySelector('#find-words').value") == "r5@far", "the field does not say what is found")
    browser.driver.back()
    visit.says("#find-shown", "Searches the queue, and then the history, the newest first.")
    expect(browser.run(IDS) == [] and browser.run("document.querySelector('#find-words').value") == "", "a search is left behind Back")
    visit.turn_to("notices")
    browser.click("#notice-list tbody tr:nth-child(1) button")
    browser.click("#notice-ways button")
    browser.until(lambda: browser.run(IDS) == ["0000000003"], "of the notice found are", browser.run(IDS))
    expect(browser.run("document.activeElement.id") == "find-words", "the focus is elsewhere")


def test_the_desk_itself(visit):
    """A recipient that left and one that waits are found in the queue and the history of the program."""
    browser, desk = visit.browser, visit.desk
    one = desk.submit("cedar", "ann@a.example", "bob@far.example", "cat@far.example")
    desk.report("cedar", one, failed=["bob@far.example"])
    visit.use(CEDAR)
    visit.turn_to("find")
    look(visit, one)
    browser.until(lambda: sorted(it[2] for it in browser.run(FOUND)) == ["failed", "waiting"], "found are", browser.run(FOUND))
