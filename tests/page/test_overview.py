"""Of tests/page: the overview: whether all is well, how full it is, why mail waits, and for whom."""
import time

from paper import HOUR, message
from serving import ACME, expect
from visit import TOO_WIDE

GREY = "host mx{0}.far.example[192.0.2.{0}] said: 451 4.7.1 <r{0}@far.example>: Greylisted (in reply to RCPT TO command)"
FULL = "mailbox r{0}@near.example is full"
# The number and the name of each group of a list.
GROUPS = """[...document.querySelectorAll(arguments[0] + ' > li')].map((it) =>
  [Number(it.querySelector('.number').textContent), it.querySelector('.group-name').textContent])"""
TILES = """Object.fromEntries([...document.querySelectorAll('.tile')].map(
  (it) => [it.dataset.state, Number(it.querySelector('.number').textContent)]))"""
# The figures of the columns of the chart, by their names, and the height of each part of a column.
COLUMNS = """Object.fromEntries([...document.querySelectorAll('#ages g')].map((it) => {
  const words = [...it.querySelectorAll('text')].map((one) => one.textContent);
  return [words.at(-1), words.length > 1 ? Number(words[0]) : 0];
}))"""
METERS = """[...document.querySelectorAll('#amounts [role=meter]')].map((it) =>
  [it.ariaLabel, it.ariaValueText, Math.round(1000 * it.firstChild.getBoundingClientRect().width / it.clientWidth)])"""


def far(number, **more):
    return message(number, pending=[(f"r{number}@far.example", "4.7.1", GREY.format(number))], **more)


def near(number, **more):
    return message(number, pending=[(f"r{number}@near.example", "4.2.2", FULL.format(number))], **more)


def queue(paper):
    """Ten that one host greylists, six with a full mailbox, three on hold, two that were not tried."""
    now = int(time.time())
    some = [far(it, arrival=now - 2 * HOUR) for it in range(1, 11)]
    some += [near(it, arrival=now - 30 * HOUR) for it in range(11, 17)]
    some += [message(it, state="hold", reason="look at it", arrival=now - 100 * HOUR) for it in range(17, 20)]
    some += [message(it, pending=[("x@far.example", "", ""), ("y@else.example", "", "")], arrival=now - 60) for it in (20, 21)]
    paper.queue(some)


def group(visit, where, name):
    """Opens the menu of a group, and answers how its buttons are found."""
    script = """[...document.querySelectorAll(arguments[0] + ' > li')].findIndex(
      (it) => it.querySelector('.group-name').textContent === arguments[1])"""
    at = visit.browser.run(script, where, name)
    expect(at >= 0, where, "has no", name, "but", visit.browser.run(GROUPS, where))
    return f"{where} > li:nth-child({at + 1})"


def do_group(visit, where, name, does):
    item = group(visit, where, name)
    visit.browser.click(f"{item} summary")
    visit.browser.click(f"{item} [data-group={does}]")


def test_all_in_one_look(visit, paper):
    """Counts, groups, ages and fullness are those of what was put in."""
    browser = visit.browser
    queue(paper)
    paper.limits.update(messages=84, bytes=900 * 21 * 50)
    visit.on_paper()
    expect(browser.run(TILES) == {"waiting": 2, "deferred": 16, "hold": 3}, "the counts are", browser.run(TILES))
    reasons = browser.run(GROUPS, "#reasons")
    expect(reasons[0][0] == 10 and "Greylisted" in reasons[0][1] and "192.0.2" not in reasons[0][1], "one answer is told as",
           reasons)
    expect([it[0] for it in reasons] == [10, 6, 3,
                                         2] and reasons[2][1] == "on hold: look at it" and reasons[3][1] == "not tried yet",
           "the reasons are", reasons)
    domains = browser.run(GROUPS, "#domains")
    expect(domains == [[15, "far.example"], [6, "near.example"], [2, "else.example"]], "the domains are", domains)
    ages = browser.run(COLUMNS)
    expect(ages == {"1 h": 2, "4 h": 10, "12 h": 0, "24 h": 0, "2 d": 6, "3 d": 0, "4 d": 0, "over 4 d": 3}, "the ages are", ages)
    label = browser.run("document.querySelector('#ages svg').getAttribute('aria-label')")
    expect(label == "Messages by age: 1 h: 2, 4 h: 10, 12 h: 0, 24 h: 0, 2 d: 6, 3 d: 0, 4 d: 0, over 4 d: 3",
           "the chart is told as", label)
    meters = browser.run(METERS)
    expect(meters == [["Messages", "21 of 84", 250], ["Size together", "18.9 kB of 945.0 kB", 20], ["Rules", "0 of 1,000", 0]],
           "the bars are", meters)
    expect(browser.text("#well") == "6 messages are late. The oldest waits for 1 d.", "it is told as", browser.text("#well"))


def test_whether_all_is_well(visit, paper):
    """Nothing waits, some is on its way, some is on hold, it is nearly full."""
    browser, now = visit.browser, int(time.time())
    paper.queue([])
    visit.on_paper()
    for some, most, told, kind in (
            ([], 100, "All is well. No mail waits.", "good"),
            ([far(1, arrival=now - HOUR)], 100, "All is well. 1 message is on its way.", "good"),
            ([far(1, arrival=now), message(2, state="hold")], 100, "1 message is on hold, and is not sent until you release it.",
             "warn"),
            ([far(1, arrival=now - 5 * HOUR)], 100, "1 message is late. The oldest waits for 5 h.", "warn"),
            ([message(1, arrival=now - 5 * HOUR), message(2, state="hold", arrival=now - 90 * HOUR)], 100,
             "1 message is late. The oldest waits for 5 h.", "warn"),
            ([far(it) for it in range(1, 10)], 10, "The queue is 90% full. New mail is refused when it is full.", "bad")):
        paper.queue(some)
        paper.limits["messages"] = most
        visit.refresh()
        expect((browser.text("#well"), browser.run("document.querySelector('#well').className")) == (told, kind),
               "it is told as", browser.text("#well"), "and not", told)


def test_a_group_is_shown(visit, paper):
    """The queue then has the group alone, until all is shown again."""
    browser = visit.browser
    queue(paper)
    visit.on_paper()
    name = browser.run(GROUPS, "#reasons")[0][1]
    browser.click(f"{group(visit, '#reasons', name)} .group-name")
    visit.rows_are([f"{it:010X}" for it in range(10, 0, -1)])
    expect(name in browser.text("#only-group"), "the group is not named")
    browser.click("#only-group-close")
    browser.until(lambda: len(visit.rows()) == 21, "shown are", visit.rows())
    visit.turn_to("overview")
    browser.click(f"{group(visit, '#domains', 'else.example')} .group-name")
    visit.rows_are([f"{it:010X}" for it in (21, 20)])
    visit.turn_to("overview")
    browser.click(".tile.hold")
    visit.rows_are([f"{it:010X}" for it in (19, 18, 17)])


def test_a_domain_is_held_released_and_deleted(visit, paper):
    """Held by one call, whatever came in since. Released and deleted is what was seen, and nothing that came in since."""
    browser = visit.browser
    queue(paper)
    visit.on_paper()
    near_ones = [f"{it:010X}" for it in range(11, 17)]
    one, two, three = (f"{it:010X}" for it in (0xF0, 0xF1, 0xF2))
    for does, late, question, told, wanted in (
            ("hold", {}, "Hold 6 messages: near.example?", "7 held.", [("POST", "/v1/hold-matching")]),
            # (a rule put this one on hold, and nobody has seen it)
            ("release", {"state": "hold", "reason": "look at it"}, None, "7 released.",
             [("POST", f"/v1/release/{it}") for it in (*near_ones, one)]),
            ("delete", {}, "Delete 8 messages?", "8 deleted.", [("DELETE", f"/v1/message/{it}") for it in (*near_ones, one, two)])):
        # one more comes in behind what the page knows
        number = {"hold": 0xF0, "release": 0xF1, "delete": 0xF2}[does]
        paper.messages[f"{number:010X}"], paper.text = message(number, pending=[("late@near.example", "", "")], **late), None
        paper.asked.clear()
        do_group(visit, "#domains", "near.example", does)
        if question:
            visit.answer(True, question)
        if does == "delete":
            visit.delete_now()
        browser.tells(told)
        visit.settled()
        changes = sorted(it[:2] for it in paper.asked if it[0] != "GET")
        expect(changes == sorted(wanted), "asked was", changes)
    expect(paper.messages[three]["state"] == "incoming" and len(paper.messages) == 16, "left are", [*paper.messages])
    expect(browser.run(GROUPS, "#domains")[0] == [15, "far.example"], "the list is not drawn anew")


def test_what_failed_is_told(visit, paper):
    """At least five of a day, and more than one in ten, are told; more than half are bad; and the way leads to them."""
    browser, now = visit.browser, int(time.time())

    def ends(**counts):
        results = [name for name, count in counts.items() for _ in range(count)]
        return [{"at": now - 60 * at, "id": f"{at + 1:010X}", "number": len(results) - at, "recipient": f"r{at}@far.example",
                 "result": result, "sender": "ann@a.example", "status": "", "text": ""} for at, result in enumerate(results)]

    paper.queue([])
    paper.history = ends(failed=4)
    visit.on_paper()
    for history, told, kind in (
            (ends(failed=4), "All is well. No mail waits.", "good"),
            (ends(failed=5, delivered=45), "All is well. No mail waits.", "good"),
            (ends(failed=5, delivered=44), "5 of the last 49 recipients of a day failed. Show them", "warn"),
            (ends(failed=4, expired=1, deleted=90), "5 of the last 5 recipients of a day failed. Show them", "bad"),
            ([{**it, "at": it["at"] - 30 * HOUR} for it in ends(failed=6)], "All is well. No mail waits.", "good"),
            (ends(failed=5, expired=1, delivered=3), "6 of the last 9 recipients of a day failed. Show them", "bad")):
        paper.history = history
        visit.refresh()
        expect((browser.text("#well"), browser.run("document.querySelector('#well').className")) == (told, kind),
               "it is told as", browser.text("#well"), "and not", told)
    visit.picture("failed")
    browser.click("#show-failed")
    browser.until(lambda: (browser.text("#find-shown") or "").startswith("6 found. Searched everything"), "the search says",
                  browser.text("#find-shown"))
    shown = browser.run("[...document.querySelectorAll('#found tbody tr')].map((it) => it.dataset.result)")
    expect(sorted(shown) == ["expired", *["failed"] * 5], "shown are", shown)


def test_an_answer_is_held_and_deleted(visit, paper):
    """A hold is of as few calls as there are; a deletion is of those alone that were seen."""
    browser = visit.browser
    queue(paper)
    visit.on_paper()
    name = browser.run(GROUPS, "#reasons")[0][1]
    do_group(visit, "#reasons", name, "hold")
    visit.answer(True)
    browser.tells("10 held.")
    visit.settled()
    held = [it for it, one in paper.messages.items() if one["state"] == "hold"]
    expect(held == [f"{it:010X}" for it in [*range(1, 11), 17, 18, 19]], "held are", held)
    paper.messages["00000000F0"], paper.text = near(0xF0), None
    do_group(visit, "#reasons", browser.run(GROUPS, "#reasons")[1][1], "delete")
    visit.answer(True, "Delete 6 messages?")
    visit.delete_now()
    browser.tells("6 deleted.")
    visit.settled()
    expect("00000000F0" in paper.messages and not {f"{it:010X}" for it in range(11, 17)} & {*paper.messages},
           "left are", [*paper.messages])


def test_the_desk_itself(visit):
    """The report of the program is read as it is: senders, holds, answers and recipients."""
    browser, desk = visit.browser, visit.desk
    one = desk.submit("acme", "ann@a.example", "bob@far.example", "cat@near.example", size=123456)
    desk.report("acme", one, deferred=["bob@far.example"])
    two = desk.submit("acme", "", "bob@far.example")
    desk.ask("POST", f"/v1/hold/{two}", ACME)
    three = desk.submit("acme", "ann@a.example", "eve@far.example")
    visit.use(ACME)
    expect(browser.run(TILES) == {"waiting": 1, "deferred": 1, "hold": 1}, "the counts are", browser.run(TILES))
    expect(browser.run(GROUPS, "#reasons") == [[1, "4.2.0 mailbox busy"], [1, "on hold: held by customer"], [1, "not tried yet"]],
           "the reasons are", browser.run(GROUPS, "#reasons"))
    do_group(visit, "#domains", "near.example", "hold")
    visit.answer(True)
    browser.tells("1 held.")
    expect(desk.states(ACME) == {one: "hold", two: "hold", three: "incoming"}, "the desk has", desk.states(ACME))


def test_at_360_and_in_the_dark(visit, paper):
    """The overview fits, and its menus too."""
    browser = visit.browser
    queue(paper)
    visit.on_paper()
    for width in (360, 1280):
        browser.size(width)
        for scheme in ("light", "dark"):
            browser.scheme(scheme)
            for item in ("#reasons > li:nth-child(1)", "#domains > li:nth-child(3)"):
                browser.click(f"{item} summary")
                browser.one(f"{item} [data-group=delete]")
                expect(browser.run(TOO_WIDE) <= 0, "a menu is too wide at", width)
                browser.click(f"{item} summary")
            visit.picture(f"overview-{scheme}-{width}")
    browser.scheme("light")
