"""Of tests/page: the queue: its rows, search, filters, order, marks, what is done to messages, and the detail."""
import time

from browser import ENTER, ESCAPE, TAB
from paper import HOUR, message
from serving import ACME, expect

LONG = "host mx.far.example[192.0.2.7] said: 450 4.2.0 " + "the mailbox is busy, come back " * 40
FOCUSED = "document.activeElement.closest('tr')?.dataset.id ?? document.activeElement.id"
HEIGHTS = "[...document.querySelectorAll('tr.message')].map((it) => Math.round(it.getBoundingClientRect().height))"
CELLS = """[...document.querySelector(arguments[0]).cells].slice(1).map(
  (it) => it.innerText.trim().split(/\\s*\\n\\s*/).join(' | '))"""


def ids(*numbers):
    return [f"{it:010X}" for it in numbers]


def mixed(paper):
    """Five messages that differ in all that they are found and ordered by."""
    now = int(time.time())
    paper.queue([
        message(1, "ann@a.example", [("bob@far.example", "4.2.0", LONG)], arrival=now - 50 * HOUR, size=500),
        message(2, "", [("cat@near.example", "", ""), ("dan@far.example", "4.4.1", "timed out")], arrival=now - 5 * HOUR,
                size=90_000),
        message(3, "zoe@a.example", [("eve@near.example", "", "")], arrival=now - 3 * HOUR, size=70),
        message(4, "max@b.example", [("fay@else.example", "", "")], arrival=now - 600, size=2_000_000, state="hold",
                reason="look at it"),
        message(5, "ann@b.example", [("bob@far.example", "", "")], arrival=now - 60, size=900),
    ])


def test_rows_are_short(visit, paper):
    """Newest first, two lines each however long the answer is; addresses do not break inside words."""
    browser = visit.browser
    mixed(paper)
    visit.on_paper("queue")
    visit.rows_are(ids(5, 4, 3, 2, 1))
    expect(browser.text("#shown") == "5 messages", "the head says", browser.text("#shown"))
    expect(browser.run(CELLS, visit.row(ids(2)[0])) == ["null sender | cat@near.example and 1 more",
                                                        "No answer from the mail server of the other side. | 4.4.1 timed out",
                                                        "deferred", "5 h", "90.0 kB"], "a row has", browser.run(CELLS, visit.row(ids(2)[0])))
    expect(browser.run(CELLS, visit.row(ids(4)[0]))[1:] == ["look at it", "on hold", "10 min", "2.0 MB"], "one on hold has",
           browser.run(CELLS, visit.row(ids(4)[0])))
    for width, most in ((1280, 48), (360, 76)):
        browser.size(width)
        expect(max(browser.run(HEIGHTS)) <= most, "rows at", width, "are", browser.run(HEIGHTS), "high")
        first = browser.run("document.querySelector('tr.message').getBoundingClientRect().top")
        expect(first <= 300, "the first message is at", first, "of", width)
        visit.picture(f"queue-{width}")


def test_order_and_filters(visit, paper):
    """Each order and each filter; together they narrow, and one press brings all back."""
    browser = visit.browser
    mixed(paper)
    visit.on_paper("queue")
    for order, wanted in (("oldest", ids(1, 2, 3, 4, 5)), ("largest", ids(4, 2, 5, 1, 3)), ("sender", ids(2, 1, 5, 4, 3)),
                          ("recipient", ids(5, 1, 2, 3, 4)), ("newest", ids(5, 4, 3, 2, 1))):
        browser.choose("#order", order)
        visit.rows_are(wanted)
    for field, value, wanted in (("state", "deferred", ids(2, 1)), ("state", "hold", ids(4)), ("state", "waiting", ids(5, 3)),
                                 ("domain", "far.example", ids(5, 2, 1)), ("age", "0", ids(5, 4)), ("age", "1", ids(3))):
        browser.choose(f"#only-{field}", value)
        visit.rows_are(wanted)
        visit.says("#shown", f"{len(wanted)} of 5 messages")
        browser.click("#filter-none")
        visit.rows_are(ids(5, 4, 3, 2, 1))
    browser.choose("#only-state", "deferred")
    browser.choose("#only-domain", "near.example")
    visit.rows_are(ids(2))
    browser.choose("#only-age", "0")
    visit.says("#empty", "Nothing matches.")


def test_search(visit, paper):
    """By each text of a message, while one types; the desk is asked for what came in since."""
    browser = visit.browser
    mixed(paper)
    visit.on_paper("queue")
    for words, wanted in (("BOB@FAR", ids(5, 1)), ("timed out", ids(2)), ("look at", ids(4)), ("0000003", ids(3)),
                          ("max@", ids(4)),
                          ("4.2.0", ids(1)), ("nobody", [])):
        browser.write("#search", words)
        visit.rows_are(wanted)
    paper.messages[ids(9)[0]], paper.text = message(9, pending=[("new@late.example", "", "")]), None
    paper.slow["/v1/find"] = 1
    browser.write("#search", "late.example")
    visit.says("#shown", "0 of 5 messages, searching …")
    visit.rows_are(ids(9))
    visit.says("#shown", "1 of 6 messages")
    asked = [body for _, path, body in paper.asked if path == "/v1/find"]
    expect({"class": "recipient", "pattern": "late.example", "after": ids(5)[0]} in asked, "asked was", asked)


def test_addresses(visit, paper):
    """Filters, order and the open message stand in the address: a reload keeps them, and Back closes the message first."""
    browser = visit.browser
    mixed(paper)
    visit.on_paper("queue")
    browser.choose("#order", "oldest")
    browser.choose("#only-domain", "far.example")
    browser.write("#search", "a.example")
    visit.rows_are(ids(1))
    visit.open(ids(1)[0])
    browser.refresh()
    visit.settled()
    visit.rows_are(ids(1))
    browser.until(lambda: "Spool name" in (browser.text("#detail-facts") or ""), "the message is not open behind a reload")
    kept = [browser.run(f"document.querySelector('#{it}').value") for it in ("order", "only-domain", "search")]
    expect(kept == ["oldest", "far.example", "a.example"], "behind a reload there is", kept)
    expect(browser.run("document.title") == "Queue \u2013 Outgoing mail", "the title is", browser.run("document.title"))
    browser.run("history.back()")
    browser.until(lambda: not browser.run("document.querySelector('#detail').checkVisibility()"), "Back leaves the message open")
    visit.rows_are(ids(1))
    browser.run("history.back()")
    browser.until(lambda: browser.run("document.title") == "Overview \u2013 Outgoing mail", "Back leads to",
                  browser.run("location.hash"))
    browser.run("history.forward()")
    visit.rows_are(ids(1))
    browser.go(f"{visit.paper_page}#queue?state=hold")
    visit.rows_are(ids(4))
    browser.go(f"{visit.paper_page}#queue?state=none&age=99&order=none&message=0")
    visit.rows_are(ids(5, 4, 3, 2, 1))


def test_marked_ones(visit, paper):
    """Buttons come with marks; what was done is told as one sum; what is not seen is not marked."""
    browser = visit.browser
    mixed(paper)
    visit.on_paper("queue")
    expect(not browser.run("document.querySelector('#marked-tools').checkVisibility()"), "actions are shown without a mark")
    del paper.messages[ids(1)[0]]
    visit.do("hold", *ids(5, 4, 1))
    browser.tells("1 held, 1 was on hold already, 1 had left the queue.")
    visit.settled()
    visit.rows_are(ids(5, 4, 3, 2))
    expect([it["state"] for it in paper.messages.values()] == ["deferred", "incoming", "hold", "hold"], "the desk has",
           paper.messages)
    expect(browser.text("#marked") == "2 marked", "marked are", browser.text("#marked"))
    browser.click("[data-marked=release]")
    browser.tells("2 released.")
    visit.settled()
    browser.click("[data-marked=requeue]")
    browser.tells("2 are tried now.")
    visit.rows_are(ids(7, 6, 3, 2))
    browser.click("#mark-all")
    expect(browser.text("#marked") == "4 marked", "marked are", browser.text("#marked"))
    browser.write("#search", "zoe@")
    visit.says("#marked", "1 marked")
    browser.click("#mark-none")
    expect(not browser.run("document.querySelector('#marked-tools').checkVisibility()"), "the marks stay")


def test_an_old_answer_undoes_nothing(visit, paper):
    """A refresh that was under way when something was done does not bring back what was before."""
    browser = visit.browser
    mixed(paper)
    visit.on_paper("queue")
    visit.mark(*ids(5))
    paper.slow["/v1/report"] = 1
    asked = len(paper.asked)
    browser.click("#refresh")
    browser.until(lambda: ("GET", "/v1/report", None) in paper.asked[asked:], "nothing is asked")
    browser.click("[data-marked=hold]")
    browser.tells(f"{ids(5)[0]} is held.")
    visit.settled()
    expect(browser.run(CELLS, visit.row(ids(5)[0]))[2] == "on hold", "it is shown as", browser.run(CELLS, visit.row(ids(5)[0])))


def test_a_deletion_can_be_undone(visit, paper):
    """The question names the message; then nothing is asked of the desk for some seconds."""
    browser = visit.browser
    mixed(paper)
    visit.on_paper("queue")
    visit.do("delete", *ids(4))
    browser.one("#question")
    facts = browser.texts("#question-facts dd")
    expect(facts == ["max@b.example", "fay@else.example", "2.0 MB", ids(4)[0]], "the question names", facts)
    expect(browser.run(FOCUSED) == "question-no", "the focus is not at Cancel")
    red = browser.run("getComputedStyle(document.querySelector('#question-yes')).backgroundColor")
    expect(red == "rgb(163, 22, 33)", "the button that deletes is", red)
    visit.picture("question")
    browser.keys(ESCAPE)
    visit.settled()
    browser.click("[data-marked=delete]")
    visit.answer(True, "Delete this message?")
    browser.one("#undo")
    expect(browser.run(FOCUSED) == "undo" and browser.count("tr.leaving") == 1, "Undo is not offered")
    visit.picture("undo")
    # (what is told meanwhile, and another tab, leave it in reach)
    browser.click("#all-menu summary")
    browser.click("[data-all=hold]")
    browser.tells("Wait until what was begun is done.")
    visit.turn_to("usage")
    browser.one("#undo")
    visit.turn_to("queue")
    browser.run("document.querySelector('#undo').focus()")
    browser.keys(ENTER)
    browser.tells("Nothing was deleted.")
    visit.settled()
    expect(not [it for it in paper.asked if it[0] == "DELETE"] and browser.count("tr.leaving") == 0,
           "it was deleted nevertheless")


def test_a_deletion_waits(visit, paper):
    """For some seconds, and is then done without more."""
    browser = visit.browser
    mixed(paper)
    visit.on_paper("queue")
    visit.do("delete", *ids(4))
    visit.answer(True)
    begun = time.monotonic()
    browser.tells(f"{ids(4)[0]} is deleted.")
    expect(6 < time.monotonic() - begun < 20, "it was deleted after", time.monotonic() - begun)
    expect([path for method, path, _ in paper.asked if method == "DELETE"] == [f"/v1/message/{ids(4)[0]}"], "asked was",
           paper.asked)
    visit.rows_are(ids(5, 3, 2, 1))


def test_a_closed_page_deletes_nothing(visit, paper):
    """Who leaves while a deletion waits has deleted nothing."""
    browser = visit.browser
    mixed(paper)
    visit.on_paper("queue")
    visit.do("delete", *ids(4, 5))
    visit.answer(True, "Delete 2 messages?")
    browser.one("#undo")
    browser.refresh()
    visit.settled()
    expect(len(paper.messages) == 5 and len(visit.rows()) == 5, "left are", [*paper.messages])


def test_all_of_them(visit):
    """From a menu, by a question with their number; of an empty queue nothing is asked."""
    browser, desk = visit.browser, visit.desk
    made = [desk.submit("acme", f"s{it}@a.example", "bob@far.example") for it in range(3)]
    desk.ask("POST", f"/v1/hold/{made[0]}", ACME)
    visit.use(ACME)
    visit.turn_to("queue")
    for name, told, states in (("hold", "2 held.", dict.fromkeys(made, "hold")),
                               ("release", "3 released.", dict.fromkeys(made, "deferred")),
                               ("delete", "3 deleted.", {})):
        for yes in (False, True):
            browser.click("#all-menu summary")
            browser.click(f"[data-all={name}]")
            visit.answer(yes, f"{name.capitalize()} all 3 messages?")
            if yes and name != "hold":
                visit.answer(yes, f"{name.capitalize()} also what came in meanwhile?")
            if yes and name == "delete":
                visit.delete_now()
            if yes:
                browser.tells(told)
            visit.settled()
        expect(desk.states(ACME) == states, "the desk has", desk.states(ACME))
    # (what cannot be taken back is asked for once more)
    one = desk.submit("acme", "ann@a.example", "bob@far.example")
    visit.refresh()
    browser.click("#all-menu summary")
    browser.click("[data-all=delete]")
    visit.answer(True, "Delete the 1 message?")
    visit.answer(False, "Delete also what came in meanwhile?")
    visit.settled()
    expect(desk.states(ACME) == {one: "incoming"}, "the desk has", desk.states(ACME))
    desk.empty(ACME)
    browser.click("#all-menu summary")
    browser.click("[data-all=delete]")
    browser.tells("The queue is empty.")
    expect(not browser.run("document.querySelector('#question').open"), "a question is put about nothing")
    browser.click("#all-menu summary")
    browser.click("[data-all=report]")
    browser.one("#report")
    shown = browser.run("document.querySelector('#report-text').textContent")
    expect(shown == desk.ask("GET", "/v1/report", ACME)["report"], "the report is", shown)
    browser.click("#report-close")


def tab_to(browser, wanted):
    """Presses Tab until this has the focus, and shows it."""
    for _ in range(30):
        browser.keys(TAB)
        if browser.run(FOCUSED) == wanted:
            ring = browser.run("getComputedStyle(document.activeElement).outlineStyle")
            expect(ring == "solid", wanted, "does not show that it has the focus, but", ring)
            return
    expect(False, "no Tab comes to", wanted, "but to", browser.run(FOCUSED))


def test_by_keyboard_alone(visit):
    """A key, the tabs, a row, its detail, a hold and a deletion, without a mouse; one stop of Tab for the list."""
    browser, desk = visit.browser, visit.desk
    made = [desk.submit("acme", "ann@a.example", f"r{it}@far.example") for it in range(4)]
    browser.go(visit.page)
    browser.one("#key-form")
    browser.keys(*ACME, ENTER)
    visit.settled()

    browser.until(lambda: browser.run("document.activeElement.id") == "tab-overview", "the focus is on", browser.run(FOCUSED))
    browser.keys("\ue014", "\ue014")
    visit.rows_are(reversed(made))
    tab_to(browser, made[3])
    browser.keys("\ue015", "\ue015", " ", "\ue015", " ")
    expect(browser.text("#marked") == "2 marked" and browser.run(FOCUSED) == made[0], "arrows and Space lead to",
           browser.run(FOCUSED))
    browser.keys("\ue013", "\ue013", ENTER)
    browser.until(lambda: browser.run("document.activeElement.id") == "detail-title", "Enter opens nothing")
    tab_to(browser, "detail-close")
    browser.keys(TAB, ENTER)
    browser.tells(f"{made[2]} is held.")
    expect(desk.states(ACME)[made[2]] == "hold", "the desk has", desk.states(ACME))
    visit.settled()
    browser.keys(TAB, TAB, ENTER)
    browser.one("#question")
    browser.keys(TAB, ENTER)
    browser.one("#undo")
    browser.keys(TAB, ENTER)
    browser.tells(f"{made[2]} is deleted.")
    visit.rows_are([made[3], made[1], made[0]])
    browser.until(lambda: browser.run(FOCUSED) == "detail-title", "the focus is lost at", browser.run(FOCUSED))
    browser.keys(ESCAPE)
    browser.until(lambda: browser.run(FOCUSED) in [*made, "search"], "the focus is lost at", browser.run(FOCUSED))
