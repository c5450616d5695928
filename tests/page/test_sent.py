"""Of tests/page: what became of mail: the history, the notices and the usage, with the ways between them."""
import csv
import io
import re

from page_desk import CEDAR
from serving import ACME, BIRCH, expect
from test_rules import KEEPS, KEPT

# Of each part of the bar: its name, where it begins, how wide it is, and how wide it is drawn.
WIDTHS = """[...document.querySelectorAll('#bar rect')].map((it) => [it.classList[1],
  ...['x', 'width'].map((name) => Number(it.getAttribute(name))), it.getBoundingClientRect().width])"""
ENDS = """[...document.querySelectorAll('#ends tbody tr')].filter((it) => !it.hidden).map(
  (it) => [...it.cells].slice(1).map((one) => one.innerText.trim().replace(/\\s*\\n\\s*/, ' | ')))"""


# Texts that are formulas behind something that parts cells in some program, and texts that are none.
FORMULAS = [";=HYPERLINK(1)", "=1", "+1", "-1", "@x", "\t=1", "a;=b", "a\r\n=b", "a\n=b", "a\r=b", "a,=b", "a|-b", "a\t+b", ";;@b",
            " =1", "; =1", ';"=1', '"=1', ",,=,=", "\t\t=1", "a;\uff1d1", "\r", "a;\u00a0=1"]
TEXTS = ["550 5.1.1 no such user <script>alert(1)</script>", "a=b; c+d, e-f", 'said "no"; go away', "1-2"]
SEPARATORS = ",;\t|"
# (a program may take quotes and spaces away)
BEGINS_A_FORMULA = "[\\s\"]*[=+@\uff1d\uff0b\uff20\uff0d-]"


def find(visit, side, pattern):
    visit.browser.choose("#ends-class", side)
    visit.browser.write("#ends-pattern", pattern)
    visit.browser.click("#ends-form [type=submit]")


def saved(visit):
    """Presses for the file, and answers it: it may need more pages than those that are shown."""
    visit.browser.run(KEEPS)
    visit.browser.click("#ends-csv")
    visit.browser.until(lambda: visit.browser.run("window.kept instanceof Blob"), "nothing is saved")
    return visit.browser.run(KEPT)


def test_the_history(visit):
    """Each recipient that left stands there with the last answer, the newest first; a search, a filter,
    a message's own; no markup of strangers; and what is downloaded is no formula."""
    browser, desk = visit.browser, visit.desk
    first = desk.submit("cedar", "ann@a.example", "a@far.example", "b@far.example", "c@near.example")
    desk.report("cedar", first, delivered=["a@far.example"], failed=["b@far.example"])
    second = desk.submit("cedar", "=cmd@a.example", "d@far.example")
    desk.ask("DELETE", f"/v1/message/{second}", CEDAR)
    visit.use(CEDAR)
    visit.turn_to("sent")
    wanted = [["d@far.example | From =cmd@a.example", "deleted", "", second],
              ["b@far.example | From ann@a.example", "failed", "There is no such mailbox. | 5.1.1 no such user <script>alert(1)</script>", first],
              ["a@far.example | From ann@a.example", "delivered", "", first]]
    browser.until(lambda: browser.run(ENDS)[:3] == wanted, "the history shows", browser.run(ENDS)[:3])
    expect("The last 150 are kept." in browser.text("#sent"), "how many are kept is not told")
    visit.picture("sent")
    rows = saved(visit).split("\r\n")
    expect(rows[0] == '"at","id","number","recipient","result","sender","status","text"', "the file begins", rows[0])
    expect('"\'=cmd@a.example"' in rows[1] and f'"{second}"' in rows[1], "the file has", rows[1])
    browser.choose("#ends-result", "failed")
    browser.until(lambda: browser.run(ENDS)[0] == wanted[1], "failed are", browser.run(ENDS))
    browser.choose("#ends-result", "")
    find(visit, "recipient", "b@far.example")
    visit.says("#ends-shown", "1 recipient.")
    browser.click("#ends-all")
    browser.until(lambda: len(browser.run(ENDS)) >= 3, "not all are shown again")
    # a message that is queued opens there, another shows its own history
    browser.click(f"#ends tbody tr:nth-child(1) [aria-label='Open {second}, d@far.example']")
    visit.says("#ends-shown", f"1 recipient of {second}.")
    browser.click("#ends-all")
    browser.until(lambda: len(browser.run(ENDS)) >= 3, "not all are shown again")
    browser.click("#ends tbody tr:nth-child(2) button")
    browser.until(lambda: browser.run("document.querySelector('#detail-ends').children.length") == 2, "the detail has no history")
    expect(browser.texts("#detail-recipients strong") == ["c@near.example"], "waiting are",
           browser.texts("#detail-recipients strong"))
    visit.turn_to("sent")
    find(visit, "recipient", "<>")
    browser.until(lambda: visit.told() and visit.told()[0].endswith("(24 BadPattern)"), "told is", visit.told())


def test_no_formulas(paper, visit):
    """Whatever parts cells in a spreadsheet, no text of strangers is a formula in what is downloaded, and
    no letter of it is lost. Other texts stay as they are."""
    ends = [{"at": 1767225600, "id": f"{number:010X}", "number": number, "recipient": "bob@far.example", "result": "failed",
             "sender": "ann@a.example", "status": "5.0.0", "text": text} for number, text in enumerate((*FORMULAS, *TEXTS), 1)]
    ends[0].update(recipient=f"{FORMULAS[0]}@far.example", sender="=2@a.example", status="+3")
    paper.history = ends
    visit.on_paper("sent")
    told = saved(visit)
    for separator in SEPARATORS:
        cells = [it for row in csv.reader(io.StringIO(told, newline=""), delimiter=separator) for it in row]
        cells += re.split(rf"[\r\n{re.escape(separator)}]", told)
        found = [it for it in cells if re.match(BEGINS_A_FORMULA, it)]
        expect(not found, "of cells that are parted by", repr(separator), "formulas are", found)
    rows = [*csv.DictReader(io.StringIO(told, newline=""))]
    wanted = {name: [str(it[name]) for it in ends] for name in ends[0]}
    found = {name: [it[name].replace("'", "") for it in rows] for name in ends[0]}
    expect(found == wanted, "of the texts is left", found)
    expect([it["text"] for it in rows[len(FORMULAS):]] == TEXTS, "other texts are", rows[len(FORMULAS):])


def test_no_history(visit):
    visit.use(BIRCH)
    visit.turn_to("sent")
    expect("Your provider keeps no history for you." in visit.browser.text("#sent"), "that none is kept is not told")


def test_older_ends(visit):
    """More than a page of the history is asked for by a button, down to the oldest that is kept."""
    browser, desk = visit.browser, visit.desk
    for it in range(2):
        desk.submit("cedar", "ann@a.example", *(f"r{100 * it + at}@far.example" for at in range(80 + 20 * (1 - it))))
    desk.empty(CEDAR)
    visit.use(CEDAR)
    visit.turn_to("sent")
    browser.until(lambda: re.fullmatch(r"100 recipients, back to .+, more below\.", browser.text("#ends-shown") or ""),
                  "the head says", browser.text("#ends-shown"))
    browser.click("#ends-more")
    visit.says("#ends-shown", "150 recipients.")
    shown = browser.run("[...document.querySelectorAll('#ends .strong')].map((it) => it.textContent)")
    expect(shown == [f"r{it}@far.example" for it in reversed(range(30, 180))], "shown are", shown)


def test_a_search_goes_on(visit, paper):
    """Pages are asked for until a hundred are found, or the history ends: of a result, of one message, and for a file."""
    browser = visit.browser
    paper.history = [{"at": 1767225600 + number, "id": f"{number:010X}", "number": number, "recipient": f"r{number}@far.example",
                      "result": "failed" if number % 10 == 0 else "delivered", "sender": "ann@a.example", "status": "", "text": ""}
                     for number in range(1500, 0, -1)]
    visit.on_paper("sent")
    browser.until(lambda: (browser.text("#ends-shown") or "").startswith("100 recipients, back to"), "the head says",
                  browser.text("#ends-shown"))
    browser.choose("#ends-result", "failed")
    browser.until(lambda: (browser.text("#ends-shown") or "").startswith("100 recipients, back to"), "the head says",
                  browser.text("#ends-shown"))
    shown = browser.run("[...document.querySelectorAll('#ends .strong')].map((it) => it.textContent)")
    expect(shown == [f"r{it}@far.example" for it in range(1500, 500, -10)], "shown are", shown)
    browser.click("#ends-more")
    visit.says("#ends-shown", "150 recipients.")
    browser.choose("#ends-result", "")
    browser.until(lambda: (browser.text("#ends-shown") or "").startswith("100 recipients, back to"), "the head says",
                  browser.text("#ends-shown"))
    rows = [*csv.DictReader(io.StringIO(saved(visit), newline=""))]
    browser.tells("1,500 recipients are saved.")
    expect([it["number"] for it in rows] == [str(it) for it in range(1500, 0, -1)], "saved are", len(rows))


def test_notices_and_their_ways(visit):
    """The newest first, both texts of one as they are, and the way to its message or its history."""
    browser, desk = visit.browser, visit.desk
    for number in range(12):
        one = desk.submit("cedar", f"ann{number}@a.example", "bob@far.example", *(["cat@far.example"] if number == 11 else []))
        desk.report("cedar", one, failed=["bob@far.example"])
    visit.use(CEDAR)
    visit.turn_to("notices")
    listed = desk.ask("GET", "/v1/notices", CEDAR)["notices"]
    expect(len(listed) == 10, "the desk has", listed)
    script = "[...document.querySelectorAll('#notice-list tbody tr')].map((it) => [it.cells[4].innerText, it.cells[3].innerText])"
    expect(browser.run(script) == [[it["id"], it["to"]] for it in reversed(listed)], "shown are", browser.run(script))
    browser.click("#notice-list tbody tr:nth-child(2) button")
    browser.one("#notice")
    whole = desk.ask("GET", f"/v1/notice/{listed[-2]['number']}", CEDAR)
    for part in ("human", "status", "subject", "to"):
        found = browser.run("document.querySelector(arguments[0]).textContent", f"#notice-{part}")
        expect(found == whole[part], part, "is shown as", found)
    expect("<script>alert(1)</script>" in whole["human"], "the notice is", whole)
    expect(browser.run("document.activeElement.id") == "notice", "the focus is not at what opened")
    visit.picture("notices")
    browser.click("#notice-ways button")
    browser.until(lambda: browser.run("[...document.querySelectorAll('#found tbody tr')].map((it) => it.dataset.id)") == [listed[-2]["id"]],
                  "no way leads to what became of it")
    visit.turn_to("notices")
    browser.click("#notice-list tbody tr:nth-child(1) button")
    browser.until(lambda: f"Open message {listed[-1]['id']}" in browser.texts("#notice-ways button"),
                  "no way leads to the message")
    browser.click("#notice-ways button")
    visit.says("#detail-title", "ann11@a.example")
    browser.click("#detail-notices")
    browser.until(lambda: browser.text("#notice-to") == "ann11@a.example", "no way leads from a message to its notice")
    desk.report("cedar", desk.submit("cedar", "ann@a.example", "bob@far.example"), failed=["bob@far.example"])
    visit.turn_to("notices")
    desk.report("cedar", desk.submit("cedar", "ann@a.example", "bob@far.example"), failed=["bob@far.example"])
    browser.click("#notice-list tbody tr:last-child button")
    browser.tells("No such notice any more. The oldest go when there are too many. (12 NoNotice)")


def test_notices_are_found(visit, paper):
    """By kind, and by the address that was told or the ID of the message: failures stand among many that are late."""
    browser = visit.browser
    paper.notices = {it: {"at": 1767225600 + it, "id": f"{it:010X}", "kind": "failure" if it in (7, 40) else "delay", "number": it,
                          "to": f"a{it}@a.example", "human": "x", "status": "y", "subject": "z"} for it in range(1, 61)}
    visit.on_paper("notices")
    visit.says("#notices-shown", "60 notices")
    seen = "[...document.querySelectorAll('#notice-list tbody tr')].filter((it) => !it.hidden).map((it) => Number(it.dataset.number))"
    browser.choose("#notices-kind", "failure")
    visit.says("#notices-shown", "2 of 60 notices")
    expect(browser.run(seen) == [40, 7], "failures are", browser.run(seen))
    browser.write("#notices-search", "A7@a")
    visit.says("#notices-shown", "1 of 60 notices")
    expect(browser.run(seen) == [7], "found are", browser.run(seen))
    visit.picture("notices-found")
    browser.choose("#notices-kind", "")
    browser.write("#notices-search", f"{12:010X}")
    visit.says("#notices-shown", "1 of 60 notices")
    expect(browser.run(seen) == [12], "found are", browser.run(seen))
    browser.write("#notices-search", "nobody")
    visit.says("#notices-none", "Nothing matches.")


def test_the_usage_adds_up(visit):
    """The parts of the bar are as wide as their counts, and end where it ends."""
    browser, desk = visit.browser, visit.desk
    ids = [desk.submit("acme", "ann@a.example", *(f"r{it}@far.example" for it in range(7)), size=1000) for _ in range(3)]
    desk.report("acme", ids[0], delivered=["r0@far.example", "r1@far.example"], failed=["r2@far.example"],
                deferred=["r3@far.example"])
    desk.ask("DELETE", f"/v1/message/{ids[1]}", ACME)
    visit.use(ACME)
    visit.turn_to("usage")
    usage = desk.ask("GET", "/v1/usage", ACME)
    parts = ["pending", "delivered", "failed", "deleted", "expired"]
    cells = dict(browser.rows("#counts", 0, 1))
    expect(cells == {it: f"{usage[it]:,}" for it in [*parts, "accepted"]}, "shown are", cells, "of", usage)
    end = 0
    for name, begin, width, seen in browser.run(WIDTHS):
        expect(abs(begin - end) < 1e-6 and abs(width - 1000 * usage[name] / usage["accepted"]) < 1e-6, "the bar is",
               browser.run(WIDTHS))
        expect((seen > 0) == (usage[name] > 0), name, "is drawn", seen, "wide")
        end += width
    expect(abs(end - 1000) < 1e-6, "the bar ends at", end)
    label = browser.run("document.querySelector('#bar svg').getAttribute('aria-label')")
    expect(label == f"{usage['accepted']:,} accepted: " + ", ".join(f"{it}: {usage[it]:,}" for it in parts),
           "the bar is told as", label)
    expect(browser.texts("#usage-amounts .amount") == ["2 of 1,000", "2.0 kB of 500.0 MB", f"{usage['lines']} of 1,000"],
           "the amounts are",
           browser.texts("#usage-amounts .amount"))
    expect(browser.texts("#kept dd") == ["1,000 recipients", "100 notices", "after 4 h"], "what is kept is",
           browser.texts("#kept dd"))
    visit.picture("usage")
