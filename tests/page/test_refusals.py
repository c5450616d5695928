"""Of tests/page: each refusal and fault in its words, and hostile texts."""
import re

from browser import ENTER
from page_desk import ROOT
from paper import lines_of, message
from serving import expect
from visit import TOO_LONG, TOO_WIDE

ONE = "0000000001"
HOLD = f"/v1/hold/{ONE}"
UNKNOWN = "Nobody knows whether it was done: refresh and look."
READS = "This key may only read: nothing was changed. (3 WrongRole)"
DISK = "The desk could not use its store. Not done, try again. (91 Disk)"
ROW = re.compile(r"^\| (\d+) \| (\w+) \| (\d+) \|", re.M)
HOSTILE = {
    "script": "<script>document.title='owned'</script>",
    "image": "\"><img src=x onerror=\"document.title='owned'\">",
    "entity": "&lt;b&gt;&amp;",
    "backwards": "a\u202egpj.exe\u2067x",
    "arabic": "\u0645\u0631\u062d\u0628\u0627@\u0645\u062b\u0627\u0644",
    "long": "x" * 64 + "@" + "y" * 900,
}


def test_each_refusal_has_its_words(visit, paper):
    """Every number that docs/API.md gives a status to is answered to a hold; the page tells it in
    words of its own, behind which its number stands for the provider."""
    browser = visit.browser
    rows = ROW.findall((ROOT / "docs/API.md").read_text())
    expect(len(rows) >= 34, "docs/API.md has", len(rows), "refusals")
    visit.on_paper("queue")
    visit.mark(ONE)
    told = {}
    for number, name, status in rows:
        if number in ("2", "10"):
            continue
        paper.told[HOLD] = (int(status), {"error": int(number), "name": name})
        browser.click("[data-marked=hold]")
        end = f" ({number} {name})"
        line = browser.until(lambda: next((it for it in visit.told() if it.endswith(end)), None), number, "is told as",
                             visit.told())
        told[number] = line[:-len(end)]
        visit.settled()
        expect(len(told[number]) > 20 and "The desk refused this" not in line, number, "has no words, but", line)
        expect(("Not done, try again." in line) == (number in ("90", "91")), number, "is told as", line)
    expect("until your provider starts it again" in told["93"] and "The queue is full" in told["40"], "told are", told)
    for status, body, words in ((418, {"error": 77, "name": "LaterRelease"}, "The desk refused this. (77 LaterRelease)"),
                                (502, "<h1>Fault</h1>", f"The desk does not answer. {UNKNOWN}"),
                                (504, "<h1>Fault</h1>", f"The desk takes too long to answer. {UNKNOWN}"),
                                (413, "<h1>Fault</h1>", TOO_LONG), (503, "<h1>Fault</h1>", "Not done, try again."),
                                (403, "<h1>Fault</h1>", f"This is no reply of the desk, but the status 403. {UNKNOWN}"),
                                (200, "<h1>Fault</h1>", f"No reply came. {UNKNOWN}")):
        paper.told[HOLD] = (status, body)
        browser.click("[data-marked=hold]")
        browser.tells(words)
        visit.settled()
    # an old refusal does not stay beside a later success
    del paper.told[HOLD]
    browser.click("[data-marked=hold]")
    browser.tells(f"{ONE} is held.")
    expect(visit.told() == [f"{ONE} is held."], "told is", visit.told())


def test_a_proxy_that_asks_for_patience(visit, paper):
    """What was refused as too often is asked once more, and told where it stays so."""
    browser = visit.browser
    visit.on_paper("queue")
    visit.mark(ONE)
    paper.told[HOLD] = (429, "<h1>Too often</h1>")
    browser.click("[data-marked=hold]")
    browser.until(lambda: len([it for it in paper.asked if it[1] == HOLD]) > 1, "it is not asked again")
    del paper.told[HOLD]
    browser.tells(f"{ONE} is held.")


def test_a_fault_amid_marked_ones(visit, paper):
    """The sum tells what was done before a fault, and how many were not asked for behind it."""
    browser = visit.browser
    some = [message(it) for it in range(1, 41)]
    paper.queue(some)
    for it in some[7:]:
        paper.told[f"/v1/hold/{it['id']}"] = (503, {"error": 91, "name": "Disk"})
    visit.on_paper("queue")
    browser.choose("#order", "oldest")
    browser.click("#mark-all")
    browser.click("[data-marked=hold]")
    browser.until(lambda: any("were not asked for" in it for it in visit.told()), "told is", visit.told())
    held = sum(it["state"] == "hold" for it in paper.messages.values())
    told = visit.told()
    faults = int(told[1].split()[0])
    expect(told == [f"{held} held.", f"{faults} not done: {DISK}", f"{40 - held - faults} were not asked for."] and held == 7
           and 1 <= faults <= 4, "told is", told, "and held are", held)


def test_a_key_that_may_only_read(visit, paper):
    """Each act tells so in plain words, and of many marked ones no more are asked for behind the first refusals."""
    browser = visit.browser
    paper.queue([message(it) for it in range(1, 41)])
    acts = [f"/v1/hold/{it}" for it in paper.messages] + ["/v1/hold-all", "/v1/line-put"]
    paper.told.update((it, (403, {"error": 3, "name": "WrongRole"})) for it in acts)
    visit.on_paper("queue")
    browser.click("#mark-all")
    browser.click("[data-marked=hold]")
    browser.until(lambda: any("were not asked for" in it for it in visit.told()), "told is", visit.told())
    visit.settled()
    held = [it for it in paper.asked if it[1].startswith("/v1/hold/")]
    expect(1 <= len(held) <= 4, "asked was", len(held), "times")
    expect(visit.told() == [f"{len(held)} not done: {READS}", f"{40 - len(held)} were not asked for."], "told is", visit.told())
    browser.click("#all-menu summary")
    browser.click("[data-all=hold]")
    visit.answer(True)
    browser.until(lambda: visit.told() == [READS], "told is", visit.told())
    visit.turn_to("rules")
    browser.click("#rules-new")
    browser.write("#put-pattern", "far.example")
    browser.keys(ENTER)
    visit.says("#put-fault", READS)


def test_faults_of_each_view(visit, paper):
    """A fault is told wherever it comes, and what was shown stays."""
    browser = visit.browser
    visit.on_paper()
    for view, path in (("rules", "/v1/lines"), ("sent", "/v1/history"), ("notices", "/v1/notices")):
        paper.told[path] = (503, {"error": 91, "name": "Disk"})
        browser.click(f"#tab-{view}")
        browser.tells(DISK)
    visit.turn_to("queue")
    paper.told[f"/v1/message/{ONE}"] = (503, {"error": 91, "name": "Disk"})
    browser.click(f"{visit.row(ONE)} .people")
    browser.tells(DISK)
    paper.told["/v1/report"] = (503, {"error": 91, "name": "Disk"})
    browser.click("#refresh")
    browser.until(lambda: "does not answer" in (browser.text("#away") or ""), "the head says", browser.text("#away"))
    expect(visit.rows() == [ONE], "what was shown is gone")
    visit.picture("fault")


def test_one_thing_at_a_time(visit, paper):
    """While marked messages are gone through, nothing else is begun."""
    browser = visit.browser
    paper.slow[HOLD] = 1
    visit.on_paper("queue")
    visit.do("hold", ONE)
    browser.click("[data-marked=release]")
    browser.tells("Wait until what was begun is done.")
    browser.tells(f"{ONE} is held.")
    visit.settled()
    expect(paper.messages[ONE]["state"] == "hold", "it was released meanwhile")


def hostile(paper):
    """A desk of which every text is hostile."""
    texts, both = [*HOSTILE.values()], " ".join(HOSTILE.values())
    paper.queue([message(at, text, [(text, "4.0.0", text)], state="hold", reason=text, spool=text) for at,
                 text in enumerate(texts, 1)])
    paper.queue([*paper.messages.values(), message(9, "ann@a.example", [("bob@far.example", "4.0.0", both)])])
    paper.lines = [{"class": "sender", "pattern": it, "action": f"REJECT {it}"} for it in texts]
    paper.told["/v1/check"] = (200, {"action": both, "keys": texts, "pattern": HOSTILE["script"]})
    paper.history = [{"at": 0, "id": ONE, "number": 1, "recipient": it, "result": "failed", "sender": it, "status": "5.0.0",
                      "text": it}
                     for it in texts]
    paper.notices = {1: {"at": 0, "id": ONE, "kind": "failure", "number": 1, "to": both, "human": both, "status": both,
                         "subject": both}}
    paper.customer = "acme"
    return texts


# The texts of the page that hold a mark of direction outside of what keeps it apart.
SPILT = """(() => {
  const walk = document.createTreeWalker(document.body, NodeFilter.SHOW_TEXT);
  const spilt = [];
  while (walk.nextNode()) {
    const { data, parentElement } = walk.currentNode;
    const turns = /[\\u202e\\u2067\\u0645]/.test(data);
    if (turns && !parentElement.closest('bdi, pre, h2, option')) spilt.push(data.slice(0, 80));
  }
  return spilt;
})()"""
TEXTS = "[...document.querySelectorAll(arguments[0])].map((it) => it.textContent)"
# The title, and how many elements there are that only a text could have made.
MADE = """[document.title,
  document.querySelectorAll(':is(main, dialog) :is(img, script, b)').length]"""


def test_hostile_texts_are_text(visit, paper):
    """They are shown as they are, kept apart, and break no width."""
    browser = visit.browser
    texts = hostile(paper)
    expect(len([*lines_of(paper.messages[ONE])]) == 4, "the report has", [*lines_of(paper.messages[ONE])])
    visit.on_paper()
    for width in (1280, 360):
        browser.size(width)
        for view in ("overview", "find", "sent", "rules", "notices", "queue"):
            visit.turn_to(view)
            if view == "find":
                browser.click("#find-form [type=submit]")
                browser.one("#found")
            if view == "rules":
                browser.click("#check-form [type=submit]")
                browser.one("#checked ol")
                shown = browser.texts("#lines .pattern bdi")
                expect(shown == texts, "the rules are", shown)
            if view == "notices":
                browser.click("#notice-list tbody button")
                browser.one("#notice")
            if view == "queue":
                for at, text in enumerate(texts, 1):
                    queue_id = f"{at:010X}"
                    visit.open(queue_id)
                    row = browser.run(TEXTS, f"{visit.row(queue_id)} bdi")
                    detail = browser.run(TEXTS, "#detail-recipients bdi")
                    expect(row == [text, text, text] and detail == [text, f"4.0.0 {text}"], "a text is shown as", row, detail)
                    browser.click("#detail-close")
            visit.picture(f"hostile-{view}-{width}")
            expect(browser.run(TOO_WIDE) <= 0, view, "is too wide at", width, "by", browser.run(TOO_WIDE))
            expect(browser.run(SPILT) == [], "not kept apart are", browser.run(SPILT), "in", view)
    visit.do("delete", ONE)
    browser.one("#question")
    buttons = browser.run("[innerHeight, document.querySelector('#question-yes').getBoundingClientRect().bottom]")
    expect(buttons[1] <= buttons[0], "the buttons of a question are below the window", buttons)
    expect(browser.run(TOO_WIDE) <= 0, "a question is too wide")
    visit.answer(False)
    expect(browser.run(MADE) == ["Queue \u2013 Outgoing mail", 0], "a text became markup:", browser.run(MADE))
