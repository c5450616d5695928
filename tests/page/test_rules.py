"""Of tests/page: rules: found, set, changed, dropped, told ahead, taken from a file and saved to one."""
from browser import ENTER, ESCAPE
from page_desk import CEDAR
from paper import message
from serving import ACME, expect
from visit import TOO_LONG, TOO_WIDE

HEAD = "class,pattern,action\n"
# Has what is downloaded kept in the page, and answers its text.
KEEPS = "void (URL.createObjectURL = (it) => { window.kept = it; return '#'; })"
KEPT = "window.kept.text()"
# What is in a file, what the import of it tells, and the row of the first fault as it is shown.
FILES = [
    ("jan", HEAD + "sender,far.example,REJECT\nrecipient,.far.example,HOLD look at it\n", "2 added, 0 changed, 0 there already."),
    ("feb", HEAD + "\r\nsender,x.example,\"REJECT no\n thanks\"\n\nsender,y.example,OK\n", "1 fault is in the file."),
    ("feb", HEAD + "sender,a.example,HOLD\r\nsender,A.Example,OK\r\nsender,b.example,BOUNCE\r\n", "2 faults are in the file."),
    ("feb", "pattern,class,action\nsender,a.example,HOLD\n", "It is the header, or the whole file."),
    ("feb", HEAD + "".join(f"sender,d{it}.example,OK\n" for it in range(1001)),
     "The file has 1,001 rows. At most 1,000 go in one file: split it."),
    ("jan", HEAD, "Another file was imported under this label. Take another label. (52 LabelUsed)"),
    ("mar", HEAD + "".join(f"sender,l{it}.example,REJECT {'x' * 900}\n" for it in range(300)), TOO_LONG),
    ("two words", HEAD, "This is no label. A label is 1 to 64 letters, digits, dots, - and _. (27 BadLabel)"),
    ("feb", HEAD + "sender,a.example,HOLD\nsender,far.example,REJECT\nsender,new.example,OK\n", "2 added, 0 changed, 1 there already."),
]


def shown(visit):
    """The rules as the page shows them."""
    script = """[...document.querySelectorAll('#lines tbody tr')].filter((it) => !it.hidden).map(
      (it) => ['side', 'pattern', 'action', 'words'].map((name) => it.querySelector('.' + name).innerText.trim()))"""
    return visit.browser.run(script)


def shows(visit, wanted):
    visit.browser.until(lambda: shown(visit) == wanted, "shown are", shown(visit), "and not", wanted)


def fill(visit, side, pattern, action, text):
    """Fills the dialog of a rule, and sends it."""
    visit.browser.choose("#put-class", side)
    visit.browser.write("#put-pattern", pattern)
    visit.browser.choose("#put-action", action)
    visit.browser.write("#put-text", text)
    visit.browser.click("#put-form [type=submit]")


def choose(visit, row, does):
    """Presses what stands in the menu of a rule."""
    visit.browser.click(f"#lines tbody tr:nth-child({row}) summary")
    visit.browser.click(f"#lines tbody tr:nth-child({row}) [data-rule={does}]")


def no_rules(visit, key):
    """Drops all rules of a customer by the desk."""
    for line in visit.desk.ask("GET", "/v1/lines", key)["lines"]:
        visit.desk.ask("POST", "/v1/line-drop", key, {"class": line["class"], "pattern": line["pattern"]})


def test_rules_are_set_changed_and_dropped(visit):
    """What the page tells and shows is what the desk has."""
    browser = visit.browser
    no_rules(visit, ACME)
    visit.use(ACME)
    visit.turn_to("rules")
    visit.says("#rules-none", "There is no rule: all mail is taken.")
    for asked, told in ((("sender", "A.Example", "REJECT", "go away"), "set"),
                        (("sender", "a.example", "REJECT", "go away"), "was so already"),
                        (("recipient", "ann@", "REDIRECT", "bob@b.example"), "set"), (("sender", "<>", "OK", ""), "set")):
        browser.click("#rules-new")
        fill(visit, *asked)
        mail = {"sender": "from", "recipient": "to"}[asked[0]]
        is_told = "is set" if told == "set" else told
        browser.tells(f"The rule for mail {mail} {asked[1]} {is_told}.")
    wanted = [["to", "ann@", "REDIRECT", "bob@b.example"], ["from", "<>", "OK", ""], ["from", "a.example", "REJECT", "go away"]]
    shows(visit, wanted)
    browser.write("#rules-search", "redirect")
    shows(visit, wanted[:1])
    expect(browser.text("#lines-shown") == "1 of 3 rules", "the head says", browser.text("#lines-shown"))
    browser.write("#rules-search", " ")
    choose(visit, 3, "edit")
    expect(browser.run("document.querySelector('#put-text').value") == "go away", "a rule is not filled in")
    fill(visit, "sender", "b.example", "HOLD", "look")
    browser.tells("The rule for mail from b.example is set.")
    shows(visit, [*wanted[:2], ["from", "b.example", "HOLD", "look"]])
    for yes in (False, True):
        choose(visit, 3, "drop")
        visit.answer(yes, "Drop this rule?")
    browser.tells("The rule for mail from b.example is dropped.")
    shows(visit, wanted[:2])
    visit.picture("rules")
    kept = visit.desk.ask("GET", "/v1/lines", ACME)["lines"]
    expect([it["pattern"] for it in kept] == ["ann@", "<>"], "the desk has", kept)


def test_what_matches_nobody(visit, paper):
    """A pattern with a star is warned of, and the one that was meant is offered; what a rule is for is told ahead."""
    browser = visit.browser
    paper.queue([message(it, f"bot{it}@spam.example") for it in range(1, 131)])
    paper.history = [{"at": 0, "id": "0000000001", "number": 1, "recipient": "bob@far.example", "result": "delivered",
                      "sender": "old@spam.example", "status": "2.0.0", "text": ""}]
    paper.told["/v1/check"] = (200, {"action": "OK", "keys": [], "pattern": ".example"})
    visit.on_paper("rules")
    browser.click("#rules-new")
    for typed, meant in (("*@spam.example", "spam.example"), ("@spam.example", "spam.example"),
                         ("*.spam.example", ".spam.example"),
                         ("<ann@a.example>", "ann@a.example"), ("ann@*", "ann@")):
        browser.write("#put-pattern", typed)
        browser.until(lambda: browser.text("#put-warning") == f"This pattern matches nobody. Take {meant}", typed, "is told",
                      browser.text("#put-warning"))
        browser.click("#put-warning button")
        expect(browser.run("document.querySelector('#put-pattern').value") == meant, "not taken is", meant)
        expect(browser.text("#put-warning") == "", "a good pattern is warned of", browser.text("#put-warning"))
    browser.write("#put-pattern", "spam*.example")
    browser.until(lambda: "a star stands for nothing" in browser.text("#put-warning"), "a star is not warned of")
    browser.write("#put-pattern", "spam.example")
    browser.click("#put-check")
    visit.says("#put-stops p", "100+ messages of the queue, and 1 of the newest recipients that left it. A rule judges what comes "
               "in: it stops no message of the queue.")
    wanted = [f"bot{it}@spam.example (now OK, by .example)" for it in range(1, 6)]
    expect(browser.texts("#put-stops li") == wanted, "some are", browser.texts("#put-stops li"))
    browser.choose("#put-class", "recipient")
    browser.write("#put-pattern", ".EXAMPLE")
    browser.click("#put-check")
    browser.until(lambda: browser.texts("#put-stops li") == ["bob@far.example (now OK, by .example)"], "some are",
                  browser.texts("#put-stops li"))
    visit.picture("rule-warned")
    expect(not [it for it in paper.asked if it[1] == "/v1/line-put"], "a rule was set")
    browser.keys(ESCAPE)


def test_no_rule_is_lost(visit):
    """A pattern that has a rule is asked for, with both actions; of an edit whose second part fails it is told what is there."""
    browser, desk = visit.browser, visit.desk
    no_rules(visit, ACME)
    for pattern, action in (("a.example", "OK"), ("b.example", "HOLD look")):
        desk.ask("POST", "/v1/line-put", ACME, {"class": "sender", "pattern": pattern, "action": action})
    visit.use(ACME)
    visit.turn_to("rules")
    for yes, wanted in ((False, "HOLD look"), (True, "REJECT no")):
        browser.click("#rules-new")
        fill(visit, "sender", "B.example", "REJECT", "no")
        browser.one("#question")
        expect(browser.texts("#question-facts dd") == ["HOLD look", "REJECT no"], "shown are", browser.texts("#question-facts dd"))
        visit.answer(yes, "Replace the rule for mail from B.example?")
        browser.until(lambda: {it["pattern"]: it["action"] for it in desk.ask("GET", "/v1/lines", ACME)["lines"]}["b.example"] == wanted,
                      "the desk has", desk.ask("GET", "/v1/lines", ACME))
        if not yes:
            browser.keys(ESCAPE)
    browser.tells("The rule for mail from B.example is changed.")
    # (of the rule itself nothing is asked: its action is seen)
    shows(visit, [["from", "a.example", "OK", ""], ["from", "b.example", "REJECT", "no"]])
    choose(visit, 1, "edit")
    fill(visit, "sender", "a.example", "DISCARD", "")
    browser.tells("The rule for mail from a.example is changed.")
    shows(visit, [["from", "a.example", "DISCARD", ""], ["from", "b.example", "REJECT", "no"]])
    choose(visit, 1, "edit")
    desk.ask("POST", "/v1/line-drop", ACME, {"class": "sender", "pattern": "a.example"})
    fill(visit, "sender", "c.example", "OK", "")
    browser.tells("The rule for mail from c.example is set. The one for mail from a.example is still there: "
                  "No such rule any more. (11 NoLine)")


def test_what_is_queued_of_a_rule(visit, paper):
    """A rule stops nothing that is queued: behind REJECT that is told, with a hold of it and the way there."""
    browser = visit.browser
    paper.queue([*(message(it, f"bot{it}@spam.example") for it in range(1, 4)), message(9)])
    paper.told["/v1/line-put"] = (200, {"put": "added"})
    visit.on_paper("rules")
    browser.click("#rules-new")
    fill(visit, "sender", "spam.example", "OK", "")
    browser.tells("The rule for mail from spam.example is set.")
    expect(not browser.count("#show-queued"), "an OK stops somebody")
    browser.click("#rules-new")
    fill(visit, "sender", "spam.example", "REJECT", "")
    browser.one("#show-queued")
    expect("3 messages of it are in the queue, and stay there." in browser.text("#told"), "told is", browser.text("#told"))
    browser.click("#hold-queued")
    visit.answer(True, "Hold 3 messages: from spam.example?")
    browser.tells("3 held.")
    visit.settled()
    expect([it for it, one in paper.messages.items() if one["state"] == "hold"] == [f"{it:010X}" for it in (1, 2, 3)], "held are",
           paper.messages)
    browser.click("#rules-new")
    fill(visit, "sender", "spam.example", "REJECT", "")
    browser.click("#show-queued")
    visit.rows_are([f"{it:010X}" for it in (3, 2, 1)])


def test_a_label_of_its_own(visit, paper):
    """Each press that got a reply has another label than the one before; where none came, the next one is the same."""
    browser = visit.browser
    visit.on_paper("rules")
    browser.click("#rules-import")
    file = visit.folder / "again.csv"
    file.write_text(HEAD + "sender,a.example,OK\n")
    browser.attach("#import-file", file)
    replies = [(200, {"added": 1, "changed": 0, "same": 0}), (502, "away"), (200, {"added": 0, "changed": 0, "same": 1}),
               (409, {"error": 52, "name": "LabelUsed"}), (200, {"added": 0, "changed": 0, "same": 1})]
    for number, reply in enumerate(replies, 1):
        paper.told["/v1/import"] = reply
        browser.run("document.querySelector('#imported').replaceChildren()")
        browser.click("#import-form [type=submit]")
        visit.answer(True, "Import 1 rule?")
        browser.until(lambda: sum(path == "/v1/import" for _, path, _ in paper.asked) == number and browser.text("#imported"),
                      "nothing is told of", number)
    labels = [body["label"] for _, path, body in paper.asked if path == "/v1/import"]
    expect(labels[1] == labels[2] and len({*labels}) == 4, "the labels are", labels)
    browser.keys(ESCAPE)


def test_long_rules(visit, paper):
    """A long text is clamped in the table, breaks no width, and leaves the buttons of the dialog in reach."""
    browser = visit.browser
    paper.lines = [{"class": "sender", "pattern": f"{'x' * 60}@{'y' * 150}.example", "action": "REJECT " + "From/Mail " * 90},
                   {"class": "sender", "pattern": "bot@acme.example", "action": "REJECT " + "W" * 990}]
    visit.on_paper("rules")
    for width in (1280, 360):
        browser.size(width, 640)
        heights = browser.run("[...document.querySelectorAll('tr.rule')].map((it) => it.getBoundingClientRect().height)")
        expect(max(heights) <= (60 if width == 1280 else 130), "rules at", width, "are", heights, "high")
        expect(browser.run(TOO_WIDE) <= 0, "the rules are too wide at", width)
        choose(visit, 1, "drop")
        browser.one("#question")
        foot = browser.run("document.querySelector('#question-yes').getBoundingClientRect().bottom")
        expect(foot <= 640, "the button of a long rule is at", foot, "of 640")
        visit.picture(f"long-rule-{width}")
        visit.answer(False)


def test_why_a_rule_decided(visit):
    """The keys in their order, the one that decided, and what its action does."""
    browser = visit.browser
    no_rules(visit, ACME)
    visit.desk.ask("POST", "/v1/line-put", ACME, {"class": "recipient", "pattern": ".b.example", "action": "REJECT no thanks"})
    visit.use(ACME)
    visit.turn_to("rules")
    browser.choose("#check-class", "recipient")
    browser.write("#check-address", "Ann+news@a.b.example")
    browser.keys(ENTER)
    browser.one("#checked ol")
    wanted = ["ann+news@a.b.example", "ann@a.b.example", "a.b.example", ".b.example decides", ".example", "ann+news@", "ann@"]
    expect(browser.texts("#checked li") == wanted, "the keys are", browser.texts("#checked li"))
    expect(browser.text("#decision") == "REJECT no thanks: refuse the mail for good", "it decides", browser.text("#decision"))
    expect(browser.run("document.activeElement.id") == "checked", "the focus is not at what was found")
    browser.choose("#check-class", "sender")
    browser.write("#check-address", "")
    browser.click("#check-form [type=submit]")
    visit.says("#decision", "No rule is for this address: its mail is taken.")
    browser.write("#check-address", "nobody")
    browser.keys(ENTER)
    browser.until(lambda: visit.told() and visit.told()[0].endswith("(20 BadAddress)"), "told is", visit.told())


def test_a_file_is_imported_and_saved(visit):
    """Counts, or what is wrong, and then no row is set; and what is saved can be imported again."""
    browser = visit.browser
    no_rules(visit, ACME)
    visit.use(ACME)
    visit.turn_to("rules")
    browser.click("#rules-import")
    for label, text, told in FILES:
        before = visit.desk.ask("GET", "/v1/lines", ACME)["lines"]
        file = visit.folder / "lines.csv"
        file.write_bytes(text.encode())
        browser.run("document.querySelector('#imported').replaceChildren()")
        browser.write("#import-label", label)
        browser.attach("#import-file", file)
        browser.click("#import-form [type=submit]")
        asked = "document.querySelector('#question').open"
        browser.until(lambda: browser.text("#imported p") or browser.run(asked), text[:200], "is told nothing")
        if browser.run(asked):
            visit.answer(True)
        browser.until(lambda: (browser.text("#imported p") or "").startswith(told), text[:200], "is told",
                      browser.text("#imported"))
        if " added" not in told:
            expect(visit.desk.ask("GET", "/v1/lines", ACME)["lines"] == before, "a row was set")
    visit.picture("import")
    browser.keys(ESCAPE)
    wanted = [["to", ".far.example", "HOLD", "look at it"], ["from", "a.example", "HOLD", ""],
              ["from", "far.example", "REJECT", ""],
              ["from", "new.example", "OK", ""]]
    shows(visit, wanted)
    browser.run(KEEPS)
    browser.click("#rules-csv")
    saved = browser.run(KEPT)
    expect(saved.split("\r\n")[:2] == ['"class","pattern","action"', '"recipient",".far.example","HOLD look at it"'], "saved is",
           saved)
    again = visit.desk.ask("POST", "/v1/import", ACME, {"label": "again", "csv": saved})
    expect(again == {"added": 0, "changed": 0, "same": 4}, "what was saved is imported as", again)


def test_refusals_of_rules(visit):
    """Each refusal stands in the dialog, which stays open with what was written."""
    browser = visit.browser
    no_rules(visit, CEDAR)
    visit.use(CEDAR)
    visit.turn_to("rules")
    browser.click("#rules-new")
    for asked, told in ((("sender", "a..example", "OK", ""), "(24 BadPattern)"),
                        (("recipient", "<>", "OK", ""), "(24 BadPattern)"),
                        (("sender", "a.example", "REDIRECT", "nowhere"), "(25 BadAction)"),
                        (("sender", "a.example", "REJECT", "caf\u00e9"), "(25 BadAction)")):
        fill(visit, *asked)
        browser.until(lambda: (browser.text("#put-fault") or "").endswith(told), asked, "is told", browser.text("#put-fault"))
    browser.keys(ESCAPE)
    for number in range(3):
        visit.desk.ask("POST", "/v1/line-put", CEDAR, {"class": "sender", "pattern": f"d{number}.example", "action": "OK"})
    browser.click("#rules-new")
    fill(visit, "sender", "d4.example", "OK", "")
    visit.says("#put-fault", "You would have more rules than you may keep. Drop some first. (42 QuotaLines)")
    browser.keys(ESCAPE)
    visit.turn_to("usage")
    visit.turn_to("rules")
    shows(visit, [["from", f"d{it}.example", "OK", ""] for it in range(3)])
    visit.desk.ask("POST", "/v1/line-drop", CEDAR, {"class": "sender", "pattern": "d1.example"})
    choose(visit, 2, "drop")
    visit.answer(True)
    browser.tells("No such rule any more. (11 NoLine)")
    shows(visit, [["from", f"d{it}.example", "OK", ""] for it in (0, 2)])
