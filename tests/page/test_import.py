"""Of tests/page: a file of rules is checked whole before it is sent, and shown with what it adds and changes."""
from paper import message
from serving import ACME, expect
from visit import TOO_WIDE

HEAD = "class,pattern,action\n"
FAULTY = (HEAD + "sender,a.example,REJECT\nsnder,b.example,OK\nsender,b..example,OK\nrecipient,<>,OK\n\nsender,c.example,BOUNCE it\n"
          "sender,d.example,REDIRECT nowhere\nsender,e.example,REJECT café\nsender,A.Example,HOLD\nsender,f.example\n"
          "to,g.example,REJECT \"a – b\"\n")
# Row, line and column of each fault of it, and how its reason begins.
FAULTS = [("Row 2, line 3, class: ", "it is sender or recipient (from or to)."), ("Row 3, line 4, pattern: ", "it is an address, a domain"),
          ("Row 4, line 5, pattern: ", "it is an address, a domain"), ("Row 5, line 7, action: ", "it begins with one of OK, REJECT"),
          ("Row 6, line 8, action: ", "REDIRECT takes an address."), ("Row 7, line 9, action: ", "“é” is no plain letter (ASCII)."),
          ("Row 8, line 10, pattern: ", "row 1 has this pattern, too."), ("Row 9, line 11, ", "it has 2 fields, and not three."),
          ("Row 10, line 12, action: ", "“–” is no plain letter (ASCII).")]


def imports(visit, words):
    """Chooses a file, and presses for it."""
    browser = visit.browser
    file = visit.folder / "rules.csv"
    file.write_bytes(words.encode())
    browser.run("document.querySelector('#imported').replaceChildren()")
    browser.attach("#import-file", file)
    browser.click("#import-form [type=submit]")


def rules(desk):
    return [(it["class"], it["pattern"], it["action"]) for it in desk.ask("GET", "/v1/lines", ACME)["lines"]]


def is_elsewhere(visit):
    """Whether the tab has not come to the page of the program yet."""
    return not visit.browser.address().startswith(visit.page)


def begin(visit, *lines):
    """The program with just these rules, and the page anew with the dialog."""
    visit.desk.drop_rules(ACME)
    for side, pattern, action in lines:
        visit.desk.ask("POST", "/v1/line-put", ACME, {"class": side, "pattern": pattern, "action": action})
    if is_elsewhere(visit):
        visit.use(ACME)
    visit.browser.refresh()
    visit.settled()
    visit.turn_to("rules")
    visit.browser.click("#rules-import")


def test_all_faults_are_told_at_once(visit, paper):
    """Each with its row, line, column and reason, beside the row itself; and nothing is sent."""
    browser = visit.browser
    visit.on_paper("rules")
    browser.click("#rules-import")
    imports(visit, FAULTY)
    visit.says("#imported p", f"{len(FAULTS)} faults are in the file.")
    items = browser.run("[...document.querySelectorAll('#file-faults li')].map((it) => [it.firstChild.textContent, it.querySelector('pre').innerText])")
    wrong = [(found, wanted) for (found, _), wanted in zip(items, FAULTS) if not found.startswith("".join(wanted))]
    expect(len(items) == len(FAULTS) and not wrong, "told is", wrong or items)
    expect(items[0][1] == "snder,b.example,OK" and items[8][1] == 'to,g.example,REJECT "a – b"', "the rows are", items)
    expect("No row was set." in browser.text("#imported"), "told is", browser.text("#imported"))
    for scheme, width in (("light", 1280), ("dark", 1280), ("light", 360)):
        browser.scheme(scheme)
        browser.size(width)
        expect(browser.run(TOO_WIDE) <= 0, "the faults are too wide at", width)
        visit.picture(f"import-faults-{scheme}-{width}")
    imports(visit, "pattern,class,action\nsender,a.example,OK\n")
    visit.says("#imported p", "It is the header, or the whole file. The header is class,pattern,action.")
    expect(not [it for it in paper.asked if it[1] == "/v1/import"], "a file with faults is sent")


def test_other_words_and_separators(visit):
    """Semicolons and tabs, the words from and to, spaces, and a header in capitals are understood, and are sent as the desk has them."""
    for number, (words, wanted) in enumerate((
            ("Class;Pattern;Action\r\nfrom;a.example;\"REJECT a;b, c\"\r\nAn; b.example ;hold  look\r\n",
             [("recipient", "b.example", "HOLD look"), ("sender", "a.example", "REJECT a;b, c")]),
            ("class\tpattern\taction\nto\tc.example\tOK\n", [("recipient", "c.example", "OK")]),
            ("\ufeff" + HEAD + "sender,d.example,OK\n", [("sender", "d.example", "OK")])), 1):
        begin(visit)
        imports(visit, words)
        visit.answer(True, f"Import {len(wanted)} rule{'s' * (len(wanted) > 1)}?")
        visit.says("#imported p", f"{len(wanted)} added, 0 changed, 0 there already.")
        expect(rules(visit.desk) == wanted, "of file", number, "the rules are", rules(visit.desk))


def test_what_a_file_changes_is_shown(visit):
    """How many it adds and changes, what is replaced, and a pattern that matches nobody; who cancels has set nothing."""
    browser = visit.browser
    before = [("sender", "a.example", "OK"), ("sender", "b.example", "HOLD look at it")]
    begin(visit, *before)
    words = HEAD + "sender,A.example,reject  go away\nsender,b.example,HOLD look at it\nsender,c.example,OK\nsender,*@d.example,REJECT\n"
    imports(visit, words)
    browser.one("#question")
    expect(browser.text("#question-text") == "New: 2. With another action than now: 1. There already: 1.", "asked is", browser.text("#question-text"))
    facts = [*zip(browser.texts("#question-facts dt"), browser.texts("#question-facts dd"))]
    expect(facts == [("a.example", "OK → REJECT go away"), ("*@d.example", "matches nobody; d.example is meant perhaps")], "shown are", facts)
    visit.picture("import-question")
    visit.answer(False, "Import 4 rules?")
    browser.until(lambda: not browser.run("document.querySelector('#question').open"), "the question stays")
    expect(rules(visit.desk) == before, "the rules are", rules(visit.desk))
    imports(visit, words)
    visit.answer(True, "Import 4 rules?")
    visit.says("#imported p", "2 added, 1 changed, 1 there already.")


def test_a_row_that_only_the_desk_refuses(visit, paper):
    """Its number leads to the row as it stands in the file."""
    browser = visit.browser
    paper.queue([message(1)])
    paper.told["/v1/import"] = (400, {"error": 50, "name": "BadCsv", "row": 2})
    visit.on_paper("rules")
    browser.click("#rules-import")
    imports(visit, HEAD + "\r\nsender,x.example,OK\n\nsender,y.example,OK\n")
    visit.answer(True)
    visit.says("#imported p", "A row of the file is no rule. (50 BadCsv)")
    expect("Row 2, line 5 of the file:" in browser.text("#imported") and browser.text("#bad-row") == "sender,y.example,OK", "told is",
           browser.text("#imported"))
