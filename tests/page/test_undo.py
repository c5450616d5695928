"""Of tests/page: a hold and a change of a rule are taken back, and nothing else with them."""
from paper import message
from serving import ACME, expect
from test_overview import do_group, far

LINE = {"class": "sender", "pattern": "ann@a.example"}


def held(paper):
    return sorted(int(it, 16) for it, one in paper.messages.items() if one["state"] == "hold")


def undo(visit, told):
    """Presses Undo, and waits for what is told of it."""
    visit.settled()
    visit.browser.click("#undo-hold")
    visit.browser.tells(told)
    visit.settled()


def test_a_hold_is_undone(visit, paper):
    """Marked ones, a domain, an answer and all: what the hold has held is released, and what was on hold before stays so."""
    browser = visit.browser
    paper.queue([*(far(it) for it in range(1, 11)), message(11, state="hold", reason="look at it"), message(12, pending=[("x@near.example", "", "")])])
    visit.on_paper("queue")
    visit.do("hold", "0000000001", "000000000C")
    browser.tells("2 held.")
    expect(held(paper) == [1, 11, 12], "held are", held(paper))
    undo(visit, "2 released.")
    expect(held(paper) == [11], "behind Undo held are", held(paper))
    visit.turn_to("overview")
    # one more of the domain comes in, and is held too: nobody has seen it, so that it stays
    paper.messages["00000000F0"], paper.text = far(0xF0), None
    do_group(visit, "#domains", "far.example", "hold")
    visit.answer(True)
    browser.tells("11 held.")
    expect(held(paper) == [*range(1, 12), 0xF0], "held are", held(paper))
    undo(visit, "10 released.")
    expect(held(paper) == [11, 0xF0], "behind Undo held are", held(paper))
    reason = browser.run("document.querySelector('#reasons .group-name').textContent")
    do_group(visit, "#reasons", reason, "hold")
    visit.answer(True)
    browser.tells("10 held.")
    undo(visit, "10 released.")
    visit.turn_to("queue")
    browser.click("#all-menu summary")
    browser.click("[data-all=hold]")
    visit.answer(True)
    browser.tells("11 held.")
    visit.picture("undo")
    undo(visit, "11 released.")
    expect(held(paper) == [11, 0xF0], "behind Undo held are", held(paper))


def test_what_others_did_is_not_undone(visit, paper):
    """What was released or put on hold for another reason meanwhile stays so."""
    browser = visit.browser
    paper.queue([message(it) for it in range(1, 4)])
    visit.on_paper("queue")
    visit.do("hold", *(f"{it:010X}" for it in range(1, 4)))
    browser.tells("3 held.")
    visit.settled()
    paper.messages["0000000001"].update(state="deferred", reason="")
    paper.messages["0000000002"].update(reason="look at it")
    paper.text = None
    visit.refresh()
    paper.asked.clear()
    browser.click("#undo-hold")
    browser.tells("0000000003 is released.")
    visit.settled()
    expect([it[1] for it in paper.asked if it[0] == "POST"] == ["/v1/release/0000000003"], "asked was", paper.asked)
    expect(browser.count("#undo-hold") == 0, "a release can be undone")


def test_a_hold_of_an_address_with_an_extension(visit):
    """The program holds what is behind a + of a name too; Undo releases all that it held of what was seen."""
    browser, desk = visit.browser, visit.desk
    made = [desk.submit("acme", it, "bob@far.example") for it in ("ann@a.example", "Ann+news@a.example", "joann@a.example")]
    visit.use(ACME)
    do_group(visit, "#senders", "ann@a.example", "hold")
    visit.answer(True)
    browser.tells("2 held.")
    undo(visit, "2 released.")
    expect(desk.states(ACME) == {made[0]: "deferred", made[1]: "deferred", made[2]: "incoming"}, "the desk has", desk.states(ACME))


def rules(desk):
    return [(it["class"], it["pattern"], it["action"]) for it in desk.ask("GET", "/v1/lines", ACME)["lines"]]


def write(visit, pattern, action="REJECT", words=""):
    browser = visit.browser
    browser.write("#put-pattern", pattern)
    browser.choose("#put-action", action)
    browser.write("#put-text", words)
    browser.click("#put-form [type=submit]")


def test_a_rule_is_undone(visit):
    """One that was set, changed, given another pattern, or dropped is as it was; one that somebody changed since is left alone."""
    browser, desk = visit.browser, visit.desk
    visit.use(ACME)
    visit.turn_to("rules")
    first, changed = [("sender", "ann@a.example", "REJECT go away")], [("sender", "ben@a.example", "DEFER")]

    def undone(wanted):
        browser.click("#undo-rule")
        browser.tells("The rules are as they were.")
        expect(rules(desk) == wanted, "behind Undo the rules are", rules(desk))

    def menu(does):
        browser.click("#lines tbody tr:nth-child(1) summary")
        browser.click(f"#lines tbody tr:nth-child(1) [data-rule={does}]")

    browser.click("#rules-new")
    write(visit, "Ann@a.example", words="go away")
    browser.tells("The rule for mail from Ann@a.example is set.")
    expect(rules(desk) == first, "the rules are", rules(desk))
    undone([])
    browser.click("#rules-new")
    write(visit, "ann@a.example", words="go away")
    browser.tells("The rule for mail from ann@a.example is set.")
    menu("edit")
    write(visit, "ben@a.example", "DEFER")
    browser.until(lambda: rules(desk) == changed, "the rules are", rules(desk))
    browser.tells("The rule for mail from ben@a.example is set.")
    undone(first)
    menu("drop")
    visit.answer(True, "Drop this rule?")
    browser.tells("The rule for mail from ann@a.example is dropped.")
    undone(first)
    menu("edit")
    write(visit, "ann@a.example", "HOLD")
    # (also before the page has loaded what it has changed)
    browser.until(lambda: rules(desk) == [("sender", "ann@a.example", "HOLD")], "the rules are", rules(desk))
    desk.ask("POST", "/v1/line-put", ACME, {**LINE, "action": "OK"})
    browser.tells("The rule for mail from ann@a.example is changed.")
    browser.click("#undo-rule")
    browser.tells("Nothing was undone: the rule was changed meanwhile.")
    expect(rules(desk) == [("sender", "ann@a.example", "OK")], "the rules are", rules(desk))
