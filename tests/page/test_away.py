"""Of tests/page: refresh by itself, a desk that is away, a key that is refused for a moment, and what a reload keeps."""
import http.client
import time

import pytest
from page_desk import proxy
from paper import Paper, message
from serving import ACME, LONGEST, expect

AWAY = "The desk does not answer. The page tries again by itself."
REFUSED = (401, {"error": 2, "name": "NoKey"})
# Has the clock of the page, and what waits for it, go so many seconds on.
GO_ON = """((seconds) => {
  const at = Date.now.bind(Date);
  Date.now = () => at() + 1000 * seconds;
})(arguments[0])"""
# A page that somebody turns away from, or comes back to.
HIDDEN = """(() => {
  Object.defineProperty(document, 'hidden', { configurable: true, get: () => arguments[0] });
  document.dispatchEvent(new Event('visibilitychange'));
})()"""
# (long waits are short in the page, so that no test waits for half a minute)
HURRY = "{ const set = window.setTimeout; window.setTimeout = (does, wait, ...more) => set(does, wait / 20, ...more); }"


def hurry(visit):
    return visit.browser.protocol("Page.addScriptToEvaluateOnNewDocument", source=HURRY)["identifier"]


def reports(paper):
    return sum(path == "/v1/report" for _, path, _ in paper.asked)


def test_it_refreshes_by_itself(visit, paper):
    """While it is looked at, and at once when somebody comes back to it; never while it is not seen."""
    browser = visit.browser
    script = hurry(visit)
    visit.on_paper("queue")
    paper.messages["0000000002"], paper.text = message(2), None
    visit.rows_are(["0000000002", "0000000001"])
    browser.run(HIDDEN, True)
    time.sleep(0.5)
    before = reports(paper)
    time.sleep(3.5)
    expect(reports(paper) == before, "a page that nobody sees asks the desk")
    browser.run(GO_ON, 60)
    browser.run(HIDDEN, False)
    browser.until(lambda: reports(paper) > before, "it is not asked when somebody comes back")
    browser.protocol("Page.removeScriptToEvaluateOnNewDocument", identifier=script)


@pytest.mark.parametrize("view, path", [("sent", "/v1/history"), ("rules", "/v1/lines"), ("notices", "/v1/notices")])
def test_each_view_is_asked_for_anew(visit, paper, view, path):
    """The button asks for what is looked at too, beside the queue."""
    visit.on_paper(view)
    visit.settled()

    def asked():
        return sum(at.partition("?")[0] == path for _, at, _ in paper.asked)

    before = asked()
    visit.browser.click("#refresh")
    # (the queue has the newest of the history too)
    visit.browser.until(lambda: asked() > before + (view == "sent"), view, "is not asked for anew")


def test_marks_and_detail_survive_a_refresh(visit, paper):
    """What somebody is at stays: marks, the open detail, the focus, a search, the place of the list."""
    browser = visit.browser
    paper.queue([message(it, f"s{it}@a.example") for it in range(1, 40)])
    visit.on_paper("queue")
    visit.mark("0000000020", "000000001F")
    visit.open("000000001E")
    browser.run("document.querySelector(arguments[0]).focus()", visit.row("000000001E"))
    browser.run("scrollTo(0, 300)")
    del paper.messages["0000000020"]
    paper.text = None
    browser.run("document.querySelector('#refresh').click()")
    visit.settled()
    expect(browser.text("#marked") == "1 marked" and browser.run("document.activeElement.dataset.id") == "000000001E"
           and browser.run("document.querySelector('#detail').checkVisibility()") and browser.run("scrollY") > 200,
           "what somebody is at is gone:", browser.text("#marked"), browser.run("scrollY"))


def test_a_desk_that_is_away(visit, paper):
    """What is shown stays, with its age, over a reload too; and the page comes back by itself."""
    browser, folder = visit.browser, visit.folder
    script = hurry(visit)
    with Paper() as there, proxy(folder / "away", there.server_address) as before:
        visit.use(ACME, "http://{}:{}/".format(*before.address))
        visit.turn_to("queue")
        address = there.server_address
        there.end()
        browser.click("#refresh")
        browser.until(lambda: browser.text("#away-words") == AWAY, "the head says", browser.text("#away"))
        expect(visit.rows() == ["0000000001"], "what was shown is gone")
        browser.run(GO_ON, 240)
        browser.until(lambda: browser.text("#away-age") == "What you see is 4 min old.", "its age is told as",
                      browser.text("#away-age"))
        visit.picture("away")
        browser.refresh()
        browser.until(lambda: browser.text("#away-words") == AWAY, "the head says", browser.text("#away"))
        expect(visit.rows() == ["0000000001"] and browser.run("document.querySelector('#queue').checkVisibility()"),
               "a reload wipes the queue")
        with Paper(address) as back:
            back.queue([message(1), message(2)])
            visit.rows_are(["0000000002", "0000000001"])
            expect(not browser.run("document.querySelector('#away').checkVisibility()"), "it is still told as away")
    browser.protocol("Page.removeScriptToEvaluateOnNewDocument", identifier=script)


def test_away_from_the_start(visit, paper):
    """With a login of the firm, a desk that is away speaks of no key; and the page comes as the desk does."""
    browser = visit.browser
    script = hurry(visit)
    paper.told["*"] = (502, "<h1>Bad Gateway</h1>")
    browser.go(visit.paper_page)
    told = "The desk does not answer yet. The page tries again by itself."
    visit.says("#starting", told)
    expect("key" not in browser.text("main").lower(), "a key is spoken of:", browser.text("main"))
    browser.run("sessionStorage.setItem('desk-key', arguments[0])", ACME)
    del paper.told["*"]
    browser.one("#overview")
    browser.protocol("Page.removeScriptToEvaluateOnNewDocument", identifier=script)


def test_a_key_that_is_refused_for_a_moment(visit, paper):
    """One 401 behind a reload of the proxy forgets nothing; a key that stays unknown is forgotten."""
    browser = visit.browser
    script = hurry(visit)
    visit.on_paper("queue")
    paper.told["*"] = REFUSED
    browser.click("#refresh")
    browser.until(lambda: reports(paper) and not browser.run("document.querySelector('#away').hidden"), "nothing is told")
    del paper.told["*"]
    visit.settled()
    browser.until(lambda: browser.run("document.querySelector('#away').hidden"), "it does not come back")
    expect(browser.run("sessionStorage.getItem('desk-key')") == ACME and visit.rows() == ["0000000001"],
           "one 401 forgets the key")
    paper.told["*"] = REFUSED
    browser.click("#refresh")
    browser.one("#key-form")
    expect(browser.text("#key-fault").startswith("Nobody has this key."), "it is told as", browser.text("#key-fault"))
    expect(browser.run("sessionStorage.length") == 0, "a key that is refused is kept, or what it showed")
    browser.protocol("Page.removeScriptToEvaluateOnNewDocument", identifier=script)


def test_a_reload_comes_back_to_its_tab(visit, paper):
    """The tab stands in the address, and Back leads to the one before."""
    browser = visit.browser
    visit.on_paper()
    visit.turn_to("rules")
    visit.turn_to("usage")
    browser.refresh()
    visit.settled()
    browser.one("#usage")
    browser.driver.back()
    browser.one("#rules")
    expect(ACME not in browser.address(), "the address has the key", browser.address())


def test_whose_desk_it_is(visit, paper):
    """By the name that the proxy tells, or by the end of the key; and the time zone."""
    browser = visit.browser
    paper.customer = "acme"
    browser.protocol("Emulation.setTimezoneOverride", timezoneId="Asia/Kolkata")
    visit.on_paper()
    expect(browser.text("#who") == "acme", "whose desk it is is told as", browser.text("#who"))
    expect(browser.text("#zone") == "All times are in Asia/Calcutta (UTC+5:30)."
           or browser.text("#zone") == "All times are in Asia/Kolkata (UTC+5:30).", "the time zone is told as",
           browser.text("#zone"))
    browser.protocol("Emulation.setTimezoneOverride", timezoneId="")


def test_another_customer_meanwhile(visit, paper):
    """Where a login changes hands, nothing that was marked of one customer is left for the other."""
    browser = visit.browser
    paper.customer = "acme"
    visit.on_paper("queue")
    visit.mark("0000000001")
    paper.customer = "birch"
    browser.click("#refresh")
    browser.until(lambda: browser.text("#who") == "birch" and browser.count("#marked-tools[hidden]") == 1,
                  "what is left of acme is", browser.text("#who"), browser.text("#marked"))


def test_what_the_proxy_asks_for(visit, paper):
    """Without a key it is one call that is refused."""
    visit.browser.go(visit.paper_page)
    visit.browser.one("#key-form")
    time.sleep(0.3)
    expect([path for _, path, _ in paper.asked] == ["/v1/usage"], "asked was", paper.asked)
    client = http.client.HTTPConnection(*visit.proxies[1].address, timeout=LONGEST)
    client.request("GET", "/v1/usage")
    expect(client.getresponse().status == 401, "a call without a key is answered")
    client.close()


def test_a_desk_that_hangs(visit, paper):
    """What is under way is told after a second; and who reads waits for fifteen seconds at most."""
    browser = visit.browser
    paper.queue([message(it) for it in range(1, 4)])
    visit.on_paper("queue")
    visit.mark("0000000002")
    paper.slow["/v1/hold/0000000002"] = 3
    browser.click("[data-marked=hold]")
    browser.tells("Working …")
    browser.tells("0000000002 is held.")
    visit.settled()
    expect("Working" not in browser.text("#told"), "it is still told as under way")
    paper.slow["/v1/usage"] = 20
    begun = time.monotonic()
    browser.click("#refresh")
    browser.until(lambda: browser.text("#away-words") == AWAY, "the head says", browser.text("#away"))
    expect(10 < time.monotonic() - begun < 20, "it is told after", time.monotonic() - begun)
    paper.slow.clear()


def test_a_slow_line(visit, paper):
    """A report that takes longer than a reply may be waited for comes all the same: its head was there."""
    browser = visit.browser
    paper.queue([message(it, pending=[(f"r{it}@far.example", "4.2.0", "x" * 2000)]) for it in range(1, 901)])
    visit.on_paper("queue")
    browser.protocol("Network.enable")
    browser.protocol("Network.emulateNetworkConditions", offline=False, latency=0, downloadThroughput=110_000, uploadThroughput=110_000)
    try:
        browser.refresh()
        # (some seventeen seconds)
        time.sleep(10)
        visit.settled()
        visit.says("#shown", "900 messages")
        expect(reports(paper) == 2 and not browser.text("#away-words"), "it was asked", reports(paper), "times, and the head says",
               browser.text("#away"))
    finally:
        browser.protocol("Network.emulateNetworkConditions", offline=False, latency=0, downloadThroughput=-1, uploadThroughput=-1)
