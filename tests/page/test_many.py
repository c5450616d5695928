"""Of tests/page: a queue of 10,000, more than any customer of the desk may keep: the first screen, typing, and what is done
to a group. Times are those of Chromium's own thread, so that a busy machine counts for nothing."""
from paper import message
from sample import queue
from serving import expect

MANY = 10_000
# Seconds of the browser's own time: until the first screen stands, and of one key in the search. They are those of a machine
# that does a fixed piece of work in so many seconds, and a slower one has so much more.
FIRST_SCREEN, ONE_KEY, WORK = 0.5, 0.1, 0.8
FIXED = "(() => { let x = 1; for (let i = 0; i < 1e8; i++) x = (x * 31 + i) | 0; return x; })()"
SHOWN = "document.querySelectorAll('tr.message').length"


def own_time(browser):
    """The seconds that the page has computed, laid out and painted on its thread."""
    metrics = {it["name"]: it["value"] for it in browser.protocol("Performance.getMetrics")["metrics"]}
    return metrics["TaskDuration"]


def slowness(browser):
    """How much slower this machine is than the one that the limits are for; 1 for a faster one."""
    browser.protocol("Performance.enable", timeDomain="threadTicks")
    before = own_time(browser)
    browser.run(FIXED)
    return max(1, (own_time(browser) - before) / WORK)


def test_the_first_screen(visit, paper):
    """Within half a second: the overview by four calls; then the queue, of which few rows are drawn."""
    browser = visit.browser
    paper.queue(queue(MANY))
    paper.limits["messages"] = 2 * MANY
    visit.on_paper()
    most = FIRST_SCREEN * slowness(browser)
    times = []
    while len(times) < 4 and (not times or min(times) > most):
        paper.asked.clear()
        before = own_time(browser)
        browser.refresh()
        visit.settled()
        took = own_time(browser)
        # (a reload begins the count anew, or goes on with it)
        times.append(took - before if took > before else took)
    expect(min(times) <= most, "the first screen took", times, "and may take", most)
    expect(sorted(path for _, path, _ in paper.asked) == ["/v1/history", "/v1/limits", "/v1/report", "/v1/usage"], "asked was", paper.asked)
    tiles = browser.run("[...document.querySelectorAll('.tile .number')].map((it) => Number(it.textContent.replace(',', '')))")
    expect(sum(tiles) == MANY, "counted are", tiles)
    before = own_time(browser)
    visit.turn_to("queue")
    visit.says("#shown", "10,000 messages")
    expect(own_time(browser) - before <= most, "the queue took", own_time(browser) - before)
    expect(0 < browser.run(SHOWN) <= 200, "drawn are", browser.run(SHOWN))
    visit.figures.append(f"the first screen of 10,000 in {min(times):.2f} s of the browser's own")


def test_typing_never_waits(visit, paper):
    """Each key is answered at once, though each finds thousands; marks are of all that is found."""
    browser = visit.browser
    paper.queue(queue(MANY))
    visit.on_paper("queue")
    slower = slowness(browser)
    words = "partner.ex"
    browser.click("#search")
    before = own_time(browser)
    for letter in words:
        browser.keys(letter)
    found = sum("partner.ex" in " ".join([it["sender"], *(f"{one['address']} {one['text']}" for one in it["pending"])])
                for it in paper.messages.values())
    visit.says("#shown", f"{found:,} of 10,000 messages")
    each = (own_time(browser) - before) / len(words)
    expect(each <= ONE_KEY * slower, "a key takes", each)
    expect(1000 < found < MANY, "found are", found)
    before = own_time(browser)
    browser.click("#mark-all")
    visit.says("#marked", f"{found:,} marked")
    expect(own_time(browser) - before <= FIRST_SCREEN * slower, "marks of all take", own_time(browser) - before)
    # the list goes on as one comes to its end
    for _ in range(3):
        drawn = browser.run(SHOWN)
        browser.run("scrollTo(0, document.body.scrollHeight)")
        browser.until(lambda: browser.run(SHOWN) > drawn, "no more rows come behind", drawn)


def test_a_group_of_thousands(visit, paper):
    """Held by one call for a domain, and by a few for an answer; and all of it by one."""
    browser = visit.browser
    def busy(it, domain):
        return message(it, pending=[(f"r{it}@{domain}", "4.2.0", f"try later, {it + 1000}")])

    paper.queue([*(busy(it, "far.example") for it in range(1, 6001)), *(busy(it, "near.example") for it in range(6001, 6004)),
                 *(message(it, pending=[("x@else.example", "", "")]) for it in range(6004, MANY + 1))])
    visit.on_paper()
    paper.asked.clear()
    browser.click("#reasons > li:nth-child(1) summary")
    browser.click("#reasons > li:nth-child(1) [data-group=hold]")
    expect(browser.text("#question-title") == "Hold 6,003 messages: 4.2.0 try later, …?", "asked is",
           browser.text("#question-title"))
    visit.answer(True)
    browser.until(lambda: visit.told() == ["6,003 held."], "told is", visit.told())
    visit.settled()
    held = {it for it, one in paper.messages.items() if one["state"] == "hold"}
    expect(held == {f"{it:010X}" for it in range(1, 6004)}, "held are", len(held))
    changes = [path for method, path, _ in paper.asked if method == "POST"]
    expect(len(changes) < 10, "it took", len(changes), "calls")


def test_many_rules(visit, paper):
    """Of 5,000 rules those are drawn that are seen; the search finds each, and on paper there are all."""
    browser = visit.browser
    paper.lines = [{"class": "sender", "pattern": f"s{it:04}@a.example", "action": "OK"} for it in range(1, 5001)]
    visit.on_paper("rules")
    visit.says("#lines-shown", "5,000 rules")
    drawn = "document.querySelectorAll('#lines tbody tr').length"
    expect(0 < browser.run(drawn) <= 200 and browser.run("document.querySelectorAll('*').length") < 8000, "drawn are", browser.run(drawn))
    before = browser.run(drawn)
    browser.run("scrollTo(0, document.body.scrollHeight)")
    browser.until(lambda: browser.run(drawn) > before, "no more rules come behind", before)
    browser.write("#rules-search", "s4999@")
    visit.says("#lines-shown", "1 of 5,000 rules")
    expect(browser.rows("#lines", 1) == [["s4999@a.example"]], "found are", browser.rows("#lines", 1))
    browser.write("#rules-search", " ")
    visit.says("#lines-shown", "5,000 rules")
    browser.run("dispatchEvent(new Event('beforeprint'))")
    expect(browser.run(drawn) == 5000, "printed are", browser.run(drawn))
