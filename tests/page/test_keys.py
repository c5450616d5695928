"""Of tests/page: the key, who sees what, and what nginx serves."""
import http.client
import json
import re
from urllib.parse import urlsplit

from browser import ENTER
from page_desk import CEDAR, SESSION, SERVES
from serving import ACME, BIRCH, LONGEST, RELAY, expect

ADDRESSES = "[location.href, ...performance.getEntries().map((it) => it.name)].join(' ')"
POLICY = ("default-src 'none'; script-src 'self'; style-src 'self'; connect-src 'self'; "
          "img-src 'self'; base-uri 'none'; form-action 'none'; frame-ancestors 'none'")
STORED = "JSON.stringify([{...localStorage}, {...sessionStorage}, document.cookie])"


def in_another_tab(visit):
    """There no key is known."""
    kept = visit.browser.window()
    visit.browser.new_tab()
    visit.browser.go(visit.page)
    visit.browser.one("#key-form")
    visit.browser.close_tab()
    visit.browser.turn_to(kept)


def test_a_key_is_asked_for_and_forgotten(visit):
    """The key stands in no address and in the store of its tab alone."""
    browser = visit.browser
    browser.go(visit.page)
    browser.one("#key-form")
    visit.picture("key")
    expect(browser.run("document.activeElement.id") == "key", "the key's field has not the focus")
    for typed, told in (("short", "This is no key. A key is 16 to 64 letters and digits."),
                        ("nobodyskey000001", "Nobody has this key."),
                        (RELAY, "This is not the key of a customer.")):
        browser.write("#key", typed)
        browser.keys(ENTER)
        browser.until(lambda: (browser.text("#key-fault") or "").startswith(told), typed,
                      "is not told", told)
        expect(browser.run(STORED) == '[{},{},""]', "a key that was refused is kept")
    visit.desk.submit("acme", "ann@a.example", "bob@far.example")
    browser.write("#key", ACME)
    browser.keys(ENTER)
    visit.settled()
    local, tab, cookies = json.loads(browser.run(STORED))
    expect((local, tab["desk-key"], cookies) == ({}, ACME, ""), "kept is", browser.run(STORED))
    addresses = browser.run(ADDRESSES)
    expect(ACME not in addresses and browser.address() == f"{visit.page}#overview", "an address holds the key",
           addresses)
    browser.refresh()
    visit.settled()
    expect(browser.text("#who") == f"Key …{ACME[-4:]}", "whose desk it is is told as", browser.text("#who"))
    in_another_tab(visit)
    browser.click("#account summary")
    browser.click("#forget")
    browser.one("#key-form")
    expect(browser.run(STORED) == '[{},{},""]', "a key is kept behind Forget the key",
           browser.run(STORED))
    expect(browser.count("tr.message") == 0
           and not browser.run("document.querySelector('#views').checkVisibility()"),
           "the queue is shown without a key")


def seen(visit):
    """All that the page of this tab shows, view after view."""
    told = []
    visit.refresh()
    for view in ("queue", "sent", "rules", "notices", "usage"):
        visit.turn_to(view)
        told.append(re.sub(r"< 1 min|\d+ min", "", visit.browser.text(f"#{view}")))
    return told


def both_have_something(desk):
    """Each has three messages, of which one failed, and a rule."""
    for customer, key in (("acme", ACME), ("birch", BIRCH)):
        ids = [desk.submit(customer, f"{name}@{customer}.example", "bob@far.example")
               for name in ("ann", "ben", "cat")]
        desk.report(customer, ids[1], failed=["bob@far.example"])
        desk.ask("POST", "/v1/line-put", key,
                 {"class": "sender", "pattern": f"{customer}.example", "action": "OK"})


def test_two_customers_side_by_side(visit):
    """What acme does on its page changes nothing on birch's."""
    browser = visit.browser
    both_have_something(visit.desk)
    acme = browser.window()
    visit.use(ACME)
    first = seen(visit)
    birch = browser.new_tab()
    browser.size(1280)
    visit.use(BIRCH)
    before = seen(visit)
    expect("acme" not in str(before) and "birch.example" in str(before), "birch sees", before)
    browser.turn_to(acme)
    visit.turn_to("queue")
    visit.settled()
    ids = visit.rows()
    visit.do("hold", ids[0])
    browser.tells(f"{ids[0]} is held.")
    visit.settled()
    browser.click("#mark-none")
    visit.do("delete", ids[1])
    visit.answer(True)
    visit.delete_now()
    browser.tells(f"{ids[1]} is deleted.")
    visit.settled()
    visit.turn_to("rules")
    browser.click("#rules-new")
    browser.write("#put-pattern", "far.example")
    browser.keys(ENTER)
    browser.tells("The rule for mail from far.example is set.")
    after = seen(visit)
    expect(all(one != other for one, other in zip(first[:3] + first[4:], after[:3] + after[4:])),
           "acme's page shows no change")
    browser.turn_to(birch)
    again = seen(visit)
    expect(again == before, "acme changed what birch sees, from", before, "to", again)
    browser.close_tab()
    browser.turn_to(acme)


def test_a_cookie_stands_for_a_key(visit):
    """The proxy maps a session to a key, and the page asks for none until the session ends."""
    browser, page = visit.browser, visit.cookie_page
    queue_id = visit.desk.submit("acme", "ann@a.example", "bob@far.example")
    browser.go(page)
    browser.one("#key-form")
    browser.protocol("Network.setCookie", name="session", value=SESSION, url=page, httpOnly=True)
    browser.refresh()
    visit.settled()
    visit.turn_to("queue")
    expect(visit.rows() == [queue_id] and browser.run(STORED) == '[{},{},""]',
           "by its cookie acme sees", visit.rows())
    expect(not browser.run("document.querySelector('#account').checkVisibility()"),
           "there is a key to be forgotten")
    visit.do("hold", queue_id)
    browser.tells(f"{queue_id} is held.")
    address = urlsplit(page)
    for fields, wanted in (({}, 401), ({"X-Desk-Page": "1"}, 200), ({"X-Desk-Key": BIRCH}, 200)):
        client = http.client.HTTPConnection(address.hostname, address.port, timeout=LONGEST)
        client.request("GET", "/v1/messages", headers={"Cookie": f"session={SESSION}", **fields})
        reply = client.getresponse()
        told = reply.read().decode()
        client.close()
        expect(reply.status == wanted and (queue_id in told) == ("X-Desk-Page" in fields),
               "a cookie with", fields, "got", told)
    browser.protocol("Network.deleteCookies", name="session", url=page)
    browser.click("#refresh")
    browser.one("#key-form")
    expect((browser.text("#key-fault") or "").startswith("You are not logged in any more."),
           "a session that has ended is told as", browser.text("#key-fault"))
    expect(not browser.run("document.querySelector('#views').checkVisibility()"), "the queue is shown without a login")


# What a page of another site gets by the session of its visitor.
OTHER_SITE = """Promise.all(arguments[0].map(([path, method, headers, mode]) =>
  fetch(path, { method, headers, mode, credentials: 'include' })
    .then((it) => it.type, (fault) => fault.name)))"""


def test_another_site_does_nothing_by_a_cookie(visit):
    """The cookie goes along, and neither reads nor changes anything."""
    browser, page = visit.browser, visit.cookie_page
    queue_id = visit.desk.submit("acme", "ann@a.example", "bob@far.example")
    browser.protocol("Network.setCookie", name="session", value=SESSION, url=page, httpOnly=True)
    browser.go("http://{}:{}/".format(*visit.paper.server_address))
    asked = [(f"{page}v1/hold-all", "POST", {"X-Desk-Page": "1"}, "cors"),
             (f"{page}v1/messages", "GET", {"X-Desk-Page": "1"}, "cors"),
             (f"{page}v1/messages", "GET", {}, "cors"),
             (f"{page}v1/hold-all", "POST", {}, "no-cors")]
    found = browser.run(OTHER_SITE, asked)
    expect(found == ["TypeError"] * 3 + ["opaque"], "another site gets", found)
    expect(browser.complaints(), "the browser has let another site read")
    expect(visit.desk.states(ACME) == {queue_id: "incoming"}, "another site has held mail")
    browser.go(page)
    visit.settled()
    visit.turn_to("queue")
    expect(visit.rows() == [queue_id], "the cookie is not there")
    browser.protocol("Network.deleteCookies", name="session", url=page)


def test_nginx_serves_what_it_must(visit):
    """The kinds and headers of the files, and no path of the relay."""
    wanted = {"Content-Security-Policy": POLICY, "X-Content-Type-Options": "nosniff",
              "Referrer-Policy": "no-referrer", "Cache-Control": "no-cache"}
    expect(SERVES.count("Content-Security-Policy") == 1, "the lines of nginx are", SERVES)
    client = http.client.HTTPConnection(*visit.proxies[0].address, timeout=LONGEST)
    for path, kind in (("/", "text/html"), ("/main.js", "text/javascript"),
                       ("/style.css", "text/css"), ("/firm.js", "text/javascript"),
                       ("/texts/de.js", "text/javascript"), ("/icon.svg", "image/svg+xml")):
        client.request("GET", path)
        reply = client.getresponse()
        reply.read()
        got = {name: reply.headers[name] for name in wanted}
        expect((reply.status, reply.headers["Content-Type"], got) == (200, kind, wanted), path,
               "is served with", [*reply.headers.items()])
    for method, path, status in (("POST", "/relay/sweep", 404), ("POST", "/relay/usage", 404),
                                 ("POST", "/relay/usage-from", 404), ("GET", "/v1/usage", 200), ("GET", "/none", 404)):
        client.request(method, path, headers={"X-Desk-Key": RELAY if "relay" in path else CEDAR})
        reply = client.getresponse()
        reply.read()
        expect(reply.status == status, path, "got", reply.status)
        if status == 200:
            expect(reply.headers["Cache-Control"] == "no-store", "a reply of the desk may be kept")
    client.close()
