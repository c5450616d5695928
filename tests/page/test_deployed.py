"""Of tests/page: the page behind the proxy of deploy/, over TLS, with its limits and its names of customers."""
import needs
import pytest
from deploying import OTHERS, ROWS, SESSIONS, Desk, Proxy
from serving import ACME, BIRCH, expect

MANY = 30
READER = "acmereader000001"
# The bytes of the newest reply from a path, and those that came for it.
SIZES = """((it) => [it.decodedBodySize, it.encodedBodySize])(
  performance.getEntriesByType('resource').filter((it) => it.name.endsWith('/' + arguments[0])).at(-1))"""


@pytest.fixture(scope="module")
def proxy(program, tmp_path_factory):
    needs.command("nginx", "openssl")
    folder = tmp_path_factory.mktemp("deployed")
    for it in (folder, *folder.parents):
        # (nginx reads the page as nobody)
        if it.stat().st_mode & 0o777 == 0o700:
            it.chmod(0o755)
    with Desk(folder, program, "north", ROWS, keys=[f"acme,reader,{READER},read"]) as north, \
            Desk(folder, program, "south", OTHERS) as south, \
            Proxy(folder / "proxy", [north, south], sessions=SESSIONS) as made:
        yield made


def submit(proxy, customer, number):
    body = {"spool": f"s{number}", "sender": "ann@a.example", "recipients": [f"r{number}@far.example"], "size": 900}
    status, told = proxy.relay(f"/relay/submit/{customer}", body)
    expect(status == 200, "a submission got", status, told)
    return told["id"]


def states(proxy, key):
    """The state of each message, page by page."""
    found, path = {}, "/v1/messages"
    while path:
        told = proxy.ask("GET", path, key)[1]
        found.update((it["id"], it["state"]) for it in told["messages"])
        path = f"/v1/messages-after/{told['messages'][-1]['id']}" if told["more"] else None
    return found


def test_its_limits_and_names(visit, proxy):
    """Messages one by one and all at once, within the limits of the proxy; the name of the customer; no fault is told."""
    browser = visit.browser
    made = [submit(proxy, "acme", it) for it in range(MANY)]
    visit.use(ACME, f"https://{proxy.public}/")
    expect(browser.text("#who") == "acme", "whose desk it is is told as", browser.text("#who"))
    visit.turn_to("queue")
    browser.click("#mark-all")
    browser.click("[data-marked=requeue]")
    browser.until(lambda: visit.told() == [f"{MANY} are tried now."], "told is", visit.told())
    visit.settled()
    expect(not set(made) & {*states(proxy, ACME)} and len(states(proxy, ACME)) == MANY, "the desk has", len(states(proxy, ACME)))
    for name, wanted in (("hold", "hold"), ("release", "deferred")):
        browser.click("#all-menu summary")
        browser.click(f"[data-all={name}]")
        visit.answer(True)
        if name == "release":
            visit.answer(True)
        browser.tells(f"{MANY} {'held' if name == 'hold' else 'released'}.")
        visit.settled()
        expect({*states(proxy, ACME).values()} == {wanted}, "the desk has", {*states(proxy, ACME).values()})
    expect(browser.run("document.querySelector('#away').hidden"), "the head says", browser.text("#away"))


def test_what_is_text_is_small(visit, proxy):
    """The page comes by gzip, at most half as large. A reply does not: its length would tell what strangers' words have in common with it."""
    browser = visit.browser
    for it in range(MANY):
        submit(proxy, "acme", 3000 + it)
    browser.protocol("Network.enable")
    browser.protocol("Network.setCacheDisabled", cacheDisabled=True)
    visit.use(ACME, f"https://{proxy.public}/")
    for name in ("main.js", "texts/en.js", "style.css"):
        whole, sent = browser.run(SIZES, name)
        expect(0 < sent <= whole / 2, name, "of", whole, "bytes comes as", sent)
    whole, sent = browser.run(SIZES, "v1/report")
    expect(whole == sent, "a report of", whole, "bytes comes as", sent)
    browser.protocol("Network.setCacheDisabled", cacheDisabled=False)


def test_a_key_that_may_only_read(visit, proxy):
    """It sees the queue of its customer, and what it wants to change is refused in plain words."""
    browser = visit.browser
    one = submit(proxy, "acme", 2000)
    visit.use(READER, f"https://{proxy.public}/")
    expect(browser.text("#who") == "acme", "whose desk it is is told as", browser.text("#who"))
    visit.turn_to("queue")
    visit.do("hold", one)
    browser.tells("This key may only read: nothing was changed. (3 WrongRole)")
    visit.settled()
    expect(states(proxy, ACME)[one] == "incoming", "it was held")


def test_a_reload_of_the_proxy(visit, proxy):
    """It reads its maps anew while the page asks, and nobody is logged out."""
    browser = visit.browser
    one = submit(proxy, "birch", 1000)
    visit.use(BIRCH, f"https://{proxy.public}/")
    for _ in range(3):
        proxy.reload()
        visit.refresh()
    expect(browser.run("sessionStorage.getItem('desk-key')") == BIRCH and browser.text("#who") == "birch", "birch is logged out")
    visit.turn_to("queue")
    expect(visit.rows() == [one], "birch sees", visit.rows())
