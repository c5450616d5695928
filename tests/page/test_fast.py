"""Of tests/page: how fast the page is there over a slow line: all its modules at once, and no other file."""
import re

from page_desk import ROOT
from serving import expect

WEB = ROOT / "web"
# An import by name, and one of the views, which main.js names in a list.
IMPORT = re.compile(r'(?m)(?:^import|^} from|\bfrom|\bimport\()[^"\n]*"\./([\w./-]+\.js)"')
VIEWS = re.compile(r'(?m)^const names = \[(.*)\];$')
# Each script that was loaded, with the milliseconds until it was begun.
LOADED = """performance.getEntriesByType('resource').filter((it) => it.name.endsWith('.js')).map(
  (it) => [new URL(it.name).pathname.slice(1), it.startTime])"""
LATENCY = 400


def imported():
    """All modules that are reached from main.js."""
    found, left = set(), ["main.js"]
    while left:
        name = left.pop()
        if name in found:
            continue
        found.add(name)
        text = (WEB / name).read_text()
        folder = (WEB / name).parent
        left += [str((folder / it).relative_to(WEB)) for it in IMPORT.findall(text)]
        left += [f"{it}.js" for some in VIEWS.findall(text) for it in re.findall(r'"(\w+)"', some)]
    return found


def test_all_modules_are_preloaded():
    """The page names just the modules that are imported, and each file of web/ is one of them."""
    listed = re.findall(r'<link rel="modulepreload" href="([^"]+)">', (WEB / "index.html").read_text())
    there = {str(it.relative_to(WEB)) for it in WEB.rglob("*.js")}
    expect(sorted([*listed, "main.js"]) == sorted(imported()), "listed and not imported, or the other way round, are",
           {*listed, "main.js"} ^ imported())
    expect(there == imported(), "nobody imports", there ^ imported())


def test_no_module_waits_for_another(visit, paper):
    """Over a line that takes long to answer all of them are begun at once, and each is loaded once."""
    browser = visit.browser
    browser.protocol("Network.enable")
    browser.protocol("Network.setCacheDisabled", cacheDisabled=True)
    browser.protocol("Network.emulateNetworkConditions", offline=False, latency=LATENCY, downloadThroughput=-1, uploadThroughput=-1)
    try:
        browser.go(visit.paper_page)
        browser.one("#key-form")
        loaded = browser.run(LOADED)
    finally:
        browser.protocol("Network.emulateNetworkConditions", offline=False, latency=0, downloadThroughput=-1, uploadThroughput=-1)
        browser.protocol("Network.setCacheDisabled", cacheDisabled=False)
    expect(sorted(it for it, _ in loaded) == sorted(imported()), "loaded are", sorted(it for it, _ in loaded))
    first, last = (some(it for _, it in loaded) for some in (min, max))
    expect(last - first < LATENCY, "the last module is begun", last - first, "ms behind the first")
