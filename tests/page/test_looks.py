"""Of tests/page: how it looks, and what a screen reader is told of it: the rules of WCAG 2.2 AA that a program can hold."""
import time

from browser import END_KEY, RIGHT, TAB
from paper import HOUR, message
from serving import expect
from visit import TOO_WIDE

VIEWS = ("overview", "find", "queue", "sent", "rules", "notices", "usage")
# What has to have a name, by its role in the tree of the browser.
NAMED = {"button", "textbox", "searchbox", "combobox", "checkbox", "table", "grid", "tab", "tabpanel", "tablist", "dialog",
         "group",
         "form", "region", "image", "meter", "heading", "status", "list", "article", "complementary", "link",
         "DisclosureTriangle"}
# The roles that a view must have at least, and how many of each.
ROLES = {
    "key": {"textbox": 1, "button": 1, "form": 1},
    "overview": {"tab": 7, "tabpanel": 1, "meter": 3, "image": 1, "list": 2, "listitem": 4, "heading": 5},
    "find": {"tab": 7, "tabpanel": 1, "table": 1, "columnheader": 5, "row": 3, "searchbox": 1, "combobox": 2, "form": 1},
    "queue": {"tab": 7, "tabpanel": 1, "grid": 1, "row": 4, "columnheader": 5, "searchbox": 1, "combobox": 5, "complementary": 1},
    "sent": {"tab": 7, "tabpanel": 1, "table": 1, "columnheader": 5, "row": 3, "searchbox": 1},
    "rules": {"tab": 7, "tabpanel": 1, "table": 1, "columnheader": 5, "row": 3, "form": 1},
    "notices": {"tab": 7, "tabpanel": 1, "table": 1, "columnheader": 5, "article": 1, "region": 1},
    "usage": {"tab": 7, "tabpanel": 1, "table": 1, "columnheader": 3, "image": 1, "meter": 3, "cell": 18},
}
# How many texts, or edges of what can be pressed or filled and parts of charts, are shown, and those
# that stand out too little from what is behind them.
CONTRAST = """(() => {
  const canvas = Object.assign(document.createElement('canvas'), { width: 1, height: 1 });
  const pen = canvas.getContext('2d', { willReadFrequently: true });
  const parts = (color) => {
    pen.clearRect(0, 0, 1, 1);
    pen.fillStyle = color;
    pen.fillRect(0, 0, 1, 1);
    return [...pen.getImageData(0, 0, 1, 1).data];
  };
  const bent = (it) => (it <= 0.04045 ? it / 12.92 : ((it + 0.055) / 1.055) ** 2.4);
  const light = (rgb) => {
    const [r, g, b] = rgb.map((it) => bent(it / 255));
    return 0.2126 * r + 0.7152 * g + 0.0722 * b;
  };
  const behind = (at) => {
    for (let it = at; it; it = it.parentElement) {
      const color = parts(getComputedStyle(it).backgroundColor);
      if (color[3] === 255) return color.slice(0, 3);
    }
    return [255, 255, 255];
  };
  const hasText = (at) => [...at.childNodes].some((it) => it.nodeType === 3 && it.data.trim());
  const isOfText = (at) => (hasText(at) || at.matches('input:not([type=checkbox])')) && !at.matches('option, .hidden, :disabled');
  const texts = {
    least: 4.5,
    of: [...document.querySelectorAll('body *')].filter(isOfText),
    colors: (at) => (at.matches('svg *') ? [getComputedStyle(at).fill]
      : ['', '::placeholder'].map((it) => getComputedStyle(at, it).color)),
    ground: behind,
  };
  const edges = {
    least: 3,
    of: document.querySelectorAll(
      'button:not(.link, .group-name, [role=tab], [type=submit], .main, .menu-list button), input, select, '
      + 'rect, .meter > div, .chip, .spot'),
    colors: (at) => [getComputedStyle(at)[at.matches('rect') ? 'fill'
      : at.matches('div, .spot') ? 'backgroundColor' : 'borderTopColor']],
    ground: (at) => behind(at.parentElement),
  };
  const wanted = { texts, edges }[arguments[0]];
  const shown = [...wanted.of].filter((it) => it.checkVisibility());
  const bad = [];
  for (const at of shown) {
    for (const color of wanted.colors(at)) {
      const both = [light(parts(color).slice(0, 3)), light(wanted.ground(at))].sort((a, b) => b - a);
      const contrast = (both[0] + 0.05) / (both[1] + 0.05);
      if (contrast < wanted.least) bad.push([at.outerHTML.slice(0, 90), color, contrast]);
    }
  }
  return [shown.length, bad];
})()"""
# What can be pressed and is smaller than 24 by 24, but for words within a line.
SMALL = """[...document.querySelectorAll('button, input, select, summary, a[href]')].filter((it) => it.checkVisibility())
  .map((it) => [it.outerHTML.slice(0, 90), it.getBoundingClientRect()]).filter(([, box]) => box.width < 24 || box.height < 24)
  .map(([words, box]) => [words, box.width, box.height])"""
# Headings that leave out a level, IDs that stand twice, and references to an ID that there is not.
MARKUP = """(() => {
  const headings = [...document.querySelectorAll('h1, h2, h3')].filter((it) => it.checkVisibility());
  const levels = headings.map((it) => Number(it.tagName[1]));
  const jumps = levels.filter((it, at) => at && it > levels[at - 1] + 1);
  const ids = [...document.querySelectorAll('[id]')].map((it) => it.id);
  const twice = ids.filter((it, at) => ids.indexOf(it) !== at);
  const names = ['aria-labelledby', 'aria-describedby', 'aria-controls'];
  const named = (name) => [...document.querySelectorAll(`[${name}]`)].map((it) => it.getAttribute(name));
  const missing = names.flatMap(named).flatMap((it) => it.split(' '))
    .filter((it) => !ids.includes(it));
  return [jumps, twice, missing, document.documentElement.lang, levels[0]];
})()"""
# What has the focus: its words, and whether it is seen and shows it.
FOCUS = """(() => {
  const it = document.activeElement;
  const box = it.getBoundingClientRect();
  const middle = document.elementFromPoint(Math.min(innerWidth - 2, box.left + box.width / 2),
    Math.min(innerHeight - 2, box.top + 8));
  const style = getComputedStyle(it);
  return [it === document.body, (it.id || it.className || it.tagName) + ' ' + it.innerText.slice(0, 30),
    style.outlineStyle === 'solid' && parseFloat(style.outlineWidth) >= 2, it.contains(middle) || middle?.contains(it)
      || it.type === 'file'];
})()"""
TABS = """[document.activeElement.id,
  [...document.querySelectorAll('[role=tabpanel]')].filter((it) => it.checkVisibility()).map((it) => it.id).join(' '),
  document.querySelectorAll('[role=tab][tabindex="-1"]').length]"""


def filled(visit):
    """A customer with something in each view."""
    paper, now = visit.paper, int(time.time())
    paper.queue([message(1, "ann@a.example", [("bob@far.example", "4.2.0", "mailbox busy"), ("cat@near.example", "", "")]),
                 message(2, "", [("dan@far.example", "", "")], arrival=now - 60 * HOUR),
                 message(3, "eve@a.example", state="hold", reason="look at it")])
    paper.lines = [{"class": "sender", "pattern": "a.example", "action": "OK"},
                   {"class": "recipient", "pattern": ".far.example", "action": "HOLD look at it"}]
    paper.history = [{"at": now, "id": "0000000001", "number": it, "recipient": f"gus{it}@far.example", "result": result,
                      "sender": "ann@a.example", "status": "2.0.0", "text": "queued"}
                     for it, result in enumerate(("delivered", "failed", "deleted", "expired"), 1)]
    paper.notices = {it: {"at": now, "id": "0000000001", "kind": kind, "number": it, "to": "ann@a.example",
                          "human": "It is late.\r\n",
                          "status": "Reporting-MTA: dns; relay.example\r\n\r\nFinal-Recipient: rfc822; bob@far.example\r\nStatus: 5.1.1\r\n",
                          "subject": "Late"} for it,
                     kind in ((1, "failure"), (2, "delay"))}
    paper.counts = {"delivered": 40, "failed": 9, "deleted": 5, "expired": 3}
    paper.limits["messages"] = 4
    paper.told["/v1/check"] = (200, {"action": "OK", "keys": ["ann@a.example", "a.example"], "pattern": "a.example"})
    visit.on_paper()


def fill(visit, view):
    """Turns to a view, and opens what can be opened."""
    browser = visit.browser
    visit.turn_to(view)
    if view == "find":
        browser.click("#find-form [type=submit]")
        browser.one("#found")
    if view == "queue" and not browser.run("document.querySelector('#detail').checkVisibility()"):
        visit.open("0000000001")
    if view == "rules":
        browser.click("#check-form [type=submit]")
        browser.one("#checked ol")
    if view == "notices":
        browser.click("#notice-list tbody tr:first-child button")
        browser.one("#notice")


def tree(browser):
    """The role, the name and more of each node of the tree that a screen reader is given."""
    nodes = browser.protocol("Accessibility.getFullAXTree")["nodes"]
    return [(it["role"]["value"], it.get("name", {}).get("value", "").strip(),
             {p["name"]: p["value"].get("value") for p in it.get("properties", [])})
            for it in nodes if not it["ignored"]]


def tree_is(browser, view):
    """The tree of a view has the roles that it must have, and all that needs a name has one."""
    nodes = tree(browser)
    nameless = [it for it in nodes if it[0] in NAMED and not it[1]]
    expect(not nameless, "without a name are", nameless, "of", view)
    for role, least in ROLES[view].items():
        found = [name for it, name, _ in nodes if it == role]
        expect(len(found) >= least, view, "has", len(found), "of the role", role, "and not", least, found)
    # (the browser has a button of its own in each field of a day)
    names = [name for role, name, _ in nodes if role in ("button", "DisclosureTriangle") and "date picker" not in name]
    expect(len(names) == len({*names}), "two buttons have one name:", sorted(names))
    return nodes


def test_a_screen_reader_is_told_of_all(visit):
    """Each view and each question, wide and narrow: names, roles, headings, references, language."""
    browser = visit.browser
    browser.go(visit.paper_page)
    browser.one("#key-form")
    nodes = tree_is(browser, "key")
    expect(("textbox", "Key") in [it[:2] for it in nodes], "the key's field is told as", nodes)
    filled(visit)
    for width in (1280, 360):
        browser.size(width)
        for view in VIEWS:
            fill(visit, view)
            if (view, width) == ("queue", 360):
                browser.click("#detail-close")
                browser.click("#filter")
            found = browser.run(MARKUP)
            expect(found == [[], [], [], "en", 1], view, "has headings, IDs and references", found)
            if (view, width) == ("queue", 360):
                continue
            nodes = tree_is(browser, view)
            chosen = [name.lower() for role, name, more in nodes if role == "tab" and more.get("selected")]
            panels = [name.lower() for role, name, _ in nodes if role == "tabpanel"]
            expect(chosen == panels == [{"find": "find mail", "sent": "history"}.get(view, view)], "chosen is", chosen, panels)
    visit.turn_to("queue")
    browser.click("#all-menu summary")
    browser.click("[data-all=delete]")
    browser.one("#question")
    dialogs = [it for it in tree(browser) if it[0] == "dialog"]
    expect([it[1] for it in dialogs] == ["Delete all 3 messages?"] and dialogs[0][2].get("modal"), "the question is told as",
           dialogs)
    visit.answer(False)


def test_what_happened_is_read_aloud(visit):
    """The region of what happened stands in the tree before anything is told, and is polite."""
    browser = visit.browser
    filled(visit)
    regions = [more for role, name, more in tree(browser) if role == "status" and name == "What happened"]
    expect(len(regions) == 1 and regions[0].get("live") == "polite", "the region is told as", regions)
    for selector, attribute, wanted in (("#shown", "aria-live", "polite"), ("#key-fault", "role", "alert"),
                                        ("#away-words", "role", "alert"),
                                        ("#put-fault", "role", "alert"), ("#marked", "aria-live", "polite")):
        found = browser.run("document.querySelector(arguments[0]).getAttribute(arguments[1])", selector, attribute)
        expect(found == wanted, selector, "is told as", found)


def test_tabs_by_arrows(visit):
    """Arrows turn from tab to tab, and the key Tab passes by all but the chosen one."""
    browser = visit.browser
    filled(visit)
    browser.run("document.querySelector('#tab-overview').focus()")
    for key, view in ((RIGHT, "find"), (RIGHT, "queue"), (RIGHT, "sent"), (RIGHT, "rules"), (RIGHT, "notices"), (RIGHT, "usage"),
                      (RIGHT, "overview"),
                      (END_KEY, "usage")):
        browser.keys(key)
        found = browser.run(TABS)
        expect(found == [f"tab-{view}", view, 6], "an arrow comes to", found, "and not to", view)


def test_the_focus_is_seen(visit):
    """By Tab alone through each view, wide and narrow: what has the focus shows it, and nothing hides it."""
    browser = visit.browser
    filled(visit)
    for width in (1280, 360):
        browser.size(width, 640)
        for view in VIEWS:
            visit.turn_to(view)
            browser.run("document.querySelector(`#tab-${arguments[0]}`).focus()", view)
            stops = 0
            for _ in range(60):
                browser.keys(TAB)
                at_end, words, has_ring, is_seen = browser.run(FOCUS)
                if at_end or words.startswith("logo") or browser.run("document.activeElement.closest('header')") is not None:
                    break
                stops += 1
                expect(has_ring and is_seen, "at", width, "in", view, words, "has a ring", has_ring, "and is seen", is_seen)
            least = {"overview": 10, "find": 5, "queue": 5, "sent": 6, "rules": 6, "notices": 3, "usage": 1}[view]
            expect(least <= stops < 60, view, "has", stops, "stops of Tab at", width)


def test_contrast_sizes_and_widths(visit):
    """Each view in both schemes, wide and narrow: it can be read and pressed, and needs no scrolling aside."""
    browser = visit.browser
    filled(visit)
    for scheme in ("light", "dark"):
        browser.scheme(scheme)
        grounds = browser.run("getComputedStyle(document.body).backgroundColor")
        expect(grounds == {"light": "rgb(255, 255, 255)", "dark": "rgb(21, 24, 28)"}[scheme], scheme, "is on", grounds)
        for width in (1280, 360):
            browser.size(width)
            for view in VIEWS:
                fill(visit, view)
                visit.picture(f"{view}-{scheme}-{width}")
                for what, least in (("texts", 10), ("edges", 2)):
                    seen, bad = browser.run(CONTRAST, what)
                    expect(seen >= least and not bad, "too little contrast in", view, scheme, width, ":", bad, "of", seen)
                expect(browser.run(SMALL) == [], "too small in", view, "at", width, "are", browser.run(SMALL))
                expect(browser.run(TOO_WIDE) <= 0, view, "is too wide at", width, "by", browser.run(TOO_WIDE))
    browser.scheme("light")


def test_without_javascript(visit):
    """The page says that it needs JavaScript, and nothing else."""
    browser = visit.browser
    browser.protocol("Emulation.setScriptExecutionDisabled", value=True)
    browser.go(visit.page)
    visit.picture("no-javascript")
    shown = [name for role, name, _ in tree(browser) if role == "StaticText"]
    browser.protocol("Emulation.setScriptExecutionDisabled", value=False)
    expect(sorted(shown) == ["Outgoing mail", "This page needs JavaScript. Allow it here, and load the page again."], "shown is",
           shown)


def test_a_part_that_does_not_load(visit):
    """Where a file of the page is missing, the page says more than nothing."""
    browser = visit.browser
    browser.protocol("Network.enable")
    browser.protocol("Network.setBlockedURLs", urls=["*/queue.js"])
    browser.go(visit.page)
    told = "The page is loading. If nothing more comes, load it again."
    browser.until(lambda: browser.text("main") == told, "shown is", browser.text("main"))
    browser.protocol("Network.setBlockedURLs", urls=[])
    browser.complaints()


def test_forced_colours(visit, paper):
    """What a ground alone tells keeps a colour: bars, dots, the open row and the chosen tab."""
    browser = visit.browser
    paper.queue([message(it, f"s{it}@a.example", state="hold" if it % 2 else "incoming") for it in range(1, 4)])
    visit.on_paper()
    browser.media(forced_colors="active")
    try:
        drawn = """[...document.querySelectorAll(arguments[0])].map((it) => [
          getComputedStyle(it)[arguments[1]], getComputedStyle(document.body).backgroundColor])"""
        for where, what in (("#amounts .meter > div", "backgroundColor"), (".legend .spot", "backgroundColor"),
                            ("#ages .part", "fill"), ("#amounts .meter", "borderTopColor")):
            found = browser.run(drawn, where, what)
            expect(found and all(one != ground for one, ground in found), where, "is drawn as", found)
        lines = browser.run("[...document.querySelectorAll('[role=tab]')].map((it) => getComputedStyle(it).borderBottomColor)")
        expect(len({*lines[1:]}) == 1 and lines[0] != lines[1], "the lines of the tabs are", lines)
        visit.picture("forced-overview")
        visit.turn_to("queue")
        visit.open("0000000003")
        outlines = browser.run("[...document.querySelectorAll('tr.message')].map((it) => getComputedStyle(it).outlineStyle)")
        expect(outlines == ["solid", "none", "none"], "the outlines of the rows are", outlines)
        visit.picture("forced-queue")
    finally:
        browser.media()


def test_on_paper(visit, paper):
    """All rows are printed, and nothing that is pressed."""
    browser = visit.browser
    paper.queue([message(it, f"s{it}@a.example") for it in range(1, 131)])
    visit.on_paper("queue")
    expect(len(visit.rows()) < 130, "all rows are drawn from the beginning")
    browser.media("print")
    try:
        browser.run("dispatchEvent(new Event('beforeprint'))")
        expect(len(visit.rows()) == 130, "printed are", len(visit.rows()))
        seen = browser.run("""[...document.querySelectorAll('button, input, select')].filter(
          (it) => it.checkVisibility() && !it.matches('.link, .group-name, .tile')).length""")
        expect(seen == 0, "on paper there are buttons or fields:", seen)
    finally:
        browser.media()
