"""Of tests/page: the languages, and the firm's name and colours."""
import re

from page_desk import ROOT
from paper import message
from serving import expect
from visit import TOO_WIDE

VIEWS = ("overview", "find", "queue", "sent", "rules", "notices", "usage")
# The texts of a language, as JSON.
TEXTS = "import('/texts/' + arguments[0] + '.js').then((it) => it.default)"
FIRM = """export const firm = { name: "Nordlicht Hosting", logo: "icon.svg",
  colours: { light: "%s", dark: "#ffb86b" }, login: "https://nordlicht.example/login", help: "https://nordlicht.example/help" };
"""
ACCENT = "getComputedStyle(document.querySelector('[aria-selected=true]')).color"


def holes(text):
    """What a text has of values, in one form or in each."""
    forms = [text] if isinstance(text, str) else list(text.values())
    return {word for form in forms for word in re.findall(r"\{(\w+)\}", form)}


def test_each_language_has_each_text(visit, paper):
    """The same names with the same values in each; no text of the page is without one."""
    browser = visit.browser
    visit.on_paper()
    english, german = (browser.run(TEXTS, it) for it in ("en", "de"))
    expect(len(english) > 250 and [*english] == [*german], "one language alone has", {*english} ^ {*german})
    differ = {it for it in english if holes(english[it]) != holes(german[it])}
    expect(not differ, "other values have", differ)
    same = [it for it in english if isinstance(english[it], str) and len(english[it]) > 15 and english[it] == german[it]]
    expect(not set(same) - {"endsHint"}, "not translated are", same)
    words = (ROOT / "web/index.html").read_text() + "".join(it.read_text() for it in (ROOT / "web").glob("*.js"))
    named = {it for kind in ("text", "label-text", "hint") for it in re.findall(rf'data-{kind}="(\w+)"', words)}
    named |= {it for some in re.findall(r'data-columns="([\w ]+)"', words) for it in some.split()}
    named |= set(re.findall(r'\btext\("(\w+)"', words))
    expect(len(named) > 150 and not named - {*english}, "without a text are", named - {*english})


def test_german(visit, paper):
    """It is chosen by the browser or by hand, and kept; each view fits at 360 and at 1280."""
    browser = visit.browser
    paper.queue([message(1, pending=[("bob@far.example", "4.2.0", "mailbox busy")]), message(2, state="hold", reason="x")])
    visit.on_paper()
    browser.choose("#language", "de")
    browser.until(lambda: browser.run("document.documentElement.lang") == "de", "the language stays")
    visit.settled()
    expect(browser.text("h1") == "Ausgehende Post" and browser.text("#tab-queue") == "Warteschlange", "it is told as",
           browser.text("h1"))
    for width in (1280, 360):
        browser.size(width)
        for view in VIEWS:
            visit.browser.click(f"#tab-{view}")
            browser.one(f"#{view}")
            expect(browser.run(TOO_WIDE) <= 0, view, "is too wide at", width)
            visit.picture(f"german-{view}-{width}")
    browser.size(1280)
    visit.browser.click("#tab-queue")
    visit.mark("0000000001")
    browser.click("[data-marked=hold]")
    browser.tells("0000000001 ist angehalten.")
    browser.until(lambda: browser.text(f"{visit.row('0000000001')} .said") == "vom Kunden angehalten", "why it waits is told as",
                  browser.text(f"{visit.row('0000000001')} .said"))
    browser.write("#search", "vom kunden")
    visit.rows_are(["0000000001"])
    browser.write("#search", "")
    browser.refresh()
    visit.settled()
    expect(browser.run("document.documentElement.lang") == "de", "the language is forgotten")
    browser.run("localStorage.clear()")
    browser.protocol("Emulation.setUserAgentOverride", userAgent="x", acceptLanguage="de-AT")
    browser.refresh()
    visit.settled()
    expect(browser.run("document.documentElement.lang") == "de", "the browser's language is not taken")
    browser.protocol("Emulation.setUserAgentOverride", userAgent="", acceptLanguage="en-US")


def test_the_firm(visit, paper):
    """One file gives its name, its colours and its links; a colour that cannot be read is not taken."""
    browser = visit.browser
    file = visit.folder / "paper/web/firm.js"
    before = file.read_text()
    # (nginx tells files of one second and one length as the same)
    browser.protocol("Network.enable")
    browser.protocol("Network.setCacheDisabled", cacheDisabled=True)
    visit.on_paper()
    plain = browser.run(ACCENT)
    for colour, wanted in (("#7a1f5c", "rgb(122, 31, 92)"), ("#ffd9f0", plain), ("nonsense", plain)):
        file.write_text(FIRM % colour)
        browser.refresh()
        visit.settled()
        expect(browser.run(ACCENT) == wanted, colour, "is worn as", browser.run(ACCENT))
    names = [browser.text("#firm"), browser.run("document.title")]
    expect(names == ["Nordlicht Hosting", "Overview – Outgoing mail – Nordlicht Hosting"], "the firm is told as", names)
    expect(browser.run("document.querySelector('#help').href") == "https://nordlicht.example/help", "help is elsewhere")
    browser.scheme("dark")
    expect(browser.run(ACCENT) == "rgb(255, 184, 107)", "in the dark it wears", browser.run(ACCENT))
    visit.picture("firm-dark")
    browser.scheme("light")
    file.write_text(before)
    browser.protocol("Network.setCacheDisabled", cacheDisabled=False)


def test_no_text_becomes_markup():
    """No file of the page makes markup of a text, runs one, or names another host."""
    for it in sorted((ROOT / "web").rglob("*.js")):
        text = it.read_text()
        expect("innerHTML" not in text and "eval(" not in text and "insertAdjacentHTML" not in text, it, "makes markup of texts")
        expect("http://" not in text.replace("http://www.w3.org/2000/svg", "") and '"https://' not in text, it,
               "names another host")
