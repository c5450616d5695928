"""A visit to the page: what the parts of tests/page have in hand."""
from page_desk import CEDAR, ROOT
from serving import ACME, BIRCH, expect

PICTURES = ROOT / "out/page"
# what a customer reads of 413, and how much wider than its window a page is
TOO_LONG = "This is too long: at most 262,144 bytes can be sent at once. Nothing was done."
TOO_WIDE = "document.documentElement.scrollWidth - document.documentElement.clientWidth"
# Whether the page shows what its desk said last, and asks for nothing.
SETTLED = """!document.querySelector('#views').hidden && document.querySelector('#age').textContent !== ''
  && document.querySelector('#views').ariaBusy !== 'true' && !document.querySelector('#refresh.asking')"""


class Visit:
    """A browser before three addresses: the page before the desk, before one of paper, and before the
    desk by a cookie."""

    def __init__(self, browser, desk, paper, folder, proxies):
        self.browser, self.desk, self.paper, self.folder = browser, desk, paper, folder
        pages = ["http://{}:{}/".format(*it.address) for it in proxies]
        self.page, self.paper_page, self.cookie_page = pages
        self.proxies, self.figures = proxies, []

    def begin(self):
        """A new tab, in which no key is known, and empty queues without rules."""
        browser = self.browser
        old = browser.window()
        browser.new_tab()
        kept = browser.window()
        browser.turn_to(old)
        browser.close_tab()
        browser.turn_to(kept)
        browser.size(1280)
        browser.complaints()
        self.paper.reset()
        for key in (ACME, BIRCH, CEDAR):
            self.desk.empty(key)
            self.desk.drop_rules(key)

    def end(self):
        """The browser has refused nothing that the page wanted, and the page has met no fault of
        its own."""
        told = [it for it in self.browser.complaints() if "Failed to load resource" not in it]
        expect(not told, "the browser complains:", told)

    def use(self, key, page=None):
        """Opens the page, and gives it a key."""
        browser = self.browser
        browser.go(page or self.page)
        browser.write("#key", key)
        browser.click("#key-form [type=submit]")
        self.settled()

    def on_paper(self, view=None):
        """Opens the page before the desk of paper."""
        self.use(ACME, self.paper_page)
        if view:
            self.turn_to(view)

    def settled(self):
        """Waits until the page shows what its desk said, and nothing is under way."""
        self.browser.until(lambda: self.browser.run(SETTLED), "the page does not settle, but tells",
                           self.browser.text("main"))

    def refresh(self):
        self.browser.click("#refresh")
        self.settled()

    def turn_to(self, view):
        """Opens a tab of the page, and waits for what it shows."""
        self.browser.click(f"#tab-{view}")
        self.browser.one(f"#{view}")
        filled = {"overview": "#well", "find": "#find-shown", "queue": "#shown", "sent": "#ends-shown", "rules": "#lines-shown",
                  "notices": "#notices-shown", "usage": "#counts td"}[view]
        busy = f"document.querySelector('#{view} [aria-busy=true]')"
        # (a narrow page hides the list beside a message that is open)
        told = f"document.querySelector('{filled}')?.textContent || 'Loading …'"
        self.browser.until(lambda: self.browser.run(told) != "Loading …" and not self.browser.run(busy),
                           view, "shows nothing")

    def row(self, queue_id):
        return f"tr.message[data-id='{queue_id}']"

    def rows(self):
        """The queue IDs that are shown."""
        return self.browser.run("[...document.querySelectorAll('tr.message')].map((it) => it.dataset.id)")

    def rows_are(self, wanted):
        self.browser.until(lambda: self.rows() == [*wanted], "shown are", self.rows(), "and not", wanted)

    def mark(self, *ids):
        for it in ids:
            self.browser.click(f"{self.row(it)} input")

    def do(self, name, *ids):
        """Marks messages, and presses a button for those that are marked."""
        self.mark(*ids)
        self.browser.click(f"[data-marked={name}]")

    def open(self, queue_id):
        """Opens the detail of a message, and waits until it has been asked for."""
        self.browser.click(f"{self.row(queue_id)} .people")
        self.browser.until(lambda: "Spool name" in (self.browser.text("#detail-facts") or ""), "nothing opens")

    def answer(self, yes, title=None):
        """Answers the question of the page."""
        self.browser.one("#question")
        asked = self.browser.text("#question-title")
        expect(title in (None, asked), "the page asks", repr(asked), "and not", repr(title))
        self.browser.click("#question-yes" if yes else "#question-no")

    def delete_now(self):
        """Does not wait for what may be undone."""
        self.browser.click("#delete-now")

    def says(self, where, wanted):
        self.browser.until(lambda: self.browser.text(where) == wanted, where, "is", self.browser.text(where),
                           "and not", wanted)

    def picture(self, name):
        self.browser.picture(PICTURES / f"{name}.png")

    def told(self):
        """The lines that tell what happened, without the button that takes it back."""
        return [it for it in (self.browser.text("#told") or "").split("\n") if it and it != "Undo"]
