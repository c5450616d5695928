"""A Chromium without a window, by selenium: what the tests of the page say to it."""
import os
import time

from selenium.webdriver import ActionChains, Chrome, ChromeOptions
from selenium.webdriver.chrome.service import Service
from selenium.webdriver.common.keys import Keys

from serving import LONGEST, expect

OPTIONS = ["--headless", "--no-sandbox", "--disable-dev-shm-usage", "--disable-gpu",
           "--no-first-run", "--disable-extensions",
           "--disable-background-networking", "--disable-component-update", "--no-proxy-server",
           # (the proxy of deploy/ has a certificate of its own making here)
           "--ignore-certificate-errors", "--window-size=1280,900"]
ENTER, ESCAPE, TAB, RIGHT, END_KEY = Keys.ENTER, Keys.ESCAPE, Keys.TAB, Keys.ARROW_RIGHT, Keys.END


class Browser:
    """A browser with a profile of its own in a folder. `with` ends it, and the driver too."""

    def __init__(self, folder):
        # (both put what they make into the folder)
        home = {**os.environ, "HOME": str(folder), "TMPDIR": str(folder),
                "XDG_CONFIG_HOME": str(folder)}
        options = ChromeOptions()
        for it in (*OPTIONS, f"--user-data-dir={folder}/profile"):
            options.add_argument(it)
        options.set_capability("goog:loggingPrefs", {"browser": "ALL"})
        self.driver = Chrome(service=Service("/usr/bin/chromedriver", env=home), options=options)
        self.driver.set_script_timeout(LONGEST)

    def __enter__(self):
        return self

    def __exit__(self, *_):
        self.driver.quit()

    # ---- windows and addresses

    def go(self, address):
        self.driver.get(address)

    def refresh(self):
        self.driver.refresh()

    def address(self):
        return self.driver.current_url

    def window(self):
        return self.driver.current_window_handle

    def new_tab(self):
        self.driver.switch_to.new_window("tab")
        return self.window()

    def close_tab(self):
        self.driver.close()

    def turn_to(self, window):
        self.driver.switch_to.window(window)

    def protocol(self, command, **params):
        """A command of Chromium's own protocol."""
        return self.driver.execute_cdp_cmd(command, params)

    def size(self, width, height=900):
        self.protocol("Emulation.setDeviceMetricsOverride", width=width, height=height,
                      deviceScaleFactor=1, mobile=False)

    def scheme(self, name):
        self.protocol("Emulation.setEmulatedMedia",
                      features=[{"name": "prefers-color-scheme", "value": name}])

    def media(self, name="", **features):
        """Another medium, such as paper, or features of it; none are those of before."""
        some = [{"name": it.replace("_", "-"), "value": value} for it, value in features.items()]
        self.protocol("Emulation.setEmulatedMedia", media=name, features=some)

    def picture(self, file):
        file.parent.mkdir(parents=True, exist_ok=True)
        file.write_bytes(self.driver.get_screenshot_as_png())

    def complaints(self):
        """What the console has told since this was asked last."""
        return [it["message"] for it in self.driver.get_log("browser")]

    # ---- what is on the page

    def run(self, script, *given):
        """The value of an expression in the page; `arguments` are those given."""
        return self.driver.execute_script(f"return {script}", *given)

    def all(self, selector):
        return self.driver.find_elements("css selector", selector)

    def one(self, selector):
        """The first shown element of a selector, once there is one."""
        script = "[...document.querySelectorAll(arguments[0])].find((it) => it.checkVisibility())"
        return self.until(lambda: self.run(script, selector), selector, "is not shown")

    def click(self, selector):
        """Clicks an element, in the middle of the window where it can be."""
        found = self.one(selector)
        self.run("arguments[0].scrollIntoView({ block: 'center' })", found)
        found.click()

    def write(self, selector, text):
        """Empties a field, and types into it."""
        field = self.one(selector)
        field.clear()
        if text:
            field.send_keys(text)

    def attach(self, selector, file):
        """Chooses a file in a field."""
        self.one(selector).send_keys(str(file))

    def choose(self, selector, value):
        self.one(selector)
        script = """(() => {
            const it = document.querySelector(arguments[0]);
            it.value = arguments[1];
            it.dispatchEvent(new Event('change', { bubbles: true }));
            return it.value;
        })()"""
        expect(self.run(script, selector, value) == value, selector, "has no", value)

    def keys(self, *pressed):
        """Keys, pressed one after the other at what has the focus."""
        ActionChains(self.driver).send_keys(*pressed).perform()

    def text(self, selector):
        """The text of an element as it is shown, "" where it is hidden; None where there is none."""
        script = "((it) => it && (it.checkVisibility() ? it.innerText : ''))(document.querySelector(arguments[0]))"
        return self.run(script, selector)

    def texts(self, selector):
        """The text of each element of a selector."""
        script = "[...document.querySelectorAll(arguments[0])].map((it) => it.innerText)"
        return self.run(script, selector)

    def rows(self, table, *cells):
        """The text of these cells in each row of a table."""
        script = """[...document.querySelectorAll(`${arguments[0]} tbody tr`)].map(
            (row) => arguments[1].map((it) => row.cells[it].innerText))"""
        return self.run(script, table, cells)

    def count(self, selector):
        return self.run("document.querySelectorAll(arguments[0]).length", selector)

    def until(self, holds, *told):
        """Waits until something holds, and answers it."""
        until = time.monotonic() + LONGEST / 3
        while True:
            found = holds()
            if found:
                return found
            expect(time.monotonic() < until, *told)
            time.sleep(0.03)

    def tells(self, wanted):
        """The page says this, as a whole line, in its region of what happened."""
        until = time.monotonic() + LONGEST / 3
        while wanted not in (found := (self.text("#told") or "").split("\n")):
            expect(time.monotonic() < until, "the page does not say", repr(wanted), "but", found)
            time.sleep(0.03)
