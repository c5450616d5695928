"""The page for customers in a real browser, as people use it: by mouse and by keyboard.

nginx serves it by the very lines of docs/OPERATIONS.md, before the compiled program, and in many
tests before a desk of paper, which has what the program has seldom. Each view leaves a picture in
out/page.
"""
import contextlib
import tempfile
from pathlib import Path

import needs
import pytest
from browser import Browser
from page_desk import desk, proxy
from paper import Paper
from visit import Visit


@pytest.fixture(scope="session")
def pages(program):
    """A browser, a desk, a desk of paper and three addresses, for all tests: each has a tab of its own, and empty queues."""
    needs.command("chromium", "chromedriver", "nginx")
    with tempfile.TemporaryDirectory() as made, contextlib.ExitStack() as stack:
        folder, begun = Path(made), stack.enter_context
        folder.chmod(0o755)
        browser = begun(Browser(folder))
        asked = begun(desk(program, folder / "desk"))
        paper = begun(Paper())
        proxies = (begun(proxy(folder / "page", asked.address)),
                   begun(proxy(folder / "paper", paper.server_address)),
                   begun(proxy(folder / "cookie", asked.address, by_cookie=True)))
        yield Visit(browser, asked, paper, folder, proxies)


@pytest.fixture
def visit(pages):
    """A new tab, in which no key is known, and empty queues."""
    pages.begin()
    yield pages
    pages.end()


@pytest.fixture
def paper(visit):
    """The same before a desk of paper."""
    return visit.paper
