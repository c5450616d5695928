"""Two instances of Postfix, and the sinks behind them, for the tests of a file; and a whole delivery without any."""
import tempfile
from pathlib import Path
from types import SimpleNamespace

from hq_relay import log
import needs
import pytest
from hq_relay.storage.book import Book
from hq_relay.delivery.service import Delivery
from house import PAUSE, Hops
from machine import PYTHON, Shared
from hq_relay.notices.next_hop import Mailing, NextHop
from hq_relay.settings_tables import Customer
from hq_relay.storage.spool import Spool


@pytest.fixture(scope="module")
def shared():
    needs.command("postfix")
    needs.root()
    needs.module(PYTHON, "aiosmtpd")
    with tempfile.TemporaryDirectory() as made, Shared(Path(made)) as it:
        yield it


@pytest.fixture
def hops(monkeypatch):
    found = Hops(Mailing.DONE)
    monkeypatch.setattr(NextHop, "mail", lambda _, recipient, content: found.mail(recipient, content))
    return found


@pytest.fixture
def delivering(folder, hops):
    """Makes a delivery for a desk whose customers keep one notice each. It has not begun, and is ended behind the test."""
    made = []

    def make(desk, *customers):
        names = customers or ("acme",)
        settings = SimpleNamespace(
            customers={it: Customer(it, 10, 1000, 1) for it in names}, desks={}, has_several_desks=False,
            of_desks=lambda: {"": [*names]}, sessions=1, pause=PAUSE, rest=1.0,
            keep_days=7, lost_after=0.0, settle_after=0.0, sweep_every=3600.0, clean_every=3600.0,
            reports=folder / "reports", folder=folder, log=folder / "mail.log",
            host="relay.example", notices_from="MAILER-DAEMON@relay.example")
        made.append(Delivery(settings, desk, Spool(folder), Book(folder)))
        return made[-1]
    yield make
    hops.gate.set()
    for it in made:
        it.desk.gate.set()
        it.end()


@pytest.fixture
def logged(monkeypatch):
    """The events of the level error, as they are logged."""
    lines = []
    monkeypatch.setattr(log, "error", lambda event, **words: lines.append(event))
    return lines
