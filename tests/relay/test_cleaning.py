"""How long a clean-up takes of a customer with very much content."""
import time
from types import SimpleNamespace

from hq_relay.storage.book import Uncleaned
from hq_relay.storage.spool_cleaning import SpoolCleaning
from serving import expect
from hq_relay.settings_tables import Customer

MANY = 20_000


class Book:
    """Has so much content of messages that the customer has just deleted."""

    def __init__(self):
        self.removed = []

    def uncleaned(self, customer):
        return {f"s{number}": Uncleaned(False, None, 10) for number in range(MANY)}

    def unreported(self, customer):
        return []

    def cleaned(self, spools):
        self.removed += spools

    def gone(self, spools, since):
        pass

    def forget(self, customer, ids, before):
        pass


def test_a_clean_up_of_much(monkeypatch):
    """Twice as much content takes about twice as long: 20,000 messages of which most go take a second, and not minutes."""
    book = Book()
    settings = SimpleNamespace(customers={"acme": Customer("acme", 10, 1000, 10)}, keep_days=7.0)
    spool, names = SimpleNamespace(remove=lambda name: None), SimpleNamespace(queued=lambda customer: {})
    begun = time.monotonic()
    SpoolCleaning(settings, spool, book, names).clean("acme", set())
    expect(len(book.removed) == MANY - 100, "removed were", len(book.removed))
    expect(time.monotonic() < begun + 10, "that took", time.monotonic() - begun)
