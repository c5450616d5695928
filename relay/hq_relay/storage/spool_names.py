"""Spool names and queue IDs: what the book learns from the desk's lists."""
from hq_relay.desk.client import Desk
from hq_relay.desk.replies import ListedMessage, Message
from hq_relay.storage.book import Book
from hq_relay.storage.spool import Spool


class SpoolNames:
    """The spool names of the desk's messages. Each call of the desk may raise Refused or Away."""

    def __init__(self, desk: Desk, spool: Spool, book: Book):
        self.desk, self.spool, self.book = desk, spool, book

    def record(self, customer: str, id: str, spool: str) -> None:
        """Writes down that a name is queued under this ID.

        A name with content was taken: so a retry of the MTA finds a record, even if the intake was
        stopped after the submit.
        """
        envelope = self.spool.envelope(spool)
        if envelope and envelope.customer == customer:
            answer = f"250 2.0.0 queued as {id}"
            self.book.taken(customer, spool, id, answer, self.spool.size(spool))
        else:
            self.book.named(customer, id, spool)

    def known(self, customer: str, entry: ListedMessage) -> str | None:
        """The name of a listed message, if the book has it.

        A record that is older than its arrival is of another message, from before a restore of the
        desk.
        """
        return self.book.spool_of(customer, entry.id, entry.arrival)

    def shown(self, customer: str, id: str) -> Message | None:
        """A message whole. The book has its name from then on."""
        message = self.desk.message(customer, id)
        if message:
            self.record(customer, id, message.spool)
        return message

    def queued(self, customer: str) -> dict[str, str]:
        """The names of the customer's queued messages by queue ID.

        The book learns the names that it does not know: of requeued messages, and of those whose
        submit was done when the intake was stopped.
        """
        names: dict[str, str] = {}
        for entry in self.desk.messages(customer):
            spool = self.known(customer, entry)
            if not spool:
                message = self.shown(customer, entry.id)
                if not message:
                    continue  # it has left, or comes again under a greater ID
                spool = message.spool
            names[entry.id] = spool
        return names

    def message(self, customer: str, spool: str, after: str) -> Message | None:
        """The customer's message of this name after a queue ID, shown whole."""
        for entry in self.desk.messages(customer, after):
            if self.known(customer, entry) in (None, spool):
                message = self.shown(customer, entry.id)
                if message and message.spool == spool:
                    return message
        return None

    def anywhere(self, customer: str, spool: str, id: str) -> Message | None:
        """The customer's message of this name, shown whole.

        It has this ID, or a greater one if it was requeued.
        """
        message = self.desk.message(customer, id)
        if message and message.spool == spool:
            return message
        return self.message(customer, spool, id)

    def unrecorded(self) -> set[str]:
        """The customers of contents without a record, whose submit may have been done or not."""
        envelopes = (self.spool.envelope(name) for name in self.spool.names()
                     if not self.book.answer(name))
        return {envelope.customer for envelope in envelopes if envelope}
