"""The calls of the desk that the worker makes, each over a connection of its own."""
import json
import re
import socket
from collections.abc import Callable, Iterable, Iterator
from typing import TypeVar

from hq_relay.desk.replies import (DueMessage, DuePage, End, ListedMessage, Message, Notice,
                                   OutcomeReply, Swept, Usage, Verdict, due_message_of, due_page_of,
                                   end_of, listed_message_of, message_of, notice_of,
                                   outcome_reply_of, swept_of, usage_page_of, verdict_of)
from hq_relay.json_members import Members, as_members, number_of, objects_of
from hq_relay.outcome import Outcome
from hq_relay.settings import Settings
from hq_relay.settings_values import Address

Entry = TypeVar("Entry")
Page = TypeVar("Page")

# Numbers of refusals, for each of which the worker does something else (docs/API.md).
NO_ROUTE, NO_MESSAGE, NO_CUSTOMER, BAD_ADDRESS = 4, 10, 13, 20
ATTEMPT_AHEAD, UNKNOWN_RECIPIENT = 30, 31
QUOTA_MESSAGES, QUOTA_BYTES, SERIALS_SPENT = 40, 41, 43
# How many seconds a step of a call takes at most if there are several desks.
LONGEST_OF_SEVERAL = 10.0
# The most bytes of a reply, and of one read.
LARGEST_REPLY, PIECE = 256_000_000, 262_144
STATUS_LINE = re.compile(rb"HTTP/1\.[01] ([0-9]{3})[ \r]")
LENGTH = re.compile(rb"(?i)\r\ncontent-length:[ \t]*([0-9]{1,12})[ \t]*\r\n")
OK, NOT_FOUND, UNAVAILABLE = 200, 404, 503


class Refused(Exception):
    """The desk refused a call, and changed nothing.

    `number` and `name` are those of the refusal; no desk has the number 0. `attempts` counts the
    attempts of a message that the desk has reports of, if the refusal says so.
    """

    def __init__(self, body: Members):
        number, attempts = body["error"], body.get("attempts")
        self.number = number if isinstance(number, int) else 0
        self.name = str(body.get("name"))
        self.attempts = attempts if isinstance(attempts, int) else None
        super().__init__(f"{number} {self.name}")


class Away(Exception):
    """No reply, or a fault: nobody knows whether the call was done. It may be repeated.

    `status` is the HTTP status of a reply that no desk made.
    """

    def __init__(self, why: str, status: int | None = None):
        super().__init__(why)
        self.status = status


def has_no_call_of_all(error: Exception) -> bool:
    """Whether the address has no call of all or of a hundred customers.

    The proxy of several desks answers 404 to it, and so does a desk of an earlier release.
    """
    if isinstance(error, Refused):
        return error.number == NO_ROUTE
    return isinstance(error, Away) and error.status == NOT_FOUND


class Call:
    """A call that was sent. Others may be sent before its reply is read."""

    def __init__(self, desk: "Desk", path: str, body: Members | None, timeout: float | None):
        """Raises Away if the desk does not take it within so many seconds."""
        self.path = path
        host, port = desk.address
        host = f"[{host}]" if ":" in host else host
        content = json.dumps(body).encode() if body is not None else b""
        head = (f"POST {path} HTTP/1.1\r\nHost: {host}:{port}\r\nX-Desk-Key: {desk.key}\r\n"
                f"Content-Length: {len(content)}\r\nConnection: close\r\n\r\n")
        # (`http.client` takes three times as long)
        try:
            self.socket = socket.create_connection(desk.address, timeout or desk.timeout)
        except OSError as error:
            raise Away(f"{path}: {error!r}") from error
        try:
            self.socket.sendall(head.encode() + content)
        except OSError as error:
            self.close()
            raise Away(f"{path}: {error!r}") from error

    def close(self) -> None:
        self.socket.close()

    def reply(self) -> Members:
        """The body of the reply. Raises Refused, or Away if there is no reply of a desk."""
        try:
            status, text = self.parted()
            body: object = json.loads(text)
        except (OSError, ValueError) as error:
            raise Away(f"{self.path}: {error!r}") from error
        finally:
            self.close()
        if status == OK:
            return as_members(body, self.path)
        if status == UNAVAILABLE or not isinstance(body, dict) or "error" not in body:
            raise Away(f"{self.path}: {status} {body}", status)
        raise Refused(body)

    def parted(self) -> tuple[int, bytes]:
        """The status of the reply, and its body, which ends with the connection.

        ValueError is raised if it is no reply, or was cut.
        """
        text = self.read()
        head, end, body = text.partition(b"\r\n\r\n")
        status, length = STATUS_LINE.match(head), LENGTH.search(head + b"\r\n")
        if not (status and end):
            raise ValueError(f"no reply: {text[:100]!r}")
        if length and len(body) != int(length[1]):
            raise ValueError(f"{len(body)} bytes of {int(length[1])}")
        return int(status[1]), body

    def read(self) -> bytes:
        pieces = [self.socket.recv(PIECE)]
        size = len(pieces[0])
        while pieces[-1]:
            if size > LARGEST_REPLY:
                raise ValueError("the reply does not end")
            pieces.append(self.socket.recv(PIECE))
            size += len(pieces[-1])
        return b"".join(pieces)


class OutcomeCall:
    """Outcomes that were sent to the desk."""

    def __init__(self, call: Call):
        self.call = call

    def close(self) -> None:
        self.call.close()

    def reply(self) -> OutcomeReply:
        """The reply, by the errors of `Call.reply`."""
        return outcome_reply_of(self.call.reply())


class Desk:
    """A desk, or the proxy of several. Each call raises Refused, or Away.

    `timeout` is the most seconds that a step of a call takes.
    """

    def __init__(self, address: Address, key: str, timeout: float):
        self.address, self.key, self.timeout = address, key, timeout

    def begin(self, path: str, body: Members | None = None, timeout: float | None = None) -> Call:
        """Sends one call."""
        return Call(self, path, body, timeout)

    def ask(self, path: str, body: Members | None = None, timeout: float | None = None) -> Members:
        """The body of the reply to one call."""
        return self.begin(path, body, timeout).reply()

    # ---- messages that come in

    def submit(self, customer: str, spool: str, sender: str, recipient: str, size: int) -> Verdict:
        """Submits a message of so many bytes, for one recipient."""
        body: Members = {"spool": spool, "sender": sender, "recipients": [recipient], "size": size}
        return verdict_of(self.ask(f"/relay/submit/{customer}", body))

    def admit(self, customer: str, sender: str, recipient: str, size: int,
              timeout: float) -> Verdict:
        """The verdict that a submission would get, within so many seconds."""
        body: Members = {"sender": sender, "recipients": [recipient], "size": size}
        reply = self.ask(f"/relay/admit/{customer}", body, min(timeout, self.timeout))
        return verdict_of(reply)

    # ---- messages that are delivered

    def outcome(self, customer: str, id: str, attempt: int,
                outcomes: Iterable[Outcome]) -> OutcomeCall:
        """Sends the outcomes of an attempt."""
        members = [outcome.desk_members() for outcome in outcomes]
        body: Members = {"id": id, "attempt": attempt, "outcomes": members}
        return OutcomeCall(self.begin(f"/relay/outcome/{customer}", body))

    def sweep(self, customer: str) -> Swept:
        return swept_of(self.ask(f"/relay/sweep/{customer}"))

    def message(self, customer: str, id: str) -> Message | None:
        """A message shown whole; None if it has left the queue, or has another ID by now."""
        try:
            return message_of(self.ask(f"/relay/message/{customer}", {"id": id}))
        except Refused as refusal:
            if refusal.number != NO_MESSAGE:
                raise
            return None

    def notice(self, customer: str, number: int) -> Notice:
        return notice_of(self.ask(f"/relay/notice/{customer}", {"number": number}))

    # ---- all customers

    def usages(self) -> list[Usage]:
        """The usage of each customer of the desk."""
        usages: list[Usage] = []
        for page in self.by_hundreds("/relay/usage-from", usage_page_of):
            if page.stopped:
                raise Away(f"/relay/usage-from stopped: {page.stopped._asdict()}")
            usages += page.usages
        return usages

    def due_of_all(self, timeout: float) -> Iterator[DuePage]:
        """Of all customers who has due mail, up to the one at whom a fault stopped the call."""
        return self.by_hundreds("/relay/due-from", due_page_of, timeout)

    def due_of(self, customers: Iterable[str], timeout: float) -> Iterator[DuePage]:
        """Of these customers, and of those after them in the directory, who has due mail.

        A call has a hundred customers. The last reply may have a fault.
        """
        left = dict.fromkeys(customers)
        while left:
            first = next(iter(left))
            del left[first]
            try:
                page = due_page_of(self.ask("/relay/due-from", {"from": first}, timeout))
            except Refused as refusal:
                if refusal.number != NO_CUSTOMER:
                    raise
                continue  # (the desk has other customers than the worker's settings)
            yield page
            if page.stopped:
                return
            for customer in page.is_due:
                left.pop(customer, None)

    def by_hundreds(self, path: str, page_of: Callable[[Members], Page],
                    timeout: float | None = None) -> Iterator[Page]:
        """The replies to calls of a hundred customers each, so that nobody waits for a long one.

        The last reply has a fault, or no customer is left.
        """
        start: object = None
        starts: set[object] = set()
        while start not in starts:
            starts.add(start)
            reply = self.ask(path, {"from": start}, timeout)
            yield page_of(reply)
            start = None if reply["stopped"] else reply["next"]
        if start is not None:
            raise Away(f"{path}: it goes on at {start} again")

    # ---- lists of a customer

    def due(self, customer: str, after: str | None = None) -> Iterator[DueMessage]:
        return self.pages("due", customer, "due", due_message_of, "id", after)

    def messages(self, customer: str, after: str | None = None) -> Iterator[ListedMessage]:
        return self.pages("messages", customer, "messages", listed_message_of, "id", after)

    def first_messages(self, customer: str) -> list[ListedMessage]:
        """The first page of a customer's messages."""
        reply = self.ask(f"/relay/messages/{customer}", {"after": None})
        return [listed_message_of(entry) for entry in objects_of(reply, "messages")]

    def notice_numbers(self, customer: str, after: int | None = None) -> Iterator[int]:
        """The numbers of a customer's notices."""
        return self.pages("notices", customer, "notices",
                          lambda entry: number_of(entry, "number"), "number", after)

    def history(self, customer: str) -> Iterator[End]:
        """The recipients that left the queue, the newest first, as far as the history has them."""
        before: object = None
        while True:
            reply = self.ask(f"/relay/history/{customer}", {"before": before})
            ends = objects_of(reply, "history")
            yield from map(end_of, ends)
            if not ends or not reply["more"]:
                return
            before = ends[-1]["number"]

    def pages(self, kind: str, customer: str, member: str, entry_of: Callable[[Members], Entry],
              key: str, after: object = None) -> Iterator[Entry]:
        """All entries of a list, page by page, from the one after a key on.

        A page is asked for after those before it were used, until one is empty. So a message that
        is requeued meanwhile comes again, at the end.
        """
        while True:
            reply = self.ask(f"/relay/{kind}/{customer}", {"after": after})
            entries = objects_of(reply, member)
            if not entries:
                return
            for entry in entries:
                yield entry_of(entry)
            after = entries[-1][key]


def desk_of(settings: Settings) -> Desk:
    """The desk of the settings."""
    # (one that hangs must not hold up a new start, which waits for the calls that are under way)
    longest = LONGEST_OF_SEVERAL if settings.has_several_desks else settings.desk_timeout
    return Desk(settings.desk, settings.key, min(longest, settings.desk_timeout))
