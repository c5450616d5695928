"""A message while it comes from Postfix: whose it is, and the file that its content goes to."""
import hashlib
import re
from collections.abc import Callable
from dataclasses import dataclass
from functools import partial
from typing import TYPE_CHECKING

from hq_relay import log
from hq_relay.storage.spool import Draft, Envelope

if TYPE_CHECKING:
    from hq_relay.intake.submission import Intake

# Postfix's long queue IDs; short ones are used again, so no name can be made of them.
CONSONANTS = "0-9B-DF-HJ-NP-TV-Zb-df-hj-np-tv-y"
LONG_ID = re.compile(f"[{CONSONANTS}z]{{10,24}}z[{CONSONANTS}]{{1,16}}")
# They begin with the second in which the message came, in these digits, and four more for a part
# of it.
DIGITS = "0123456789BCDFGHJKLMNPQRSTVWXYZbcdfghjklmnpqrstvwxyz"
# The first field of a message that Postfix hands over is its own. Nobody else's is read.
FIRST_FIELD = re.compile(rb"[!-9;-~]+:[^\n]*\n(?:[ \t][^\n]*\n)*(?=[^ \t])")
LARGEST_FIELD = 4096
# Mail that left by the delivering instance, and came straight to the front, has below that field
# those of that instance and of this worker. So many fields, and bytes, are read for that.
FIELDS, LARGEST_FIELDS = 3, 3 * LARGEST_FIELD
BY_DELIVERING, BY_WORKER = b" (postfix) with ", b" with lmtp id "
# (each is a line of its own, which no client can begin)
BY_POSTFIX = re.compile(rb"[ \t]+by \S+ \(.*\) with \S+ id ([0-9A-Za-z]+)\b.*")
LOGIN = re.compile(rb"[ \t]+\(Authenticated sender: (.*)\)")
LINE_OF_LOGIN = re.compile(rb"\n[ \t]+\(Authenticated sender: [^\n]*\)\r?(?=\n)")


class NotTaken(Exception):
    """A message is not taken; the text is the answer to the MTA."""


@dataclass(frozen=True)
class AnnouncedMessage:
    """What the MTA says of a message before its data.

    `client` hands it over, and `ident` is its queue ID there. `notify`, `original`, `envelope_id`
    and
    `returned` are parameters of DSN. `size` is in bytes, and 0 if the MTA does not say it.
    """

    client: str
    ident: str | None
    sender: str
    recipient: str
    notify: str = ""
    original: str = ""
    envelope_id: str = ""
    returned: str = ""
    is_utf8: bool = False
    size: int = 0

    def envelope(self, customer: str, spool: str) -> Envelope:
        return Envelope(customer, spool, self.sender, self.recipient, self.notify, self.original,
                        self.envelope_id, self.returned, self.is_utf8)


def spool_name(ident: str, recipient: str) -> str:
    """The name of the message for this one recipient: the same whenever the MTA tries it again."""
    local, at, domain = recipient.rpartition("@")
    digest = hashlib.sha256(f"{local}{at}{domain.lower()}".encode(errors="replace")).hexdigest()
    return f"{ident}-{digest[:16]}"


def first_field(content: bytes) -> bytes:
    """The first field of a message; nothing if it is not whole."""
    found = FIRST_FIELD.match(content)
    return found[0] if found else b""


def first_fields(content: bytes) -> tuple[list[bytes], bool]:
    """The first fields of a message that are whole, and whether there are as many as are read."""
    fields: list[bytes] = []
    at = 0
    while len(fields) < FIELDS:
        found = FIRST_FIELD.match(content, at)
        if not found:
            return fields, content.startswith((b"\n", b"\r\n"), at)
        fields.append(found[0])
        at = found.end()
    return fields, True


def is_straight_back(fields: list[bytes], host: str) -> bool:
    """Whether a message came to the front straight from the delivering instance of this host.

    It has left the desk then, and is nobody's who sends by a domain: the front has trusted its own
    machine.
    """
    by = b"\tby " + host.lower().encode()
    below = [field[:LARGEST_FIELD].lower() for field in fields[1:]]
    return len(fields) == FIELDS and all(
        field.startswith(b"received:") and by + rest in field
        for field, rest in zip(below, (BY_DELIVERING, BY_WORKER), strict=True))


def login_of(field: bytes, ident: str) -> tuple[bool, str | None]:
    """Whether a field is the `Received` that Postfix wrote for this queue ID, and its login."""
    login = None
    for line in field.split(b"\n") if field.startswith(b"Received:") else ():
        by, found = (pattern.fullmatch(line.rstrip(b"\r")) for pattern in (BY_POSTFIX, LOGIN))
        if by:
            is_ours = by[1].decode() == ident
            return is_ours, login if is_ours else None
        login = found[1].decode("utf-8", "replace") if found else login
    return False, None


def arrival_of(ident: str) -> int:
    """The second in which Postfix took in the message of a long queue ID, since 1970."""
    arrival = 0
    for digit in ident.rpartition("z")[0][:-4]:
        arrival = arrival * len(DIGITS) + DIGITS.index(digit)
    return arrival


class IncomingMessage:
    """A message while its data come.

    Its first field decides whose it is, and its content goes to a file. A fault is answered at the
    end of the data.
    """

    def __init__(self, intake: "Intake", announced: AnnouncedMessage):
        self.intake, self.announced = intake, announced
        self.head, self.size = b"", 0
        self.name = ""
        self.draft: Draft | None = None
        self.envelope: Envelope | None = None
        self.answer: str | None = None

    @property
    def has_head(self) -> bool:
        """Whether `begin` is to be called, before more of the content is added."""
        is_whole = len(self.head) >= LARGEST_FIELDS or first_fields(self.head)[1]
        return not self.draft and not self.answer and is_whole

    def add(self, piece: bytes) -> None:
        """Adds a piece of the content."""
        self.size += len(piece)
        if self.size > self.intake.settings.largest:
            self.end_with("552 5.3.4 the message is too large")
        elif self.draft:
            self.do(partial(self.draft.write, piece))
        elif not self.answer:
            self.head += piece

    def begin(self) -> None:
        """Finds out whose the message is, and begins its file."""
        self.do(self.begin_file)

    def end(self) -> str:
        """Keeps the message, submits it, and returns the answer to the MTA."""
        try:
            if not self.draft and not self.answer:
                self.begin()
            if not self.answer:
                self.do(self.submit)
            return self.answer or ""
        finally:
            self.drop()

    def drop(self) -> None:
        """Removes the file, unless it was kept."""
        if self.draft:
            self.draft.drop()

    # ---- the steps

    def do(self, step: Callable[[], None]) -> None:
        """Does a step, unless there is an answer. Its fault is the answer."""
        if self.answer:
            return
        try:
            step()
        except NotTaken as error:
            self.end_with(str(error))
        except Exception as error:  # a full disk, a book that cannot be written: never 250
            log.error("not taken", spool=self.name, why=repr(error))
            self.end_with("451 4.3.0 the message could not be kept")

    def end_with(self, answer: str) -> None:
        self.answer = self.answer or answer

    def submit(self) -> None:
        assert self.envelope and self.draft
        self.end_with(self.intake.take(self.envelope, self.draft))

    def expect_no_loop(self) -> None:
        """Raises NotTaken for mail that the delivering instance brought to this machine itself."""
        if is_straight_back(first_fields(self.head)[0], self.intake.settings.host):
            log.warning("comes straight back", spool=self.name, sender=self.announced.sender,
                        recipient=self.announced.recipient)
            raise NotTaken("550 5.4.6 mail that was sent from here comes back here")

    def begin_file(self) -> None:
        ident = self.announced.ident
        if not ident or not LONG_ID.fullmatch(ident):
            log.error("no long queue ID", ident=ident, sender=self.announced.sender,
                      recipient=self.announced.recipient)
            raise NotTaken("451 4.3.5 no long queue ID by XFORWARD IDENT")
        self.name = spool_name(ident, self.announced.recipient)
        answer = self.intake.answered(self.name)
        if answer:
            raise NotTaken(answer)
        self.expect_no_loop()
        field = first_field(self.head)
        customer = self.intake.customer(ident, self.name, self.announced.sender, field)
        self.intake.expect_room(customer, self.announced.size)
        self.envelope = self.announced.envelope(customer, self.name)
        self.draft = self.intake.spool.draft(self.envelope)
        self.draft.write(self.intake.received(self.announced.client, self.envelope))
        self.draft.write(LINE_OF_LOGIN.sub(b"", field) + self.head[len(field):])
        self.head = b""
