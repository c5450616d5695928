"""The Postfix instance that delivers: sessions with it, its queue, and taking mail back."""
import re
import smtplib
import socket
import subprocess
import threading
from dataclasses import dataclass, field
from pathlib import Path

from hq_relay import log
from hq_relay.delivery.destinations import Capacity
from hq_relay.dsn import OF_POLICY, OF_THE_SYSTEM, STATUS, xtext
from hq_relay.json_members import Members, members_of, objects_of, text_of
from hq_relay.outcome import Result
from hq_relay.postfix.lines import REPORTS
from hq_relay.settings import Settings
from hq_relay.storage.attempts import Attempt
from hq_relay.storage.spool import Kept

# How many seconds the answer to a content may take (RFC 5321, 4.5.3.2.6).
LONGEST_END = 600
# After these nobody knows whether a message was taken.
BROKEN = (OSError, smtplib.SMTPException)
QUEUED = re.compile(rb"queued as ([0-9A-Za-z]+)")
# The answers of `take-back`, and the most bytes of one that are read.
DELETED, NOT_THERE, LONGEST_ANSWER = "deleted", "not there", 1000
# A code of SMTP that ends the session.
CLOSING = 421


class NotTaken(Exception):
    """The instance took nothing of a message, by an answer with this code and text.

    `is_of_all` if it would take no other one either. Else the message is deferred, or has failed if
    it never will be taken. A refusal by the instance's own policy is for its operator to mend.
    """

    def __init__(self, code: int, text: bytes):
        answer = text.decode("latin-1")
        super().__init__(f"{code} {answer}")
        found = STATUS.match(answer)
        subject, detail = (int(found[2]), int(found[3])) if found else (0, 0)
        self.is_of_all = code == CLOSING or (code < 500 and subject in (0, OF_THE_SYSTEM))
        is_final = code >= 500 and subject not in (0, OF_POLICY)
        self.result = Result.FAILED if is_final else Result.DEFERRED
        self.status = f"{5 if is_final else 4}.{subject}.{detail}"


class Session:
    """A session with the instance, for many messages."""

    def __init__(self, settings: Settings):
        """Raises OSError or SMTPException if there is none to be had."""
        self.timeout = settings.timeout
        self.smtp = smtplib.SMTP(*settings.instance, local_hostname=settings.host,
                                 timeout=self.timeout)
        # (else the content waits until the command before it is acknowledged)
        self.socket.setsockopt(socket.IPPROTO_TCP, socket.TCP_NODELAY, 1)
        self.smtp.ehlo()
        lacking = [name for name in ("dsn", "chunking", "8bitmime") if not self.smtp.has_extn(name)]
        if lacking:
            self.close()
            raise OSError(f"the delivering instance does not announce {lacking}")
        # (so that its log has the envelope ID of each message)
        self.has_ident = "IDENT" in self.smtp.esmtp_features.get("xforward", "").split()
        self.is_content_begun = False

    @property
    def socket(self) -> socket.socket:
        """The socket of an open session."""
        if self.smtp.sock is None:
            raise smtplib.SMTPServerDisconnected("the session is closed")
        return self.smtp.sock

    def send(self, attempt: Attempt, kept: Kept, is_by_log: bool) -> str:
        """Hands a message over, and returns its queue ID.

        A mail reports its success, unless the log does. Raises NotTaken if it was refused. After
        OSError or SMTPException nobody knows, if its content was begun.
        """
        self.is_content_begun = False
        is_utf8 = kept.envelope.is_utf8 and self.smtp.has_extn("smtputf8")
        options = f"SIZE={kept.size} BODY=8BITMIME RET=HDRS ENVID={xtext(attempt.envelope)}"
        wanted = "FAILURE" if is_by_log else "SUCCESS,FAILURE"
        recipients = [f"RCPT TO:<{recipient}> NOTIFY={wanted} ORCPT=rfc822;{xtext(recipient)}"
                      for recipient in attempt.recipients]
        sender = f"MAIL FROM:<{attempt.sender}> {options}{' SMTPUTF8' if is_utf8 else ''}"
        self.ask([*self.ident(attempt.envelope), sender, *recipients])
        # (the content goes from its file to the socket; BDAT counts its bytes, and changes none)
        self.is_content_begun = True
        self.smtp.putcmd(f"BDAT {kept.size} LAST")
        if self.socket.sendfile(kept.file, kept.start, kept.size) != kept.size:
            raise OSError("the content became shorter meanwhile")
        text = self.last_answer()
        found = QUEUED.search(text)
        if not found:
            raise smtplib.SMTPServerDisconnected(f"no queue ID: {text!r}")
        return found[1].decode()

    def ident(self, envelope: str) -> list[str]:
        return [f"XFORWARD IDENT={xtext(envelope)}"] if self.has_ident else []

    def probe(self, envelope: str) -> None:
        """Begins a message and drops it, so that the log has a line with an envelope ID."""
        recipient = f"RCPT TO:<probe@{self.smtp.local_hostname}>"
        try:
            self.ask([*self.ident(envelope), "MAIL FROM:<>", recipient])
            self.smtp.rset()
        except NotTaken as error:
            log.warning("the delivering instance takes no probe", why=error)

    def ask(self, commands: list[str]) -> None:
        """Sends commands in one piece, so that nobody waits for an answer between them.

        Raises NotTaken if one of them is refused.
        """
        if any("\r" in command or "\n" in command for command in commands):
            raise ValueError("a command of two lines")
        refused: tuple[int, bytes] | None = None
        answer = (0, b"")
        is_one_piece = self.smtp.has_extn("pipelining")
        for piece in [commands] if is_one_piece else [[command] for command in commands]:
            self.smtp.send("".join(f"{command}\r\n" for command in piece))
            for _ in piece:
                answer = self.smtp.getreply()
                if not refused and not 200 <= answer[0] < 300:
                    refused = answer
                if answer[0] == CLOSING:
                    break
            if refused:
                break
        self.judge(*(refused or answer))

    def judge(self, code: int, text: bytes) -> bytes:
        """The text of an answer of the class 2; else the transaction is ended."""
        if 200 <= code < 300:
            return text
        if code == CLOSING:
            self.close()
        else:
            self.smtp.rset()
        raise NotTaken(code, text)

    def last_answer(self) -> bytes:
        """The answer to a content, for which filters there may need long."""
        self.socket.settimeout(max(LONGEST_END, self.timeout))
        text = self.judge(*self.smtp.getreply())
        self.socket.settimeout(self.timeout)
        return text

    def is_alive(self) -> bool:
        """Whether the instance still answers in this session; it closes one that was idle."""
        try:
            return self.smtp.sock is not None and self.smtp.noop()[0] == 250
        except BROKEN:
            return False

    def close(self) -> None:
        self.smtp.close()


@dataclass
class Queue:
    """The queue of the instance.

    `ids` has the queue file of each queue ID, such as `deferred`, and `envelopes` its sender with
    each recipient. `oldest_report` is the arrival of the oldest report, in seconds since 1970
    (infinity if there is none).
    """

    ids: dict[str, str] = field(default_factory=dict)
    envelopes: dict[str, set[tuple[str, str]]] = field(default_factory=dict)
    oldest_report: float = float("inf")

    def add(self, row: Members) -> None:
        """Adds a row of postqueue."""
        id, sender = text_of(row, "queue_id"), text_of(row, "sender")
        recipients = [text_of(recipient, "address") for recipient in objects_of(row, "recipients")]
        sender = "" if sender == "MAILER-DAEMON" else sender.lower()
        self.ids[id] = text_of(row, "queue_name")
        self.envelopes[id] = {(sender, recipient.lower()) for recipient in recipients}
        if REPORTS in recipients:
            self.oldest_report = min(self.oldest_report, float(str(row["arrival_time"])))

    def has(self, attempt: Attempt, known: set[str]) -> bool:
        """Whether an attempt lies there.

        If its queue ID is not known, whether it may be a message other than those known.
        """
        if attempt.queue_id:
            return attempt.queue_id in self.ids
        own = {(attempt.sender.lower(), recipient.lower()) for recipient in attempt.recipients}
        return any(own & envelope for id, envelope in self.envelopes.items() if id not in known)


def queue(settings: Settings) -> Queue:
    """The queue of the instance now. Raises OSError if it cannot be read."""
    found = Queue()
    command = ["postqueue", "-c", str(settings.delivering), "-j"]
    with subprocess.Popen(command, stdin=subprocess.DEVNULL, stdout=subprocess.PIPE,
                          stderr=subprocess.PIPE) as listing:
        assert listing.stdout and listing.stderr
        limit = threading.Timer(settings.timeout, listing.kill)
        limit.start()
        try:
            for line in listing.stdout:
                found.add(members_of(line))
            why = listing.stderr.read(1000).decode(errors="replace").strip()
        except (ValueError, KeyError, TypeError) as error:
            listing.kill()
            why = repr(error)
        finally:
            limit.cancel()
    if listing.returncode:
        raise OSError(f"postqueue ended with {listing.returncode}: {why}")
    return found


def postconf(settings: Settings, *words: str) -> list[str]:
    """The words that postconf prints of the instance."""
    command = ["postconf", "-c", str(settings.delivering), *words]
    return subprocess.run(command, stdin=subprocess.DEVNULL, capture_output=True, text=True,
                          timeout=settings.timeout, check=True).stdout.split()


def capacity(settings: Settings) -> Capacity:
    """The processes by which the instance sends, and how many of them a domain may take.

    If postconf fails, those of an instance that nobody has changed.
    """
    try:
        of_all, at_a_domain = postconf(
            settings, "-xh", "default_process_limit", "smtp_destination_concurrency_limit")
        of_smtp, = postconf(settings, "-Fh", "smtp/unix/process_limit")
        processes = int(of_all if of_smtp == "-" else of_smtp) or Capacity.processes
        # (0 is no limit, as Postfix has it)
        return Capacity(processes, int(at_a_domain) or processes)
    except (OSError, ValueError, subprocess.SubprocessError) as error:
        log.warning("the delivering instance does not tell its limits", why=error)
        return Capacity()


def take_back(settings: Settings, id: str) -> bool:
    """Deletes a message from the instance's queue; whether it was there.

    It wants the rights of root. Raises OSError if they are not given.
    """
    if settings.socket:
        return take_back_over(settings.socket, id, settings.timeout)
    command = [*settings.postsuper, "-c", str(settings.delivering), "-d", id]
    try:
        done = subprocess.run(command, stdin=subprocess.DEVNULL, capture_output=True,
                              timeout=settings.timeout)
    except subprocess.TimeoutExpired:
        raise OSError(f"{command[0]} does not end") from None
    if done.returncode:
        raise OSError(done.stderr[-300:].decode(errors="replace").strip())
    return b"Deleted: 1 message" in done.stderr


def take_back_over(path: Path, id: str, timeout: float) -> bool:
    """The same by root's helper `take-back`, which answers one line of a socket with another.

    Raises ConnectionResetError if it has no place for one more call just now.
    """
    with socket.socket(socket.AF_UNIX) as helper:
        helper.settimeout(timeout)
        helper.connect(str(path))
        helper.sendall(f"{id}\n".encode())
        with helper.makefile("rb") as answers:
            answer = answers.readline(LONGEST_ANSWER).decode(errors="replace").strip()
    if not answer:
        raise ConnectionResetError(f"{path} gives no answer")
    if answer not in (DELETED, NOT_THERE):
        raise OSError(f"{path} answers {answer!r}")
    return answer == DELETED
