"""LMTP (RFC 2033), as Postfix speaks it with XFORWARD and DSN: one recipient a transaction.

`aiosmtpd` speaks it. Here is what that lacks: the queue ID over XFORWARD, the parameters of DSN
(RFC 3461), data that go to a file, and the most sessions at once.
"""
import asyncio
import collections
import logging
import re
import socket
import threading
from collections.abc import AsyncIterator, Callable, Container, Iterator
from concurrent.futures import ThreadPoolExecutor
from contextlib import contextmanager
from typing import TypeVar

from aiosmtpd import smtp
from aiosmtpd.lmtp import LMTP

from hq_relay import log
from hq_relay.dsn import clean, from_xtext
from hq_relay.intake.incoming import AnnouncedMessage, IncomingMessage
from hq_relay.intake.policy_server import PolicyServer
from hq_relay.intake.submission import Intake
from hq_relay.settings import Settings
from hq_relay.settings_values import Address

Found = TypeVar("Found")

# How many seconds a client may be silent; and the most bytes of a command's line, and of a piece of
# the data. Then the end of the data.
IDLE, LONGEST_LINE, LARGEST_PIECE, END = 300, 4096, 65536, b"\r\n.\r\n"
# An address with its brackets, and the rest of the line.
ADDRESS = re.compile(r'(?s)(.*?<(?:"(?:[^"\\]|\\.)*"|[^">])*>)(.*)')
CLIENT = re.compile(r"[A-Za-z0-9.:_\[\]-]{1,255}")
SIZE = re.compile(r"(?i)SIZE=([0-9]{1,15})")
# So many sessions may wait to be taken.
BACKLOG = 128
# How many seconds pass before a session is taken again after the system had no room for one.
NOT_TAKEN = 1
GOING_DOWN = "421 4.3.2 going down"
# (its own lines have each command of each client)
logging.getLogger("mail.log").setLevel(logging.CRITICAL)


def parted(argument: str | None, names: Container[str]) -> tuple[str | None, dict[str, str]]:
    """The argument of MAIL or RCPT without the parameters of these names, and their values."""
    found = ADDRESS.fullmatch(argument or "")
    if not found:
        return argument, {}
    kept, values = [found[1]], {}
    for word in found[2].split():
        name, equals, value = word.partition("=")
        if equals and name.upper() in names:
            values[name.upper()] = clean(from_xtext(value))
        else:
            kept.append(word)
    return " ".join(kept), values


def size_of(options: list[str]) -> int:
    """The bytes that a client announces; 0 if it announces none."""
    sizes = (SIZE.fullmatch(option) for option in options)
    return next((int(size[1]) for size in sizes if size), 0)


class Session(LMTP):
    """A client's session."""

    line_length_limit = LARGEST_PIECE
    command_size_limit = LONGEST_LINE
    command_size_limits = collections.defaultdict(lambda: LONGEST_LINE)

    def __init__(self, server: "LmtpServer"):
        settings = server.settings
        super().__init__(server, hostname=settings.host, ident="LMTP", timeout=IDLE,
                         data_size_limit=settings.largest, enable_SMTPUTF8=True, loop=server.loop)
        self.server, self.is_admitted = server, False
        self.ident: str | None = None
        self.parameters: dict[str, str] = {}

    def connection_made(self, transport: asyncio.BaseTransport) -> None:
        self.is_admitted = self.server.admits(self)
        if self.is_admitted:
            super().connection_made(transport)
        elif isinstance(transport, asyncio.WriteTransport):
            transport.write(b"421 4.3.2 too many sessions\r\n")
            transport.close()

    def connection_lost(self, error: Exception | None) -> None:
        if self.is_admitted:
            self.server.sessions.discard(self)
            super().connection_lost(error)

    def _set_rset_state(self) -> None:
        """(aiosmtpd calls this wherever a transaction begins anew.)"""
        super()._set_rset_state()
        self.ident, self.parameters = None, {}

    def _getaddr(self, arg: str) -> tuple[str | None, str | None]:
        """(aiosmtpd calls this for an address and its parameters. The address stays as it is.)"""
        found = ADDRESS.fullmatch(arg)
        if not found or not found[1].startswith("<"):
            return None, None
        return (found[1][1:-1] or "<>"), found[2]

    @smtp.syntax("XFORWARD attributes")
    async def smtp_XFORWARD(self, argument: str | None) -> None:
        attributes = [word.partition("=") for word in (argument or "").split(" ")]
        idents = [value for name, _, value in attributes if name.upper() == "IDENT"]
        self.ident = from_xtext(idents[0]) if len(idents) == 1 else None
        await self.push("250 2.0.0 ok")

    async def smtp_MAIL(self, arg: str | None) -> None:
        argument, values = parted(arg, ("RET", "ENVID"))
        if not self.envelope.mail_from:
            self.parameters = values
        await super().smtp_MAIL(argument)

    async def smtp_RCPT(self, arg: str | None) -> None:
        if self.envelope.rcpt_tos:
            await self.push("452 4.5.3 one recipient a transaction")
            return
        argument, values = parted(arg, ("NOTIFY", "ORCPT"))
        await super().smtp_RCPT(argument)
        self.parameters.update(values)

    @smtp.syntax("DATA")
    async def smtp_DATA(self, arg: str | None) -> None:
        if self.server.is_ending:
            await self.push(GOING_DOWN)
            self.transport.close()
        elif not self.envelope.rcpt_tos:
            await self.push("503 5.5.1 RCPT first")
        else:
            await self.receive(IncomingMessage(self.server.intake, self.announced()))
            self._set_rset_state()

    def announced(self) -> AnnouncedMessage:
        """What the client has said of its message."""
        envelope, name = self.envelope, self.session.host_name or ""
        sender = "" if envelope.mail_from == "<>" else envelope.mail_from or ""
        return AnnouncedMessage(
            client=name if CLIENT.fullmatch(name) else "unknown", ident=self.ident,
            sender=sender, recipient=envelope.rcpt_tos[0],
            notify=self.parameters.get("NOTIFY", ""), original=self.parameters.get("ORCPT", ""),
            envelope_id=self.parameters.get("ENVID", ""), returned=self.parameters.get("RET", ""),
            is_utf8=bool(envelope.smtp_utf8), size=size_of(envelope.mail_options))

    async def receive(self, message: IncomingMessage) -> None:
        """Writes the data to a file as they come, and answers them."""
        try:
            async for piece in self.pieces():
                # (a message of one piece begins and ends in one step)
                if message.has_head:
                    await self.server.in_thread(message.begin)
                message.add(piece)
        except BaseException:
            message.drop()
            raise
        with self.server.answering():
            await self.push(await self.server.in_thread(message.end))

    async def pieces(self) -> AsyncIterator[bytes]:
        """The content, in pieces of any size, without the dots that were added to its lines.

        Only CR LF ends a line.
        """
        # (so that a dot on the first line follows a line's end, too)
        self._reader.feed_data(b"\r\n")
        await self.push("354 go on")
        text, is_last, begins_at = b"", False, len(b"\r\n")
        while not is_last:
            try:
                text += (await self._reader.readuntil(END))[:-len(b".\r\n")]
                is_last = True
            except asyncio.LimitOverrunError as error:
                text += await self._reader.read(error.consumed)
            # (a dot may follow the beginning of a line's end)
            left = 0 if is_last else 2 if text.endswith(b"\r\n") else int(text.endswith(b"\r"))
            piece, text = text[:len(text) - left], text[len(text) - left:]
            yield piece.replace(b"\r\n.", b"\r\n")[begins_at:]
            begins_at = 0


def listen(at: Address) -> list[socket.socket]:
    """Sockets that listen at an address: several if a name has several."""
    found = socket.getaddrinfo(*at, type=socket.SOCK_STREAM, flags=socket.AI_PASSIVE)
    addresses = dict.fromkeys((family, address) for family, _, _, _, address in found)
    listening = [socket.create_server(address, family=family, backlog=BACKLOG)
                 for family, address in addresses]
    for listener in listening:
        # (else an answer waits until the one before it is acknowledged; sessions inherit this)
        listener.setsockopt(socket.IPPROTO_TCP, socket.TCP_NODELAY, 1)
    return listening


class LmtpServer:
    """Takes sessions of listening sockets, at most so many at once.

    The sessions run in one thread; what waits for a disk or the desk does so in others. At the
    sockets `policy` Postfix asks whose mail comes.
    """

    def __init__(self, settings: Settings, intake: Intake, listening: list[socket.socket],
                 policy: list[socket.socket]):
        self.settings, self.intake, self.listening = settings, intake, listening
        self.policy = PolicyServer(intake, policy)
        self.sessions: set[Session] = set()
        self.beginning: set[asyncio.Task[object]] = set()
        self.is_ending, self.answers = False, 0
        self.pool = ThreadPoolExecutor(settings.connections)
        self.loop = asyncio.new_event_loop()
        for listener in listening:
            listener.setblocking(False)
            self.loop.add_reader(listener, self.take, listener)

    def start(self) -> None:
        self.loop.run_until_complete(self.policy.start())
        threading.Thread(target=self.loop.run_forever, daemon=True).start()

    def take(self, listener: socket.socket) -> None:
        """Takes one session: other processes take theirs from the same socket.

        (A server of asyncio takes as many at once as may wait. Fewer may not wait, not even for a
        moment: the system drops those without room. And a client that already counts as connected
        hears nothing when the processes are killed.)
        """
        try:
            client, _ = listener.accept()
        except (BlockingIOError, ConnectionAbortedError):
            return  # another process was first, or the client has gone
        except OSError as error:  # no more files, or no memory
            log.error("no session taken", why=error, again=f"in {NOT_TAKEN} s")
            self.loop.remove_reader(listener)
            self.loop.call_later(NOT_TAKEN, self.take_again, listener)
            return
        begun: asyncio.Task[object] = self.loop.create_task(
            self.loop.connect_accepted_socket(lambda: Session(self), client))
        # (the loop itself keeps no task)
        self.beginning.add(begun)
        begun.add_done_callback(self.beginning.discard)

    def take_again(self, listener: socket.socket) -> None:
        if not self.is_ending:
            self.loop.add_reader(listener, self.take, listener)

    def admits(self, session: Session) -> bool:
        """Whether there is room for a session, which is then one of them."""
        if len(self.sessions) < self.settings.connections:
            self.sessions.add(session)
            return True
        log.warning("too many sessions", most=self.settings.connections)
        return False

    async def in_thread(self, work: Callable[[], Found]) -> Found:
        return await self.loop.run_in_executor(self.pool, work)

    @contextmanager
    def answering(self) -> Iterator[None]:
        """A message has come whole, and waits for its answer meanwhile."""
        self.answers += 1
        try:
            yield
        finally:
            self.answers -= 1

    # ---- calls of aiosmtpd

    async def handle_EHLO(self, _: Session, session: smtp.Session, __: smtp.Envelope, name: str,
                          answers: list[str]) -> list[str]:
        session.host_name = name
        return [*answers[:-1], "250-PIPELINING", "250-ENHANCEDSTATUSCODES", "250-DSN",
                "250 XFORWARD IDENT"]

    async def handle_MAIL(self, _: Session, __: smtp.Session, envelope: smtp.Envelope,
                          address: str, options: list[str]) -> str:
        envelope.mail_from = address
        envelope.mail_options.extend(options)
        return "250 2.1.0 ok"

    async def handle_RCPT(self, _: Session, __: smtp.Session, envelope: smtp.Envelope,
                          address: str, options: list[str]) -> str:
        envelope.rcpt_tos.append(address)
        envelope.rcpt_options.extend(options)
        return "250 2.1.5 ok"

    async def handle_exception(self, error: Exception) -> str:
        log.error("session failed", why=repr(error))
        return "451 4.3.0 the session failed"

    # ---- the end

    def stop(self) -> None:
        """Takes no more messages, and returns when each that came whole was answered."""
        asyncio.run_coroutine_threadsafe(self.end(), self.loop).result()

    async def end(self) -> None:
        self.is_ending = True
        self.policy.close()
        for listener in self.listening:
            self.loop.remove_reader(listener)
            listener.close()
        while self.answers:
            await asyncio.sleep(0.02)
