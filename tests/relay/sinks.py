"""Servers of SMTP in threads of a test: they accept, refuse, defer or hang, and know what came.
`aiosmtpd` speaks for them.
"""
import asyncio
import collections
import contextlib
import re
import socket
import socketserver
import threading
import time

from aiosmtpd.controller import Controller
from aiosmtpd.smtp import SMTP

from serving import LONGEST, until

ACCEPTS, REFUSES, DEFERS = "250 2.1.5 ok", "550 5.1.1 no such user", "450 4.2.0 mailbox busy"


class Session(SMTP):
    """One client of a sink."""

    async def _handle_client(self):
        """Counts the client while it is there. (aiosmtpd has no hook for its end.)"""
        sink = self.event_handler
        sink.sessions += 1
        sink.most = max(sink.most, sink.sessions)
        try:
            # (a client that goes away is no error)
            with contextlib.suppress(ConnectionError):
                await super()._handle_client()
        finally:
            sink.sessions -= 1


class Sink(Controller):
    """A server that answers each recipient by this text, or by what this function answers. aiosmtpd
    gets `more` for its sessions."""

    def __init__(self, answer=ACCEPTS, address=("127.0.0.1", 0), session=Session, **more):
        more = {"server_hostname": "sink.example", "enable_SMTPUTF8": False, **more}
        super().__init__(self, *address, ready_timeout=LONGEST, **more)
        self.answer = answer if callable(answer) else lambda _: answer
        self.session = session
        # the recipients that were asked for; and of what was taken sender, recipients and text
        self.asked, self.mail = [], []
        # a client waits behind its data while the gate is shut; and, if it hangs, before that
        self.hangs, self.gate = False, threading.Event()
        self.gate.set()
        self.sessions = self.most = self.waiting = 0
        self.start()

    def factory(self):
        return self.session(self, **self.SMTP_kwargs)

    def _trigger_server(self):
        """Learns which port the system chose. (aiosmtpd would try the one that it was given, 0.)"""
        self.address = self.server.sockets[0].getsockname()
        self.port = self.address[1]
        super()._trigger_server()

    def __enter__(self):
        return self

    def __exit__(self, *_):
        self.stop()

    # ---- what aiosmtpd asks

    async def handle_EHLO(self, server, session, envelope, name, answers):
        session.host_name = name
        return [*answers[:-1], "250 PIPELINING"]

    async def handle_RCPT(self, server, session, envelope, address, options):
        self.asked.append(address)
        if self.hangs:
            await self.opened()
        answer = self.answer(address)
        if answer.startswith("2"):
            envelope.rcpt_tos.append(address)
        # (as bytes, since some hosts answer past ASCII where nobody asked for it)
        return answer.replace("\n", "\r\n").encode()

    async def handle_DATA(self, server, session, envelope):
        # (what is forgotten meanwhile goes into the list of before)
        mail = self.mail
        self.waiting += 1
        try:
            await self.opened()
        finally:
            self.waiting -= 1
        # (no sender comes as these brackets)
        sender = "" if envelope.mail_from == "<>" else envelope.mail_from
        mail.append((sender, envelope.rcpt_tos, envelope.content))
        return "250 2.0.0 taken"

    async def opened(self):
        """Waits until the gate is open, and no longer than that."""
        end = time.monotonic() + LONGEST
        while not self.gate.is_set() and time.monotonic() < end:
            await asyncio.sleep(0.01)

    # ---- what a test asks

    def until_waiting(self, count=1):
        """Waits until so many clients wait for the answer to their data."""
        until(lambda: self.waiting >= count, "nobody waits for the answer to data")

    def counts(self):
        """How often each recipient got a message."""
        return dict(collections.Counter(it for _, some, _ in list(self.mail) for it in some))

    def forget(self):
        """Forgets what came, and what is coming just now."""
        self.asked, self.mail, self.most = [], [], 0


class Lossy(socketserver.ThreadingTCPServer):
    """Stands before a desk: it hands each request on, and loses the replies to those that have
    some text, while it `loses`."""
    allow_reuse_address, daemon_threads, block_on_close = True, True, False

    def __init__(self, desk, text):
        super().__init__(("127.0.0.1", 0), Lost)
        self.desk, self.text, self.loses = desk, text, True
        self.address = self.server_address

    def __enter__(self):
        threading.Thread(target=self.serve_forever, daemon=True).start()
        return self

    def __exit__(self, *_):
        self.shutdown()
        self.server_close()

    def handle_error(self, *_):
        """A desk or a client that goes away is no error."""


class Lost(socketserver.BaseRequestHandler):
    """One request, which is whole when its body is."""

    def handle(self):
        lossy, asked = self.server, b""
        while not whole(asked):
            asked += self.request.recv(65536)
        with socket.create_connection(lossy.desk, timeout=LONGEST) as desk:
            desk.sendall(asked)
            reply = b"".join(iter(lambda: desk.recv(65536), b""))
        if not (lossy.loses and lossy.text in asked):
            self.request.sendall(reply)


def whole(asked):
    """Whether a request is there to its end."""
    head, end, body = asked.partition(b"\r\n\r\n")
    length = re.search(rb"(?i)\r\ncontent-length: *([0-9]+)", head)
    return end and len(body) >= int(length[1] if length else 0)
