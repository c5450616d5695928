"""Postfix's policy protocol (SMTPD_POLICY_README): whose mail comes, before its content does.

Mail of nobody, and mail that the desk would not take, is refused in the client's session, and so
Postfix has nothing to bounce. Other mail of a customer goes to the worker by a way of the
customer's own. Postfix serves its destinations in turn, each by so many processes at most: so the
mail of one waits for nobody else's.
"""
import asyncio
import hashlib
import socket
from dataclasses import replace

from hq_relay import log
from hq_relay.intake.admission import MOST_BYTES, NO_ROOM, Admission, PolicyRequest, Transaction
from hq_relay.intake.submission import NOBODY, Intake
from hq_relay.settings_values import Address

# The most bytes of a request, and the most clients, which are processes of Postfix.
LARGEST, MOST = 65_536, 400
# In seconds: the longest silence of a client, and the longest time for a request.
IDLE, LONGEST = 3_600, 30
REQUEST = "smtpd_access_policy"
# The step of a session at which a message has come whole, and the most bytes of header fields that
# are added to it on its way to the desk.
WHOLE, FIELDS = "END-OF-MESSAGE", 4_096
# A port at which no service listens, below those that any user may take.
NOBODYS_PORT = 1
# How many values the second and the third byte of an address of loopback have that is nobody's.
NETWORK, SIZE = 64, 64


def request_of(text: bytes) -> PolicyRequest:
    """The request of a text: each line has a name and a value."""
    lines = (line.partition("=") for line in text.decode("utf-8", "replace").split("\n"))
    attributes = {name: value for name, equals, value in lines if equals}
    return PolicyRequest(
        attributes.get("request", ""), attributes.get("protocol_state", ""),
        attributes.get("instance", ""), attributes.get("sender", ""),
        attributes.get("recipient", ""),
        attributes.get("sasl_username") or None, attributes.get("size", ""))


def way_of(customer: str, intake: Address) -> str:
    """The worker's address, as a destination of this customer alone.

    Postfix distinguishes destinations by their text. The first address makes it another one for
    each: nobody listens there, so that Postfix connects to the second one, the worker's, at once.
    (In the other order its reason for a later try would be that nobody listens.) Its port is one
    that root alone may listen at, since who listens there gets the mail.
    """
    host, port = intake
    one, two, three = hashlib.sha256(customer.encode()).digest()[:3]
    return f"[127.{NETWORK + one % SIZE}.{two}.{three}]:{NOBODYS_PORT},[{host}]:{port}"


def customer_of(intake: Intake, request: PolicyRequest) -> str | None:
    """The customer of a request; None if it is nobody's."""
    customer = intake.owner(request.login, request.sender)
    if not customer:
        log.warning("no customer", sender=request.sender, login=request.login)
    return customer


class PolicyServer:
    """Answers Postfix at these sockets, in the loop of the process."""

    def __init__(self, intake: Intake, listening: list[socket.socket]):
        self.intake, self.listening, self.admission = intake, listening, Admission(intake)
        self.servers: list[asyncio.AbstractServer] = []
        self.clients = 0

    async def start(self) -> None:
        self.servers = [await asyncio.start_server(self.serve, sock=listening, limit=LARGEST)
                        for listening in self.listening]

    def close(self) -> None:
        for server in self.servers:
            server.close()

    async def serve(self, reader: asyncio.StreamReader, writer: asyncio.StreamWriter) -> None:
        """Answers one request after the other, until its client goes."""
        self.clients += 1
        transaction = Transaction()
        try:
            while self.clients <= MOST:
                text = await self.request(reader)
                if text is None:
                    break
                action = await self.action_of(request_of(text), transaction)
                writer.write(f"action={action}\n\n".encode())
                await writer.drain()
        except (ConnectionError, asyncio.TimeoutError):
            pass  # (a client that goes away is no fault)
        except Exception as error:
            log.error("session failed", why=repr(error))
        finally:
            self.clients -= 1
            writer.close()

    async def action_of(self, request: PolicyRequest, transaction: Transaction) -> str:
        """What Postfix is to do with a recipient, or with a message whose content it has."""
        if request.request != REQUEST:
            return "DUNNO"
        customer = customer_of(self.intake, request)
        if not customer:
            return NOBODY
        message = transaction.at(request.instance)
        if request.state == WHOLE:
            return await self.action_of_whole(customer, request, message)
        if request.recipient and self.admission.is_asked(customer):
            refusal = await self.refusal(customer, request, message.let_in)
            if refusal:
                log.info("refused before its content", customer=customer, answer=refusal)
                return " ".join(refusal.split())
            message.let_in += 1
            message.recipient = message.recipient or request.recipient
        return f"FILTER desk:{way_of(customer, self.intake.settings.listen)}"

    async def action_of_whole(
            self, customer: str, request: PolicyRequest, message: Transaction) -> str:
        """Refuses a message without room: nothing bounds the queue of Postfix.

        A client may have announced no size, or another one. The desk is asked for one of the
        recipients who were let in, so that a message comes in that has room for some of them.
        """
        recipient = message.recipient or request.recipient or request.sender
        if not recipient or not self.admission.is_asked(customer):
            return "DUNNO"
        size = min(request.bytes + FIELDS, MOST_BYTES)
        whole = replace(request, recipient=recipient, size=str(size))
        refusal = await self.refusal(customer, whole, 0)
        if not refusal or not refusal.startswith(NO_ROOM):
            return "DUNNO"
        log.info("refused after its content", customer=customer, answer=refusal)
        return " ".join(refusal.split())

    async def refusal(self, customer: str, request: PolicyRequest, before: int) -> str | None:
        loop = asyncio.get_running_loop()
        return await loop.run_in_executor(
            self.admission.pool, self.admission.refusal, customer, request, before)

    @staticmethod
    async def request(reader: asyncio.StreamReader) -> bytes | None:
        """The text of the next request; None if there is none, or one that is too long."""
        try:
            first = await asyncio.wait_for(reader.readexactly(1), IDLE)
            return first + await asyncio.wait_for(reader.readuntil(b"\n\n"), LONGEST)
        except (asyncio.IncompleteReadError, asyncio.LimitOverrunError):
            return None
