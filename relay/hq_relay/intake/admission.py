"""Whether the desk would take a recipient: the worker asks before the content comes.

Mail that the desk would refuse is refused in the client's session: its content is neither sent nor
written, and nobody has to bounce it. Mail comes in if nobody knows the answer, and waits in
Postfix.
"""
import time
from concurrent.futures import ThreadPoolExecutor
from dataclasses import dataclass

from hq_relay import log
from hq_relay.desk.client import BAD_ADDRESS, Away, Refused
from hq_relay.intake.incoming import NotTaken
from hq_relay.intake.submission import Intake, rejection_of

# A size of the desk's calls is at most so many bytes; a message has at least one.
LEAST, MOST_BYTES = 1, 2_147_483_647
# In seconds: the rest of a desk that did not answer, and the longest wait for an answer. Postfix
# waits for 10.
REST, LONGEST = 2.0, 4.0
# How a refusal begins after which a client tries again once there is room.
NO_ROOM = "452 "
# The most calls of a process that are under way.
CALLS = 16


@dataclass(frozen=True, slots=True)
class PolicyRequest:
    """A request of Postfix's policy protocol, with the attributes that the worker uses.

    `state` is the step of the session, and `instance` the name of a message in Postfix. `login` is
    the name of a client that logged in. `size` is the text of the bytes that the client announces,
    or of those that came.
    """

    request: str = ""
    state: str = ""
    instance: str = ""
    sender: str = ""
    recipient: str = ""
    login: str | None = None
    size: str = ""

    @property
    def bytes(self) -> int:
        """The bytes that the client announces."""
        is_number = self.size.isdecimal() and len(self.size) <= len(str(MOST_BYTES))
        return max(LEAST, int(self.size)) if is_number else LEAST

    @property
    def has_whole_addresses(self) -> bool:
        """Whether the desk will see these addresses: Postfix adds a domain to one without."""
        return "@" in self.recipient and (not self.sender or "@" in self.sender)


@dataclass
class Transaction:
    """A message: its name in Postfix, how many recipients were let in, and the first of these."""

    instance: str = ""
    let_in: int = 0
    recipient: str = ""

    def at(self, instance: str) -> "Transaction":
        """The same one, or the next."""
        if self.instance != instance:
            self.instance, self.let_in, self.recipient = instance, 0, ""
        return self


class Admission:
    """Asks the desks of customers, in threads of its own."""

    def __init__(self, intake: Intake):
        self.intake, self.pool = intake, ThreadPoolExecutor(CALLS)
        # the moment until which each desk rests
        self.resting: dict[str, float] = {}

    def is_asked(self, customer: str) -> bool:
        """Whether the customer's desk answers: no thread waits for one that does not."""
        desk = self.intake.settings.desks.get(customer, "")
        is_resting = self.resting.get(desk, 0.0) >= time.monotonic()
        return not is_resting and self.intake.calls.has_room(desk)

    def refusal(self, customer: str, request: PolicyRequest, before: int) -> str | None:
        """The refusal of one more recipient, after so many of the same message; None to let it in.

        Each recipient is a message of its own for the desk, and so takes its size again.
        """
        size = min(request.bytes * (before + 1), MOST_BYTES)
        try:
            self.intake.expect_little_kept(customer)
            with self.intake.call_for(customer):
                verdict = self.intake.desk.admit(
                    customer, request.sender, request.recipient, size, LONGEST)
        except NotTaken as error:
            return str(error)
        except Refused as refusal:
            if refusal.number == BAD_ADDRESS and not request.has_whole_addresses:
                return None
            return self.intake.refusal(customer, refusal, size)
        except Away as error:
            log.warning("not asked", customer=customer, why=error)
            desk = self.intake.settings.desks.get(customer, "")
            self.resting[desk] = time.monotonic() + REST
            return None
        return rejection_of(verdict) if verdict.is_rejected else None
