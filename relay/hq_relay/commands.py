"""A relay worker for the desk: relay/worker SETTINGS COMMAND.

It is not proved, as the desk is: what it may lose or double at each stop is written down and tried.

    intake              takes mail from the MTA by LMTP and submits it, until SIGTERM
    deliver [--once]    hands over what is due, tells what became of it, sweeps and mails notices,
                        until SIGTERM; or does one round. At SIGHUP both read the settings again
    install [--dry-run] gives both instances of Postfix their lines, as root; or tells which
    settings            tells whether the settings are good, and touches nothing else
    check               tells whether the settings are good, the desk answers, and customers keep
                        enough notices
    unknown [--remove]  lists content that belongs to no message, or removes it while no intake runs
    erase NAME          drops what there is of a customer who is in the settings no more, once
                        intake and deliver have read them
    knows NAME          the status is 0 where there is anything of a customer, and 3 where there is
                        not
    restored [DESK] [--copied MOMENT]
                        fits the book to a desk whose store came back from a backup, while neither
                        intake nor deliver runs; of several desks it is named. MOMENT is when the
                        store was copied, as 2026-12-01T10:00:00Z

docs/RELAY.md explains it. The status is 2 for bad settings or words, and 1 for all else that was
not done.
"""
import os
import signal
import socket
import sqlite3
import sys
from collections.abc import Callable, Iterable
from pathlib import Path
from typing import BinaryIO, NamedTuple

from hq_relay import log
from hq_relay.customers.changes import CustomerChanges
from hq_relay.customers.erasure import erase, knows
from hq_relay.customers.in_use import CustomersInUse
from hq_relay.delivery.service import Delivery
from hq_relay.desk.client import Away, Refused, desk_of
from hq_relay.intake.lmtp_server import LmtpServer, listen
from hq_relay.intake.processes import Processes
from hq_relay.intake.submission import Intake
from hq_relay.postfix.delivering_instance import capacity
from hq_relay.postfix.installation import install
from hq_relay.settings import BadSettings, Settings, load
from hq_relay.settings_values import moment
from hq_relay.storage.book import Book
from hq_relay.storage.desk_restore import DeskRestore
from hq_relay.storage.spool import Spool
from hq_relay.storage.spool_cleaning import SpoolCleaning
from hq_relay.storage.spool_names import SpoolNames

# The executable of the worker, which root's call begins anew as the worker's user.
EXECUTABLE = Path(__file__).resolve().parent.parent / "worker"
SIGNALS = {signal.SIGTERM, signal.SIGINT, signal.SIGHUP}
# While something is under way for a customer that was dropped, a look comes after so many seconds.
LOOK_AGAIN = 0.5
# With fewer days, a retry of Postfix may find that its record is gone (maximal_queue_lifetime).
FEWEST_DAYS = 5


class Workplace:
    """The spool, the book and the desk of a command, by the settings as their file has them now."""

    def __init__(self, settings: Settings):
        self.spool, self.book = Spool(settings.folder), Book(settings.folder)
        self.in_use = CustomersInUse(self.spool.locks)
        self.settings = self.in_use.take_up(lambda: as_now(settings))
        self.desk = desk_of(self.settings)
        self.names = SpoolNames(self.desk, self.spool, self.book)

    def intake(self, unsettled: Iterable[str]) -> Intake:
        return Intake(self.settings, self.desk, self.spool, self.book, unsettled)

    def delivery(self) -> Delivery:
        return Delivery(self.settings, self.desk, self.spool, self.book, capacity(self.settings))

    def locked(self, *names: str) -> list[BinaryIO]:
        """These locks; none if another process has one of them."""
        files = []
        for name in names:
            file = self.spool.lock(name)
            if not file:
                log.error("another process has the lock", lock=name, help="stop it")
                return []
            files.append(file)
        return files

    def close(self) -> None:
        """Nothing is done there any more."""
        self.book.close()
        self.in_use.close()


# ---- settings

def warn(settings: Settings) -> None:
    """Logs what a customer, or a retry of Postfix, may lose by the settings."""
    for customer in settings.customers.values():
        if customer.notices < customer.messages:
            log.warning("fewer notices than messages", customer=customer.name,
                        notices=customer.notices, messages=customer.messages,
                        means="notices may be lost before they are mailed")
    if settings.keep_days < FEWEST_DAYS:
        log.warning("records are kept too short", days=settings.keep_days, least=FEWEST_DAYS)


def as_now(settings: Settings) -> Settings:
    """The settings as their file has them now; those of before if it cannot be taken."""
    try:
        now = load(str(settings.file))
    except BadSettings:
        return settings
    return now if now.folder == settings.folder else settings


def read_again(settings: Settings) -> Settings:
    """The same, and logs it: a file that is faulty, or names another spool, is refused."""
    try:
        now = load(str(settings.file))
    except BadSettings as error:
        for fault in error.faults:
            log.error("settings not taken", why=fault)
        return settings
    if now.folder != settings.folder:
        log.error("settings not taken", why="another spool wants a new start")
        return settings
    log.info("settings taken", customers=len(now.customers))
    return now


# ---- the intake

def take_in(settings: Settings) -> int:
    """The command `intake`; its status."""
    place = Workplace(settings)
    lock = place.locked("intake")
    if not lock:
        return 1
    settings = place.settings
    place.spool.drop_unfinished()
    intake = place.intake(place.names.unrecorded().intersection(settings.customers))
    intake.settle()
    # (SQLite allows no open database in a process that forks)
    place.close()
    listening = listen(settings.listen)
    policy = listen(settings.policy) if settings.policy else []
    host, port = listening[0].getsockname()[:2]
    processes = Processes(settings.processes, lambda number: take_sessions(
        settings, listening, policy, set() if number else intake.unsettled))
    for listener in (*listening, *policy):
        listener.close()
    print(f"listening on {f'[{host}]' if ':' in host else host}:{port}", flush=True)
    return processes.wait()


def take_sessions(settings: Settings, listening: list[socket.socket], policy: list[socket.socket],
                  unsettled: set[str]) -> None:
    """The work of one process of the intake, until SIGTERM."""
    place = Workplace(settings)
    intake = place.intake(unsettled)
    server = LmtpServer(settings, intake, listening, policy)
    server.start()
    received = None
    while not received or received.si_signo != signal.SIGTERM:
        received = signal.sigtimedwait({signal.SIGTERM, signal.SIGHUP}, settings.pause)
        if received and received.si_signo == signal.SIGHUP:
            # (a message with a customer goes on; changes of the listener wait for a new start)
            place.in_use.take_up(lambda: intake.take_up(read_again(intake.settings)))
        elif not received:
            intake.settle()
    server.stop()


# ---- the delivery

class DeliveryEnd(NamedTuple):
    """The signal that ended a delivery, None if a thread has ended; and the settings by then."""

    signal: int | None
    settings: Settings


def deliver(settings: Settings, is_once: bool) -> int:
    """The command `deliver`; its status."""
    warn(settings)
    place = Workplace(settings)
    lock = place.locked("deliver")
    if not lock:
        return 1
    if is_once:
        return 0 if place.delivery().once() else 1
    while True:
        end = deliver_until_signal(place.delivery(), place.in_use)
        if end.signal != signal.SIGHUP:
            return 1 if end.signal is None else 0
        # (what was under way is done, so that this is a new start, but for the lock)
        place.close()
        place = Workplace(end.settings)


def next_signal(seconds: float) -> int | None:
    """The signal that comes within so many seconds, if one does."""
    received = signal.sigtimedwait(SIGNALS, seconds)
    # (Python returns no signal at all if the process was stopped meanwhile, as by SIGSTOP)
    return received.si_signo if received and received.si_signo in SIGNALS else None


def deliver_until_signal(delivery: Delivery, in_use: CustomersInUse) -> DeliveryEnd:
    """Works until a signal asks for an end or a new start, and ends all work under way.

    Settings in which customers alone differ are taken up meanwhile.
    """
    changes, is_taken_up = CustomerChanges(delivery), True
    settings = delivery.settings
    delivery.start()
    delivery.look()
    while True:
        pause = settings.pause if is_taken_up else min(settings.pause, LOOK_AGAIN)
        number = next_signal(pause)
        if number == signal.SIGHUP:
            settings = read_again(settings)
            warn(settings)
        if number and not (number == signal.SIGHUP and changes.may(settings)):
            break
        if number:
            changes.take_up(settings, capacity(settings))
            is_taken_up = False
        if not number and not delivery.is_well():
            log.error("a thread has ended", help="start it again")
            return DeliveryEnd(None, settings)
        if not is_taken_up and changes.is_done():
            # (the other processes see then that nothing is done for a customer that left)
            in_use.take_up(lambda: settings)
            is_taken_up = True
        if not number:
            delivery.look()
    delivery.end()
    return DeliveryEnd(number, settings)


# ---- other commands

def check(settings: Settings) -> int:
    """The command `check`; its status."""
    warn(settings)
    for customer in settings.customers:
        next(desk_of(settings).messages(customer), None)
    print(f"good: {len(settings.customers)} customers")
    return 0


def unknown(settings: Settings, is_removing: bool) -> int:
    """The command `unknown`; its status."""
    place = Workplace(settings)
    lock = place.locked("intake") if is_removing else None
    if is_removing and not lock:
        return 1
    cleaning = SpoolCleaning(place.settings, place.spool, place.book, place.names)
    for spool in cleaning.unknown():
        envelope = place.spool.envelope(spool)
        print(f"{spool} {envelope.customer} <{envelope.sender}> <{envelope.recipient}>"
              if envelope else spool)
        if is_removing:
            place.spool.remove(spool)
    return 0


def restored(settings: Settings, desk: str | None = None, copied: float | None = None) -> int:
    """The command `restored`; its status. Customers of other desks have all that they had."""
    place = Workplace(settings)
    locks = place.locked("intake", "deliver")
    if not locks:
        return 1
    customers = [*place.settings.customers]
    if desk is None and place.settings.has_several_desks:
        log.error("several desks", help="name the one that came back: restored DESK")
        return 1
    if desk is not None:
        customers = place.settings.of_desks().get(desk, [])
    if not customers:
        log.error("no customer of this desk", desk=desk, help="desks.csv has the desks, if "
                  "`desks` names it; the only desk needs no name")
        return 1
    DeskRestore(place.settings, place.desk, place.spool, place.book, copied).restore(customers)
    return 0


# The commands that take a name.
NAMED: dict[str, Callable[[Settings, str], int]] = {"erase": erase, "knows": knows}
# The commands of root itself: they write to both instances of Postfix, or nothing at all.
AS_ROOT = ("install", "settings")
COMMANDS: dict[tuple[str, ...], Callable[[Settings], int]] = {
    ("intake",): take_in,
    ("deliver",): lambda settings: deliver(settings, False),
    ("deliver", "--once"): lambda settings: deliver(settings, True),
    ("install",): install,
    ("install", "--dry-run"): lambda settings: install(settings, True),
    ("settings",): lambda settings: 0,
    ("check",): check,
    ("unknown",): lambda settings: unknown(settings, False),
    ("unknown", "--remove"): lambda settings: unknown(settings, True),
}


def command_of(words: list[str]) -> Callable[[Settings], int] | None:
    """The command of these words; None if there is none."""
    if len(words) == 2 and words[0] in NAMED:
        return lambda settings: NAMED[words[0]](settings, words[1])
    if words[:1] == ["restored"]:
        return restored_of(words[1:])
    return COMMANDS.get(tuple(words))


def restored_of(words: list[str]) -> Callable[[Settings], int] | None:
    """The command `restored` with these words; None for others."""
    copied = None
    if words[-2:-1] == ["--copied"]:
        try:
            copied = moment(words[-1])
        except ValueError:
            return None
        words = words[:-2]
    if len(words) > 1 or words[:1] == ["--copied"]:
        return None
    return lambda settings: restored(settings, words[0] if words else None, copied)


def leave_root(settings: Settings, words: list[str]) -> None:
    """In an installed package, runs root's call anew as the worker's user, without a terminal."""
    way = str(EXECUTABLE.parent.parent / "hq-as")
    if os.geteuid() == 0 and words[1] not in AS_ROOT and os.path.exists(way):
        file = os.path.abspath(words[0])
        os.execv(way, [way, settings.user, str(EXECUTABLE), file, *words[1:]])


def main(words: list[str]) -> int:
    """Runs the command of these words, after the file of settings; the status."""
    command = command_of(words[1:])
    if not command:
        print(__doc__, file=sys.stderr)
        return 2
    try:
        settings = load(words[0])
        leave_root(settings, words)
        os.umask(0o077)
        signal.pthread_sigmask(signal.SIG_BLOCK, SIGNALS)
        return command(settings)
    except BadSettings as error:
        error.print()
        return 2
    except (Away, Refused, OSError, sqlite3.Error) as error:
        log.error("not done", why=error)
        return 1
