"""The commands `erase` and `knows`, for a customer that is not in the settings any more.

`erase` drops what the worker has of it, and `knows` returns whether there is anything. Both work
while
`intake` and `deliver` do, once these have read the settings without the customer. Each step may be
cut: what was dropped by then is gone, and the next run drops the rest.
"""
import fcntl
import os
import signal
import sys
import time
from collections.abc import Iterator
from contextlib import suppress
from pathlib import Path

from hq_relay.customers.in_use import CustomersInUse
from hq_relay.delivery.outcome_collector import ASIDE, LARGEST
from hq_relay.postfix import delivering_instance
from hq_relay.postfix.configuration import NotInstalled, run
from hq_relay.postfix.report_reader import read_text
from hq_relay.settings import Settings, load
from hq_relay.settings_tables import CUSTOMER
from hq_relay.storage.attempts import Attempt, Attempts
from hq_relay.storage.book import Book
from hq_relay.storage.spool import Spool, drop, kept_in, sync_folder

# How many seconds it waits for processes that work by earlier settings, and between two looks.
LONGEST, BETWEEN_LOOKS = 90, 0.1
# The status of `knows` if there is nothing of a customer.
UNKNOWN = 3
# How long Postfix keeps a message, if its configuration does not say so.
LIFETIME = "5d"


class NotErased(Exception):
    """Nothing more was erased; the text says why."""


class Erasure:
    """The parts of a customer in the spool, the book, the reports, and the delivering queue."""

    def __init__(self, settings: Settings, customer: str):
        self.settings, self.customer = settings, customer
        self.spool, self.book = Spool(settings.folder), Book(settings.folder)
        self.attempts = Attempts(self.book)
        self.in_use = CustomersInUse(self.spool.locks)

    def erase(self) -> list[str]:
        """Waits until no process works by settings with the customer, and drops its parts.

        Returns the lines to print. Raises NotErased after LONGEST.
        """
        end = time.monotonic() + LONGEST
        while True:
            # (nobody reads settings meanwhile, in which the customer might be again)
            with self.in_use.reading(fcntl.LOCK_EX):
                self.check(load(str(self.settings.file)))
                if not self.in_use.others(self.settings.customers):
                    return self.drop()
            if time.monotonic() > end:
                raise NotErased("intake or deliver works by earlier settings: reload it first")
            time.sleep(BETWEEN_LOOKS)

    def check(self, settings: Settings) -> None:
        if settings.folder != self.settings.folder:
            raise NotErased("the settings name another spool by now")
        refuse_known(settings, self.customer)
        self.settings = settings

    def drop(self) -> list[str]:
        """Drops all parts, and returns the lines to print.

        (The records go after the contents: by them mail is taken back. The reports go last: nobody
        reads one without a record.)
        """
        taken_back, left = self.take_back()
        contents = self.drop_contents()
        records = self.drop_records()
        reports = self.drop_reports()
        counts = (counted(contents, "content"), counted(records, "record"),
                  counted(reports, "report"))
        lines = [f"{self.customer}: {', '.join(counts)}"]
        queue = f"the queue of {self.settings.delivering}"
        if taken_back:
            messages = counted(taken_back, "message")
            lines.append(f"{self.customer}: {messages} taken back from {queue}")
        if left:
            lines.append(f"{self.customer}: {counted(left, 'message')} may lie in {queue}, for "
                         f"{self.lifetime()} at most")
        return lines

    # ---- the steps

    def take_back(self) -> tuple[int, int]:
        """Takes back mail that lies in the queue of the Postfix that delivers.

        Returns how many messages that were; and how many may lie there, since a stop came before
        their queue IDs were written.
        """
        attempts = self.attempts.lying(self.customer)
        if not attempts:
            return 0, 0
        try:
            queue = delivering_instance.queue(self.settings)
        except OSError as error:
            raise NotErased(
                f"the queue of {self.settings.delivering} is not told: {error}") from None
        known = {attempt.queue_id for attempt in self.attempts.under_way() if attempt.queue_id}
        lying = [attempt for attempt in attempts if queue.has(attempt, known)]
        taken_back = sum(self.take_one_back(attempt) for attempt in lying if attempt.queue_id)
        return taken_back, sum(not attempt.queue_id for attempt in lying)

    def take_one_back(self, attempt: Attempt) -> bool:
        id = attempt.queue_id or ""
        try:
            return delivering_instance.take_back(self.settings, id)
        except OSError as error:
            by_hand = f"postsuper -c {self.settings.delivering} -d {id}"
            raise NotErased(f"{error}; take it back as root: {by_hand}") from None

    def drop_contents(self) -> int:
        """Drops its files. (A file that is kept meanwhile comes from `new`.)"""
        count = 0
        for path in files_of(self.spool.new):
            count += self.drop_one(path)
        for path in files_of(self.spool.content):
            if self.is_its(path):
                # (a process of the intake may be submitting it)
                with self.spool.alone_with(path.name):
                    count += self.drop_one(path)
        for path in files_of(self.spool.aside):
            count += self.drop_one(path)
        for folder in (self.spool.new, self.spool.content, self.spool.aside):
            sync_folder(folder)
        return count

    def drop_one(self, path: Path) -> bool:
        is_its = self.is_its(path)
        if is_its:
            drop(path)
        return is_its

    def is_its(self, path: Path) -> bool:
        """Whether the envelope of a file names the customer."""
        with suppress(FileNotFoundError), open(path, "rb") as file:
            kept = kept_in(file)
            return bool(kept and kept.envelope.customer == self.customer)
        return False

    def drop_records(self) -> int:
        """Drops its rows, and overwrites them."""
        count = self.book.forget_customer(self.customer)
        if not self.book.overwrite():
            raise NotErased("somebody reads the book for long; its log has the records still")
        return count

    def drop_reports(self) -> int:
        """Drops reports of its mail that lie in the Maildir, also those that are put aside."""
        count = 0
        for path in self.reports():
            if self.is_report_of_its(path):
                drop(path)
                count += 1
        return count

    def is_report_of_its(self, path: Path) -> bool:
        """Whether a file is a report of the customer's mail."""
        with suppress(FileNotFoundError), open(path, "rb") as file:
            report = read_text(file.read(LARGEST), path.name)
            return bool(report.envelope and report.envelope.startswith(f"{self.customer}."))
        return False

    # ---- without erasing

    def has_any(self) -> bool:
        """Whether there is anything of the customer."""
        folders = (self.spool.new, self.spool.content, self.spool.aside)
        contents = (path for folder in folders for path in files_of(folder))
        return (self.book.has_any(self.customer) or any(map(self.is_its, contents))
                or any(self.is_report_of_its(path) for path in self.reports()))

    def reports(self) -> Iterator[Path]:
        """The files of the Maildir, also of those that are put aside."""
        box = self.settings.reports
        folders = (folder / name for folder in (box, box / f".{ASIDE}")
                   for name in ("new", "cur", "tmp"))
        return (path for folder in filter(Path.is_dir, folders) for path in files_of(folder))

    def lifetime(self) -> str:
        """How long the Postfix that delivers keeps a message."""
        with suppress(NotInstalled):
            ended = run("postconf", "-c", self.settings.delivering, "-h", "maximal_queue_lifetime")
            return ended.stdout.strip()
        return LIFETIME


def refuse_known(settings: Settings, customer: str) -> None:
    if customer in settings.customers:
        raise NotErased(f"{customer} is a customer of the settings: drop it first")


def files_of(folder: Path) -> Iterator[Path]:
    return (folder / name for name in sorted(os.listdir(folder)))


def counted(count: int, what: str) -> str:
    return f"{count} {what}{'' if count == 1 else 's'}"


def knows(settings: Settings, customer: str) -> int:
    """The status of `knows`: 0 if there is anything of a customer, and UNKNOWN if not."""
    if not CUSTOMER.fullmatch(customer):
        print(f"relay: {customer!r} is no name of a customer", file=sys.stderr)
        return 1
    is_known = settings.folder.is_dir() and Erasure(settings, customer).has_any()
    return 0 if is_known else UNKNOWN


def erase(settings: Settings, customer: str) -> int:
    """The status of `erase`: 0 if nothing is left, and else 1."""
    # (a signal may cut it)
    signal.pthread_sigmask(signal.SIG_SETMASK, [])
    try:
        if not CUSTOMER.fullmatch(customer):
            raise NotErased(f"{customer!r} is no name of a customer")
        refuse_known(settings, customer)
        if not settings.folder.is_dir():
            print(f"{customer}: there is no {settings.folder}")
            return 0
        if settings.folder.stat().st_uid != os.geteuid():
            raise NotErased(f"{settings.folder} is another user's: run it as {settings.user}")
        print(*Erasure(settings, customer).erase(), sep="\n")
    except NotErased as error:
        print(f"relay: {error}", file=sys.stderr)
        return 1
    return 0
