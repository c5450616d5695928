"""The customers that the worker's processes work by: `erase` waits for those that were dropped.

A process holds a lock from before it reads its settings until it works by others. All processes
that know the same customers share the lock, and its name is made of these customers.
"""
import fcntl
import hashlib
from collections.abc import Callable, Iterable, Iterator
from contextlib import contextmanager
from pathlib import Path
from typing import BinaryIO

from hq_relay.settings import Settings
from hq_relay.storage.spool import drop, locked_file

# The begin of the locks of sets of customers; and the lock under which settings are read.
LOCK_OF_CUSTOMERS, READING = "customers-", "reading"


class CustomersInUse:
    """The customers that this process works by, for the other processes of the spool."""

    def __init__(self, locks: Path):
        self.locks = locks
        self.file: BinaryIO | None = None

    def take_up(self, read: Callable[[], Settings]) -> Settings:
        """Reads settings, and works by their customers from then on."""
        with self.reading(fcntl.LOCK_SH):
            settings, before = read(), self.file
            self.file = locked_file(self.path(settings.customers), fcntl.LOCK_SH)
            if before:
                before.close()
            self.others(settings.customers)  # (so that no lock is left which nobody holds)
            return settings

    def close(self) -> None:
        """This process works by no customers any more."""
        if self.file:
            self.file.close()
            self.file = None

    @contextmanager
    def reading(self, mode: int) -> Iterator[None]:
        """Settings are read (`fcntl.LOCK_SH`), or nobody reads them (`fcntl.LOCK_EX`)."""
        with open(self.locks / READING, "wb") as file:
            fcntl.flock(file, mode)
            yield

    def path(self, customers: Iterable[str]) -> Path:
        digest = hashlib.sha256("\n".join(sorted(customers)).encode()).hexdigest()
        return self.locks / f"{LOCK_OF_CUSTOMERS}{digest[:32]}"

    def others(self, customers: Iterable[str]) -> bool:
        """Whether a process works by other customers than these. Removes locks without holder."""
        own, is_used = self.path(customers), False
        for path in self.locks.glob(f"{LOCK_OF_CUSTOMERS}*"):
            if path == own:
                continue
            try:
                with open(path, "wb") as file:
                    fcntl.flock(file, fcntl.LOCK_EX | fcntl.LOCK_NB)
                    drop(path)
            except BlockingIOError:
                is_used = True
        return is_used
