"""The intake wakes `deliver` for a customer whose mail was queued, so that it goes at once.

A wake-up that nobody receives is no loss: the next look at the desk finds that mail.
"""
import os
import socket
import threading
import time
from collections.abc import Callable, Iterator
from contextlib import contextmanager
from pathlib import Path

from hq_relay.storage.spool import drop

# The name of the socket, in the folder of locks, and the most bytes of a customer's name.
NAME, LONGEST = "queued", 64
# In seconds: between two turns of one customer, and the longest wait for the receiver.
BETWEEN, PATIENCE = 0.25, 0.1


@contextmanager
def address_in(folder: Path) -> Iterator[str]:
    """The address of the socket, whatever length the path of its folder has."""
    opened = os.open(folder, os.O_PATH | os.O_DIRECTORY)
    try:
        yield f"/proc/self/fd/{opened}/{NAME}"
    finally:
        os.close(opened)


class WakeupSender:
    """Sends wake-ups, from any thread."""

    def __init__(self, folder: Path):
        self.folder, self.guard = folder, threading.Lock()
        self.socket: socket.socket | None = None

    def send(self, customer: str) -> None:
        """Mail of a customer was queued."""
        with self.guard:
            # (another process may listen by now)
            for _ in range(2):
                try:
                    self.open().send(customer.encode())
                    return
                except socket.timeout:
                    return  # (a look comes first)
                except OSError:
                    self.close()

    def open(self) -> socket.socket:
        if not self.socket:
            self.socket = socket.socket(socket.AF_UNIX, socket.SOCK_DGRAM)
            self.socket.settimeout(PATIENCE)
            with address_in(self.folder) as address:
                self.socket.connect(address)
        return self.socket

    def close(self) -> None:
        if self.socket:
            self.socket.close()
            self.socket = None


class WakeupListener:
    """Receives wake-ups, and gives each customer a turn, but no two within BETWEEN."""

    def __init__(self, folder: Path, give_turn: Callable[[str], None]):
        self.folder, self.give_turn = folder, give_turn
        drop(folder / NAME)
        self.socket = socket.socket(socket.AF_UNIX, socket.SOCK_DGRAM)
        with address_in(folder) as address:
            self.socket.bind(address)

    def listen(self, ending: threading.Event) -> None:
        """Listens until the end."""
        customers: set[str] = set()
        while not ending.is_set():
            end = time.monotonic() + BETWEEN
            while time.monotonic() < end:
                self.socket.settimeout(max(0.001, end - time.monotonic()))
                try:
                    customers.add(self.socket.recv(LONGEST).decode(errors="replace"))
                except socket.timeout:
                    break
            for customer in customers:
                self.give_turn(customer)
            customers.clear()
        self.socket.close()
