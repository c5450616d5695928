"""Several processes that do the same work, so that it has more than one processor."""
import ctypes
import os
import signal
from collections.abc import Callable

from hq_relay import log

# Linux's number for: send me this signal when my parent ends.
PARENT_ENDED = 1
ENDS = {signal.SIGTERM, signal.SIGINT}


class Processes:
    """So many processes, each of which does the work of its number, from 0 on, until SIGTERM.

    They end at once if this one is killed, so that a new one finds no other at work. No thread and
    no database of SQLite may be open when they begin.
    """

    def __init__(self, count: int, work: Callable[[int], None]):
        signal.pthread_sigmask(signal.SIG_BLOCK, {*ENDS, signal.SIGCHLD, signal.SIGHUP})
        self.parent = os.getpid()
        self.left = {self.begin(number, work) for number in range(count)}

    def begin(self, number: int, work: Callable[[int], None]) -> int:
        """Begins a process; its ID."""
        begun = os.fork()
        if begun:
            return begun
        status = 1
        try:
            ctypes.CDLL(None).prctl(PARENT_ENDED, signal.SIGKILL)
            # (its parent may have ended before)
            if os.getppid() == self.parent:
                work(number)
                status = 0
        except Exception as error:
            log.error("not done", why=error)
        finally:
            os._exit(status)

    def wait(self) -> int:
        """Waits for a signal to end, passes it on, and returns 0 when all have ended.

        SIGHUP is passed on too. If a process ends by itself the others end too, and it returns 1.
        """
        ended: dict[int, int] = {}
        while not ended:
            number = signal.sigwait({*ENDS, signal.SIGCHLD, signal.SIGHUP})
            if number in ENDS:
                break
            for process in self.left if number == signal.SIGHUP else ():
                os.kill(process, signal.SIGHUP)
            ended = self.ended(os.WNOHANG)
        for status in ended.values():
            log.error("a process has ended", by=end_of(status), help="start it again")
        for process in self.left:
            os.kill(process, signal.SIGTERM)
        others = self.ended(0)
        return 0 if not ended and not any(others.values()) else 1

    def ended(self, options: int) -> dict[int, int]:
        """The processes that have ended since, each with its wait status."""
        statuses = {}
        for process in self.left:
            number, status = os.waitpid(process, options)
            if number:
                statuses[number] = status
        self.left.difference_update(statuses)
        return statuses


def end_of(status: int) -> str:
    """How a process ended, by its wait status."""
    if os.WIFSIGNALED(status):
        return f"signal {os.WTERMSIG(status)}"
    return f"status {os.WEXITSTATUS(status)}"
