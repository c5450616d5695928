"""How a script of bench/ begins and ends: its words, its status, and what it tells of a fault. And threads for jobs."""
import http.client
import inspect
import os
import signal
import subprocess
import sys

from concurrent.futures import ThreadPoolExecutor

from serving import Wrong

ROOT = os.path.dirname(os.path.dirname(os.path.dirname(os.path.realpath(__file__))))


def name():
    """The script that was begun, as it is called from the top folder."""
    return os.path.relpath(os.path.realpath(sys.argv[0]), ROOT)


class Workers(ThreadPoolExecutor):
    """Threads for jobs. Where the block ends by a fault or a signal, the jobs that were not begun are dropped."""

    def __init__(self, most=None):
        super().__init__(most or os.cpu_count())
        self.jobs = []

    def submit(self, *given, **named):
        self.jobs.append(super().submit(*given, **named))
        return self.jobs[-1]

    def __exit__(self, kind, *rest):
        for it in self.jobs if kind else ():
            it.cancel()
        return super().__exit__(kind, *rest)


def end_by_signal(number, _):
    """Ends the script, once: what was begun is stopped, and what was made is removed."""
    signal.signal(number, signal.SIG_IGN)
    sys.exit(128 + number)


def begin(main):
    """Calls `main` with the words of the script, of which the first is a program. Words that it does not take show the
    docstring. What was wrong is told in a line on standard error, with the status 1."""
    words = sys.argv[1:]
    try:
        inspect.signature(main).bind(*words)
    except TypeError:
        sys.exit(sys.modules["__main__"].__doc__)
    signal.signal(signal.SIGTERM, end_by_signal)
    try:
        main(os.path.abspath(words[0]), *words[1:])
    except Wrong as wrong:
        sys.exit(f"{name()}: {' '.join(map(str, wrong.args))}")
    except (OSError, http.client.HTTPException, subprocess.SubprocessError) as fault:
        sys.exit(f"{name()}: {type(fault).__name__}: {fault}")
    except KeyboardInterrupt:
        sys.exit(130)
