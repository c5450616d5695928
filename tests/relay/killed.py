#!/usr/bin/env python3
"""Runs a worker that kills itself: tests/relay/killed.py WORKER STEP WHEN COUNT WORDS..

STEP is a function of the worker's package, as `storage.spool.Spool.keep`; WHEN is `before` or
`behind`; COUNT says at which of its calls. The worker itself knows nothing of it: the function is
wrapped before the worker begins. WORDS are the worker's.
"""
import functools
import multiprocessing
import os
import pkgutil
import runpy
import signal
import sys

# (its other processes end with the first one)
FIRST = os.getpid()


def die(step, when):
    print(f"killed {when} {step}", file=sys.stderr, flush=True)
    for it in (FIRST, os.getpid()):
        os.kill(it, signal.SIGKILL)


def wrap(step, when, count):
    """Has the worker killed before or behind one call of a function: the first is 1. The calls of all
    its processes are counted."""
    path, _, name = step.rpartition(".")
    owner = pkgutil.resolve_name(f"hq_relay.{path}")
    function, calls = getattr(owner, name), multiprocessing.Value("i", 0)

    @functools.wraps(function)
    def wrapped(*given, **named):
        with calls.get_lock():
            calls.value += 1
            is_last = calls.value == count
        if is_last and when == "before":
            die(step, when)
        told = function(*given, **named)
        if is_last and when == "behind":
            die(step, when)
        return told
    setattr(owner, name, wrapped)


def main(worker, step, when, count, *words):
    sys.dont_write_bytecode = True
    sys.path.insert(0, os.path.dirname(os.path.realpath(worker)))
    wrap(step, when, int(count))
    sys.argv = [worker, *words]
    runpy.run_path(worker, run_name="__main__")


if __name__ == "__main__":
    if len(sys.argv) < 6:
        sys.exit(__doc__)
    main(*sys.argv[1:])
