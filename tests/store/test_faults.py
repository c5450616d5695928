"""Fails calls of the disk in turn, one a run, over the examples.

The lines of an example, and behind them lines that read all that is kept, are replied to over a store in a file, again and
again. In each run another call fails that writes, syncs or cuts a file of the store, alone or with all behind it; or another
call that reads one, where the store was closed and opened again between the lines (tests/support/interpose.c). The lines come
one by one, each behind the reply before, or all at once, so that they share commits.

1. A line that is replied to with `503 {"error":91,"name":"Disk"}` has changed nothing: every other line is replied to as if
   that one had not been sent. One call that fails strikes one line at most, where lines come one by one.
2. From the first line on that gets `503 {"error":93,"name":"Closed"}` each call of every customer gets it, and what is refused
   before its call is refused as ever, a line without a key with 401.
3. Opened again, the store has what the replies tell. Of the lines that got 93 as it closed all were done, the first alone, or none.
4. Where the store cannot be opened, the program tells `hq: 91 Disk`, or `hq: 93 Closed` where what was begun could not be undone
   either, and replies to nothing.

Where nothing fails, the replies are those of the example. What a line would have got that was not sent is what the same
program replies to the other lines over a store in memory. It takes the examples of at most 60 lines and 8,192 bytes but those
that ask for a call of all customers, which may be done in part: tests/store/test_stopped_calls.py tries these. Each so
manieth call fails, from one on that the clock chooses and that is told.
"""
import json
import re
import shutil
import time
from collections import Counter
from functools import lru_cache

from serving import expect, words
import pytest
from stores_files import expect_sound, run, run_alone, without_log
from tool import Workers
from worked import chosen, directory_of, is_fit, lines_of, replies_of

DISK = b'503 {"error":91,"name":"Disk"}\n'
CLOSED = b'503 {"error":93,"name":"Closed"}\n'
# What is told of a store that cannot be opened.
NOT_OPENED = b"hq: 91 Disk\n", b"hq: 93 Closed\n"
# what is refused before its call, by its number in docs/API.md
BEFORE = {1, 2, 3, 4, 5, 6, 7, 8, 13, 20, 23, 24, 25, 26, 27, 28}
# Which calls fail, by their count in what the library tells, and of how many one is tried.
WRITES, READS = 0, 3
WAYS = {"FAIL_AT": WRITES, "FAIL_FROM": WRITES, "READ_FAILS_AT": READS, "READ_FAILS_FROM": READS}
ONCE = "FAIL_AT", "READ_FAILS_AT"
STEP = 29


def readings(directory, moment):
    """Lines that read all that is kept of each customer, and one without a key."""
    keys = [row.split(",")[1] for row in directory.read_text().split()[1:]]
    paths = "messages", "lines", "notices", "usage", "report"
    asked = [f"{moment} GET /v1/{path} {key}\n" for key in keys for path in paths]
    return [line.encode() for line in [*asked, f"{moment} GET /v1/usage -\n"]]


class Script:
    """The lines of an example and those that read what they leave, with the replies to them where nothing fails. The first
    `begun` lines are done before the store is opened again, and nothing fails there."""

    def __init__(self, program, library, place, begun):
        self.program, self.library, self.name = program, library, place.name
        self.directory, _ = directory_of(place)
        own_lines = lines_of(place)
        moments = [int(it) for it in re.findall(rb"(?m)^(\d{1,10}) ", b"".join(own_lines))]
        self.readers = readings(self.directory, max(moments))
        self.begun, self.lines = own_lines[:begun], own_lines[begun:] + self.readers
        self.in_memory = lru_cache(None)(self.told_in_memory)
        shown = replies_of(place)
        told = self.in_memory(frozenset(), False)
        expect(told[:len(shown) - begun] == shown[begun:], self.name, "nothing fails", told)

    def words(self, store=None):
        return words(self.program, "batch", store, directory=self.directory)

    def told_in_memory(self, out, again):
        """The replies to all lines but those of these places, with those that read once more behind them if it is so."""
        lines = [line for at, line in enumerate(self.lines) if at not in out]
        ended = run(self.words(), b"".join([*self.begun, *lines, *(self.readers if again else [])]))
        expect((ended.returncode, ended.stderr) == (0, b""), self.name, ended)
        return ended.stdout.splitlines(keepends=True)[len(self.begun):]

    def run(self, folder, alone, **more):
        """The lines over a store of this folder, which has those that were begun."""
        folder.mkdir()
        if self.begun:
            ended = run(self.words(folder / "store"), b"".join(self.begun))
            expect((ended.returncode, ended.stderr) == (0, b""), self.name, ended)
            without_log(folder / "store")
        asked, more = self.words(folder / "store"), {"LD_PRELOAD": self.library, **more}
        return run_alone(asked, self.lines, **more) if alone else run(asked, b"".join(self.lines), **more)

    def counts(self, folder, alone):
        """How many calls of each kind there are, where nothing fails."""
        calls = folder.parent / f"{folder.name}-calls"
        ended = self.run(folder, alone, CALLS=str(calls))
        told = ended.stdout.splitlines(keepends=True)
        expect(ended.returncode == 0 and told == self.in_memory(frozenset(), False), self.name, "over a file", ended)
        shutil.rmtree(folder)
        return [int(it) for it in calls.read_text().split()]


def is_before(reply):
    """Whether a reply is a refusal that comes before any call of the store."""
    return not reply.startswith(b"200 ") and json.loads(reply[4:])["error"] in BEFORE


def expect_replies(script, told, where):
    """Each line that is not struck is told as if those that got 91 had not been sent, and from the first 93 on, 93; answers
    the places of the former, and of the latter."""
    disk = frozenset(at for at, reply in enumerate(told) if reply == DISK)
    closed = [at for at, reply in enumerate(told) if reply == CLOSED]
    first = closed[0] if closed else len(told)
    plain = iter(script.in_memory(disk, False))
    for at, reply in enumerate(told):
        if at in disk:
            expect(at < first, *where, "91 behind 93", told)
            continue
        wanted = next(plain)
        wanted = wanted if at < first or is_before(wanted) else CLOSED
        expect(reply == wanted, *where, "line", at, reply, "and not", wanted)
    return disk, closed


def expect_kept(script, folder, disk, closed, alone, where):
    """Opened again, the store has what the replies tell, with none, the first or all of the lines at which it closed."""
    ended = run(script.words(folder / "store"), b"".join(script.readers))
    found = ended.stdout.splitlines(keepends=True)
    expect((ended.returncode, ended.stderr) == (0, b""), *where, "opened again", ended)
    most = min(len(closed), 1) if alone else len(closed)
    wanted = [script.in_memory(disk | frozenset(closed[done:]), True)[-len(script.readers):] for done in range(most + 1)]
    expect(found in wanted, *where, "opened again, it has", found, "and not one of", wanted)
    expect_sound(folder / "store", folder)


def fail(script, folder, alone, way, at):
    """Has a call fail; answers what was told of it."""
    ended = script.run(folder, alone, **{way: str(at)})
    where = script.name, "alone" if alone else "together", way, at
    told = ended.stdout.splitlines(keepends=True)
    if ended.returncode:
        expect((ended.returncode, told) == (1, []) and ended.stderr in (None, *NOT_OPENED), *where, ended)
        shutil.rmtree(folder)
        return "not opened"
    expect(len(told) == len(script.lines) and not ended.stderr, *where, ended)
    disk, closed = expect_replies(script, told, where)
    expect(len(disk) + len(closed[:1]) <= 1 or not alone or way not in ONCE, *where, "struck", disk, closed)
    expect_kept(script, folder, disk, closed, alone, where)
    shutil.rmtree(folder)
    return "closed" if closed else "told" if disk else "not seen"


def places(count, step, offset):
    """Each so manieth call of so many, and one at least."""
    return range(1 + offset % max(1, min(step, count)), count + 1, step)


def faults(program, library, place, folder, workers, step, offset):
    """All that fails of one example; answers how often what was told."""
    expect(is_fit(place), place.name, "is no example that is fit for this (tests/support/worked.py)")
    tried = Counter()
    for begun in sorted({0, len(lines_of(place)) // 2}):
        script = Script(program, library, place, begun)
        for alone in True, False:
            counts = script.counts(folder / f"counted-{begun}-{alone}", alone)
            ways = [(way, counts[kind]) for way, kind in WAYS.items() if (kind == READS) == bool(begun)]
            jobs = [workers.submit(fail, script, folder / f"{begun}-{alone}-{way}-{at}", alone, way, at)
                    for way, count in ways for at in places(count, step, offset)]
            tried.update(job.result() for job in jobs)
    return tried


@pytest.fixture(scope="module")
def workers():
    with Workers() as them:
        yield them


@pytest.mark.parametrize("place", chosen(()), ids=lambda it: it.name)
def test_faults(program, library, folder, workers, place, step=STEP):
    """Calls of the disk fail in turn, alone or with all behind them."""
    offset = time.time_ns() % step
    print("each", step, "th call from", 1 + offset, "on")
    tried = faults(program, library, place, folder, workers, step, offset)
    expect(sum(tried.values()) > 1, "runs", tried)


def test_each_call_of_one_example(program, library, folder, workers):
    """Each call of the disk fails, of an example that changes something of each kind: all that may be told was."""
    tried = faults(program, library, *chosen(["two-customers"]), folder, workers, 1, 0)
    print(tried)
    expect(min(tried[it] for it in ("told", "closed", "not opened")) > 0, "told was", tried)
