"""Refuses requests for memory to a store that fails all the time.

A row of acme is no value, so each call that reads it fails, and the store asks then what became of its connection. Where memory
is refused for that, it is in doubt until it can ask. A batch of such calls is run with one request refused behind the opening,
each in turn; and with each second, third .. hundredth refused behind the first lines, since a statement takes more requests at
first than later. Its lines come one by one, or all at once.

A lack of memory closes no store: no call is told 93, and each is told 91, or 90. Where one request is refused, 90 is told at
most once, or by all lines that shared a round. A batch that ends before its lines do has said so.
"""
import shutil
from collections import Counter

import pytest
from serving import expect
from stores_files import KEYS, batch, replies_of, run, run_alone, sqlite3, without_log
from tool import Workers

DISK, NO_MEMORY = b'503 {"error":91,"name":"Disk"}\n', b'503 {"error":90,"name":"WantOfMemory"}\n'
ENDED = b"hq: 90 WantOfMemory\n", b"hq: the lines could not be read\n", None
BAD_ROW = "INSERT INTO messages VALUES ('acme', 1, 'nobody', 's1', 9, 1767225600, 1, 0, 0, 0)"
# A call that reads that row, and one that does not; how often they come.
BAD, GOOD = (b"1767225600 GET /v1/%s %s\n" % (what, KEYS[0]) for what in (b"messages", b"usage"))
FIRST = [BAD, GOOD]
LINES = [*FIRST, *[BAD] * 40, GOOD]
USAGE = (b'200 {"accepted":0,"bytes":0,"deleted":0,"delivered":0,"expired":0,"failed":0,"lines":0,"messages":0,'
         b'"pending":0}\n')
PLAIN = [DISK if line == BAD else USAGE for line in LINES]
EACH = range(2, 101)


def made_in(program, folder):
    """A store with the row that is no value."""
    store = folder / "bad"
    replies_of(batch(program, store), b"")
    with sqlite3.connect(store) as base:
        base.execute(BAD_ROW)
    base.close()
    without_log(store)
    return store


class Doubts:
    """The lines over copies of a store, one by one or all at once, and behind how many requests some are refused."""

    def __init__(self, program, library, folder, alone):
        self.program, self.library, self.folder, self.alone = program, library, folder, alone
        self.store = made_in(program, folder)
        self.behind = {"REFUSE_AT": self.counted([])[0], "REFUSE_EACH": self.counted(FIRST)[0]}

    def run(self, lines, name, **more):
        place = self.folder / name
        place.mkdir()
        shutil.copyfile(self.store, place / "store")
        asked, more = batch(self.program, place / "store"), {"LD_PRELOAD": self.library, **more}
        ended = run_alone(asked, lines, **more) if self.alone else run(asked, b"".join(lines), **more)
        shutil.rmtree(place)
        return ended

    def counted(self, lines):
        """How many requests for memory these lines take with the opening, and what they are told, where none is refused."""
        calls = self.folder / "calls"
        ended = self.run(lines, "counted", CALLS=str(calls))
        expect(ended.returncode == 0 and not ended.stderr, "nothing refused", ended)
        return int(calls.read_text().split()[2]), ended.stdout.splitlines(keepends=True)

    def refuse(self, way, at):
        """Refuses requests behind the opening; answers what was told of it."""
        ended = self.run(LINES, f"{way}-{at}", REFUSE_AFTER=str(self.behind[way]), **{way: str(at)})
        told = ended.stdout.splitlines(keepends=True)
        expect(all(reply in (plain, NO_MEMORY) for reply, plain in zip(told, PLAIN)), way, at, "told", told)
        if ended.returncode:
            expect(ended.returncode == 1 and ended.stderr in ENDED, way, at, ended)
            return "ended"
        expect(len(told) == len(LINES) and not ended.stderr, way, at, ended)
        count = told.count(NO_MEMORY)
        most = {0, 1} if self.alone else {0, 1, len(LINES)}
        expect(count in most or way == "REFUSE_EACH", way, at, "told", told)
        if count and DISK in told[len(FIRST):]:
            return "both told"
        return "90 alone" if count else "91 alone"


@pytest.mark.parametrize("alone", [True, False], ids=["lines-alone", "lines-together"])
def test_doubts(program, library, folder, alone):
    """A store that fails all the time is never closed, whichever requests for memory are refused."""
    doubts = Doubts(program, library, folder, alone)
    requests, plain = doubts.counted(LINES)
    expect(plain == PLAIN, "nothing refused", plain)
    tried = [("REFUSE_AT", at) for at in range(1, requests - doubts.behind["REFUSE_AT"] + 1)] + [("REFUSE_EACH", n) for n in EACH]
    with Workers() as workers:
        jobs = [workers.submit(doubts.refuse, *it) for it in tried]
        found = Counter((way, job.result()) for (way, _), job in zip(tried, jobs))
    print(found)
    expect(len(tried) > 400 and found["REFUSE_AT", "both told"] > 40 and found["REFUSE_AT", "91 alone"] > 40, found)
    expect(found["REFUSE_EACH", "both told"] > 50, "each so manieth", found)
