"""Refuses requests for memory in turn, one a run, over the examples.

The lines of an example are run over plain lists, over a store in memory and over a file, again and again, and in each run
another request for memory is refused. Each time

1. at most one line is replied to with 503, and that is 90: no fault is told twice, and want of memory closes no store;
2. every other reply is that of a run without the struck out line, in which nothing is refused: it was done as a whole or
   not at all, and the lines behind it are done as ever;
3. the file has the rows that this other run leaves, as the sqlite3 of Python reads them;
4. a run that ends before its lines do has said so, as `hq: 90 WantOfMemory` or that the lines could not be read, with
   status 1, and the lines before its end are done and replied to.

Where nothing is refused, the replies are those of the example. Examples with a directory of their own are run over the two
stores of `sqlite` alone. Each 97th request is refused, or each N-th, from one on that the clock chooses and that is
printed; so with 1 every request is. Without names it takes all examples of at most 60 lines and 8,192 bytes, but those that
ask for a call of all customers, which may be done in part: tests/store/test_sweeps.py tries these.
"""
import os
import shutil
import subprocess
import tempfile
import time
from collections import Counter
from functools import lru_cache
from pathlib import Path

import pytest
from serving import LONGEST, expect, words
from tool import Workers
from worked import chosen, directory_of, lines_of, replies_of

sqlite3 = pytest.importorskip("sqlite3")

STEP = 97
NO_MEMORY = b'503 {"error":90,"name":"WantOfMemory"}\n'
ENDED = (b"hq: 90 WantOfMemory\n", b"hq: the lines could not be read\n")


class Script:
    """The lines of an example, over one of the stores."""

    def __init__(self, program, place, over):
        self.place, self.over = place, over
        self.lines, self.replies = lines_of(place), replies_of(place)
        directory, _ = directory_of(place)
        self.words = [program] if over == "lists" else words(program, "batch", directory=directory)
        self.without = lru_cache(None)(self.run_without)

    def run(self, folder, lines, **more):
        """What a run of these lines in a new folder ends with; `more` is added to its environment."""
        folder.mkdir()
        store = ["--store", folder / "store"] if self.over == "a file" else []
        return subprocess.run(
            [*self.words, *store], input=b"".join(lines), stdout=subprocess.PIPE, stderr=subprocess.PIPE,
            env={**os.environ, **more}, timeout=LONGEST,
        )

    def run_without(self, out):
        """The replies to all lines but those of these places, and the rows that this leaves; nothing is refused."""
        lines = [line for at, line in enumerate(self.lines) if at not in out]
        with tempfile.TemporaryDirectory() as made:
            ended = self.run(Path(made) / "run", lines)
            expect((ended.returncode, ended.stderr) == (0, b""), self.place, ended)
            return ended.stdout.splitlines(keepends=True), rows_of(Path(made) / "run" / "store")


def rows_of(store):
    """All rows of a store, by their tables; none where there is no file."""
    if not store.exists():
        return None
    with sqlite3.connect(store) as base:
        expect(base.execute("PRAGMA integrity_check").fetchall() == [("ok",)], store, "integrity_check")
        tables = base.execute("SELECT name FROM sqlite_master WHERE type = 'table'").fetchall()
        found = {name: base.execute(f"SELECT * FROM {name} ORDER BY 1, 2").fetchall() for name, in sorted(tables)
                 if name != "desk_schema"}
    base.close()
    return found


def count_requests(script, library, folder):
    """How many requests for memory the lines make, where none is refused."""
    calls = folder.parent / f"{folder.name}-calls"
    ended = script.run(folder, script.lines, LD_PRELOAD=library, CALLS=str(calls))
    expect((ended.returncode, ended.stderr) == (0, b""), script.place, script.over, ended)
    expect(ended.stdout.splitlines(keepends=True) == script.replies, script.place, script.over, "nothing refused", ended)
    shutil.rmtree(folder)
    return int(calls.read_text().split()[2])


def refuse(script, library, at, folder):
    """Refuses one request; answers whether a line was replied to with 503, or the run ended by it."""
    ended = script.run(folder, script.lines, LD_PRELOAD=library, REFUSE_AT=str(at))
    where = script.place.name, script.over, "request", at
    told = ended.stdout.splitlines(keepends=True)
    if ended.returncode != 0:
        expect(ended.returncode == 1 and ended.stderr in ENDED, *where, ended)
    else:
        expect(len(told) == len(script.replies) and ended.stderr == b"", *where, ended)
    struck = {place for place, reply in enumerate(told) if reply.startswith(b"503 ")}
    expect(len(struck) <= 1 and all(told[place] == NO_MEMORY for place in struck), *where, "told", told)
    out = frozenset(struck | set(range(len(told), len(script.lines))))
    replies, rows = script.without(out)
    expect([reply for place, reply in enumerate(told) if place not in struck] == replies, *where, told, "and not", replies)
    found = rows_of(folder / "store")
    expect(found == rows or (not told and not found), *where, "left", found, "and not", rows)
    shutil.rmtree(folder)
    return "told" if struck else "ended" if ended.returncode else "not seen"


def refusals(program, place, library, workers, folder, step, offset):
    """All that is refused of one example; answers how often what came of it."""
    tried = Counter()
    _, is_own = directory_of(place)
    for over in ("memory", "a file") if is_own else ("lists", "memory", "a file"):
        script = Script(program, place, over)
        requests = count_requests(script, library, folder / f"{place.name}-{over}-counted")
        jobs = [workers.submit(refuse, script, library, at, folder / f"{place.name}-{over}-{at}")
                for at in range(1 + offset % step, requests + 1, step)]
        tried.update(job.result() for job in jobs)
    return tried


# examples in which each seventh request for memory is refused
REFUSED = ("two-customers", "redirect-and-reject", "attempts", "import-once", "import-refusals-in-order", "requeue")


@pytest.mark.parametrize("name", REFUSED)
def test_refusals(program, library, folder, name, step=7):
    """Each so manieth request for memory is refused, from one on that the clock chooses and that is told."""
    offset = time.time_ns() % step
    print("each", step, "th request from", 1 + offset, "on")
    with Workers() as workers:
        found = refusals(program, *chosen([name]), library, workers, folder, step, offset)
    expect(found["told"], name, "has no line that is told of a refusal:", found)
