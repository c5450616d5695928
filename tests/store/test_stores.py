"""Tries the compiled program over stores of `sqlite`.

1. Each folder of tests/examples/ that has lines has the replies that they get too, byte for byte: without words where its
   customers are the built-in ones, those of tests/examples/directory; over a store in memory; over a file that is closed
   and opened again in the middle; and over a file that is closed and opened again before each line. Its customers have the
   keys of its file `keys` too, where it has one.
2. Each file that this leaves is read, in a copy, by the sqlite3 of Python: `PRAGMA integrity_check` prints ok, the counts
   in `heads` are those of the rows, and messages and recipients belong together.
3. What is no desk is refused and stays: a text file, a folder, a missing folder, another program's tables, a desk of
   another version, and a store that another process holds. An empty file becomes a desk.
   A store of version 1 that the release before made (tests/examples/migration/version-1.db, by the lines of `made-by`) is refused
   by all words but `migrate`, which tells how many messages are on hold, then 0; the lines of `asked` get the replies there.
   What is no desk of either version is refused by `migrate` too and stays, and no file is made where there is none.
4. The process is stopped at each write, sync and cut of the file, with nothing and with half of that write done, and with
   the power gone there, so that what was not synced is gone. The next opening finds what was replied to, or that and what was
   under way, as a desk that was never stopped tells it; and sqlite3 finds the file sound. Under way is one line, where each comes
   alone, and else the lines that share a commit.
   A migration is stopped so too, with a tenth of many messages on hold: what is left is version 1 as it was, or version 2
   whole, with a reason for each message on hold and all other rows as they were.
5. Each request for memory is refused in turn, over plain lists, over memory and over a file. A line is then done and
   replied to as ever, or replied to with 90 and not done; the next opening of the file finds just that. A migration is
   done, or ends with 90 and leaves the store as it was, or with 93 and leaves it so or migrated whole.
"""
import shutil
import subprocess
from pathlib import Path

import pytest
import stores_stops
from serving import expect, words
from stores_files import (DIRECTORY, EXAMPLES, HOLD, MIGRATION, READERS, STEPS, batch, copied, expect_migration, expect_sound,
                          old_version, replies_of, run, sqlite3)
from tool import Workers
from words_runs import IMPORT, MOVE, QUEUE, SWEEP, SWEEP_ALL, USAGE, asked

# What is printed first of a store that another process holds.
TAKEN = b"hq: another process has the store\n"


# ---- the examples

def example(program, place, folder):
    """One folder of lines over plain lists, over memory, and over files that are closed in between."""
    lines, wanted = (place / "lines").read_bytes(), (place / "replies").read_bytes()
    own, keys = place / "directory", place / "keys"
    directory = own if own.exists() else DIRECTORY
    more = ["--keys", keys] if keys.exists() else []
    if directory == DIRECTORY:
        expect(replies_of([program], lines) == wanted, place, "over plain lists")
    expect(replies_of([*batch(program, None, directory), *more], lines) == wanted, place, "over memory")
    pieces = lines.splitlines(keepends=True)
    middle = len(pieces) // 2
    for how, parts in (("in halves", [pieces[:middle], pieces[middle:]]), ("line by line", [[it] for it in pieces])):
        store = folder / f"{place.name}-{how}"
        told = b"".join(replies_of([*batch(program, store, directory), *more], b"".join(part)) for part in parts)
        expect(told == wanted, place, how)
        if store.exists():
            expect_sound(store, folder)


# ---- openings

def refused(program, path, fault, before=b""):
    """Nothing is read or written, and the fault is told, behind these lines."""
    ended = run(batch(program, path), READERS)
    expect((ended.returncode, ended.stdout, ended.stderr) == (1, b"", before + b"hq: %s\n" % fault), path, ended)


def no_desks(program, folder):
    """A text, a database of something else, and a desk of a version that is none; and a desk, from which that was made."""
    text, other, ninth, later = (folder / name for name in ("text", "other", "ninth", "later"))
    text.write_bytes(b"This is a letter, and no database.\n" * 100)
    with sqlite3.connect(other) as base:
        base.execute("CREATE TABLE lines (a)")
    base.close()
    replies_of(batch(program, later), STEPS[0])
    with sqlite3.connect(copied(later, folder)) as base:
        base.execute("UPDATE desk_schema SET version = 9")
    base.close()
    shutil.copyfile(folder / "copy" / "store", ninth)
    return text, other, ninth, later


def openings(program, folder):
    text, other, ninth, later = no_desks(program, folder)
    empty = folder / "empty"
    before = later.read_bytes(), Path(f"{later}-wal").read_bytes()
    for path, fault in (
        (text, b"91 Disk"),
        (folder, b"91 Disk"),
        (folder / "none" / "store", b"91 Disk"),
        (other, b"92 BadSchema"),
        (ninth, b"92 BadSchema"),
    ):
        kept = path.read_bytes() if path.is_file() else b""
        refused(program, path, fault)
        expect(kept == (path.read_bytes() if path.is_file() else b""), path, "was changed")
    empty.touch()
    expect(replies_of(batch(program, empty), STEPS[0]) == replies_of([program], STEPS[0]), "an empty file")
    expect(before == (later.read_bytes(), Path(f"{later}-wal").read_bytes()), later, "was changed")
    held_by_another(program, later)


def told_of_a_holder(program, store):
    """Each word tells that another process has the store, where that is why it did nothing."""
    lines = store.parent / "lines.csv"
    lines.write_text("class,pattern,action\n")
    files = {"directory": str(DIRECTORY), "store": str(store), "file": str(lines)}
    nobody = "--sender", "<>"
    given = [("queue", QUEUE), ("history", QUEUE), ("hold", MOVE, *nobody), ("release", MOVE, *nobody), ("delete", MOVE, *nobody),
             ("usage", USAGE), ("import", IMPORT), ("sweep", SWEEP), ("sweep", SWEEP_ALL)]
    asks = [[program, *asked(word, options, **files), *more] for word, options, *more in given]
    served = words(program, "serve", store, "--listen", "127.0.0.1:0", "--count", "1", directory=DIRECTORY)
    for it in (*asks, served):
        ended = run(it, b"")
        expect((ended.returncode, ended.stdout, ended.stderr) == (1, b"", TAKEN + b"hq: 91 Disk\n"), it, ended)
    ended = run([program, *asked("queue", QUEUE, **files, customer="nobody")], b"")
    expect((ended.returncode, ended.stderr) == (1, b"hq: 13 NoCustomer\n"), "another trouble beside its holder", ended)


def held_by_another(program, store):
    """While a batch has a store, no other word gets it."""
    with subprocess.Popen(batch(program, store), stdin=subprocess.PIPE, stdout=subprocess.PIPE) as holder:
        holder.stdin.write(HOLD)
        holder.stdin.flush()
        expect(holder.stdout.readline().startswith(b"200 "), store, "its holder")
        refused(program, store, b"91 Disk", TAKEN)
        expect_migration(program, store, 1, b"", TAKEN + b"hq: 91 Disk\n")
        told_of_a_holder(program, store)
        holder.stdin.close()
        holder.stdout.read()
    expect(holder.returncode == 0, store, "its holder")


# ---- migrations

def migrations(program, folder, number):
    """A store of an earlier version is refused by all words but `migrate`, and then replies as it must."""
    text, other, ninth, _ = no_desks(program, folder)
    store = old_version(number, folder, "old")
    before = store.read_bytes()
    refused(program, store, b"92 BadSchema")
    expect(store.read_bytes() == before, store, "was changed")
    expect_migration(program, store, 0, b"migrated %d on hold\n" % (number == 1))
    expect_migration(program, store, 0, b"migrated 0 on hold\n")
    expect_sound(store, folder)
    asked, wanted = (MIGRATION / "asked").read_bytes(), (MIGRATION / "replies").read_bytes()
    # (version 1 kept no reasons; this one stands in the line by which the message was held)
    wanted = wanted if number == 1 else wanted.replace(b"held before version 2", b"check with sales")
    expect(replies_of(batch(program, store), asked) == wanted, store, "after its migration")
    expect_sound(store, folder)
    empty = folder / "blank"
    empty.touch()
    for path in (empty, other, ninth):
        kept = path.read_bytes()
        expect_migration(program, path, 1, b"", b"hq: 92 BadSchema\n")
        expect(path.read_bytes() == kept, path, "was changed")
    missing = folder / "missing"
    for path in (text, folder, folder / "none" / "store", missing):
        expect_migration(program, path, 1, b"", b"hq: 91 Disk\n")
    expect(not missing.exists(), missing, "was made")


@pytest.mark.parametrize("place", sorted(it.parent for it in EXAMPLES.glob("*/lines")), ids=lambda it: it.name)
def test_example(program, folder, place):
    """Its lines have its replies, byte for byte, over lists where its customers are the built-in ones, over memory, and over
    a file that is closed and opened again."""
    example(program, place, folder)


def test_openings(program, folder):
    """What is no desk is refused and stays; an empty file becomes a desk."""
    openings(program, folder)


@pytest.mark.parametrize("number", [1, 2])
def test_migrations(program, folder, number):
    """A store of each earlier version, and what is none."""
    migrations(program, folder, number)


@pytest.fixture
def workers():
    with Workers() as them:
        yield them


@pytest.mark.parametrize("ends", [stores_stops.EACH, stores_stops.ROUNDS], ids=["lines-alone", "lines-together"])
def test_stops(program, folder, workers, library, ends):
    """The process is stopped at each write, sync and cut of the file, with nothing and with half of that write done, and with
    the power gone there: what is found is what was replied to, or that and what shares the commit under way."""
    print(stores_stops.stops(program, library, workers, folder, ends))


@pytest.mark.parametrize("number", [1, 2])
def test_stopped_migrations(program, folder, workers, library, number):
    """What is left is the version before as it was, or version 3 whole."""
    print(stores_stops.stopped_migrations(program, library, workers, folder, number))


def test_refused_memory(program, folder, workers, library):
    """Each request for memory is refused in turn: a line is done and replied to as ever, or told 90 and not done."""
    print(stores_stops.refusals(program, library, workers, folder))


@pytest.mark.parametrize("number", [1, 2])
def test_refused_memory_of_migrations(program, folder, workers, library, number):
    """A migration is done, or ends with 90 and leaves the store as it was, or with 93."""
    print(stores_stops.refused_migrations(program, library, workers, folder, number))
