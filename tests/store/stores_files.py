"""What the parts of tests/store/test_stores.py share: the lines of their runs, and what sqlite3 finds in a store."""
import contextlib
import os
import shutil
import subprocess
from collections import Counter
from pathlib import Path

import pytest
from serving import LONGEST, expect, words

sqlite3 = pytest.importorskip("sqlite3")

ROOT = Path(__file__).resolve().parents[2]
EXAMPLES = ROOT / "tests" / "examples"
DIRECTORY = EXAMPLES / "directory"
MIGRATION = EXAMPLES / "migration"
KEYS = b"acmekey000000001", b"birchkey00000001"

HOLD = b"1767225603 POST /v1/hold/0000000001 acmekey000000001\n"

# What the process is stopped in: a submission to each customer, a line, a sweep that warns, a hold, a deletion, an import
# and the report of an attempt that fails for one of two recipients.
STEPS = [
    b'1767225600 POST /relay/submit/acme relaykey00000001 {"spool":"s1","sender":"ann@a.example",'
    b'"recipients":["bob@far.example","cat@far.example"],"size":900}\n',
    b'1767225601 POST /relay/submit/birch relaykey00000001 {"spool":"s1","sender":"",'
    b'"recipients":["dan@far.example"],"size":1200}\n',
    b'1767225602 POST /v1/line-put acmekey000000001 {"class":"recipient","pattern":"far.example","action":"HOLD"}\n',
    b"1767229203 POST /relay/sweep/acme relaykey00000001\n",
    HOLD,
    b"1767225604 DELETE /v1/message/0000000001 birchkey00000001\n",
    b'1767225605 POST /v1/import acmekey000000001 {"label":"jan","csv":"class,pattern,action\\n'
    b'recipient,far.example,REJECT\\nsender,<>,DISCARD\\n"}\n',
    b'1767225606 POST /relay/outcome/acme relaykey00000001 {"id":"0000000001","attempt":1,"outcomes":['
    b'{"recipient":"bob@far.example","result":"failed","status":"5.1.1","text":"no such user"}]}\n',
]
# What tells all that the two customers keep: the last one is refused as a label that was used, or as a bad file.
READERS = b"".join(
    b"1767225610 GET /v1/%s %s\n" % (what, key)
    for what in (b"messages", b"message/0000000001", b"lines", b"notices", b"notice/1")
    for key in KEYS
) + b'1767225610 POST /v1/import %s {"label":"jan","csv":"x"}\n' % KEYS[0]


def batch(program, store=None, directory=DIRECTORY):
    """The words for the customers of a directory, over a store in a file or in memory."""
    return words(program, "batch", store, directory=directory)


def run(asked, lines, **more):
    """The program with these words over these lines; `more` is added to its environment."""
    return subprocess.run(
        asked, input=lines, stdout=subprocess.PIPE, stderr=subprocess.PIPE, env={**os.environ, **more}, timeout=LONGEST
    )


def run_alone(asked, lines, **more):
    """The same, where each line comes behind the reply before, so that none shares a commit; it may be stopped."""
    told = b""
    with subprocess.Popen(asked, stdin=subprocess.PIPE, stdout=subprocess.PIPE, env={**os.environ, **more}) as program:
        with contextlib.suppress(BrokenPipeError):
            for line in lines:
                program.stdin.write(line)
                program.stdin.flush()
                reply = program.stdout.readline()
                told += reply
                if not reply:
                    break
        with contextlib.suppress(BrokenPipeError):
            program.stdin.close()
        return subprocess.CompletedProcess(asked, program.wait(LONGEST), told)


def replies_of(asked, lines):
    """The replies of a run that is to end well and tell nothing else."""
    ended = run(asked, lines)
    expect(ended.returncode == 0 and ended.stderr == b"", asked, ended.returncode, ended.stderr)
    return ended.stdout


# ---- what sqlite3 finds

def copied(store, folder):
    """A copy of a store and its log, so that the store stays as it is."""
    copy = folder / "copy"
    shutil.rmtree(copy, ignore_errors=True)
    copy.mkdir()
    for end in ("", "-wal"):
        if Path(f"{store}{end}").exists():
            shutil.copyfile(f"{store}{end}", copy / f"store{end}")
    return copy / "store"


def expect_sound(store, folder):
    """The store of a desk as sqlite3 reads it: its pages, and that its rows belong together."""
    with sqlite3.connect(copied(store, folder)) as base:
        rows = lambda text: base.execute(text).fetchall()
        expect(rows("PRAGMA integrity_check") == [("ok",)], store, "integrity_check")
        expect(rows("SELECT version FROM desk_schema") == [(3,)], store, "version")
        messages, lines = Counter(), Counter()
        for customer, size in rows("SELECT customer, size FROM messages"):
            messages[customer] += 1
            messages[customer, "bytes"] += size
        for (customer,) in rows("SELECT customer FROM lines"):
            lines[customer] += 1
        heads = rows("SELECT customer, messages, bytes, lines FROM heads")
        for customer, *kept in heads:
            counted = [messages[customer], messages[customer, "bytes"], lines[customer]]
            expect(kept == counted, store, customer, "heads say", kept, "rows", counted)
        owners = {customer for customer, *_ in heads}
        expect(set(lines) | {it for it in messages if isinstance(it, str)} <= owners, store, "rows without a head")
        next_notice = dict(rows("SELECT customer, next_notice FROM heads"))
        last = dict(rows("SELECT customer, max(number) FROM notices GROUP BY 1"))
        expect(all(number < next_notice[customer] for customer, number in last.items()), store, "notices", last)
        places = rows("SELECT customer, serial, count(*), min(place), max(place) FROM recipients GROUP BY 1, 2")
        expect(all(low == 1 and high == n for _, _, n, low, high in places), store, "places", places)
        expect({it[:2] for it in places} == set(rows("SELECT customer, serial FROM messages")), store, "recipients")
        on_hold = rows("SELECT customer, serial FROM messages WHERE state = 2 ORDER BY 1, 2")
        expect(rows("SELECT customer, serial FROM holds ORDER BY 1, 2") == on_hold, store, "holds")
        expect(rows("SELECT count(*) FROM holds WHERE hold_reason = ''") == [(0,)], store, "empty reasons")
        gone = dict(rows("SELECT customer, delivered + failed + deleted + expired FROM heads"))
        for customer, count, low, high in rows("SELECT customer, count(*), min(number), max(number) FROM ends GROUP BY 1"):
            expect(high - low + 1 == count and 1 <= low and high <= gone[customer], store, customer, "ends", low, high, count)
    base.close()


def without_log(store):
    """Takes the log of a store into its file, whose pages are then read as they are asked for, and not as it is opened."""
    if Path(store).exists():
        with sqlite3.connect(store) as base:
            base.execute("PRAGMA wal_checkpoint(TRUNCATE)")
        base.close()


# ---- migrations

def migration(program, store):
    return [program, "migrate", "--store", store]


def expect_migration(program, store, status, output, errors=b""):
    ended = run(migration(program, store), b"")
    expect((ended.returncode, ended.stdout, ended.stderr) == (status, output, errors), store, "migrate", ended)


def rows_of(store, folder):
    """The version of a store, the rows that all versions have, and those of holds and ends; as sqlite3 finds them."""
    with sqlite3.connect(copied(store, folder)) as base:
        rows = lambda text: base.execute(text).fetchall()
        expect(rows("PRAGMA integrity_check") == [("ok",)], store, "integrity_check")
        tables = {name for (name,) in rows("SELECT name FROM sqlite_master WHERE type = 'table'")}
        kept = {it: rows(f"SELECT * FROM {it} ORDER BY 1, 2") for it in sorted(tables - {"desk_schema", "holds", "ends"})}
        holds, ends = (rows(f"SELECT * FROM {it} ORDER BY 1, 2") if it in tables else None for it in ("holds", "ends"))
        version = rows("SELECT version FROM desk_schema")
    base.close()
    return version[0][0], kept, holds, ends


def on_hold(old):
    """The reasons that a store has once it was migrated: those that it had, or one for each message on hold."""
    version, kept, holds, _ = old
    return holds if version == 2 else [(*it[:2], "held before version 2") for it in kept["messages"] if it[6] == 2]


def expect_old_or_new(store, old, folder):
    """A store is as it was, or of version 3 with a reason for each message on hold and no history; answers its version."""
    found = rows_of(store, folder)
    expect(found in (old, (3, old[1], on_hold(old), [])), store, found)
    return found[0]


# The columns of a copy behind its customer and its serial.
COPIED = {"messages": "sender, 'c' || n, size, arrival, state, next_try, attempts, warned",
          "recipients": "place, address, status, reason", "holds": "hold_reason"}


def old_version(number, folder, name, copies=0):
    """A store of an earlier version, as its release made it, or with copies of the messages on hold of one customer."""
    store, kept = folder / name, MIGRATION / f"version-{number}.db"
    # (the release ended with a log behind it, or with all of it in the store)
    for end in ("", "-wal"):
        if Path(f"{kept}{end}").exists():
            shutil.copyfile(f"{kept}{end}", f"{store}{end}")
    if copies:
        with sqlite3.connect(store) as base:
            for table, values in COPIED.items():
                if (table, number) == ("holds", 1):
                    continue
                base.execute(f"WITH RECURSIVE made(n) AS (SELECT 10 UNION ALL SELECT n + 1 FROM made WHERE n < {copies + 9})"
                             f" INSERT INTO {table} SELECT customer, n, {values} FROM made, {table}"
                             " WHERE customer = 'birch' AND serial = 1 + (n % 10 > 0)")
            base.execute(f"UPDATE heads SET next_serial = {copies + 10}, messages = (SELECT count(*) FROM messages m WHERE"
                         " m.customer = 'birch'), bytes = (SELECT sum(size) FROM messages m WHERE m.customer = 'birch')"
                         " WHERE customer = 'birch'")
        base.close()
    return store
