"""Tries the calls of all customers over a store in a file.

Two customers have a message each, which is five days old when all are swept.

1. Over HTTP, at the moment that a clock of its own tells, it has the response that the same line has in a batch; also
   where it takes longer than a client may take for its request and its response.
2. The numbers of notices of the first customer are spent: that is told in its part, and the second one is swept.
3. The process is stopped at each write, sync and cut of the file. What is found then is the work of the first customers
   whole, and of no other begun; of all of them where the reply was written. Asked again, the sweep does just the rest.
4. Each write, sync and cut fails in turn, and each request for memory is refused: of some thousand each seventh, another
   one first at each run, or with EACH as 1 all of them. The reply has the customers of whom the file has the work, and no
   other, and tells at whom it stopped and by which fault; or it is 90, and no work is done.
5. Each such request for memory is refused in a usage of all, and as all are asked what is due. The reply has what is told of
   the first customers, and tells at whom it stopped and that it was 90; or it is 90. Asked again, it is whole.
"""
import json
import os
import shutil
import subprocess
import time
from pathlib import Path

import pytest
from serving import KEYS, RELAY, Server, expect, request, words
from tool import Workers

sqlite3 = pytest.importorskip("sqlite3")

ROOT = Path(__file__).resolve().parents[2]
STOPPED = 77
NAMES = ("acme", "birch")
SUBMITTED, LATE, AGED = 1767225600, 1767229200, 1767657600
MAIL = '{"spool":"s1","sender":"ann@a.example","recipients":["bob@far.example"],"size":900}'
USED = ('{{"customer":"{}","accepted":1,"bytes":900,"deleted":0,"delivered":0,"expired":0,"failed":0,"lines":0,'
        '"messages":1,"pending":1}}')
LISTED = ('{{"customer":"{}","due":[{{"attempt":1,"id":"0000000001","recipients":["bob@far.example"],'
          '"sender":"ann@a.example","spool":"s1"}}],"more":false}}')
SWEPT = '{{"customer":"{}","expired":1,"notices":1,"warned":0}}'
AGAIN = '{{"customer":"{}","expired":0,"notices":0,"warned":0}}'
STRUCK = '503 {"error":90,"name":"WantOfMemory"}'
FAULTS = {90: "WantOfMemory", 91: "Disk", 93: "Closed"}


# A call that only reads, and what it tells of a customer.
READS = {it: (f"{AGED} POST /relay/{it} {RELAY}\n", told) for it, told in (("usage", USED), ("due", LISTED))}


def sweep_at(moment):
    return f"{moment} POST /relay/sweep {RELAY}\n"


def reply_of(parts, stopped="null"):
    """The body of the reply to a call of all."""
    return f'{{"done":[{",".join(parts)}],"stopped":{stopped}}}'


def batch(program, store, lines, **more):
    """A batch over a store in the folder where it stands."""
    return subprocess.run(words(program, "batch", store.name), input=lines.encode(), stdout=subprocess.PIPE,
                          stderr=subprocess.PIPE, cwd=store.parent, env={**os.environ, **more}, timeout=60)


def replies_of(program, store, lines):
    """The replies of a batch that is to end well and tell nothing else."""
    ended = batch(program, store, lines)
    expect((ended.returncode, ended.stderr) == (0, b""), lines, ended)
    return ended.stdout.decode().splitlines()


def made(program, folder):
    """A folder with a store in which each customer has its message, never swept."""
    folder.mkdir()
    shutil.copyfile(ROOT / "tests" / "examples" / "directory", folder / "customers.csv")
    lines = "".join(f"{SUBMITTED} POST /relay/submit/{name} {RELAY} {MAIL}\n" for name in NAMES)
    told = replies_of(program, folder / "store", lines)
    expect(all(it.startswith("200 ") for it in told) and len(told) == 2, "submissions", told)
    return folder


def copied(folder, name):
    """A copy of such a folder."""
    return shutil.copytree(folder, folder.parent / name) / "store"


def swept_in(program, store):
    """The customers whose message was given up, by what the desk tells of them; of each all was done, or nothing."""
    lines = "".join(f"{AGED} GET /v1/{what} {KEYS[name]}\n" for name in NAMES for what in ("usage", "notices"))
    told = [json.loads(it.partition(" ")[2]) for it in replies_of(program, store, lines)]
    found = [(it["messages"], it["expired"], len(notices["notices"])) for it, notices in zip(told[::2], told[1::2])]
    expect(all(it in ((1, 0, 0), (0, 1, 1)) for it in found), store, "one customer's work in part", found)
    return [name for name, it in zip(NAMES, found) if it == (0, 1, 1)]


def expect_rest(program, store, swept):
    """Another sweep at the same moment does what is left to do, and nothing else."""
    parts = [(AGAIN if name in swept else SWEPT).format(name) for name in NAMES]
    expect(replies_of(program, store, sweep_at(AGED)) == [f"200 {reply_of(parts)}"], store, "asked again", swept)
    expect(swept_in(program, store) == list(NAMES), store, "asked again")


# ---- the rows

def over_http(program, folder, library):
    store = copied(folder, "http")
    parts = ['{"customer":"acme","expired":0,"notices":1,"warned":1}', AGAIN.format("birch")]
    with Server(words(program, "serve", "store"), store.parent, 2, LD_PRELOAD=library, CLOCK_AT=str(LATE)) as server:
        server.ask(request("POST", "/relay/sweep", RELAY), 200, reply_of(parts))
        server.ask(request("POST", "/relay/sweep", KEYS["acme"]), 403, '{"error":3,"name":"WrongRole"}')
    expect(notices_of(program, store) == [1, 0], store, "warned over HTTP")
    slow = copied(folder, "slow")
    asked = [*words(program, "serve", "store"), "--request-timeout", "1"]
    with Server(asked, slow.parent, 1, LD_PRELOAD=library, CLOCK_AT=str(AGED), SYNC_TAKES="1100") as server:
        server.ask(request("POST", "/relay/sweep", RELAY), 200, reply_of([SWEPT.format(name) for name in NAMES]))


def notices_of(program, store):
    """How many notices each customer has."""
    lines = "".join(f"{AGED} GET /v1/notices {KEYS[name]}\n" for name in NAMES)
    return [len(json.loads(it.partition(" ")[2])["notices"]) for it in replies_of(program, store, lines)]


def with_spent_numbers(program, folder):
    store = copied(folder, "spent")
    with sqlite3.connect(store) as base:
        base.execute("UPDATE heads SET next_notice = 1099511627776 WHERE customer = 'acme'")
    base.close()
    parts = ['{"customer":"acme","error":44,"name":"NoticesSpent"}', SWEPT.format("birch")]
    expect(replies_of(program, store, sweep_at(AGED)) == [f"200 {reply_of(parts)}"], store, "numbers are spent")
    expect(swept_in(program, store) == ["birch"], store, "numbers are spent")


# ---- stops, failing writes and refused memory

def stop(program, folder, library, at, half):
    """Stops it at one of its writes; answers how many customers were done then, or None where it was not stopped."""
    store = copied(folder, f"stop-{at}-{len(half)}")
    ended = batch(program, store, sweep_at(AGED), LD_PRELOAD=library, STOP_AT=str(at), **half)
    expect(ended.returncode in (0, STOPPED), at, ended)
    swept = swept_in(program, store)
    expect(swept == list(NAMES[:len(swept)]) and (not ended.stdout or len(swept) == 2), at, ended, swept)
    expect_rest(program, store, swept)
    shutil.rmtree(store.parent)
    return len(swept) if ended.returncode == STOPPED else None


def stops(program, folder, library, workers, writes):
    """Stops it at each of its writes, with nothing and with half of it done; answers how often."""
    jobs = [workers.submit(stop, program, folder, library, at, half)
            for half in ({}, {"STOP_HALF": "1"}) for at in range(1, writes + 1)]
    found = [job.result() for job in jobs]
    expect(set(found) == {0, 1, 2}, "stops", found)
    return len(found)


def expect_told(program, store, reply):
    """A reply tells just what was done: answers the fault that it tells, or None, and how many customers were done."""
    swept = swept_in(program, store)
    if reply == STRUCK:
        expect(swept == [], store, reply, swept)
        return 90, 0
    stopped = json.loads(reply.partition(" ")[2])["stopped"]
    done = NAMES if stopped is None else NAMES[:NAMES.index(stopped["customer"])]
    told = "null" if stopped is None else '{{"customer":"{}","error":{},"name":"{}"}}'.format(
        NAMES[len(done)], stopped["error"], FAULTS[stopped["error"]])
    expect(reply == f"200 {reply_of([SWEPT.format(name) for name in done], told)}", store, reply)
    closed = stopped is not None and stopped["error"] == 93 and swept == list(NAMES[:len(done) + 1])
    expect(swept == list(done) or closed, store, reply, "and found", swept)
    return stopped["error"] if stopped else None, len(done)


def trouble(program, folder, library, variable, at):
    """Makes one call of a kind fail; answers which fault was told behind how many customers, or None where it ended early."""
    store = copied(folder, f"{variable}-{at}")
    ended = batch(program, store, sweep_at(AGED), LD_PRELOAD=library, **{variable: str(at)})
    kind = None
    if ended.returncode == 0 and ended.stdout:
        expect(ended.stderr == b"", at, ended)
        kind = expect_told(program, store, ended.stdout.decode().rstrip("\n"))
    else:
        expect(ended.returncode == 1 and ended.stdout == b"", at, ended)
    expect_rest(program, store, swept_in(program, store))
    shutil.rmtree(store.parent)
    return kind


def troubles(program, folder, library, workers, variable, places):
    """Makes a call of a kind fail at each of these places; answers all that was told."""
    jobs = [workers.submit(trouble, program, folder, library, variable, at) for at in places]
    return {job.result() for job in jobs}


# ---- calls that only read

def read(program, folder, library, word, at):
    """Refuses a request for memory in such a call; answers of how many customers it told, or None where it was 90."""
    store, (line, part) = copied(folder, f"{word}-{at}"), READS[word]
    ended = batch(program, store, line, LD_PRELOAD=library, REFUSE_AT=str(at))
    parts, told = [part.format(name) for name in NAMES], ended.stdout.decode().rstrip("\n")
    stops = [*('{{"customer":"{}","error":90,"name":"WantOfMemory"}}'.format(name) for name in NAMES), "null"]
    replies = [f"200 {reply_of(parts[:done], stop)}" for done, stop in enumerate(stops)]
    if ended.returncode == 0 and told:
        expect(told in (*replies, STRUCK) and ended.stderr == b"", at, ended)
    else:
        expect(ended.returncode == 1 and not told, at, ended)
    expect(replies_of(program, store, line) == replies[-1:], at, "asked again")
    shutil.rmtree(store.parent)
    return replies.index(told) if told in replies else None


def reads(program, folder, library, workers, word, each):
    """Refuses some requests for memory in turn; answers how many."""
    calls = folder.parent / word
    batch(program, copied(folder, f"{word}-counted"), READS[word][0], LD_PRELOAD=library, CALLS=str(calls))
    places = range(1 + int(time.time()) % each, int(calls.read_text().split()[2]) + 1, each)
    found = {job.result() for job in [workers.submit(read, program, folder, library, word, at) for at in places]}
    expect(each > 1 or {0, 1} <= found, "told of", word, found)
    return len(places)


@pytest.fixture
def aged(program, folder):
    """A store whose two messages are five days old when all are swept."""
    return made(program, folder / "made")


@pytest.fixture
def workers():
    with Workers() as them:
        yield them


def test_over_http(program, aged, library):
    over_http(program, aged, library)


def test_spent_numbers(program, aged):
    with_spent_numbers(program, aged)


def test_stops_and_troubles(program, aged, library, workers, folder, each=7):
    """Stopped, failed and refused memory at each place of a sweep of all: what is found is the work of the first customers
    whole, and of no other begun."""
    calls = folder / "calls"
    batch(program, copied(aged, "counted"), sweep_at(AGED), LD_PRELOAD=library, CALLS=str(calls))
    writes, _, requests = map(int, calls.read_text().split()[:3])
    stops(program, aged, library, workers, writes)
    failed = troubles(program, aged, library, workers, "FAIL_AT", range(1, writes + 1))
    places = range(1 + int(time.time()) % each, requests + 1, each)
    refused = troubles(program, aged, library, workers, "REFUSE_AT", places)
    expect((91, 0) in failed and (91, 1) in failed, "failing writes", failed)
    expect((90, 0) in refused and (90, 1) in refused, "refused memory", refused)


@pytest.mark.parametrize("word", READS)
def test_reads(program, aged, library, workers, word, each=7):
    reads(program, aged, library, workers, word, each)
