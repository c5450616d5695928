"""Customers that come and leave, in three sessions over one file.

Each session is a batch with a directory of its own: birch has left in the second, and is back in the third, in which cedar is
new. Each customer is told of its own alone, and one that left finds its records when it is back. A session ends by itself, or
the power goes behind its last reply and takes what was not synced: nothing is lost that was replied to.
"""
from itertools import count
from pathlib import Path

import pytest
from serving import HEADER, KEYS, RELAY, expect
from stores_files import batch, expect_sound, run_alone

STOPPED = 77
NO_KEY = '401 {"error":2,"name":"NoKey"}'
QUEUED_FIRST = '200 {"id":"0000000001","recipients":["bob@far.example"],"refused":[],"state":"incoming","verdict":"queued"}'
LISTED_NONE = '200 {"messages":[],"more":false}'
LISTED_FIRST = ('200 {"messages":[{"arrival":1767225600,"id":"0000000001","reason":"","recipients":1,'
                '"sender":"ann@a.example","size":900,"state":"incoming"}],"more":false}')


def submit(customer, spool="s1"):
    return (f'POST /relay/submit/{customer} {RELAY} {{"spool":"{spool}","sender":"ann@a.example",'
            '"recipients":["bob@far.example"],"size":900}')


def listed(customer):
    return f"GET /v1/messages {KEYS[customer]}"


HOLD, DELETE = f"POST /v1/hold/0000000001 {KEYS['acme']}", f"DELETE /v1/message/0000000001 {KEYS['acme']}"
# The customers of each session, and its lines, each with its reply. The first opens a file that is not there.
SESSIONS = [
    (["acme", "birch"], [(submit("acme"), QUEUED_FIRST), (submit("birch"), QUEUED_FIRST), (listed("cedar"), NO_KEY)]),
    (["acme"], [(HOLD, '200 {"changed":1}'), (listed("birch"), NO_KEY), (DELETE, '200 {"changed":1}')]),
    (["acme", "birch", "cedar"], [(HOLD, '404 {"error":10,"name":"NoMessage"}'), (listed("acme"), LISTED_NONE),
                                  (listed("birch"), LISTED_FIRST), (listed("cedar"), LISTED_NONE)]),
]
# What is under way as the power goes: it writes, and has no reply.
UNDER_WAY = submit("acme", "s2")


def bytes_of(lines):
    return [f"1767225600 {line}\n".encode() for line in lines]


def power_goes(asked, lines, store, library):
    """The replies to lines behind which the power goes, at the first write of a further one."""
    kept = {path: path.read_bytes() for path in (store, Path(f"{store}-wal")) if path.exists()}
    for at in count(1):
        for path in (store, Path(f"{store}-wal")):
            path.unlink(missing_ok=True)
        for path, found in kept.items():
            path.write_bytes(found)
        ended = run_alone(asked, bytes_of([*lines, UNDER_WAY]), LD_PRELOAD=library, STOP_AT=str(at), POWER_GOES="0")
        expect(ended.returncode == STOPPED, "no stop", at, ended)
        if ended.stdout.count(b"\n") == len(lines):
            return ended.stdout
    return None


@pytest.mark.parametrize("has_power", [True, False], ids=["ends", "power-goes"])
def test_customers(program, library, folder, has_power):
    """Each session has its replies."""
    store, directory = folder / "store", folder / "directory"
    for customers, rows in SESSIONS:
        directory.write_text(HEADER + "".join(f"{it},{KEYS[it]},100,1000000,100,10,3600\n" for it in customers))
        asked, lines = batch(program, store, directory), [line for line, _ in rows]
        told = run_alone(asked, bytes_of(lines)).stdout if has_power else power_goes(asked, lines, store, library)
        wanted = "".join(f"{reply}\n" for _, reply in rows).encode()
        expect(told == wanted, customers, told, "and not", wanted)
    expect_sound(store, folder)
