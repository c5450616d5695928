"""Counts the commits of a batch whose lines are there together, and tells what is done where no reply can be written.

A library counts the syncs of the store's file (tests/support/interpose.c). Those of a batch with one commit are counted first;
each further commit takes one more.

1. 64 lines that change something share one commit, 65 take two; lines that only read take none.
2. A line that cannot be read parts the lines before it from those behind it.
3. Lines that come one by one, each behind the reply before, take a commit each.
4. Each line gets its own reply, in their order.
5. Where no reply can be written, those lines are done that share the first round, and no other.
"""
import json
import os
import subprocess

import pytest
from interposed import library_in
from serving import ACME, HEADER, RELAY, batch_line, expect, one_by_one, submission, words

ROWS = f"acme,{ACME},1000,500000000,2000,1000,14400\n"
# One more than fill a round.
MESSAGES, TOGETHER = 70, 64
START = 1767225600
UNREADABLE = "no line"


@pytest.fixture
def filled(program, folder):
    """A folder with a store of so many messages, each with a spool name of its own."""
    (folder / "customers.csv").write_text(HEADER + ROWS)
    lines = [batch_line(START, "POST", "/relay/submit/acme", RELAY, submission(f"spool-{it + 1}")) for it in range(MESSAGES)]
    ended = at_once(program, folder, lines)
    expect(ended.stdout.count(b"200 ") == MESSAGES, "submissions gave", ended.stdout[:300])
    return folder


def hold(number):
    return batch_line(START, "POST", f"/v1/hold/{number:010X}", ACME)


def shown(number):
    return batch_line(START, "GET", f"/v1/message/{number:010X}", ACME)


def at_once(program, folder, lines, **more):
    """A batch whose lines are all there as it begins."""
    given = "".join(f"{it}\n" for it in lines).encode()
    return subprocess.run(words(program, "batch", "store"), input=given, capture_output=True, cwd=folder, timeout=120, **more)


def syncs_of(program, folder, lines, alone=False):
    """How often a batch of these lines syncs."""
    counts = folder / "counts"
    more = {"LD_PRELOAD": library_in(folder), "CALLS": str(counts)}
    if alone:
        one_by_one(words(program, "batch", "store"), lines, folder, more)
    else:
        ended = at_once(program, folder, lines, env={**os.environ, **more})
        replies = ended.stdout.decode().splitlines()
        are_well = [it[:3] for it in replies] == ["400" if it == UNREADABLE else "200" for it in lines]
        expect(ended.returncode == 0 and are_well, "replied was", replies[:3], ended.stderr)
    return int(counts.read_text().split()[1])


@pytest.mark.parametrize("lines, alone, commits", [
    ([shown(1), shown(2)], False, 0),
    ([hold(it + 1) for it in range(TOGETHER)], False, 1),
    ([hold(it + 1) for it in range(TOGETHER + 1)], False, 2),
    ([hold(1), hold(2), UNREADABLE, hold(3), hold(4)], False, 2),
    ([hold(it + 1) for it in range(5)], True, 5),
], ids=["reads", "as-many-as-share", "one-more", "a-line-that-cannot-be-read", "one-by-one"])
def test_commits(program, filled, lines, alone, commits):
    none = syncs_of(program, filled, [shown(MESSAGES)])
    one = syncs_of(program, filled, [hold(MESSAGES)])
    expect(none < one, "a line that changes something takes", one, "syncs, and one that reads", none)
    wanted = one + commits - 1 if commits else none
    found = syncs_of(program, filled, lines, alone)
    expect(found == wanted, len(lines), "lines took", found, "syncs, and not", wanted)


def test_each_line_gets_its_own_reply(program, filled):
    numbers = [*range(1, MESSAGES + 1), 9, 3]
    ended = at_once(program, filled, [shown(it) for it in numbers])
    found = [json.loads(it.partition(" ")[2])["spool"] for it in ended.stdout.decode().splitlines()]
    expect(found == [f"spool-{it}" for it in numbers], "the replies are", found)


def test_no_reply_can_be_written(program, filled):
    """Nobody reads the replies: the lines of the first round are done, and none behind it."""
    with subprocess.Popen(words(program, "batch", "store"), stdin=subprocess.PIPE, stdout=subprocess.PIPE, stderr=subprocess.PIPE,
                          cwd=filled) as batch:
        batch.stdout.close()
        told = batch.stderr
        batch.stdin.write("".join(f"{hold(it + 1)}\n" for it in range(MESSAGES)).encode())
        batch.stdin.close()
        errors = told.read()
        status = batch.wait(120)
    expect((status, errors) == (1, b"hq: output\n"), "the batch ended by", status, errors)
    ended = at_once(program, filled, [shown(it + 1) for it in range(MESSAGES)])
    states = [json.loads(it.partition(" ")[2])["state"] for it in ended.stdout.decode().splitlines()]
    expect(states == ["hold"] * TOGETHER + ["incoming"] * (MESSAGES - TOGETHER), "the states are", states)
