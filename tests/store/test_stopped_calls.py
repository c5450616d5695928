"""Fails calls of the disk in a sweep of all customers, over a store in a file.

Two customers have a message each, which is five days old. Each call that writes, syncs or cuts a file fails, alone or with all
behind it. A sweep of all tells the customers before the one at whom it failed, and tells at whom it stopped and by which fault; the
same sweep again does the rest, or tells that the store is closed. A sweep of a hundred names that customer as the one to go on at,
too (tests/support/interpose.c, docs/API-RELAY.md). A usage and what is due write nothing, and a desk that runs has read its store, so
that no call of the disk fails in them.
"""
import os
import shutil
import subprocess

import pytest
from serving import HEADER, LONGEST, RELAY, expect, words
from stores_files import without_log
from tool import Workers

MAIL = '{"spool":"s1","sender":"ann@a.example","recipients":["bob@far.example"],"size":900}'
QUEUED = ('200 {"id":"0000000001","recipients":["bob@far.example"],"refused":[],"state":"incoming",'
          '"verdict":"queued"}')
SWEEP = f"1767657600 POST /relay/sweep {RELAY}"
SWEPT, LEFT = '"expired":1,"notices":1,"warned":0', '"expired":0,"notices":0,"warned":0'
DISK, CLOSED = '"error":91,"name":"Disk"', '"error":93,"name":"Closed"'
NAMES = ["c000", "c001"]


def reply(*told, stop=None, hundred=False):
    """The parts of the first customers, each with these members, and the fault at the next one."""
    parts = [f'{{"customer":"{name}",{members}}}' for name, members in zip(NAMES, told)]
    stopped = f'{{"customer":"{NAMES[len(told)]}",{stop}}}' if stop else "null"
    following = f'"next":"{NAMES[len(told)]}",' if stop else '"next":null,'
    return f'200 {{"done":[{",".join(parts)}],{following if hundred else ""}"stopped":{stopped}}}'


def of_a_hundred(line):
    return line.replace(f" {RELAY}", f'-from {RELAY} {{"from":null}}')


@pytest.fixture
def aged(program, folder):
    """A store in which both customers have their message, never swept."""
    made = folder / "made"
    made.mkdir()
    rows = "".join(f"{name},customerskey{name},100,1000000,100,10,0\n" for name in NAMES)
    (made / "customers.csv").write_text(HEADER + rows)
    lines = [f"1767225600 POST /relay/submit/{name} {RELAY} {MAIL}" for name in NAMES]
    expect(run(program, made, lines).stdout.splitlines() == [QUEUED] * len(NAMES), "submissions")
    without_log(made / "store")
    return made


def run(program, made, lines, **more):
    asked = "".join(f"{line}\n" for line in lines)
    return subprocess.run(words(program, "batch", "store"), input=asked, capture_output=True, text=True, cwd=made,
                          timeout=LONGEST, env={**os.environ, **more})


def replies_of(program, made, name, lines, **more):
    """The replies over a copy of the store; none where it cannot be opened."""
    copy = shutil.copytree(made, made.parent / name)
    ended = run(program, copy, lines, **more)
    shutil.rmtree(copy)
    is_opened = (ended.returncode, ended.stderr) == (0, "")
    expect(is_opened or (ended.returncode, ended.stdout, ended.stderr) == (1, "", "hq: 91 Disk\n"), name, ended)
    return tuple(ended.stdout.splitlines())


def count_of(program, library, made, lines, kind):
    """How many calls of a kind these lines make."""
    calls = made.parent / "calls"
    replies_of(program, made, "counted", lines, LD_PRELOAD=library, CALLS=str(calls))
    return int(calls.read_text().split()[kind])


def outcomes(program, library, made, line, way, kind):
    """What the same line is told twice, for each call of a kind that fails so."""
    count = count_of(program, library, made, [line, line], kind)
    with Workers() as workers:
        jobs = [workers.submit(replies_of, program, made, f"{way}-{at}", [line, line], LD_PRELOAD=library, **{way: str(at)})
                for at in range(1, count + 1)]
        return [job.result() for job in jobs if job.result()]


def of_a_sweep(way, hundred):
    """What a sweep of two and the next one may tell, where one call fails so: nobody is left out, and nobody swept twice."""
    def told(*parts, stop=None):
        return reply(*parts, stop=stop, hundred=hundred)
    whole = told(SWEPT, SWEPT), told(LEFT, LEFT)
    struck = [(told(stop=DISK), told(SWEPT, SWEPT)), (told(SWEPT, stop=DISK), told(LEFT, SWEPT))]
    closed = [(told(stop=CLOSED), told(stop=CLOSED)), (told(SWEPT, stop=CLOSED), told(stop=CLOSED))]
    lasting = [(told(stop=DISK), told(stop=DISK)), (told(SWEPT, stop=DISK), told(LEFT, stop=DISK)),
               (told(stop=DISK), told(stop=CLOSED)), (told(SWEPT, stop=DISK), told(LEFT, stop=CLOSED))]
    return whole, struck, closed, lasting if way == "FAIL_FROM" else []


@pytest.mark.parametrize("hundred", [False, True], ids=["all", "a-hundred"])
@pytest.mark.parametrize("way", ["FAIL_AT", "FAIL_FROM"])
def test_sweeps(program, library, aged, way, hundred):
    found = outcomes(program, library, aged, of_a_hundred(SWEEP) if hundred else SWEEP, way, 0)
    whole, struck, closed, lasting = of_a_sweep(way, hundred)
    expect(set(found) <= {whole, *struck, *closed, *lasting}, way, "told", set(found))
    for first in struck:
        expect(first[0] in [it[0] for it in found], way, "never told", first, "but", set(found))
