"""Random histories of two customers over one file, cut and gone on with.

A history is 4 to 6 sessions, one after another, each a batch over the same store: lines of both customers and of the relay,
drawn from the seed; of calls of each kind, sweeps of all among them. Most sessions are cut: the process ends at a write, sync
or cut of the file, with nothing or with half of that write done; or the power goes there, so that what was not synced is gone,
or a part of it (tests/support/interpose.c); or it is killed at a moment of its run. A last session reads all that is kept.

Each customer has a machine: a desk in memory with that customer alone. It is given its own calls alone: those that were
replied to, and of each cut the call under way, done or not. Of a sweep of all that was under way the first so many customers
are done, in the order of the directory. Then for one such choice, the same for both customers, each reply that a customer
heard in any session is what its machine tells. Every choice is carried on while what is heard allows it.

So that the tool is known to see what it is to see, each history is looked at again with one submission left out that was
answered: that must be missed, of nearly all. And others are drawn over a disk that confirms syncs, and keeps nothing of
them when the power goes. There no choice may explain what was told, of nearly all; and it must be what the machines tell
where each session that was cut leaves nothing, so that what is seen is that answered changes are lost, and no other fault.

COUNT histories are tried, 200 without it. The seed is told; without one the clock gives it. The same seed draws the same
lines and places on one version of Python, but not the moments of kills.
"""
import contextlib
import json
import os
import random
import shutil
import subprocess
import threading
import time
from collections import Counter
from pathlib import Path
from typing import NamedTuple

from drawn_lines import KEYS, Line, Lines
from serving import HEADER, LONGEST, Wrong, expect, words
from tool import Workers

STOPPED, KILLED = 77, -9
# So many histories are drawn over a disk that lies.
LYING = 20


class Unexplained(Wrong):
    """No choice of what was done at the cuts of a history explains what was told."""


class Told(NamedTuple):
    """A line that was replied to."""
    line: Line
    reply: bytes


class Cut(NamedTuple):
    """The end of a session that was stopped, with the line under way, if there was one left."""
    line: Line


# ---- the program

def batch(program, directory, store=None):
    return words(program, "batch", store, directory=directory)


def run(asked, lines, kill_after=None, **more):
    """The program over these lines, of which each comes behind the reply before: its status and the replies that were written
    whole; killed after so many seconds."""
    replies = []
    with subprocess.Popen(asked, stdin=subprocess.PIPE, stdout=subprocess.PIPE, stderr=subprocess.PIPE,
                          env={**os.environ, **more}) as process:
        killing = threading.Timer(LONGEST if kill_after is None else kill_after, process.kill)
        killing.start()
        with contextlib.suppress(BrokenPipeError):
            for line in lines:
                process.stdin.write(line)
                process.stdin.flush()
                reply = process.stdout.readline()
                if not reply.endswith(b"\n"):
                    break
                replies.append(reply[:-1])
        with contextlib.suppress(BrokenPipeError):
            process.stdin.close()
        errors = process.stderr.read()
        process.wait()
        killing.cancel()
    expect(kill_after is not None or process.returncode != KILLED, asked, "has not ended")
    expect(process.returncode in (0, STOPPED, KILLED) and errors == b"", asked, "ended with", process.returncode, errors)
    expect(process.returncode or len(replies) == len(lines), asked, len(lines), "lines", len(replies), "replies")
    return process.returncode, replies


def counted(asked, store, lines, library, folder):
    """How many writes these lines would take, and how many seconds, tried on a copy of the store."""
    copy, calls = folder / "copy", folder / "calls"
    for end in ("", "-wal"):
        Path(f"{copy}{end}").unlink(missing_ok=True)
        if Path(f"{store}{end}").exists():
            shutil.copyfile(f"{store}{end}", f"{copy}{end}")
    begun = time.monotonic()
    more = {"LD_PRELOAD": library, "CALLS": str(calls)} if library else {}
    run([*asked, "--store", copy], lines, **more)
    return int(calls.read_text().split()[0]) if library else 0, time.monotonic() - begun


def cut_session(program, folder, lines, drawn, library, lies):
    """A session over the store of a history, cut as it is drawn; answers how, its status and its replies."""
    asked, store, texts = batch(program, folder / "directory"), folder / "store", [it.text for it in lines]
    ways = ["write", "half", "power", "power", "part", "kill", "kill", "none"] if library else ["kill", "kill", "none"]
    how = "power" if lies else drawn.choice(ways)
    # (all is drawn, whether it is used or not, so that a seed draws the same whatever the machine)
    place, late, part = drawn.random(), len(lines[-1].own) > 1 and drawn.random() < 0.7, drawn.randint(1, 2 ** 30)
    if how == "none":
        return how, *run([*asked, "--store", store], texts)
    writes, seconds = counted(asked, store, texts, library, folder)
    place = 1 - place / 5 if late or lies else place
    if how == "kill":
        return how, *run([*asked, "--store", store], texts, kill_after=place * seconds * 1.05)
    more = {"write": {}, "half": {"STOP_HALF": "1"}, "power": {"POWER_GOES": "0"},
            "part": {"POWER_GOES": str(part), "STOP_HALF": "1"}}[how]
    at = 1 + int(place * max(writes - 1, 0))
    more.update({"SYNCS_LIE": "1"} if lies else {}, LD_PRELOAD=library, STOP_AT=str(at))
    return how, *run([*asked, "--store", store], texts, **more)


# ---- the machines

def parts_of(line, reply):
    """What each customer of a line heard by its reply, as its machine would tell it; of a call of all its part."""
    if len(line.own) < 2:
        return {it: reply for it in line.own}
    told = json.loads(reply[4:])
    names = [it.pop("customer") for it in told["done"]]
    expect(told["stopped"] is None and names == [*line.own], line.text, "told", reply)
    parts = [json.dumps(it, separators=(",", ":")) for it in told["done"]]
    again = ",".join(f'{{"customer":"{it}",{part[1:]}' for it, part in zip(names, parts))
    expect(reply == f'200 {{"done":[{again}],"stopped":null}}'.encode(), line.text, "told", reply)
    return {it: f"200 {part}".encode() for it, part in zip(names, parts)}


class History:
    """What was told in one history, and the choices of what was done at its cuts that what was heard allows."""

    def __init__(self, program, folder, rows):
        self.program, self.folder, self.events, self.choices, self.known = program, folder, [], {()}, {}
        # of each session what was told, and whether it was cut
        self.sessions = []
        folder.mkdir()
        (folder / "directory").write_text(HEADER + "".join(rows.values()))
        for customer, row in rows.items():
            (folder / customer).write_text(HEADER + row)

    def passed(self, lines, status, replies):
        """A session has passed: choices that do not fit are dropped, and at a cut each that is left may go on in each way."""
        told = [Told(line, reply) for line, reply in zip(lines, replies)]
        self.events += told
        self.sessions.append((told, status != 0))
        faults = {choice: self.fault(choice) for choice in self.choices}
        self.choices = {it for it, fault in faults.items() if fault is None}
        if not self.choices:
            raise Unexplained("no choice of what was done at its cuts explains what was told", *self.explained(faults))
        if status and len(replies) < len(lines):
            line = lines[len(replies)]
            self.events.append(Cut(line))
            ways = range(1 + (len(line.own) if line.changes else 0))
            self.choices = {(*choice, way) for choice in self.choices for way in ways}

    def explained(self, faults):
        """The lines under way at the cuts, and how the first choices fail."""
        for number, line in enumerate(it.line.text for it in self.events if isinstance(it, Cut)):
            yield f"\n  cut {number + 1} in {line[:200]}"
        for choice, fault in sorted(faults.items())[:4]:
            yield f"\n  with {', '.join(map(str, choice)) or 'none'}: {fault}"

    def fault(self, choice, without=None):
        """How what the customers heard differs from what their machines tell by this choice; None where it does not."""
        for customer in KEYS:
            asked, heard, done = [], [], iter(choice)
            for at, event in enumerate(self.events):
                own = event.line.own.get(customer)
                if isinstance(event, Cut):
                    is_done = next(done, 0) > [*event.line.own, customer].index(customer)
                    reply = None
                else:
                    is_done, reply = at != without, parts_of(event.line, event.reply).get(customer)
                if own and is_done:
                    asked.append(own)
                    heard.append(reply)
            told = self.machine(customer, tuple(asked))
            for line, want, got in zip(asked, told, heard):
                if got not in (None, want):
                    return f"{customer} was told {got[:300]} to {line[:300]}, and its machine tells {want[:300]}"
        return None

    def machine(self, customer, asked):
        """What the machine of a customer replies to these lines."""
        if (customer, asked) not in self.known:
            status, replies = run(batch(self.program, self.folder / customer), asked)
            expect(status == 0, "the machine of", customer, "ended with", status)
            self.known[customer, asked] = replies
        return self.known[customer, asked]

    def expect_loss(self):
        """What was told is what the machines tell where a session that was cut leaves nothing, though it was answered."""
        for customer in KEYS:
            kept = []
            for told, is_cut in self.sessions:
                own = [it for it in told if customer in it.line.own]
                asked = [it.line.own[customer] for it in own]
                wanted = self.machine(customer, tuple(kept + asked))[len(kept):]
                for it, want in zip(own, wanted):
                    got = parts_of(it.line, it.reply)[customer]
                    expect(got == want, customer, "was told", got[:300], "to", it.line.text[:300], "and where nothing is left of"
                           " a session that was cut its machine tells", want[:300])
                kept += [] if is_cut else asked

    def expect_refusals(self):
        """What was no customer's call is replied to as on a desk where nothing was ever done."""
        told = [it for it in self.events if isinstance(it, Told)]
        nobodys = [it for it in told if not it.line.own]
        _, wanted = run(batch(self.program, self.folder / "directory"), [it.line.text for it in nobodys])
        for it, want in zip(nobodys, wanted):
            expect(it.reply == want and it.reply[:1] == b"4", it.line.text, "was told", it.reply, "and not", want)
        for it in told:
            expect(it.reply[:3] != b"503", it.line.text, "was told", it.reply)

    def found(self):
        """Of each cut, what became of the call under way."""
        for number, line in enumerate(it.line for it in self.events if isinstance(it, Cut)):
            ways = {choice[number] for choice in self.choices}
            if line.changes:
                yield "either" if len(ways) > 1 else "undone" if ways == {0} else "done" if len(line.own) in ways else "in part"

    def tells_without(self, drawn):
        """Whether a submission that was queued is missed where it is left out; None where there was none."""
        queued = [at for at, it in enumerate(self.events) if isinstance(it, Told) and b'"verdict":"queued"' in it.reply]
        if not queued:
            return None
        without = drawn.choice(queued)
        return all(self.fault(choice, without) for choice in self.choices)


def history(program, library, folder, seed, number, lies=False):
    """One history, over a disk whose syncs keep nothing if it lies; answers what was counted of it."""
    try:
        return told_history(program, library, folder, random.Random(f"{seed}/{number}"), lies)
    except Wrong as wrong:
        raise Wrong(f"history {number} of the seed {seed}:", *wrong.args) from None


def told_history(program, library, folder, drawn, lies):
    limits = {it: (drawn.choice([4, 30, 1000]), drawn.choice([4000, 10 ** 6]), drawn.choice([3, 100]), drawn.choice([1, 3, 100]),
                   drawn.choice([0, 3600, 7200])) for it in KEYS}
    rows = {it: f"{it},{KEYS[it]},{','.join(map(str, limits[it]))}\n" for it in KEYS}
    made, lines = History(program, folder, rows), Lines(drawn)
    counts = Counter(histories=1)
    try:
        for _ in range(drawn.randint(4, 6)):
            session = lines.session()
            how, status, replies = cut_session(program, folder, session, drawn, library, lies)
            made.passed(session, status, replies)
            counts.update(sessions=1, lines=len(replies), killed=status == KILLED, stopped=status == STOPPED,
                          power=status == STOPPED and how in ("power", "part"))
        session = [*lines.readings()]
        made.passed(session, *run(batch(program, folder / "directory", folder / "store"), [it.text for it in session]))
        made.expect_refusals()
        missed = made.tells_without(drawn)
    except Unexplained:
        if not lies:
            raise
        made.expect_loss()
        return Counter(lost=1)
    counts.update(made.found())
    counts.update(left_out=missed is not None, missed=bool(missed))
    shutil.rmtree(folder)
    return counts


def test_histories(program, library, folder, count=200):
    """Random histories of two customers over one file, cut and gone on with; the seed is the clock's, and is told."""
    seed = str(int(time.time()))
    print("the seed is", seed)
    with Workers() as workers:
        jobs = [workers.submit(history, program, library, folder / f"history-{it}", seed, it) for it in range(1, count + 1)]
        lying = [workers.submit(history, program, library, folder / f"lies-{it}", seed, f"lies-{it}", True)
                 for it in range(LYING)]
        it = sum((job.result() for job in jobs), Counter())
        it["lost"] = sum(job.result()["lost"] for job in lying)
    expect(it["undone"] and it["killed"] and it["done"] and it["power"], "of the seed", seed, dict(it))
    expect(it["missed"] * 10 >= it["left_out"] * 9 > 0, "of the seed", seed, "a submission was left out in", it["left_out"],
           "histories, and missed in", it["missed"])
    expect(it["lost"] * 10 >= len(lying) * 9, "of the seed", seed, "a disk that lies lost something in", it["lost"], "of",
           len(lying))
