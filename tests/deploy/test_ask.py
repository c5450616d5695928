"""hq-ask: a desk that runs is asked at its address, and one that does not over its store; all customers by hundreds."""
import json
import os
import pwd
import stat
import subprocess
import time

import pytest
from deploying import DEPLOY, Desk
from serving import LONGEST, RELAY, batch_line, expect, named, submission
from stand_in import StandIn, by_hundreds
from steps import lines_of

ROWS = ["acme,acmekey000000001,1000,500000000,1000,100,14400", "birch,birchkey00000001,100,1000000,100,10,0"]
QUEUE = """\
Queue ID          Size Arrival                         Sender/Recipient
0000000001         900 MOMENT ann@a.example
    bob@far.example
0000000002         900 MOMENT ann@a.example
    bob@far.example
-- 2 queued, 1800 bytes, 0 on hold
"""
# More customers than a call of all asks.
MANY = [f"c{number:03}" for number in range(1, 103)]
MANY_ROWS = [f"{it},{it}key000000001,10,100000,10,10,0" for it in MANY]
SWEPT = {"expired": 0, "notices": 0, "warned": 0}
# A user that owns nothing, as the user of the desks.
NOBODY = 65534
NOTHING = "accepted 0, pending 0, delivered 0, failed 0, deleted 0, expired 0"


class Asking:
    """The script over the files of a desk."""

    def __init__(self, folder, program):
        self.folder, self.bin, self.user = folder, folder / "bin", os.getuid()
        self.bin.mkdir()
        (self.bin / "hq").symlink_to(program)

    def submit(self, *bodies):
        """Submits mail of acme to the store of the desk, which does not run."""
        lines = [batch_line(int(time.time()), "POST", "/relay/submit/acme", RELAY, it) for it in bodies]
        words = [self.bin / "hq", "batch", "--directory", self.folder / "north.csv", "--host", "relay.example", "--relay-key", RELAY,
                 "--store", self.folder / "north.db"]
        told = subprocess.run(words, input="".join(f"{it}\n" for it in lines), capture_output=True, text=True, timeout=LONGEST)
        expect(told.stdout.count('"verdict":"queued"') == len(bodies), "a submission got", told)

    def watch_users(self):
        """Has each later run of `hq` write down its user."""
        (self.folder / "users").touch()
        (self.folder / "users").chmod(0o666)
        program = (self.bin / "hq").resolve()
        (self.bin / "hq").unlink()
        (self.bin / "hq").write_text(f'#!/bin/sh\nid -u >>{self.folder}/users\nexec {program} "$@"\n')
        (self.bin / "hq").chmod(0o755)

    def fail_once(self):
        """Has the next run of `hq` end as over a store that another process has let go of since."""
        program = (self.bin / "hq").resolve()
        (self.bin / "hq").unlink()
        once = f"rmdir {self.folder}/once 2>/dev/null && {{ echo 'hq: 91 Disk' >&2; exit 1; }}"
        (self.folder / "once").mkdir()
        (self.bin / "hq").write_text(f'#!/bin/sh\n{once}\nexec {program} "$@"\n')
        (self.bin / "hq").chmod(0o755)

    def users(self):
        return set((self.folder / "users").read_text().split())

    def run(self, *given):
        words = [DEPLOY / "hq-ask", "--folder", self.folder, "--store", self.folder, "--user", pwd.getpwuid(self.user).pw_name, *given]
        env = {**os.environ, "PATH": f"{self.bin}:{os.environ['PATH']}"}
        return subprocess.run(words, capture_output=True, text=True, timeout=LONGEST, env=env, stdin=subprocess.DEVNULL)

    def done(self, *given):
        ended = self.run(*given)
        expect((ended.returncode, ended.stderr) == (0, ""), given, "ended with", ended)
        return ended.stdout

    def refused(self, told, *given, status=1):
        ended = self.run(*given)
        expect((ended.returncode, ended.stdout) == (status, "") and ended.stderr.strip().endswith(told), given, "ended with", ended)


@pytest.fixture
def asking(folder, program):
    return Asking(folder, program)


@pytest.fixture(params=["an address", "a path"])
def desk(request, folder, program, asking):
    """A desk with two messages of acme."""
    it = Desk(folder, program, "north", ROWS, address=f"unix:{folder}/sock" if request.param == "a path" else None)
    asking.submit(submission("s1"), submission("s2"))
    with it:
        yield it


def moved(asking):
    """The commands, one after another, over a queue of two."""
    arrival = asking.done("queue", "acme").splitlines()[1][23:54]
    expect(asking.done("queue", "acme") == QUEUE.replace("MOMENT", arrival), asking.done("queue", "acme"))
    expect(asking.done("usage", "birch") == f"birch: messages 0, bytes 0, lines 0, {NOTHING}\n", asking.done("usage", "birch"))
    expect(len(asking.done("usage").splitlines()) == 2, asking.done("usage"))
    found = asking.done("find", "acme", "recipient", "far.example").splitlines()
    expect([it[:19] for it in found] == ["0000000001 incoming", "0000000002 incoming"], found)
    expect(asking.done("hold", "acme", "0000000001") == "changed 1\n", "one is not held")
    expect(asking.done("hold", "acme", "sender", "a.example") == "changed 1\n", "the other is not held")
    expect("-- 2 queued, 1800 bytes, 2 on hold\n" in asking.done("queue", "acme"), asking.done("queue", "acme"))
    expect(asking.done("release", "acme", "ALL") == "changed 2\n", "they are not released")
    expect(asking.done("requeue", "acme", "0000000001") == "id 0000000003\n", "it is not queued anew")
    expect(asking.done("sweep", "acme") == "acme: expired 0, warned 0, notices 0\n", "it is not swept")
    expect(asking.done("sweep").splitlines()[1] == "birch: expired 0, warned 0, notices 0", "all are not swept")
    expect(asking.done("delete", "acme", "0000000003") == "changed 1\n", "it is not deleted")
    expect(asking.done("history", "acme") == "", "what no history is kept of has one")


def test_over_a_desk_that_runs(asking, desk):
    moved(asking)
    asking.refused("hq-ask: 10 NoMessage", "hold", "acme", "0000000009")
    expect("0000000002" in asking.done("queue", "acme"), "the desk does not have what was done")


def test_over_its_store(asking, desk):
    """The same over the store of a desk that was stopped, as the user of the desks; its files stay that user's."""
    desk.stop()
    asking.watch_users()
    owner = asking.user = os.getuid() or NOBODY
    if not os.getuid():
        for it in (asking.folder, *asking.folder.glob("north.db*")):
            os.chown(it, owner, owner)
    moved(asking)
    expect(asking.users() == {str(owner)}, "hq was run by", asking.users())
    for it in asking.folder.glob("north.db*"):
        expect((stat.S_IMODE(it.stat().st_mode), it.stat().st_uid) == (0o600, owner), it)
    desk.start()
    expect("0000000002" in asking.done("queue", "acme"), "the desk does not have what was done")


def test_a_burst(asking, folder, program):
    """The lines of docs/PROCEDURES.md for a burst of mail hold, list and delete that of its sender alone."""
    Desk(folder, program, "north", ROWS)
    asking.submit({**submission("s1"), "sender": "bot@acme.example"}, submission("s2"))
    held, found, deleted = (asking.done(*line.split()[1:]) for line in lines_of("Stopping a burst of mail"))
    expect((held, deleted) == ("changed 1\n", "changed 1\n") and found.endswith(" bot@acme.example\n"), "it prints", held, found, deleted)
    expect("-- 1 queued, " in asking.done("queue", "acme"), "left is", asking.done("queue", "acme"))


def test_a_store_that_another_process_has(asking, desk):
    """The settings name another address: the store is locked, and that is told."""
    settings = asking.folder / "north.env"
    settings.write_text("HOST=relay.example\nLISTEN=unix:/nobody/there\n")
    asking.refused(f"hq: another process has the store, hq: 91 Disk: {asking.folder}/north.db", "queue", "acme")


def test_a_store_that_another_process_had_a_moment_ago(asking, folder, program):
    Desk(folder, program, "north", ROWS)
    asking.submit(submission("s1"))
    asking.fail_once()
    expect("0000000001" in asking.done("queue", "acme"), "the queue lacks its message")
    expect(not (folder / "once").exists(), "hq was not run twice")


def test_without_a_store(asking, folder, program):
    Desk(folder, program, "north", ROWS)
    asking.refused(f"and there is no store {folder}/north.db", "queue", "acme")
    expect(not (folder / "north.db").exists(), "it made a store")


def test_history(asking, desk):
    """What became of each recipient, page after page, the newest first."""
    desk.stop()
    (asking.folder / "north.csv").write_text("name,key,messages,bytes,lines,notices,delay,history\n"
                                             "acme,acmekey000000001,1000,500000000,1000,100,14400,1000\n")
    recipients = [f"r{number}@far.example" for number in range(60)]
    asking.submit(*({**submission(spool), "recipients": recipients} for spool in ("p", "q")))
    desk.start()
    asking.done("delete", "acme", "ALL")
    lines = asking.done("history", "acme").splitlines()
    expect(len(lines) == 122 and lines[0].split(" ", 3)[3] == "0000000004 ann@a.example r59@far.example deleted", lines[:2])
    found = asking.done("history", "acme", "recipient", "r7@far.example").splitlines()
    expect([it.split()[3] for it in found] == ["0000000004", "0000000003"], found)


def test_all_of_many(asking, folder, program):
    """More than a hundred customers are asked by two calls, and one by a call of its own."""
    with Desk(folder, program, "north", MANY_ROWS):
        for command in ("usage", "sweep"):
            names = [it.partition(":")[0] for it in asking.done(command).splitlines()]
            expect(names == MANY, command, "tells", names)
        expect(asking.done("usage", "c102") == f"c102: messages 0, bytes 0, lines 0, {NOTHING}\n", "of one it tells another usage")
    asked = [json.loads(it)["path"] for it in (folder / "north.log").read_text().splitlines()]
    expect(asked == ["/relay/usage-from"] * 2 + ["/relay/sweep-from"] * 2 + ["/v1/usage"], "asked was", asked)


@pytest.mark.parametrize("fault, starts", [("c050", [None]), ("c101", [None, "c101"])])
def test_a_stop(folder, fault, starts):
    """What was done before it is printed, and it is told once."""
    with StandIn(by_hundreds(MANY, SWEPT, fault)) as desk:
        Desk(folder, "true", "north", MANY_ROWS, named(desk.server_address))
        ended = Asking(folder, "true").run("sweep")
    done = "".join(f"{it}: expired 0, warned 0, notices 0\n" for it in MANY[:MANY.index(fault)])
    told = f"hq-ask: north stopped at {fault}: error 91, name Disk\n"
    expect((ended.returncode, ended.stdout, ended.stderr) == (1, done, told), "it ended with", ended)
    expect([json.loads(body)["from"] for _, _, body in desk.asked] == starts, "asked was", desk.asked)


def test_a_desk_without_an_end(folder):
    """One that names a customer from whom it was asked before is asked no more."""
    with StandIn(lambda body: (200, json.dumps({"done": [], "next": "c001", "stopped": None}))) as desk:
        Desk(folder, "true", "north", MANY_ROWS, named(desk.server_address))
        Asking(folder, "true").refused("hq-ask: the desk goes on at c001 again", "usage")
        expect(len(desk.asked) == 2, "asked was", desk.asked)


def test_words(asking, folder, program):
    """Words that are not taken are told, and nobody is asked."""
    Desk(folder, program, "north", ROWS)
    asking.refused("hq-ask: there is no customer cedar", "queue", "cedar")
    asking.refused("hq-ask: there is no customer acme on south", "--desk", "south", "queue", "acme")
    asking.refused("has no settings of a desk south", "--desk", "south", "usage")
    asking.refused("queue wants a customer", "queue", status=2)
    asking.refused("find takes no such words", "find", "acme", status=2)
    asking.refused("a class is sender or recipient", "hold", "acme", "side", "a.example", status=2)
    asking.refused("'../x' is no queue ID", "hold", "acme", "../x", status=2)
