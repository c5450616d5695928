"""A folder of settings over which hq-customers runs, for tests/deploy."""
import csv
import os
import stat
import subprocess

from deploying import DEPLOY
from serving import HEADER, LONGEST, RELAY, expect

SCRIPT = DEPLOY / "hq-customers"
ACME = "acme,acmekey000000001,1000,500000000,1000,1000,14400\n"
RELAY_INI = """\
[desk]
address = 127.0.0.1:824
key-file = relay.key
directory = relay.csv

[spool]
folder = spool

[intake]
listen = 127.0.0.1:10024
senders = senders.csv

[delivery]
host = relay.example

[notices]
from = MAILER-DAEMON@relay.example
"""
# Ends the process, as a kill does, at its N-th call that changes a folder or syncs.
STOPPED = """\
import os, runpy, sys
left, script, sys.argv = int(sys.argv[1]), sys.argv[2], sys.argv[2:]
def stops(name):
    call = getattr(os, name)
    def counted(*given, **named):
        global left
        left -= 1
        if not left:
            os._exit(9)
        return call(*given, **named)
    return counted
for name in ("rename", "fsync", "unlink", "mkdir", "rmdir", "fchown"):
    setattr(os, name, stops(name))
sys.path.insert(0, os.path.dirname(script))
runpy.run_path(script, run_name="__main__")
"""


class Place:
    """A folder of settings with the desk north, and the commands that the script calls."""

    def __init__(self, folder, program, rows=ACME):
        self.folder, self.bin = folder / "etc", folder / "bin"
        self.folder.mkdir(exist_ok=True)
        self.bin.mkdir()
        (self.bin / "hq").symlink_to(program)
        (self.bin / "hq-relay").symlink_to(DEPLOY.parent / "relay/worker")
        self.desk("north", 825, rows)
        for name, text, mode in (("relay.ini", RELAY_INI, 0o640), ("relay.key", f"{RELAY}\n", 0o640)):
            (self.folder / name).write_text(text)
            (self.folder / name).chmod(mode)
        self.systemctl("exit 3")
        # (what is another user's to do is done by this one)
        (self.bin / "runuser").write_text('#!/bin/sh\nshift 3\nexec "$@"\n')
        (self.bin / "runuser").chmod(0o755)

    def desk(self, name, port, rows):
        for end, text in (("env", f"HOST=relay.example\nLISTEN=127.0.0.1:{port}\n"), ("key", f"{RELAY}\n"), ("csv", HEADER + rows)):
            (self.folder / f"{name}.{end}").write_text(text)
            (self.folder / f"{name}.{end}").chmod(0o640)

    def systemctl(self, line):
        (self.bin / "systemctl").write_text(f'#!/bin/sh\necho "$*" >>{self.bin}/called\n{line}\n')
        (self.bin / "systemctl").chmod(0o755)

    def words(self, *given):
        return [SCRIPT, "--folder", self.folder, *given]

    def run(self, *given, script=()):
        env = {**os.environ, "PATH": f"{self.bin}:{os.environ['PATH']}"}
        return subprocess.run([*script, *self.words(*given)], capture_output=True, text=True, timeout=LONGEST, env=env,
                              stdin=subprocess.DEVNULL)

    def done(self, *given):
        ended = self.run(*given)
        expect((ended.returncode, ended.stderr) == (0, ""), given, "ended with", ended)
        return ended.stdout

    def files(self):
        """What stands in the folder, but for the lock."""
        return {it.name: it.read_bytes() for it in self.folder.iterdir() if it.is_file() and it.name != ".customers.lock"}

    def rows(self, name="north.csv"):
        with open(self.folder / name, newline="") as file:
            return {it["name"]: it for it in csv.DictReader(file)}


def mode(path):
    return stat.S_IMODE(path.stat().st_mode)
