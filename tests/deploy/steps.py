"""The procedures of docs/PROCEDURES.md, each run by the very lines that the page shows.

What calls systemctl is done to the desks and the two nginx of the test; all else is run by a shell,
with the folders and addresses of the test.
"""
import re
import subprocess
import time
from pathlib import Path

from deploying import DEPLOY
from serving import LONGEST, Wrong, expect

SCRIPTS = "/usr/libexec/hq-desk"
# The line with which a desk is away, until it is started.
STOPS = re.compile(rf"{SCRIPTS}/desk-stop ")
# The line that stops both desks of a move, and starts them.
MOVES = re.compile(r"hq-customers move ")
# What is done with the worker, which does not run here: tests/relay has that.
OF_WORKER = re.compile(rf"{SCRIPTS}/desk-(?:stop|start) relay$|.*hq-relay")
# What stops desks, puts their stores back, and starts them.
RESTORES = re.compile(r"hq-restore ")
PAGE = Path(__file__).resolve().parents[2] / "docs/PROCEDURES.md"


def lines_of(title):
    """The lines that the page shows under a title."""
    found = re.search(rf"(?ms)^## {re.escape(title)}\n.*?^```\n(.*?)^```$", PAGE.read_text())
    expect(found, PAGE, "has no lines under", title)
    # (a line that ends in `&&` is followed by the next one where it succeeds, as each is here)
    return [it.removesuffix(" &&") for it in found[1].replace("\\\n", " ").rstrip("\n").split("\n")]


def scripts_in(folder, here, customers="#!/bin/sh\n"):
    """A folder with `desk-backup` and `hq-restore` as they are for the places of a test, beside others that do nothing, or run what they
    are given as the user of the desks."""
    folder.mkdir()
    for name in ("desk-backup", "hq-restore", "desk_apart.py", "desk_erasures.py", "desk_files.py", "desk_programs.py", "desk_restores.py"):
        text = (DEPLOY / name).read_text()
        for it, value in here.items():
            expect(name != "desk-backup" or it in text, "desk-backup has no", it)
            text = text.replace(it, str(value))
        text = text.replace("systemctl stop", "true").replace("systemctl show", "true").replace("/run/hq-desk", str(folder / "run"))
        (folder / name).write_text(text.replace("/var/lib/hq-desk-stopped", str(folder / "stopped")))
    as_desk = here["hq-as hqdesk "]
    with_input = as_desk.replace("hq-as ", "hq-as --input ")
    for name, script in (("desk-stop", ""), ("desk-start", ""), ("desk-restart", f'[ "$2" = --stopped ] || exit 0\nshift 3\nexec {with_input}"$@"\n'),
                         ("hq-as", f'if [ "$1" = --input ]; then shift 2; exec {with_input}"$@"; fi\nshift\nexec {as_desk}"$@"\n'),
                         ("hq-customers", customers)):
        (folder / name).write_text(f"#!/bin/sh\n{script}")
    for it in folder.iterdir():
        it.chmod(0o755)
    return folder


class Place:
    """Where procedures are run: the desks by their names, and the nginx before them."""

    def __init__(self, folder, program, desks, proxy):
        self.proxy, self.desks = proxy, {it.name: it for it in desks}
        # (the program is called `hq`, as the package has it, and an upgrade writes over it)
        there = {"/etc/hq": folder, "/var/lib/hqdesk": folder, "/usr/libexec/hq-desk": DEPLOY, "/usr/bin/hq": program,
                 "apt-get install -y \"${NEW:?}\"": f"install -m 755 \"$NEW\" {program}", "hq-as hqdesk ": "",
                 "hq-as --input hqdesk ": "", " -g hqdesk": "",
                 "hq-customers ": f"{DEPLOY}/hq-customers --folder {folder} --store {folder} "}
        # (what another user is to do is done by this one, and no unit runs)
        for name, script in (("runuser", 'shift 3\nexec "$@"'), ("systemctl", "exit 3")):
            (Path(program).parent / name).write_text(f"#!/bin/sh\n{script}\n")
            (Path(program).parent / name).chmod(0o755)
        self.path = f"{Path(program).parent}:/usr/bin:/bin:/usr/sbin"
        shown = {f"127.0.0.1:{825 + it}": desk.address for it, desk in enumerate(desks)}
        self.here = {**there, **shown}
        self.scripts = scripts_in(folder / "scripts", {"/etc/hq": folder, "/var/lib/hqdesk": folder, "hq-as hqdesk ": ""},
                                  f'exec {there["hq-customers "]}"$@"\n')

    def run(self, title, after_stop=lambda: None, **names):
        """Runs a procedure; when the desks were stopped, and how long they were away."""
        stopped, paused = 0.0, 0.0
        for line in lines_of(title):
            if OF_WORKER.match(line):
                continue
            if STOPS.match(line) or MOVES.match(line):
                stopped = time.monotonic()
                self.step(line, names) if STOPS.match(line) else self.of_desks("stop", self.desks.values())
                begun = time.monotonic()
                after_stop()
                paused = time.monotonic() - begun
                if MOVES.match(line):
                    self.moves(line, names)
            else:
                stopped = stopped or time.monotonic()
                self.step(line, names)
        return stopped, time.monotonic() - stopped - paused

    def step(self, line, names):
        if RESTORES.match(line):
            self.with_stopped([it for it in line.split() if it in self.desks], lambda: self.of_shell(f"{self.scripts}/{line}", names))
        elif line == "nginx -t":
            self.of_shell(f"nginx -t -p {self.proxy.folder} -c {self.proxy.folder}/nginx.conf", names)
        elif line.startswith(f"{SCRIPTS}/desk-backup "):
            desks = [it for it in line.split() if it in self.desks]
            self.with_stopped(desks, lambda: self.of_shell(line.replace(SCRIPTS, str(self.scripts)), names))
        elif STOPS.match(line) or line.startswith(f"{SCRIPTS}/desk-start "):
            way, *desks = line.split()
            self.of_desks(way.rpartition("-")[2], [self.desks[it] for it in desks])
        elif line.startswith("systemctl "):
            _, verb, *units = line.split()
            if "nginx" in units:
                self.of_nginx(verb, units)
            else:
                self.of_desks(verb, [self.desks[it.partition("@")[2]] for it in units])
        else:
            self.of_shell(line, names)

    def moves(self, line, names):
        """What the command does between its stop of the desks and their start (`test_moved.py` has it do that too)."""
        self.of_shell(line.replace("hq-customers ", "hq-customers --files "), names)
        self.proxy.reload()
        self.of_desks("start", self.desks.values())

    def with_stopped(self, desks, work):
        running = [self.desks[it] for it in desks if self.desks[it].runs]
        self.of_desks("stop", running)
        work()
        self.of_desks("start", running)

    def of_nginx(self, verb, units):
        expect(sorted(units) == ["hq-desk-workers", "nginx"], "one nginx of two is left out:", units)
        expect(verb in ("reload", "restart"), "no such step:", verb)
        (self.proxy.reload if verb == "reload" else self.proxy.restart)()

    def of_desks(self, verb, desks):
        expect(verb in ("stop", "start", "restart"), "no such step:", verb)
        for it in desks if verb != "start" else []:
            it.stop()
        for it in desks if verb != "stop" else []:
            it.start()

    def of_shell(self, line, names):
        for it, value in self.here.items():
            line = line.replace(it, str(value))
        found = subprocess.run(["sh", "-euc", line], stdin=subprocess.DEVNULL, capture_output=True,
                               text=True, timeout=LONGEST, env={"PATH": self.path, **names})
        if found.returncode:
            raise Wrong(line, "ended with", found.returncode, found.stderr)
